# SPDX-License-Identifier: MIT OR Apache-2.0
"""Callbacks that are told what lines did to a document."""
from collections import deque
from types import TracebackType
from typing import TYPE_CHECKING, Callable, Optional

from . import logs
from .told import Told, told_of

if TYPE_CHECKING:
    from . import library
    from .document import Document



class Watch:
    """A callback that is told of changes, until `end`, or the end of a `with`."""

    def __init__(self, watched: 'Watched', callback: Callable[[Told], object]):
        """Documents make it: `watch` gives it."""
        self._watched = watched
        self._callback = callback

    def end(self) -> None:
        """Ends it. Twice is harmless."""
        self._watched.drop(self)

    def __enter__(self) -> 'Watch':
        return self

    def __exit__(self, kind: Optional[type[BaseException]], fault: Optional[BaseException], trace: Optional[TracebackType]) -> None:
        self.end()

    def _tell(self, told: Told) -> None:
        try:
            self._callback(told)
        except Exception:
            logs.exception('a callback of watch has failed')


class Watched:
    """The watches of a document, and how it stood when it was looked at last."""

    def __init__(self, document: 'Document', standing: tuple[int, int, int, int]):
        self._document = document
        self._standing = standing
        self._watches: list[Watch] = []

    def add(self, callback: Callable[[Told], object]) -> Watch:
        watch = Watch(self, callback)
        self._watches.append(watch)
        return watch

    def drop(self, watch: Watch) -> None:
        if watch in self._watches:
            self._watches.remove(watch)
        if not self._watches:
            self._document._watched_no_more(self)

    def is_changed(self, told: 'library.Told') -> bool:
        """Whether a line has changed the map, its selection or how the document stands, which is noted."""
        standing = told.index, told.count, told.depth, told.is_clean
        is_other, self._standing = standing != self._standing, standing
        return is_other or told.differs != 0

    def tell(self, told: Told) -> None:
        """Calls each callback that is there by then, unless the document was closed meanwhile."""
        for watch in list(self._watches):
            if watch in self._watches and not self._document.is_closed:
                watch._tell(told)


class Events:
    """What lines did to watched documents."""

    def __init__(self) -> None:
        #: The watched documents.
        self.watched: dict['Document', Watched] = {}
        #: Whether a callback is being called: it may read, and not edit.
        self.is_telling = False
        #: What is still to be told.
        self.pending: deque[tuple[Watched, Told]] = deque()

    def note(self, document: Optional['Document'], told: 'library.Told') -> None:
        """Notes what a line did to the document that is active."""
        watched = self.watched.get(document) if document is not None else None
        if watched is not None and watched.is_changed(told):
            self.pending.append((watched, told_of(told)))

    def tell(self) -> None:
        """Tells what was noted, where that is not going on already."""
        if self.is_telling:
            return
        self.is_telling = True
        try:
            while self.pending:
                watched, told = self.pending.popleft()
                watched.tell(told)
        finally:
            self.is_telling = False

    def clear(self) -> None:
        """Forgets all."""
        self.watched.clear()
        self.pending.clear()
