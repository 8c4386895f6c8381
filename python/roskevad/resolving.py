# SPDX-License-Identifier: MIT OR Apache-2.0
"""A map that is in conflict in git: what is left of its conflicts is found from the versions that git keeps and from the file as it is, so that
what somebody has settled by hand stays."""
from pathlib import Path
from typing import Optional

from .choices import Choices, Side
from .conflict_marks import mark, marked_keys, marks_of
from .difference import Change
from .difference_command import opened
from .document import Document
from .editor import Editor
from .faults import Refused
from .folder_files import replace, save_as_opened
from .git_stages import NotInConflict, stages_of
from .merging import Conflict, Merge, Offsets, do_merge, merge, merged
from .settling import cells_are_settled, is_of


_UNMERGED = 'the file had nothing of what theirs has changed, as where git could not run this program; that is merged now'


class Resolving:
    """The versions of a map, and the file. A first merge, without a choice, is what git's driver has written there."""

    def __init__(self, editor: Editor, path: Path):
        """Raises NotInConflict, Refused, OSError."""
        self._editor, self._path = editor, path
        stages = stages_of(path)
        if stages.ours is None or stages.theirs is None:
            raise NotInConflict(f'one side has removed {path}: git add keeps it, git rm removes it')
        self._data, self._other = stages.ours, stages.theirs
        self.base = None if stages.base is None else self._opened(stages.base, 'base')
        self._ours, self._theirs = self._opened(stages.ours, 'ours'), self._opened(stages.theirs, 'theirs')
        self._now, self._marked = self._file()
        self._first: Optional[Document] = None
        self._by_hand: list[Change] = []
        self._is_unmerged = False
        self._kept: dict[str, Side] = {}

    def _opened(self, data: bytes, name: str) -> Document:
        try:
            return self._editor.open(data, name)
        except Refused as refusal:
            raise refusal._of(f'{name} of {self._path}') from None

    def _file(self) -> tuple[Optional[Document], Optional[set[str]]]:
        """The map of the file without its marks, None where it is none; and the keys of the marks."""
        try:
            now = opened(self._editor, self._path, 'now')
        except Refused:
            return None, None
        layer = marks_of(now)
        if layer is None:
            return now, None
        keys = marked_keys(layer)
        layer.remove()
        return now, keys

    def are_alike(self) -> bool:
        """Whether both sides have the same map."""
        return not self._ours.difference(self._theirs)

    def write(self, side: Optional[Side]) -> None:
        """Writes the map of one side, as it was, if one is taken."""
        if side is not None:
            replace(self._path.absolute(), self._other if side == 'theirs' else self._data)

    def attempt(self, take: dict[str, Side], offset: Offsets, project: Optional[Path]) -> Merge:
        """What a merge with these sides would do, with those conflicts that are left: but for what was settled by hand, which stays unless a
        side is taken of it alone."""
        assert self.base is not None
        if self._first is None:
            first = merged(self.base, self._ours, self._theirs, Choices(), {}, project)
            self._first = self._done(first, 'first')
            self._see_file(self._first)
            self._kept = {each.key: 'ours' for each in first.conflicts if not self._is_left(each)}
        found = merged(self.base, self._ours, self._theirs, Choices({**self._kept, **take}), offset, project)
        return found._replace(conflicts=tuple(each for each in found.conflicts if each.key not in self._kept),
                              settled=tuple(each for each in found.settled if each[0].key in take or each[0].key not in self._kept),
                              notices=(*([_UNMERGED] if self._is_unmerged else ()), *found.notices))

    def _see_file(self, first: Document) -> None:
        """Finds what was done by hand in the file. Where git's driver has not merged, as one that was killed, that is done in it now."""
        if self._now is None:
            return
        self._by_hand = [*first.difference(self._now)]
        of_theirs, missing = ({(each.subject, each.what) for each in map.difference(first)} for map in (self._ours, self._now))
        if self._marked is None and of_theirs and of_theirs <= missing:
            self._is_unmerged = True
            merge(self._ours, self._now, first, take='ours')
            self._by_hand = [*first.difference(self._now)]

    def _is_left(self, conflict: Conflict) -> bool:
        """Whether nobody has settled a conflict of the first merge by hand: its mark is there, or, where the map has no marks, all that it is
        about is as that merge has it."""
        if self._marked is not None:
            return conflict.key in self._marked
        if conflict.what == 'cells' and conflict.ours['cells']:
            return self._now is None or not cells_are_settled(conflict, self._now)
        return not any(is_of(change, conflict) for change in self._by_hand)

    def _done(self, found: Merge, name: str) -> Document:
        """A map in which a merge is done."""
        document = self._opened(self._data, name)
        do_merge(document, found)
        return document

    def settle(self, found: Merge, is_marked: bool) -> None:
        """Writes what comes of a merge, and of what was done by hand, to the file, if that has not got it. What is left has marks, if it is to
        have them, or had them."""
        assert self._first is not None
        result = self._done(found, 'second')
        left = found.conflicts if is_marked or self._marked is not None else ()
        is_new = self._now is None or self._is_unmerged or {each.key for each in left} != (self._marked or set())
        corner = self._ours.origin
        if self._now is not None and self._by_hand:
            corner = self._now.origin
            is_new |= bool(merge(self._first, self._now, result, take='theirs').lines)
            result = self._now
        elif self._now is not None:
            is_new |= bool(self._now.difference(result))
        if is_new and left:
            mark(result, left, corner)
        if is_new:
            save_as_opened(result, self._path.absolute())
