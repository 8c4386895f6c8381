# SPDX-License-Identifier: MIT OR Apache-2.0
"""What a call of an editor has begun, and what is ended whatever falls in between."""
from typing import TYPE_CHECKING, Protocol

if TYPE_CHECKING:
    from .editor import Editor


class Unsettled(Protocol):
    """What is ended so. To settle it twice is harmless."""

    def settle(self) -> None: ...


class TemporaryFile:
    """A name of the store that a call needs for itself, and which has no file before and behind it."""

    def __init__(self, editor: 'Editor', name: str):
        self._editor = editor
        self._name = name

    def settle(self) -> None:
        self._editor._removed(self._name)


class ActiveDocument:
    """A document that is active before a call and behind it, `-` where none is."""

    def __init__(self, editor: 'Editor', document: str):
        self._editor = editor
        self._document = document

    def settle(self) -> None:
        if self._editor._active_name() != self._document:
            line = f'use {self._document}'
            self._editor._reply_to(line, line)
            self._editor._active_handle = self._editor._handles.get(self._document)
