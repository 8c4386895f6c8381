# SPDX-License-Identifier: MIT OR Apache-2.0
"""The word at which a line is refused, as the library tells it."""
import ctypes
from typing import NamedTuple, Optional

from .library import ALL_EDITS, LIBRARY, FaultyWord
from .rooms import Room

# What is told has fewer bytes.
_ROOM = 256


class WordAtFault(NamedTuple):
    """The word of a line at which it is no line. A text, which is the rest of a line, counts as one word."""

    #: Which word it is, from 1.
    place: int
    #: The word, or `None` where the line ends in front of it.
    word: Optional[str]
    #: What is wrong with it, as `word 1 is not a command`.
    text: str

    def __str__(self) -> str:
        return self.text


def word_fault_of(line: str) -> Optional[WordAtFault]:
    """The word at which a line is refused; `None` where it is read, or refused as a whole."""
    data, word, room = line.encode('utf-8', 'surrogateescape'), FaultyWord(), Room(_ROOM)
    size: int = LIBRARY.roskevad_word_fault_for(ALL_EDITS, data, len(data), ctypes.byref(word), room.at, room.size)
    if size > room.size:
        return None
    found = None if word.is_missing else data[word.at:word.at + word.length].decode()
    return WordAtFault(word.place, found, room.bytes[:size].decode())
