# SPDX-License-Identifier: MIT OR Apache-2.0
"""The texts that the library makes of others, without an editor."""
from typing import Any, Union

from . import library
from .library import LIBRARY
from .limits import MAX_FILE_BYTES
from .rooms import Room

# The bytes for which there is room besides those that are expected.
_SPARE = 65_536


def made(name: str, expected: int, *given: Any) -> Union[bytes, int]:
    """The text that a call of the library makes, which has about so many bytes; else what it answers: why it makes none, or how many bytes
    it has, where that is more than a file may have. It is made once more, where it has no room. Raises MemoryError."""
    function = getattr(LIBRARY, f'roskevad_{name}')
    room = Room(min(expected + _SPARE, MAX_FILE_BYTES))
    answer: int = function(*given, room.at, room.size)
    if room.size < answer <= MAX_FILE_BYTES:
        room = Room(answer)
        answer = function(*given, room.at, room.size)
    if answer == library.NO_MEMORY:
        raise MemoryError
    if answer > MAX_FILE_BYTES:
        return answer
    text: bytes = room.bytes[:answer]
    return text
