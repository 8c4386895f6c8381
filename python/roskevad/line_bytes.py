# SPDX-License-Identifier: MIT OR Apache-2.0
"""Lines and files as bytes, as the library takes them; and what is read of a line that a caller has written himself, before it is done."""
from typing import TYPE_CHECKING, Union

if TYPE_CHECKING:
    from _typeshed import ReadableBuffer

# The words of lines that are edits, or begin or end a macro; and of those that are refused while one is open.
_EDITS = frozenset(b'stamp erase fill select layer resize extend object prop tileset member begin end'.split())
_NOT_IN_MACROS = frozenset(b'undo redo goto clean save'.split())


def bytes_of(text: Union[str, bytes]) -> bytes:
    return text.encode('utf-8', 'surrogateescape') if isinstance(text, str) else bytes(text)


def data_of(data: 'ReadableBuffer', call: str) -> bytes:
    """The bytes of a bytes-like object. Raises TypeError where it is none, as a number or a text."""
    if isinstance(data, bytes):
        return data
    try:
        return memoryview(data).tobytes()
    except TypeError:
        raise TypeError(f'{call} takes bytes, or an object like bytes: {type(data).__name__}') from None


def begins_macros(line: bytes) -> bool:
    """Whether macros that wait for their first edit begin before a line: it is one, or is refused within a macro."""
    return line.partition(b' ')[0].rstrip(b'+') in _EDITS | _NOT_IN_MACROS


def block_ends(lines: list[bytes]) -> list[int]:
    """Where many lines are cut: a line that may close a document is done by itself, so that the list of documents behind it tells. Another
    document of its name may be open behind all of them."""
    whole = b'\n'.join(lines)
    if b'close ' not in whole and b'discard ' not in whole:
        return [len(lines)]
    closings = (at for at, line in enumerate(lines) if b'close ' in line or b'discard ' in line)
    return sorted({len(lines), *(end for at in closings for end in (at, at + 1))})


def word_of(line: str) -> bytes:
    """The bytes of a line among many. Raises TypeError where it is no text."""
    try:
        return line.encode('utf-8', 'surrogateescape')
    except AttributeError:
        raise TypeError(f'run_lines takes a str for each line: {type(line).__name__}') from None
