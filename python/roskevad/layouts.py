# SPDX-License-Identifier: MIT OR Apache-2.0
"""How the text of a map is laid out: as that of its source, or in a layout of a name. A text that would be longer so than a file may
be, or for which there is no memory, stays as it is: compact. So no save is refused for its layout."""
from typing import Any, Optional

from .made_texts import made

# The numbers that the library has for layouts.
_NUMBERS = {'tiled': 0, 'rows': 1, 'compact': 3}
#: The names of layouts: that of Tiled, that with rows of cells on lines of their own, and that without lines and spaces.
LAYOUTS = tuple(_NUMBERS)


def laid_out(text: bytes, layout: str) -> bytes:
    """A text in a layout."""
    return _made('lay_out', 2 * len(text), text, len(text), _NUMBERS[layout]) or text


def laid_out_like(text: bytes, source: bytes) -> bytes:
    """A text, laid out as a source; as Tiled does it, where that is no map. What was set aside in the text is put back."""
    return put_back_like(text, source) or text


def put_back_like(text: bytes, source: bytes) -> Optional[bytes]:
    """The same; `None` where it can't be laid out."""
    return _made('put_back_like', len(text) + len(source), text, len(text), source, len(source))


def _made(name: str, expected: int, *given: Any) -> Optional[bytes]:
    try:
        came = made(name, expected, *given)
    except MemoryError:
        return None
    return came if isinstance(came, bytes) else None
