# SPDX-License-Identifier: MIT OR Apache-2.0
"""The rows of a stamp, and the lines that say them."""
import operator
from typing import Any, Iterable, Iterator, NamedTuple

from .kinds import Rows
from .limits import MAX_COORDINATE, MAX_LINE, MAX_NUMBER, MAX_SIDE

#: The bits of a value that are no flags.
BASE = 0x0FFF_FFFF
#: The flags of a value, as Tiled has them: flipped horizontally, vertically, diagonally, and turned on a hexagonal map.
HORIZONTALLY, VERTICALLY, DIAGONALLY, TURNED = 0x8000_0000, 0x4000_0000, 0x2000_0000, 0x1000_0000
# The most bytes of a stamp's line before its values.
_LONGEST_HEAD = len(f'stamp+ {MAX_NUMBER} -{MAX_COORDINATE} -{MAX_COORDINATE} {MAX_SIDE} ')


class Part(NamedTuple):
    """Rows of a stamp that one line says."""

    first: int
    height: int
    values: str


def rows_of(rows: Rows) -> list[list[int]]:
    """Rows of values, of any nested sequences of whole numbers, or of an array with two dimensions. Raises ValueError where they
    are empty, ragged, too wide or beyond 32 bits, and TypeError where a value is no whole number."""
    listed = [_row_of(row, place) for place, row in enumerate(_listed(rows, 'rows'))]
    if not listed or not listed[0]:
        raise ValueError('a stamp has no rows, or none with a value')
    width = len(listed[0])
    for place, row in enumerate(listed):
        if len(row) != width:
            raise ValueError(f'the rows of a stamp are ragged: row 0 has {width} values, and row {place} has {len(row)}')
    if width > MAX_SIDE:
        raise ValueError(f'a row of a stamp has at most {MAX_SIDE} values: {width}')
    return listed


def _listed(values: Any, what: str) -> Iterable[Any]:
    # An array of NumPy, or a memoryview, gives lists of plain numbers.
    if hasattr(values, 'tolist'):
        values = values.tolist()
    if isinstance(values, (str, bytes)) or not hasattr(values, '__iter__'):
        raise TypeError(f'the {what} of a stamp are sequences of whole numbers: {values!r}'[:200])
    return values if isinstance(values, list) else list(values)


def _row_of(row: Any, place: int) -> list[int]:
    try:
        values = [operator.index(value) for value in _listed(row, f'values of row {place}')]
    except TypeError:
        raise TypeError(f'row {place} of a stamp is a sequence of whole numbers: {row!r}'[:200]) from None
    if values and not 0 <= min(values) <= max(values) <= MAX_NUMBER:
        wrong = next(value for value in values if not 0 <= value <= MAX_NUMBER)
        raise ValueError(f'a value of a stamp has 32 bits: {wrong} in row {place}')
    return values


def parts_of(rows: list[list[int]]) -> Iterator[Part]:
    """The rows, cut so that each part fits into a line."""
    room = MAX_LINE - _LONGEST_HEAD
    first, size, said = 0, 0, list[str]()
    for place, row in enumerate(rows):
        values = ','.join(map(str, row))
        if said and size + len(values) > room:
            yield Part(first, len(said), ','.join(said))
            first, size, said = place, 0, []
        said.append(values)
        size += len(values) + 1
    yield Part(first, len(said), ','.join(said))


def doubtful(rows: list[list[int]]) -> int:
    """The value that is the first to have no tileset, where any has none; 0 where all are empty."""
    values = (value for row in rows for value in row if value)
    return min(values, key=lambda value: value & BASE, default=0)


# ---- tiles of a block


def tile_value(value: int) -> int:
    """A value without flips. Raises TypeError, ValueError."""
    found = operator.index(value)
    if not 0 <= found <= BASE:
        raise ValueError(f'a value without flips is from 0 to {BASE}: {found}')
    return found


def replaced(value: int, old: int, new: int) -> int:
    """A value whose tile, where it is the old one, is the new one. An empty cell has no flips."""
    if value & BASE != old:
        return value
    return (value & ~BASE) | new if new else 0


def _flipped(value: int, flag: int) -> int:
    return value ^ flag if value else 0


def flipped_horizontally(rows: Rows) -> list[list[int]]:
    """Rows of values flipped to the side, the tiles in them too. Raises TypeError, ValueError."""
    return [[_flipped(value, HORIZONTALLY) for value in reversed(row)] for row in rows_of(rows)]


def flipped_vertically(rows: Rows) -> list[list[int]]:
    """Rows of values flipped upside down, the tiles in them too. Raises TypeError, ValueError."""
    return [[_flipped(value, VERTICALLY) for value in row] for row in reversed(rows_of(rows))]


def _turned(value: int) -> int:
    """A tile turned to the right by a quarter: flipped over the diagonal and then to the side, behind the flips that it has."""
    flips = (0 if value & VERTICALLY else HORIZONTALLY) | (VERTICALLY if value & HORIZONTALLY else 0) | (value ^ DIAGONALLY) & DIAGONALLY
    return (value & (BASE | TURNED)) | flips if value else 0


def turned_right(rows: Rows) -> list[list[int]]:
    """Rows of values turned to the right by a quarter, the tiles in them too, as on a map with square cells. Raises TypeError,
    ValueError."""
    return [[_turned(value) for value in column] for column in zip(*reversed(rows_of(rows)))]
