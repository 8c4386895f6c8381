# SPDX-License-Identifier: MIT OR Apache-2.0
"""The selection of a document."""
from bisect import bisect_right
from typing import Iterator, NamedTuple


class Run(NamedTuple):
    """Cells beside each other in a row."""

    row: int
    column: int
    length: int


class Selection:
    """The cells that were selected when it was asked for: `(x, y) in selection`, their number by `len`, and each cell (x, y) in
    row order. `runs` has them as runs of cells of a row."""

    __slots__ = '_runs',

    def __init__(self, runs: 'tuple[Run, ...]'):
        self._runs = runs

    @property
    def runs(self) -> 'tuple[Run, ...]':
        """The cells as runs of a row."""
        return self._runs

    def __contains__(self, cell: object) -> bool:
        """Whether the cell (x, y) is selected. Raises TypeError where it is no pair."""
        if not isinstance(cell, tuple) or len(cell) != 2:
            raise TypeError(f'a cell is a pair (x, y): {cell!r}')
        x, y = cell
        place = bisect_right(self.runs, (y, x, 2**32)) - 1
        if place < 0:
            return False
        run = self.runs[place]
        return bool(run.row == y and run.column <= x < run.column + run.length)

    def __len__(self) -> int:
        return sum(run.length for run in self.runs)

    def __iter__(self) -> Iterator[tuple[int, int]]:
        return ((x, run.row) for run in self.runs for x in range(run.column, run.column + run.length))

    def __eq__(self, other: object) -> bool:
        return isinstance(other, Selection) and self.runs == other.runs

    def __hash__(self) -> int:
        return hash(self.runs)

    def __repr__(self) -> str:
        return f'<Selection of {len(self)} cells in {len(self.runs)} runs>'
