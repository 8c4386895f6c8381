# SPDX-License-Identifier: MIT OR Apache-2.0
"""What a line did, and what steps are about, as the library tells it."""
import struct
from typing import Literal, NamedTuple, Optional, Union

from . import library

#: What differs is a sum of these.
DOCUMENTS, _OUTLINE, _SELECTION, _CELLS, _ALL_CELLS = 1, 2, 4, 8, 16
#: What became of an edit, by its number.
NOTHING, ADDED, ADDED_AND_DROPPED, MERGED, GONE, TURNED = range(6)
Became = Literal['nothing', 'added', 'added and dropped', 'merged', 'gone', 'turned']
_BECAME: tuple[Became, ...] = ('nothing', 'added', 'added and dropped', 'merged', 'gone', 'turned')
_KINDS = '', 'map', 'layer', 'object', 'tileset'
#: How a row of steps lies in memory: whether it is a macro, what differs, the kind and the id of what it is about, and cells.
STEP_ROW = struct.Struct('=5I2i2I')


class Subject(NamedTuple):
    """What an edit is about."""

    #: map, layer, object or tileset.
    kind: str
    #: Its id; of a tileset its first id, of the map 0.
    id: int


class CellArea(NamedTuple):
    """A rectangle of cells of a layer."""

    layer: int
    x: int
    y: int
    width: int
    height: int


#: Which cells differ: none, those of a rectangle of one layer, or any; then the layers may be others, too.
Cells = Union[None, CellArea, Literal['all']]


class Told(NamedTuple):
    """What the last line did. What is not told to differ is as it was."""

    #: Whether other documents are open, or another one is active. All else is about the active document.
    documents: bool
    #: Whether the map differs in more than its cells.
    outline: bool
    #: Whether the selection differs.
    selection: bool
    #: Which cells differ.
    cells: Cells
    #: What became of an edit, or that steps were undone or redone: turned.
    became: Became
    #: What it is about; `None` for the selection, and for several things.
    subject: Optional[Subject]
    #: How many steps are gone from the beginning, 0 or 1.
    dropped: int
    #: The index before the line.
    before: int
    #: How the document stands now: its index, its steps, its open macros, and whether it counts as saved. A tuple has calls of these names.
    index: int  # type: ignore[assignment]
    count: int  # type: ignore[assignment]
    depth: int
    is_clean: bool
    #: The number of the refusal; `None` where the line is done.
    refusal: Optional[int]
    #: Which word is at fault, from 1; `None` where that is not known.
    word: Optional[int]


class StepRow(NamedTuple):
    """A step of a document, with what it is about, and what its undo and its redo change."""

    #: Its place, from 0.
    at: int
    text: str
    is_macro: bool
    subject: Optional[Subject]
    outline: bool
    selection: bool
    cells: Cells


def _subject_of(kind: int, id: int) -> Optional[Subject]:
    return Subject(_KINDS[kind], id) if kind else None


def _cells_of(differs: int, area: CellArea) -> Cells:
    return 'all' if differs & _ALL_CELLS else area if differs & _CELLS else None


def told_of(told: library.Told) -> Told:
    """What the library tells of a line."""
    differs, area = told.differs, CellArea(told.layer, told.x, told.y, told.width, told.height)
    return Told(
        bool(differs & DOCUMENTS), bool(differs & _OUTLINE), bool(differs & _SELECTION), _cells_of(differs, area), _BECAME[told.became],
        _subject_of(told.subject, told.id), told.dropped, told.before, told.index, told.count, told.depth, told.is_clean == 1,
        # A library that tells no word at fault has no such field.
        told.refusal or None, told.word or None,
    )


def step_of(at: int, text: str, row: tuple[int, ...]) -> StepRow:
    """A step, by its place, its text and its row."""
    is_macro, differs, subject, id, *area = row
    cells = _cells_of(differs, CellArea._make(area))
    return StepRow(at, text, is_macro == 1, _subject_of(subject, id), bool(differs & _OUTLINE), bool(differs & _SELECTION), cells)
