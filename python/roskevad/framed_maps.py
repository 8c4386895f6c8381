# SPDX-License-Identifier: MIT OR Apache-2.0
"""Three maps that are merged, brought to one size: that which one side has given them."""
from array import array
from typing import TYPE_CHECKING, Any, Collection, Iterator, Mapping, NamedTuple, Optional

from .choices import Choices, Side
from .compared_maps import MapNow, Shift, is_infinite, said, shift_of
from .difference import MAP, Tiles
from .merged_maps import Conflict, Found, regions, removed_by_ours
from .same_tilesets import paired_tilesets
from .told import Subject

if TYPE_CHECKING:
    from .document import Document

_CUT = 'lies outside the map of ours'
_THEIRS = 2


class Frame(NamedTuple):
    """Where a map lies: its corner, in cells of the base, and its size."""

    x: int
    y: int
    width: int
    height: int

    def line(self, goal: 'Frame', is_infinite: bool) -> Optional[str]:
        """The line that brings a map from here to there; None where it is there. All in an infinite map stays where it is on its plane."""
        if goal == self:
            return None
        sides = self.x - goal.x, self.y - goal.y, goal.right - self.right, goal.bottom - self.bottom
        if is_infinite and min(sides) >= 0:
            return f'extend {" ".join(map(str, sides))}'
        return f'resize {goal.width} {goal.height} {sides[0]} {sides[1]}'

    @property
    def right(self) -> int:
        return self.x + self.width

    @property
    def bottom(self) -> int:
        return self.y + self.height

    def around(self, other: 'Frame') -> 'Frame':
        """The smallest that has both."""
        x, y = min(self.x, other.x), min(self.y, other.y)
        return Frame(x, y, max(self.right, other.right) - x, max(self.bottom, other.bottom) - y)

    def has(self, x: int, y: int) -> bool:
        """Whether it has a cell, by its place in the base."""
        return self.x <= x < self.right and self.y <= y < self.bottom


class Framed(NamedTuple):
    """What comes of it: the lines that give ours its size, the three maps as they are then, how all was moved on either side, conflicts, and
    where the maps lay, and lie."""

    lines: list[str]
    maps: tuple[MapNow, MapNow, MapNow]
    notices: list[str]
    found: Found
    frames: list[Frame]
    goal: Frame
    is_infinite: bool

    def uncut(self, side: int, base: MapNow, map: MapNow) -> MapNow:
        """A side by its number, with what lies outside its map, and not outside that of all, as the base has it, whose tiles are counted alike.
        Outside of an infinite map nothing lies."""
        return map if self.is_infinite else UncutMap(base, map, self.frames[side], self.goal, side == _THEIRS)


Shifts = Mapping[Side, Shift]


def frame(documents: 'tuple[Document, Document, Document]', choices: Choices, shifts: Shifts) -> Framed:
    """Gives copies of three maps one size. Where both sides have changed it otherwise, or theirs cuts off what ours has changed, it is that of
    ours, or the one that is chosen; an infinite map gets room for both. `shifts` says by how much all was moved on a side, where that is not
    to be guessed. Raises Refused where a map can't have its size."""
    maps = base, ours, theirs = MapNow(documents[0]), MapNow(documents[1]), MapNow(documents[2])
    frames = [Frame(0, 0, *_size(base)), _frame(base, ours, shifts.get('ours')), _frame(base, theirs, shifts.get('theirs'))]
    found = Found(choices)
    infinite = tuple(map(is_infinite, documents))
    goal = _room(maps, frames, choices) if all(infinite) else _goal(maps, frames, found)
    # Where infinite maps lie is known.
    notices = [] if all(infinite) else [*_moves(frames, shifts)]
    if infinite[2] not in infinite[:2]:
        words = f'infinite is {str(infinite[2]).lower()} in theirs, which no edit here can do'
        found.side_of(_of_map('infinite', infinite, words), can_be_theirs=False)
    goal = _cut_off(maps, frames, goal, found)
    lines = [[*_resized(document, each.line(goal, all(infinite)))] for document, each in zip(documents, frames)]
    base, ours, theirs = (MapNow(each) for each in documents)
    return Framed(lines[1], (base, ours, theirs), notices, found, frames, goal, all(infinite))


def _moves(frames: list[Frame], shifts: Shifts) -> Iterator[str]:
    """By how much all was moved on the sides, in words."""
    sides: tuple[Side, Side] = 'ours', 'theirs'
    for side, each in zip(sides, frames[1:]):
        by = f'all in the map was moved by {-each.x}, {-each.y} with it' if each.x or each.y else 'nothing in the map was moved with it'
        if side in shifts:
            yield f'all in the map of {side} was moved by {-each.x}, {-each.y}, as was said'
        elif each != frames[0]:
            yield f'{side} has another size, and {by}, as far as the maps tell'


def _resized(document: 'Document', line: Optional[str]) -> Iterator[str]:
    """Says a line that gives a map its size, and gives coordinates their fractions again, which it takes from what it moves."""
    if line is None:
        return
    before = MapNow(document).objects
    document._edit(line)
    yield line
    for id, stand in MapNow(document).objects.items():
        old = before[id].members
        parts = {name: float(old[name]) % 1 for name in ('x', 'y') if name in old}
        lost = {name: stand.members[name] + part for name, part in parts.items() if part and not float(stand.members[name]) % 1}
        if lost:
            again = f'member put object:{id} {said(lost)}'
            document._edit(again)
            yield again


def _size(map: MapNow) -> tuple[int, int]:
    return map.tree['width'], map.tree['height']


def _frame(base: MapNow, side: MapNow, said_shift: Optional[Shift]) -> Frame:
    is_resized = _size(base) != _size(side) or base.document.origin != side.document.origin
    shift = said_shift if said_shift is not None else shift_of(base, side) if is_resized else Shift(0, 0)
    return Frame(-shift[0], -shift[1], *_size(side))


def _room(maps: tuple[MapNow, MapNow, MapNow], frames: list[Frame], choices: Choices) -> Frame:
    """The frame of ours, with room for what theirs has changed outside it, and for layers that ours has removed and that come back; in a
    staggered map by an even number of columns and rows at the left and above, so that none stands otherwise."""
    goal, back = frames[1], {id for id in maps[2].layers if _comes_back(id, maps, choices)}
    for _, cells in _outside(maps[0], maps[2], [frames[0], frames[2]], frames[1], back):
        columns, rows = zip(*cells)
        goal = goal.around(Frame(min(columns), min(rows), max(columns) - min(columns) + 1, max(rows) - min(rows) + 1))
    if maps[1].tree.get('staggeraxis') is None:
        return goal
    return goal.around(Frame(goal.x - (frames[1].x - goal.x) % 2, goal.y - (frames[1].y - goal.y) % 2, 1, 1))


def _comes_back(layer: int, maps: tuple[MapNow, MapNow, MapNow], choices: Choices) -> bool:
    """Whether theirs is taken of a layer that ours has removed, or of a group around it."""
    base, ours, theirs = maps
    if layer not in base.layers or layer in ours.layers:
        return False
    is_changed = theirs.layers[layer] != base.layers[layer] or theirs.layers[layer].members['type'] == 'tilelayer'
    holder = theirs.layers[layer].parent
    return is_changed and choices.side(f'layer:{layer}/removed') == 'theirs' or bool(holder) and _comes_back(holder, maps, choices)


class UncutMap(MapNow):
    """A map of another size, with what lies outside it as the base has it; tiles that the merged map has no room for are below 0, or left out."""

    __slots__ = '_base', '_inner', '_frame', '_goal', '_has_others'

    def __init__(self, base: MapNow, inner: MapNow, frame: Frame, goal: Frame, has_others: bool):
        self._base, self._inner, self._frame, self._goal, self._has_others = base, inner, frame, goal, has_others
        self.document, self.tree, self.layers, self.objects = inner.document, inner.tree, inner.layers, inner.objects

    def cells(self, layer: int) -> memoryview:
        found, goal = self._inner.cells(layer), self._goal
        is_whole = all(self._frame.has(*corner) for corner in _corners(goal))
        if is_whole or not self._base.has(layer, self.layers[layer]):
            return found
        base = self._base.cells(layer)
        kind = 'I' if base.format == found.format == 'I' else 'q'
        uncut = array(kind, base)
        left, right = (min(max(x - goal.x, 0), goal.width) for x in (self._frame.x, self._frame.right))
        for y in range(goal.height):
            if self._frame.has(self._frame.x, y + goal.y):
                row = slice(y * goal.width + left, y * goal.width + right)
                uncut[row] = array(kind, found[row])
        return memoryview(uncut if self._has_others or kind == 'I' else array('I', [max(value, 0) for value in uncut]))


def _goal(maps: tuple[MapNow, MapNow, MapNow], frames: list[Frame], found: Found) -> Frame:
    base, ours, theirs = frames
    if theirs in (base, ours):
        return ours
    told = tuple({'width': each.width, 'height': each.height, 'x': -each.x, 'y': -each.y} for each in frames)
    words = None
    if base != ours:
        words = f'{_told(base)} -> {_told(ours)} (ours), {_told(theirs)} (theirs)'
    elif any(_outside(maps[0], maps[1], frames[:2], theirs)):
        words = f'{_told(base)} -> {_told(theirs)} (theirs), which cuts off what ours has changed; it stays'
    return theirs if words is None or found.side_of(_of_map('size', told, words)) == 'theirs' else ours


def _told(frame: Frame) -> str:
    moved = f', all moved by {-frame.x}, {-frame.y}' if frame.x or frame.y else ''
    return f'{frame.width} by {frame.height} cells{moved}'


def _outside(
    base: MapNow, side: MapNow, frames: list[Frame], goal: Frame, whole: Collection[int] = (),
) -> Iterator[tuple[int, list[tuple[int, int]]]]:
    """What a side has changed of each tile layer outside a frame, by places in the base; of some layers all that they have."""
    places = [*_places_outside(frames[1], goal)]
    pairs = [*paired_tilesets(base.tree['tilesets'], side.tree['tilesets'])] if places else []
    was, now = Tiles(pairs, 0), Tiles(pairs, 1)
    for id, stand in side.layers.items() if places else ():
        if stand.members['type'] == 'tilelayer':
            old = base.cells(id) if base.has(id, stand) and id not in whole else None
            new = side.cells(id)
            changed = [at for at in places if was.name(_value(old, frames[0], at)) != now.name(_value(new, frames[1], at))]
            if changed:
                yield id, changed


def _places_outside(frame: Frame, goal: Frame) -> Iterator[tuple[int, int]]:
    """The cells of one frame that are in no other one, by rows."""
    columns = range(frame.x, frame.right)
    beside = [x for x in columns if not goal.x <= x < goal.right]
    for y in range(frame.y, frame.bottom):
        yield from ((x, y) for x in (beside if goal.y <= y < goal.bottom else columns))


def _value(cells: Optional[memoryview], frame: Frame, at: tuple[int, int]) -> int:
    """The value of a cell of a layer, by its place in the base; 0 outside its map."""
    x, y = at
    return 0 if cells is None or not frame.has(x, y) else int(cells[(y - frame.y) * frame.width + x - frame.x])


def _corners(frame: Frame) -> list[tuple[int, int]]:
    return [(frame.x, frame.y), (frame.right - 1, frame.bottom - 1)]


def _cut_off(maps: tuple[MapNow, MapNow, MapNow], frames: list[Frame], goal: Frame, found: Found) -> Frame:
    """Tells what theirs has drawn where the merged map has no cells. Gives its frame, which has room for that where theirs is taken of it."""
    base, ours, theirs = maps
    room = goal
    for id, cells in _outside(base, theirs, [frames[0], frames[2]], goal):
        if id in base.layers and id not in ours.layers:
            gone = removed_by_ours(Subject('layer', id), base.layers[id].members, theirs.layers[id].members)
            if found.side_of(gone) == 'ours':
                continue
        for region in regions(cells):
            if found.side_of(_of_cut(id, region, theirs, goal)) == 'theirs':
                room = goal.around(frames[2])
    return room


def _of_cut(layer: int, region: list[tuple[int, int]], theirs: MapNow, goal: Frame) -> Conflict:
    """The conflict of cells that touch, and lie outside."""
    places = [(x - goal.x, y - goal.y) for x, y in region]
    (left, right), (top, bottom) = ((min(line), max(line)) for line in zip(*places))
    count = f'{len(region)} cells' if len(region) > 1 else '1 cell'
    words = f'{count} in {left},{top} to {right},{bottom}: what theirs has there {_CUT}'
    area = {'x': left, 'y': top, 'width': right - left + 1, 'height': bottom - top + 1, 'count': len(region), 'cells': []}
    return Conflict(Subject('layer', layer), theirs.layers[layer].members.get('name', ''), 'cells', area, area, area, words)


def _of_map(what: str, values: tuple[Any, ...], words: str) -> Conflict:
    base, ours, theirs = values
    return Conflict(MAP, '', what, base, ours, theirs, words)
