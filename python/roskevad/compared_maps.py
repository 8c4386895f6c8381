# SPDX-License-Identifier: MIT OR Apache-2.0
"""Maps that are compared: copies of what documents are now, in an editor of their own, and where their things stand."""
import contextlib
import json
from bisect import bisect_left
from typing import TYPE_CHECKING, Any, Iterator, NamedTuple, Optional

from .class_notes import keep_notes_of_classes
from .faults import Refused
from .rows import BASE
from .same_tilesets import first_id, paired_tilesets
from .tiled_maps import XML_NOTE, Members, drawn, set_aside

if TYPE_CHECKING:
    from .document import Document

# The members of a place, with those of the side of a tile there.
_SIDES = ('x', 'tilewidth'), ('y', 'tileheight')


class Held(NamedTuple):
    """A map as an editor holds it."""

    #: Its text, with what is set aside.
    text: bytes
    #: The file that a save of it is laid out as; empty where there is none.
    source: bytes


def held(document: 'Document') -> Held:
    text: bytes = document._do(lambda: document._editor._shown('difference()'))
    return Held(text, document._source)


@contextlib.contextmanager
def copied(*maps: Held) -> 'Iterator[list[Document]]':
    """A `with` that has documents of maps, in an editor of their own."""
    from .editor import Editor

    names = [f'copy{place}' for place in range(len(maps))]
    with contextlib.closing(Editor()) as editor:
        for name, map in zip(names, maps):
            editor.put_file(name, map.text)
            editor.step(f'open {name} {name}')
            editor.remove_file(name)
            editor.documents[name]._source = map.source
        yield [editor.documents[name] for name in names]


def said(value: Any) -> str:
    """A value as a text that is the same for the same value of JSON: true is not 1, and 2.0 is 2. What is noted of XML is none."""
    return json.dumps(_plain(value), sort_keys=True, ensure_ascii=False)


def _plain(value: Any) -> Any:
    if isinstance(value, float):
        return int(value) if value.is_integer() else value
    if isinstance(value, list):
        return [_plain(each) for each in value]
    return {name: _plain(each) for name, each in value.items() if name != XML_NOTE} if isinstance(value, dict) else value


def are_saved_alike(one: 'Document', other: 'Document') -> bool:
    """Whether files of two maps have the same, unpacked. Where no file is made of them, as where a layer can't be packed here, the maps are
    compared."""
    try:
        texts = [document.save_bytes() for document in (one, other)]
    except Refused:
        return said(one.map()) == said(other.map())
    return texts[0] == texts[1] or _unpacked(texts[0]) == _unpacked(texts[1])


def _unpacked(text: bytes) -> str:
    """What a file has, with the cells that are packed in it unpacked; but for its version, and for what says that nothing is packed, which a
    save has as its source has it."""
    try:
        text, _ = set_aside(text, 'difference()')
    except Refused:
        # Nothing is set aside of this map, so none of it is packed.
        pass
    tree = json.loads(text)
    tree.pop('version', None)
    for layer in drawn(tree['layers']):
        if layer.get('compression') == '':
            del layer['compression']
    return said(tree)


def is_infinite(document: 'Document') -> bool:
    """Whether a map was opened as an infinite one."""
    return bool(document._do(document._note_now))


def first_cell(document: 'Document', tree: Members, opened: tuple[int, int]) -> tuple[float, float]:
    """Where the corner of the first cell is, as objects count, without what moves every other row of a staggered map. `opened` is where the
    corner of an infinite map lay when it was opened: objects of an orthogonal one count from it, and of others from cell 0, 0 of the plane."""
    if tree.get('orientation', 'orthogonal') == 'orthogonal':
        return 0, 0
    steps = cell_steps(tree)
    left, top = (now * step + (was - now) * tree[side] for now, was, step, (_, side) in zip(document.origin, opened, steps, _SIDES))
    return left, top


def cell_steps(tree: Members) -> tuple[int, int]:
    """How far a column is from the one before it, and a row, as objects count."""
    wide, high, kind = tree['tilewidth'], tree['tileheight'], tree.get('orientation')
    if kind == 'isometric':
        return high, high
    if kind not in ('staggered', 'hexagonal'):
        return wide, high
    side = tree.get('hexsidelength', 0) if kind == 'hexagonal' else 0
    return ((wide - side) // 2 + side, high) if tree.get('staggeraxis') == 'x' else (wide, (high - side) // 2 + side)


class Stand(NamedTuple):
    """Where a layer or an object stands, and what the map says of it."""

    #: The id of the group or the layer that it is in; 0 for none.
    parent: int
    members: Members


class MapNow:
    """A map as it is now: its outline, with what is noted of classes in it, and its layers and objects by their ids, in drawing order."""

    __slots__ = 'document', 'tree', 'layers', 'objects', 'values'

    #: The values of its cells and objects, once they were asked for.
    values: set[int]

    def __init__(self, document: 'Document'):
        self.document = document
        editor = document._editor
        self.tree = document._do(lambda: editor._tree(editor._copied('outline', 'outline()'), keeps_xml_notes=True))
        keep_notes_of_classes(self.tree)
        self.layers: dict[int, Stand] = {}
        self.objects: dict[int, Stand] = {}
        self._note(self.tree['layers'], 0)

    def _note(self, layers: list[Members], parent: int) -> None:
        for layer in layers:
            self.layers[layer['id']] = Stand(parent, layer)
            if layer['type'] == 'objectgroup':
                self.objects.update({each['id']: Stand(layer['id'], each) for each in layer['objects']})
            elif layer['type'] == 'group':
                self._note(layer['layers'], layer['id'])

    def layers_in(self, parent: int) -> list[int]:
        """The ids of the layers that stand in a group, or in none, in order."""
        return [id for id, stand in self.layers.items() if stand.parent == parent]

    def objects_in(self, layer: int) -> list[int]:
        return [id for id, stand in self.objects.items() if stand.parent == layer]

    def has(self, id: int, other: Stand) -> bool:
        """Whether it has a layer of this id and of the same kind."""
        return id in self.layers and self.layers[id].members['type'] == other.members['type']

    def cells(self, layer: int) -> memoryview:
        """The values of a tile layer."""
        return self.document.layers[layer].cells()


def staying(before: list[int], behind: list[int]) -> set[int]:
    """Of things that stand in two lists the most that stand in the same order in both: the others were moved."""
    places = {id: place for place, id in enumerate(behind)}
    # The ends of the best runs of each length, with what stands before each.
    ends, ids, last = list[int](), list[int](), dict[int, Optional[int]]()
    for id in before:
        if id in places:
            at = bisect_left(ends, places[id])
            ends[at:at + 1], ids[at:at + 1] = [places[id]], [id]
            last[id] = ids[at - 1] if at else None
    found, each = set[int](), ids[-1] if ids else None
    while each is not None:
        found.add(each)
        each = last[each]
    return found


# ---- how all in a map was moved with its size


class Shift(NamedTuple):
    """By how many columns and rows all in a map was moved where it has another size."""

    x: int
    y: int

    def lines(self, copy: 'Document', behind: MapNow) -> list[str]:
        """The lines that give a map the size of another one, and move all so. Of an infinite map whose corner goes to the left or up all stays
        where it is on the plane."""
        width, height = behind.tree['width'], behind.tree['height']
        if copy.origin == behind.document.origin or min(self) < 0:
            return [f'resize {width} {height} {self.x} {self.y}']
        sides = width - copy.width - self.x, height - copy.height - self.y
        room = [f'extend {self.x} {self.y} {max(sides[0], 0)} {max(sides[1], 0)}']
        return [*room, f'resize {width} {height} 0 0'] if min(sides) < 0 else room

    def move(self, copy: 'Document', behind: MapNow) -> None:
        """Does these lines."""
        for line in self.lines(copy, behind):
            copy._edit(line)


def shift_of(before: MapNow, behind: MapNow) -> Shift:
    """The one that leaves the fewest cells and objects that differ: no file says it, so those are tried that may be meant. Where the corners of
    infinite maps lie at other places, it is known. One that takes a thing past its limit is none."""
    (left, top), (other_left, other_top) = before.document.origin, behind.document.origin
    known = Shift(left - other_left, top - other_top)
    if any(known):
        tries = [known]
    else:
        cells = [*_cells_of_both(before, behind)]
        tries = sorted(dict.fromkeys(_shifts(before, behind)), key=lambda shift: _unlike(before, behind, shift, cells))
    return next((shift for shift in tries if _can_be(before.document, behind, shift)), Shift(0, 0))


def _can_be(copy: 'Document', behind: MapNow, shift: Shift) -> bool:
    """Whether a map takes the size of another one with this shift; it is as it was then."""
    lines, done = shift.lines(copy, behind), 0
    try:
        for line in lines:
            copy._edit(line)
            done += 1
    except Refused:
        pass
    for _ in range(done):
        copy.undo()
    return done == len(lines)


def _shifts(before: MapNow, behind: MapNow) -> Iterator[Shift]:
    """By nothing, by what is added at the left and above, and by what objects have moved."""
    wider, higher = (behind.tree[name] - before.tree[name] for name in ('width', 'height'))
    yield from (Shift(x, y) for x in (0, wider) for y in (0, higher))
    moved = dict[Shift, int]()
    for id in before.objects.keys() & behind.objects.keys():
        (x, rest), (y, other) = (divmod(_at(behind, id, name) - _at(before, id, name), before.tree[side]) for name, side in _SIDES)
        if rest == other == 0:
            shift = Shift(int(x), int(y))
            moved[shift] = moved.get(shift, 0) + 1
    yield from sorted(moved, key=lambda shift: -moved[shift])[:2]


def _at(map: MapNow, id: int, name: str) -> float:
    return float(map.objects[id].members.get(name, 0))


def _cells_of_both(before: MapNow, behind: MapNow) -> Iterator[tuple[list[int], list[int]]]:
    """The cells of each tile layer that both maps have, as numbers that are the same for the same tile."""
    tiles = [_Tiles(before, behind, at) for at in (0, 1)]
    for id, stand in behind.layers.items():
        if stand.members['type'] == 'tilelayer' and before.has(id, stand):
            yield tiles[0].numbers(before.cells(id).tolist()), tiles[1].numbers(behind.cells(id).tolist())


class _Tiles:
    """The tiles of one of two maps, by the tilesets of both."""

    __slots__ = '_firsts', '_known'

    def __init__(self, before: MapNow, behind: MapNow, at: int):
        pairs = [*paired_tilesets(before.tree['tilesets'], behind.tree['tilesets'])]
        self._firsts = sorted((first_id(each), place) for place, pair in enumerate(pairs, 1) if (each := pair[at]) is not None)
        self._known = {0: 0}

    def numbers(self, values: list[int]) -> list[int]:
        known = self._known
        for value in {*values} - known.keys():
            first, place = max((pair for pair in self._firsts if pair[0] <= value & BASE), default=(0, 0))
            known[value] = (place << 32) + value - first
        return [known[value] for value in values]


def _unlike(before: MapNow, behind: MapNow, shift: Shift, cells: list[tuple[list[int], list[int]]]) -> int:
    """How many cells and objects differ where all was moved so."""
    steps = [(name, by * before.tree[side]) for (name, side), by in zip(_SIDES, shift)]
    objects = before.objects.keys() & behind.objects.keys()
    moved = sum(any(_at(behind, id, name) != _at(before, id, name) + step for name, step in steps) for id in objects)
    return moved + sum(_unlike_cells(before, behind, old, new, shift) for old, new in cells)


def _unlike_cells(before: MapNow, behind: MapNow, old: list[int], new: list[int], shift: Shift) -> int:
    count = 0
    wide, high, goal_wide = before.tree['width'], before.tree['height'], behind.tree['width']
    for y in range(behind.tree['height']):
        row = [0] * goal_wide
        if 0 <= y - shift.y < high:
            line = old[(y - shift.y) * wide:(y - shift.y + 1) * wide]
            row = [line[x - shift.x] if 0 <= x - shift.x < wide else 0 for x in range(goal_wide)]
        other = new[y * goal_wide:(y + 1) * goal_wide]
        count += 0 if row == other else sum(one != another for one, another in zip(row, other))
    return count
