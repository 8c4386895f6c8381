# SPDX-License-Identifier: MIT OR Apache-2.0
"""Puts a map beside another one, to its right, as one map. From the top of a clone:

    python3 examples/beside.py LEFT RIGHT MAP

Both are orthogonal, with cells of one size, and MAP stands in the folder of LEFT. A layer of RIGHT goes into the one of its kind that stands
at the same names in LEFT, or else into a new one over the others of its group; an image layer is always a new one. Objects come with
their classes, shapes, tiles and properties, and so do layers and the map, which keeps what it has of the same name. A tileset that LEFT has
not is added behind the others. Paths of files are told anew from the folder of LEFT. What can't be carried, as a
member that is longer than a line, is named on standard error. MAP is written all the same, and the exit status is 1 then.
"""
import os
import sys
import xml.etree.ElementTree as xml
from pathlib import Path
from typing import Any, Callable, Iterator, Optional

TOP = Path(__file__).resolve().parent.parent
sys.path.insert(0, str(TOP / 'python'))

from roskevad import Document, Editor, Error, Layer, MapObject, Properties, Tileset  # noqa: E402

FLAGS = 0xF0000000
# What a layer has besides its own members, its name, and what is put into it one by one.
OF_A_LAYER = {'id', 'name', 'type', 'properties', 'width', 'height', 'encoding', 'compression', 'objects', 'layers'}
# What an object has besides, which is put otherwise.
OF_AN_OBJECT = {'id', 'properties'}
# The members that are paths of files.
PATHS = {'image', 'source', 'template'}


def path_of(layer: Layer) -> str:
    """The names of its groups and its own."""
    return layer.name if layer.parent is None else f'{path_of(layer.parent)}/{layer.name}'


def folder_of(document: Document) -> Path:
    return Path('.') if document.path is None else document.path.parent


def key_of(document: Document, tileset: Tileset) -> object:
    """What makes a tileset the same in two maps: its file, or its name."""
    return tileset.name if tileset.source is None else (folder_of(document) / tileset.source).resolve()


def tile_count(document: Document, tileset: Tileset) -> int:
    """How many tiles a tileset has; none where its file is not there."""
    if tileset.tiles is not None:
        return max((each.local_id + 1 for each in tileset.tiles), default=0)
    try:
        return int(xml.parse(folder_of(document) / str(tileset.source)).getroot().get('tilecount', 0))
    except (OSError, xml.ParseError):
        return 0


def values_in(document: Document) -> Iterator[int]:
    """The values of all cells and objects, without flips."""
    for layer in document.layers.walk():
        yield from {value & ~FLAGS for value in (layer.cells() if layer.kind == 'tile' else ())}
    yield from (each.tile.value & ~FLAGS for each in document.objects if each.tile)


class Joining:
    """What is done to put one map beside another, and what could not be carried."""

    def __init__(self, left: Document, right: Document) -> None:
        sizes = {(each.orientation, each.tile_width, each.tile_height) for each in (left, right)}
        if len(sizes) > 1 or left.orientation != 'orthogonal':
            raise ValueError('the maps are not both orthogonal, with cells of one size')
        self.left, self.right, self.column = left, right, left.width
        self.firsts: list[tuple[int, int]] = []
        # The layers and objects of the right map by their ids, as they are in the left one.
        self.layers: dict[int, Layer] = {}
        self.objects: dict[int, MapObject] = {}
        self.lost: list[str] = []

    def join(self) -> None:
        with self.left.macro('Put beside', action='put a map beside'):
            self.left.extend(right=self.right.width, bottom=max(self.right.height - self.left.height, 0))
            self.add_tilesets()
            for layer in self.right.layers.walk():
                self.layers[layer.id] = self.goal_of(layer)
                self.fill(self.layers[layer.id], layer)
            self.put_properties('the map', self.right.outline().get('properties', []), self.left.properties)
            # A property may name any object: so all objects are there first.
            for each in self.right.objects:
                self.put_properties(f'object {each.id}', each.members.get('properties', []), self.objects[each.id].properties)

    # ---- tilesets, and the files that a map names

    def add_tilesets(self) -> None:
        known = {key_of(self.left, each): each.first_id for each in self.left.tilesets}
        for each in self.right.tilesets:
            key = key_of(self.right, each)
            first = known[key] if key in known else self.add_tileset(each)
            self.firsts.append((each.first_id, first))

    def add_tileset(self, tileset: Tileset) -> int:
        ends = [each.first_id + tile_count(self.left, each) for each in self.left.tilesets]
        first = max([1, *ends, *(value + 1 for value in values_in(self.left))])
        return self.left.tilesets.put({**self.with_paths(tileset.members), 'firstgid': first}).first_id

    def value(self, value: int) -> int:
        """A value of the right map, as the left one has it."""
        base, flags = value & ~FLAGS, value & FLAGS
        first, other = max((pair for pair in self.firsts if pair[0] <= base), default=(0, 0))
        return flags + base - first + other if base else 0

    def path(self, path: str) -> str:
        """A path from the folder of the right map, as it leads from that of the left one."""
        if not path:
            return path
        return Path(os.path.relpath(folder_of(self.right) / path, folder_of(self.left))).as_posix()

    def with_paths(self, value: Any) -> Any:
        """The same, but with its paths as they lead from the folder of the left map."""
        if isinstance(value, list):
            return [self.with_paths(each) for each in value]
        if not isinstance(value, dict):
            return value
        return {
            name: self.path(each) if name in PATHS and isinstance(each, str) else self.with_paths(each) for name, each in value.items()
        }

    # ---- layers

    def goal_of(self, layer: Layer) -> Layer:
        """The layer that a layer goes into: one that is there, or a new one."""
        same = [each for each in self.left.layers.walk() if (each.kind, path_of(each)) == (layer.kind, path_of(layer))]
        goal = next((each for each in same if each not in self.layers.values() and layer.kind != 'image'), None)
        return goal or self.new_layer(layer)

    def new_layer(self, layer: Layer) -> Layer:
        goal = self.left.layers.add(layer.kind, layer.name or 'Layer')
        if layer.parent is not None:
            goal.move_into(self.layers[layer.parent.id])
        for name, value in self.with_paths(layer.members.copy()).items():
            if name not in OF_A_LAYER:
                self.carry(f'layer {layer.name!r}: {name}', goal.members.set, name, value)
        if not layer.name:
            goal.members['name'] = ''
        if layer.kind == 'image':
            aside = layer.members.get('offsetx', 0) + self.column * self.left.tile_width
            self.carry(f'layer {layer.name!r}: offsetx', goal.members.set, 'offsetx', aside)
        return goal

    def fill(self, goal: Layer, layer: Layer) -> None:
        if layer.kind == 'tile':
            goal.write(self.column, 0, [[self.value(value) for value in row] for row in layer.rows()])
        for each in layer.objects:
            self.objects[each.id] = goal.objects.put(self.members_of(each))
        self.put_properties(f'layer {layer.name!r}', layer.members.get('properties', []), goal.properties)

    # ---- objects and properties

    def members_of(self, each: MapObject) -> dict[str, Any]:
        """What an object has, at its new place, without its properties."""
        members = self.with_paths(each.members.copy())
        members['x'] = members.get('x', 0) + self.column * self.left.tile_width
        if 'gid' in members:
            members['gid'] = self.value(members['gid'])
        return {name: value for name, value in members.items() if name not in OF_AN_OBJECT}

    def put_properties(self, owner: str, listed: list[dict[str, Any]], goal: Properties) -> None:
        """Puts properties that are not there yet, as the file has them."""
        for each in listed:
            if each['name'] not in goal:
                self.carry(f'{owner}: property {each["name"]!r}', goal.put, {**each, 'value': self.value_of(each)})

    def value_of(self, members: dict[str, Any]) -> Any:
        """The value of a property, as the left map has it."""
        kind, value = members.get('type'), members['value']
        if kind == 'object':
            found: Optional[MapObject] = self.objects.get(value)
            return 0 if found is None else found.id
        return self.path(value) if kind == 'file' else value

    def carry(self, what: str, call: Callable[..., None], *words: Any) -> None:
        """Makes a call, and notes what it was to carry where it does not."""
        try:
            call(*words)
        except (Error, ValueError, TypeError) as fault:
            self.lost.append(f'{what}: {getattr(fault, "words", fault)}')


def main() -> int:
    if len(sys.argv) != 4:
        sys.exit('usage: python3 examples/beside.py LEFT RIGHT MAP')
    try:
        with Editor() as editor, editor.open(sys.argv[1], 'left') as left, editor.open(sys.argv[2], 'right') as right:
            joining = Joining(left, right)
            joining.join()
            left.save(sys.argv[3])
    except (Error, ValueError) as fault:
        sys.exit(f'{sys.argv[3]} is not written: {fault}')
    for text in joining.lost:
        print(f'not carried: {text}', file=sys.stderr)
    return 1 if joining.lost else 0


if __name__ == '__main__':
    sys.exit(main())
