# SPDX-License-Identifier: MIT OR Apache-2.0
"""Checks the maps of a folder in a build. From the top of a clone:

    python3 examples/check_maps.py FOLDER [--json]

The rules are in the two tables below: each map has an object of each class of NEEDED, and the objects of a class of TYPED have those
properties, of those types. Besides, no object begins outside its map, and each tile is one that its tileset has, where the tileset is in
the map, or in a file as JSON. Faults are told as lines, or with --json as an array of objects on standard output. The exit status is 0
without faults, 1 with some, and 2 where the command is wrong.
"""
import json
import sys
from pathlib import Path
from typing import Any, Iterator, Optional

TOP = Path(__file__).resolve().parent.parent
sys.path.insert(0, str(TOP / 'python'))

from roskevad import Document, Editor, Error, Layer, MapObject, Refused  # noqa: E402

NEEDED = ('Spawn',)
TYPED = {'Spawn': {'facing': 'string', 'team': 'int'}, 'Door': {'locked': 'bool'}}
FLAGS = 0xF0000000
Fault = dict[str, Any]
Known = dict[int, Optional[set[int]]]


def known_ids(document: Document) -> Known:
    """The IDs of the tiles of each tileset, by its first id; None where its file is no JSON, or is not there."""
    tilesets = [(each.first_id, each.tiles) for each in document.tilesets]
    return {first: None if tiles is None else {tile.local_id for tile in tiles} for first, tiles in tilesets}


def is_missing(known: Known, value: int) -> bool:
    """Whether no tileset has a tile of a value without flips."""
    first = max((first for first in known if first <= value), default=0)
    ids = known.get(first, set())
    return ids is not None and value - first not in ids


def faults_of(document: Document) -> Iterator[Fault]:
    """What is wrong in a map: each fault has a rule and a text, and names its layer, cell or object."""
    known, classes = known_ids(document), {each.class_name for each in document.objects}
    for name in NEEDED:
        if name not in classes:
            yield {'rule': 'needed', 'text': f'no object of the class {name}'}
    for each in document.objects:
        for rule, text in faults_of_object(document, each, known):
            where = {'layer': each.layer.name, 'object': each.id, 'name': each.name, 'x': each.x, 'y': each.y}
            yield {'rule': rule, 'text': f'object {each.id} {each.name!r} at {each.x}, {each.y}: {text}', **where}
    for layer in document.layers.walk():
        if layer.kind == 'tile':
            yield from faults_of_cells(layer, known)


def faults_of_object(document: Document, each: MapObject, known: Known) -> Iterator[tuple[str, str]]:
    # On an isometric map the pixels of objects are counted in tile heights on both axes.
    across = document.tile_height if document.orientation == 'isometric' else document.tile_width
    if not (0 <= each.x <= document.width * across and 0 <= each.y <= document.height * document.tile_height):
        yield 'outside', 'it begins outside the map'
    if each.tile and is_missing(known, each.tile.value & ~FLAGS):
        yield 'tile', f'no tileset has its tile {each.tile.value & ~FLAGS}'
    for name, kind in TYPED.get(each.class_name, {}).items():
        if name not in each.properties:
            yield 'typed', f'no property {name}'
        elif each.properties.type_of(name) != kind:
            yield 'typed', f'the property {name} is of the type {each.properties.type_of(name)}, and not {kind}'


def faults_of_cells(layer: Layer, known: Known) -> Iterator[Fault]:
    """The values of cells that no tileset has, each with the first cell that has it."""
    values = [value & ~FLAGS for value in layer.cells()]
    for value in sorted({*values} - {0}):
        if is_missing(known, value):
            y, x = divmod(values.index(value), layer.document.width)
            text = f'layer {layer.name!r} at {x}, {y}: no tileset has its tile {value}'
            yield {'rule': 'tile', 'text': text, 'layer': layer.name, 'x': x, 'y': y}


def check(editor: Editor, path: Path) -> list[Fault]:
    """The faults of a file; one that can't be opened has one, with its code and its place."""
    try:
        with editor.open(path) as document:
            return [{'file': str(path), **fault} for fault in faults_of(document)]
    except Refused as refusal:
        place = refusal.place_in_map
        where = {} if place is None else {'place': place.text, 'line': place.line, 'column': place.column}
        return [{'file': str(path), 'rule': 'opens', 'text': str(refusal), 'code': refusal.code, **where}]
    except Error as fault:
        return [{'file': str(path), 'rule': 'opens', 'text': str(fault)}]


def main() -> int:
    words = [word for word in sys.argv[1:] if word != '--json']
    paths = sorted(Path(words[0]).glob('*.tmj')) if len(words) == 1 else []
    if not paths:
        print('usage: python3 examples/check_maps.py FOLDER [--json], with maps in the folder', file=sys.stderr)
        return 2
    with Editor() as editor:
        faults = [fault for path in paths for fault in check(editor, path)]
    if '--json' in sys.argv:
        print(json.dumps(faults, indent=1))
    else:
        for fault in faults:
            print(f'{fault["file"]}: {fault["text"]}', file=sys.stderr)
    return 1 if faults else 0


if __name__ == '__main__':
    sys.exit(main())
