# SPDX-License-Identifier: MIT OR Apache-2.0
"""A map as a text that is the same for the same map, a line for each fact: so git shows by lines what differs."""
from itertools import groupby
from typing import TYPE_CHECKING, Any, Iterator

from .compared_maps import MapNow, Stand, is_infinite
from .difference import Tiles, called, head_of, layer_named, own_of, plainly, shown_whole
from .same_tilesets import paired_tilesets, tileset_name
from .tiled_maps import Members
from .told import Subject

if TYPE_CHECKING:
    from .document import Document

_KINDS = {'tilelayer': 'a tile layer', 'objectgroup': 'an object layer', 'group': 'a group', 'imagelayer': 'an image layer'}


def text_of_map(document: 'Document') -> Iterator[str]:
    """The lines. What a map counts, as first ids and next ids, is in none of them, and neither is how cells are written."""
    map = MapNow(document)
    yield 'map, infinite' if is_infinite(document) else f'map, {map.tree["width"]} by {map.tree["height"]} cells'
    yield from _facts('map', map.tree)
    for each in map.tree['tilesets']:
        yield f'tileset {plainly(tileset_name(each))}'
        yield from _facts('tileset', each)
    tiles = Tiles([*paired_tilesets(map.tree['tilesets'], map.tree['tilesets'])], 0)
    for id, stand in map.layers.items():
        yield f'{layer_named(id, map)}, {_KINDS[stand.members["type"]]}{_in(stand, map)}'
        yield from _facts('layer', stand.members)
        if stand.members['type'] == 'tilelayer':
            yield from _rows(map, id, tiles)
        for object in map.objects_in(id) if stand.members['type'] == 'objectgroup' else ():
            yield from _object(object, map, tiles)


def _in(stand: Stand, map: MapNow) -> str:
    return f', in {layer_named(stand.parent, map)}' if stand.parent else ''


def _object(id: int, map: MapNow, tiles: Tiles) -> Iterator[str]:
    members = map.objects[id].members
    yield head_of(Subject('object', id), members.get('name', ''))
    if 'gid' in members:
        yield f'  {called("gid")} {tiles.name(members["gid"])}'
    yield from _facts('object', {**{name: value for name, value in members.items() if name != 'gid'}, **_on_the_plane(members, map)})


def _on_the_plane(members: Members, map: MapNow) -> Members:
    """The place of an object; of one of an orthogonal infinite map, which counts from its corner, on its plane."""
    if map.tree.get('orientation', 'orthogonal') != 'orthogonal':
        return {}
    sides = zip(('x', 'y'), map.document.origin, (map.tree['tilewidth'], map.tree['tileheight']))
    return {name: members[name] + at * side for name, at, side in sides if name in members and at}


def _facts(kind: str, members: Members) -> Iterator[str]:
    """The members, by their names, and the properties, in their order."""
    for name, value in sorted(own_of(kind, members).items()):
        yield from _fact(name, value)
    for each in members.get('properties', []):
        type_ = each.get('propertytype') or each.get('type', 'string')
        yield f'  property {plainly(each["name"])}: {shown_whole(each["value"])} ({plainly(type_)})'


def _fact(name: str, value: Any) -> Iterator[str]:
    if isinstance(value, dict) and value:
        for inner in sorted(value):
            yield from _fact(f'{name}.{inner}', value[inner])
    else:
        yield f'  {called(name)} {shown_whole(value)}'


def _rows(map: MapNow, layer: int, tiles: Tiles) -> Iterator[str]:
    """The rows that have tiles, with runs of the same; of an infinite map by its plane."""
    cells, wide = map.cells(layer).tolist(), map.tree['width']
    left, top = map.document.origin
    for y in range(map.tree['height']):
        told, x = list[str](), left
        for value, run in groupby(cells[y * wide:(y + 1) * wide]):
            first, x = x, x + len([*run])
            if value:
                told.append(f'{first} {tiles.name(value)}' if x == first + 1 else f'{first} to {x - 1} {tiles.name(value)}')
        if told:
            yield f'  row {y + top}: {", ".join(told)}'
