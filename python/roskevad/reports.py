# SPDX-License-Identifier: MIT OR Apache-2.0
"""What is in a map, or why it is not opened: a report for scripts, with the members that `map_report --json` has."""
import os
from typing import TYPE_CHECKING, Any, Iterator, Optional, Union

from .editor import Editor
from .faults import Refused, reason_of
from .tiled_maps import Members

if TYPE_CHECKING:
    from _typeshed import ReadableBuffer

    from .document import Document

_SIZES = ('width', 'height', 'tilewidth', 'tileheight', 'nextlayerid', 'nextobjectid')
# What an object is drawn as, where it has a member of that name and is no tile.
_SHAPES = ('ellipse', 'point', 'polygon', 'polyline', 'text')


def report(source: 'Union[str, os.PathLike[str], ReadableBuffer]') -> Members:
    """What is in the map of a file, by its path, or of the bytes of a file; or why `Editor.open` refuses it: an object as `map_report
    --json --all-maps` writes it, with the names that docs/map-files.md has. It opens what `open` opens, so packed layers are unpacked and
    places of objects have their fractions. Raises TypeError where it is given neither a path nor bytes, and nothing for what is in a file."""
    file = os.fspath(source) if isinstance(source, (str, os.PathLike)) else None
    with Editor() as editor:
        try:
            document = editor.open(source, 'map')
        except Refused as refusal:
            return {'file': file, 'refused': _refused(refusal)}
        return {'file': file, 'refused': None, **_map(document)}


# ---- a map that is refused
def _refused(refusal: Refused) -> Members:
    told: Members = {'code': refusal.code, 'words': refusal.words, 'places': _places(refusal)}
    cause = refusal.__cause__
    reason = refusal.why or (reason_of(cause) if isinstance(cause, OSError) else None)
    return told if reason is None else {**told, 'reason': reason}


def _places(refusal: Refused) -> list[Members]:
    place = refusal.place_in_map
    if place is None:
        return []
    if place.path is None:
        return [{'line': place.line, 'column': place.column, 'text': place.text}]
    return [{'path': list(place.path), 'text': place.text}]


# ---- a map that is opened
def _map(document: 'Document') -> Members:
    outline = document.outline()
    layers = list(_drawn(outline['layers'], None))
    return {
        **{name: outline[name] for name in _SIZES},
        'orientation': _text(outline, 'orientation'),
        'properties': _properties(outline),
        'layers': [_layer(document, layer, group) for layer, group in layers],
        'objects': [_object(each, layer['id']) for layer, _ in layers if layer['type'] == 'objectgroup' for each in layer['objects']],
        'tilesets': [{'firstgid': each['firstgid'], 'source': each.get('source')} for each in outline['tilesets']],
    }


def _drawn(layers: list[Members], group: Optional[int]) -> Iterator[tuple[Members, Optional[int]]]:
    """Layers in drawing order, a group before those in it, each with the id of its group."""
    for layer in layers:
        yield layer, group
        if layer['type'] == 'group':
            yield from _drawn(layer['layers'], layer['id'])


def _text(members: Members, name: str) -> str:
    """A member that is a text; an empty one where it is none."""
    value = members.get(name)
    return value if isinstance(value, str) else ''


def _properties(members: Members) -> list[Members]:
    return [{'name': each['name'], 'type': each.get('type', 'string'), 'value': each['value']} for each in members.get('properties', ())]


def _layer(document: 'Document', layer: Members, group: Optional[int]) -> Members:
    told: Members = {
        'id': layer['id'], 'type': layer['type'], 'name': layer.get('name', ''), 'group': group, 'visible': layer.get('visible', True),
    }
    if layer['type'] == 'tilelayer':
        cells: list[int] = document.layers[layer['id']].cells().tolist()
        told.update(cells=len(cells), set=len(cells) - cells.count(0))
    return {**told, 'properties': _properties(layer)}


def _object(members: Members, layer: int) -> Members:
    pixels: dict[str, Any] = {name: members.get(name, 0) for name in ('x', 'y', 'width', 'height')}
    return {
        'id': members['id'], 'layer': layer, 'name': members.get('name', ''), 'class': _text(members, 'class') or _text(members, 'type'),
        'shape': 'tile' if members.get('gid') is not None else next((shape for shape in _SHAPES if shape in members), 'rectangle'),
        'rotation': members.get('rotation', 0), **pixels, 'visible': members.get('visible', True), 'gid': members.get('gid'),
        'properties': _properties(members),
    }
