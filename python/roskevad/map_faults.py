# SPDX-License-Identifier: MIT OR Apache-2.0
"""Where a map has the fault that it is refused for, as the library tells it."""
import json
from typing import TYPE_CHECKING, Any, NamedTuple, Optional

from . import library
from .faults import Refused, refused_call
from .library import LIBRARY
from .rooms import Room

if TYPE_CHECKING:
    from .compressed_layers import PackedLayer, UnpackedMap
    from .json_scanner import Part, Path

# The codes of a map that is read and refused, and some of them.
_CODES = range(60, 70)
_STORE_FAILED, _NOT_JSON, _COMPRESSED, _BAD_DATA = 51, 60, 65, 66
# Most of what is told is shorter.
_ROOM = 4096
# The most letters of a text that are shown.
_SHOWN = 40


class MapPlace(NamedTuple):
    """Where in a file a map has its fault."""

    #: The way from the root to it: names of members and indexes of entries, of a map in XML those of its JSON; `None` where the file is
    #: neither JSON nor XML.
    path: 'Optional[Path]'
    #: Whether the fault is there, and not somewhere in what stands there.
    is_exact: bool
    #: What stands there, short, as `an array of length 3`; `None` where the file is neither.
    shown: Optional[str]
    #: The place in words, with what stands there, as `layers[0].id is absent`.
    text: str
    #: Where it begins in the file, from 1 and in bytes; `None` where layers of the map were unpacked, or it is in XML.
    line: Optional[int]
    column: Optional[int]

    def __str__(self) -> str:
        is_told = self.path is None or self.line is None
        return self.text if is_told else f'{self.text} (line {self.line}, column {self.column})'


def told_of(data: bytes) -> Optional[dict[str, Any]]:
    """What the library tells of the first fault of the bytes of a file; `None` where their map is read, or no memory is left."""
    room = Room(_ROOM)
    size: int = LIBRARY.roskevad_map_fault(data, len(data), room.at, room.size)
    if room.size < size < library.NO_MEMORY:
        room = Room(size)
        size = LIBRARY.roskevad_map_fault(data, len(data), room.at, room.size)
    told: Optional[dict[str, Any]] = json.loads(room.bytes[:size]) if size <= room.size else None
    return told


def _place_of(told: dict[str, Any]) -> MapPlace:
    path = None if told['path'] is None else tuple(told['path'])
    return MapPlace(path, told['exact'], told['shown'], told['text'], told['line'], told['column'])


def _told_as(data: bytes, code: int) -> tuple[Optional[MapPlace], Optional[str]]:
    """Where the bytes of a file have the fault of that code, and why; `None` where another code is told of them."""
    told = told_of(data)
    if told is None or told['code'] != code:
        return None, None
    return None if told['text'] is None else _place_of(told), told['why']


def refused_xml(data: bytes, call: str) -> Refused:
    """How the bytes of a file in XML are refused that are no map."""
    place, why = _told_as(data, _STORE_FAILED)
    return refused_call(_STORE_FAILED, call, why, place)


def place_in(data: bytes, code: int) -> Optional[MapPlace]:
    """Where the bytes of a file have the fault of that code; `None` where another code is told of them."""
    return _told_as(data, code)[0]


def refused_as_no_json(data: bytes, call: str) -> Optional[Refused]:
    """How the bytes of a file are refused that are no JSON; `None` where they are JSON."""
    place = place_in(data, _NOT_JSON)
    return None if place is None else refused_call(_NOT_JSON, call, place_in_map=place)


def refused_map(refusal: Refused, data: bytes, unpacked: 'Optional[UnpackedMap]', call: str) -> Refused:
    """How the bytes of a file are refused, by the refusal of what was unpacked of them: the place is the one in the file. `None` where
    that was not tried."""
    code = refusal.code
    if code not in _CODES:
        return refusal
    text = data if unpacked is None or code == _NOT_JSON else unpacked.data
    place, why = _told_as(text, code)
    if place is not None and text is not data:
        place = place._replace(line=None, column=None)
    if unpacked is not None and place is not None and place.path is not None and code in (_COMPRESSED, _BAD_DATA):
        layer = unpacked.left.get(place.path[:-1])
        if layer is not None:
            code, why = layer.code, layer.why
            place = _place_of_packed(place, layer)
    return refused_call(code, call, why, place)


def _place_of_packed(place: MapPlace, layer: 'PackedLayer') -> MapPlace:
    """Where the fault of a layer is that stays packed: its compression, or its data."""
    assert place.path is not None
    if layer.code == _COMPRESSED:
        return _at(place, layer.members['compression'])
    front, way = place.text.partition(' is ')[0].rpartition('.')[0], place.path[:-1]
    data = layer.members.get('data')
    if data is None or not isinstance(data.value(), str):
        return MapPlace(way, False, 'an object', f'in {front}', None, None)
    shown = _quoted(data.value())
    return _at(MapPlace((*way, 'data'), True, shown, f'{front}.data is {shown}', None, None), data)


def _at(place: MapPlace, part: 'Part') -> MapPlace:
    line, column = part.line_column()
    return place._replace(line=line, column=column)


def _quoted(text: str) -> str:
    """A text as the library shows it."""
    return json.dumps(text[:_SHOWN], ensure_ascii=False) + ('...' if len(text) > _SHOWN else '')
