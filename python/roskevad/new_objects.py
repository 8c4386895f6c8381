# SPDX-License-Identifier: MIT OR Apache-2.0
"""Objects that are added: what a file has of each, by the words of the caller, and the line that adds it."""
import operator
from typing import Any, Mapping, Optional, Union

from . import json_values, shapes, words
from .kinds import Corners
from .tiled_maps import Members
from .tilesets import Tile

_NAME, _MEMBERS = 'the name of an object', 'the members of an object'
# What a file calls otherwise.
_MEMBERS_OF = {'tile': 'gid'}


def pixels(value: Any, what: str) -> Any:
    """A coordinate: a whole number as an int. Raises TypeError where it is no number, and ValueError where it is out of range."""
    return value if has_fraction(value) else words.coordinate(_as_whole(value, what), what)


def length(value: Any, what: str) -> Any:
    """The same of a width or a height, from 0."""
    return value if has_fraction(value) else words.number(_as_whole(value, what), what)


def has_fraction(value: Any) -> bool:
    """Whether a number is not whole."""
    return isinstance(value, float) and not value.is_integer()


def _as_whole(value: Any, what: str) -> int:
    try:
        return int(value) if isinstance(value, float) else operator.index(value)
    except TypeError:
        raise TypeError(f'{what} is a number: {value!r}') from None


def line_of(layer: int, name: str, place: Members, looks: Members) -> str:
    """The line that adds an object at a place: `object add` where that can say it."""
    said = json_values.text(name, _NAME)
    if looks or not words.is_text(said) or any(map(has_fraction, place.values())):
        whole = {'name': said, 'type': '', **place, 'rotation': 0, 'visible': True, **looks}
        return put_line(layer, text_of(whole))
    return f'object add {layer} {" ".join(map(str, place.values()))} {said}'


def text_of(members: Mapping[str, Any]) -> str:
    """An object as JSON. Raises TypeError, ValueError."""
    return json_values.members_said(members, _MEMBERS)


def put_line(layer: int, text: str) -> str:
    """The line that adds an object as a file has it."""
    return f'object put {layer} {text}'


def looks_of(
    point: bool, ellipse: bool, polygon: Optional[Corners], polyline: Optional[Corners], text: Union[str, Mapping[str, Any], None],
    tile: Union[Tile, int, None],
) -> Members:
    """What a file has of an object that is no rectangle. Raises TypeError; ValueError where it would be two things at once."""
    value = words.number(0 if tile is None else tile.value if isinstance(tile, Tile) else tile, 'the tile of an object')
    all_ = {
        'point': True if point else None,
        'ellipse': True if ellipse else None,
        'polygon': None if polygon is None else shapes.corners(polygon),
        'polyline': None if polyline is None else shapes.corners(polyline),
        'text': None if text is None else shapes.text(text),
        'tile': value or None,
    }
    looks = {name: each for name, each in all_.items() if each is not None}
    if len(looks) > 1:
        raise ValueError(f'an object is one of {", ".join(all_)}, and this one would be {" and ".join(looks)}')
    return {_MEMBERS_OF.get(name, name): each for name, each in looks.items()}


def given(class_name: str, rotation: float, visible: bool, properties: Optional[Mapping[str, Any]]) -> Members:
    """What a file has of an object's class, its turn, whether it is shown and its properties, as far as that is not the usual. Raises
    TypeError, ValueError."""
    if properties is not None and not isinstance(properties, Mapping):
        raise TypeError(f'the properties of an object are a dict: {type(properties).__name__}')
    usual = {'type': '', 'rotation': 0, 'visible': True, 'properties': []}
    all_ = {
        'type': json_values.text(class_name, 'the class of an object'),
        'rotation': json_values.number(rotation, 'the rotation of an object'),
        'visible': bool(visible),
        'properties': [_property(name, value) for name, value in dict(properties or {}).items()],
    }
    return {name: value for name, value in all_.items() if value != usual[name]}


def _property(name: str, value: Any) -> Members:
    """A property as a file has it, of the value's own type."""
    said = json_values.text(name, 'the name of a property')
    kind = words.type_of(said, value)
    return {'name': said, 'type': kind, 'value': words.setting(said, value, kind)}
