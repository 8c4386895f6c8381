# SPDX-License-Identifier: MIT OR Apache-2.0
"""The corners and the text of an object, as a file has them."""
from typing import Any, Callable, Iterable, Mapping, Union

from . import json_values
from .kinds import Corners
from .tiled_maps import Members


def in_a_file(members: Mapping[str, Any]) -> Members:
    """Members of an object as a file has them: corners may be pairs of numbers, and a text a text. All else is as it is."""
    return {name: _IN_A_FILE.get(name, _as_it_is)(value) for name, value in members.items()}


def _as_it_is(value: Any) -> Any:
    return value


def text(said: Union[str, Mapping[str, Any]]) -> Members:
    """A text as a file has it, with how it is written."""
    if isinstance(said, Mapping):
        return dict(said)
    return {'text': json_values.text(said, 'the text of an object')}


def corners(listed: Corners) -> list[Members]:
    """Corners as a file has them."""
    if not isinstance(listed, Iterable):
        raise TypeError(f'corners of an object are pairs of numbers, from its place: {listed!r}')
    return [_corner(each) for each in listed]


def _corner(corner: Union[Iterable[float], Mapping[str, float]]) -> Members:
    try:
        x, y = (corner['x'], corner['y']) if isinstance(corner, Mapping) else corner
    except (KeyError, TypeError, ValueError):
        raise TypeError(f'a corner of an object is a pair of numbers, from its place: {corner!r}') from None
    return {'x': json_values.number(x, 'x of a corner'), 'y': json_values.number(y, 'y of a corner')}


def _pairs_as_corners(value: Any) -> Any:
    are_pairs = isinstance(value, (list, tuple)) and all(isinstance(each, (list, tuple)) and len(each) == 2 for each in value)
    return corners(value) if are_pairs else value


_IN_A_FILE: Mapping[str, Callable[[Any], Any]] = {
    'polygon': _pairs_as_corners, 'polyline': _pairs_as_corners, 'text': lambda value: text(value) if isinstance(value, str) else value,
}
