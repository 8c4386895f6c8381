# SPDX-License-Identifier: MIT OR Apache-2.0
"""Values as the JSON that a line has. What JSON has not is told with the caller's own words, and nothing is sent."""
import json
import math
import operator
from typing import Any, Mapping, Union

from . import words


def said(value: object, what: str) -> str:
    """A value as JSON in one line: a float that is whole as a whole number. Raises TypeError for what JSON has not, and ValueError for a
    float that is no number, half of a character, and what nests without an end."""
    try:
        return json.dumps(_plain(value, what), ensure_ascii=False, separators=(',', ':'), allow_nan=False)
    except RecursionError:
        raise ValueError(f'{what} nests too deep, or has itself in it') from None


def members_said(members: Mapping[str, Any], what: str) -> str:
    """The members of a thing as JSON in one line. Raises as `said` does, and TypeError where they are none."""
    if not isinstance(members, Mapping):
        raise TypeError(f'{what} are a dict: {type(members).__name__}')
    return said(dict(members), what)


def _plain(value: Any, what: str) -> Any:
    """The same of the types that JSON has, in which a whole number is an int."""
    if value is None or isinstance(value, bool):
        return value
    if isinstance(value, str):
        return words.whole_text(value, what)
    if isinstance(value, float):
        return _as_whole(value, what)
    if isinstance(value, (list, tuple)):
        return [_plain(each, what) for each in value]
    if isinstance(value, dict):
        return {_plain(text(name, f'a name in {what}'), what): _plain(each, what) for name, each in value.items()}
    if words.is_whole(value):
        return operator.index(value)
    raise TypeError(f'{what} is None, a bool, a number, a str, or a list or a dict of such: {type(value).__name__}')


def _as_whole(value: float, what: str) -> Union[int, float]:
    if not math.isfinite(value):
        raise ValueError(f'{what} has a float in it that is no number of JSON: {value}')
    return int(value) if value.is_integer() else value


def text(value: object, what: str) -> str:
    """A text, also an empty one. Raises TypeError where it is none."""
    if not isinstance(value, str):
        raise TypeError(f'{what} is a str: {type(value).__name__}')
    return value


def number(value: Any, what: str) -> Any:
    """A number, perhaps with a fraction. Raises TypeError where it is none."""
    if isinstance(value, bool) or not (isinstance(value, float) or words.is_whole(value)):
        raise TypeError(f'{what} is a number: {value!r}')
    return value
