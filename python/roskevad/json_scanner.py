# SPDX-License-Identifier: MIT OR Apache-2.0
"""Where the layers of a map stand in its text, so that some members can be written anew and all else stays as it is, digit by
digit. A text that is no JSON has no layers; the library refuses it."""
import json
import re
from typing import Any, Callable, Iterator, NamedTuple, Optional, Union

from .compressions import NOTE

# The members that are looked at. Others are gone over.
_NAMES = {'chunks', 'compression', 'compressionlevel', 'data', 'encoding', 'height', 'id', 'layers', 'width', 'x', 'y', NOTE}
# How deep layers of a map may stand, and how many it may have. A map with more is refused by the library.
_MOST_DEEP, _MOST_LAYERS = 17, 256
_SPACE = re.compile('[ \t\n\r]*')
_COMMA = re.compile('[ \t\n\r]*,?[ \t\n\r]*')
# A name without an escape, and its colon.
_NAME = re.compile('"([^"\\\\]*)"[ \t\n\r]*:[ \t\n\r]*')
_VALUES = json.JSONDecoder()
# It makes as little of a value as it can: where the value ends is all that is asked for.
_ENDS = json.JSONDecoder(object_pairs_hook=len, parse_int=len, parse_float=len, parse_constant=len)


class Edit(NamedTuple):
    """A part of a text that is written anew."""

    start: int
    end: int
    text: str


def edited(text: str, edits: list[Edit]) -> str:
    """A text with parts of it written anew, none of which overlap."""
    parts, at = [], 0
    for edit in sorted(edits):
        parts += [text[at:edit.start], edit.text]
        at = edit.end
    return ''.join([*parts, text[at:]])


class Part(NamedTuple):
    """A value that stands in a text, and of a member the place of its name."""

    text: str
    start: int
    end: int
    name_start: int = 0
    name_end: int = 0

    def line_column(self) -> tuple[int, int]:
        """The line and the column where it begins, from 1 and in bytes."""
        front = self.text[:self.start].encode()
        return front.count(b'\n') + 1, len(front) - front.rfind(b'\n')

    def value(self) -> Any:
        """The value of a text, a number, true, false or null; `None` of an object and an array."""
        if self.text[self.start] in '{[':
            return None
        try:
            return _VALUES.raw_decode(self.text, self.start)[0]
        except ValueError:
            # A whole number of very many digits.
            return None

    def members(self) -> 'Members':
        """The members of an object that are looked at, by their names; the last one where there are several. None of any other
        value."""
        if self.text[self.start] != '{':
            return {}
        return _read_members(self.text, self.start, lambda _, start: _end_of(self.text, start))[0]

    def entries(self) -> 'Iterator[Part]':
        """The entries of an array. None of any other value."""
        text = self.text
        at = _behind_space(text, self.start + 1) if text[self.start] == '[' else len(text)
        while text[at:at + 1] not in (']', ''):
            end = _end_of(text, at)
            if end is None:
                return
            yield Part(text, at, end)
            at = _behind_comma(text, end)


#: The members of an object, by their names.
Members = dict[str, Part]
#: The way from the root to a value: names of members and indexes of entries.
Path = tuple[Union[str, int], ...]


def map_and_layers(text: str) -> tuple[Members, dict[Path, Members]]:
    """The members of a map, and those of each of its layers, also in groups, by the ways to them; of no layer where they are too
    many, or the text is cut short. No part of the text is gone through twice."""
    walk = _Walk(text)
    start = _behind_space(text, 0)
    if text[start:start + 1] != '{':
        return {}, {}
    members, end = _read_members(text, start, walk.end_of_member)
    return members, walk.layers if end is not None else {}


class _Walk:
    """A walk through the layers of a map, and through the groups among them."""

    def __init__(self, text: str):
        self.layers: dict[Path, Members] = {}
        self._text = text
        # The ways to the arrays of layers that the walk is in, each from the one around it, with the index of the layer.
        self._path: Path = ()
        self._count = 0

    def end_of_member(self, name: str, start: int) -> Optional[int]:
        """Where a member of the map or of a layer ends. Layers in it are read."""
        if name != 'layers' or self._text[start:start + 1] != '[' or len(self._path) == 2 * _MOST_DEEP:
            return _end_of(self._text, start)
        around = self._path
        end = self._end_of_layers(start)
        self._path = around
        return end

    def _end_of_layers(self, start: int) -> Optional[int]:
        text, around = self._text, self._path
        at = _behind_space(text, start + 1)
        index = 0
        while text[at:at + 1] not in (']', ''):
            self._path = (*around, 'layers', index)
            end = self._end_of_layer(at)
            if end is None:
                return None
            at = _behind_comma(text, end)
            index += 1
        return at + 1 if at < len(text) else None

    def _end_of_layer(self, start: int) -> Optional[int]:
        if self._text[start] != '{':
            return _end_of(self._text, start)
        members, end = _read_members(self._text, start, self.end_of_member)
        self._count += 1
        self.layers[self._path] = members
        return end if self._count <= _MOST_LAYERS else None


def _read_members(
    text: str, at: int, end_of: Callable[[str, int], Optional[int]]
) -> tuple[Members, Optional[int]]:
    """The members of the object that stands here, and where it ends; `None` where it does not. Another function says where the value
    of a member ends."""
    found: Members = {}
    at = _behind_space(text, at + 1)
    while text[at:at + 1] == '"':
        named = _name_at(text, at)
        if named is None:
            return found, None
        name, name_end, start = named
        end = end_of(name, start)
        if end is None:
            return found, None
        if name in _NAMES:
            found[name] = Part(text, start, end, at, name_end)
        at = _behind_comma(text, end)
    return found, at + 1 if text[at:at + 1] == '}' else None


def _name_at(text: str, at: int) -> Optional[tuple[str, int, int]]:
    """The name that stands here, where it ends, and where its value begins."""
    plain = _NAME.match(text, at)
    if plain:
        return plain[1], plain.end(1) + 1, plain.end()
    end = _end_of(text, at)
    colon = _behind_space(text, end or len(text))
    if end is None or text[colon:colon + 1] != ':':
        return None
    return _VALUES.raw_decode(text, at)[0], end, _behind_space(text, colon + 1)


def _behind_space(text: str, at: int) -> int:
    found = _SPACE.match(text, at)
    return found.end() if found else at


def _behind_comma(text: str, at: int) -> int:
    """Where the next name, entry or bracket stands, behind a comma if there is one."""
    found = _COMMA.match(text, at)
    return found.end() if found else at


def _end_of(text: str, at: int) -> Optional[int]:
    """Where the value that stands here ends; `None` where there is none, or it is nested very deep."""
    try:
        return _ENDS.raw_decode(text, at)[1]
    except (ValueError, RecursionError):
        return None
