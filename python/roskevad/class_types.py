# SPDX-License-Identifier: MIT OR Apache-2.0
"""What Tiled's file of a project says of classes: which of their members mean objects."""
import json
import os
from pathlib import Path
from typing import Any, Callable, Iterator, Mapping, NamedTuple, Optional, Union

from .class_notes import note_in, noted, type_noted
from .tiled_maps import Members

#: What is done with the id of an object that a value means.
Renumber = Callable[[int], int]
_SUFFIX = '.tiled-project'


class _Member(NamedTuple):
    """A member of a class: its type, and the name of its class."""

    type: str
    class_name: str


class _Typed(NamedTuple):
    """A type, the name of its class, and what is noted of its members."""

    type: str
    class_name: str
    note: Members


def _typed(each: Members) -> _Typed:
    """That of a property, or of what stands in a list."""
    return _Typed(str(each.get('type', '')), str(each.get('propertytype', '')), note_in(each))


class ClassTypes:
    """The classes that are known, each with its members. Of a class that is not known it isn't known what its numbers mean."""

    __slots__ = '_classes',

    def __init__(self, classes: Mapping[str, Mapping[str, _Member]]):
        self._classes = classes

    def renumbered(self, each: Members, renumber: Renumber) -> Members:
        """A property in which all that is known to mean objects is renumbered."""
        found = self._value(_typed(each), each.get('value'), renumber)
        return each if found is each.get('value') else {**each, 'value': found}

    def _value(self, typed: _Typed, value: Any, renumber: Renumber) -> Any:
        if typed.type == 'object' and type(value) is int:
            return renumber(value)
        if typed.type == 'class' and isinstance(value, dict):
            members = {name: self._member(typed, name) for name in value}
            return {name: inner if (member := members[name]) is None else self._value(member, inner, renumber) for name, inner in value.items()}
        if typed.type == 'list' and isinstance(value, list):
            return [self._item(each, renumber) for each in value]
        return value

    def _member(self, typed: _Typed, name: str) -> Optional[_Typed]:
        """What a member of a class is, by the project, or by what XML has noted; None where neither says so."""
        known, own = self._classes.get(typed.class_name, {}).get(name), noted(typed.note, name)
        if known is not None:
            return _Typed(*known, note_in(own))
        return _Typed(type_noted(typed.note, name), str(own.get('propertytype', '')), note_in(own)) if typed.note else None

    def _item(self, item: Any, renumber: Renumber) -> Any:
        """What stands in a list, which says its type."""
        if not isinstance(item, dict) or 'value' not in item:
            return item
        return {**item, 'value': self._value(_typed(item), item['value'], renumber)}

    def meant(self, each: Members) -> list[int]:
        """The ids of objects that a property is known to mean."""
        found = list[int]()

        def note(id: int) -> int:
            found.append(id)
            return id

        self.renumbered(each, note)
        return found

    def unknown(self, each: Members) -> Iterator[int]:
        """The numbers in a property of a class, or in a list, of which it isn't known whether they mean objects."""
        return self._unknown(_typed(each), each.get('value'))

    def _unknown(self, typed: _Typed, value: Any) -> Iterator[int]:
        if typed.type == 'list' and isinstance(value, list):
            for each in value:
                yield from self._unknown(_typed(each), each['value']) if isinstance(each, dict) and 'value' in each else _numbers(each)
        elif typed.type == 'class' and isinstance(value, dict):
            for name, inner in value.items():
                member = self._member(typed, name)
                yield from _numbers(inner) if member is None else self._unknown(member, inner)
        elif typed.type == 'class':
            yield from _numbers(value)


def _numbers(value: Any) -> Iterator[int]:
    """All whole numbers in a value."""
    if isinstance(value, (dict, list)):
        for each in value.values() if isinstance(value, dict) else value:
            yield from _numbers(each)
    elif type(value) is int:
        yield value


#: No class is known.
NO_TYPES = ClassTypes({})


def types_of(project: Union[str, 'os.PathLike[str]', None]) -> ClassTypes:
    """The classes of a project's file; none without one. Raises OSError; ValueError where it is no such file."""
    if project is None:
        return NO_TYPES
    tree = json.loads(Path(project).read_bytes())
    types = tree.get('propertyTypes', []) if isinstance(tree, dict) else None
    if not isinstance(types, list):
        raise ValueError(f'no project of Tiled: {os.fspath(project)}')
    return ClassTypes({each['name']: _members_of(each) for each in types if isinstance(each, dict) and each.get('type') == 'class' and 'name' in each})


def _members_of(each: Members) -> dict[str, _Member]:
    listed = [one for one in each.get('members', []) if isinstance(one, dict) and 'name' in one]
    return {str(one['name']): _Member(str(one.get('type', '')), str(one.get('propertyType', ''))) for one in listed}


def project_of(folder: Path, top: Path) -> Optional[Path]:
    """The project's file that is nearest to a folder, in it or above it, up to the top; None where there is none, or more than one."""
    for each in (folder, *folder.parents):
        found = sorted(each.glob(f'*{_SUFFIX}')) if each.is_dir() else []
        if found:
            return found[0] if len(found) == 1 else None
        if each == top:
            break
    return None
