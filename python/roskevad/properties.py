# SPDX-License-Identifier: MIT OR Apache-2.0
"""The properties of a map, a layer or an object."""
from typing import TYPE_CHECKING, Any, Iterator, Mapping, MutableMapping, Optional, Union, cast

from . import json_values, words
from .class_notes import with_kept_note
from .faults import NotFound, OtherType
from .kinds import PropertyType, SetPropertyType
from .library import OWNERS
from .tiled_maps import Members

if TYPE_CHECKING:
    from .document import Document
    from .views import Layer, MapObject

_NAME = 'the name of a property'
# The member that names the class or the enum of a property.
_CLASS = 'propertytype'


class Properties(MutableMapping[str, Any]):
    """The properties of a map, a layer or an object, by their names: a mapping. A value that is set keeps the type of the one
    that is there; the first value of a name has a type of its own: a string, an int, a bool, a float, for a MapObject an object, for a dict
    a class, for a list a list. `set` names another type."""

    __slots__ = '_document', '_thing', '_owner', '_place'

    def __init__(self, document: 'Document', kind: str = 'map', thing: "Optional[Union[Layer, MapObject]]" = None):
        self._document = document
        self._thing = thing
        # What has them, in the words of lines and in the numbers of the library.
        self._owner = kind if thing is None else f'{kind}:{thing.id}'
        self._place = OWNERS[kind], 0 if thing is None else thing.id

    def _now(self) -> list[Members]:
        """All of them, in a turn. Raises Refused where what has them was removed."""
        listed: Optional[list[Members]] = self._document._read('properties', *self._place)
        if listed is None and self._thing is not None:
            raise self._thing._missing()
        return listed or []

    def _one_now(self, key: object, keeps_xml_notes: bool = False) -> Optional[Members]:
        """The one of a name, in a turn; None where there is none."""
        name = words.looked_up(key)
        return cast(Optional[Members], self._document._read('property', *self._place, name, len(name), keeps_xml_notes=keeps_xml_notes))

    def _one(self, key: object) -> Optional[Members]:
        """The same. Raises Refused where what has them was removed."""

        def work() -> Optional[Members]:
            found = self._one_now(key)
            if found is None:
                self._now()
            return found

        return self._document._do(work)

    def _there(self, key: str) -> Members:
        found = self._one(key)
        if found is None:
            raise NotFound(f'{self._owner} has no property {key!r}')
        return found

    def __getitem__(self, key: str) -> Any:
        """The value of the property of a name. Raises NotFound where there is none."""
        return _value_of(self._there(key))

    def __setitem__(self, key: str, value: Any) -> None:
        """Sets a property, of the type that is there. Raises as `set` does."""
        self.set(key, value)

    def __delitem__(self, key: str) -> None:
        """Removes the property of a name, whatever characters that has. Raises NotFound where there is none."""
        self._there(key)
        is_key = words.is_key(key)
        name = key if is_key else json_values.said(key, _NAME)
        self._document._edit(f'prop {"remove" if is_key else "take"} {self._owner} {name}')

    def __iter__(self) -> Iterator[str]:
        return iter([each['name'] for each in self._document._do(self._now)])

    def __reversed__(self) -> Iterator[str]:
        """The names, the last one first."""
        return reversed(list(self))

    def __len__(self) -> int:
        return len(self._document._do(self._now))

    def __contains__(self, key: object) -> bool:
        return self._one(key) is not None

    def type_of(self, key: str) -> PropertyType:
        """The type of the property of a name, as Tiled has it: string, int, float, bool, color, file, object, class or list. Raises
        NotFound where there is none."""
        return cast(PropertyType, self._there(key).get('type', 'string'))

    def set(
        self, key: str, value: Any, type: Optional[SetPropertyType] = None, merge: bool = False, property_type: Optional[str] = None,
    ) -> None:
        """Sets a property: of this type, or else of the type that is there, or else of the value's own. `property_type` names the class or
        the enum of Tiled's project, and '' takes that name away. With `merge` it is one step with a setting of the same property before it,
        where `prop set` can say both. Raises OtherType where the type that is there takes no such value, TypeError where the named one does
        not, or there is none for the value; ValueError; Refused."""
        name = words.whole_text(json_values.text(key, _NAME), _NAME)
        named = None if type is None else words.one_of(type, words.TYPES, 'the type of a property')
        class_name = None if property_type is None else json_values.text(property_type, 'the type of a property in a project')

        def work() -> None:
            kind, said = (named, words.setting(name, value, named)) if named else self._setting_for(name, value)
            self._document._say_edit(self._line_for({'name': name, 'type': kind, 'value': said}, merge, class_name))

        self._document._do(work)

    def put(self, members: Mapping[str, Any]) -> None:
        """Sets a property as a file has it, of any name and type: with its `name`, its `value`, and perhaps its `type` and what is kept of
        it. One of its name that is there has nothing else then, and keeps its place. Raises TypeError, ValueError; Refused: 62
        and 63 for a member that is missing or of another kind, 40 where there are 256."""
        self._document._edit(f'prop put {self._owner} {json_values.members_said(members, "the members of a property")}')

    def _setting_for(self, name: str, value: Any) -> tuple[str, Any]:
        """The type and the value where no type is named, in a turn. Raises OtherType where the property has a type that does not take the
        value."""
        there = self._one_now(name)
        if there is None:
            kind = words.type_of(name, value)
            return kind, words.setting(name, value, kind)
        kind = str(there.get('type', 'string'))
        if kind not in words.TYPES:
            raise OtherType(f'the property {name!r} has the type {kind} in this map, which set(..) does not know: put(..) sets it as a file has it')
        try:
            return kind, words.setting(name, value, kind)
        except (TypeError, ValueError) as fault:
            if isinstance(fault, ValueError) and kind != 'color':
                raise
            raise OtherType(f'{fault}; set(.., type=..) gives it another type') from None

    def _line_for(self, members: Members, merge: bool, class_name: Optional[str]) -> str:
        """The line that sets a property, in a turn: `prop set` where that can say it, or else one that says all of it, with what else is there
        of it."""
        name, kind, value = members.values()
        plain = words.plain_setting(value, kind) if class_name is None and words.is_key(name) else None
        if plain is not None:
            return f'prop set{"+" if merge else ""} {self._owner} {name} {plain}'
        there = self._one_now(name, keeps_xml_notes=True) or {}
        whole = with_kept_note({**there, **members, **({} if class_name is None else {_CLASS: class_name})}, there)
        if class_name == '':
            del whole[_CLASS]
        return f'prop put {self._owner} {json_values.said(whole, f"the property {name!r}")}'

    def __repr__(self) -> str:
        all_ = self._document._peek(lambda: {each['name']: _value_of(each) for each in self._now()})
        return f'<Properties of {self._owner}>' if all_ is None else f'Properties({all_})'


def _value_of(members: Members) -> Any:
    value = members['value']
    return float(value) if members.get('type') == 'float' else value
