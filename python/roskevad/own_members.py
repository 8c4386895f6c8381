# SPDX-License-Identifier: MIT OR Apache-2.0
"""The own members of an object, a layer, a tileset or the map: what stands for it in the map's file, but for what other lines change."""
import json
from typing import TYPE_CHECKING, Any, Callable, Iterable, Mapping, NoReturn, Optional

from . import json_values, shapes, words
from .faults import NotFound, Refused, refused_call
from .tiled_maps import Members

if TYPE_CHECKING:
    from .document import Document

_NAME = 'the name of a member'
_OF_OTHER_LINES = 41
#: The names that are none of own members, by what has them.
OTHERS = {
    'object': frozenset(('id', 'properties', 'roskevad')),
    'layer': frozenset((
        'id', 'type', 'properties', 'data', 'chunks', 'startx', 'starty', 'objects', 'layers', 'width', 'height', 'encoding', 'compression',
        'roskevad',
    )),
    'tileset': frozenset(('firstgid', 'roskevad')),
    'map': frozenset((
        'width', 'height', 'infinite', 'chunks', 'data', 'objects', 'layers', 'tilesets', 'properties', 'type', 'version', 'roskevad',
    )),
}
# What sets them, where something does.
_INSTEAD = {
    'properties': 'properties are set and removed one by one, in `properties`',
    'data': 'cells are set by document.stamp(..) and layer.write(..)',
    'objects': 'objects are added by layer.objects.add(..)',
    'layers': 'layers are added by document.layers.add(..), and moved by layer.move_into(..)',
    'tilesets': 'tilesets are added by document.tilesets.add(..)',
    'width': 'the size of a map is set by document.resize(..)',
    'height': 'the size of a map is set by document.resize(..)',
}
# What stands there again where it is taken out.
_DEFAULTS: dict[str, Members] = {'layer': {'name': '', 'visible': True}}


class Owner:
    """What has own members, an object, a layer, a tileset or the map: how lines and the library name it, and how it is read."""

    __slots__ = 'document', 'kind', 'name', 'now', 'whole', 'others', 'defaults', '_call'

    def __init__(self, document: 'Document', kind: str, id: Optional[int], now: Callable[[], Members], whole: Callable[[], Members]):
        """`now` gives, in a turn, what the map says of it, and `whole` all that its members have. Both raise Refused where it was removed."""
        self.document = document
        self.kind = kind
        self.name = kind if id is None else f'{kind}:{id}'
        self.now = now
        self.whole = whole
        self.others = OTHERS[kind]
        self.defaults = _DEFAULTS.get(kind, {})
        self._call: tuple[Any, ...] = ('map_head',) if id is None else (kind, id)

    def held(self) -> Members:
        """What its members are now, with which new values are compared, in a turn; nothing where it was removed."""
        members: Members = self.document._read(*self._call) or {}
        return members

    def in_a_file(self, members: Mapping[str, Any]) -> Mapping[str, Any]:
        """Members as a file has them: of an object also its corners, which may be pairs, and its text."""
        return shapes.in_a_file(members) if self.kind == 'object' and isinstance(members, Mapping) else members

    def instead(self, names: Iterable[str]) -> Optional[str]:
        """What to do where one of these names is none of its own members."""
        first = next((name for name in names if name in self.others), None)
        return None if first is None else _INSTEAD.get(first, f'{first!r} stays as it is')


class OwnMembers(dict[str, Any]):
    """All members of an object, a layer or a tileset, or the own ones of the map, as they were when they were asked for: a dict. What is set in it
    or taken out of it is an edit, and then it has what is there. A list or a dict in it is a copy: set it anew to change it."""

    __slots__ = '_owner',

    def __init__(self, owner: Owner):
        super().__init__(owner.document._do(owner.whole))
        self._owner = owner

    def __missing__(self, key: object) -> NoReturn:
        raise NotFound(f'{self._owner.name} has no member {key!r}')

    def __getitem__(self, key: str) -> Any:
        """The member of a name. Raises NotFound where there is none."""
        return super().__getitem__(key)

    def __setitem__(self, key: str, value: Any) -> None:
        """Sets an own member. Raises as `set` does."""
        self.set(key, value)

    def __delitem__(self, key: str) -> None:
        """Takes an own member out. Raises NotFound where there is none, ValueError where no line can say its name; Refused: 41 for a name
        that is none of own members, 62 for one that the map must have."""
        if not remove_member(self._owner, key):
            self.__missing__(key)
        self._read()

    def set(self, key: str, value: Any, merge: bool = False) -> None:
        """Sets an own member, or adds one; with `merge` as one step with a setting of the same member before it. The corners of an object
        may be pairs, and its text a text, as `objects.add` takes them. Raises TypeError for what JSON has not; ValueError, also for a name
        with a space; Refused: 41 for a name that is none of own members, 63 for a value of another kind, 68 for one that is over a limit."""
        set_member(self._owner, key, value, merge)
        self._read()

    def put(self, members: Mapping[str, Any], merge: bool = False) -> None:
        """Sets some own members at once, as one step; with `merge` as one with such a step of the same before it. Raises TypeError,
        ValueError; Refused: then none is set."""
        put_members(self._owner, members, merge)
        self._read()

    def update(self, *others: Any, **more: Any) -> None:
        """The same, as a dict takes what is new. Raises TypeError, ValueError; Refused."""
        self.put(dict(*others, **more))

    def pop(self, key: str, *default: Any) -> Any:
        """Takes an own member out, and gives its value; the default where there is none. Raises as `del` does."""
        self._read()
        if key not in self and default:
            return default[0]
        value = self[key]
        del self[key]
        return value

    def setdefault(self, key: str, default: Any = None) -> Any:
        """The member of a name, which is set first where there is none. Raises as `set` does."""
        self._read()
        if key not in self:
            self.set(key, default)
        return self[key]

    def _refuse(self, *_: object) -> NoReturn:
        raise TypeError('members are set by update(..), and taken out by their names')

    clear = popitem = __ior__ = _refuse  # type: ignore[assignment]

    def copy(self) -> Members:
        """A plain dict, which edits nothing."""
        return dict(self)

    __copy__ = copy

    def __deepcopy__(self, memo: Any) -> Members:
        members: Members = json.loads(json.dumps(self))
        return members

    def __reduce__(self) -> tuple[Callable[..., Any], tuple[Any, ...]]:
        return dict, (dict(self),)

    def _read(self) -> None:
        members = self._owner.document._do(self._owner.whole)
        super().clear()
        super().update(members)


# ---- the lines of own members, each once


def set_member(owner: Owner, key: str, value: Any, merge: bool = False) -> None:
    """Says the line that sets an own member."""
    name = words.key(key, _NAME)
    said = json_values.said(owner.in_a_file({name: value})[name], f'the member {name!r}')
    rest = f'set{"+" if merge else ""} {owner.name} {name} {said}'
    owner.document._do(lambda: _say(owner, rest, [name], lambda held: _differ(held, {name: json.loads(said)})))


def put_members(owner: Owner, members: Mapping[str, Any], merge: bool = False) -> None:
    """Says the line that sets some own members at once."""
    said = json_values.members_said(owner.in_a_file(members), f'the members of {owner.name}')
    owner.document._do(lambda: say_members(owner, said, merge))


def say_members(owner: Owner, said: str, merge: bool) -> None:
    """The same, of members as JSON, in a turn."""
    news = json.loads(said)
    _say(owner, f'put{"+" if merge else ""} {owner.name} {said}', news, lambda held: _differ(held, news))


def remove_member(owner: Owner, key: str) -> bool:
    """Says the line that takes an own member out, where there is one; whether there was. A name that is none of own members is said, too:
    it is refused."""

    def changes(held: Members) -> bool:
        return key not in owner.defaults or held.get(key) != owner.defaults[key]

    def work() -> bool:
        is_there = key in owner.now() or key in owner.others
        if is_there:
            _say(owner, f'remove {owner.name} {words.key(key, _NAME)}', [key], changes)
        return is_there

    return owner.document._do(work)


def set_or_remove(owner: Owner, key: str, value: Any) -> None:
    """Sets an own member, or takes it out where the value is None."""
    if value is None:
        remove_member(owner, key)
    else:
        set_member(owner, key, value)


def _say(owner: Owner, rest: str, names: Iterable[str], changes: Callable[[Members], bool]) -> None:
    """Says a line about members of these names, in a turn. Where it changes nothing of what the editor holds, macros wait on for their first
    edit."""
    document = owner.document
    try:
        with document._beginning_if(lambda: changes(owner.held())):
            document._say_edit(f'member {rest}')
    except Refused as refusal:
        if refusal.code != _OF_OTHER_LINES:
            raise
        raise refused_call(refusal.code, refusal.line, owner.instead(names)) from None


def _differ(held: Members, news: Members) -> bool:
    """Whether new values are others than those that are there."""
    return any(name not in held or _sorted(held[name]) != _sorted(value) for name, value in news.items())


def _sorted(value: Any) -> str:
    """A value as a text that is the same for the same value."""
    return json.dumps(value, sort_keys=True)
