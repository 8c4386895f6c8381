# SPDX-License-Identifier: MIT OR Apache-2.0
"""Maps whose things are named as another map names them: layers and objects by its ids, and tiles by its first ids."""
from array import array
from typing import Any, Iterable, Iterator, NamedTuple, Optional

from .class_types import ClassTypes
from .compared_maps import MapNow, Stand, said
from .own_members import OTHERS
from .rows import BASE
from .tiled_maps import Members, drawn
from .told import Subject

#: New ids of layers and objects, by what they are.
Names = dict[Subject, int]
# What tells an object or a layer from others even where it was changed.
_LOOKS = {'object': ('name', 'type', 'width', 'height', 'gid'), 'layer': ('name', 'type')}


def things_of(map: MapNow) -> dict[Subject, Stand]:
    """All layers and objects."""
    layers = {Subject('layer', id): stand for id, stand in map.layers.items()}
    return {**layers, **{Subject('object', id): stand for id, stand in map.objects.items()}}


def stand_of(map: MapNow, subject: Subject) -> Stand:
    """Where a layer or an object that is there stands."""
    return map.layers[subject.id] if subject.kind == 'layer' else map.objects[subject.id]


def itself(subject: Subject, members: Members) -> Members:
    """What is said of a layer or an object itself, and of its properties, but not of what stands in it."""
    others = OTHERS[subject.kind] - {'properties'}
    return {name: value for name, value in members.items() if name not in others}


class RenamedMap(MapNow):
    """A map in which layers and objects have other ids, and what refers to them along."""

    __slots__ = '_inner', '_were'

    def __init__(self, inner: MapNow, names: Names, types: ClassTypes):
        self._inner = inner
        self._were = {id: subject.id for subject, id in names.items() if subject.kind == 'layer'}
        self.document = inner.document
        naming = _Naming(names, types)
        self.tree = {**naming.referring(inner.tree), 'layers': [naming.layer(each) for each in inner.tree['layers']]}
        self.layers: dict[int, Stand] = {}
        self.objects: dict[int, Stand] = {}
        self._note(self.tree['layers'], 0)

    def cells(self, layer: int) -> memoryview:
        return self._inner.cells(self._were.get(layer, layer))


class MapWithout(MapNow):
    """A map without some of its layers and objects."""

    __slots__ = '_inner',

    def __init__(self, inner: MapNow, gone: set[Subject]):
        self._inner = inner
        self.document, self.tree = inner.document, inner.tree
        self.layers = {id: stand for id, stand in inner.layers.items() if Subject('layer', id) not in gone}
        self.objects = {id: stand for id, stand in inner.objects.items() if Subject('object', id) not in gone}

    def cells(self, layer: int) -> memoryview:
        return self._inner.cells(layer)


def renamed(map: MapNow, names: Names, types: ClassTypes) -> MapNow:
    """A map with other ids; the same where there are none."""
    return RenamedMap(map, names, types) if names else map


class _Naming(NamedTuple):
    """New ids, and what is known of classes that have ids in them."""

    names: Names
    types: ClassTypes

    def layer(self, layer: Members) -> Members:
        found: Members = {**self.referring(layer), 'id': self.names.get(Subject('layer', layer['id']), layer['id'])}
        if layer['type'] == 'group':
            found['layers'] = [self.layer(each) for each in layer['layers']]
        elif layer['type'] == 'objectgroup':
            found['objects'] = [{**self.referring(each), 'id': self._object(each['id'])} for each in layer['objects']]
        return found

    def referring(self, members: Members) -> Members:
        """Members in whose properties objects have their new ids."""
        if not members.get('properties'):
            return dict(members)
        return {**members, 'properties': [self.types.renumbered(each, self._object) for each in members['properties']]}

    def _object(self, id: int) -> int:
        return self.names.get(Subject('object', id), id)


# ---- tiles


class Counting(NamedTuple):
    """How another map counts tiles that ours counts otherwise: its first ids with those of ours, and where the next tileset of ours begins.
    A first id of None is that of a tileset that ours has not."""

    firsts: tuple[tuple[int, Optional[int], int], ...]

    def is_plain(self) -> bool:
        """Whether both count alike, and each tile has room."""
        return all(first == ours for first, ours, _ in self.firsts)

    def value(self, value: int) -> int:
        """A value of the other map as ours counts it; below 0, a number of its own, where ours has no room for its tile."""
        base = value & BASE
        found = max((each for each in self.firsts if each[0] <= base), default=None)
        if not base or found is None:
            return value
        first, ours, end = found
        return -value - 1 if ours is None or base - first >= end - ours else value - first + ours


class CountedMap(MapNow):
    """A map whose tiles are counted as ours counts them."""

    __slots__ = '_inner', '_counting', '_known'

    def __init__(self, inner: MapNow, counting: Counting):
        self._inner, self._counting = inner, counting
        self._known = dict[int, int]()
        self.document = inner.document
        self.tree = {**inner.tree, 'layers': [self._layer(each) for each in inner.tree['layers']]}
        self.layers: dict[int, Stand] = {}
        self.objects: dict[int, Stand] = {}
        self._note(self.tree['layers'], 0)
        # What the other one is without is in its tree still.
        self.layers = {id: stand for id, stand in self.layers.items() if id in inner.layers}
        self.objects = {id: stand for id, stand in self.objects.items() if id in inner.objects}

    def _layer(self, layer: Members) -> Members:
        if layer['type'] == 'group':
            return {**layer, 'layers': [self._layer(each) for each in layer['layers']]}
        if layer['type'] == 'objectgroup':
            return {**layer, 'objects': [self._object(each) for each in layer['objects']]}
        return layer

    def _object(self, members: Members) -> Members:
        return {**members, 'gid': self._counting.value(members['gid'])} if 'gid' in members else members

    def cells(self, layer: int) -> memoryview:
        """The values; those without room are below 0."""
        found, known = self._inner.cells(layer), self._known
        values = {*found}
        for value in values - known.keys():
            known[value] = self._counting.value(value)
        has_room = all(known[value] >= 0 for value in values)
        return memoryview(array('I' if has_room else 'q', map(known.__getitem__, found)))


def counted(map: MapNow, counting: Counting) -> MapNow:
    """A map whose tiles are counted otherwise; the same where they are counted alike, and none lacks room."""
    plain = counting.is_plain() and all(counting.value(value) == value for value in values_of(map))
    return map if plain else CountedMap(map, counting)


def values_of(map: MapNow) -> set[int]:
    """The values of all cells and objects, which are kept with the map."""
    known: Optional[set[int]] = getattr(map, 'values', None)
    if known is None:
        known = map.values = _values_of(map)
    return known


def _values_of(map: MapNow) -> set[int]:
    found: set[int] = {stand.members['gid'] for stand in map.objects.values() if 'gid' in stand.members}
    for id, stand in map.layers.items():
        found.update(map.cells(id).tolist() if stand.members['type'] == 'tilelayer' else ())
    return found


# ---- what stands under another id


def another_names(base: MapNow, side: MapNow) -> Names:
    """The ids that things of the base have on a side, where an earlier merge gave them other ones: what stands under the old id there is
    another thing, of another name and at another place, and one new thing alone is as that of the base."""
    old, new = things_of(base), things_of(side)
    found: Names = {}
    for subject, stand in old.items():
        if subject in new and _is_another(subject, base, side):
            free = [each for each in new if each not in old and each.kind == subject.kind and each.id not in found.values()]
            twin = _only(each for each in free if _is_alike(subject, base, each, side)) or _only(
                each for each in free if stand.members.get('name') and _looks(each, new[each]) == _looks(subject, stand))
            if twin is not None:
                found[subject] = twin.id
    return found


def _only(found: Iterable[Subject]) -> Optional[Subject]:
    listed = [*found]
    return listed[0] if len(listed) == 1 else None


def _is_another(subject: Subject, base: MapNow, side: MapNow) -> bool:
    """Whether a side has another thing under an id: an object of another name at another place, or a layer of another name in which hardly
    anything is as it was."""
    old, new = (stand_of(map, subject).members for map in (base, side))
    if subject.kind == 'layer' and old['type'] != new['type']:
        return True
    if old.get('name') == new.get('name'):
        return False
    if subject.kind == 'object':
        return [old.get(name) for name in ('x', 'y')] != [new.get(name) for name in ('x', 'y')]
    return not _shares(subject.id, base, side)


def _shares(layer: int, base: MapNow, side: MapNow) -> bool:
    """Whether a layer has half of its tiles, or one thing that stands in it, on both."""
    kind = base.layers[layer].members['type']
    if kind == 'tilelayer':
        cells = base.cells(layer).tolist()
        same = sum(value != 0 and value == other for value, other in zip(cells, side.cells(layer)))
        return 2 * same >= max(sum(map(bool, cells)), 1)
    if kind == 'imagelayer':
        return bool(base.layers[layer].members.get('image') == side.layers[layer].members.get('image'))
    inside = [{*map.objects_in(layer), *map.layers_in(layer)} for map in (base, side)]
    return bool(inside[0] & inside[1])


def _looks(subject: Subject, stand: Stand) -> str:
    return said([stand.members.get(name) for name in _LOOKS[subject.kind]])


def _is_alike(one: Subject, base: MapNow, other: Subject, side: MapNow) -> bool:
    """Whether a thing is as one of another map, but for its id, what it refers to, and what stands in it."""
    told = [_told(subject, stand_of(map, subject)) for subject, map in ((one, base), (other, side))]
    if told[0] != told[1]:
        return False
    return one.kind == 'object' or _insides(one.id, base) == _insides(other.id, side)


def _told(subject: Subject, stand: Stand) -> str:
    members = itself(subject, stand.members)
    return said({**members, 'properties': [each['name'] for each in members.get('properties', [])]})


def _insides(layer: int, map: MapNow) -> Any:
    if map.layers[layer].members['type'] == 'tilelayer':
        return map.cells(layer).tolist()
    return len(map.objects_in(layer)), len(map.layers_in(layer))


def is_twin(subject: Subject, one: MapNow, other: MapNow) -> bool:
    """Whether what both have under one id is the same, with all that stands in it, at one place."""
    stands = [stand_of(map, subject) for map in (one, other)]
    if stands[0].parent != stands[1].parent or said(itself(subject, stands[0].members)) != said(itself(subject, stands[1].members)):
        return False
    if subject.kind == 'object':
        return True
    kinds = [stand.members['type'] for stand in stands]
    if kinds[0] != kinds[1]:
        return False
    if kinds[0] == 'tilelayer':
        return one.cells(subject.id).tolist() == other.cells(subject.id).tolist()
    inside = [[*(Subject('layer', id) for id in map.layers_in(subject.id)), *(Subject('object', id) for id in map.objects_in(subject.id))]
              for map in (one, other)]
    return inside[0] == inside[1] and all(is_twin(each, one, other) for each in inside[0])


def freed(map: MapNow, wanted: Names, first: dict[str, int]) -> Names:
    """New ids, from first ones on, for what has one that others are to get."""
    got = {Subject(subject.kind, id) for subject, id in wanted.items()}
    found: Names = {}
    for subject in things_of(map):
        if subject in got and subject not in wanted:
            found[subject] = first[subject.kind]
            first[subject.kind] += 1
    return found


def numbers_in_classes(map: MapNow, ids: set[int], types: ClassTypes) -> Iterator[tuple[str, int]]:
    """Numbers in properties of classes that are such ids, where it isn't known whether they mean objects: the name of each property, and the
    number."""
    owners = [map.tree, *drawn(map.tree['layers']), *(stand.members for stand in map.objects.values())]
    for owner in owners:
        for each in owner.get('properties', []):
            yield from ((each['name'], number) for number in types.unknown(each) if number in ids)
