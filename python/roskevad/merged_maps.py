# SPDX-License-Identifier: MIT OR Apache-2.0
"""The map that two sides have made of one: what each thing of it is, and what both have changed otherwise."""
from array import array
from typing import Any, Callable, Iterable, Iterator, NamedTuple, Optional

from .choices import Choices, Side
from .class_notes import note_in, noted, with_note, with_some_note
from .compared_maps import MapNow, Stand, said
from .difference import COUNTED, MAP, called, head_of, layer_named, own_of, plainly, shown_value
from .merged_tilesets import Shared
from .own_members import OTHERS
from .renamed_maps import itself, things_of, values_of
from .rows import BASE
from .three_ways import ABSENT, Clash, is_same, merged_members, merged_order
from .tiled_maps import Members
from .told import Subject

#: The members of an object that say its shape together: it has one of them, or none.
SHAPES = 'ellipse', 'point', 'polygon', 'polyline', 'text', 'gid', 'template', 'capsule'
# The member of the map that is the version of Tiled.
_VERSION = 'tiledversion'
# How many tiles of a conflict are told in words.
_FEW = 3


class Conflict(NamedTuple):
    """What both sides have changed otherwise, or what could not be done."""

    #: What it is about.
    subject: Subject
    #: The name of a layer or an object, and the file or the name of a tileset; empty of the map.
    name: str
    #: What is in conflict: `removed`, `added`, `moved`, `order`, `size`, `cells`, `cell`, one that was chosen alone, `unsaid`, or the name of a
    #: member, of a property behind `property`.
    what: str
    #: How it was, as a file has it; None where it was not.
    base: Any
    #: How each side has it.
    ours: Any
    theirs: Any
    #: The same in words.
    words: str

    @property
    def key(self) -> str:
        """What names it where a side is chosen: what it is about, and what is in conflict. What lies outside a map is a matter of its size."""
        kind, id = self.subject
        what, cells = self.what, self.ours['cells'] if self.what in ('cells', 'cell') else ()
        if what == 'size' or what == 'cells' and not cells:
            return 'map/size'
        what = f'{what}/{cells[0][0]},{cells[0][1]}' if cells else what
        return f'map/{what}' if kind == 'map' else f'{kind}:{id}/{what}'

    def __str__(self) -> str:
        return f'{head_of(self.subject, self.name)}: {self.words}'


class Found:
    """What was found to be in conflict, by whether a side was chosen for it."""

    __slots__ = 'conflicts', 'settled', '_choices'

    def __init__(self, choices: Choices):
        self.conflicts: list[Conflict] = []
        self.settled: list[tuple[Conflict, Side]] = []
        self._choices = choices

    def is_said(self, key: str) -> bool:
        """Whether a side is chosen of this alone."""
        return self._choices.said(key) is not None

    def side_of(self, conflict: Conflict, can_be_theirs: bool = True) -> Side:
        """The side that is taken: ours where none is chosen, and where theirs can't be."""
        side = self._choices.side(conflict.key)
        if side is None or side == 'theirs' and not can_be_theirs:
            self.conflicts.append(conflict)
            return 'ours'
        self.settled.append((conflict, side))
        return side


def removed_by_ours(subject: Subject, base: Members, theirs: Members) -> Conflict:
    return Conflict(subject, theirs.get('name', ''), 'removed', base, None, theirs, 'removed by ours, changed by theirs; it stays removed')


class MergedMap(MapNow):
    """What a merge leads to. No document has it yet."""

    __slots__ = '_cells',

    def __init__(self, tree: Members, layers: dict[int, Stand], objects: dict[int, Stand], cells: dict[int, memoryview]):
        self.tree, self.layers, self.objects, self._cells = tree, layers, objects, cells

    def cells(self, layer: int) -> memoryview:
        return self._cells[layer]


class Joined:
    """Three maps of one size, whose things and tiles are named alike, and what comes of them."""

    __slots__ = 'maps', 'found', 'back', 'tiles_back', '_base', '_ours', '_theirs', '_tile_named', '_holders', '_children'

    def __init__(self, base: MapNow, ours: MapNow, theirs: MapNow, tile_named: Callable[[int], str], choices: Choices):
        self.maps = base, ours, theirs
        self._base, self._ours, self._theirs = (things_of(map) for map in self.maps)
        self._tile_named = tile_named
        self.found = Found(choices)
        # What theirs is taken of though ours has removed it, which is to be there again, and tiles of tilesets that are.
        self.back: set[Subject] = set()
        self.tiles_back: set[int] = set()
        # What is in the merged map, with the group or the layer that holds it.
        self._holders: dict[Subject, Subject] = {}
        self._children = [_children_of(things) for things in (self._base, self._ours, self._theirs)]

    def merged(self, shared: list[Shared], firsts: dict[int, int]) -> MergedMap:
        """The map. `firsts` are the first ids of the tilesets that only theirs has, with those that they get."""
        self._find_things()
        self._find_holders()
        while self._break_cycles() or self._keep_holders():
            pass
        layers, objects = dict[int, Stand](), dict[int, Stand]()
        self._place(MAP, layers, objects)
        cells = {id: self._cells(id, stand) for id, stand in layers.items() if stand.members['type'] == 'tilelayer'}
        found = MergedMap(self._tree(layers, objects), layers, objects, cells)
        found.tree['tilesets'] = [*self._tilesets(shared, firsts, values_of(found))]
        return found

    def side_of(self, subject: Subject, what: str, values: Iterable[Any], words: str, name: Optional[str] = None) -> Side:
        """The side that is taken in a conflict. The values are those of the base, of ours and of theirs."""
        base, ours, theirs = (None if value is ABSENT else value for value in values)
        stand = self._ours.get(subject) or self._theirs.get(subject)
        title = stand.members.get('name', '') if stand else ''
        return self.found.side_of(Conflict(subject, title if name is None else name, what, base, ours, theirs, words))

    def is_theirs(self, subject: Subject, what: str, values: Iterable[Any], words: str) -> bool:
        return self.side_of(subject, what, values, words) == 'theirs'

    # ---- what is there
    def _find_things(self) -> None:
        """What is in the merged map: what nobody has removed, or one side has removed and ours has changed."""
        for subject, stand in [*self._ours.items(), *self._theirs.items()]:
            if subject in self._holders:
                continue
            if subject in self._ours:
                self._find_ours(subject, stand)
            elif subject not in self._base:
                self._find_added(subject, stand)
            elif self._is_changed(subject, 2):
                if self.found.side_of(removed_by_ours(subject, self._base[subject].members, stand.members)) == 'theirs':
                    self.back.add(subject)

    def _find_ours(self, subject: Subject, stand: Stand) -> None:
        is_removed = subject in self._base and subject not in self._theirs
        if is_removed and not (self._is_changed(subject, 1) and self._is_kept(subject, 'removed by theirs, changed by ours; it stays')):
            return
        self._holders[subject] = _holder(subject, stand)

    def _find_added(self, subject: Subject, stand: Stand) -> None:
        """What theirs has added, unless ours has removed what it stands in, or its tileset."""
        holder, tile = _holder(subject, stand), stand.members.get('gid', 0)
        values = None, None, stand.members
        if holder != MAP and holder not in self._holders:
            if self.is_theirs(subject, 'added', values, f'added by theirs in {self._named(holder)}, which ours removed; it is not there'):
                self.back.add(subject)
        elif tile < 0:
            if self.is_theirs(subject, 'added', values, f'added by theirs with {self._tile_named(tile)}, whose tileset ours removed; it is not there'):
                self.tiles_back.add(tile)
        else:
            self._holders[subject] = holder

    def _is_kept(self, subject: Subject, words: str) -> bool:
        """Whether what theirs has removed stays."""
        sides = [things.get(subject) for things in (self._base, self._ours, self._theirs)]
        return not self.is_theirs(subject, 'removed', (None if stand is None else stand.members for stand in sides), words)

    def _is_changed(self, subject: Subject, side: int) -> bool:
        """Whether a side has changed what the base has: itself, where it stands, or its cells."""
        old, new = self._base[subject], (self._base, self._ours, self._theirs)[side][subject]
        if old.parent != new.parent or said(itself(subject, old.members)) != said(itself(subject, new.members)):
            return True
        is_tiles = subject.kind == 'layer' and old.members['type'] == new.members['type'] == 'tilelayer'
        return is_tiles and not is_same_cells(self.maps[0].cells(subject.id), self.maps[side].cells(subject.id))

    def _find_holders(self) -> None:
        for subject in [each for each in self._holders if each in self._ours and each in self._theirs]:
            ours, theirs = (_holder(subject, things[subject]) for things in (self._ours, self._theirs))
            base = _holder(subject, self._base[subject]) if subject in self._base else ours
            if theirs in (ours, base):
                continue
            is_there, words = theirs == MAP or theirs in self._holders, None
            if base != ours:
                words = f'moved {self._into(ours)} (ours), {self._into(theirs)} (theirs)'
            elif not is_there:
                words = f'moved {self._into(theirs)} by theirs, which is not there; it stays where it is'
            if words is None or self._is_moved(subject, words):
                self._holders[subject] = theirs if is_there else ours
                self.back.update(() if is_there else (subject,))

    def _is_moved(self, subject: Subject, words: str) -> bool:
        """Whether it goes where theirs has it."""
        stands = (things.get(subject) for things in (self._base, self._ours, self._theirs))
        return self.is_theirs(subject, 'moved', (None if stand is None else stand.parent for stand in stands), words)

    def _break_cycles(self) -> bool:
        """Has groups that would stand in one another stand where one side has them."""
        for subject, holder in self._holders.items():
            if subject in self._ours and holder != _holder(subject, self._ours[subject]) and subject in (above := self._above(holder)):
                words = f'moved {self._into(holder)} by theirs; with what ours moved they would stand in one another'
                turned, things = (above, self._theirs) if self._is_moved(subject, words) else ({subject}, self._ours)
                self._holders.update({each: _holder(each, things[each]) for each in turned if each in things})
                return True
        return False

    def _above(self, holder: Subject) -> set[Subject]:
        """A holder, and all that hold it."""
        found = set[Subject]()
        while holder != MAP and holder not in found:
            found.add(holder)
            holder = self._holders.get(holder, MAP)
        return found

    def _keep_holders(self) -> bool:
        """Keeps groups and layers that theirs has removed, where something stands in them."""
        missing = next((holder for holder in self._holders.values() if holder != MAP and holder not in self._holders), None)
        if missing is None:
            return False
        if self._is_kept(missing, 'removed by theirs; it stays, since ours has changed what stands in it'):
            self._holders[missing] = _holder(missing, self._ours[missing])
        else:
            self._drop_inside(missing)
        return True

    def _drop_inside(self, holder: Subject) -> None:
        """Takes out all that stands in what theirs has removed. That theirs is taken there settles its conflicts, too."""
        gone = {subject for subject in self._holders if holder in self._above(self._holders[subject])}
        self._holders = {subject: each for subject, each in self._holders.items() if subject not in gone}
        self.found.settled += [(each, 'theirs') for each in self.found.conflicts if each.subject in gone]
        self.found.conflicts = [each for each in self.found.conflicts if each.subject not in gone]

    def _named(self, holder: Subject) -> str:
        return next((layer_named(holder.id, map) for map in (self.maps[1], self.maps[2], self.maps[0]) if holder.id in map.layers), f'layer {holder.id}')

    def _into(self, holder: Subject) -> str:
        return 'out of all groups' if holder == MAP else f'into {self._named(holder)}'

    # ---- where it stands
    def _place(self, holder: Subject, layers: dict[int, Stand], objects: dict[int, Stand]) -> None:
        """Puts what stands in a group, in a layer or in none into the map, in order."""
        sides = [[each for each in children.get(holder, []) if self._holders.get(each) == holder] for children in self._children]
        base, ours, theirs = sides
        for subject in merged_order(base, ours, theirs, lambda both: self._moved_by_theirs(sides, both)):
            stand = Stand(holder.id, self._members(subject))
            if subject.kind == 'object':
                objects[subject.id] = stand
                continue
            layers[subject.id] = stand
            if stand.members['type'] in ('group', 'objectgroup'):
                self._place(subject, layers, objects)

    def _moved_by_theirs(self, sides: list[list[Subject]], both: set[Subject]) -> set[Subject]:
        """Of what both have moved in a list that of which theirs is taken."""
        found = set[Subject]()
        for subject in sorted(both):
            places = [side.index(subject) if subject in side else None for side in sides]
            if self.is_theirs(subject, 'order', places, f'moved to place {places[1]} (ours), {places[2]} (theirs)'):
                found.add(subject)
        return found

    # ---- what it is
    def _members(self, subject: Subject) -> Members:
        """What a layer or an object is, with what nobody merges of it as ours has it."""
        base, ours, theirs = (None if subject not in things else things[subject].members for things in (self._base, self._ours, self._theirs))
        if ours is None or theirs is None:
            return ours or theirs or {}
        others = {name: value for name, value in ours.items() if name in OTHERS[subject.kind] and name != 'properties'}
        return {**others, **self._merged_owner(subject, own_of(subject.kind, base or {}), own_of(subject.kind, ours), own_of(subject.kind, theirs),
                                               [(each or {}).get('properties', []) for each in (base, ours, theirs)])}

    def _merged_owner(self, subject: Subject, base: Members, ours: Members, theirs: Members, properties: list[list[Members]]) -> Members:
        if subject.kind == 'object':
            base, ours, theirs = self._of_one_shape(subject, base, ours, theirs)
        found = merged_members(base, ours, theirs, lambda clash: self._member(subject, clash))
        if found.get('gid', 0) < 0:
            words = f'{self._tile_named(found["gid"])} by theirs, whose tileset ours removed'
            if self.is_theirs(subject, 'gid', (base.get('gid'), ours.get('gid'), None), words):
                self.tiles_back.add(found['gid'])
            found = {name: value for name, value in found.items() if name != 'gid'}
            found.update({'gid': ours['gid']} if 'gid' in ours else {})
        listed = self._properties(subject, properties)
        return {**found, 'properties': listed} if listed else found

    def _of_one_shape(self, subject: Subject, base: Members, ours: Members, theirs: Members) -> tuple[Members, Members, Members]:
        """Members in which both have the shape that is taken, where both have given it another one."""
        shapes = [{name: each[name] for name in SHAPES if name in each} for each in (base, ours, theirs)]
        kinds = [{*shape} for shape in shapes]
        if kinds[1] == kinds[2] or kinds[0] in kinds[1:]:
            return base, ours, theirs
        names = [' and '.join(kind) or 'a rectangle' for kind in kinds]
        is_theirs = self.is_theirs(subject, 'shape', shapes, f'shape: {names[0]} -> {names[1]} (ours), {names[2]} (theirs)')
        taken = shapes[2 if is_theirs else 1]
        mine, other = ({**{name: value for name, value in each.items() if name not in SHAPES}, **taken} for each in (ours, theirs))
        return base, mine, other

    def _member(self, subject: Subject, clash: Clash, name: Optional[str] = None) -> Any:
        """The value of a member that is taken. Each save of Tiled writes its version: the newer one is."""
        if clash.name == _VERSION and subject == MAP and clash.ours is not ABSENT and clash.theirs is not ABSENT:
            return max(clash.ours, clash.theirs, key=_numbers)
        if clash.name == 'gid':
            told = ['none' if value is ABSENT else self._tile_named(value) for value in clash[1:]]
        else:
            told = [shown_value(None if value is ABSENT else value, value is not ABSENT) for value in clash[1:]]
        words = f'{called(clash.name)} {told[0]} -> {told[1]} (ours), {told[2]} (theirs)'
        return clash.theirs if self.side_of(subject, clash.name, clash[1:], words, name) == 'theirs' else clash.ours

    def _properties(self, subject: Subject, sides: list[list[Members]]) -> list[Members]:
        """Properties, each with its type as one: that of one side where only that has changed it."""
        tables = [{each['name']: each for each in side} for side in sides]
        found = dict[str, Members]()
        for name in {**tables[1], **tables[2]}:
            base, ours, theirs = (table.get(name, ABSENT) for table in tables)
            value = ours if is_same(ours, theirs) or is_same(base, theirs) else theirs if is_same(base, ours) else self._property(
                subject, name, (base, ours, theirs))
            if value is not ABSENT:
                found[name] = value
        orders = [[name for name in table if name in found] for table in tables]
        return [found[name] for name in merged_order(orders[0], orders[1], orders[2], lambda both: set())]

    def _property(self, subject: Subject, name: str, sides: tuple[Any, Any, Any]) -> Any:
        """A property that both have changed: of one class member by member, else the one that is taken."""
        base, ours, theirs = sides
        if all(map(_is_of_a_class, sides)) and len({said([each.get(name) for name in ('type', 'propertytype')]) for each in sides}) == 1:
            value = merged_members(base['value'], ours['value'], theirs['value'], lambda clash: self._member_of_class(subject, name, clash))
            notes = note_in(ours), note_in(with_some_note(theirs, ours))
            return with_note({**ours, 'value': value}, _note_of(value, ours['value'], theirs['value'], *notes))
        told = ['none' if each is ABSENT else shown_value(each['value']) for each in sides]
        if told[1] == told[2]:
            told = ['none' if each is ABSENT else f'{text} ({each.get("propertytype") or each.get("type", "string")})' for each, text in zip(sides, told)]
        words = f'property {plainly(name)}: {told[0]} -> {told[1]} (ours), {told[2]} (theirs)'
        return theirs if self.is_theirs(subject, f'property {name}', sides, words) else ours

    def _member_of_class(self, subject: Subject, name: str, clash: Clash) -> Any:
        """The value of a member of a class that is taken."""
        told = [shown_value(None if value is ABSENT else value, value is not ABSENT) for value in clash[1:]]
        words = f'property {plainly(name)}: {plainly(clash.name)} {told[0]} -> {told[1]} (ours), {told[2]} (theirs)'
        return clash.theirs if self.is_theirs(subject, f'property {name}.{clash.name}', clash[1:], words) else clash.ours

    # ---- cells
    def _cells(self, id: int, stand: Stand) -> memoryview:
        """The values of a tile layer: where only one side has changed a cell, those of that side."""
        base, ours, theirs = (map.cells(id) if id in map.layers and map.layers[id].members['type'] == 'tilelayer' else None for map in self.maps)
        if theirs is None:
            assert ours is not None
            return ours
        empty = memoryview(array('I', bytes(4 * len(theirs))))
        before = empty if base is None else base
        return self._joined_cells(id, before, empty if ours is None else ours, theirs)

    def _joined_cells(self, id: int, base: memoryview, ours: memoryview, theirs: memoryview) -> memoryview:
        wide, both = self.maps[1].tree['width'], list[tuple[int, int]]()
        found = array('I', ours)
        for start in range(0, len(theirs), wide):
            if is_same_cells(base[start:start + wide], theirs[start:start + wide]):
                continue
            parts = [side[start:start + wide] for side in (base, ours, theirs)]
            if theirs.format == 'I' and is_same_cells(parts[0], parts[1]):
                found[start:start + wide] = array('I', parts[2])
                continue
            rows = (part.tolist() for part in parts)
            for x, (old, mine, other) in enumerate(zip(*rows)):
                if other in (old, mine):
                    continue
                if mine == old and other >= 0:
                    found[start + x] = other
                else:
                    both.append((x, start // wide))
        alone = [[cell] for cell in both if self.found.is_said(f'layer:{id}/cell/{cell[0]},{cell[1]}')]
        apart = {cell for cell, in alone}
        for region in [*alone, *regions([cell for cell in both if cell not in apart])]:
            sides = [[side[y * wide + x] for x, y in region] for side in (base, ours, theirs)]
            if self._cells_are_theirs(id, region, sides, 'cell' if region[0] in apart else 'cells'):
                for (x, y), value in zip(region, sides[2]):
                    found[y * wide + x] = max(value, 0)
                self.tiles_back.update(value for value in sides[2] if value < 0)
        return memoryview(found)

    def _cells_are_theirs(self, id: int, region: list[tuple[int, int]], sides: list[list[int]], what: str) -> bool:
        (left, right), (top, bottom) = ((min(line), max(line)) for line in zip(*region))
        count = f'{len(region)} cells' if len(region) > 1 else '1 cell'
        area = {'x': left, 'y': top, 'width': right - left + 1, 'height': bottom - top + 1, 'count': len(region)}
        told = [self._few_tiles(side) for side in sides]
        values = ({**area, 'cells': [*map(list, zip(*zip(*region), side))], 'tiles': [*map(self._tile_named, side)]} for side in sides)
        return self.is_theirs(Subject('layer', id), what, values,
                              f'{count} in {left},{top} to {right},{bottom}: {told[1]} (ours), {told[2]} (theirs)')

    def _few_tiles(self, values: list[int]) -> str:
        names = [*dict.fromkeys(self._tile_named(value) for value in values)]
        return ', '.join(names[:_FEW]) + (f' and {len(names) - _FEW} more' if len(names) > _FEW else '')

    # ---- the map itself
    def _tree(self, layers: dict[int, Stand], objects: dict[int, Stand]) -> Members:
        trees = [map.tree for map in self.maps]
        others = {name: value for name, value in trees[1].items() if name in OTHERS['map'] and name != 'properties'}
        base, ours, theirs = (own_of('map', tree) for tree in trees)
        owned = self._merged_owner(MAP, base, ours, theirs, [tree.get('properties', []) for tree in trees])
        counts = [self._next(name, [tree[name] for tree in trees], ids) for name, ids in zip(COUNTED, (layers, objects))]
        return {**others, **owned, **dict(zip(COUNTED, counts))}

    def _next(self, name: str, sides: list[int], ids: Iterable[int]) -> int:
        base, ours, theirs = sides
        value = ours if theirs in (base, ours) else theirs if base == ours else max(ours, theirs)
        return max([value, *(id + 1 for id in ids)])

    def _tilesets(self, shared: list[Shared], firsts: dict[int, int], values: set[int]) -> Iterator[Members]:
        """The tilesets of the merged map, in their order."""
        used = {value & BASE for value in values}
        goals = sorted([*(each.ours['firstgid'] for each in shared if each.ours), *firsts.values()])
        ends = dict(zip(goals, [*goals[1:], BASE + 1]))
        for each in shared:
            if each.ours is None:
                if each.theirs is not None and each.theirs['firstgid'] in firsts:
                    yield {**each.theirs, 'firstgid': firsts[each.theirs['firstgid']]}
                elif each.theirs is not None and each.base is not None and _is_other(each.base, each.theirs):
                    if self._tileset_is_theirs(each, 'removed by ours, changed by theirs; it stays removed'):
                        self.tiles_back.add(-each.theirs['firstgid'] - 1)
                continue
            first = each.ours['firstgid']
            if each.base is not None and each.theirs is None:
                is_used = any(first <= value < ends[first] for value in used)
                if not is_used and not _is_other(each.base, each.ours):
                    continue
                words = 'removed by theirs, in use by ours; it stays' if is_used else 'removed by theirs, changed by ours; it stays'
                if self._tileset_is_theirs(each, words, not is_used):
                    continue
            yield self._tileset(each, first)

    def _tileset(self, shared: Shared, first: int) -> Members:
        if shared.theirs is None:
            return shared.ours or {}
        base, ours, theirs = (own_of('tileset', each or {}) for each in shared)
        subject = Subject('tileset', first)
        if ('source' in ours) != ('source' in theirs) and not is_same(base, ours) and not is_same(base, theirs):
            words = f'kept {_kept(base)} -> {_kept(ours)} (ours), {_kept(theirs)} (theirs)'
            return {'firstgid': first, **(theirs if self.side_of(subject, 'source', (base, ours, theirs), words, shared.name) == 'theirs' else ours)}
        return {'firstgid': first, **merged_members(base, ours, theirs, lambda clash: self._member(subject, clash, shared.name))}

    def _tileset_is_theirs(self, shared: Shared, words: str, can_be_theirs: bool = True) -> bool:
        first = (shared.ours or shared.theirs or {})['firstgid']
        return self.found.side_of(Conflict(Subject('tileset', first), shared.name, 'removed', *shared, words), can_be_theirs) == 'theirs'


def _numbers(version: Any) -> list[int]:
    """The numbers of a version, which are compared."""
    return [int(each) for each in str(version).split('.') if each.isdigit()]


def _kept(tileset: Members) -> str:
    """Where a tileset is kept, in words."""
    return f'in the file {plainly(tileset["source"])}' if 'source' in tileset else 'in the map' if tileset else 'nowhere'


def _note_of(merged: Members, ours: Members, theirs: Members, mine: Members, other: Members) -> Members:
    """What is noted of the merged members of a class: of each that of the side whose value it has."""
    found: Members = {}
    for name, value in merged.items():
        one, another, own = ours.get(name, ABSENT), theirs.get(name, ABSENT), noted(mine, name)
        if all(isinstance(each, dict) for each in (value, one, another)):
            found[name] = with_note(own, _note_of(value, one, another, note_in(own), note_in(noted(other, name))))
        else:
            found[name] = own if is_same(value, one) else noted(other, name)
    return {name: own for name, own in found.items() if own}


def _is_of_a_class(each: Any) -> bool:
    """Whether a property is there, and is of a class."""
    return each is not ABSENT and isinstance(each.get('value'), dict)


def _is_other(one: Members, another: Members) -> bool:
    return not is_same(own_of('tileset', one), own_of('tileset', another))


def _holder(subject: Subject, stand: Stand) -> Subject:
    return Subject('layer', stand.parent) if stand.parent else MAP


def _children_of(things: dict[Subject, Stand]) -> dict[Subject, list[Subject]]:
    """What stands in each group and layer, in order."""
    found: dict[Subject, list[Subject]] = {}
    for subject, stand in things.items():
        found.setdefault(_holder(subject, stand), []).append(subject)
    return found


def is_same_cells(one: memoryview, other: memoryview) -> bool:
    return one.tobytes() == other.tobytes() if one.format == other.format else one.tolist() == other.tolist()


def regions(cells: list[tuple[int, int]]) -> Iterator[list[tuple[int, int]]]:
    """Cells that touch one another, at corners too, together, by rows."""
    left = {*cells}
    for cell in cells:
        if cell in left:
            left.remove(cell)
            part = [cell]
            for x, y in part:
                around = [(x + by, y + down) for down in (-1, 0, 1) for by in (-1, 0, 1) if (x + by, y + down) in left]
                left.difference_update(around)
                part += around
            yield sorted(part, key=lambda each: each[::-1])
