# SPDX-License-Identifier: MIT OR Apache-2.0
"""Two sides of one map brought together: what theirs has changed since both began is done to ours, as one step."""
import os
from typing import TYPE_CHECKING, Any, Iterator, Mapping, NamedTuple, Optional, Union

from .choices import Choices, Side, Take
from .class_types import ClassTypes, types_of
from .compared_maps import MapNow, Shift, Stand, copied, held
from .difference import MAP, Change, Tiles, head_of, told_changes
from .difference_lines import Way, lead
from .framed_maps import Framed, frame
from .merged_maps import Conflict as Conflict, Joined, MergedMap
from .merged_tilesets import Shared, added_firsts, counting, numbers, shared_tilesets
from .renamed_maps import MapWithout, Names, another_names, counted, freed, is_twin, numbers_in_classes, renamed, stand_of, things_of
from .rows import BASE
from .same_tilesets import first_id, in_turn
from .told import Subject

if TYPE_CHECKING:
    from .document import Document

#: The text of the step that a merge is.
STEP = 'Merge'


class Merge(NamedTuple):
    """What a merge has done, and what it could not do."""

    #: The document of ours, which has it.
    document: 'Document'
    #: What differs from ours as it was.
    changes: tuple[Change, ...]
    #: What both sides have changed otherwise, and what no line can do. It is as ours has it.
    conflicts: tuple[Conflict, ...]
    #: What else is to be known, in words: what has another id now.
    notices: tuple[str, ...]
    #: The lines for all edits that were done.
    lines: tuple[str, ...]
    #: What both sides have changed otherwise, and a side was taken of: which one.
    settled: tuple[tuple[Conflict, Side], ...]


#: By how many columns and rows all in a map was moved, by its side.
Offsets = Mapping[Side, tuple[int, int]]


def merge(
    base: 'Document', ours: 'Document', theirs: 'Document', take: Optional[Take] = None, offset: Optional[Offsets] = None,
    project: Union[str, 'os.PathLike[str]', None] = None,
) -> Merge:
    """Does to `ours` what `theirs` has changed since `base`, as one step, a macro of the text Merge; where nothing is to be done there is none.
    What both have changed to different values is told, and stays as ours has it, unless `take` says a side: one for all, or a dict of
    sides by the keys of conflicts. `offset` says by how many columns and rows a side has moved all in the map, where that is guessed
    otherwise. `project` is a file of Tiled's that says which members of classes mean objects. Raises TypeError where one of them is no
    document; ValueError where a key is of no conflict, or the file is no project; OSError; Refused where a map can't have the size of
    another one."""
    from .document import Document

    for each in (base, ours, theirs):
        if not isinstance(each, Document):
            raise TypeError(f'a merge is of documents: {type(each).__name__}')
    choices = Choices(take)
    found = merged(base, ours, theirs, choices, offset, project)
    if choices.unmet():
        raise ValueError(f'no conflict has this key: {choices.unmet()[0]}')
    do_merge(ours, found)
    return found._replace(document=ours)


def merged(
    base: 'Document', ours: 'Document', theirs: 'Document', choices: Choices, offset: Optional[Offsets] = None,
    project: Union[str, 'os.PathLike[str]', None] = None,
) -> Merge:
    """What a merge would do, tried on copies."""
    types = types_of(project)
    with copied(*map(held, (base, ours, theirs))) as (first, mine, other):
        return _Merging(first, mine, other, choices, dict(offset or {}), types).found()


def do_merge(ours: 'Document', found: Merge) -> None:
    """Does the lines of a merge, on all cells."""
    with ours.macro(STEP):
        if found.lines and ours.selection.runs:
            ours.select_none()
        for line in found.lines:
            ours._edit(line)


class _Merging:
    """A merge on copies of three maps."""

    __slots__ = '_base', '_ours', '_theirs', '_choices', '_offset', '_types', '_way', '_notices', '_conflicts', '_settled', '_first', '_renamed'

    def __init__(
        self, base: 'Document', ours: 'Document', theirs: 'Document', choices: Choices, offset: Offsets, types: ClassTypes,
    ):
        self._base, self._ours, self._theirs = base, ours, theirs
        self._choices, self._offset, self._types = choices, offset, types
        self._way = Way(ours)
        self._notices: list[str] = []
        self._conflicts: list[Conflict] = []
        self._settled: dict[str, tuple[Conflict, Side]] = {}
        # The first free ids.
        self._first: dict[str, int] = {}
        # The new ids of theirs, one round behind the other.
        self._renamed: list[Names] = []

    def found(self) -> Merge:
        before = self._ours.outline()
        framed = self._framed()
        goal = self._goal(framed)
        changes = [*_resized(before, self._ours, framed), *told_changes(MapNow(self._ours), goal)]
        lead(self._way, goal)
        left = told_changes(MapNow(self._ours), goal)
        self._conflicts += [Conflict(each.subject, each.name, 'unsaid', each.after, each.before, each.after, f'no edit here can do this: {each.words}')
                            for each in left]
        return Merge(self._ours, tuple(changes), tuple(self._conflicts), tuple(self._notices), tuple(self._way.lines), tuple(self._settled.values()))

    def _framed(self) -> Framed:
        """Gives all three the size of the merged map."""
        shifts = {side: Shift(*by) for side, by in self._offset.items()}
        framed = frame((self._base, self._ours, self._theirs), self._choices, shifts)
        self._conflicts += framed.found.conflicts
        self._settled.update((each.key, (each, side)) for each, side in framed.found.settled)
        self._notices += framed.notices
        self._way.lines += framed.lines
        return framed

    def _goal(self, framed: Framed) -> MergedMap:
        base, ours, theirs = self._named_alike(*framed.maps)
        self._conflicts = [self._with_new_id(each) for each in self._conflicts]
        renumbered = [*in_turn([*numbers(shared_tilesets(base, ours, theirs), ours, theirs)])]
        for old, new in renumbered:
            if self._way.say(f'tileset number {old} {new}'):
                self._notices.append(f'the tileset of the first id {old} has the first id {new} now, and its tiles go along')
        ours = MapNow(self._ours) if renumbered else ours
        joined, goal = self._joined(framed, base, ours, theirs)
        known = {(each.subject, each.what) for each in self._conflicts if each.what == 'removed'}
        # What lies outside the map of ours is not told of a layer that is not there.
        gone = {each.subject for each in joined.found.conflicts if each.what == 'added'}
        self._conflicts = [each for each in self._conflicts if each.what != 'cells' or each.subject not in gone]
        self._conflicts += [each for each in joined.found.conflicts if (each.subject, each.what) not in known]
        self._tell_dangling(goal, ours, theirs)
        return goal

    def _joined(self, framed: Framed, base: MapNow, ours: MapNow, theirs: MapNow) -> tuple[Joined, MergedMap]:
        """What comes of the three. Where theirs is taken of what ours has removed, that is there again as if theirs had added it."""
        tilesets, known = set[int](), set[Subject]()
        while True:
            shared = shared_tilesets(base, ours, theirs)
            firsts = added_firsts(shared, ours, theirs, tilesets)
            old, other = _counted_alike(base, theirs, shared, firsts)
            joined = Joined(old, framed.uncut(1, old, ours), framed.uncut(2, old, other), _Named(shared, firsts).tile, self._choices)
            goal = joined.merged(shared, firsts)
            self._settled.update((each.key, (each, side)) for each, side in joined.found.settled)
            missing = {first_id(each.theirs) for each in shared if each.theirs and not each.ours} - firsts.keys()
            back = missing & {_tileset_of(value, theirs) for value in joined.tiles_back}
            if not back and joined.back <= known:
                return joined, goal
            tilesets |= back
            if not joined.back <= known:
                known |= joined.back
                base = self._without(joined.back, base, ours, theirs)

    def _without(self, back: set[Subject], base: MapNow, ours: MapNow, theirs: MapNow) -> MapNow:
        """The base without what is to be there again, without what that stands in, and without what stands in it and ours has not."""
        mine, other = things_of(ours), things_of(theirs)
        holders = {subject: [*_holders(subject, other)] for subject in other}
        above = {holder for subject in back if subject in other for holder in holders[subject]}
        # Of what theirs has only moved, ours may have removed what stands in it.
        lost = {subject for subject in back if subject not in mine}
        inside = {subject for subject in other if self._is_back(subject, holders[subject], lost)}
        return MapWithout(base, {subject for subject in above | inside if subject not in mine})

    def _is_back(self, subject: Subject, holders: list[Subject], back: set[Subject]) -> bool:
        """Whether it is to be there again, alone or with what it stands in, and ours is not taken there."""
        return subject in back or not back.isdisjoint(holders) and self._choices.said(f'{subject.kind}:{subject.id}/removed') != 'ours'

    # ---- ids
    def _named_alike(self, *maps: MapNow) -> tuple[MapNow, MapNow, MapNow]:
        """The maps with ids that are the same for the same things: those of ours."""
        base, ours, theirs = maps
        self._first = {kind: max(map.tree[f'next{kind}id'] for map in maps) for kind in ('layer', 'object')}
        names = another_names(base, ours)
        self._notices += [f'{_told(subject, base)} has the id {id} in ours, since an earlier merge' for subject, id in names.items()]
        theirs = self._renamed_theirs({**_of(names, theirs), **freed(theirs, names, self._first)}, theirs, names)
        base = renamed(base, names, self._types)
        found = another_names(base, theirs)
        self._notices += [f'{_told(subject, base)} has the id {id} in theirs, since an earlier merge' for subject, id in found.items()]
        back = {Subject(subject.kind, id): subject.id for subject, id in found.items()}
        theirs = self._renamed_theirs({**back, **freed(theirs, back, self._first)}, theirs, back)
        base, theirs = self._apart(base, ours, theirs)
        clashing = self._clashing(base, ours, theirs)
        return base, ours, self._renamed_theirs(clashing, self._without_strangers(base, ours, theirs), {})

    def _without_strangers(self, base: MapNow, ours: MapNow, theirs: MapNow) -> MapNow:
        """Theirs, in which what means an object that is not there means none, where ours has added another one under that id."""
        gone: Names = {}
        for subject, name, id in self._dangling(theirs):
            if id in ours.objects and id not in base.objects:
                gone[Subject('object', id)] = 0
                self._notices.append(f'{_told(subject, theirs)} of theirs: property {name} meant an object that is not there, and means none now')
        return renamed(theirs, gone, self._types)

    def _renamed_theirs(self, names: Names, theirs: MapNow, known: Names) -> MapNow:
        """Theirs with new ids. They are noted, and told but for those that are known."""
        self._renamed.append(names)
        for subject, id in names.items():
            if subject not in known:
                self._notices.append(f'{_told(subject, theirs)} of theirs has the id {id} now')
        ids = {subject.id for subject in names if subject.kind == 'object'}
        for name, number in numbers_in_classes(theirs, ids, self._types) if ids else ():
            self._notices.append(f'the property {name} of theirs has the number {number} in it: look whether it means that object')
        return renamed(theirs, names, self._types)

    def _with_new_id(self, conflict: Conflict) -> Conflict:
        """A conflict about something of theirs, by its new id."""
        subject = conflict.subject
        for names in self._renamed:
            subject = Subject(subject.kind, names.get(subject, subject.id))
        return conflict._replace(subject=subject)

    def _apart(self, base: MapNow, ours: MapNow, theirs: MapNow) -> tuple[MapNow, MapNow]:
        """The base and theirs, in which layers of another kind than those of one id in ours have another id."""
        old: Names = {}
        new: Names = {}
        for id, stand in base.layers.items():
            subject = Subject('layer', id)
            if id in ours.layers and not ours.has(id, stand):
                old[subject] = self._next('layer')
                if id in theirs.layers and theirs.has(id, stand):
                    new[subject] = old[subject]
            elif id in theirs.layers and not theirs.has(id, stand):
                new[subject] = self._next('layer')
        return renamed(base, old, self._types), self._renamed_theirs(new, theirs, old)

    def _next(self, kind: str) -> int:
        self._first[kind] += 1
        return self._first[kind] - 1

    def _clashing(self, base: MapNow, ours: MapNow, theirs: MapNow) -> Names:
        """New ids for what theirs has added under one that ours has for another thing, or that something of ours means though it is not there."""
        old, mine, other = (things_of(map) for map in (base, ours, theirs))
        meant = {id for _, _, id in self._dangling(ours)}
        names: Names = {}
        for subject, stand in other.items():
            if subject in old or subject in mine and Subject('layer', stand.parent) not in names and is_twin(subject, ours, theirs):
                continue
            if subject in mine or subject.kind == 'object' and subject.id in meant:
                names[subject] = self._next(subject.kind)
        return names

    # ---- references
    def _tell_dangling(self, goal: MergedMap, ours: MapNow, theirs: MapNow) -> None:
        """Tells of properties that mean an object which is there no more, where on neither side one means what is not there."""
        known = {*self._dangling(ours), *self._dangling(theirs)}
        for subject, name, id in self._dangling(goal):
            if (subject, name, id) not in known:
                self._notices.append(f'{_told(subject, goal)}: property {name} means object {id}, which one side removed')

    def _dangling(self, map: MapNow) -> Iterator[tuple[Subject, str, int]]:
        """What has a property that means an object which is not there, with its name and the id."""
        owners = {MAP: map.tree, **{subject: stand.members for subject, stand in things_of(map).items()}}
        for subject, members in owners.items():
            for each in members.get('properties', []):
                yield from ((subject, each['name'], id) for id in self._types.meant(each) if id and id not in map.objects)


def _of(names: Names, map: MapNow) -> Names:
    there = things_of(map)
    return {subject: id for subject, id in names.items() if subject in there}


def _told(subject: Subject, map: MapNow) -> str:
    if subject == MAP:
        return head_of(MAP, '')
    return head_of(subject, stand_of(map, subject).members.get('name', ''))


def _holders(subject: Subject, things: Mapping[Subject, Stand]) -> Iterator[Subject]:
    """All that hold a layer or an object."""
    while things[subject].parent:
        subject = Subject('layer', things[subject].parent)
        yield subject


def _tileset_of(value: int, map: MapNow) -> int:
    """The first id of the tileset of a tile, in a map; the tile is one that another map has no room for."""
    base = -value - 1 & BASE
    return max((first for each in map.tree['tilesets'] if (first := int(each['firstgid'])) <= base), default=0)


def _resized(before: dict[str, Any], ours: 'Document', framed: Framed) -> Iterator[Change]:
    """The change of the size."""
    if framed.lines:
        was, now = ([map['width'], map['height']] for map in (before, ours.outline()))
        yield Change(Subject('map', 0), '', 'size', was, now, f'{was[0]} by {was[1]} cells -> {now[0]} by {now[1]}')


# ---- tiles


def _counted_alike(base: MapNow, theirs: MapNow, shared: list[Shared], firsts: dict[int, int]) -> tuple[MapNow, MapNow]:
    """The base and theirs, whose tiles are counted as the merged map counts them, in which ours has its own."""
    goals = [_goal_of(each, firsts) for each in shared]
    sides = [counting([each[at] for each in shared], goals) for at in (0, 2)]
    return counted(base, sides[0]), counted(theirs, sides[1])


def _goal_of(shared: Shared, firsts: dict[int, int]) -> Optional[int]:
    """The first id that a tileset has in the merged map; None where it is not there."""
    if shared.ours is not None:
        first: int = shared.ours['firstgid']
        return first
    return None if shared.theirs is None else firsts.get(shared.theirs['firstgid'])


class _Named:
    """Tiles in words: those of the merged map, and those of theirs that it has no room for."""

    __slots__ = '_tiles', '_other'

    def __init__(self, shared: list[Shared], firsts: dict[int, int]):
        pairs = [(None if (first := _goal_of(each, firsts)) is None else {**(each.ours or each.theirs or {}), 'firstgid': first}, each.theirs) for each in shared]
        self._tiles, self._other = Tiles(pairs, 0), Tiles(pairs, 1)

    def tile(self, value: int) -> str:
        return self._tiles.name(value) if value >= 0 else self._other.name(-value - 1)
