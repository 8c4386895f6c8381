# SPDX-License-Identifier: MIT OR Apache-2.0
"""The tilesets of two maps that are merged: which are the same, and which first ids they get."""
from typing import Iterator, NamedTuple, Optional

from .compared_maps import MapNow
from .renamed_maps import Counting, values_of
from .rows import BASE
from .same_tilesets import first_id, paired_tilesets, tileset_key, tileset_name
from .tiled_maps import Members

# Where no tileset begins any more, and so many tiles are left room for where nothing says how many a tileset has.
_END, _ROOM = 1 << 28, 1 << 16


class Shared(NamedTuple):
    """A tileset, as each of the three maps has it."""

    base: Optional[Members]
    ours: Optional[Members]
    theirs: Optional[Members]

    @property
    def name(self) -> str:
        return tileset_name(self.ours or self.theirs or self.base or {})


def shared_tilesets(base: MapNow, ours: MapNow, theirs: MapNow) -> list[Shared]:
    """All tilesets: those of ours in their order, then those that only theirs has, then those that neither has any more. What both have added
    is the same where its file, or its name, is."""
    listed = [[*map.tree['tilesets']] for map in (base, ours, theirs)]
    mine, other = ({first_id(old): new for old, new in paired_tilesets(listed[0], side) if old is not None} for side in listed[1:])
    found = [Shared(each, mine.get(first_id(each)), other.get(first_id(each))) for each in listed[0]]
    new = [[each for each in side if all(each is not known for known in known_of.values())] for side, known_of in zip(listed[1:], (mine, other))]
    for each in new[0]:
        twin = next((one for one in new[1] if tileset_key(one) == tileset_key(each)), None)
        new[1] = [one for one in new[1] if one is not twin]
        found.append(Shared(None, each, twin))
    return sorted([*found, *(Shared(None, None, each) for each in new[1])], key=_order)


def _order(shared: Shared) -> tuple[int, int]:
    each = shared.ours or shared.theirs or shared.base or {}
    return 0 if shared.ours else 1 if shared.theirs else 2, first_id(each)


def numbers(shared: list[Shared], ours: MapNow, theirs: MapNow) -> Iterator[tuple[int, int]]:
    """The first ids that tilesets of ours have, in their order, with those that they get: the ones of theirs where only theirs has counted
    anew, and in any case so many that there is room for each tile in use."""
    used = _Used(ours), _Used(theirs)
    end = 1
    for each in shared:
        if each.ours is not None:
            old, new = first_id(each.ours), max(_number(each), end)
            end = new + max(used[0].count(each.ours), used[1].count(each.theirs))
            yield old, new


def _number(shared: Shared) -> int:
    base, ours, theirs = (None if each is None else first_id(each) for each in shared)
    assert ours is not None
    if theirs is None or base is None or theirs in (base, ours):
        return ours
    return theirs if base == ours else max(ours, theirs)


class _Used:
    """How many tiles of each tileset of a map are in use, up to the last one."""

    __slots__ = '_counts',

    def __init__(self, map: MapNow):
        firsts = sorted(first_id(each) for each in map.tree['tilesets'])
        self._counts = dict[int, int]()
        for value in values_of(map):
            first = max((each for each in firsts if each <= value & BASE), default=None)
            if first is not None:
                self._counts[first] = max(self._counts.get(first, 0), (value & BASE) - first + 1)

    def count(self, tileset: Optional[Members]) -> int:
        return 0 if tileset is None else max(self._counts.get(first_id(tileset), 0), 1)


def added_firsts(shared: list[Shared], ours: MapNow, theirs: MapNow, back: set[int]) -> dict[int, int]:
    """Of the tilesets that only theirs has added the first ids there, with those that they get: above those of ours. So do those of theirs
    that ours has removed, and that are to be there again: `back` has their first ids."""
    there, used = [each for each in shared if each.ours is not None], (_Used(ours), _Used(theirs))
    end = max((first_id(each.ours or {}) + _room(each, used) for each in there), default=1)
    found, by = dict[int, int](), 0
    for each in shared:
        if each.ours is None and each.theirs is not None and (each.base is None or first_id(each.theirs) in back):
            by = max(by, end - first_id(each.theirs)) if not found else by
            found[first_id(each.theirs)] = first_id(each.theirs) + by
    return found


def _room(shared: Shared, counts: tuple[_Used, _Used]) -> int:
    """How many tiles a tileset of ours may have: as many as its map says, or as theirs has in use of one that theirs knows."""
    members: Members = shared.ours or {}
    used = max(counts[0].count(shared.ours), counts[1].count(shared.theirs))
    count = members.get('tilecount')
    if isinstance(count, int):
        return max(used, count)
    return used if shared.theirs is not None else max(used, _ROOM)


def counting(tilesets: list[Optional[Members]], goals: list[Optional[int]]) -> Counting:
    """How a map counts the tiles of its tilesets, which have other first ids in the merged map; None where they are not in it."""
    firsts = sorted(each for each in goals if each is not None)
    ends = dict(zip(firsts, [*firsts[1:], _END]))
    return Counting(tuple(sorted(
        ((first_id(each), goal, _END if goal is None else ends[goal]) for each, goal in zip(tilesets, goals) if each is not None),
        key=lambda row: row[0])))
