# SPDX-License-Identifier: MIT OR Apache-2.0
"""What two sides have made of one thing: what only one has changed is as that side has it, and of what both have changed otherwise a side is
chosen."""
from typing import Any, Callable, Iterable, NamedTuple, Optional, TypeVar

from .compared_maps import said, staying
from .tiled_maps import Members

_Key = TypeVar('_Key')
#: What stands for a member that is not there.
ABSENT: Any = type('Absent', (), {'__repr__': lambda self: 'absent', '__bool__': lambda self: False})()
# Lists whose things have a member that tells them apart.
_KEYED = {'tiles': 'id'}


class Clash(NamedTuple):
    """What both sides have changed to different values: its name, and how each has it; ABSENT where it is not there."""

    name: str
    base: Any
    ours: Any
    theirs: Any


def is_same(one: Any, other: Any) -> bool:
    """Whether two values of a map are the same: true is not 1, and 2.0 is 2."""
    if one is other:
        return True
    return one is not ABSENT and other is not ABSENT and said(one) == said(other)


def merged_value(name: str, base: Any, ours: Any, theirs: Any, choose: Callable[[Clash], Any]) -> Any:
    """A value as one side has changed it. An object of JSON is merged member by member. Where both sides have changed it to different
    values it is the one that is chosen."""
    if is_same(ours, theirs) or is_same(base, theirs):
        return ours
    if is_same(base, ours):
        return theirs
    if all(isinstance(each, dict) for each in (base, ours, theirs)):
        return merged_members(base, ours, theirs, lambda clash: choose(clash._replace(name=f'{name}.{clash.name}')))
    key = _KEYED.get(name.rpartition('.')[2])
    old, mine, other = (_table(each, key) for each in (base, ours, theirs))
    if old is None or mine is None or other is None:
        return choose(Clash(name, base, ours, theirs))
    found = merged_members(old, mine, other, lambda clash: choose(clash._replace(name=f'{name} {clash.name}')))
    return [found[each] for each in sorted(found, key=int)]


def _table(things: Any, key: Optional[str]) -> Optional[Members]:
    """The things of a list by what tells them apart; None where nothing does."""
    if key is None or not isinstance(things, list) or not all(isinstance(each, dict) and isinstance(each.get(key), int) for each in things):
        return None
    table = {str(each[key]): each for each in things}
    return table if len(table) == len(things) else None


def merged_members(base: Members, ours: Members, theirs: Members, choose: Callable[[Clash], Any]) -> Members:
    """Members, each merged on its own: those of ours in their order, and behind them what theirs has added."""
    if is_same(base, theirs):
        return ours
    found = {}
    for name in [*ours, *(name for name in theirs if name not in ours)]:
        value = merged_value(name, base.get(name, ABSENT), ours.get(name, ABSENT), theirs.get(name, ABSENT), choose)
        if value is not ABSENT:
            found[name] = value
    return found


def merged_order(base: list[_Key], ours: list[_Key], theirs: list[_Key], choose: Callable[[set[_Key]], set[_Key]]) -> list[_Key]:
    """Things in an order: what only one side has moved stands where that side has it, and what one has added behind what it stands behind
    there; of what both have added at one place ours comes first. Of what both have moved otherwise those stand where theirs has them that
    are chosen, and the others where ours has them."""
    both = {*ours} & {*theirs}
    common = [each for each in base if each in both]
    known = {*common}
    mine, other = ([each for each in side if each in known] for side in (ours, theirs))
    if other in (common, mine):
        line = mine
    elif mine == common:
        line = other
    else:
        line = _moved_by_both(common, mine, other, choose)
    for side, before in ((ours, known), (theirs, {*ours})):
        _add_to(line, side, before, known)
    return line


def _moved_by_both(common: list[_Key], ours: list[_Key], theirs: list[_Key], choose: Callable[[set[_Key]], set[_Key]]) -> list[_Key]:
    """Ours, with what only theirs has moved, or is chosen, put behind what it stands behind there."""
    stay, other = staying_of(common, ours), staying_of(common, theirs)
    both = {each for each in common if each not in stay and each not in other}
    kept = both - choose(both) if both else both
    line = [*ours]
    for each in [each for each in theirs if each not in other and each not in kept]:
        line.remove(each)
        line.insert(_place_behind(line, theirs[:theirs.index(each)]), each)
    return line


def staying_of(before: list[_Key], behind: list[_Key]) -> set[_Key]:
    """The most that stand in the same order in both."""
    numbers = {each: number for number, each in enumerate(before)}
    stay = staying([*numbers.values()], [numbers[each] for each in behind if each in numbers])
    return {each for each, number in numbers.items() if number in stay}


def _place_behind(line: list[_Key], front: Iterable[_Key]) -> int:
    """The place behind the last of what stands in front that is in the line; 0 where none is."""
    return next((line.index(each) + 1 for each in reversed([*front]) if each in line), 0)


def _add_to(line: list[_Key], side: list[_Key], there: set[_Key], known: set[_Key]) -> None:
    """Puts what is not there yet behind what it stands behind on its side, and behind what ours has added there."""
    placed = {*line}
    for at, each in enumerate(side):
        if each not in placed:
            placed.add(each)
            place = _place_behind(line, side[:at])
            while place < len(line) and line[place] in there - known and line[place] not in side:
                place += 1
            line.insert(place, each)
