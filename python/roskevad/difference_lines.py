# SPDX-License-Identifier: MIT OR Apache-2.0
"""Lines that lead from one map to another. Each is done as it is found, on a copy of the first map."""
import json
from typing import TYPE_CHECKING, Any, Iterable, Iterator, Optional

from . import json_values
from .class_notes import with_some_note
from .compared_maps import MapNow, Shift, said, staying
from .faults import Refused
from .limits import MAX_LINE
from .new_layers import data_of, put_line
from .own_members import OTHERS
from .rows import parts_of
from .same_tilesets import first_id, in_turn, paired_tilesets
from .tiled_maps import Members

if TYPE_CHECKING:
    from .document import Document

_COUNTED = 'nextlayerid', 'nextobjectid'


def lines_between(copy: 'Document', goal: MapNow, shift: Optional[Shift], has_formats: bool) -> list[str]:
    """Lines that do to a copy of one map what makes it another one, as far as lines can say it; also in which format new layers have their
    cells, where they are to say it."""
    way = Way(copy, has_formats)
    for line in shift.lines(copy, goal) if shift is not None else ():
        way.say(line)
    lead(way, goal)
    return way.lines


def lead(way: 'Way', goal: MapNow) -> None:
    """Does to a copy of one map what makes it another one of its size, as far as lines can say it."""
    way.goal = goal
    # Tilesets that nothing uses are dropped first, so that others may come below them.
    for each in (_drop_layers, _number_tilesets, _drop_tilesets, _add_tilesets, _add_layers, _place_layers, _change_objects, _paint, _set_members,
                 _set_properties, _change_tilesets, _drop_tilesets, _count):
        each(way)


class Way:
    """What is done to a copy, and to which goal."""

    __slots__ = 'copy', 'goal', 'lines', 'has_formats'

    def __init__(self, copy: 'Document', has_formats: bool = False):
        self.copy = copy
        # Whether lines say the formats of new layers; else a save gives them that of the others.
        self.has_formats = has_formats
        self.goal: MapNow
        self.lines: list[str] = []

    def say(self, line: str) -> bool:
        """Does a line; whether it could be done."""
        try:
            self.copy._edit(line)
        except Refused:
            return False
        self.lines.append(line)
        return True

    def now(self) -> MapNow:
        return MapNow(self.copy)


def _json(value: Any) -> str:
    return json_values.said(value, 'a value of a map')


def _placed(lists: dict[int, list[int]], holder: int, wanted: list[int]) -> Iterator[tuple[int, int]]:
    """What is to be put at which place of a holder, one after the other, so that what stands there is as it is wanted. What is not wanted stays
    somewhere; what comes out of another list is in that no more."""
    current = lists[holder]
    stay = staying(current, wanted)
    for at, id in enumerate(wanted):
        if id not in stay:
            for each in lists.values():
                if id in each:
                    each.remove(id)
            place = current.index(wanted[at - 1]) + 1 if at else 0
            current.insert(place, id)
            yield id, place


# ---- layers


def _drop_layers(way: Way) -> None:
    now = way.now()
    gone = {id for id, stand in now.layers.items() if not way.goal.has(id, stand)}
    for id, stand in now.layers.items():
        if id not in gone and stand.parent in gone:
            way.say(f'layer into {id} 0 0')
    for id, stand in now.layers.items():
        if id in gone and stand.parent not in gone:
            way.say(f'layer remove {id}')


def _add_layers(way: Way) -> None:
    now, goal = way.now(), way.goal
    lists = {parent: now.layers_in(parent) for parent in (0, *now.layers)}
    for id, stand in goal.layers.items():
        # What stands in a new group is added with that.
        if id not in now.layers and stand.parent in lists:
            line, siblings = lists[stand.parent], goal.layers_in(stand.parent)
            place = next((line.index(each) + 1 for each in reversed(siblings[:siblings.index(id)]) if each in line), 0)
            line.insert(place, id)
            _add_layer(way, now, id, place)


def _add_layer(way: Way, now: MapNow, id: int, place: int) -> None:
    """Adds a layer with all in it that is not there yet. What one line is too short for is added behind it, first of all the layers in it."""
    parent, whole = way.goal.layers[id].parent, _whole(way, now, id)
    if way.say(put_line(parent, place, whole)):
        return
    without = {name: [] if name in ('objects', 'layers') else value for name, value in whole.items() if name != 'data'}
    bare = {name: value for name, value in without.items() if name in ('type', 'id', 'encoding', 'objects', 'layers')}
    if way.say(put_line(parent, place, without)) or way.say(put_line(parent, place, bare)):
        for at, each in enumerate(whole.get('layers', ())):
            _add_layer(way, now, each['id'], at)


def _whole(way: Way, now: MapNow, id: int) -> Members:
    """A layer as a file has it, with all in it but what is there already, and but the cells that no line has room for."""
    goal, members = way.goal, way.goal.layers[id].members
    kind = members['type']
    if kind == 'group':
        return {**members, 'layers': [_whole(way, now, each) for each in goal.layers_in(id) if each not in now.layers]}
    if kind == 'objectgroup':
        return {**members, 'objects': [goal.objects[each].members for each in goal.objects_in(id) if each not in now.objects]}
    if kind != 'tilelayer':
        return members
    others = {'width', 'height'} if way.has_formats else {'width', 'height', 'encoding'}
    cells, found = goal.cells(id), {name: value for name, value in members.items() if name not in others}
    if 2 * len(cells) <= MAX_LINE and any(cells):
        found['data'] = data_of(cells, found.get('encoding'))
    return found


def _place_layers(way: Way) -> None:
    """Those that would go into what stands in them are taken out of all groups, and placed in a second turn."""
    for _ in range(2):
        now, stuck = way.now(), list[int]()
        groups = [0, *(id for id, stand in now.layers.items() if stand.members['type'] == 'group')]
        lists = {parent: now.layers_in(parent) for parent in groups}
        for parent in [0, *(id for id in way.goal.layers if id in lists)]:
            wanted = [id for id in way.goal.layers_in(parent) if id in now.layers]
            stuck += [id for id, place in _placed(lists, parent, wanted) if not way.say(f'layer into {id} {parent} {place}')]
        if not stuck:
            return
        for id in stuck:
            way.say(f'layer into {id} 0 0')


# ---- objects


def _change_objects(way: Way) -> None:
    now, goal = way.now(), way.goal
    for id in now.objects.keys() - goal.objects.keys():
        way.say(f'object remove {id}')
    if goal.tree['nextobjectid'] > now.tree['nextobjectid']:
        way.say(f'member set map nextobjectid {goal.tree["nextobjectid"]}')
    for id, stand in goal.objects.items():
        if id not in now.objects and stand.parent in now.layers:
            way.say(f'object put {stand.parent} {_json(stand.members)}')
    now = way.now()
    lists = {layer: now.objects_in(layer) for layer, stand in now.layers.items() if stand.members['type'] == 'objectgroup'}
    for layer in lists:
        wanted = [id for id in goal.objects_in(layer) if id in now.objects]
        for id, place in _placed(lists, layer, wanted):
            way.say(f'object into {id} {layer} {place}')


# ---- cells


def _paint(way: Way) -> None:
    now = way.now()
    if any(now.tree[side] != way.goal.tree[side] for side in ('width', 'height')):
        return
    for id, stand in now.layers.items():
        if stand.members['type'] == 'tilelayer' and way.goal.has(id, stand):
            _paint_layer(way, id, now.cells(id), way.goal.cells(id), now.tree['width'])


def _paint_layer(way: Way, layer: int, old: memoryview, new: memoryview, wide: int) -> None:
    bands = list[tuple[int, list[list[int]]]]()
    empties = list[tuple[int, int, int]]()
    for y in range(len(new) // wide if wide else 0):
        before, behind = old[y * wide:(y + 1) * wide].tolist(), new[y * wide:(y + 1) * wide].tolist()
        if before != behind:
            row = [value if value != other else 0 for other, value in zip(before, behind)]
            if 0 in behind:
                empties += [(y, x, count) for x, count in _runs([not value and other != 0 for other, value in zip(before, behind)])]
            if any(row) and bands and bands[-1][0] + len(bands[-1][1]) == y:
                bands[-1][1].append(row)
            elif any(row):
                bands.append((y, [row]))
    for top, rows in bands:
        _stamp(way, layer, top, rows)
    for x, y, width, height in _rectangles(empties):
        way.say(f'erase {layer} {x} {y} {width} {height}')


def _stamp(way: Way, layer: int, top: int, rows: list[list[int]]) -> None:
    left = min(next(x for x, value in enumerate(row) if value) for row in rows)
    right = max(len(row) - next(x for x, value in enumerate(reversed(row)) if value) for row in rows)
    cut = [row[left:right] for row in rows]
    for part in parts_of(cut):
        way.say(f'stamp {layer} {left} {top + part.first} {right - left} {part.values}')


def _runs(flags: Iterable[bool]) -> Iterator[tuple[int, int]]:
    """Where flags are set one after the other: the first place of each such run, and how many they are."""
    first: Optional[int] = None
    for at, flag in enumerate([*flags, False]):
        if flag and first is None:
            first = at
        elif not flag and first is not None:
            yield first, at - first
            first = None


def _rectangles(runs: list[tuple[int, int, int]]) -> Iterator[tuple[int, int, int, int]]:
    """Runs of rows, each a row, a column and a width, as rectangles of those that stand below one another."""
    heights = dict[tuple[int, int, int], int]()
    below = dict[tuple[int, int], tuple[int, int, int]]()
    for y, x, width in runs:
        first = below.get((x, width))
        if first is None or first[0] + heights[first] != y:
            first = below[x, width] = y, x, width
        heights[first] = heights.get(first, 0) + 1
    yield from ((x, y, width, height) for (y, x, width), height in heights.items())


# ---- members and properties


def _owners(map: MapNow) -> dict[str, tuple[str, Members]]:
    """What has members, by the words of lines, with its kind."""
    layers = {f'layer:{id}': ('layer', stand.members) for id, stand in map.layers.items()}
    return {'map': ('map', map.tree), **layers, **{f'object:{id}': ('object', stand.members) for id, stand in map.objects.items()}}


def _set_members(way: Way) -> None:
    there, goal = _owners(way.now()), _owners(way.goal)
    for owner, (kind, members) in goal.items():
        if owner in there:
            others = {*OTHERS[kind], *_COUNTED}
            old, new = ({name: value for name, value in each.items() if name not in others} for each in (there[owner][1], members))
            _set_own(way, owner, old, new)


def _set_own(way: Way, owner: str, old: Members, new: Members) -> None:
    changed = {name: value for name, value in new.items() if name not in old or said(old[name]) != said(value)}
    if changed and not way.say(f'member put {owner} {_json(changed)}'):
        for name, value in changed.items():
            way.say(f'member set {owner} {name} {_json(value)}')
    for name in old.keys() - new.keys():
        way.say(f'member remove {owner} {name}')


def _set_properties(way: Way) -> None:
    there, goal = _owners(way.now()), _owners(way.goal)
    for owner, (_, members) in goal.items():
        if owner in there:
            _set_listed(way, owner, there[owner][1].get('properties', []), members.get('properties', []))


def _set_listed(way: Way, owner: str, old: list[Members], new: list[Members]) -> None:
    """Sets properties in their order: where that is another one, those behind are taken out and put anew."""
    names, known = [each['name'] for each in new], {each['name']: said(each) for each in old}
    kept = [each['name'] for each in old if each['name'] in names]
    same = next((at for at, (one, other) in enumerate(zip(kept, names)) if one != other), min(len(kept), len(names)))
    for name in [*(name for name in known if name not in names), *kept[same:]]:
        way.say(f'prop take {owner} {_json(name)}')
    there = {each['name']: each for each in old}
    for at, each in enumerate(new):
        if at >= same or known[each['name']] != said(each):
            # A map in JSON notes no types of members: then they are those that are there.
            way.say(f'prop put {owner} {_json(with_some_note(each, there.get(each["name"], {})))}')


# ---- tilesets, and what a map counts


def _number_tilesets(way: Way) -> None:
    """Gives tilesets the first ids that they are to have, and their tiles along."""
    pairs = paired_tilesets(way.now().tree['tilesets'], way.goal.tree['tilesets'])
    firsts = sorted((first_id(old), first_id(new)) for old, new in pairs if old is not None and new is not None)
    for first, other in in_turn(firsts):
        way.say(f'tileset number {first} {other}')


def _add_tilesets(way: Way) -> None:
    there = {each['firstgid'] for each in way.now().tree['tilesets']}
    for each in way.goal.tree['tilesets']:
        if each['firstgid'] not in there:
            way.say(f'tileset put {_json(each)}')


def _change_tilesets(way: Way) -> None:
    there = {each['firstgid']: each for each in way.now().tree['tilesets']}
    for each in way.goal.tree['tilesets']:
        first = each['firstgid']
        if first in there:
            _set_own(way, f'tileset:{first}', there[first], each)


def _drop_tilesets(way: Way) -> None:
    wanted = {each['firstgid'] for each in way.goal.tree['tilesets']}
    for each in way.now().tree['tilesets']:
        if each['firstgid'] not in wanted:
            way.say(f'tileset remove {each["firstgid"]}')


def _count(way: Way) -> None:
    now = way.now().tree
    for name in _COUNTED:
        if now.get(name) != way.goal.tree.get(name):
            way.say(f'member set map {name} {json.dumps(way.goal.tree.get(name))}')
