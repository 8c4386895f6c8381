# SPDX-License-Identifier: MIT OR Apache-2.0
"""What differs between two maps, by meaning: in words for people, as values for programs, and as lines that lead from one to the other."""
import json
from collections import Counter
from typing import TYPE_CHECKING, Any, Iterable, Iterator, NamedTuple, Optional, Sequence, Union, overload

from .compared_maps import MapNow, Shift, Stand, are_saved_alike, copied, held, said, shift_of, staying
from .difference_lines import lines_between
from .own_members import OTHERS
from .rows import BASE, DIAGONALLY, HORIZONTALLY, TURNED, VERTICALLY
from .same_tilesets import Pair, first_id, paired_tilesets, tileset_name
from .tiled_maps import Members
from .told import Subject

if TYPE_CHECKING:
    from .document import Document

# What Tiled's panels call members, where the file calls them otherwise, and those of a text.
_CALLED = {
    'type': 'class', 'tintcolor': 'tint color', 'backgroundcolor': 'background color', 'transparentcolor': 'transparent color',
    'offsetx': 'horizontal offset', 'offsety': 'vertical offset', 'parallaxx': 'horizontal parallax factor', 'parallaxy': 'vertical parallax factor',
    'parallaxoriginx': 'horizontal parallax origin', 'parallaxoriginy': 'vertical parallax origin', 'repeatx': 'repeat X', 'repeaty': 'repeat Y',
    'draworder': 'drawing order', 'mode': 'blend mode', 'gid': 'tile', 'tilewidth': 'tile width', 'tileheight': 'tile height',
    'renderorder': 'tile render order', 'hexsidelength': 'tile side length', 'staggeraxis': 'stagger axis', 'staggerindex': 'stagger index',
    'compressionlevel': 'compression level', 'imagewidth': 'image width', 'imageheight': 'image height', 'source': 'file', 'firstgid': 'first id',
    'tilecount': 'count of tiles', 'objectalignment': 'object alignment', 'tileoffset': 'drawing offset', 'tilerendersize': 'tile render size',
    'fillmode': 'fill mode', 'transformations': 'allowed transformations', 'tiledversion': 'version of Tiled',
    'nextlayerid': 'next layer id', 'nextobjectid': 'next object id',
}
_OF_TEXT = {
    'fontfamily': 'font', 'pixelsize': 'size of the font', 'wrap': 'word wrap', 'halign': 'horizontal alignment', 'valign': 'vertical alignment',
    'color': 'color of the text',
}
# What a map counts by itself, which is told where nothing else differs.
COUNTED = 'nextlayerid', 'nextobjectid'
_LAYERS = {'tilelayer': 'a tile layer', 'objectgroup': 'an object layer', 'group': 'a group', 'imagelayer': 'an image layer'}
_FLAGS = {HORIZONTALLY: 'horizontally', VERTICALLY: 'vertically', DIAGONALLY: 'diagonally', TURNED: 'by a turn'}
# How many characters of a value are told in words, and how many pairs of tiles.
_SHOWN, _PAIRS = 60, 3


class Change(NamedTuple):
    """One thing that differs."""

    #: What it is about.
    subject: Subject
    #: The name of a layer or an object, and the file or the name of a tileset; empty of the map.
    name: str
    #: What differs: `added`, `removed`, `moved`, `size`, `cells`, or the name of a member, of a property behind `property`.
    what: str
    #: How it was, as a file has it; None where it was not.
    before: Any
    #: How it is in the other map.
    after: Any
    #: The same in words.
    words: str

    def __str__(self) -> str:
        return f'{head_of(self.subject, self.name)}: {self.words}'


def head_of(subject: Subject, name: str) -> str:
    """What is spoken of, in words: a layer or an object by its id and its name."""
    kind, id = subject
    named = f' {quoted(name)}' if name else ''
    return {'map': 'map', 'tileset': f'tileset {plainly(name)}'}.get(kind, f'{kind} {id}{named}')


class Difference(Sequence[Change]):
    """What differs between two maps, as they were when it was asked for: each change of the map, of its tilesets, its layers and its objects.
    Without a change they are the same. `str` tells all in words, a line for each change."""

    __slots__ = '_maps', '_changes', '_shift', '_lines', '_left'

    def __init__(self, before: 'Document', after: 'Document'):
        self._maps = held(before), held(after)
        self._lines: Optional[tuple[str, ...]] = None
        self._left: Optional[tuple[Change, ...]] = None
        with copied(*self._maps) as (old, new):
            goal = MapNow(new)
            first = MapNow(old)
            is_resized = any(first.tree[side] != goal.tree[side] for side in ('width', 'height')) or old.origin != new.origin
            self._shift = shift_of(first, goal) if is_resized else None
            self._changes = tuple(_changes_between(old, goal, self._shift))

    @overload
    def __getitem__(self, at: int) -> Change: ...

    @overload
    def __getitem__(self, at: slice) -> Sequence[Change]: ...

    def __getitem__(self, at: Union[int, slice]) -> Union[Change, Sequence[Change]]:
        """A change by its place, from 0."""
        return self._changes[at]

    def __len__(self) -> int:
        return len(self._changes)

    def __str__(self) -> str:
        return '\n'.join(map(str, self._changes))

    @property
    def lines(self) -> Optional[tuple[str, ...]]:
        """Lines for all edits that lead from the one map to the other. They were done to a copy of the one, and a save of that has what one of
        the other has. None where no lines can say all."""
        self._find_lines()
        return self._lines

    @property
    def left(self) -> tuple[Change, ...]:
        """What no lines can say; nothing where `lines` has all."""
        self._find_lines()
        return self._left or ()

    def picture(self) -> bytes:
        """A picture as PNG: cells of the other map as squares, those that differ in colours, and objects that do by their boxes."""
        from .difference_pictures import picture

        with copied(*self._maps) as (old, new):
            return picture(old, new, self._shift, self)

    def _find_lines(self) -> None:
        """Looks for lines by which new layers are as the others are in the file, or else for those by which each is as it is."""
        if self._left is None:
            self._try_lines(has_formats=False)
            if self._lines is None:
                self._try_lines(has_formats=True)

    def _try_lines(self, has_formats: bool) -> None:
        with copied(*self._maps) as (copy, new):
            found = lines_between(copy, MapNow(new), self._shift, has_formats)
            is_same = are_saved_alike(copy, new)
            self._left = () if is_same else tuple(_changes_between(copy, MapNow(new), None))
            self._lines = tuple(found) if is_same else None

    def __repr__(self) -> str:
        return f'<Difference of {len(self)} changes>'


def _changes_between(old: 'Document', goal: MapNow, shift: Optional[Shift]) -> list[Change]:
    """All that differs. The first map gets the size of the other one, and is a copy."""
    found = _resized(old, goal, shift) if shift else []
    found += told_changes(MapNow(old), goal)
    return found or _of_the_file(old, goal.document)


def told_changes(now: MapNow, goal: MapNow) -> list[Change]:
    """All that differs of two maps of one size, but for what is of the file itself."""
    tilesets = [*paired_tilesets(now.tree['tilesets'], goal.tree['tilesets'])]
    tiles = Tiles(tilesets, 0), Tiles(tilesets, 1)
    found = [*_of_the_map(now, goal), *_of_tilesets(tilesets), *_of_layers(now, goal, tiles), *_of_objects(now, goal, tiles)]
    return found or _of_counts(now, goal)


def _resized(old: 'Document', goal: MapNow, shift: Shift) -> list[Change]:
    before, after = ([map_[side] for side in ('width', 'height')] for map_ in (old.outline(), goal.tree))
    was = old.origin
    shift.move(old, goal)
    # Of an infinite map whose corner lies elsewhere on the plane nothing has moved there.
    is_on_a_plane = was != goal.document.origin
    moved = _more(shift) if is_on_a_plane else f', all moved by {shift.x}, {shift.y}' if any(shift) else ''
    words = f'{before[0]} by {before[1]} cells -> {after[0]} by {after[1]}{moved}'
    return [Change(MAP, '', 'size', before, [*after, *shift], words)]


def _more(shift: Shift) -> str:
    """What an infinite map has more at its left and above, or less, in words."""
    sides = [(shift.x, 'column', 'at the left'), (shift.y, 'row', 'above')]
    told = [f'{abs(by)} {what}{"s" if abs(by) > 1 else ""} {"more" if by > 0 else "fewer"} {where}' for by, what, where in sides if by]
    return f', {" and ".join(told)}'


MAP = Subject('map', 0)


def _of_counts(now: MapNow, goal: MapNow) -> list[Change]:
    return list(_of_values(MAP, '', {name: now.tree.get(name) for name in COUNTED}, {name: goal.tree.get(name) for name in COUNTED}))


def _of_the_file(old: 'Document', new: 'Document') -> list[Change]:
    """What is of the file itself, as that a map is infinite."""
    if are_saved_alike(old, new):
        return []
    return [Change(MAP, '', 'file', None, None, 'what is of the file itself, as how cells are written, and that a map is infinite')]


# ---- values


def quoted(name: str) -> str:
    """A name in a message, in which nothing steers a terminal."""
    return json.dumps(name, ensure_ascii=not name.isprintable())


def plainly(name: str) -> str:
    return name if name.isprintable() else quoted(name)


def called(name: str) -> str:
    """What Tiled calls a member, and a member of it behind a point."""
    outer, point, inner = name.partition('.')
    if outer == 'text' and inner:
        return _OF_TEXT.get(inner, plainly(inner))
    return f'{_CALLED.get(outer, plainly(outer))}{point}{plainly(inner)}'


def _of_values(subject: Subject, name: str, old: Members, new: Members, spelled: Any = None) -> Iterator[Change]:
    """Each member that differs."""
    for key in [*old, *(key for key in new if key not in old)]:
        before, after = old.get(key), new.get(key)
        if said(before) != said(after) or (key in old) != (key in new):
            words = f'{called(key)} {" -> ".join(spelled[key])}' if spelled and key in spelled else _told_value(key, before, after, key in old, key in new)
            yield Change(subject, name, key, before, after, words)


def _told_value(key: str, before: Any, after: Any, was: bool, is_there: bool) -> str:
    """How a member was and is, in words: of an object of JSON those of its members that differ."""
    if isinstance(before, dict) and isinstance(after, dict):
        inner = [each for each in [*before, *(each for each in after if each not in before)] if said(before.get(each)) != said(after.get(each))]
        return ', '.join(_told_value(f'{key}.{each}', before.get(each), after.get(each), each in before, each in after) for each in inner) or called(key)
    return f'{called(key)} {shown_value(before, was)} -> {shown_value(after, is_there, before)}'


def shown_value(value: Any, is_there: bool = True, before: Any = None) -> str:
    """A value in words; the corners of a shape by their count."""
    if is_there and _are_corners(value):
        other = ' other' if _are_corners(before) and len(before) == len(value) else ''
        return f'{len(value)}{other} corners'
    shown = shown_whole(value) if is_there else 'none'
    return shown if len(shown) <= _SHOWN else f'{shown[:_SHOWN]}..'


def shown_whole(value: Any) -> str:
    """A value in words, as long as it is."""
    text = json.dumps(value, ensure_ascii=False)
    return text if text.isprintable() else json.dumps(value)


def _are_corners(value: Any) -> bool:
    return isinstance(value, list) and len(value) > 1 and all(isinstance(each, dict) and {*each} == {'x', 'y'} for each in value)


def _of_properties(subject: Subject, name: str, before: Members, after: Members) -> Iterator[Change]:
    old, new = ({each['name']: each for each in members.get('properties', [])} for members in (before, after))
    for key in [*old, *(key for key in new if key not in old)]:
        one, other = old.get(key), new.get(key)
        if said(one) != said(other):
            texts = [_property(each, one, other) for each in (one, other)]
            yield Change(subject, name, f'property {key}', one, other, f'property {plainly(key)}: {texts[0]} -> {texts[1]}')
    if set(old) == set(new) and list(old) != list(new):
        yield Change(subject, name, 'order of properties', list(old), list(new), f'order of properties: {shown_value(list(old))} -> {shown_value(list(new))}')


def _property(each: Optional[Members], one: Optional[Members], other: Optional[Members]) -> str:
    """A property in words, with its type where that differs."""
    if each is None:
        return 'none'
    kinds = {said([property.get(name) for name in ('type', 'propertytype')]) for property in (one, other) if property is not None}
    kind = f' ({each.get("propertytype") or each.get("type", "string")})' if len(kinds) > 1 else ''
    return f'{shown_value(each["value"])}{kind}'


def own_of(kind: str, members: Members) -> Members:
    return {name: value for name, value in members.items() if name not in OTHERS[kind] and name not in COUNTED}


def _of_the_map(now: MapNow, goal: MapNow) -> Iterator[Change]:
    yield from _of_values(MAP, '', own_of('map', now.tree), own_of('map', goal.tree))
    yield from _of_properties(MAP, '', now.tree, goal.tree)


# ---- tilesets, and tiles by them


def _of_tilesets(tilesets: list[Pair]) -> Iterator[Change]:
    for before, after in sorted(tilesets, key=lambda pair: first_id(pair[0] or pair[1] or {})):
        one = after or before or {}
        name, subject = tileset_name(one), Subject('tileset', first_id(before or one))
        if before is None or after is None:
            what, image = 'added' if before is None else 'removed', plainly(str(one.get('image', '')))
            yield Change(subject, name, what, before, after, f'{what}, first id {subject.id}' + (f', with the picture {image}' if image else ''))
        else:
            yield from _of_values(subject, name, before, after)


def _names_apart(tilesets: list[Pair]) -> Iterator[str]:
    """Their names in words of tiles: those that have one name are counted."""
    counts = dict[str, int]()
    for before, after in tilesets:
        name = tileset_name(after or before or {})
        counts[name] = counts.get(name, 0) + 1
        yield name if counts[name] == 1 else f'{name} ({counts[name]})'


class Tiles:
    """Tiles by their tilesets and their ids there: so they are the same in two maps that count them otherwise."""

    __slots__ = '_firsts', '_known'

    def __init__(self, tilesets: list[Pair], at: int):
        there = [(pair[at], name) for pair, name in zip(tilesets, _names_apart(tilesets))]
        self._firsts = sorted((first_id(each), name) for each, name in there if each is not None)
        self._known: dict[int, str] = {0: 'empty'}

    def name(self, value: int) -> str:
        """A tile in words, which are the same for the same tile."""
        if value not in self._known:
            first, tileset = max((pair for pair in self._firsts if pair[0] <= value & BASE), default=(0, 'no tileset'))
            flips = ' and '.join(word for flag, word in _FLAGS.items() if value & flag)
            self._known[value] = f'{plainly(tileset)}:{(value & BASE) - first}{f" flipped {flips}" if flips else ""}'
        return self._known[value]


# ---- layers


def layer_named(id: int, map: MapNow) -> str:
    name = map.layers[id].members.get('name', '')
    return f'layer {id}' + (f' {quoted(name)}' if name else '')


def _of_layers(now: MapNow, goal: MapNow, tiles: tuple[Tiles, Tiles]) -> Iterator[Change]:
    for id, stand in now.layers.items():
        if not goal.has(id, stand):
            yield _one('layer', id, stand, 'removed', _LAYERS[stand.members['type']])
    for id, stand in goal.layers.items():
        old = now.layers.get(id)
        if old is None or not now.has(id, stand):
            yield _one('layer', id, stand, 'added', _LAYERS[stand.members['type']] + _in(stand.parent, goal))
        else:
            yield from _of_layer(id, old, stand)
            if stand.members['type'] == 'tilelayer':
                yield from _of_cells(id, stand, now, goal, tiles)
    for parent in [0, *goal.layers]:
        yield from _moves('layer', now.layers_in(parent), goal.layers_in(parent), now.layers, goal.layers, goal)


def _in(parent: int, map: MapNow) -> str:
    return f', in {layer_named(parent, map)}' if parent else ''


def _one(kind: str, id: int, stand: Stand, what: str, words: str) -> Change:
    """A layer or an object that is in one of the maps alone."""
    before, after = (stand.members, None) if what == 'removed' else (None, stand.members)
    return Change(Subject(kind, id), stand.members.get('name', ''), what, before, after, f'{what}, {words}')


def _of_layer(id: int, old: Stand, new: Stand) -> Iterator[Change]:
    subject, name = Subject('layer', id), new.members.get('name', '')
    yield from _of_values(subject, name, own_of('layer', old.members), own_of('layer', new.members))
    yield from _of_properties(subject, name, old.members, new.members)


def _moves(
    kind: str, before: list[int], behind: list[int], old: dict[int, Stand], new: dict[int, Stand], goal: MapNow,
) -> Iterator[Change]:
    """What was moved into a list, and the fewest that were moved in it."""
    stay = staying(before, behind)
    for at, id in enumerate(behind):
        if id in old and id not in stay:
            parent, other = old[id].parent, new[id].parent
            is_into = parent != other
            goes = f'into {layer_named(other, goal)}' if is_into and other else 'out of all groups' if is_into else f'to place {at}'
            yield Change(Subject(kind, id), new[id].members.get('name', ''), 'moved', parent, [other, at], f'moved {goes}')


def _of_cells(id: int, stand: Stand, now: MapNow, goal: MapNow, tiles: tuple[Tiles, Tiles]) -> Iterator[Change]:
    """The cells of a layer that differ, by the rectangle around them and by the pairs of tiles that are the most."""
    old, new, wide = now.cells(id), goal.cells(id), goal.tree['width']
    pairs, corners = dict[tuple[str, str], int](), list[tuple[int, int]]()
    are_counted_alike = now.tree['tilesets'] == goal.tree['tilesets']
    for y in range(goal.tree['height']):
        row, other = old[y * wide:(y + 1) * wide], new[y * wide:(y + 1) * wide]
        if are_counted_alike and row.tobytes() == other.tobytes():
            continue
        values = [*zip(row.tolist(), other.tolist())]
        names = {pair: (tiles[0].name(pair[0]), tiles[1].name(pair[1])) for pair in dict.fromkeys(values)}
        changed = {pair for pair, (was, is_now) in names.items() if was != is_now}
        if changed:
            for pair, count in Counter(values).items():
                if pair in changed:
                    pairs[names[pair]] = pairs.get(names[pair], 0) + count
            corners.append((next(x for x in range(wide) if values[x] in changed), y))
            corners.append((next(x for x in range(wide - 1, -1, -1) if values[x] in changed), y))
    if pairs:
        yield _cells_changed(id, stand, pairs, corners)


def _cells_changed(id: int, stand: Stand, pairs: dict[tuple[str, str], int], corners: list[tuple[int, int]]) -> Change:
    """The change of cells. The corners are the first and the last cell of each row."""
    (left, right), (top, bottom) = ((min(line), max(line)) for line in zip(*corners))
    most, all_ = sorted(pairs, key=lambda pair: -pairs[pair]), sum(pairs.values())
    shown = [f'{before} -> {behind}' for before, behind in most[:_PAIRS]]
    more = f' and {len(most) - _PAIRS} more' if len(most) > _PAIRS else ''
    count = f'{all_} cells' if all_ > 1 else '1 cell'
    words = f'{count} in {left},{top} to {right},{bottom}: {", ".join(shown)}{more}'
    area = {'x': left, 'y': top, 'width': right - left + 1, 'height': bottom - top + 1, 'count': all_}
    before, after = ({**area, 'tiles': [pair[at] for pair in most]} for at in (0, 1))
    return Change(Subject('layer', id), stand.members.get('name', ''), 'cells', before, after, words)


# ---- objects


def _of_objects(now: MapNow, goal: MapNow, tiles: tuple[Tiles, Tiles]) -> Iterator[Change]:
    for id, stand in now.objects.items():
        if id not in goal.objects:
            yield _one('object', id, stand, 'removed', f'in {layer_named(stand.parent, now)}')
    for id, stand in goal.objects.items():
        if id in now.objects:
            yield from _of_object(id, now.objects[id].members, stand.members, tiles)
        else:
            x, y = (stand.members.get(name, 0) for name in ('x', 'y'))
            yield _one('object', id, stand, 'added', f'in {layer_named(stand.parent, goal)} at {x}, {y}')
    for layer, stand in goal.layers.items():
        if stand.members['type'] == 'objectgroup':
            yield from _moves('object', now.objects_in(layer), goal.objects_in(layer), now.objects, goal.objects, goal)


def _of_object(id: int, old: Members, new: Members, tiles: tuple[Tiles, Tiles]) -> Iterator[Change]:
    subject, name = Subject('object', id), new.get('name', '')
    before, after = own_of('object', old), own_of('object', new)
    names = [each.name(members['gid']) if 'gid' in members else 'none' for each, members in zip(tiles, (old, new))]
    if names[0] == names[1] and 'gid' in before and 'gid' in after:
        before['gid'] = after['gid']
    yield from _of_values(subject, name, before, after, {'gid': names})
    yield from _of_properties(subject, name, old, new)


def told_as_json(changes: Iterable[Change]) -> str:
    """Changes as JSON in one line."""
    listed = [
        {'kind': each.subject.kind, 'id': each.subject.id, 'name': each.name, 'what': each.what, 'before': each.before, 'after': each.after,
         'words': each.words}
        for each in changes
    ]
    return json.dumps({'changes': listed}, ensure_ascii=False)
