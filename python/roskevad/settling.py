# SPDX-License-Identifier: MIT OR Apache-2.0
"""How a map has settled conflicts that a merge tells: which of its changes are of them, and what in it is not as merged."""
import subprocess
import tempfile
from pathlib import Path
from typing import TYPE_CHECKING, Sequence

from .compared_maps import MapNow, is_infinite
from .difference import MAP, Change
from .merged_maps import SHAPES, Conflict
from .told import Subject

if TYPE_CHECKING:
    from .document import Document

# Conflicts about whole things, which may come back under another id.
_WHOLE = 'removed', 'added'


def is_of(change: Change, conflict: Conflict) -> bool:
    """Whether a change, but of cells, may be how somebody has settled a conflict: of the same thing, or of one that came back by its name."""
    what, one = conflict.what, change.what
    if conflict.key == 'map/size':
        return change.subject == MAP and one == 'size'
    if what == 'order':
        return one == 'moved' and change.subject.kind == conflict.subject.kind
    if change.subject != conflict.subject:
        return what in _WHOLE and one == 'added' and (change.subject.kind, change.name) == (conflict.subject.kind, conflict.name)
    if what == 'shape':
        return one in SHAPES
    # Where a tileset is kept is of all that the map has of it.
    return what in (*_WHOLE, 'unsaid', 'source' if change.subject.kind == 'tileset' else one, one) or what.startswith((f'{one}.', f'{one} '))


def cells_are_settled(conflict: Conflict, now: 'Document') -> bool:
    """Whether the cells of a conflict are not as ours has them in a map."""
    layer = conflict.subject.id
    if layer not in now.layers or now.layers[layer].kind != 'tile':
        return True
    cells, wide, high = now.layers[layer].cells(), now.width, now.height
    return any(x >= wide or y >= high or cells[y * wide + x] != value for x, y, value in conflict.ours['cells'])


def not_as_merged(base: 'Document', merged: 'Document', result: 'Document', conflicts: Sequence[Conflict]) -> list[Change]:
    """What is in a map otherwise than in a merged one, but for what is in conflict, and for the order of what was added. Cells that are in
    conflict are as ours has them in it then."""
    for conflict in conflicts:
        if conflict.what == 'cells' and conflict.ours['cells']:
            _undraw(conflict, result)
    others = [each for each in conflicts if each.what != 'cells' or each.key == 'map/size']
    maps = MapNow(base), MapNow(merged), MapNow(result)
    changes = [*merged.difference(result)]
    # What stands in a thing that was removed or came back goes with it.
    whole = {each.subject for each in others if each.what in _WHOLE}
    whole |= {each.subject for each in changes if each.what in _WHOLE and any(is_of(each, one) for one in others)}
    same_order = _lists_of_one_order(*maps)
    return [each for each in changes if not any(is_of(each, one) for one in others) and whole.isdisjoint(_holders(each.subject, maps))
            and not _is_free(each, same_order, is_infinite(merged))]


def _undraw(conflict: Conflict, result: 'Document') -> None:
    """Gives the cells of a conflict what ours has there, as far as they are there."""
    layer, area = conflict.subject.id, conflict.ours
    if layer not in result.layers or result.layers[layer].kind != 'tile' or area['x'] >= result.width or area['y'] >= result.height:
        return
    wide, high = min(area['width'], result.width - area['x']), min(area['height'], result.height - area['y'])
    cells = result.layers[layer].cells(area['x'], area['y'], wide, high).tolist()
    rows = [cells[y * wide:(y + 1) * wide] for y in range(high)]
    for x, y, value in area['cells']:
        if x - area['x'] < wide and y - area['y'] < high:
            rows[y - area['y']][x - area['x']] = value
    result.layers[layer].write(area['x'], area['y'], rows)


def _holders(subject: Subject, maps: Sequence[MapNow]) -> set[Subject]:
    """All that holds a layer or an object in some maps."""
    found = set[Subject]()
    for map in maps:
        stands = map.layers if subject.kind == 'layer' else map.objects if subject.kind == 'object' else {}
        parent = stands[subject.id].parent if subject.id in stands else 0
        while parent:
            found.add(Subject('layer', parent))
            parent = map.layers[parent].parent
    return found


def _is_free(change: Change, same_order: set[tuple[str, int]], is_on_a_plane: bool) -> bool:
    """Whether a change is no fact that a merge has settled: how much of its plane an infinite map has, and where among others something stands
    that was added."""
    if change.what == 'size' and change.subject == MAP:
        return is_on_a_plane
    return change.what == 'moved' and change.before == change.after[0] and (change.subject.kind, change.before) in same_order


def _lists_of_one_order(first: MapNow, *maps: MapNow) -> set[tuple[str, int]]:
    """The lists, by what stands in them and what holds it, in which all that the first map has stands in the same order in the others."""
    found = set[tuple[str, int]]()
    for holder in [0, *maps[0].layers]:
        for kind, known, lists in (('layer', first.layers, [map.layers_in(holder) for map in maps]),
                                   ('object', first.objects, [map.objects_in(holder) for map in maps])):
            both = {*lists[0]} & {*lists[1]} & known.keys()
            if [each for each in lists[0] if each in both] == [each for each in lists[1] if each in both]:
                found.add((kind, holder))
    return found


def is_merged_as_text(base: Path, ours: Path, theirs: Path, result: Path) -> bool:
    """Whether a file is what git makes of the texts of three by itself, without a conflict: then nobody has seen that there was one."""
    with tempfile.TemporaryDirectory() as folder:
        copies = [Path(folder, name) for name in ('ours', 'base', 'theirs')]
        for copy, path in zip(copies, (ours, base, theirs)):
            copy.write_bytes(path.read_bytes())
        try:
            done = subprocess.run(['git', 'merge-file', '-p', *map(str, copies)], capture_output=True)
        except OSError:
            return False
        return done.returncode == 0 and done.stdout == result.read_bytes()
