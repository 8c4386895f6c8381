# SPDX-License-Identifier: MIT OR Apache-2.0
"""Marks on a map for who settles conflicts in Tiled: a layer of rectangles, one for each conflict, at its place and named by it."""
from itertools import islice
from typing import TYPE_CHECKING, Any, Iterable, Optional

from .compared_maps import cell_steps, first_cell
from .merged_maps import Conflict
from .tiled_maps import Members

if TYPE_CHECKING:
    from .document import Document
    from .views import Layer

# The layer of the marks and its property, by which it is known, the class of a mark and its property, which has the conflict's key, and the
# colour.
_NAME, _KNOWN, _OF_ONE, _KEY, _COLOUR = 'Conflicts', 'conflicts', 'conflict', 'key', '#ff0000'
# The longest name of a mark, and the most marks, as many as a layer takes.
_LONGEST, _MOST = 200, 4096

Box = tuple[float, float, float, float]


def mark(document: 'Document', conflicts: Iterable[Conflict], opened: tuple[int, int]) -> None:
    """Puts a layer of marks on a map, above all others. `opened` is where the corner of an infinite map lay when it was opened. What has no
    place, as a layer, has its mark at the corner, one below the other."""
    layer = document.layers.add('object', _NAME)
    layer.members['color'] = _COLOUR
    layer.properties[_KNOWN] = True
    grid = _Grid(document, opened)
    rows = 0
    for conflict in islice(conflicts, _MOST):
        box = _box_of(conflict, document, grid)
        if box is None:
            box, rows = grid.box(0, rows, 1, 1), rows + 1
        x, y, width, height = (int(value) if float(value).is_integer() else value for value in box)
        layer.objects.add(str(conflict)[:_LONGEST], x, y, width, height, class_name=_OF_ONE, properties={_KEY: conflict.key})


def marks_of(document: 'Document') -> 'Optional[Layer]':
    """The layer of marks that a map has, if it has one."""
    return next((each for each in document.layers.walk() if each.kind == 'object' and _KNOWN in each.properties), None)


def marked_keys(layer: 'Layer') -> set[str]:
    """The keys of the conflicts whose marks are still there."""
    return {str(each.properties[_KEY]) for each in layer.objects if _KEY in each.properties}


class _Grid:
    """Where the cells of a map lie, as objects count."""

    def __init__(self, document: 'Document', opened: tuple[int, int]):
        tree = document.outline()
        self.is_isometric = tree.get('orientation') == 'isometric'
        self._first, self._step = first_cell(document, tree, opened), cell_steps(tree)
        self._cell = (tree['tileheight'] if self.is_isometric else tree['tilewidth'], tree['tileheight'])
        # How far those of every other row or column reach out.
        is_plain = tree.get('orientation') not in ('staggered', 'hexagonal')
        self._more = (0, 0) if is_plain else (0, self._cell[1] // 2) if tree.get('staggeraxis') == 'x' else (self._cell[0] // 2, 0)

    def box(self, x: int, y: int, width: int, height: int) -> Box:
        """The box of cells, as an object has it."""
        left, top = (first + at * step for at, first, step in zip((x, y), self._first, self._step))
        wide, high = ((count - 1) * step + cell + more for count, step, cell, more in zip((width, height), self._step, self._cell, self._more))
        return left, top, wide, high

    def around(self, members: Members) -> Box:
        """The box of an object; one of a cell around what has no size."""
        x, y, width, height = (members.get(name, 0) for name in ('x', 'y', 'width', 'height'))
        if not width or not height:
            wide, high = self._cell
            return x - wide / 2, y - high / 2, wide, high
        is_above = 'gid' in members and not self.is_isometric
        return x, y - height if is_above else y, width, height


def _box_of(conflict: Conflict, document: 'Document', grid: _Grid) -> Optional[Box]:
    """Where a conflict has its mark; None where it has no place."""
    if conflict.what == 'cells':
        area = conflict.ours
        return grid.box(area['x'], area['y'], area['width'], area['height'])
    if conflict.subject.kind != 'object':
        return None
    sides: list[Any] = [conflict.ours, conflict.theirs, conflict.base]
    if conflict.subject.id in document.objects:
        return grid.around(document.objects[conflict.subject.id].members)
    return next((grid.around(each) for each in sides if isinstance(each, dict) and 'x' in each), None)
