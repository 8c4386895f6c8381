# SPDX-License-Identifier: MIT OR Apache-2.0
"""Layers that are added as a file has them, with all in them: the line that adds one; or, where one line is too short for it, those that
add it without what it holds, and then that."""
import json
import struct
from typing import Any, Iterable, Iterator, Mapping, Optional, Union

from . import json_values, new_objects
from .limits import MAX_LINE
from .rows import parts_of
from .selection import Run
from .tiled_maps import PACKING, Members

_MEMBERS = 'the members of a layer'


def plain(members: Mapping[str, Any]) -> Members:
    """A layer as a file has it. Raises TypeError; ValueError, also for the note of how a layer was packed, by which a save would pack it."""
    layer: Members = json.loads(json_values.members_said(members, _MEMBERS))
    taken = next((name for name in PACKING if any(name in each for each in _with_inner(layer))), None)
    if taken is not None:
        raise ValueError(f'{_MEMBERS} have a reserved name: {taken!r}')
    return layer


def _with_inner(layer: Any) -> Iterator[Members]:
    """A layer, and all that stand in it."""
    if isinstance(layer, dict):
        yield layer
        inner = layer.get('layers')
        for each in inner if isinstance(inner, list) else ():
            yield from _with_inner(each)


def lines_of(group: int, at: int, layer: Members, size: tuple[int, int]) -> Iterator[str]:
    """The lines that add a layer to a map of so many columns and rows, in a group, or in none where that is 0, at a place there."""
    line = put_line(group, at, layer)
    held = _held(layer, size) if len(line.encode()) > MAX_LINE else None
    if held is None:
        yield line
        return
    frame = {name: [] if name in ('objects', 'layers') else value for name, value in layer.items() if name != 'data'}
    yield put_line(group, at, frame)
    yield from held


def selecting(runs: Iterable[Run]) -> Iterator[str]:
    """The lines that select these cells, and no others."""
    for place, run in enumerate(runs):
        yield f'select {"add" if place else "replace"} {run.column} {run.row} {run.length} 1'


def put_line(group: int, at: int, layer: Members) -> str:
    """The line that adds a layer as a file has it."""
    return f'layer put {group} {at} {json_values.said(layer, _MEMBERS)}'


def _held(layer: Members, size: tuple[int, int]) -> Optional[Iterator[str]]:
    """The lines that add what a layer holds, to it without that; None where it holds nothing that lines could add."""
    kind = layer.get('type')
    if kind == 'objectgroup' and isinstance(layer.get('objects'), list):
        return (new_objects.put_line(layer.get('id', 0), json_values.said(item, _MEMBERS)) for item in layer['objects'])
    if kind == 'group' and isinstance(layer.get('layers'), list):
        return (line for at, inner in enumerate(layer['layers']) for line in lines_of(layer.get('id', 0), at, inner, size))
    width, height = size
    values = _values(layer.get('data')) if kind == 'tilelayer' else None
    if values is None or len(values) != width * height:
        return None
    return _stamps(layer.get('id', 0), [values[first:first + width] for first in range(0, len(values), width)])


def _stamps(layer: int, rows: list[list[int]]) -> Iterator[str]:
    """The lines that stamp the rows of a map's width that are not empty."""
    filled = [y for y, row in enumerate(rows) if any(row)]
    if filled:
        top = filled[0]
        for part in parts_of(rows[top:filled[-1] + 1]):
            yield f'stamp {layer} 0 {top + part.first} {len(rows[0])} {part.values}'


def data_of(cells: memoryview, encoding: Any) -> Union[list[int], str]:
    """What a file has of the cells of a tile layer: numbers, or in base64 four bytes of each."""
    if encoding != 'base64':
        return cells.tolist()
    import base64

    return base64.b64encode(struct.pack(f'<{len(cells)}I', *cells)).decode()


def _values(data: Any) -> Optional[list[int]]:
    """The values of a tile layer, which a file has as numbers or in base64; None where it has neither."""
    if isinstance(data, list):
        return data if all(isinstance(value, int) for value in data) else None
    import base64  # with the first layer that needs it

    try:
        packed = base64.b64decode(''.join(data.split()), validate=True)
    except (AttributeError, ValueError):
        return None
    return [int.from_bytes(packed[at:at + 4], 'little') for at in range(0, len(packed), 4)]
