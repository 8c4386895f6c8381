# SPDX-License-Identifier: MIT OR Apache-2.0
"""The map editor, called and not spawned.

    with Editor() as editor:
        document = editor.open('town.tmj')
        document.stamp('Ground', 16, 22, [[13, 13, 13]])
        document.save()
"""
from typing import TYPE_CHECKING, Any

from .document import Document, Status, Step
from .editor import Editor
from .faults import BadTileset, Closed, Error, InCallback, NotFound, OtherType, Refused
from .views import Layer, Layers, MapObject, Objects
from .kinds import AddedLayerKind, Corners, FileKind, LayerKind, Layout, PropertyType, Rows, SelectionMode, SetPropertyType
from .library import VERSION as __version__
from .map_faults import MapPlace
from .names import document_name
from .own_members import OwnMembers
from .properties import Properties
from .reports import report
from .rows import flipped_horizontally, flipped_vertically, turned_right
from .selection import Run, Selection
from .tilesets import Tile, Tileset, Tilesets, TilesetTile
from .told import CellArea, StepRow, Subject, Told
from .watches import Watch
from .word_faults import WordAtFault

if TYPE_CHECKING:
    from .difference import Change, Difference
    from .merging import Conflict, Merge, merge

__all__ = [
    'AddedLayerKind', 'BadTileset', 'CellArea', 'Change', 'Closed', 'Conflict', 'Corners', 'Difference', 'Document', 'Editor', 'Error', 'FileKind', 'InCallback',
    'Layer', 'LayerKind', 'Layers', 'Layout', 'MapObject', 'MapPlace', 'Merge', 'NotFound', 'Objects', 'OtherType', 'OwnMembers', 'Properties',
    'PropertyType', 'Refused', 'Rows', 'Run', 'Selection', 'SelectionMode', 'SetPropertyType', 'Status', 'Step', 'StepRow', 'Subject',
    'Tile', 'Tileset', 'TilesetTile', 'Tilesets', 'Told', 'Watch', 'WordAtFault', '__version__', 'document_name', 'flipped_horizontally',
    'flipped_vertically', 'merge', 'report', 'turned_right',
]


def __getattr__(name: str) -> Any:
    """What only a difference or a merge of maps needs comes with its first use."""
    if name in ('Change', 'Difference'):
        from . import difference

        return getattr(difference, name)
    if name in ('Conflict', 'Merge', 'merge'):
        from . import merging

        return getattr(merging, name)
    raise AttributeError(f'module {__name__!r} has no attribute {name!r}')
