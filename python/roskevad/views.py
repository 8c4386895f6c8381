# SPDX-License-Identifier: MIT OR Apache-2.0
"""The layers of a document, and their objects."""
import contextlib
import json
from typing import TYPE_CHECKING, Any, Callable, ContextManager, Iterator, Mapping, Optional, TypeVar, Union, cast

from . import json_values, new_layers, new_objects, words
from .faults import Refused, refused_call
from .kinds import AddedLayerKind, Corners, LayerKind, Rows
from .library import KINDS, LayerRow
from .limits import MAX_GROUPS, MAX_LAYERS
from .own_members import Owner, OwnMembers, say_members, set_member, set_or_remove
from .properties import Properties
from .tiled_maps import Members, notes_one
from .rows import BASE, replaced, tile_value
from .tilesets import Tile, absent, is_id, tile_of

if TYPE_CHECKING:
    from .document import Document, LayerLike

_Answer = TypeVar('_Answer')
_Default = TypeVar('_Default')
#: The kinds of layers, by the words of Tiled's files.
TYPES: dict[str, LayerKind] = {'tilelayer': 'tile', 'objectgroup': 'object', 'group': 'group', 'imagelayer': 'image'}
#: The kinds of layers, each of which a line adds.
ALL_KINDS = tuple(KINDS.values())
# What the members of an object are where its file leaves them out, as those of a template.
_ABSENT = {'name': '', 'x': 0, 'y': 0}


class _View:
    """What a document has under an id: it is looked up at each call."""

    # So that a name that it has not is never set silently.
    __slots__ = '_document', '_id'
    _subject, _code = 'layer', 30

    def __init__(self, document: 'Document', id: int):
        self._document = document
        self._id = id

    def _now(self) -> Members:
        """What the map says of it, in a turn; of a layer without what is in it. Raises Refused."""
        members: Optional[Members] = self._document._read(self._subject, self._id)
        if members is None:
            raise self._missing()
        return members

    def _missing(self) -> Refused:
        return refused_call(self._code, f'{type(self).__name__} {self.id}')

    def _look(self, answer: Callable[[Members], _Answer]) -> _Answer:
        return self._document._do(lambda: answer(self._now()))

    @property
    def id(self) -> int:
        """Its id."""
        return self._id

    @property
    def document(self) -> 'Document':
        """The document that it belongs to."""
        return self._document

    @property
    def members(self) -> OwnMembers:
        """All that the map says of it, without cells: a copy, whose own members can be set and taken out. Raises Refused where it was
        removed."""
        return OwnMembers(self._owner)

    @property
    def _owner(self) -> Owner:
        return Owner(self._document, self._subject, self.id, self._now, self._whole)

    def _whole(self) -> Members:
        return self._now()

    def __int__(self) -> int:
        """Its id."""
        return self._id

    def __eq__(self, other: object) -> bool:
        return type(other) is type(self) and isinstance(other, _View) and (self._document, self.id) == (other._document, other.id)

    def __hash__(self) -> int:
        return hash((type(self), self._document, self.id))


class MapObject(_View):
    """An object of a document, by its id. It stays the same however the map changes; where it was removed, a call raises Refused,
    34. Places and sizes are in pixels."""

    __slots__ = '_object_id',
    _subject, _code = 'object', 34

    def __init__(self, document: 'Document', id: int):
        super().__init__(document, id)
        self._object_id = id

    @property
    def layer(self) -> 'Layer':
        """The layer that it is in. Raises Refused."""
        id = self._document._do(lambda: self._document._editor._number('object_layer', self.id))
        if id is None:
            raise self._missing()
        return Layer(self._document, id)

    @property
    def name(self) -> str:
        """Its name. Set, it renames the object. Raises Refused; set, also TypeError, ValueError."""
        return self._look(lambda members: str(members.get('name', '')))

    @name.setter
    def name(self, name: str) -> None:
        set_member(self._owner, 'name', json_values.text(name, 'the name of an object'))

    @property
    def class_name(self) -> str:
        """Its class, as Tiled calls it: the member `type` of the file. Set, it gives the object another one. Raises Refused; set, also
        TypeError, ValueError."""
        return self._look(lambda members: str(members.get('type', '')))

    @class_name.setter
    def class_name(self, name: str) -> None:
        set_member(self._owner, 'type', json_values.text(name, 'the class of an object'))

    @property
    def type(self) -> str:
        """The same, by its name in the file; `class_name` sets it. Raises Refused."""
        return self.class_name

    @property
    def is_point(self) -> bool:
        """Whether it is a point of Tiled; the member `point` makes it one. An object without a size need not be one. Raises Refused."""
        return self._look(lambda members: members.get('point') is True)

    @property
    def x(self) -> float:
        """Its column in pixels, whole or with a fraction. Set, it moves the object. Raises Refused; set, also TypeError, ValueError."""
        return self._number('x')

    @x.setter
    def x(self, x: float) -> None:
        set_member(self._owner, 'x', new_objects.pixels(x, 'x'))

    @property
    def y(self) -> float:
        """Its row in pixels, whole or with a fraction. Set, it moves the object. Raises Refused; set, also TypeError, ValueError."""
        return self._number('y')

    @y.setter
    def y(self, y: float) -> None:
        set_member(self._owner, 'y', new_objects.pixels(y, 'y'))

    @property
    def width(self) -> float:
        """Its width in pixels, whole or with a fraction. Set, it gives the object that width. Raises Refused; set, also TypeError,
        ValueError."""
        return self._number('width')

    @width.setter
    def width(self, width: float) -> None:
        set_member(self._owner, 'width', new_objects.length(width, 'a width'))

    @property
    def height(self) -> float:
        """Its height in pixels, whole or with a fraction. Set, it gives the object that height. Raises Refused; set, also TypeError,
        ValueError."""
        return self._number('height')

    @height.setter
    def height(self, height: float) -> None:
        set_member(self._owner, 'height', new_objects.length(height, 'a height'))

    def _number(self, name: str) -> float:
        return self._look(lambda members: cast(float, members.get(name, 0)))

    @property
    def rotation(self) -> float:
        """How far it is turned, in degrees clockwise. Set, it turns the object. Raises Refused; set, also TypeError, ValueError."""
        return self._number('rotation')

    @rotation.setter
    def rotation(self, degrees: float) -> None:
        set_member(self._owner, 'rotation', json_values.number(degrees, 'the rotation of an object'))

    @property
    def visible(self) -> bool:
        """Whether it is shown. Set, it shows or hides the object. Raises Refused."""
        return self._look(lambda members: bool(members.get('visible', True)))

    @visible.setter
    def visible(self, visible: bool) -> None:
        set_member(self._owner, 'visible', bool(visible))

    # A checker of types holds what is set against the type that is read, and a value is a number.
    @property
    def tile(self) -> Union[Tile, Any, None]:
        """Its tile, where it is one; else None. Set to a tile, or to the value of a cell, it gives the object that tile; None, or the value
        0, takes its tile away. Raises Refused; set, also TypeError, ValueError."""

        def find(members: Members) -> Optional[Tile]:
            value = members.get('gid', 0)
            return tile_of(self._document, value) if value else None

        return self._look(find)

    @tile.setter
    def tile(self, tile: Union[Tile, int, None]) -> None:
        value = words.number(0 if tile is None else tile.value if isinstance(tile, Tile) else tile, 'the tile of an object')
        set_or_remove(self._owner, 'gid', value or None)

    @property
    def properties(self) -> Properties:
        """Its properties, a live view."""
        return Properties(self._document, 'object', self)

    def move(self, x: float, y: float, merge: bool = False) -> None:
        """Moves it to a place in pixels, whole or with a fraction; with `merge` as one step with a move of it before, between places that
        are whole or that are not. Raises TypeError, ValueError; Refused."""
        self._set_place(f'move{"+" if merge else ""}', {'x': new_objects.pixels(x, 'x'), 'y': new_objects.pixels(y, 'y')}, merge)

    def resize(self, width: float, height: float) -> None:
        """Gives it a size in pixels, whole or with a fraction. Raises TypeError, ValueError; Refused."""
        size = {'width': new_objects.length(width, 'a width'), 'height': new_objects.length(height, 'a height')}
        self._set_place('resize', size)

    def _set_place(self, verb: str, place: Members, merge: bool = False) -> None:
        """Says the line of a move or a size; that of own members where a number of it is not whole, or was not."""

        def work() -> None:
            text = self._document._editor._copy_bytes('object', self.id) or b'{}'
            if any(map(new_objects.has_fraction, place.values())) or notes_one(text, place):
                say_members(self._owner, json_values.said(place, 'a place'), merge)
            else:
                self._document._say_edit(f'object {verb} {self.id} {" ".join(map(str, place.values()))}')

        self._document._do(work)

    def move_into(self, layer: 'LayerLike', place: Optional[int] = None) -> None:
        """Moves it into an object layer, which may be its own: to a place among the other objects there, from 0, or last. Its id and all that
        it has stay. Raises TypeError, ValueError, NotFound; Refused: 30 where there is no such layer, 31 where it is no object layer, 39 for a
        place past the last one, 40 where it is full."""
        at = None if place is None else words.number(place, 'a place')

        def work() -> None:
            goal = self._document._id_of(layer)
            self._document._say_edit(f'object into {self.id} {goal} {self._others_in(goal) if at is None else at}')

        self._document._do(work)

    def _others_in(self, layer: int) -> int:
        """How many other objects a layer has, in a turn."""
        editor = self._document._editor
        return (editor._count('object_ids', layer) or 0) - (editor._number('object_layer', self.id) == layer)

    def remove(self) -> None:
        """Removes it. Raises Refused."""
        self._document._edit(f'object remove {self.id}')

    def __repr__(self) -> str:
        described = self._document._peek(lambda: '{name!r} at {x}, {y}'.format(**{**_ABSENT, **self._now()}))
        return f'<MapObject {self.id} {described or "of " + repr(self._document.name)}>'


class Objects:
    """The objects of a layer, or of a whole document: in drawing order. `[int]` is the one with that id, `[str]` the first of
    that name; else NotFound."""

    __slots__ = '_document', '_layer'

    def __init__(self, document: 'Document', layer: Optional[int] = None):
        self._document = document
        self._layer = layer

    def _ids(self) -> list[int]:
        """The ids of all, in a turn."""
        return self._document._ids('object_ids', self._layer or 0)

    def __iter__(self) -> Iterator[MapObject]:
        """Each object, in drawing order."""
        return iter([MapObject(self._document, id) for id in self._document._do(self._ids)])

    def __len__(self) -> int:
        return self._document._do(lambda: self._document._editor._count('object_ids', self._layer or 0)) or 0

    def _is_whole(self) -> bool:
        """Whether they are those of the whole document."""
        return self._layer is None

    def _found(self, key: object) -> Optional[int]:
        """The id of what a key stands for, in a turn; None where there is no such object here."""
        return _id_of(self, MapObject, key)

    def _has(self, id: int) -> bool:
        layer = self._document._editor._number('object_layer', id)
        return layer is not None and self._layer in (None, layer)

    def __reversed__(self) -> Iterator[MapObject]:
        """Each object, the one that is drawn last first."""
        return reversed(list(self))

    def __getitem__(self, key: Union[int, str, MapObject]) -> MapObject:
        """The object with an id, or the first of a name. Raises NotFound where there is none."""
        found = self.get(key)
        if found is None:
            raise absent('object', key, self._document._do(self._ids))
        return found

    def get(self, key: Union[int, str, MapObject], default: Optional[_Default] = None) -> Union[MapObject, Optional[_Default]]:
        """The object with an id, or the first of a name; `default` where there is none."""
        id = self._document._do(lambda: self._found(key))
        return default if id is None else MapObject(self._document, id)

    def __contains__(self, key: object) -> bool:
        """Whether there is an object with an id, or of a name."""
        return self._document._do(lambda: self._found(key)) is not None

    def add(
        self, name: str, x: float, y: float, width: float = 0, height: float = 0, *, point: bool = False, ellipse: bool = False,
        polygon: Optional[Corners] = None, polyline: Optional[Corners] = None, text: Union[str, Mapping[str, Any], None] = None,
        tile: Union[Tile, int, None] = None, class_name: str = '', rotation: float = 0, visible: bool = True,
        properties: Optional[Mapping[str, Any]] = None,
    ) -> MapObject:
        """Adds an object to this layer, last, at a place and of a size in pixels, and gives it: a rectangle, or what one of `point` to `tile`
        says. Corners are counted from its place. Raises TypeError; ValueError, also for the objects of a whole document; Refused: 31 where
        the layer is no object layer."""
        layer = self._own_layer()
        place = {'x': new_objects.pixels(x, 'x'), 'y': new_objects.pixels(y, 'y')}
        place |= {'width': new_objects.length(width, 'a width'), 'height': new_objects.length(height, 'a height')}
        looks = new_objects.looks_of(point, ellipse, polygon, polyline, text, tile)
        line = new_objects.line_of(layer, name, place, {**new_objects.given(class_name, rotation, visible, properties), **looks})
        return MapObject(self._document, self._document._add('object', line))

    def put(self, members: Mapping[str, Any]) -> MapObject:
        """Adds an object to this layer, last, as a file has it, and gives it: nothing is added to its members. It may say its id, as one that
        was removed. Raises TypeError; ValueError, also for the objects of a whole document; Refused: 31 where the layer is no object layer,
        67 where its id is in the map."""
        layer, text = self._own_layer(), new_objects.text_of(members)
        last = self._document._add('object', new_objects.put_line(layer, text))
        return MapObject(self._document, json.loads(text).get('id', last))

    def _own_layer(self) -> int:
        """The layer that an object is added to. Raises ValueError for the objects of a whole document."""
        if self._layer is None:
            raise ValueError('an object is added to a layer: document.layers[..].objects.add(..)')
        return self._layer

    def __repr__(self) -> str:
        return f'<Objects of {"all layers" if self._layer is None else f"layer {self._layer}"} of {self._document.name!r}>'


def _id_of(things: 'Union[Objects, Layers]', view: type[_View], key: object) -> Optional[int]:
    """The id of what a key stands for among layers or objects, in a turn; None where there is no such thing among them."""
    document, subject = things._document, view._subject
    if isinstance(key, view):
        return _id_of(things, view, key.id) if key.document is document else None
    if isinstance(key, str):
        id = document._editor._find(subject, key)
        is_here = id is None or things._is_whole() or things._has(id)
        return id if is_here else _first_named(document, subject, things._ids(), key)
    return cast(int, key) if is_id(key) and things._has(cast(int, key)) else None


def _first_named(document: 'Document', subject: str, ids: list[int], name: str) -> Optional[int]:
    """The first of these layers or objects that has a name, in a turn: each is looked at."""
    return next((id for id in ids if document._read(subject, id).get('name', '') == name), None)


class Layer(_View):
    """A layer of a document, by its id. It stays the same however the map changes; where it was removed, a call raises Refused,
    30."""

    __slots__ = ()

    def _whole(self) -> Members:
        members = self._now()
        if members['type'] == 'tilelayer':
            sizes, encoding = self._document._sizes(), self._document._encoding_of(self.id)
            members.update(width=sizes.width, height=sizes.height, **({} if encoding is None else {'encoding': encoding}))
        elif members['type'] == 'objectgroup':
            members['objects'] = [self._document._read('object', id) for id in self._document._ids('object_ids', self.id)]
        elif members['type'] == 'group':
            members['layers'] = [Layer(self._document, row.id)._whole() for row in self.layers._below()]
        return members

    @property
    def kind(self) -> LayerKind:
        """Its kind: tile, object, group or image. Raises Refused."""
        return self._look(lambda members: TYPES[members['type']])

    @property
    def name(self) -> str:
        """Its name. Set, it renames the layer. Raises Refused; set, also TypeError, ValueError."""
        return self._look(lambda members: str(members['name']))

    @name.setter
    def name(self, name: str) -> None:
        self._document._edit(f'layer rename {self.id} {words.text(name, "the name of a layer")}')

    @property
    def visible(self) -> bool:
        """Whether it is shown. Set, it shows or hides the layer. Raises Refused."""
        return self._look(lambda members: bool(members['visible']))

    @visible.setter
    def visible(self, visible: bool) -> None:
        self._document._edit(f'layer show {self.id} {"yes" if visible else "no"}')

    @property
    def class_name(self) -> str:
        """Its class, as Tiled calls it: the member `class` of the file. Set, it gives the layer another one. Raises Refused; set, also
        TypeError, ValueError."""
        return self._look(lambda members: str(members.get('class', '')))

    @class_name.setter
    def class_name(self, name: str) -> None:
        set_member(self._owner, 'class', json_values.text(name, 'the class of a layer'))

    @property
    def opacity(self) -> float:
        """How much it covers, from 0 to 1. Set, it makes the layer so. Raises Refused; set, also TypeError, ValueError."""
        return self._look(lambda members: cast(float, members.get('opacity', 1)))

    @opacity.setter
    def opacity(self, opacity: float) -> None:
        set_member(self._owner, 'opacity', json_values.number(opacity, 'the opacity of a layer'))

    @property
    def tint(self) -> Optional[str]:
        """The colour that it is tinted with, as the file has it; None where there is none. Set, it gives the layer another one, and None takes
        it away. Raises Refused; set, also TypeError, ValueError."""
        return self._look(lambda members: cast(Optional[str], members.get('tintcolor')))

    @tint.setter
    def tint(self, tint: Optional[str]) -> None:
        set_or_remove(self._owner, 'tintcolor', tint if tint is None else json_values.text(tint, 'the tint of a layer'))

    @property
    def locked(self) -> bool:
        """Whether Tiled keeps it from being edited; this editor does not. Set, it locks the layer, or unlocks it: as in Tiled's files,
        only a locked one has the member. Raises Refused."""
        return self._look(lambda members: bool(members.get('locked', False)))

    @locked.setter
    def locked(self, locked: bool) -> None:
        set_or_remove(self._owner, 'locked', True if locked else None)

    @property
    def parent(self) -> Optional['Layer']:
        """The group that it stands in; None where it stands in none. Raises Refused."""

        def find() -> int:
            row = next((row for row in self._document._layer_rows() if row.id == self.id), None)
            if row is None:
                raise self._missing()
            return row.parent

        group = self._document._do(find)
        return Layer(self._document, group) if group else None

    @property
    def layers(self) -> 'Layers':
        """The layers in it, where it is a group; else none: a live view."""
        return Layers(self._document, self.id)

    @property
    def objects(self) -> Objects:
        """The objects in it, where it is an object layer; else none: a live view."""
        return Objects(self._document, self.id)

    @property
    def properties(self) -> Properties:
        """Its properties, a live view."""
        return Properties(self._document, 'layer', self)

    def cells(self, x: int = 0, y: int = 0, width: Optional[int] = None, height: Optional[int] = None) -> memoryview:
        """The values of the cells of a rectangle, row by row, read-only and of 32 bits; without a size, up to the map's right and
        lower edge. Later edits do not change it. Raises TypeError, ValueError; Refused: 31 where it is no tile layer, 32 where
        the rectangle leaves the map."""
        return self._document._cells_of(self, x, y, width, height)[1]

    def rows(self, x: int = 0, y: int = 0, width: Optional[int] = None, height: Optional[int] = None) -> list[list[int]]:
        """The same as a list of rows, each a list of values, as `stamp` takes them. Raises TypeError, ValueError; Refused."""
        width, cells = self._document._cells_of(self, x, y, width, height)
        return [cells[at:at + width].tolist() for at in range(0, len(cells), width)] if width else []

    def write(self, x: int, y: int, rows: Rows) -> None:
        """Writes rows of values from a cell on, as `document.stamp` does, but zeros too, which empty their cells: one step, in a stroke
        of its own. Raises TypeError, ValueError; Refused: 31 where it is no tile layer, 33 for a value without a tileset."""
        self._document._write(self, x, y, rows)

    def replace(self, value: int, other: int) -> int:
        """Puts another tile in the place of a tile in each cell that may change, as one step, and gives how many cells that were. Both
        are values without flips, and a cell keeps its own; 0 stands for no tile. Raises TypeError, ValueError; Refused: 31 where it is
        no tile layer, 33 for a value without a tileset."""
        old, new = tile_value(value), tile_value(other)
        rows = self.rows()
        found = [(x, y) for y, row in enumerate(rows) for x, cell in enumerate(row) if cell & BASE == old]
        if old == new or not found:
            return 0
        (left, right), (top, bottom) = ((min(places), max(places) + 1) for places in zip(*found))
        self.write(left, top, [[replaced(cell, old, new) for cell in row[left:right]] for row in rows[top:bottom]])
        return sum(cell != now for row, row_now in zip(rows, self.rows()) for cell, now in zip(row, row_now))

    def tile(self, x: int, y: int) -> Optional[Tile]:
        """The tile of a cell; None where the cell is empty. Raises TypeError, ValueError; Refused: 31 where it is no tile layer, 32
        outside the map."""
        value = self._document._cells_of(self, x, y, 1, 1)[1][0]
        return self._document._do(lambda: tile_of(self._document, value)) if value else None

    def move(self, place: int) -> None:
        """Moves it to a place among the layers beside it, from 0, which is drawn first. Raises TypeError, ValueError; Refused."""
        self._document._edit(f'layer move {self.id} {words.number(place, "a place")}')

    def move_into(self, group: 'Optional[LayerLike]', place: Optional[int] = None) -> None:
        """Moves it, with all in it, into a group, or out of all groups where that is None: to a place among the other layers there, from 0, or
        last. Raises TypeError, ValueError, NotFound; Refused: 30 where there is no such group, 31 where it is none, 39 where it is this layer
        or stands in it, where there would be too many groups around it, and for a place past the last one."""
        at = None if place is None else words.number(place, 'a place')

        def work() -> None:
            goal = 0 if group is None else _group_of(self._document, group)
            last = sum(row.parent == goal and row.id != self.id for row in self._document._layer_rows()) if at is None else at
            self._document._say_edit(f'layer into {self.id} {goal} {last}')

        self._document._do(work)

    def remove(self) -> None:
        """Removes it, and a group with all in it. Raises Refused."""
        self._document._edit(f'layer remove {self.id}')

    def __repr__(self) -> str:
        described = self._document._peek(lambda: '{1} {0[name]!r}'.format(self._now(), TYPES[self._now()['type']]))
        return f'<Layer {self.id} {described or "of " + repr(self._document.name)}>'


def _group_of(document: 'Document', group: 'LayerLike') -> int:
    """The id of a group, in a turn. Raises NotFound; ValueError for 0."""
    id = document._id_of(group)
    if id == 0:
        raise ValueError('0 is the id of no layer: None stands for no group')
    return id


class Layers:
    """The layers of a document that are in no group, or those in a group: in drawing order. `[int]` is the layer with that id,
    `[str]` the first of that name, in groups too; else NotFound. `walk` gives all, with those in groups."""

    __slots__ = '_document', '_group'

    def __init__(self, document: 'Document', group: Optional[int] = None):
        self._document = document
        self._group = group

    def _walked(self) -> list[LayerRow]:
        """All of them, with those in groups, in a turn. Raises Refused where the group was removed."""
        rows = self._document._layer_rows()
        if self._group is None:
            return rows
        if self._group not in [row.id for row in rows]:
            raise refused_call(30, f'Layers of {self._group}')
        groups, found = {self._group}, []
        for row in rows:
            if row.parent in groups:
                groups.add(row.id)
                found.append(row)
        return found

    def _below(self) -> list[LayerRow]:
        """Those that stand in no other group, in a turn."""
        return [row for row in self._walked() if row.parent == (self._group or 0)]

    def __iter__(self) -> Iterator[Layer]:
        """Each layer, in drawing order; a group is one, and `walk` enters it."""
        return iter([Layer(self._document, row.id) for row in self._document._do(self._below)])

    def walk(self) -> Iterator[Layer]:
        """Each layer, in drawing order, a group before those in it."""
        return iter([Layer(self._document, row.id) for row in self._document._do(self._walked)])

    def __len__(self) -> int:
        return len(self._document._do(self._below))

    def _ids(self) -> list[int]:
        """The ids of all of them, with those in groups, in a turn."""
        return [row.id for row in self._walked()]

    def _is_whole(self) -> bool:
        """Whether they are those of the whole document."""
        return self._group is None

    def _found(self, key: object) -> Optional[int]:
        """The id of what a key stands for, in a turn; None where there is no such layer here."""
        id = _id_of(self, Layer, key)
        return self._at_path(key) if id is None and isinstance(key, str) and '/' in key else id

    def _at_path(self, path: str) -> Optional[int]:
        """The id of the first layer at a path, the names of groups from here on and its own, in a turn; None where there is none."""
        rows, ids = self._walked(), {self._group or 0}
        for name in path.split('/'):
            ids = {row.id for row in rows if row.parent in ids and self._document._read('layer', row.id)['name'] == name}
        return next((row.id for row in rows if row.id in ids), None)

    def _has(self, id: int) -> bool:
        if self._group is None:
            return self._document._editor._count('layer', id) is not None
        return id in self._ids()

    def __reversed__(self) -> Iterator[Layer]:
        """Each layer, the one that is drawn last first."""
        return reversed(list(self))

    def __getitem__(self, key: Union[int, str, Layer]) -> Layer:
        """The layer with an id, the first of a name, in groups too, or the one at a path: names of groups and its own, joined by
        slashes. Raises NotFound where there is none."""
        return Layer(self._document, self._document._do(lambda: self._known(key)))

    def _known(self, key: object) -> int:
        """The id of what a key stands for, in a turn. Raises NotFound where there is none."""
        id = self._found(key)
        if id is None:
            raise absent('layer', key, self._ids())
        return id

    def get(self, key: Union[int, str, Layer], default: Optional[_Default] = None) -> Union[Layer, Optional[_Default]]:
        """The same; `default` where there is none."""
        id = self._document._do(lambda: self._found(key))
        return default if id is None else Layer(self._document, id)

    def __contains__(self, key: object) -> bool:
        """Whether there is a layer with an id, or of a name and of any kind, in groups too."""
        return self._document._do(lambda: self._found(key)) is not None

    def find(self, name: str, kind: Optional[LayerKind] = None) -> Optional[Layer]:
        """The first layer of a name that is of a kind, tile, object, group or image, or of any; in groups too. None where there is none.
        Raises ValueError for another kind."""
        if kind is None:
            return self.get(name)
        said = words.one_of(kind, ALL_KINDS, 'the kind of a layer')

        def find() -> Optional[int]:
            first = self._document._editor._find('layer', name)
            ids = [row.id for row in self._walked() if KINDS[row.kind] == said]
            return first if first is None or first in ids else _first_named(self._document, 'layer', ids, name)

        id = self._document._do(find)
        return None if id is None else Layer(self._document, id)

    def add(self, kind: AddedLayerKind, name: str) -> Layer:
        """Adds a layer, tile, object, group or image, in no group or in this one, last, which is drawn over the others there, and gives it.
        Raises TypeError, ValueError; Refused: 40 where the map has 256 layers; in a group also 30 where that was removed, 31 where it is no
        group, 39 where there would be too many groups around it."""
        said = words.one_of(kind, ALL_KINDS, 'the kind of a layer that is added')
        line = f'layer add {said} {words.text(name, "the name of a layer")}'
        if self._group is None:
            return Layer(self._document, self._document._add('layer', line))
        with self._document.editor.lock:
            return self._added_in(self._group, said, line)

    def put(self, members: Mapping[str, Any], group: 'Optional[LayerLike]' = None, at: int = 0) -> Layer:
        """Adds a layer as a file has it, with all in it, and gives it: nothing is added to its members. It goes into a group, or among these
        where that is None, to a place there from 0, which is drawn first. Each layer and each object in it says its id; a tile layer without
        `data` is empty. Raises TypeError, ValueError, NotFound; Refused: 30 where there is no such group, 31 where it is none, 62, 63, 65, 66
        or 68 for what no file has, 67 where an id is in the map, 39 for a place past the last one and for too many groups around it, and 40
        where the map would have more than 256 layers. What is too long for a line takes several, in one step; then a value without a tileset
        is refused, too: 33."""
        layer, place = new_layers.plain(members), words.number(at, 'a place')
        with self._document.editor.lock:
            self._put(layer, group, place)
        return Layer(self._document, layer['id'])

    def _put(self, layer: Members, group: 'Optional[LayerLike]', place: int) -> None:
        document = self._document
        goal = document._do(lambda: self._goal(group))
        lines = list(new_layers.lines_of(goal, place, layer, (document.width, document.height)))
        if len(lines) == 1:
            document._edit(lines[0])
            return
        macro: ContextManager[object] = contextlib.nullcontext()
        if document.status.depth == 0:
            macro = document.macro('Add Layer', action='add layer')
        selected = document.selection.runs
        with macro:
            # A stamp writes into selected cells alone.
            for line in [*(['select none'] if selected else []), *lines, *new_layers.selecting(selected)]:
                document._edit(line)

    def _goal(self, group: 'Optional[LayerLike]') -> int:
        """The id of the group that a layer goes into, in a turn; 0 for none."""
        return self._group or 0 if group is None else _group_of(self._document, group)

    def _added_in(self, group: int, kind: str, line: str) -> Layer:
        """What a line adds, in this group: one step, also where no macro is open."""
        document = self._document
        document._do(lambda: self._refuse_one_more(group, kind, line))
        macro: ContextManager[object] = contextlib.nullcontext()
        if document.status.depth == 0:
            macro = document.macro('Add Layer', action='add layer')
        with macro:
            layer = Layer(document, document._add('layer', line))
            layer.move_into(group)
        return layer

    def _refuse_one_more(self, group: int, kind: str, line: str) -> None:
        """Raises Refused, in a turn, where a group takes no more layer of a kind: then no macro has begun."""
        rows = {row.id: row for row in self._document._layer_rows()}
        if group not in rows:
            raise refused_call(30, line)
        if KINDS[rows[group].kind] != 'group':
            raise refused_call(31, line)
        around, at = 0, group
        while at:
            around, at = around + 1, rows[at].parent
        if around > MAX_GROUPS - (kind == 'group'):
            raise refused_call(39, line)
        if len(rows) >= MAX_LAYERS:
            raise refused_call(40, line)

    def __repr__(self) -> str:
        described: Any = self._document._peek(lambda: [self._document._read('layer', row.id)['name'] for row in self._below()])
        return f'<Layers of {self._document.name!r}: {described}>'
