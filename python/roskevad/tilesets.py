# SPDX-License-Identifier: MIT OR Apache-2.0
"""The tilesets of a document, and the tiles of its cells."""
import json
from typing import TYPE_CHECKING, Any, Iterator, Mapping, NamedTuple, Optional, TypeVar, Union, cast

from . import json_values, library, words
from .faults import BadTileset, NotFound, refused_call
from .limits import MAX_FILE_BYTES
from .made_texts import made
from .own_members import OwnMembers, Owner, set_member, set_or_remove
from .rows import BASE, DIAGONALLY, HORIZONTALLY, TURNED, VERTICALLY
from .tiled_maps import Members

if TYPE_CHECKING:
    from pathlib import Path

    from .document import Document

_Default = TypeVar('_Default')


#: How the names of tilesets end, in XML and in JSON.
TILESET_ENDS = ('.tsx', '.tsj', '.json')
#: The most tiles that are listed.
MOST_TILES = 1_048_576
_FIRST_ID = 'the first id of a tileset'


def absent(kind: str, key: object, ids: list[int]) -> NotFound:
    """What is raised where there is nothing that a key stands for: it says which ids there are."""
    others = f': the ids are {words.listed(ids)}' if ids else ', nor any other one'
    return NotFound(f'there is no {kind} {key!r} here{others}')


def is_id(key: object) -> bool:
    """Whether a key is a number that can be an id."""
    return isinstance(key, int) and 0 <= key < 2**32


class Tileset:
    """A tileset of a document, by its first id. It stays the same however the map changes; a call raises Refused, 36, where the
    map has no tileset of that first id."""

    __slots__ = '_document', '_first_id'

    def __init__(self, document: 'Document', first_id: int):
        self._document = document
        self._first_id = first_id

    @property
    def first_id(self) -> int:
        """Its first id."""
        return self._first_id

    def _now(self) -> Members:
        members = cast(Optional[Members], self._document._read('tileset', self.first_id))
        if members is None:
            raise refused_call(36, repr(self))
        return members

    def _whole(self) -> Members:
        return {name: value for name, value in self._now().items() if name != 'firstgid'}

    def _members(self) -> Members:
        return self._document._do(self._now)

    @property
    def _owner(self) -> Owner:
        return Owner(self._document, 'tileset', self.first_id, self._now, self._whole)

    def __int__(self) -> int:
        """Its first id."""
        return self._first_id

    @property
    def source(self) -> Optional[str]:
        """The path of its file from the folder of the map; None where the map has it in itself. Set, it gives the tileset another file, and
        None takes it away; no cell changes, and no file is read. Raises Refused; set, also TypeError, ValueError."""
        source: Optional[str] = self._members().get('source')
        return source

    @source.setter
    def source(self, source: Optional[str]) -> None:
        set_or_remove(self._owner, 'source', source if source is None else json_values.text(source, 'the source of a tileset'))

    @property
    def members(self) -> OwnMembers:
        """All that the map says of it, but for its first id; of a tileset in the map its tiles, too: a copy, whose members can be set and
        taken out. Raises Refused."""
        return OwnMembers(self._owner)

    @property
    def tiles(self) -> 'Optional[list[TilesetTile]]':
        """Its tiles by their ids, as the map has them, or its file, in XML or in JSON, beside the file that the document was opened from or
        saved to last; None where no such file is there. Raises Refused; BadTileset where the file is no tileset, with the reason and the
        place."""
        said, path = self._members(), self._document.path
        source: Optional[str] = said.get('source')
        if source is None:
            return tiles_of(said)
        members = None if path is None else tileset_file(path.parent / source)
        return None if members is None else tiles_of(members)

    def tiles_in(self, data: bytes) -> 'list[TilesetTile]':
        """Its tiles by their ids, as its file has them, of which these are the bytes, in XML or in JSON. Raises TypeError; BadTileset where
        they are no tileset, with the reason and the place."""
        return tiles_of(members_in(data, repr(self)))

    @property
    def name(self) -> Optional[str]:
        """Its name, where the map has it in itself; else None: no file of a tileset is read. Set, it gives the tileset another one in the
        map. Raises Refused; set, also TypeError, ValueError."""
        name: Optional[str] = self._members().get('name')
        return name

    @name.setter
    def name(self, name: str) -> None:
        set_member(self._owner, 'name', json_values.text(name, 'the name of a tileset'))

    @property
    def class_name(self) -> str:
        """Its class, as Tiled calls it: the member `class` of the map's file. Set, it gives the tileset another one there. Raises Refused; set,
        also TypeError, ValueError."""
        return str(self._members().get('class', ''))

    @class_name.setter
    def class_name(self, name: str) -> None:
        set_member(self._owner, 'class', json_values.text(name, 'the class of a tileset'))

    def value(
        self, local_id: int, flipped_horizontally: bool = False, flipped_vertically: bool = False, flipped_diagonally: bool = False,
        turned: bool = False,
    ) -> int:
        """The value of a cell with its tile of this id, which Tiled shows as the tile's ID. Raises TypeError, and ValueError for
        an id out of range."""
        base = self.first_id + words.number(local_id, 'the id of a tile')
        if base > BASE:
            raise ValueError(f'the id of a tile is at most {BASE - self.first_id} here: {local_id}')
        flags = zip((flipped_horizontally, flipped_vertically, flipped_diagonally, turned), _FLAGS)
        return base + sum(bit for is_set, bit in flags if is_set)

    def remove(self) -> None:
        """Removes it from the map. Raises Refused: 37 where a tile of it is in use."""
        self._document._edit(f'tileset remove {self.first_id}')

    def __eq__(self, other: object) -> bool:
        return isinstance(other, Tileset) and (self._document, self.first_id) == (other._document, other.first_id)

    def __hash__(self) -> int:
        return hash((self._document, self.first_id))

    def __repr__(self) -> str:
        return f'<Tileset {self.first_id} of {self._document.name!r}>'


_FLAGS = (HORIZONTALLY, VERTICALLY, DIAGONALLY, TURNED)


class TilesetTile(NamedTuple):
    """A tile of a tileset: its id there; its class; its properties, by their names; and the shapes of its collision, as its file has
    them."""

    local_id: int
    type: str
    properties: Members
    shapes: list[Members]


def tileset_file(path: 'Path') -> Optional[Members]:
    """What JSON has of the tileset of a file, in XML or in JSON; None where there is none. Raises BadTileset where it is no tileset."""
    if path.suffix not in TILESET_ENDS:
        return None
    try:
        data = path.read_bytes()
    except OSError:
        return None
    return members_in(data, str(path))


def members_in(data: bytes, file: str) -> Members:
    """What JSON has of a tileset, by the bytes of its file. Raises TypeError; BadTileset where they are no tileset, or do not say how many
    tiles there are."""
    given = bytes(memoryview(data))
    text = made('tileset_file', 4 * len(given), given, len(given))
    if not isinstance(text, bytes) and text != library.NONE:
        raise BadTileset(f'{file} is no tileset: {_why_no_tileset(given)}')
    try:
        members: Members = json.loads(text if isinstance(text, bytes) else given)
    except ValueError as fault:
        raise BadTileset(f'{file} is no tileset: {fault}') from fault
    if 'tilecount' not in members:
        raise BadTileset(f'{file} is no tileset: it does not say how many tiles there are')
    return members


def _why_no_tileset(data: bytes) -> str:
    """Why the bytes of a file are no tileset, and where."""
    text = made('tileset_fault', 0, data, len(data))
    if not isinstance(text, bytes):
        return f'its text would be longer than {MAX_FILE_BYTES:,} bytes'
    told = json.loads(text)
    place = '' if told['line'] is None else f' (line {told["line"]}, column {told["column"]})'
    return f'{told["why"]}{place}'


def tiles_of(members: Members) -> list[TilesetTile]:
    """The tiles of a tileset, by its members; those of which it says nothing, too. A collection of images has those that it lists, whose ids
    may have gaps. Raises BadTileset where it has too many, or does not say how many. What else is of another kind than Tiled's is left
    out."""
    count = members.get('tilecount', 0)
    if not isinstance(count, int) or not 0 <= count <= MOST_TILES:
        raise BadTileset(f'a tileset has 0 to {MOST_TILES} tiles, and this one says: {count!r}'[:200])
    said = {tile['id']: tile for tile in _objects(members.get('tiles')) if isinstance(tile.get('id'), int)}
    is_collection = 'image' not in members and any('image' in tile for tile in said.values())
    return [_tile_of(id, said.get(id, {})) for id in (sorted(said) if is_collection else range(count))]


def _objects(value: object) -> list[Members]:
    """The JSON objects of an array; none of what is no array."""
    return [each for each in value if isinstance(each, dict)] if isinstance(value, list) else []


def _tile_of(id: int, members: Members) -> TilesetTile:
    properties = {each['name']: each.get('value') for each in _objects(members.get('properties')) if isinstance(each.get('name'), str)}
    group = members.get('objectgroup')
    shapes = _objects(group.get('objects')) if isinstance(group, dict) else []
    return TilesetTile(id, str(members.get('type') or members.get('class') or ''), properties, shapes)


def grid_of(image: tuple[int, int], tile: tuple[int, int], margin: int, spacing: int) -> Members:
    """What a file has of the tiles that Tiled cuts from an image: with a margin at its left and its top, and a spacing between tiles.
    Raises TypeError; ValueError where no tile fits."""
    sides = [words.number(side, 'a side of an image') for side in image]
    steps = [words.number(side, 'a side of a tile') for side in tile]
    edge, gap = words.number(margin, 'the margin of a tileset'), words.number(spacing, 'the spacing of a tileset')
    counts = [(side - edge + gap) // (step + gap) if step > 0 else 0 for side, step in zip(sides, steps)]
    if min(counts) < 1:
        raise ValueError(f'no tile of {steps[0]} by {steps[1]} pixels fits into an image of {sides[0]} by {sides[1]}, with a margin of {edge}')
    return {
        'imagewidth': sides[0], 'imageheight': sides[1], 'tilewidth': steps[0], 'tileheight': steps[1], 'margin': edge, 'spacing': gap,
        'columns': counts[0], 'tilecount': counts[0] * counts[1],
    }


class Tile(NamedTuple):
    """A tile of a cell or of an object: its value; its tileset and its id there, both None where no tileset has the value; and
    whether it is flipped, or turned by 120 degrees on a hexagonal map."""

    value: int
    tileset: Optional[Tileset]
    local_id: Optional[int]
    flipped_horizontally: bool
    flipped_vertically: bool
    flipped_diagonally: bool
    turned: bool


def tile_of(document: 'Document', value: int) -> Tile:
    """The tile that a value, which is not 0, stands for, in a turn."""
    base = value & BASE
    first = max((first for first in document._ids('tilesets') if first <= base), default=None)
    flags = [value & bit != 0 for bit in _FLAGS]
    tileset = None if first is None else Tileset(document, first)
    return Tile(value, tileset, None if first is None else base - first, *flags)


def _text_of(members: Mapping[str, Any]) -> str:
    """A tileset as JSON. Raises TypeError, ValueError."""
    return json_values.members_said(members, 'the members of a tileset')


def _put_line(text: str) -> str:
    return f'tileset put {text}'


class Tilesets:
    """The tilesets of a document, in order: `[int]` is the one with that first id, `[str]` the first with that source, or with
    that name where the map has it in itself; else NotFound."""

    __slots__ = '_document',

    def __init__(self, document: 'Document'):
        self._document = document

    def _firsts(self) -> list[int]:
        return self._document._do(lambda: self._document._ids('tilesets'))

    def __iter__(self) -> Iterator[Tileset]:
        """Each tileset, in order."""
        return iter([Tileset(self._document, first) for first in self._firsts()])

    def __len__(self) -> int:
        return self._document._do(lambda: int(self._document._sizes().tilesets))

    @property
    def first(self) -> Optional[Tileset]:
        """The first one in order; None where the map has none."""
        return next(iter(self), None)

    def _found(self, key: object) -> Optional[int]:
        """The first id of what a key stands for, in a turn; None where there is no such tileset."""
        document = self._document
        if isinstance(key, Tileset):
            return self._found(key.first_id) if key._document is document else None
        if isinstance(key, int):
            return key if is_id(key) and document._editor._count('tileset', key) is not None else None
        for first in document._ids('tilesets'):
            members = document._read('tileset', first)
            if members.get('source', members.get('name')) == key:
                return first
        return None

    def __getitem__(self, key: Union[int, str, Tileset]) -> Tileset:
        """The tileset with a first id, or the first with a source or a name. Raises NotFound where there is none."""
        found = self.get(key)
        if found is None:
            raise absent('tileset', key, self._firsts())
        return found

    def get(self, key: Union[int, str, Tileset], default: Optional[_Default] = None) -> Union[Tileset, Optional[_Default]]:
        """The same; `default` where there is none."""
        first = self._document._do(lambda: self._found(key))
        return default if first is None else Tileset(self._document, first)

    def __reversed__(self) -> Iterator[Tileset]:
        """Each tileset, the last one first."""
        return reversed(list(self))

    def __contains__(self, key: object) -> bool:
        """Whether there is a tileset with a first id, a source or a name."""
        return self._document._do(lambda: self._found(key)) is not None

    def add(self, first_id: int, source: str, renumbers: bool = False) -> Tileset:
        """Adds a tileset by the path of its file from the folder of the map, last, and gives it. Its first id must be above those of
        all tiles there: the greatest first id plus the number of tiles of that tileset. Raises TypeError, ValueError; Refused: 37
        where a tile in use would be one of it, unless it `renumbers`, 38 where it is not above the other first ids."""
        first = words.number(first_id, _FIRST_ID)
        line = f'tileset add {first} {words.text(source, "the source of a tileset")}'
        return self._added(first, line, f'tilesets.add({first}, {source!r})', renumbers)

    def put(self, members: Mapping[str, Any], renumbers: bool = False) -> Tileset:
        """Adds a tileset as a file has it, last, and gives it: with `firstgid`, and `source` or all that it is. Raises TypeError, ValueError;
        Refused: 37 and 38 as `add` has it, 62 where a member is missing."""
        text = _text_of(members)
        first = json.loads(text).get('firstgid')
        return self._added(first, _put_line(text), f"tilesets.put({{'firstgid': {first!r}, ..}})", renumbers)

    def add_from_image(
        self, first_id: int, name: str, image: str, image_width: int, image_height: int, tile_width: int, tile_height: int, *,
        margin: int = 0, spacing: int = 0, renumbers: bool = False,
    ) -> Tileset:
        """Adds a tileset that the map has in itself, last, and gives it: the tiles of an image, row by row, as many as Tiled cuts from it.
        The image is named by its path from the folder of the map, and not read. Raises TypeError; ValueError, also where no tile fits into
        the image; Refused: 37 and 38 as `add` has it."""
        first = words.number(first_id, _FIRST_ID)
        grid = grid_of((image_width, image_height), (tile_width, tile_height), margin, spacing)
        named = {'name': json_values.text(name, 'the name of a tileset'), 'image': json_values.text(image, 'the image of a tileset')}
        line = _put_line(_text_of({'firstgid': first, **named, **grid}))
        return self._added(first, line, f'tilesets.add_from_image({first}, {name!r}, ..)', renumbers)

    def renumber(self, key: Union[int, str, Tileset], first_id: int) -> Tileset:
        """Gives a tileset another first id, in its place in the list, and gives it. Each cell and each object that has a tile of it keeps that
        tile. Raises TypeError, ValueError, NotFound; Refused: 38 where another tileset has that first id, or lies between the two; 39 where it
        is 0 or too great, or where a tile in use would be one of another tileset, or of none."""
        first = words.number(first_id, _FIRST_ID)
        self._document._edit(f'tileset number {self[key].first_id} {first}')
        return Tileset(self._document, first)

    def _added(self, first: Any, line: str, call: str, renumbers: bool) -> Tileset:
        """Says a line that adds a tileset, and gives that."""

        def work() -> None:
            value = None if renumbers or not is_id(first) else self._value_above(first)
            if value is not None:
                why = f'a tile with the value {value} is in use, and would be one of it: renumbers=True adds it all the same'
                raise refused_call(37, call, why)
            self._document._say_edit(line)

        self._document._do(work)
        return Tileset(self._document, first)

    def _value_above(self, first: int) -> Optional[int]:
        """The least value in use that is a tile of a tileset, and would be one of another with this first id, in a turn. None where there is
        none, and where that first id is not above the others."""
        document = self._document
        firsts = document._ids('tilesets')
        if not firsts or first <= max(firsts):
            return None
        return min((value for value in document._values_in_use() if value >= first), default=None)

    def __repr__(self) -> str:
        return f'<Tilesets of {self._document.name!r}>'
