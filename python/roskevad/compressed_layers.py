# SPDX-License-Identifier: MIT OR Apache-2.0
"""Maps with layers that Zstandard compresses: unpacked before the library reads them, and packed again behind it. What zlib and gzip
compress the library unpacks and packs itself.

    unpack_layers(data).data                 what the library reads of a file
    pack_layers(put_back(..), data)          what the file has then

While a layer is unpacked, a member of it notes that. The level stands in the map's own `compressionlevel`, which the library keeps.
Layers that are added meanwhile have no such note, and are arrays beside layers that Zstandard packs.
"""
import base64
import binascii
from typing import Any, Iterator, NamedTuple, Optional

from .json_scanner import Edit, Members, Part, Path, edited, map_and_layers
from .compressions import NOTE, ZSTANDARD, pack, unpack, why_not
from .limits import MAX_CELLS, MAX_FILE_BYTES

_NOTE_TAKEN = f'a layer has a member of the reserved name "{NOTE}"'
_TOO_LONG = f'unpacked, its layers have more than {MAX_FILE_BYTES:,} bytes'
#: Why a layer is not unpacked whose data are damaged.
BAD_DATA = 'the data of a layer does not unpack to 4 bytes a cell'
_NO_SPACE = str.maketrans('', '', ' \t\r\n')
_CELL_BYTES = 4


class Unpackable(Exception):
    """Why a map is not unpacked or packed: a number of docs/refusals.md, and the reason in words."""

    def __init__(self, code: int, why: str):
        super().__init__(code, why)
        self.code = code
        self.why = why


class PackedLayer(NamedTuple):
    """A layer that stays packed by Zstandard."""

    #: Its members.
    members: Members
    #: How its map is refused where it is a tile layer, and why, in words: 65 where it can't be unpacked here, 66 where its data do
    #: not unpack to four bytes a cell.
    code: int
    why: str


class UnpackedMap(NamedTuple):
    """A map of which what Zstandard has packed is unpacked, as far as it can be."""

    #: Its bytes: the same, where nothing was unpacked.
    data: bytes
    #: The layers that stay packed, by the ways to them.
    left: dict[Path, PackedLayer]


def unpack_layers(data: bytes) -> UnpackedMap:
    """A map with the layers unpacked that Zstandard has packed, each to four bytes a cell and no further. Raises Unpackable, 51, where a layer has the member
    of a note, or they are too many bytes."""
    text = _text_of(data) if b'compression"' in data or b'\\u' in data else None
    if text is None:
        return UnpackedMap(data, {})
    members, layers = map_and_layers(text)
    if any(NOTE in layer for layer in layers.values()):
        raise Unpackable(51, _NOTE_TAKEN)
    unpacker = _Unpacker(_cells_of(members))
    edits, left = [], {}
    for path, layer in layers.items():
        try:
            edits += list(unpacker.edits(layer))
        except Unpackable as fault:
            if fault.code == 51:
                raise
            left[path] = PackedLayer(layer, fault.code, fault.why)
    return UnpackedMap(edited(text, edits).encode() if edits else data, left)


def pack_layers(data: bytes, source: bytes = b'') -> bytes:
    """A map with those layers packed that note how. Where the cells of a layer, or of a chunk, are those that it has in a source, it has
    the source's text of them. Raises Unpackable: 51 where that can't be done here."""
    text = _text_of(data) if f'"{NOTE}"'.encode() in data else None
    if text is None:
        return data
    members, layers = map_and_layers(text)
    stated = _value_of(members, 'compressionlevel')
    packer = _Packer(stated if type(stated) is int else -1, source)
    return edited(text, [edit for layer in layers.values() for edit in packer.edits(layer)]).encode()


def _text_of(data: bytes) -> Optional[str]:
    """The text of bytes in UTF-8; `None` where they are none."""
    try:
        return data.decode()
    except UnicodeDecodeError:
        return None


def _value_of(members: Members, name: str) -> Any:
    return members[name].value() if name in members else None


def _is_packed(layer: Members) -> bool:
    """Whether Zstandard has packed a layer."""
    return bool(_value_of(layer, 'compression') == ZSTANDARD and _value_of(layer, 'encoding') == 'base64')


def _cells_of(members: Members) -> Optional[int]:
    """How many cells a map or a chunk says that it has; `None` where it does not say so, or has too many."""
    width, height = _value_of(members, 'width'), _value_of(members, 'height')
    is_size = type(width) is int and type(height) is int and width > 0 and height > 0
    return width * height if is_size and width * height <= MAX_CELLS else None


def _holders_of(layer: Members, cells: Optional[int]) -> Iterator[tuple[Members, Optional[int]]]:
    """What holds data of a layer: the layer, or each of its chunks; with how many cells it has."""
    if 'data' in layer:
        yield layer, cells
    if 'chunks' in layer:
        for entry in layer['chunks'].entries():
            chunk = entry.members()
            yield chunk, _cells_of(chunk)


class _Unpacker:
    """Unpacks the layers of a map with so many cells."""

    def __init__(self, cells: Optional[int]):
        self._cells = cells
        self._rest = MAX_FILE_BYTES

    def edits(self, layer: Members) -> Iterator[Edit]:
        """What changes in the text of a layer. Raises Unpackable where it stays packed, and where layers are too many bytes."""
        if not _is_packed(layer):
            return
        why = why_not()
        if why is not None:
            raise Unpackable(65, why)
        named = layer['compression']
        yield Edit(named.start, named.end, f'"","{NOTE}":"{ZSTANDARD}"')
        for holder, cells in _holders_of(layer, self._cells):
            data = _value_of(holder, 'data')
            if not isinstance(data, str) or cells is None:
                # The library says so.
                return
            yield _data_edit(holder, self._unpacked(data, cells * _CELL_BYTES))

    def _unpacked(self, data: str, size: int) -> bytes:
        self._rest -= -(-size // 3) * 4
        if self._rest < 0:
            raise Unpackable(51, _TOO_LONG)
        found = unpack(_decoded(data) or b'', size)
        if found is None:
            raise Unpackable(66, BAD_DATA)
        return found


class _Packer:
    """Packs the layers of a map, with a level, or as a source has them."""

    def __init__(self, level: int, source: bytes):
        self._level = level
        # The layers of the source, by their ids.
        self._olds = {_value_of(layer, 'id'): layer for layer in map_and_layers(_text_of(source) or '')[1].values()}

    def edits(self, layer: Members) -> Iterator[Edit]:
        """What changes in the text of a layer that is packed, if it notes how."""
        if _value_of(layer, NOTE) != ZSTANDARD:
            return
        why = why_not()
        if why:
            raise Unpackable(51, why)
        note = layer[NOTE]
        yield Edit(note.name_start, note.name_end, '"compression"')
        olds = self._olds_of(layer)
        for holder, _ in _holders_of(layer, None):
            data = _value_of(holder, 'data')
            if isinstance(data, str):
                cells = _decoded(data) or b''
                kept = _kept_text(olds.get(_place_of(holder)), cells)
                yield _data_edit(holder, pack(cells, self._level)) if kept is None else _text_edit(holder, kept)

    def _olds_of(self, layer: Members) -> dict[tuple[Any, ...], Part]:
        """The data that a layer has in the source, if it is packed there in the same way, by the places of what holds them."""
        old = self._olds.get(_value_of(layer, 'id'), {})
        holders = _holders_of(old, None) if _is_packed(old) else ()
        return {_place_of(holder): holder['data'] for holder, _ in holders if 'data' in holder}


def _place_of(holder: Members) -> tuple[Any, ...]:
    """Where a layer or a chunk lies, and how large it is."""
    return tuple(_value_of(holder, name) for name in ('x', 'y', 'width', 'height'))


def _kept_text(old: Optional[Part], cells: bytes) -> Optional[str]:
    """The text of packed data, if these are its cells."""
    packed = None if old is None else old.value()
    if old is None or not isinstance(packed, str) or unpack(_decoded(packed) or b'', len(cells)) != cells:
        return None
    return old.text[old.start:old.end]


def _data_edit(holder: Members, data: bytes) -> Edit:
    return _text_edit(holder, f'"{base64.b64encode(data).decode()}"')


def _text_edit(holder: Members, text: str) -> Edit:
    return Edit(holder['data'].start, holder['data'].end, text)


def _decoded(text: str) -> Optional[bytes]:
    """The bytes of a text in base64, in which space may stand; `None` where it is none."""
    try:
        return base64.b64decode(text.translate(_NO_SPACE).encode('ascii'), validate=True)
    except (UnicodeEncodeError, binascii.Error):
        return None
