# SPDX-License-Identifier: MIT OR Apache-2.0
"""What the editor's format refuses of a map is set aside before it is read, and put back when it is saved."""
import json
import math
import struct
from typing import TYPE_CHECKING, Any, Iterable, Iterator, Optional

from . import library
from .faults import Refused, refused_call
from .compressions import NOTE
from .file_kinds import KINDS, kind_of
from .layouts import laid_out, laid_out_like, put_back_like
from .limits import MAX_FILE_BYTES
from .made_texts import made
from .map_faults import refused_as_no_json, refused_xml

if TYPE_CHECKING:
    from .compressed_layers import Unpackable, UnpackedMap

# The name under which it stands, in the map, in layers and objects.
_RESERVED = 'roskevad'
# The name under which a layer notes how the library has unpacked it.
_PACKED = 'roskevad_packed'
#: The name under which it notes what JSON can't say of a map in XML.
XML_NOTE = 'roskevad_tmx'
#: The names under which a layer notes that it was packed, while it is unpacked.
PACKING = _PACKED, NOTE
# What a text has in it where anything stands under one of these names.
_RESERVED_FRONT = f'"{_RESERVED}'.encode()
# What it has where a name is one that a map in a file may not have.
_TAKEN = f'"{_RESERVED}"'.encode(), f'"{_PACKED}"'.encode(), f'"{NOTE}"'.encode()
# What it has where a layer is to be packed by Zstandard.
_ZSTANDARD_FRONT = f'"{NOTE}"'.encode()
# The names of an object's place, with what it was moved by, and of its size.
_MOVED = {'x': 'movedx', 'y': 'movedy', 'width': None, 'height': None}
# Why that is refused, in the words of the program.
_FAULTS = {
    library.NAME_TAKEN: 'a member has a reserved name, "roskevad" or "roskevad_packed"',
    library.TOO_DEEP: 'set aside or put back, it would nest deeper than 127',
    library.BAD_CHUNK: 'a chunk has no place, no size, or not a cell for each of its places',
    library.OVERLAP: 'two chunks of a layer overlap',
    library.TOO_LARGE: 'its layers have more than 16,777,216 cells',
    library.UNLIKE: 'made finite, it would not come back as it was',
    library.TOO_MANY_FRACTIONS: 'it has more than 200,000 fractions',
    library.NO_TMX: "it has what XML can't say: save it as JSON, or undo that",
}
# The longest text that is made, as in the program.
_TOO_LONG = f'set aside or put back, it would be longer than {MAX_FILE_BYTES:,} bytes'
_STORE_FAILED = 51
#: The members of a map, or of a thing of it.
Members = dict[str, Any]


def set_aside(data: bytes, call: str) -> 'tuple[bytes, UnpackedMap]':
    """The text of a map that `open` can read, where it can; and what was unpacked for it. Raises Refused, with the call: 51, and 60
    where the bytes are no JSON besides."""
    from .compressed_layers import Unpackable, UnpackedMap, unpack_layers

    if kind_of(data) == 'tmx':
        # What Zstandard packs in XML stays packed.
        return _made('set_aside', data, call), UnpackedMap(data, {})
    try:
        unpacked = unpack_layers(data)
    except Unpackable as fault:
        raise refused_as_no_json(data, call) or _refused(fault, call) from None
    return _made('set_aside', unpacked.data, call), unpacked


def put_back(data: bytes, source: bytes, call: str) -> bytes:
    """The text of a map in JSON as it was before, laid out as a source in JSON. Packed layers whose cells are those of the source have its text of them.
    Raises Refused, with the call: 51."""
    text = put_back_like(data, source) or _made('put_back', data, call)
    if _ZSTANDARD_FRONT not in text:
        return text
    from .compressed_layers import Unpackable, pack_layers

    try:
        return laid_out_like(pack_layers(text, source), source)
    except Unpackable as fault:
        raise _refused(fault, call) from None


def put_back_as(data: bytes, source: bytes, kind: str, call: str) -> bytes:
    """The text of a map as it was before, as a file of a kind, where that or the source is in XML. Raises Refused, with the call: 51."""
    old = source
    if kind_of(source) == 'json':
        # What Zstandard had packed is packed in JSON first.
        data, old = put_back(data, source, call), b''
    text = made('put_back_as', len(data) + len(old), data, len(data), old, len(old), KINDS[kind])
    if isinstance(text, bytes):
        return text
    raise refused_call(_STORE_FAILED, call, _why_no_tmx(data) if text == library.NO_TMX else _FAULTS.get(text, _TOO_LONG))


def _why_no_tmx(data: bytes) -> str:
    """Why a map is not saved as XML, with the way to what XML can't say, where it is known."""
    path = made('tmx_fault', 0, data, len(data))
    why = _FAULTS[library.NO_TMX]
    return f'in {path.decode()} {why}' if isinstance(path, bytes) else why


def _refused(fault: 'Unpackable', call: str) -> Refused:
    return refused_call(_STORE_FAILED, call, fault.why)


def _made(name: str, data: bytes, call: str) -> bytes:
    """What a call of the library makes of a text: the same, where it makes none. Raises Refused, with the call."""
    text = made(name, 2 * len(data), data, len(data))
    if isinstance(text, bytes):
        return text
    # A text that is no JSON is refused by its reader.
    if text in (library.NONE, library.NOT_JSON):
        return data
    if text in (library.NOT_XML, library.NOT_A_TMX):
        raise refused_xml(data, call)
    raise refused_call(_STORE_FAILED, call, _FAULTS.get(text, _TOO_LONG))


def has_aside(text: bytes) -> bool:
    """Whether anything stands under the reserved names in the text of a map, or of a thing of it."""
    return _RESERVED_FRONT in text


def has_taken_name(text: bytes) -> bool:
    """Whether the text of a map in JSON has a name that one in a file may not have."""
    return has_aside(text) and any(name in text for name in _TAKEN)


def notes_one(text: bytes, names: Iterable[str]) -> bool:
    """Whether the text of an object notes a fraction of one of these of its coordinates."""
    notes = json.loads(text).get(_RESERVED) if has_aside(text) else None
    return isinstance(notes, dict) and any(name in notes for name in names)


def saved_text(data: bytes, sets_aside: bool, source: bytes, layout: Optional[str], kind: str, call: str) -> bytes:
    """What a file of a kind has of a map that an editor holds: with all put back that was set aside, packed as it was, and laid out as its
    source is, or in a layout. Raises Refused, with the call: 51; ValueError for a layout of XML."""
    if kind == 'tmx' and layout is not None:
        raise ValueError(f'{layout!r} is a layout of JSON, and {call} writes XML')
    if 'tmx' in (kind, kind_of(source)):
        text = put_back_as(data, source, kind, call)
        return text if layout is None else laid_out(text, layout)
    if has_aside(data) and not sets_aside:
        # A member of the reserved name is the map's own.
        return laid_out(data, layout or 'tiled')
    # What is laid out as its source has the new layers packed as those of the source.
    text = put_back(data, source, call) if has_aside(data) else laid_out_like(data, source)
    return text if layout is None else laid_out(text, layout)


# ---- trees
def restored(tree: Any, note: Members, keeps_xml_notes: bool = False) -> Any:
    """The tree of a map, or of a thing of it, in which fractions are numbers again, and no note is left, but of XML those that are to be kept.
    It stays finite. `note` is that of the map."""
    if isinstance(tree, list):
        return [restored(each, note, keeps_xml_notes) if isinstance(each, (dict, list)) else each for each in tree]
    if not isinstance(tree, dict):
        return tree
    members = {name: restored(member, note, keeps_xml_notes) for name, member in tree.items() if keeps_xml_notes or name != XML_NOTE}
    notes = members.get(_RESERVED)
    if isinstance(notes, list) and len(members) == 1:
        return _number_of(notes, members)
    if isinstance(notes, dict):
        del members[_RESERVED]
        members.update(_exact(members, notes, note))
    return members


def without_packing(layers: Any) -> Any:
    """Layers of which nothing notes any more how they were packed, nor those in them."""
    for layer in layers if isinstance(layers, list) else ():
        if isinstance(layer, dict):
            for name in PACKING:
                layer.pop(name, None)
            without_packing(layer.get('layers'))
    return layers


def drawn(layers: Iterable[Members]) -> Iterator[Members]:
    """The layers in drawing order, those that stand in a group behind it."""
    for layer in layers:
        yield layer
        # A layer of another kind may have any member of that name.
        yield from drawn(layer['layers'] if layer['type'] == 'group' else ())


def note_of(tree: Members) -> Members:
    """What the tree of a map, or its head, says of how an infinite map was made finite; nothing of any other map. `extend` changes it."""
    notes = tree.get(_RESERVED)
    note = notes.get('infinite') if isinstance(notes, dict) else None
    return note if isinstance(note, dict) else {}


def origin_of(note: Members) -> tuple[int, int]:
    """The column and the row of an infinite map where the corner of the finite one lies; 0 and 0 of any other map."""
    return note.get('x', 0), note.get('y', 0)


def _number_of(halves: list[Any], members: Members) -> Any:
    """The number that an object of nothing but the halves of its bits stands for, else the object."""
    if len(halves) < 2 or not all(type(half) is int and 0 <= half < 2**32 for half in halves[:2]):
        return members
    number: float = struct.unpack('>d', struct.pack('>2I', *halves[:2]))[0]
    return number if math.isfinite(number) else members


def _exact(members: Members, notes: Members, note: Members) -> dict[str, float]:
    """The coordinates of an object that are noted and that no edit has changed. An object of an infinite map was moved."""
    exact = {}
    for name, moved in _MOVED.items():
        noted, by = notes.get(name), note.get(moved, 0) if moved else 0
        if isinstance(noted, float) and math.floor(noted) == members.get(name, math.nan) + by:
            exact[name] = noted - by
    return exact
