# SPDX-License-Identifier: MIT OR Apache-2.0
"""What `--all-maps` makes of the layers that zlib or gzip packs, plainly, by the rules of docs/map-files.md."""
import base64
import binascii
import gzip
import zlib

NOTE = 'roskevad_packed'
PACKERS = {'zlib': zlib.compress, 'gzip': gzip.compress}
MOST_CELLS, MOST_IN_ALL = 1_048_576, 16_777_216
_BLANKS = str.maketrans('', '', ' \t\r\n')


def decoded(text):
    """The bytes of a text in base64, in which blanks may stand; None where it is none."""
    try:
        return base64.b64decode(text.translate(_BLANKS).encode('ascii'), validate=True)
    except (UnicodeEncodeError, binascii.Error):
        return None


def unpacked_bytes(text, size=None):
    """The bytes to which a text unpacks, so many, or any number; None where it does not."""
    packed = decoded(text)
    if packed is None:
        return None
    unpacker = zlib.decompressobj(47)
    try:
        found = unpacker.decompress(packed, 0 if size is None else size + 1)
        found += unpacker.decompress(unpacker.unconsumed_tail, 1) if unpacker.unconsumed_tail else b''
    except zlib.error:
        return None
    is_whole = unpacker.eof and not unpacker.unused_data and size in (None, len(found))
    return found if is_whole else None


def text_of_bytes(data):
    return base64.b64encode(data).decode()


def is_packed(layer):
    return layer.get('encoding') == 'base64' and isinstance(layer.get('compression'), str) and layer['compression'] in PACKERS


def cells_of(members):
    """How many cells a map or a chunk says that it has; 0 where it does not, or has too many."""
    sides = [members.get(name) for name in ('width', 'height')]
    cells = sides[0] * sides[1] if all(type(side) is int and 0 <= side < 2**64 for side in sides) else 0
    return cells if cells <= MOST_CELLS else 0


def objects_in(value):
    return [each for each in value if isinstance(each, dict)] if isinstance(value, list) else []


def all_layers(members):
    """A map and its layers, those in groups too."""
    yield members
    for layer in objects_in(members.get('layers')):
        yield from all_layers(layer)


def has_packed(tree):
    return isinstance(tree, dict) and any(map(is_packed, all_layers(tree)))


def packed_cells(tree):
    """How many cells the packed layers of a map have in all."""
    layers = [layer for layer in all_layers(tree) if is_packed(layer)]
    own = sum(cells_of(tree) for layer in layers if 'data' in layer)
    return own + sum(cells_of(chunk) for layer in layers for chunk in objects_in(layer.get('chunks')))


def data_unpacked(members, cells):
    if not isinstance(members.get('data'), str):
        return members
    return {**members, 'data': text_of_bytes(unpacked_bytes(members['data'], 4 * cells) or b'')}


def layer_unpacked(layer, cells):
    """A layer as it is open. Where a chunk does not unpack, nothing is left in place of its chunks."""
    if 'layers' in layer and isinstance(layer['layers'], list):
        layer = {**layer, 'layers': [layer_unpacked(each, cells) if isinstance(each, dict) else each for each in layer['layers']]}
    if not is_packed(layer):
        return layer
    others = {name: member for name, member in data_unpacked(layer, cells).items() if name != 'compression'}
    others[NOTE] = layer['compression']
    if isinstance(layer.get('chunks'), list):
        others['chunks'] = [data_unpacked(each, cells_of(each)) if isinstance(each, dict) else each for each in layer['chunks']]
        if any(chunk.get('data') == '' for chunk in objects_in(others['chunks'])):
            del others['chunks']
            others['data'] = ''
    return others


def unpacked(tree):
    """The tree of a map with its packed layers unpacked."""
    return layer_unpacked(tree, cells_of(tree)) if has_packed(tree) else tree


def data_packed(members, pack):
    data = decoded(members['data']) if isinstance(members.get('data'), str) else None
    return members if data is None else {**members, 'data': text_of_bytes(pack(data))}


def packed(tree):
    """The tree of a map in which those layers are packed that note how they were, in a way of Python's own."""
    if not isinstance(tree, dict):
        return tree
    if isinstance(tree.get('layers'), list):
        tree = {**tree, 'layers': [packed(each) for each in tree['layers']]}
    pack = PACKERS.get(tree.get(NOTE)) if isinstance(tree.get(NOTE), str) else None
    if pack is None:
        return tree
    others = {name: member for name, member in data_packed(tree, pack).items() if name != NOTE}
    others['compression'] = tree[NOTE]
    if isinstance(tree.get('chunks'), list):
        others['chunks'] = [data_packed(each, pack) if isinstance(each, dict) else each for each in tree['chunks']]
    return others


def has_note(value):
    """Whether a member has the name of the notes."""
    if isinstance(value, dict):
        return NOTE in value or any(map(has_note, value.values()))
    return isinstance(value, list) and any(map(has_note, value))


def by_bytes(members):
    """The members of a layer, with packed data as what they unpack to: two packers make one."""
    compression = members.get('compression')
    if not isinstance(compression, str) or compression not in PACKERS:
        return members
    plain = {**members, **_plain(members)}
    if isinstance(members.get('chunks'), list):
        plain['chunks'] = [{**each, **_plain(each)} if isinstance(each, dict) else each for each in members['chunks']]
    return plain


def _plain(members):
    data = unpacked_bytes(members['data']) if isinstance(members.get('data'), str) else None
    return {} if data is None else {'data': f'packed {text_of_bytes(data)}'}
