# SPDX-License-Identifier: MIT OR Apache-2.0
"""What `--all-maps` makes of a map's tree, plainly: its fractions are set aside, and put back, by the
rules of docs/map-files.md; an infinite map is made finite, and back, by lib/infinite.py; packed layers
are unpacked, and packed again, by lib/packed_layers.py. Trees are
those of lib/json_texts.py, in which a number that is no whole number of 64 bits is a float; and a run
of the program with that option."""
import json
import math
import struct

from lib.infinite import finite_of, infinite_of
from lib.json_texts import depth_of, text_behind, tree_of
from lib.maps import text_of
from lib.model import Editor, Play
from lib.packed_layers import PACKERS, all_layers, by_bytes, packed, text_of_bytes, unpacked
from lib.sessions import ALL_MAPS as OPTION
from lib.sessions import fault_of_reasons, fault_of_replies, heard

RESERVED = 'roskevad'
NAME_TAKEN = 'a member has a reserved name, "roskevad" or "roskevad_packed"'
MOST_FRACTIONS, TOO_MANY_FRACTIONS = 200_000, 'it has more than 200,000 fractions'
TOO_DEEP = 'set aside or put back, it would nest deeper than 127'
NOT_JSON = 'not JSON'
# The words for each fault of lib/infinite.py, and for a map that would not come back.
INFINITE_FAULTS = {
    'BadChunk': 'a chunk has no place, no size, or not a cell for each of its places',
    'Overlap': 'two chunks of a layer overlap',
    'TooLarge': 'its layers have more than 16,777,216 cells',
}
UNLIKE = 'made finite, it would not come back as it was'
MAP, LAYER, OBJECT, COORDINATE, VERSION, ELSEWHERE = range(6)
COORDINATES = ('x', 'y', 'width', 'height')


def below(place, name):
    """Where a member stands whose owner stands at a place."""
    if place == MAP and name == 'version':
        return VERSION
    if place in (MAP, LAYER):
        return {'layers': LAYER, 'objects': OBJECT}.get(name, ELSEWHERE)
    return COORDINATE if place == OBJECT and name in COORDINATES else ELSEWHERE


def inside(place):
    """Where the entries of an array stand."""
    return place if place in (LAYER, OBJECT) else ELSEWHERE


def stand_in(number):
    (bits,) = struct.unpack('>Q', struct.pack('>d', number))
    return {RESERVED: [bits >> 32, bits & 0xFFFFFFFF]}


def whole_part(number):
    """Rounded down, as far as 64 bits reach."""
    return max(-(2**63), min(2**63 - 1, math.floor(number)))


def are_whole(values):
    """Whether all entries of a list are whole numbers, as cells are."""
    return set(map(type, values)) <= {int}


def notes_of(place, value):
    """The stand-ins of an object's coordinates that are fractions."""
    return {
        name: stand_in(value[name])
        for name in COORDINATES
        if place == OBJECT and isinstance(value.get(name), float)
    }


def aside(value, place=MAP):
    """A tree with its fractions set aside."""
    if isinstance(value, dict):
        notes = notes_of(place, value)
        members = {name: aside(member, below(place, name)) for name, member in value.items()}
        return {**members, RESERVED: notes} if notes else members
    if isinstance(value, list):
        return value if are_whole(value) else [aside(entry, inside(place)) for entry in value]
    if not isinstance(value, float) or place == VERSION:
        return value
    return whole_part(value) if place == COORDINATE else stand_in(value)


def number_of_halves(value):
    """The float whose halves stand in an array, or None."""
    halves = value[:2] if isinstance(value, list) else []
    if len(halves) < 2 or not all(type(half) is int and 0 <= half < 2**32 for half in halves):
        return None
    (number,) = struct.unpack('>d', struct.pack('>Q', halves[0] << 32 | halves[1]))
    return number if math.isfinite(number) else None


def restored(note, value):
    """A noted number, if the value still is its whole part; else the value."""
    is_whole = type(value) is int and isinstance(note, float)
    return note if is_whole and value == whole_part(note) else value


def back(value):
    """A tree in which what was set aside is put back."""
    if isinstance(value, list):
        return value if are_whole(value) else [back(entry) for entry in value]
    if not isinstance(value, dict):
        return value
    members = {name: back(member) for name, member in value.items()}
    number = number_of_halves(members.get(RESERVED)) if len(members) == 1 else None
    if number is not None:
        return number
    notes = members.get(RESERVED)
    if not isinstance(notes, dict):
        return members
    return {
        name: restored(notes.get(name), member)
        for name, member in members.items()
        if name != RESERVED
    }


# ---- a whole map


def set_aside(tree):
    """The tree of a map as it is set aside. A fault of lib/infinite.py says why there is none."""
    whole = aside(unpacked(tree))
    return finite_of(whole) or whole


def put_back(tree):
    """The tree of a map in which what was set aside is put back."""
    return packed(back(infinite_of(tree) or tree))


# ---- as the file that is replaced


def layer_in(olds, layer):
    """The layer of a list that has the id of another, or nothing."""
    found = (old for old in olds if isinstance(old, dict) and old.get('id') == layer['id'])
    return next(found, {})


def is_tiles(layer):
    return layer.get('type') == 'tilelayer' and ('data' in layer or 'chunks' in layer)


def written_as(layer, other):
    """A tile layer that is an array, written as another one is."""
    compression, held = other.get('compression', ''), [layer, *layer.get('chunks', [])]
    is_array = is_tiles(layer) and all(isinstance(each.get('data', []), list) for each in held)
    if not is_array or other.get('encoding') != 'base64' or compression not in ('', *PACKERS):
        return layer
    pack = PACKERS.get(compression, bytes)
    told = {name: other[name] for name in ('encoding', 'compression') if name in other}
    if 'data' in layer:
        told['data'] = text_of_bytes(pack(bytes_of(layer['data'])))
    if 'chunks' in layer:
        told['chunks'] = [{**each, 'data': text_of_bytes(pack(bytes_of(each['data'])))} for each in layer['chunks']]
    return {**layer, **told}


def bytes_of(cells):
    return struct.pack(f'<{len(cells)}I', *cells)


def layers_like(olds, layers, first):
    """Layers with the empty compressions of a list of others, and written as these are, new ones as the first one."""
    for layer in layers:
        old = layer_in(olds, layer)
        is_left_out = 'compression' not in layer and old.get('compression') == ''
        more = {'compression': ''} if is_left_out and layer.get('encoding') == 'base64' else {}
        if 'layers' in layer:
            olds_inside = old.get('layers', [])
            more['layers'] = list(layers_like(olds_inside, layer['layers'], first))
        yield written_as({**layer, **more}, old or first)


def as_in(source, tree):
    """The tree of a map as it is saved over a file: with its version, its empty compressions, and its layers written as they are there."""
    found = tree_of(source) if source is not None else None
    old = found[0] if found else None
    if not isinstance(old, dict) or not isinstance(old.get('layers'), list):
        return tree
    others = {name: member for name, member in tree.items() if name != 'version'}
    version = {'version': old['version']} if 'version' in old else {}
    first = next(filter(is_tiles, all_layers(old)), {})
    return {**others, **version, 'layers': list(layers_like(old['layers'], tree['layers'], first))}


# ---- what stands in a tree


def has_name(value):
    """Whether a member has the reserved name."""
    if isinstance(value, dict):
        return RESERVED in value or any(map(has_name, value.values()))
    return isinstance(value, list) and any(map(has_name, value))


def has_fraction(value, place=MAP):
    """Whether a fraction stands anywhere but as the version."""
    if isinstance(value, dict):
        return any(has_fraction(member, below(place, name)) for name, member in value.items())
    if isinstance(value, list):
        return any(has_fraction(entry, inside(place)) for entry in value)
    return isinstance(value, float) and place != VERSION


def exact(value):
    """A tree with each float as its bits, so that trees are equal only if they have the same
    numbers; with truth values told from 0 and 1; and with packed data as what they unpack to."""
    if isinstance(value, dict):
        return {name: exact(member) for name, member in by_bytes(value).items()}
    if isinstance(value, list):
        return value if are_whole(value) else [exact(entry) for entry in value]
    if isinstance(value, float):
        return 'float', struct.pack('>d', value)
    return (bool, value) if isinstance(value, bool) else value


def exact_text(data):
    """The tree of a text, with each float as its bits; None where it has no tree."""
    found = tree_of(data)
    return found and exact(found[0])


def is_too_deep(tree):
    return depth_of(json.dumps(tree)) > 127


# ---- runs of the program


class TiledEditor(Editor):
    """The plain model of the editor with that option."""

    def open(self, name, file):
        (tree,) = tree_of(self.files[file])
        self.add(name, text_behind(set_aside(tree)))

    def save(self, document, file):
        source = self.files.get(file)
        reply = super().save(document, file)
        self.files[file] = text_of(as_in(source, put_back(json.loads(document.now.text))))
        return reply


class TiledPlay(Play):
    """A run of the program with that option, whose replies and files the model tells."""

    def __init__(self, name, before=()):
        super().__init__(name, before)
        self.editor = TiledEditor(before)
        self.options = [OPTION]


def fault_of_tiled_files(wanted, given):
    """How the trees of files differ, or None."""
    if wanted.keys() != given.keys():
        return f'wanted the files {sorted(wanted)}, came {sorted(given)}'
    for name in wanted:
        if exact_text(wanted[name]) != exact_text(given[name]):
            return f'file {name}: wanted {wanted[name][:400]!r}, came {given[name][:400]!r}'
    return None


def fault_of_tiled_run(run):
    """How the program differs from a run, or None. Files are compared by their trees, since a float
    has more than one text."""
    done, files = heard(run.session, run.before, run.options)
    if done.returncode != 0:
        return f'exit status {done.returncode}, {done.stderr.decode()[:300]}'
    return (
        fault_of_reasons(run.replies, done.stderr)
        or fault_of_replies(run.session, run.replies, done.stdout)
        or fault_of_tiled_files(run.after, files)
    )
