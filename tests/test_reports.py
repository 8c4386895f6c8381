# SPDX-License-Identifier: MIT OR Apache-2.0
"""Reports good maps and maps with faults by the program `map_report`, and compares each line with
the one that the rules of docs/map-files.md give. Each map with a fault is a good one with some
members changed or taken out; a table says which, and what the line must be. A second table has the
members that the reader knows, and what each must be: each of them is taken out, where it must be
there, and gets each kind of wrong value. A map with fractions has a line for each of them, too, and
says what `--all-maps` makes of it. Then come the listings of the example maps, files that can't be
read, and command lines."""
import copy
import json
import re
import tempfile
from pathlib import Path

from lib.cases import CORES, Case, check_each, unlike
from lib.commands import came_of, first_lines
from lib.maps import cells_of, packed, property_of
from lib.places import MAP_REPORT, example_maps
from lib.refusals import refusal

ABSENT = object()
SHOWN = 40
NEXT, FIRST, PIXELS, VALUES = 2147483647, 268435455, 1000000000, 4294967295


def tile_layer(number, **members):
    return {
        'type': 'tilelayer',
        'id': number,
        'name': f'Tiles {number}',
        'visible': True,
        'width': 4,
        'height': 3,
        'data': [0, 1] * 6,
        **members,
    }


GOOD = {
    'type': 'map',
    'version': '1.10',
    'width': 4,
    'height': 3,
    'tilewidth': 16,
    'tileheight': 16,
    'infinite': False,
    'nextlayerid': 20,
    'nextobjectid': 10,
    'orientation': 'orthogonal',
    'properties': [property_of('weather', 'string', 'rain'), property_of('day', 'int', 3)],
    'layers': [
        tile_layer(
            1, encoding='csv', compression='', properties=[property_of('solid', 'bool', True)]
        ),
        tile_layer(2, encoding='base64', compression='', data=packed([0] * 12)),
        {
            'type': 'group',
            'id': 3,
            'name': 'Upper',
            'visible': False,
            'properties': [property_of('a', 'string', 'b')],
            'layers': [
                {
                    'type': 'objectgroup',
                    'id': 4,
                    'name': 'Things',
                    'visible': True,
                    'properties': [property_of('c', 'string', 'd')],
                    'objects': [
                        {
                            'id': 1,
                            'name': 'door',
                            'x': 16,
                            'y': 32,
                            'width': 8,
                            'height': 8,
                            'visible': True,
                            'gid': 5,
                            'properties': [
                                property_of('e', 'string', 'f'),
                                property_of('g', 'color', '#ff0000'),
                            ],
                        },
                        {'id': 2, 'x': -5},
                    ],
                },
                {'type': 'imagelayer', 'id': 5, 'name': 'Sky', 'visible': True, 'image': 'sky.png'},
                {
                    'type': 'group',
                    'id': 6,
                    'name': 'Inner',
                    'visible': True,
                    'layers': [tile_layer(7)],
                },
            ],
        },
    ],
    'tilesets': [
        {'firstgid': 1, 'source': 'tiles.tsx'},
        {'firstgid': 29, 'name': 'Own', 'tilecount': 4},
    ],
}


# ---- places and changes


def steps_of(place):
    """The names and the indices of a place."""
    return [int(step) if step.isdigit() else step for step in re.findall(r'[^.\[\]]+', place)]


def value_at(tree, place):
    """What stands at a place, or that it is absent."""
    for step in steps_of(place):
        there = (
            isinstance(tree, dict)
            and step in tree
            or isinstance(tree, list)
            and isinstance(step, int)
            and step < len(tree)
        )
        if not there:
            return ABSENT
        tree = tree[step]
    return tree


def changed(changes):
    """The good map with other values at some places."""
    tree = copy.deepcopy(GOOD)
    for place, value in changes.items():
        *front, last = steps_of(place)
        owner = tree
        for step in front:
            owner = owner[step]
        if value is ABSENT:
            owner.pop(last)
        else:
            owner[last] = value
    return tree


def quoted(text):
    """A text as it is shown."""
    return json.dumps(text[:SHOWN], ensure_ascii=False) + ('...' if len(text) > SHOWN else '')


def shown(value):
    """A value as it is shown."""
    if value is ABSENT:
        return 'absent'
    if isinstance(value, list):
        return f'an array of length {len(value)}'
    if isinstance(value, dict):
        return 'an object'
    if isinstance(value, str):
        return quoted(value)
    if isinstance(value, float) or isinstance(value, int) and not -(2**63) <= value < 2**64:
        return repr(float(value))
    return json.dumps(value)


def report_of_fault(code, tree, place):
    """The line of a map that is refused for what stands at a place."""
    return f'{refusal(code)}: {place or "the root"} is {shown(value_at(tree, place))}'


# ---- fractions

OPENS = 'with --all-maps the editor opens this map'


def is_fraction(value):
    is_great = isinstance(value, int) and not -(2**63) <= value < 2**64
    return isinstance(value, float) or is_great


def step_of(name, path):
    """The step to a member, behind a path."""
    if not re.fullmatch('[A-Za-z0-9_-]{1,40}', name):
        return f'{path}[{quoted(name)}]'
    return f'{path}.{name}' if path else name


def owner_of(kind, value):
    """A layer or an object, as its fractions name it."""
    number, name = value.get('id'), value.get('name')
    is_whole = isinstance(number, int) and not isinstance(number, bool) and 0 <= number < 2**64
    return kind + (f' {number}' if is_whole else '') + (f' {quoted(name)}' if name else '') + ': '


def fractions_in(value, kind, owner, path):
    """The lines of the fractions in a value of a kind, which stands at a path."""
    if isinstance(value, list):
        inner = {'layers': 'layer', 'objects': 'object'}.get(kind)
        for at, entry in enumerate(value):
            yield from fractions_in(entry, inner, owner, f'{path}[{at}]')
    elif isinstance(value, dict):
        owner = owner_of(kind, value) if kind in ('layer', 'object') else owner
        lists = {'map': ('layers',), 'layer': ('layers', 'objects')}.get(kind, ())
        for name in sorted(value, key=str.encode):
            if kind != 'map' or name != 'version':
                inner = name if name in lists else None
                yield from fractions_in(value[name], inner, owner, step_of(name, path))
        if kind == 'map' and not is_fraction(value.get('version')):
            yield from fractions_in(value.get('version'), None, owner, 'version')
    elif is_fraction(value):
        yield f'  {owner}{path or "the root"} is {shown(value)}'


def report_of_fractions(tree, place, then=OPENS):
    """The lines of a map that is refused for a fraction, of which this is the first place."""
    rows = list(fractions_in(tree, 'map', '', ''))
    first = report_of_fault(61, tree, place)
    return '\n'.join([first, *rows, f'  fractions: {len(rows)}', f'  {then}'])


def with_all_maps(code, place, value):
    """The last line where the map is refused with its fractions set aside, too."""
    return f'with --all-maps: {refusal(code)}: {place} is {value}'


def report(name, data, *lines):
    """A file, and what may be reported of it behind its name: one of these lines."""
    return Case(name, data, lines)


def fault(code, place, changes, then=None):
    """The good map with some changes, which is refused for what stands at a place. If that is a
    fraction, or the map is infinite, a line says what comes with `--all-maps`. The good map has no
    chunks, so as an infinite one it is of one cell, which its layers are not."""
    tree = changed(changes)
    if code == 61:
        wanted = report_of_fractions(tree, place, then or OPENS)
    elif code == 64:
        then = then or with_all_maps(66, 'layers[0].width', 4)
        wanted = f'{report_of_fault(code, tree, place)}\n  {then}'
    else:
        wanted = report_of_fault(code, tree, place)
    return report(f'{code} at {place}, {changes}', json.dumps(tree).encode(), wanted)


# ---- the members that the reader knows


def whole(low, high):
    """The wrong values of a whole number between these, and their codes."""
    return {
        63: ['7', None, [], {}, True],
        68: [low - 1, high + 1, -(2**63), 2**64 - 1],
        61: [0.5, 1e2, -0.0, 2**64, -(2**63) - 1],
    }


PLACING = {63: ['7', None, []], 68: [PIXELS + 1, -PIXELS - 1, 2**64 - 1], 61: [12.5]}
TEXT = {63: [7, None, [], {}, False]}
TRUTH = {63: [1, 'true', None]}
ENCODING = {63: ['zstd', 'CSV', '', 1, None]}
COMPRESSION = {63: [1, None], 65: ['zlib', 'gzip', 'zstd', 'x' * 41]}
LAYER_TYPE = {63: ['tilelayers', 'Group', '', 1, None]}
ANY = {}


def side(length):
    """The wrong values of a side of a layer."""
    return {63: [str(length), None], 66: [length + 1, 0, -1]}


def entries(most):
    """The wrong values of a list."""
    return {63: [{}, None, 'x', 1], 68: [[{}] * (most + 1)]}


REQUIRED, OPTIONAL = True, False
COMMON = [
    ('type', REQUIRED, LAYER_TYPE),
    ('id', REQUIRED, whole(1, NEXT - 1)),
    ('name', OPTIONAL, TEXT),
    ('visible', OPTIONAL, TRUTH),
    ('properties', OPTIONAL, entries(256)),
]
TILES = COMMON + [
    ('encoding', OPTIONAL, ENCODING),
    ('compression', OPTIONAL, COMPRESSION),
    ('width', OPTIONAL, side(4)),
    ('height', OPTIONAL, side(3)),
]
PROPERTY = [('name', REQUIRED, TEXT), ('type', OPTIONAL, TEXT), ('value', REQUIRED, ANY)]
OBJECT = [
    ('id', REQUIRED, whole(1, NEXT - 1)),
    ('x', OPTIONAL, PLACING),
    ('y', OPTIONAL, PLACING),
    ('width', OPTIONAL, PLACING),
    ('height', OPTIONAL, PLACING),
    ('name', OPTIONAL, TEXT),
    ('visible', OPTIONAL, TRUTH),
    ('gid', OPTIONAL, whole(0, VALUES)),
    ('properties', OPTIONAL, entries(256)),
]
THINGS = 'layers[2].layers[0]'
OWNERS = {
    '': [
        ('width', REQUIRED, whole(1, 4096)),
        ('height', REQUIRED, whole(1, 4096)),
        ('tilewidth', REQUIRED, whole(1, 65535)),
        ('tileheight', REQUIRED, whole(1, 65535)),
        ('infinite', OPTIONAL, {63: [1, 'true', None], 64: [True]}),
        ('nextlayerid', REQUIRED, whole(1, NEXT)),
        ('nextobjectid', REQUIRED, whole(1, NEXT)),
        ('layers', REQUIRED, entries(256)),
        ('tilesets', REQUIRED, entries(256)),
        ('properties', OPTIONAL, entries(256)),
    ],
    'properties[1]': PROPERTY,
    'layers[0]': TILES
    + [('data', REQUIRED, {63: ['AAAA', {}, None], 66: [[0] * 11, [0] * 13, []]})],
    'layers[0].properties[0]': PROPERTY,
    'layers[1]': TILES
    + [
        (
            'data',
            REQUIRED,
            {
                63: [[0] * 12, None, 1],
                66: ['', '!', packed([0] * 11), packed([0] * 13), packed([0] * 12)[1:]],
            },
        )
    ],
    'layers[2]': COMMON + [('layers', REQUIRED, {63: [{}, None, 'x'], 68: [[{}] * 254]})],
    'layers[2].layers[2].layers[0]': TILES,
    THINGS: COMMON + [('objects', REQUIRED, entries(4096))],
    THINGS + '.properties[0]': PROPERTY,
    THINGS + '.objects[0]': OBJECT,
    THINGS + '.objects[0].properties[1]': PROPERTY,
    'layers[2].layers[1]': COMMON,
    'tilesets[0]': [('firstgid', REQUIRED, whole(1, FIRST)), ('source', OPTIONAL, TEXT)],
}


def faults_of_member(owner, member, must_be_there, wrong):
    """The maps in which one member of an owner is wrong."""
    place = f'{owner}.{member}'.lstrip('.')
    if must_be_there:
        yield fault(62, place, {place: ABSENT})
    # What stands for a fraction is an object; but a coordinate keeps its whole part.
    then = OPENS if wrong is PLACING else with_all_maps(63, place, 'an object')
    for code, values in wrong.items():
        for value in values:
            yield fault(code, place, {place: value}, then if code == 61 else None)


def faults_of_members():
    """The maps in which one member is wrong, or an entry of a list is no object."""
    for owner, members in OWNERS.items():
        for member in members:
            yield from faults_of_member(owner, *member)
        if owner.endswith(']'):
            for value in ([], None, 7, 'x'):
                yield fault(63, owner, {owner: value})


# ---- what comes first, and what only several members show


def nested(count):
    """So many groups in one another, in the last of which stands a layer."""
    layer = {'type': 'imagelayer', 'id': 19}
    for number in range(count):
        layer = {'type': 'group', 'id': 30 + number, 'layers': [layer]}
    return layer


def images(count):
    """So many image layers."""
    return [{'type': 'imagelayer', 'id': 1000 + number} for number in range(count)]


DEEP = 'layers[2]' + '.layers[0]' * 16
DOOR = THINGS + '.objects[0]'
TABLE = [
    # 69: the root is no map; 61 comes before it
    (69, 'type', {'type': 'tileset'}),
    (69, 'type', {'type': ABSENT}),
    (69, 'type', {'type': None}),
    (69, 'type', {'type': 'Map', 'width': 0}),
    (
        61,
        'height',
        {'height': 3.5, 'type': 'world'},
        with_all_maps(69, 'type', '"world"'),
    ),
    # 61: the first by the names of the members, and those of the version last
    (61, DOOR + '.x', {DOOR + '.x': 12.5, 'properties[0].value': 0.5}),
    (
        61,
        'layers[0].data[2]',
        {'layers[0].data[2]': 1.5, 'layers[0].opacity': 0.5},
        with_all_maps(66, 'layers[0].data[2]', 'an object'),
    ),
    (61, 'properties[0].value', {'properties[0].value': 0.25, 'version': [0.5]}),
    (61, 'version[1]', {'version': [1, 0.5], 'width': 0}, with_all_maps(68, 'width', '0')),
    (
        61,
        'layers[0].kept.roskevad',
        {'layers[0].kept': {'roskevad': 0.5}},
        'with --all-maps: a member has a reserved name, "roskevad" or "roskevad_packed"',
    ),
    (61, DOOR + '.height', {DOOR + '.height': 1e300}, with_all_maps(68, DOOR + '.height', 2**63 - 1)),
    (
        61,
        'layers[2].layers[0].objects[1].polygon[1].y',
        {THINGS + '.objects[1].polygon': [{'x': 0, 'y': 0}, {'x': 1, 'y': 0.125}]},
    ),
    # the members of the map one after the other
    (68, 'width', {'width': 0, 'layers[0].id': 'x'}),
    (63, 'tilewidth', {'tilewidth': '16', 'layers': ABSENT}),
    (68, 'height', {'width': 2048, 'height': 513, 'tilewidth': 0}),
    (64, 'infinite', {'infinite': True, 'nextlayerid': 0}, with_all_maps(68, 'nextlayerid', 0)),
    (62, 'tilesets', {'tilesets': ABSENT, 'properties': 7}),
    (63, 'layers[2].layers[0].objects', {THINGS + '.objects': {}, 'tilesets': 7}),
    # those of a layer
    (63, 'layers[0].type', {'layers[0].type': 'x', 'layers[0].id': 0}),
    (63, 'layers[0].name', {'layers[0].name': 1, 'layers[0].visible': 1}),
    (63, 'layers[0].visible', {'layers[0].visible': 1, 'layers[0].properties': {}}),
    (63, 'layers[0].properties', {'layers[0].properties': {}, 'layers[0].encoding': 'x'}),
    (65, 'layers[0].compression', {'layers[0].compression': 'zlib', 'layers[0].width': 5}),
    (66, 'layers[0].width', {'layers[0].width': 5, 'layers[0].height': 5, 'layers[0].data': []}),
    (66, 'layers[0].width', {'width': 5}),
    (66, 'layers[0].data[3]', {'layers[0].data': [0, 0, 0, -1, 'x']}),
    (66, 'layers[0].data[11]', {'layers[0].data[11]': VALUES + 1}),
    (66, 'layers[2].layers[2].layers[0].data[0]', {'layers[2].layers[2].layers[0].data[0]': '0'}),
    (66, 'layers[1].data', {'layers[1].data': 'AAAA' * 11 + 'AA==', 'tilesets': 7}),
    # those of an object: the name comes before what is visible and the tile
    (63, DOOR + '.name', {DOOR + '.name': 1, DOOR + '.visible': 1, DOOR + '.gid': -1}),
    (63, DOOR + '.visible', {DOOR + '.visible': 1, DOOR + '.gid': -1}),
    (68, DOOR + '.gid', {DOOR + '.gid': -1, DOOR + '.properties': 1}),
    (68, DOOR + '.y', {DOOR + '.y': 2 * PIXELS, DOOR + '.name': 1}),
    # groups
    (68, DEEP + '.layers', {'layers[2]': nested(17)}),
    (68, 'layers[2].layers', {'layers[2].layers': images(254), 'layers[1].data': packed([0] * 12)}),
    (66, 'layers[1].data', {'layers[1].data': '', 'layers[2].layers': images(254)}),
    (68, 'layers', {'layers': images(257)}),
    (62, DEEP + '.layers', {'layers[2]': nested(16), DEEP: {'type': 'group', 'id': 9}}),
    (
        63,
        DEEP + '.layers',
        {'layers[2]': nested(16), DEEP: {'type': 'group', 'id': 9, 'layers': {}}},
    ),
    # 67: layers, objects, tilesets, and the names of properties; then 68 for an id that is not
    # below the next one
    (67, 'layers[1].id', {'layers[1].id': 1, DOOR + '.id': 2, 'tilesets[1].firstgid': 1}),
    (67, 'layers[2].layers[1].id', {'layers[2].layers[1].id': 2}),
    (67, 'layers[2].id', {'layers[2].id': 1, 'layers[2].layers[1].id': 1}),
    (67, THINGS + '.objects[1].id', {DOOR + '.id': 2, 'tilesets[1].firstgid': 1}),
    (67, 'tilesets[1].firstgid', {'tilesets[1].firstgid': 1, 'properties[1].name': 'weather'}),
    (
        67,
        'properties[1].name',
        {'properties[1].name': 'weather', DOOR + '.properties[1].name': 'e'},
    ),
    (
        67,
        'layers[0].properties[1].name',
        {'layers[0].properties': [property_of('solid', 'bool', True)] * 2, 'nextlayerid': 1},
    ),
    (67, DOOR + '.properties[1].name', {DOOR + '.properties[1].name': 'e', 'nextlayerid': 2}),
    (68, 'layers[1].id', {'nextlayerid': 2, 'nextobjectid': 1}),
    (68, 'layers[2].layers[2].layers[0].id', {'nextlayerid': 7}),
    (68, DOOR + '.id', {'nextobjectid': 1}),
    (68, THINGS + '.objects[1].id', {'nextobjectid': 2}),
    # what no other layer has is kept: it has no fault
    (
        68,
        DOOR + '.id',
        {
            'nextobjectid': 1,
            'layers[0].objects': [{'id': 1}, {'id': 1}],
            'layers[0].layers': [{'id': 1}],
            'layers[2].layers[1].width': 'x',
        },
    ),
]


def faults_with_names():
    """Fractions behind members whose names are shown in quotes."""
    for name, step in (
        ('a.b', '["a.b"]'),
        ('', '[""]'),
        ('x' * 41, '["' + 'x' * 40 + '"...]'),
        ('é', '["é"]'),
        ('a-b_1', '.a-b_1'),
    ):
        tree = changed({})
        tree['layers'][0][name] = 0.5
        rows = f'  layer 1 "Tiles 1": layers[0]{step} is 0.5\n  fractions: 1\n  {OPENS}'
        yield report(
            f'61 behind {name!r}',
            json.dumps(tree).encode(),
            f'{refusal(61)}: layers[0]{step} is 0.5\n{rows}',
        )


def faults_of_roots():
    """Trees that are no object."""
    for tree in ([], [1, 2], 'map', None, True, 7):
        yield report(f'69 at {tree}', json.dumps(tree).encode(), report_of_fault(69, tree, ''))
    for tree, place, then in (
        ([1, [2.5]], '[1][0]', with_all_maps(69, 'the root', 'an array of length 2')),
        (2.5, '', with_all_maps(69, 'type', 'absent')),
    ):
        data = json.dumps(tree).encode()
        yield report(f'61 at {place}', data, report_of_fractions(tree, place, then))


# ---- what is in a map that is read


def word(text):
    """The type of a property as it is shown."""
    return (
        text if re.fullmatch('[A-Za-z0-9_-]{1,40}', text) else json.dumps(text, ensure_ascii=False)
    )


def lines_of_properties(owner, indent):
    for item in owner.get('properties', []):
        value = json.dumps(item['value'], ensure_ascii=False, sort_keys=True, separators=(',', ':'))
        name = json.dumps(item['name'], ensure_ascii=False)
        yield f"{indent}property {name}, {word(item.get('type', 'string'))}: {value}"


def lines_of_object(item, indent):
    name = f" {json.dumps(item['name'], ensure_ascii=False)}" if 'name' in item else ''
    yield f"{indent}object {item['id']}{name} at {item.get('x', 0)}, {item.get('y', 0)}"
    yield from lines_of_properties(item, indent + '  ')


def lines_of_layer(layer, indent):
    kind = {
        'tilelayer': 'tile layer',
        'objectgroup': 'object layer',
        'imagelayer': 'image layer',
        'group': 'group',
    }[layer['type']]
    cells = cells_of(layer) if kind == 'tile layer' else None
    set_cells = (
        f', {sum(value != 0 for value in cells)} of {len(cells)} cells set'
        if cells is not None
        else ''
    )
    name = json.dumps(layer.get('name', ''), ensure_ascii=False)
    yield f"{indent}{kind} {layer['id']} {name}{set_cells}"
    yield from lines_of_properties(layer, indent + '  ')
    for item in layer['objects'] if kind == 'object layer' else []:
        yield from lines_of_object(item, indent + '  ')
    for inside in layer['layers'] if kind == 'group' else []:
        yield from lines_of_layer(inside, indent + '  ')


def listing(tree):
    """What is reported of a map behind its file's name."""
    pixels = f"{tree['tilewidth']} by {tree['tileheight']} pixels"
    sizes = f"{tree['width']} by {tree['height']} cells of {pixels}"
    ids = f"next layer {tree['nextlayerid']}, next object {tree['nextobjectid']}"
    lines = [f'{sizes}, {ids}', *lines_of_properties(tree, '  ')]
    for layer in tree['layers']:
        lines += lines_of_layer(layer, '  ')
    for tileset in tree['tilesets']:
        source = (
            json.dumps(tileset['source'], ensure_ascii=False)
            if 'source' in tileset
            else 'in the map'
        )
        lines.append(f"  tileset from {tileset['firstgid']}: {source}")
    return '\n'.join(lines)


def good_maps():
    """The good map, and some more at the edge of a fault."""
    changes = [
        {},
        {'version': 1.5},
        {'version': ABSENT},
        {'layers[2]': nested(16), 'nextlayerid': 50},
        {'layers': [], 'tilesets': []},
        {'layers[2].layers': images(253), 'nextlayerid': 2000},
        {'layers[1].data': ' ' + packed([0] * 11 + [VALUES]) + '\n'},
        {
            'layers[0].compression': ABSENT,
            'layers[0].encoding': ABSENT,
            'properties[1].type': 'of two words',
            'properties[0].value': [1, {'b': None}],
        },
    ]
    for change in changes:
        tree = changed(change)
        yield report(f'read with {change}', json.dumps(tree).encode(), listing(tree))


EXAMPLES = {
    'infinite.tmj': f'{refusal(64)}: infinite is true\n  {OPENS}',
    'opacity_half.tmj': report_of_fractions(
        json.loads(example_maps()['opacity_half.tmj']), 'layers[0].opacity'
    ),
    'zlib.tmj': f'{refusal(65)}: layers[0].compression is "zlib"\n  {OPENS}',
}


def reports_of_examples():
    for name, data in example_maps().items():
        yield report(name, data, EXAMPLES.get(name) or listing(json.loads(data)))


# ---- runs


def fault_of(case):
    """What is wrong in the report of one file, or None."""
    with tempfile.TemporaryDirectory() as folder:
        (Path(folder) / 'map.tmj').write_bytes(case.given)
        came = came_of([MAP_REPORT, 'map.tmj'], folder)
    wanted = [
        (1 if line.startswith('no ') else 0, f'map.tmj: {line}\n', '') for line in case.wanted
    ]
    is_short = not any('\n' in line for line in case.wanted)
    return None if (first_of_packed(came) if is_short else came) in wanted else unlike(wanted, came)


def first_of_packed(came):
    """What came, of a map that is refused as compressed without what `--all-maps` makes of it."""
    status, out, err = came
    first, _, behind = out.partition('\n')
    is_more = first.startswith(f'map.tmj: {refusal(65)}') and behind.startswith('  with --all-maps')
    return (status, f'{first}\n', err) if is_more else came


def test_members_at_fault():
    check_each(faults_of_members(), fault_of, CORES)


def test_faults_in_their_order():
    check_each((fault(*row) for row in TABLE), fault_of, CORES)


def test_what_is_no_map():
    check_each([*faults_with_names(), *faults_of_roots()], fault_of, CORES)


def test_maps_that_are_read():
    check_each([*good_maps(), *reports_of_examples()], fault_of, CORES)


def test_several_files():
    """Some of them can't be read."""
    good = f'good.tmj: {listing(GOOD)}\n'
    bad = f'bad.tmj: {report_of_fractions(changed({DOOR + ".x": 12.5}), DOOR + ".x")}\n'
    rows = [
        (['good.tmj', 'good.tmj'], (0, good + good, '')),
        (['good.tmj', 'bad.tmj', 'good.tmj'], (1, good + bad + good, '')),
        (
            ['none.tmj', 'good.tmj'],
            (1, good, 'map_report: none.tmj: No such file or directory (os error 2)\n'),
        ),
        (['folder'], (1, '', 'map_report: folder: not a regular file\n')),
    ]
    with tempfile.TemporaryDirectory() as top:
        folder = Path(top)
        (folder / 'good.tmj').write_text(json.dumps(GOOD))
        (folder / 'bad.tmj').write_text(json.dumps(changed({DOOR + '.x': 12.5})))
        (folder / 'folder').mkdir()
        check_each(
            [Case(' '.join(words), words, wanted) for words, wanted in rows],
            lambda case: unlike(case.wanted, came_of([MAP_REPORT, *case.given], folder)),
        )


def fault_of_words(case):
    """What is wrong in the status of a command line, and in the first lines that it writes."""
    with tempfile.TemporaryDirectory() as folder:
        return unlike(case.wanted, first_lines([MAP_REPORT, *case.given], folder))


def test_command_lines():
    about = (
        'Says what is in maps that Tiled saved as JSON, '
        'or why the editor refuses them and at which place.'
    )
    rows = [
        (['--help'], 0, about, ''),
        (['--frob'], 2, '', "error: unexpected argument '--frob' found"),
        ([], 2, '', 'error: the following required arguments were not provided:'),
        (['--table'], 0, '', ''),
        (
            ['--table', 'x.tmj'],
            2,
            '',
            "error: the argument '--table' cannot be used with '[FILE]...'",
        ),
    ]
    check_each(
        [Case(f'words {words}', words, tuple(wanted)) for words, *wanted in rows], fault_of_words
    )


def test_the_help_names_each_status():
    _, output, _ = came_of([MAP_REPORT, '--help'])
    exits = [line.strip() for line in output.split('\n') if re.match(r'  [012]  ', line)]
    assert len(exits) == 3, f'--help names the statuses {exits}'
