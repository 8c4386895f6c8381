# SPDX-License-Identifier: MIT OR Apache-2.0
"""Makes infinite maps finite and infinite again by `--all-maps`. 10,000 infinite maps made by chance are
set aside by `map_report --table`, edited, and put back, and their trees are compared with those of the
plain program tests/lib/infinite.py, which has one entry for each cell: untouched, the map comes back
as it was; edited, each cell stands where it stood; and what was put back is set aside again. New
chunks are whole, and on the multiples of the map's chunk size, where there is room. Maps at
the edges of the rules, and maps that are refused, are named here with what must come. Random sessions
open, edit, undo and save infinite maps by `tile_editor --all-maps`, beside the plain model; maps of all
orientations get columns and rows at all sides, and stay where they were on the plane. Debian's
package `tiled` has infinite maps: they are edited, moved and saved, and real Tiled, which exports what
was saved, reads the same cells."""
import base64
import itertools
import json
import random
import re
import struct
import subprocess
import tempfile
import zlib
from pathlib import Path

from lib import infinite, tiled_package
from lib.asides import (
    INFINITE_FAULTS,
    NOT_JSON,
    OPTION,
    TOO_DEEP,
    UNLIKE,
    TiledPlay,
    exact,
    exact_text,
    fault_of_tiled_run,
    put_back,
    set_aside,
)
from lib.cases import CORES, Case, check_each, fail_with, in_processes, passed, unlike
from lib.json_texts import tree_of
from lib.json_words import set_fractions_aside
from lib.maps import cells_of, group, layer_of, map_of, packed, text_of, thing, things
from lib.places import EXAMPLES, IN_MEMORY, MAP_REPORT
from lib.refusals import refusal
from lib.sessions import ALL_EDITS, heard
from lib.whole_things import read_whole_things

IS_LONG = True
PACKAGES = ('tiled',)
SEED, MAPS, MAPS_OF_RUN, SECONDS, RUNS, STEPS = 20261128, 10_000, 100, 60, 60, 30
AS_IT_IS = 'as it is'


def exact_tree(tree):
    """A tree as its text is read."""
    return exact_text(json.dumps(tree).encode())


# ---- the calls


def table(lines, folder):
    """What `map_report --table` answers to each line that sets aside or puts back."""
    done = subprocess.run(
        [MAP_REPORT, '--table'], input=lines.encode(), capture_output=True, timeout=SECONDS, cwd=folder
    )
    assert done.returncode == 0, f'status {done.returncode}, {done.stderr[:300]!r}'
    rows = [row.partition(b' => ') for row in done.stdout.split(b'\n')[:-1]]
    answers = [answer for front, _, answer in rows if front.startswith((b'aside ', b'back '))]
    asked = lines.count('\naside ') + lines.count('\nback ')
    assert len(answers) == asked, f'{len(answers)} answers to {asked} lines'
    return answers


def answers(word, texts):
    """What comes where each of these texts is set aside, or put back."""
    with tempfile.TemporaryDirectory(dir=IN_MEMORY) as folder:
        for at, text in enumerate(texts):
            (Path(folder) / f'm{at}').write_bytes(text)
        return table(''.join(f'load m{at} m{at}\n{word} m{at}\n' for at in range(len(texts))), folder)


def faults_of_answers(what, wanted, came):
    """How trees that came as texts differ from those that are wanted. A text that Python, too, writes
    for the tree is not read."""
    for number, (tree, text) in enumerate(zip(wanted, came)):
        fault = text != text_of(tree) and unlike(exact_tree(tree), exact_text(text))
        if fault:
            yield f'{what} {number}: {fault[:600]}'


def faults_of_maps(first):
    """What is wrong with the maps of one run, the first of which has this number."""
    chosen = random.Random(SEED * MAPS + first)
    trees = [infinite.some_map(chosen) for _ in range(MAPS_OF_RUN)]
    finite = [set_aside(tree) for tree in trees]
    edited = infinite.copied(finite)
    for tree in edited:
        infinite.edit(chosen, tree)
    saved = [put_back(tree) for tree in edited]
    texts = answers('aside', [json.dumps(tree).encode() for tree in trees])
    backs = answers('back', texts)
    saves = answers('back', [json.dumps(tree).encode() for tree in edited])
    faults = [
        *faults_of_answers('set aside', finite, texts),
        *faults_of_answers('put back', trees, backs),
        *faults_of_answers('edited', saved, saves),
        *faults_of_answers('set aside again', map(set_aside, saved), answers('aside', saves)),
        *(infinite.wrong_cells(*pair) for pair in zip(edited, map(json.loads, saves))),
    ]
    return [f'maps from {first}: {fault}' for fault in faults if fault]


def test_maps_by_chance():
    fail_with(
        fault for some in in_processes(faults_of_maps, range(0, MAPS, MAPS_OF_RUN)) for fault in some
    )
    passed(MAPS)


# ---- maps at the edges


def chunk(x, y, width, height, data=None, **members):
    data = [1] * (width * height) if data is None else data
    return {'data': data, 'height': height, 'width': width, 'x': x, 'y': y, **members}


def spread(*chunks, **members):
    """A tile layer in chunks."""
    own = {'chunks': list(chunks), 'height': 16, 'startx': 0, 'starty': 0, 'width': 16}
    return layer_of(1, 'tilelayer', **{**own, **members})


def plane(*layers, **members):
    """An infinite map."""
    return map_of(*layers, **{'infinite': True, 'height': 20, 'width': 30, **members})


BASE64 = {'encoding': 'base64', 'compression': ''}
HALF = {'roskevad': [1071644672, 0]}
DOOR = thing(1, x=-0.5, y=40, polygon=[{'x': 0.5, 'y': 1}], rotation=0.25)
FAR = 1 << 31
SOUND = [
    ('no layer', plane()),
    ('a layer without chunks', plane(spread())),
    ('no layers', {'infinite': True}),
    ('a negative corner', plane(spread(chunk(-16, -32, 16, 16), chunk(0, 0, 16, 16)))),
    ('odd places', plane(spread(chunk(-3, 5, 2, 7)), things(2, DOOR))),
    ('one row', plane(spread(chunk(-4095, 0, 4095, 1)))),
    ('as many columns as there may be', plane(spread(chunk(-2, 0, 1, 1), chunk(4093, 255, 1, 1)))),
    ('base64', plane(spread(chunk(3, 3, 2, 1, packed([7, (1 << 32) - 1])), **BASE64))),
    ('chunks of zeros', plane(spread(chunk(0, 0, 4, 4, [0] * 16), chunk(8, 8, 4, 4, [0] * 16)))),
    (
        'fractions everywhere',
        plane(
            spread(chunk(-7, 1, 1, 1), opacity=0.5, startx=0.5), things(2, DOOR), version=1.5, width=0.1
        ),
    ),
    ('a fraction for a layer', plane(0.5, spread(chunk(0, 0, 1, 1)))),
    (
        'a fraction as the chunk size',
        plane(spread(chunk(0, 0, 1, 1)), editorsettings={'chunksize': {'width': 0.5, 'height': 32}}),
    ),
    ('a fraction as the tile size', plane(spread(chunk(9, 9, 1, 1)), things(2, DOOR), tilewidth=0.5)),
    ('groups', plane(group(5, group(6, spread(chunk(-2, 0, 2, 2)), things(2, DOOR))))),
    (
        'chunks that touch and share no cell',
        plane(spread(chunk(0, 0, 2, 2), chunk(2, 0, 2, 2), chunk(0, 2, 2, 2), chunk(2, 2, 2, 2))),
    ),
    ('staggered', plane(spread(chunk(-3, -3, 1, 1)), things(2, DOOR), orientation='staggered')),
    ('an object far away', plane(spread(chunk(-16, 0, 1, 1)), things(2, thing(1, x=1e300, y=-(2**63))))),
    ('above the limits', plane(spread(chunk(0, 0, 1, 1), chunk(5000, 5000, 1, 1)))),
    ('at the ends of the plane', plane(spread(chunk(-FAR, -FAR, 1, 1), chunk(FAR, FAR, FAR, FAR, [])))),
    ('two layers', plane(spread(chunk(-16, 0, 2, 1)), spread(chunk(4, 4, 1, 2), height=0.5))),
]
# With data that Zstandard compresses a layer stays as it is.
ZSTANDARD = {'encoding': 'base64', 'compression': 'zstd'}
PACKED = ('packed', plane(spread(chunk(0, 0, 2, 2, 'eJxjYGBgAAAABAAB'), **ZSTANDARD)))


def fault_of_sound(case):
    """A map must be set aside as the plain program says, and come back as it was."""
    text = json.dumps(case.given).encode()
    (came,) = answers('aside', [text])
    fault = unlike(exact_tree(set_aside(case.given)), exact_text(came))
    if fault:
        return f'set aside: {fault[:600]}'
    (again,) = answers('back', [came])
    fault = unlike(exact_text(text), exact_text(again))
    return fault and f'put back: {fault[:600]}'


def test_maps_at_the_edges():
    check_each([Case(name, tree, None) for name, tree in [*SOUND, PACKED]], fault_of_sound, CORES)


# ---- new chunks


def drawn(tree, columns, rows, *places):
    """What comes back of the chunks of the first layer, as their places and sizes, if the map is set
    aside, gets this size, and has the value 7 at these places."""
    finite = set_aside(tree)
    old = finite['width'], finite['height']
    layer = finite['layers'][0]
    cells = dict(zip(itertools.product(range(old[1]), range(old[0])), cells_of(layer)))
    cells.update({(y, x): 7 for x, y in places})
    size = max(columns, old[0]), max(rows, old[1])
    data = [cells.get((y, x), 0) for y in range(size[1]) for x in range(size[0])]
    layer.update(data=data, width=size[0], height=size[1])
    finite.update(width=size[0], height=size[1])
    (came,) = answers('back', [json.dumps(finite).encode()])
    chunks = json.loads(came)['layers'][0]['chunks']
    return [(item['x'], item['y'], item['width'], item['height']) for item in chunks]


def sides(width, height):
    return {'editorsettings': {'chunksize': {'width': width, 'height': height}}}


def layered(layers):
    """So many layers, of which each would have 1024 by 512 cells, and a column and a row more."""
    return plane(*[spread(chunk(0, 0, 16, 16))] * layers, **sides(512, 512))


WHOLE = [
    ('beside a chunk', plane(spread(chunk(0, 0, 16, 16))), (20, 18), [(19, 17)], [(16, 16, 16, 16)]),
    ('an odd chunk in the block', plane(spread(chunk(-3, 5, 2, 7))), (0, 0), [(0, 0)], [(-4, 4, 1, 1)]),
    ('before the corner', plane(spread(chunk(20, 40, 1, 1))), (20, 1), [(15, 0)], [(32, 32, 16, 16)]),
    ('odd chunks', plane(spread(chunk(1, 1, 5, 5)), **sides(8, 8)), (20, 6), [(9, 1)], [(8, 0, 8, 8)]),
    (
        'left of the corner and above it',
        plane(spread(chunk(-3, -3, 1, 1), chunk(29, 29, 1, 1))),
        (0, 0),
        [(30, 2), (6, 32)],
        [(16, -16, 16, 16), (0, 16, 16, 16)],
    ),
    (
        'a chunk of its own size in the block',
        plane(spread(chunk(2, 2, 3, 3)), **sides(8, 8)),
        (20, 20),
        [(4, 4), (5, 4)],
        [(6, 6, 2, 1)],
    ),
    (
        'no room for whole chunks',
        plane(spread(chunk(0, 0, 1000, 1000)), **sides(100, 1000)),
        (1010, 1001),
        [(1009, 1000)],
        [(1000, 1000, 10, 1)],
    ),
    ('room in all layers', layered(31), (520, 20), [(517, 17)], [(512, 0, 512, 512)]),
    ('no room in all layers', layered(32), (520, 20), [(517, 17)], [(512, 0, 8, 20)]),
]


def fault_of_whole(case):
    """The chunks that a map had stay, and new ones come behind them."""
    tree, size, places, news = case.given
    olds = [(item['x'], item['y'], item['width'], item['height']) for item in tree['layers'][0]['chunks']]
    return unlike([*olds, *news], drawn(tree, *size, *places))


def test_new_chunks_are_whole():
    check_each([Case(name, given, None) for name, *given in WHOLE], fault_of_whole, CORES)


# ---- what is refused

BAD, OVERLAP, LARGE = (INFINITE_FAULTS[name] for name in ('BadChunk', 'Overlap', 'TooLarge'))


def with_chunk(**members):
    return plane(spread({**chunk(0, 0, 2, 1), **members}))


def without(name):
    tree = with_chunk()
    del tree['layers'][0]['chunks'][0][name]
    return tree


def in_groups(levels, layer):
    for number in range(levels):
        layer = group(100 + number, layer)
    return layer


REFUSED = [
    ('two chunks at one place', plane(spread(chunk(0, 0, 2, 1), chunk(0, 0, 2, 1))), OVERLAP),
    ('chunks that share a cell', plane(spread(chunk(0, 0, 2, 2), chunk(1, 1, 2, 2))), OVERLAP),
    ('a chunk within another', plane(spread(chunk(0, 0, 4, 4), chunk(1, 1, 1, 1))), OVERLAP),
    (
        'chunks that share a cell in a group',
        plane(in_groups(3, spread(chunk(0, 0, 2, 2), chunk(1, 1, 2, 2)))),
        OVERLAP,
    ),
    *((f'no {name}', without(name), BAD) for name in ('x', 'y', 'width', 'height', 'data')),
    ('no columns', with_chunk(width=0), BAD),
    ('fewer rows than none', with_chunk(height=-1), BAD),
    ('a fraction of a column', with_chunk(width=2.5), BAD),
    ('a whole number written as a fraction', with_chunk(x=1e0), BAD),
    ('a place that is a text', with_chunk(y='0'), BAD),
    ('a place past the plane', with_chunk(x=FAR + 1), BAD),
    ('a place far before the plane', with_chunk(y=-(2**63)), BAD),
    ('a size past the plane', with_chunk(height=FAR + 1), BAD),
    ('a size of 64 bits', with_chunk(width=2**64 - 1), BAD),
    ('a cell too few', with_chunk(data=[1]), BAD),
    ('a cell too many', with_chunk(data=[1, 2, 3]), BAD),
    ('a cell below 0', with_chunk(data=[1, -1]), BAD),
    ('a cell that is a fraction', with_chunk(data=[1, 0.5]), BAD),
    ('a cell that is a list', with_chunk(data=[1, [1]]), BAD),
    ('data that are no list', with_chunk(data=1), BAD),
    ('data that are base64 in a layer of lists', with_chunk(data=packed([1, 2])), BAD),
    ('a list in a layer of base64', plane(spread(chunk(0, 0, 1, 1), **BASE64)), BAD),
    ('no base64', plane(spread(chunk(0, 0, 1, 1, '?'), **BASE64)), BAD),
    ('half a cell in base64', plane(spread(chunk(0, 0, 1, 1, 'AAA='), **BASE64)), BAD),
    ('two cells for one in base64', plane(spread(chunk(0, 0, 1, 1, packed([1, 2])), **BASE64)), BAD),
    ('base64 with a blank', plane(spread(chunk(0, 0, 1, 1, ' AAAAAA=='), **BASE64)), BAD),
    ('a chunk that is a number', plane(spread(1)), BAD),
    ('a chunk that is a fraction', plane(spread(0.5)), BAD),
    ('a chunk that is a list', plane(spread([chunk(0, 0, 1, 1)])), BAD),
    ('chunks that are a text', plane(spread(chunks='a')), BAD),
    ('chunks of the map itself, and of no form', plane(chunks=1), BAD),
    ('a chunk with a member of its own', with_chunk(more=1), UNLIKE),
    ('a layer with chunks and data', plane(spread(chunk(0, 0, 1, 1), data=[1])), UNLIKE),
    (
        '17 layers of 1,048,576 cells',
        plane(*[spread(chunk(0, 0, 1, 1), chunk(1023, 1023, 1, 1))] * 17),
        LARGE,
    ),
    (
        'a fraction that nests too deep',
        plane(spread(chunk(0, 0, 1, 1), kept=json.loads('[' * 123 + '0.5' + ']' * 123))),
        TOO_DEEP,
    ),
]


def nested(levels, innermost):
    """The text of a map with a layer within so many lists of layers."""
    layer = json.dumps(innermost)
    return ('{"infinite":true,"layers":' + '[' * levels + layer + ']' * levels + '}').encode()


def fault_of_refused(case):
    (came,) = answers('aside', [json.dumps(case.given).encode()])
    return unlike(case.wanted, came.decode()[:200])


def test_maps_that_are_refused():
    check_each([Case(name, tree, words) for name, tree, words in REFUSED], fault_of_refused, CORES)


def kinds_of(answers_given):
    return ['a text' if text.startswith(b'{') else text.decode() for text in answers_given]


def test_maps_that_nest():
    """Within n lists a layer is n + 2 levels deep. Set aside, the list of chunks stands in the layer's
    note, at n + 4, where it stood at n + 3; put back, the data of a new chunk are at n + 5."""
    layer = layer_of(1, 'tilelayer', chunks=[])
    asides = answers('aside', [nested(levels, layer) for levels in (122, 123, 124, 125)])
    fault = unlike(['a text', 'a text', TOO_DEEP, NOT_JSON], kinds_of(asides))
    assert not fault, fault
    note = '"height":1,"infinite":false,"roskevad":{"infinite":{"chunkheight":16,"chunkwidth":16}},"width":1'
    texts = [
        f'{{"layers":{"[" * levels}{{"data":[1]}}{"]" * levels},{note}}}'.encode()
        for levels in (121, 122, 123, 124, 125)
    ]
    backs = kinds_of(answers('back', texts))
    fault = unlike(['a text', 'a text', TOO_DEEP, TOO_DEEP, NOT_JSON], backs)
    assert not fault, fault


NOTES = [
    ('a note that is no object', 1),
    ('an empty note', {}),
    ('sides of 0', {'chunkwidth': 0, 'chunkheight': 0}),
    ('great numbers', {name: 2**64 - 1 for name in ('x', 'y', 'chunkwidth', 'lostx', 'movedx', 'width')}),
    ('fractions', {name: HALF for name in ('x', 'y', 'chunkwidth', 'lostx', 'movedx', 'width')}),
    ('lost more than there is', {'chunkwidth': 4, 'chunkheight': 4, 'lostx': 5000, 'losty': 5000}),
]
LAYERS = [
    {'data': [1, 2]},
    {'data': [1], 'roskevad': {'chunks': [[0, 0, 1, 1], [0, 0, 1, 1]]}},
    {'data': [1], 'roskevad': {'chunks': [[2**64 - 1] * 4, [0], 1, HALF, [0, 0, 5000, 5000]]}},
    {'data': [1], 'roskevad': [1, 2]},
    {'data': '????'},
    {'data': 'AQAAAA=='},
    {'data': [1], 'objects': [{'x': 2**63 - 1, 'y': HALF}]},
]


def test_notes_that_were_changed():
    """Each text is answered: by another one, since notes are looked up with care."""
    texts = [
        json.dumps({'height': 1, 'layers': LAYERS, 'roskevad': {'infinite': note}, 'width': 1}).encode()
        for _, note in NOTES
    ]
    for (name, _), came in zip(NOTES, answers('back', texts)):
        tree = exact_text(came)
        assert tree and tree['infinite'] == (bool, True), f'{name}: came {came[:300]!r}'
    passed(len(NOTES))


# ---- sessions


def drawn_layers(chosen, ids, depth):
    for _ in range(chosen.randint(1, 3)):
        number = next(ids)
        kind = chosen.choice(('tiles', 'tiles', 'things', 'group' if depth else 'tiles'))
        if kind == 'tiles':
            is_text = chosen.random() < 0.5
            chunks = infinite.some_chunks(chosen, is_text, chosen.random() < 0.5)
            members = {'encoding': 'base64', 'compression': ''} if is_text else {}
            yield spread(*chunks, id=number, name='tiles', opacity=chosen.choice((1, 0.5)), **members)
        elif kind == 'things':
            places = (chosen.randint(-99, 99), chosen.choice((10.5, -0.25, 7)))
            yield things(number, *(thing(next(ids), x=x, y=places[0]) for x in places))
        else:
            yield group(number, *drawn_layers(chosen, ids, depth - 1))


class Drawing(TiledPlay):
    """An infinite map that is edited by chance."""

    def __init__(self, number):
        self.chosen = chosen = random.Random(SEED + number)
        tree = plane(
            spread(chunk(16 * chosen.randint(-3, 3), -16, 16, 16), id=1),
            *drawn_layers(chosen, itertools.count(2), 2),
            orientation=chosen.choice(('orthogonal', 'isometric', 'staggered')),
            tilewidth=chosen.randint(1, 20),
        )
        super().__init__(f'drawing {number}', {'m.tmj': json.dumps(tree, indent=1).encode()})
        self.hear('open m m.tmj', 'save same.tmj')
        self.sizes = self.size()
        for _ in range(STEPS):
            self.hear(self.line())
        self.hear('show', 'save n.tmj', 'goto 0', 'save o.tmj')
        self.hear('open again n.tmj', 'show', 'open old o.tmj')

    def size(self):
        tree = json.loads(self.document.now.text)
        return tree['width'], tree['height']

    def line(self):
        chosen = self.chosen
        columns, rows = self.size()
        number, x, y = chosen.randint(1, 9), chosen.randrange(columns), chosen.randrange(rows)
        return chosen.choice(
            [
                f'stamp {number} {x} {y} 1 7',
                f'stamp {number} {x} {y} 2 7,8',
                f'erase {number} {x} {y} {chosen.randint(1, 9)} {chosen.randint(1, 9)}',
                f'fill {number} {x} {y} {chosen.randint(0, 3)}',
                f'object move {number} {chosen.randint(-99, 99)} {y}',
                f'resize {columns + chosen.randint(0, 9)} {rows + 3} {x % 9 - 4} {y % 9 - 4}',
                f'resize {x + 1} {y + 1} {chosen.randint(-5, 9)} {chosen.randint(-5, 9)}',
                f'resize {columns + 4} {rows} 4 0',
                'layer add tile New',
                f'layer remove {number}',
                'undo',
                'undo',
                'redo',
            ]
        )


class Growing(Drawing):
    """One that also gets columns and rows at its sides, and stays where it was on the plane."""

    def line(self):
        if self.chosen.random() < 0.7:
            return super().line()
        return 'extend ' + ' '.join(str(self.chosen.choice((0, 0, 1, 2, 5, 16, 40))) for _ in range(4))


def fault_of_growing(number):
    read_whole_things()
    set_fractions_aside()
    run = Growing(number)
    run.options.append(ALL_EDITS)
    return fault_of_drawn(run)


def fault_of_drawing(number):
    return fault_of_drawn(Drawing(number))


def fault_of_drawn(run):
    fault = fault_of_tiled_run(run)
    source = tree_of(run.before['m.tmj'])[0]
    for layer in infinite.every_layer(source['layers']):
        layer.pop('compression', None)
    source['version'] = '1.10'
    fault = fault or unlike(exact(source), exact_text(run.after['same.tmj']))
    return fault and f'{run.name}: {fault[:900]}'


def test_random_edits():
    fail_with(fault for fault in in_processes(fault_of_drawing, range(RUNS), 4) if fault)
    passed(RUNS)


def test_random_growth():
    fail_with(fault for fault in in_processes(fault_of_growing, range(RUNS), 4) if fault)
    passed(RUNS)


# ---- columns and rows at the left and top


HOUSES = (
    spread(chunk(-3, -5, 1, 1, [3]), chunk(8, 0, 4, 4), id=1),
    group(
        2,
        spread(chunk(0, 16, 2, 1, packed([7, 8])), id=3, **BASE64),
        group(4, spread(chunk(5, 5, 3, 3), id=5), things(6, thing(1, x=10.5, y=-20), thing(2, x=-7, y=3.25))),
    ),
    spread(id=7),
    things(8, thing(3, x=-64, y=96)),
)
SHAPES = [
    {'orientation': 'orthogonal'},
    {'orientation': 'isometric', 'tilewidth': 32},
    {'orientation': 'staggered', 'staggeraxis': 'y', 'staggerindex': 'odd'},
    {'orientation': 'hexagonal', 'hexsidelength': 6, 'staggeraxis': 'x', 'staggerindex': 'even'},
    {'orientation': 'orthogonal', 'editorsettings': {'chunksize': {'width': 7, 'height': 32}}},
]
SIDES = [(2, 2, 0, 0), (1, 0, 0, 0), (0, 3, 5, 0), (16, 32, 7, 1), (0, 0, 4, 4), (0, 0, 0, 0)]


def fault_of_growth(case):
    """A map gets columns and rows at its sides, and is drawn on in its new corner: all else is saved
    where it was on the plane, and what is drawn at the new corner. Undone, the file is as it was."""
    tree, sides = case.given
    source = json.dumps(tree).encode()
    left, top, _, _ = infinite.box_of(tree)
    lines = [
        'open m m.tmj', f'extend {" ".join(map(str, sides))}', 'save grown.tmj', 'stamp 1 0 0 1 9',
        'save drawn.tmj', 'undo', 'save again.tmj', 'undo', 'redo', 'redo', 'goto 0', 'save m.tmj',
    ]  # fmt: skip
    text = ''.join(f'{line}\n' for line in lines).encode()
    done, files = heard(text, {'m.tmj': source}, [ALL_EDITS, OPTION])
    said = [reply.split(' ', 1)[0] for reply in done.stdout.decode().splitlines()]
    fault = unlike(['saved' if line.startswith('save') else 'ok' for line in lines], said)
    if fault:
        return fault
    cells, objects = cells_of_file(source), objects_of_file(source)
    drawn = [{**cells[0], (top - sides[1], left - sides[0]): 9}, *cells[1:]]
    for name, wanted in (('grown', cells), ('drawn', drawn), ('again', cells)):
        file = files[f'{name}.tmj']
        fault = fault or unlike((wanted, objects), (cells_of_file(file), objects_of_file(file)))
    return fault or unlike(source, files['m.tmj'])


def test_growth_at_all_sides():
    cases = [
        Case(f'{shape["orientation"]} {sides}', (plane(*HOUSES, **shape), sides), None)
        for shape in SHAPES
        for sides in SIDES
    ]
    check_each(cases, fault_of_growth, CORES)


def fault_of_moving(case):
    """A `resize` by the same columns and rows moves all on the plane."""
    source = json.dumps(plane(*HOUSES, **case.given)).encode()
    done, files = heard(b'open m m.tmj\nresize 42 42 2 3\nsave n.tmj\n', {'m.tmj': source}, [OPTION])
    wanted = [
        {(row + 3, column + 2): value for (row, column), value in cells.items()}
        for cells in cells_of_file(source)
    ]
    return unlike(wanted, cells_of_file(files['n.tmj']))


def test_a_resize_moves_all():
    check_each([Case(shape['orientation'], shape, None) for shape in SHAPES], fault_of_moving, CORES)


OPENED = [
    ('above the limits', plane(spread(chunk(0, 0, 1, 1), chunk(5000, 5000, 1, 1))), 68, None),
    ('packed', PACKED[1], 65, None),
    ('chunks that overlap', plane(spread(chunk(0, 0, 2, 1), chunk(0, 0, 2, 1))), 51, OVERLAP),
    ('a cell too few', with_chunk(data=[1]), 51, BAD),
    ('too many cells', REFUSED[-2][1], 51, LARGE),
    ('chunks and data', plane(spread(chunk(0, 0, 1, 1), data=[1])), 51, UNLIKE),
    ('a cell past 32 bits', with_chunk(data=[1, 1 << 32]), 66, None),
    ('no chunk', plane(layer_of(1, 'tilelayer')), 62, None),
]


def fault_of_opened(case):
    """What is wrong with the reply to `open`, or with what standard error says."""
    code, reason = case.wanted
    done, _ = heard(b'open m m.tmj\nlist\n', {'m.tmj': json.dumps(case.given).encode()}, [OPTION])
    errors = f'tile_editor: maps/m.tmj: {reason}\n' if reason else ''
    wanted = (0, f'{refusal(code)}\ndocs\n', errors)
    return unlike(wanted, (done.returncode, done.stdout.decode(), done.stderr.decode()))


def test_maps_that_do_not_open():
    cases = [Case(name, tree, (code, reason)) for name, tree, code, reason in OPENED]
    check_each(cases, fault_of_opened, CORES)


TOO_LONG = 'set aside or put back, it would be longer than 67,108,864 bytes'


def test_a_text_that_is_too_long():
    """A file of some kilobytes, whose 16,777,216 cells take 89,478,496 bytes in base64."""
    corners = [chunk(at, at, 1, 1, packed([1])) for at in (0, 1023)]
    tree = plane(*(spread(*corners, id=number, **BASE64) for number in range(1, 17)))
    done, _ = heard(b'open m m.tmj\n', {'m.tmj': json.dumps(tree).encode()}, [OPTION])
    wanted = (f'{refusal(51)}\n', f'tile_editor: maps/m.tmj: {TOO_LONG}\n')
    fault = unlike(wanted, (done.stdout.decode(), done.stderr.decode()))
    assert not fault, fault


# ---- Tiled


def cells_of_file(data):
    """The values of each tile layer by their place on the plane, without zeros, in drawing order."""
    layers = infinite.every_layer(json.loads(data)['layers'])
    found = [infinite.cell_places(layer) for layer in layers if 'chunks' in layer]
    return [{place: value for place, value in cells.items() if value} for cells in found]


def objects_of_file(data):
    layers = infinite.every_layer(json.loads(data)['layers'])
    return [(item['x'], item['y']) for layer in layers for item in layer.get('objects', [])]


PACKED_DATA = 'encoding="base64" compression="zlib"'


def unpacked_to(encoding, text):
    """The text of a map of Tiled, with its packed chunks in another encoding."""

    def plain(found):
        data = zlib.decompress(base64.b64decode(found[2]))
        values = struct.unpack(f'<{len(data) // 4}I', data)
        cells = ','.join(map(str, values)) if encoding == 'csv' else packed(values)
        return f'{found[1]}{cells}</chunk>'

    text = re.sub('(<chunk[^>]*>)([^<]*)</chunk>', plain, text)
    return text.replace(PACKED_DATA, f'encoding="{encoding}"')


def sources(folder):
    """Infinite maps as Tiled exports them: its own, in both encodings without compression, and that of
    `examples/maps`."""
    for path in tiled_package.unpacked(folder):
        text = path.read_text()
        for encoding in ('csv', 'base64') if 'infinite="1"' in text else ():
            source = path.with_name(f'{path.stem}_{encoding}.tmx')
            source.write_text(unpacked_to(encoding, text))
            data = tiled_package.exported(source, path.parent, f'{source.stem}.tmj')
            assert data is not None, f'Tiled does not export {source.name}'
            yield path.parent, f'{source.stem}.tmj', data
    own = Path(folder) / 'own'
    own.mkdir()
    for name in ('infinite.tmj', 'tiles.tsx', 'tiles.png'):
        (own / name).write_bytes((EXAMPLES / 'maps' / name).read_bytes())
    yield own, 'infinite.tmj', (own / 'infinite.tmj').read_bytes()


def fault_of_export(folder, name, data):
    """A map of Tiled is edited and saved, moved and saved, and undone and saved. Tiled reads the cells
    and objects that the plain model tells, and of the last the same as of the source."""
    run = TiledPlay(name, {name: data})
    run.hear(f'open m {name}', 'save same.tmj')
    tree = json.loads(run.document.now.text)
    layer = next(layer for layer in infinite.every_layer(tree['layers']) if layer['type'] == 'tilelayer')
    width, height = tree['width'], tree['height']
    run.hear(f'stamp {layer["id"]} 0 0 2 3,2', f'stamp {layer["id"]} {width - 1} {height - 1} 1 5')
    run.hear('save drawn.tmj', f'resize {width + 20} {height + 20} 10 2', f'stamp {layer["id"]} 0 0 2 2,3')
    run.hear('save moved.tmj', 'goto 0', 'save old.tmj')
    fault = fault_of_tiled_run(run)
    if fault:
        return fault
    _, files = heard(run.session, run.before, run.options)
    for saved in ('same.tmj', 'drawn.tmj', 'moved.tmj', 'old.tmj'):
        (folder / saved).write_bytes(files[saved])
        again = tiled_package.exported(folder / saved, folder, f'again_{saved}')
        wanted = data if saved in ('same.tmj', 'old.tmj') else run.after[saved]
        for what in (cells_of_file, objects_of_file):
            fault = unlike(what(wanted), what(again))
            if fault:
                return f'{saved}: {what.__name__}: {fault[:600]}'
        passed()
    first = tiled_package.exported(folder / name, folder, 'again_source.tmj')
    return unlike(exact_text(first), exact_text((folder / 'again_same.tmj').read_bytes()))


def test_maps_of_tiled():
    with tempfile.TemporaryDirectory() as folder:
        found = list(sources(folder))
        assert len(found) > 1, 'the package tiled has no infinite maps'
        fail_with(
            f'{name}: {fault}'
            for place, name, data in found
            for fault in [fault_of_export(place, name, data)]
            if fault
        )
