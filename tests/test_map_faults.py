# SPDX-License-Identifier: MIT OR Apache-2.0
"""Breaks 3,000 maps by chance, and compares why and where each is refused: as `map_report` tells it in its table and with `--json`,
`tile_editor` with `--all-maps`, the C library, and the packages for Python and JavaScript in Node. The maps are those of
`examples/maps` and `sessions/maps`, some of them spread over lines, made infinite, or with fractions, and one or two changes of
tests/lib/broken.py; all from a fixed seed.

Python's json module reads each place, too. What stands at the path is what is shown; the value that begins at the line and the
column is that one, or the object that lacks it. Where a text is no JSON, what stands before the byte at fault can be a part of some
JSON, and with that byte it can not. Then come maps with packed layers, some of them damaged: the place is that in the file, and of two
faults the first by the order of reading is told."""
import base64
import json
import pickle
import random
import subprocess
import sys
import tempfile
import zlib
from pathlib import Path

from lib.broken import WAYS, Text, originals
from lib.cases import Case, check_each, fail_with, unlike
from lib.json_texts import tree_of
from lib.map_places import fault_of_place, told_of_report
from lib.maps import map_of, text_of, tiles
from lib.places import MAP_REPORT, TILE_EDITOR, TOP
from module.node import ran

sys.path.insert(0, str(TOP / 'python'))
from roskevad import Editor, Refused, map_faults  # noqa: E402

IS_LONG = True
PACKAGES = ('nodejs',)
SEED, MAPS = 20261129, 3_000
# The longest map that is changed, and the seconds that a run of a program may take.
LONGEST, SECONDS = 12_000, 600
READ = 'read'
PLACE = ('path', 'exact', 'shown', 'text', 'line', 'column')
CUT_OFF = 'its packed data are cut off'
ONLY_TWO = 'only zlib and gzip are unpacked: choose another Tile Layer Format in Map > Map Properties'


# ---- broken maps


def has_layers(data):
    """Whether the text of a map is JSON, with layers that are objects."""
    found = tree_of(data)
    layers = found[0].get('layers') if found and isinstance(found[0], dict) else None
    return isinstance(layers, list) and all(isinstance(layer, dict) for layer in layers)


TEXTS = [text for folder in originals() for text in folder if len(text.data) < LONGEST and has_layers(text.data)]


def spread(chosen, data):
    """A map with its members over lines."""
    return json.dumps(json.loads(data), indent=chosen.choice([1, None]), ensure_ascii=False).encode()


def infinite(data):
    """A map whose tile layers have their cells in one chunk."""
    tree = json.loads(data)
    for layer in tree.get('layers', []):
        if isinstance(layer.get('data'), list) and not layer.get('encoding'):
            sides = {'x': 0, 'y': 0, 'width': tree['width'], 'height': tree['height']}
            layer['chunks'] = [{**sides, 'data': layer.pop('data')}]
    return json.dumps({**tree, 'infinite': True}).encode()


def with_fractions(chosen, data):
    """A map with some numbers halved."""
    text = Text('', data)
    for _ in range(chosen.randrange(1, 4)):
        span = chosen.choice(text.numbers)
        text = Text('', text.with_part(span, text.at(span) + b'.5'))
    return text.data


def changed(chosen, data):
    text = Text('', data)
    ways = [way for way in WAYS if getattr(text, way[1])]
    return chosen.choice(ways)[0](chosen, text) if ways else data


def broken_map(number):
    """The map of a number, which is the same each time."""
    chosen = random.Random(SEED * MAPS + number)
    text = chosen.choice(TEXTS)
    data = text.data
    if chosen.random() < 0.5:
        data = spread(chosen, data)
    if chosen.random() < 0.2:
        data = infinite(data)
    if chosen.random() < 0.2:
        data = with_fractions(chosen, data)
    for _ in range(chosen.choice([1, 1, 2])):
        data = changed(chosen, data)
    return Case(f'map {number}: {text.name}', data, None)


CASES = [broken_map(number) for number in range(MAPS)]


# ---- what each tells of them: the code with the text that the library makes, or with the place


def run(words, folder, lines=None):
    done = subprocess.run(words, input=lines, capture_output=True, timeout=SECONDS, cwd=folder)
    return done.stdout.decode().split('\n')[:-1]


def told_by_table(folder):
    """What the library tells of each map, by the program; None where it is read."""
    lines = ''.join(f'load m{at} m{at}\nfault m{at}\n' for at in range(len(CASES)))
    rows = [row.partition(' => ')[2] for row in run([MAP_REPORT, '--table'], folder, lines.encode()) if row.startswith('fault ')]
    assert len(rows) == len(CASES), f'{len(rows)} answers'
    return [None if row == READ else json.loads(row) for row in rows]


def told_by_report(folder):
    return [json.loads(row) for row in run([MAP_REPORT, '--json', *(f'm{at}' for at in range(len(CASES)))], folder)]


def codes_of_editor(folder):
    """The code that `tile_editor` refuses each map with; None where it opens it."""
    lines = ''.join(f'open m m{at}\ndiscard m\n' for at in range(len(CASES)))
    replies = run([TILE_EDITOR, '--all-maps', '--folder', folder], folder, lines.encode())[::2]
    return [int(reply.split(' ')[1]) if reply.startswith('no ') else None for reply in replies]


def told_by_python(data):
    """The code, why, and the members of the place, as far as there are any; None where it is opened."""
    with Editor() as editor:
        try:
            editor.open_map('m', data, all_maps=True)
        except Refused as refusal:
            place = refusal.place_in_map
            return [refusal.code, refusal.why, place and [None if place.path is None else list(place.path), *place[1:]]]
    return None


def told_by_node(folder, count):
    """The same of the maps of a folder, by the package for JavaScript."""
    return json.loads(ran('map_faults.mjs', folder, str(count)))


def place_told(told):
    """What a package tells where the library has told so."""
    if told is None:
        return None
    place = [told[name] for name in PLACE]
    return [told['code'], told['why'], None if told['code'] == 51 else place]


class Told:
    """What each program tells of the maps, which is asked once."""

    _told = None

    @classmethod
    def by_table(cls):
        if cls._told is None:
            with tempfile.TemporaryDirectory() as folder:
                write_maps(folder)
                cls._told = told_by_table(folder)
        return cls._told


def write_maps(folder, maps=None):
    for at, data in enumerate(maps if maps is not None else [case.given for case in CASES]):
        (Path(folder) / f'm{at}').write_bytes(data)


def see_alike(wanted, came):
    """Fails where what came of a map is not what was wanted."""
    assert len(came) == len(CASES), f'{len(came)} answers'
    faults = ((case, unlike(*pair)) for case, pair in zip(CASES, zip(wanted, came)))
    fail_with([f'{case.name}: {fault}\n    given {case.given[:2000]!r}' for case, fault in faults if fault])


# ---- the tests


def test_places():
    """What is told is so, by Python's json module."""
    told = Told.by_table()
    codes = {each['code'] for each in told if each is not None}
    assert codes >= {51, 60, 62, 63, 65, 66, 67, 68, 69}, codes
    assert sum(each is None for each in told) < MAPS / 2
    rows = [Case(case.name, (case.given, each), None) for case, each in zip(CASES, told)]
    check_each(rows, lambda case: fault_of_place(*case.given))


def test_reports():
    """`map_report --json` tells the same, of the map as it is or as it is set aside."""
    with tempfile.TemporaryDirectory() as folder:
        write_maps(folder)
        reports = told_by_report(folder)
    pairs = [told_of_report(case.given, *pair) for case, pair in zip(CASES, zip(Told.by_table(), reports))]
    see_alike([pair[0] for pair in pairs], [pair[1] for pair in pairs])


def test_editor():
    """`tile_editor --all-maps` refuses each with that code."""
    with tempfile.TemporaryDirectory() as folder:
        write_maps(folder)
        came = codes_of_editor(folder)
    see_alike([None if each is None else each['code'] for each in Told.by_table()], came)


def test_library():
    """The C library tells the same text."""
    see_alike(Told.by_table(), [map_faults.told_of(case.given) for case in CASES])


def is_packed(data):
    """Whether the Python package may find a layer in a map that it has to unpack itself."""
    return b'zstd' in data


def as_told(tells):
    """What a package must tell of each map. One that may have packed layers is left to other tests."""
    return [None if is_packed(case.given) else place_told(told) for case, told in zip(CASES, tells)]


def test_python():
    see_alike(as_told(Told.by_table()), [None if is_packed(case.given) else told_by_python(case.given) for case in CASES])


def test_node():
    with tempfile.TemporaryDirectory() as folder:
        write_maps(folder)
        came = told_by_node(folder, len(CASES))
    see_alike(as_told(Told.by_table()), [None if is_packed(case.given) else told for case, told in zip(CASES, came)])


# ---- packed layers


def packed(cells, cut=None):
    return base64.b64encode(zlib.compress(b''.join(cell.to_bytes(4, 'little') for cell in cells))[:cut]).decode()


def layer(number, data, **members):
    return tiles(number, 6, 5, **{'data': data, 'encoding': 'base64', 'compression': 'zlib', **members})


def two_layers(first, second, **members):
    return text_of({**map_of(first, second, width=6, height=5), **members})


def without(members, name):
    return {key: value for key, value in members.items() if key != name}


GOOD, CUT = packed(range(30)), packed(range(30), -5)


def packed_rows():
    """Maps with packed layers: the code, the path, why, and whether the line is told."""
    whole, damaged = layer(1, GOOD), layer(2, CUT)
    yield 'the second is damaged', two_layers(whole, damaged), (66, ('layers', 1, 'data'), CUT_OFF, True)
    yield 'both are damaged', two_layers(layer(1, CUT), damaged), (66, ('layers', 0, 'data'), CUT_OFF, True)
    yield 'a member is absent before', two_layers(without(whole, 'id'), damaged), (62, ('layers', 0, 'id'), None, True)
    yield 'a member is absent behind', two_layers(whole, without(damaged, 'id')), (62, ('layers', 1, 'id'), None, True)
    yield 'a member of the map', two_layers(whole, damaged, tilewidth='a'), (63, ('tilewidth',), None, True)
    yield 'an id twice', two_layers(whole, layer(1, GOOD)), (67, ('layers', 1, 'id'), None, True)
    yield 'lzma', two_layers(whole, layer(2, '', compression='lzma')), (65, ('layers', 1, 'compression'), ONLY_TWO, True)
    yield 'a width', two_layers(whole, {**layer(2, GOOD), 'width': 7}), (66, ('layers', 1, 'width'), None, True)
    group = {'id': 3, 'name': 'g', 'type': 'group', 'visible': True, 'layers': [whole, damaged]}
    yield 'in a group', text_of({**map_of(group, width=6, height=5)}), (66, ('layers', 0, 'layers', 1, 'data'), CUT_OFF, True)
    chunk = {'x': 0, 'y': 0, 'width': 6, 'height': 5, 'data': CUT}
    spread = {**without(layer(1, GOOD), 'data'), 'chunks': [{**chunk, 'data': GOOD}, {**chunk, 'x': 16}], 'startx': 0, 'starty': 0}
    yield 'a chunk', two_layers(spread, {**spread, 'id': 2}, infinite=True), (66, ('layers', 0), CUT_OFF, ...)
    yield 'no JSON', two_layers(whole, damaged)[:-1], (60, None, None, True)
    yield 'no JSON in the midst', two_layers(whole, damaged).replace(b'"visible":', b'"visible"', 1), (60, None, None, True)
    yield 'no JSON, with the note', two_layers(layer(1, GOOD, roskevad_packed='zlib'), damaged)[:-1], (60, None, None, True)


def fault_of_packed(data, wanted, came):
    """What is wrong with what a package tells of a packed map, or None."""
    if came is None:
        return 'it was opened'
    code, path, why, has_line = wanted
    place = dict(zip(PLACE, came[2]))
    path_came = place['path'] and tuple(place['path'])
    if has_line is ...:
        # The reader has stopped in what is set aside of it.
        return unlike([code, path, why], [came[0], path_came[:len(path)], came[1]])
    return unlike([code, path, why, has_line], [came[0], path_came, came[1], place['line'] is not None]) or fault_of_place(data, {'code': code, **place})


def see_packed(told):
    """Fails where a package tells another place of a packed map."""
    cases = [Case(name, data, (wanted, came)) for (name, data, wanted), came in zip(packed_rows(), told)]
    check_each(cases, lambda case: fault_of_packed(case.given, *case.wanted))


def test_packed_in_python():
    see_packed([told_by_python(data) for _, data, _ in packed_rows()])


def test_packed_in_node():
    maps = [data for _, data, _ in packed_rows()]
    with tempfile.TemporaryDirectory() as folder:
        write_maps(folder, maps)
        see_packed(told_by_node(folder, len(maps)))


def test_plain_open():
    """Without `all_maps` a map is refused as the lines refuse it, and its place is told where it would be refused with it, too."""
    rows = [
        (b'{"type":"map","width":4}', 62, ('height',)),
        (b'{"type":"map","width":0.5}', 61, None),
        (b'[1,\n2', 60, None),
    ]
    for data, code, path in rows:
        with Editor() as editor:
            try:
                editor.open_map('m', data)
                raise AssertionError('it was opened')
            except Refused as refusal:
                place = refusal.place_in_map
                assert (refusal.code, place and place.path) == (code, path), refusal
                assert code != 60 or (place.line, place.column) == (2, 1), place


def test_words():
    """The place stands in the message, and goes with the refusal from one process to another."""
    with Editor() as editor:
        try:
            editor.open_map('m', b'{"type":"map",\n"width":"a"}', all_maps=True)
            raise AssertionError('it was opened')
        except Refused as refusal:
            again = pickle.loads(pickle.dumps(refusal))
    assert str(again) == '63 member of another kind: open_map(\'m\')\n  width is "a" (line 2, column 9)', again
    assert again.place_in_map.path == ('width',) and again.place_in_map.is_exact
