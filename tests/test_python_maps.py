# SPDX-License-Identifier: MIT OR Apache-2.0
"""Opens, edits and saves maps with fractions, infinite maps and packed ones by the Python package, and
compares what is saved with the source, number by number. Tiled's own example maps are among them, as
Tiled exports them in each tile layer format, finite and infinite; Tiled exports what was saved, and
that has the same numbers as its export of the source. Maps that need nothing set aside are opened and
saved byte for byte as without. Data that are cut short, damaged, too long, or that would take very
much memory are refused by name. Zstandard is packed and unpacked by Debian's `python3-zstandard`."""
import json
import random
import struct
import subprocess
import sys
import tempfile
import zlib
from pathlib import Path

from lib import tiled_package
from lib.any_maps import exports, in_each_format, saved_as, some_map
from lib.asides import exact
from lib.cases import CORES, Case, check_each, passed, unlike
from lib.json_texts import tree_of
from lib.map_layouts import printed
from lib.maps import cells_of, group, map_of, new_map, property_of, text_of, thing, things, tiles
from lib.compressions import (
    GZIP,
    ZLIB,
    ZSTANDARD,
    cells_in,
    data_of,
    compressed_bytes,
    text_of_bytes,
    with_compression,
    zstandard,
)
from lib.places import TOP, example_maps

sys.path.insert(0, str(TOP / 'python'))
from roskevad import Editor, Refused, compressions  # noqa: E402

IS_LONG = True
PACKAGES = ('tiled', 'python3-zstandard')
SEED, RUNS = 20261128, 60
WORDS = {51: 'store failed', 65: 'compressed', 66: 'bad data'}
NAME_TAKEN = 'a member has a reserved name, "roskevad" or "roskevad_packed"'
NOTE_TAKEN = 'a layer has a member of the reserved name "roskevad_compression"'
# Why a layer is refused that Zstandard has packed.
BAD_DATA = 'the data of a layer does not unpack to 4 bytes a cell'
# Why one is that zlib or gzip has packed.
NO_BASE64, CUT_OFF, NO_HEADER = 'its packed data are no base64', 'its packed data are cut off', "its packed data begin neither as zlib's do nor as gzip's"
BEHIND, LONGER, SHORTER = 'bytes stand behind its packed data', 'its data unpack to more than 4 bytes a cell', 'its data unpack to fewer than 4 bytes a cell'
ONLY_TWO = 'only zlib and gzip are unpacked: choose another Tile Layer Format in Map > Map Properties'


def opened(data, **more):
    """An editor with a map."""
    editor = Editor(**more)
    editor.open_map('m', data, all_maps=True)
    return editor


# ---- what is opened and saved


def edit_by_chance(editor, chosen):
    width, height = editor.outline()['width'], editor.outline()['height']
    editor.step('layer add tile New')
    layer = editor.last_layer_id()
    for _ in range(20):
        line = chosen.choice((
            f'stamp {layer} {chosen.randrange(width)} {chosen.randrange(height)} 1 7',
            'prop set map a string b',
            f'layer rename {layer} Another',
            'undo', 'undo', 'redo',
        ))
        try:
            editor.step(line)
        except Refused as refusal:
            # There is nothing to undo or to redo, or the layer is not there.
            assert refusal.code in (21, 22, 30), refusal


def fault_of_drawing(case):
    chosen = random.Random(f'{SEED} {case.given}')
    source = some_map(chosen)
    with opened(json.dumps(source).encode()) as editor:
        edit_by_chance(editor, chosen)
        editor.step('goto 0')
        data = editor.save_map(all_maps=True)
    return unlike(saved_as(source), saved_as(json.loads(data)))


def test_random_maps():
    check_each([Case(f'map {number}', number, None) for number in range(RUNS)], fault_of_drawing, CORES)


def test_layers_stay_packed():
    """By their own compression, Zstandard with the level of the file; a layer that is added is as the others are, beside Zstandard an array."""
    cells = [1 + at % 9 for at in range(30)]
    for compression in (ZLIB, GZIP, ZSTANDARD):
        for level in (-1, 1, 9):
            tree = with_compression(map_of(tiles(1, 6, 5, data=cells), width=6, height=5), compression, level)
            with opened(json.dumps(tree).encode()) as editor:
                editor.step('stamp 1 0 0 1 3')
                editor.step('layer add tile New')
                first, second = json.loads(editor.save_map(all_maps=True))['layers']
            wanted = [3, *cells[1:]]
            added = second['data'] if compression == ZSTANDARD else cells_in(second['data'], compression)
            fault = unlike((compression, wanted), (first['compression'], cells_in(first['data'], compression))) or unlike([0] * 30, added)
            if compression == ZSTANDARD:
                fault = fault or unlike(text_of_bytes(compressed_bytes(_words(wanted), compression, level)), first['data'])
            fault = fault or unlike(None if compression == ZSTANDARD else compression, second.get('compression'))
            assert not fault, f'{compression} {level}: {fault}'
            passed()


def _words(values):
    return b''.join(value.to_bytes(4, 'little') for value in values)


def test_maps_that_need_nothing():
    """They are opened as ever, and saved byte for byte as they were, or as ever."""
    rows = {name: data for name, data in example_maps().items() if _is_plain(name)}
    assert len(rows) > 5
    for name, data in rows.items():
        with Editor() as editor:
            editor.open_map('plain', data)
            editor.open_map('any', data, all_maps=True)
            trees = [(editor.step(f'use {each}'), editor.step('show'))[1] for each in ('plain', 'any')]
            texts = [editor.save_map(), editor.documents['any'].save_bytes(layout='compact')]
            # A layout changes no version, and no empty `compression`.
            wanted = trees[0], trees[0], [trees[0][len('map '):].encode(), text_of(json.loads(data))], data
            again = editor.open(data, 'again').save_bytes()
        fault = unlike(wanted, (*trees, texts, again))
        assert not fault, f'{name}: {fault}'
        passed()


def _is_plain(name):
    with Editor() as editor:
        try:
            return bool(editor.open_map('m', example_maps()[name]))
        except Refused:
            return False


# ---- the tree of a map


def test_trees():
    """`map` and `outline` have floats, and no note; an edited coordinate stays as it was set."""
    door = thing(1, x=10.5, y=-0.25, width=3.75, height=8, rotation=1e300)
    line = thing(2, x=2.0, y=7, polyline=[{'x': 0, 'y': 1.5}])
    tree = new_map(6, 5, 16, 16, 'town.tsj')
    tree.update(layers=[things(1, door, line, opacity=0.125)], nextlayerid=2, nextobjectid=9)
    tree['properties'] = [property_of('a', 'float', 0.1)]
    with opened(json.dumps(tree).encode()) as editor:
        wanted = [json.loads(json.dumps(tree['layers'])), tree['properties']]
        for came in (editor.map(), editor.outline()):
            assert not unlike(exact(wanted), exact([came['layers'], came['properties']]))
            assert 'roskevad' not in json.dumps(came)
        assert editor.origin == (0, 0)
        editor.step('object move 1 10 50')
        item = editor.map()['layers'][0]['objects'][0]
        assert (item['x'], item['y'], item['width']) == (10.5, 50, 3.75)
        passed(5)


def test_origins():
    """An infinite map stays finite in the trees. What its objects were moved by is a whole number."""
    chunk = {'x': -16, 'y': 32, 'width': 2, 'height': 1, 'data': [5, 6]}
    layer = tiles(1, 2, 1, chunks=[chunk], startx=-16, starty=32)
    del layer['data']
    tree = new_map(2, 1, 16, 16, 'town.tsj')
    tree.update(layers=[layer, things(2, thing(1, x=-250.5, y=515.25))], nextlayerid=3, nextobjectid=2, infinite=True)
    with opened(json.dumps(tree).encode()) as editor:
        came = editor.map()
        item = came['layers'][1]['objects'][0]
        fault = unlike(((-16, 32), False, [5, 6]), (editor.origin, came['infinite'], came['layers'][0]['data']))
        assert not fault, fault
        assert (item['x'], item['y']) == (5.5, 3.25), item
        editor.step('close m')
        try:
            editor.origin
            raise AssertionError('an origin without a document')
        except Refused as refusal:
            assert (refusal.code, refusal.line) == (10, 'origin')
    passed(4)


def fault_of_trees(document, source):
    """How `map` and `outline` of a document that was just opened are not what its file has, or None. An infinite map is finite in them."""
    whole, outline = document.map(), document.outline()
    told = json.dumps([whole, outline, [layer.members for layer in document.layers.walk()]])
    without_cells = json.loads(json.dumps(whole))
    for layer in drawn(without_cells['layers']):
        layer.pop('data', None)
    wanted, came = saved_as(source), saved_as(whole)
    for layer in [*drawn(wanted['layers']), *drawn(came['layers'])]:
        layer.pop('compression', None)
    return (
        ('roskevad' in told and 'a note or a stand-in is told')
        or unlike(without_cells, outline)
        or (not source.get('infinite') and unlike(wanted, came))
        or None
    )


def fault_of_map(case):
    """How what is told of a map by chance is not what its file has, or None."""
    source = some_map(random.Random(f'{SEED} {case.given}'))
    with Editor() as editor:
        return fault_of_trees(editor.open(json.dumps(source).encode()), source)


def test_trees_of_random_maps():
    check_each([Case(f'map {number}', number, None) for number in range(RUNS)], fault_of_map, CORES)


def test_trees_of_packed_maps():
    """The cells of a packed layer are told as they are open, in base64; nothing tells of a note."""
    cells = [1 + at % 9 for at in range(30)]
    for compression in (ZLIB, GZIP, ZSTANDARD):
        tree = with_compression(map_of(tiles(1, 6, 5, data=cells, opacity=0.5), group(2, tiles(3, 6, 5, data=cells)), width=6, height=5), compression, 9)
        with Editor() as editor:
            document = editor.open(json.dumps(tree).encode())
            first = document.map()['layers'][0]
            fault = fault_of_trees(document, tree) or unlike(('base64', cells, 0.5), (first['encoding'], cells_of(first), first['opacity']))
            # What is told is a map that opens.
            again = editor.open(json.dumps(document.map()).encode())
            assert not fault and list(again.layers[3].cells()) == cells, f'{compression}: {fault}'
            passed()


def test_what_is_set_aside_belongs_to_its_document():
    """A map that is opened as it is has members of its own that look like stand-ins: they stay, whatever stands in another document. In one
    that a line opens they are stand-ins, as those of lines are."""
    halves = {'roskevad': [1072693248, 0]}
    own = {**new_map(2, 1, 16, 16, 'a.tsj'), 'a': halves, 'b': [{'roskevad_compression': 'zlib', **halves}]}
    own['layers'][0]['roskevad_compression'] = 'zlib'
    with Editor() as editor:
        fraction = editor.open(text_of(map_of(tiles(1, opacity=0.5))), 'fraction')
        editor.open_map('own', text_of(own))
        document = editor.documents['own']
        saved = document.save_bytes(), editor.save_map(all_maps=True), document.save_bytes(layout='compact')
        came = document.map(), document.layers[1].members['roskevad_compression'], document.outline()['a'], saved
        fault = unlike((own, 'zlib', halves, (*[printed(own).encode()] * 2, text_of(own))), came)
        assert not fault, fault
        fault = unlike((0.5, 0.5), (fraction.map()['layers'][0]['opacity'], json.loads(fraction.save_bytes())['layers'][0]['opacity']))
        assert not fault, fault
        # A document of the same name that is opened later has nothing of the one before.
        document.discard()
        fraction.discard()
        editor.put_file('line.tmj', text_of({**new_map(2, 1, 16, 16, 'a.tsj'), 'a': halves}))
        editor.run_lines(['open own line.tmj'])
        editor.open_map('fraction', text_of(own))
        line, document = editor.documents['own'], editor.documents['fraction']
        fault = unlike((own, printed(own).encode(), 1.0, 1.0), (
            document.map(), document.save_bytes(), line.map()['a'], json.loads(line.save_bytes())['a']))
        assert not fault, fault
    passed(3)


# ---- things that are read alone


def test_things_of_infinite_maps():
    """What was set aside is put back in a thing that is read alone: what its map says of how it was made finite counts for it."""
    chunk = {'x': -16, 'y': -16, 'width': 16, 'height': 16, 'data': [1] * 256}
    layer = tiles(1, 16, 16, chunks=[chunk], startx=-16, starty=-16, opacity=0.5)
    del layer['data']
    tree = new_map(16, 16, 16, 16, 'town.tsj')
    objects = [thing(1, x=10.5, y=3, rotation=0.25, properties=[property_of('a', 'float', 0.1)]), thing(2, x=7, y=3.75)]
    tree.update(layers=[layer, things(2, *objects)], nextlayerid=3, nextobjectid=3, infinite=True)
    tree['properties'] = [property_of('b', 'float', 0.2)]
    with Editor() as editor:
        document = editor.open(json.dumps(tree).encode())
        first, second = document.objects
        came = first.x, first.y, first.members['rotation'], dict(first.properties), second.x, second.y, document.properties['b']
        fault = unlike((266.5, 259, 0.25, {'a': 0.1}, 263, 259.75, 0.2), came) or unlike((-16, -16), document.origin)
        assert not fault, fault
        assert document.layers[1].members['opacity'] == 0.5
        first.move(int(first.x), 4)
        second.move(263.25, int(second.y) + 1)
        first.y = 2.5
        fault = unlike((266, 2.5, 263.25, 260), (first.x, first.y, second.x, second.y))
        assert not fault, fault
        # The file has the places of the plane.
        one, other = json.loads(document.save_bytes())['layers'][1]['objects']
        fault = unlike((10, -253.5, 7.25, 4), (one['x'], one['y'], other['x'], other['y']))
        assert not fault, fault
    passed(4)


def test_infinite_maps_that_get_columns():
    """Columns and rows that come at the left and above move what a map says of how it was made finite, and an undo moves that back: objects have
    their fractions all the time, and the file the places of the plane."""
    chunk = {'x': -16, 'y': -16, 'width': 16, 'height': 16, 'data': [1] * 256}
    layer = tiles(1, 16, 16, chunks=[chunk], startx=-16, starty=-16)
    del layer['data']
    tree = new_map(16, 16, 16, 16, 'town.tsj')
    tree.update(layers=[layer, things(2, thing(1, x=10.5, y=3.75))], nextlayerid=3, nextobjectid=2, infinite=True)
    with Editor() as editor:
        document = editor.open(json.dumps(tree).encode())
        [only] = document.objects
        before, behind = (266.5, 259.75, (-16, -16)), (298.5, 275.75, (-18, -17))
        came = [(only.x, only.y, document.origin)]
        for work in (lambda: document.extend(2, 1), document.undo, document.redo):
            work()
            came.append((only.x, only.y, document.origin))
        fault = unlike([before, behind, before, behind], came)
        assert not fault, fault
        document.stamp(1, 0, 0, [[5]])
        saved = json.loads(document.save_bytes())
        assert (saved['layers'][1]['objects'][0]['x'], saved['layers'][1]['objects'][0]['y']) == (10.5, 3.75)
        assert saved['layers'][0]['chunks'][0] == chunk
        [new] = saved['layers'][0]['chunks'][1:]
        at = new['data'].index(5)
        assert (new['x'] + at % new['width'], new['y'] + at // new['width']) == (-18, -17) and sum(new['data']) == 5
    passed(5)


def drawn(layers):
    for layer in layers:
        yield layer
        yield from drawn(layer.get('layers', ()))


def fault_of_things(case):
    """How what is read alone is another piece than that of the whole, or None."""
    chosen = random.Random(f'{SEED} {case.given}')
    with Editor() as editor:
        document = editor.open(json.dumps(some_map(chosen)).encode())
        edit_by_chance(editor, chosen)
        tree = document.outline()
        layers = list(drawn(tree['layers']))
        objects = [each for layer in layers for each in layer.get('objects', ())]
        owners = {document: tree, **{document.layers[each['id']]: each for each in layers}, **{document.objects[each['id']]: each for each in objects}}
        wanted = [{each['name']: each['value'] for each in members.get('properties', ())} for members in owners.values()]
        return (
            unlike(layers, [each.members for each in document.layers.walk()])
            or unlike(objects, [each.members for each in document.objects])
            or unlike(wanted, [dict(owner.properties) for owner in owners])
            or unlike([each['firstgid'] for each in tree['tilesets']], [each.first_id for each in document.tilesets])
            or unlike((tree['width'], tree['tileheight']), (document.width, document.tile_height))
        )


def test_things_of_random_maps():
    check_each([Case(f'map {number}', number, None) for number in range(RUNS)], fault_of_things, CORES)


# ---- what is refused


def refused(code, why, data):
    """What is wrong with how a map is refused, or None. Nothing of it is left."""
    with Editor() as editor:
        try:
            came = editor.open_map('m', data, all_maps=True)
        except Refused as refusal:
            came = refusal.code, refusal.words, refusal.why, refusal.line, refusal.forms
        left = editor.files(), editor.step('list')
    return unlike((code, WORDS[code], why, "open_map('m')", ()), came) or unlike(([], 'docs'), left)


def with_data(data, compression=ZLIB, width=6, height=5, **members):
    layer = tiles(1, width, height, data=data, encoding='base64', compression=compression, **members)
    return json.dumps(map_of(layer, width=width, height=height)).encode()


def damaged():
    """Data of 30 cells that are at fault, of each compression."""
    cells = _words(range(30))
    for compression in (ZLIB, GZIP, ZSTANDARD):
        whole = compressed_bytes(cells, compression)
        rows = {
            'nothing': (b'', CUT_OFF),
            'no such stream': (b'abcdefgh' * 9, NO_HEADER),
            'a byte behind it': (whole + b'x', BEHIND),
            'a stream behind it': (whole * 2, BEHIND),
            'a byte too few': (compressed_bytes(cells[:-1], compression), SHORTER),
            'a byte too many': (compressed_bytes(cells + b'x', compression), LONGER),
            'ten million bytes': (compressed_bytes(bytes(10_000_000), compression), LONGER),
        }
        rows.update({f'cut at {at}': (whole[:at], CUT_OFF) for at in range(1, len(whole), 7)})
        rows['without its last byte'] = whole[:-1], CUT_OFF
        for name, (data, why) in rows.items():
            given = with_data(text_of_bytes(data), compression)
            yield Case(f'{compression}, {name}', given, (66, BAD_DATA if compression == ZSTANDARD else why))
    yield Case('no base64', with_data('a*b='), (66, NO_BASE64))
    yield Case('base64 that is cut', with_data('abc'), (66, NO_BASE64))


def test_damaged_data():
    check_each(list(damaged()), lambda case: refused(*case.wanted, case.given))


def chunks_with(count, side, data):
    """An infinite map with so many chunks of the same data."""
    chunks = [{'x': side * at, 'y': 0, 'width': side, 'height': side, 'data': data} for at in range(count)]
    layer = tiles(1, 1, 1, chunks=chunks, encoding='base64', compression=ZLIB)
    del layer['data']
    return json.dumps(map_of(layer, width=1, height=1, infinite=True)).encode()


def kept(**members):
    return text_of({**new_map(1, 1, 16, 16, 'a.tsj'), **members})


def test_maps_that_are_refused():
    bad_chunk = 'a chunk has no place, no size, or not a cell for each of its places'
    two = [{'x': at, 'y': 0, 'width': 2, 'height': 1, 'data': [1, 2]} for at in (0, 1)]
    overlapping, cut = tiles(1, 1, 1, chunks=two), tiles(1, 1, 1, chunks=[{**two[0], 'data': [1]}])
    del overlapping['data'], cut['data']
    rows = [
        ('the name', 51, NAME_TAKEN, kept(a=[{'roskevad': 1}])),
        ('the note', 51, NAME_TAKEN, with_data(data_of([1] * 30, ZLIB), roskevad_packed='zlib')),
        ('the note of Zstandard', 51, NOTE_TAKEN, with_data(data_of([1] * 30, ZLIB), roskevad_compression='zstd')),
        ('too deep', 51, 'set aside or put back, it would nest deeper than 127',
         kept(a='deep').replace(b'"deep"', b'[' * 125 + b'0.5' + b']' * 125)),
        ('too many fractions', 51, 'it has more than 200,000 fractions', kept(a=[0.5] * 200_001)),
        ('another compression', 65, ONLY_TWO, with_data('', 'lzma')),
        ('a chunk of another size', 66, SHORTER, chunks_with(1, 16, data_of([1] * 255, ZLIB))),
        ('a chunk without a size', 66, LONGER, chunks_with(1, 0, data_of([1], ZLIB))),
        ('a chunk of no cells', 51, bad_chunk, kept(infinite=True, layers=[cut])),
        ('chunks that overlap', 51, 'two chunks of a layer overlap', kept(infinite=True, layers=[overlapping])),
        ('too many cells', 51, 'its layers have more than 16,777,216 cells', chunks_with(17, 1024, data_of([0] * 1024 * 1024, ZLIB))),
    ]
    check_each([Case(name, data, (code, why)) for name, code, why, data in rows],
               lambda case: refused(*case.wanted, case.given))


def test_zstandard_is_missing():
    """Then a map is refused as 65, which says what is wanted; a map that is open is not saved."""
    data = with_data(data_of([1] * 30, ZSTANDARD), ZSTANDARD)
    with opened(data) as editor:
        modules, compressions._MODULES = compressions._MODULES, ()
        try:
            why = 'Zstandard needs Python 3.14, or the package backports.zstd or zstandard'
            fault = refused(65, why, data)
            assert not fault, fault
            editor.step('stamp 1 0 0 1 4')
            try:
                editor.save_map(all_maps=True)
                raise AssertionError('it was saved')
            except Refused as refusal:
                assert (refusal.code, refusal.why) == (51, why), refusal
            assert editor.step('status') == 'ok 1/1 dirty 0'
        finally:
            compressions._MODULES = modules
    passed(3)


BOMB = '''
import json, resource, sys, zlib
sys.path.insert(0, {path!r})
from roskevad import Editor, Refused
data = open({file!r}, 'rb').read()
most = resource.getrusage(resource.RUSAGE_SELF).ru_maxrss
with Editor() as editor:
    try:
        editor.open_map('m', data, all_maps=True)
    except Refused as refusal:
        assert refusal.code == 66, refusal
grown = resource.getrusage(resource.RUSAGE_SELF).ru_maxrss - most
assert grown < 30_000, f'{{grown}} KB'
'''


def test_bombs():
    """Two gigabytes in a few bytes are refused, and the memory stays as it was."""
    for compression in (ZLIB, GZIP, ZSTANDARD):
        data = with_data(text_of_bytes(_bomb(compression)), compression)
        with tempfile.TemporaryDirectory() as folder:
            file = Path(folder) / 'bomb.tmj'
            file.write_bytes(data)
            code = BOMB.format(path=str(TOP / 'python'), file=str(file))
            done = subprocess.run([sys.executable, '-c', code], capture_output=True, text=True, timeout=120)
        assert done.returncode == 0, f'{compression}: {done.stderr[-600:]}'
        passed()


def _bomb(compression):
    """Two gigabytes of zeros, packed."""
    piece, count = bytes(1 << 20), 2048
    if compression == ZSTANDARD:
        packer = zstandard().ZstdCompressor(level=1).compressobj()
        return b''.join([*(packer.compress(piece) for _ in range(count)), packer.flush()])
    # After a full flush the next piece is packed as this one was.
    packer = zlib.compressobj(1, zlib.DEFLATED, -15)
    packed = (packer.compress(piece) + packer.flush(zlib.Z_FULL_FLUSH)) * count + packer.flush()
    sum_of = zlib.crc32 if compression == GZIP else zlib.adler32
    total = sum_of(b'')
    for _ in range(count):
        total = sum_of(piece, total)
    if compression == GZIP:
        return b'\x1f\x8b\x08' + bytes(7) + packed + struct.pack('<II', total, len(piece) * count)
    return b'\x78\x01' + packed + struct.pack('>I', total)


# ---- Tiled's own maps


def fault_of_export(case):
    """A map that Tiled exported is opened, edited, undone and saved: it has the same numbers, and
    Tiled exports both the same."""
    path = case.given
    with Editor(folder=path.parent) as editor:
        fault = fault_of_trees(editor.open(path.name, 'm'), json.loads(path.read_bytes()))
        if fault:
            return fault
        editor.step('layer add tile New')
        editor.step('prop set map a int 1')
        editor.step('goto 0')
        editor.save_file(f'saved_{path.name}')
    saved = path.with_name(f'saved_{path.name}')
    source, came = (tree_of(each.read_bytes())[0] for each in (path, saved))
    return unlike(saved_as(source), saved_as(came)) or tiled_package.unlike_exports(path, saved)


def test_maps_of_tiled():
    with tempfile.TemporaryDirectory() as folder:
        paths = list(exports(folder))
        assert len(paths) >= 12, f'Tiled has exported {len(paths)} maps'
        desert = next(path for path in paths if path.stem == 'desert')
        check_each([Case(path.name, path, None) for path in [*paths, *in_each_format(desert)]], fault_of_export)
