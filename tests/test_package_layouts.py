# SPDX-License-Identifier: MIT OR Apache-2.0
"""Opens and saves maps in many layouts by both packages, and looks at the bytes. A map that is as it was
opened or saved last comes back byte for byte; with one stamp one line changes, and the map is the one
with that cell; undone, all is as it was. The maps are the example maps, those of `sessions/maps`, and
what Debian's package `tiled` exports of its own examples, of one in each tile layer format: as they
are, minimized, with line ends as on Windows, and as Python's and Node's printers lay them out. Packed
layers whose cells are as they were keep their text, whatever packed them. A new map gets Tiled's layout
or one by its name. A file whose bytes do not change keeps its inode and its time. The lines `open` and
`save` save one line as ever."""
import json
import os
import shutil
import sys
import tempfile
from pathlib import Path

from lib import tiled_package
from lib.any_maps import exports, in_each_format
from lib.asides import exact
from lib.cases import CORES, Case, check_each, passed, unlike
from lib.compressions import COMPRESSIONS, CSV, PLAIN, ZLIB, ZSTANDARD, data_of, with_cells
from lib.map_layouts import layouts, lines_changed, printed
from lib.maps import layers_in, map_of, new_map, text_of, tiles
from lib.places import EXAMPLE_MAPS, SESSION_MAPS, TOP
from module.node import ran

sys.path.insert(0, str(TOP / 'python'))
from roskevad import Editor, Refused  # noqa: E402

IS_LONG = True
PACKAGES = ('nodejs', 'tiled', 'python3-zstandard')
CELLS = [1 + at % 9 for at in range(30)]


# ---- maps that are opened


def stamp_of(document):
    """A stamp that changes one cell which is set: layer, column, row, value; nothing where no cell is."""
    first = document.tilesets.first
    for layer in document.layers.walk() if first is not None else ():
        cells = list(layer.cells()) if layer.kind == 'tile' else []
        found = next((at for at, value in enumerate(cells) if value), None)
        if found is not None:
            value = first.first_id + (cells[found] == first.first_id)
            return layer.id, found % document.width, found // document.width, value
    return None


def opened(data):
    """A stamp for a map; None where it is refused, or has no cell."""
    with Editor() as editor:
        try:
            return stamp_of(editor.open(data))
        except Refused:
            return None


def saved_by_python(data, stamp):
    """What is saved: as it was, with an edit undone, stamped, and with the stamp undone."""
    with Editor() as editor:
        document = editor.open(data, 'm')
        same = document.save_bytes()
        editor.run_lines(['layer add tile New', 'prop set map a int 1', 'goto 0'])
        undone = document.save_bytes()
        layer, x, y, value = stamp
        document.stamp(layer, x, y, [[value]])
        stamped = document.save_bytes()
        document.undo()
        return same, undone, stamped, document.save_bytes()


def stamped_tree(data, stamp):
    """The tree of a finite map with the stamp."""
    layer, x, y, value = stamp
    tree = with_cells(json.loads(data))
    for each in layers_in(tree['layers']):
        if each['id'] == layer:
            each['data'][y * tree['width'] + x] = value
    return tree


def fault_of_saved(data, stamp, saved):
    same, undone, stamped, back = saved
    fault = unlike(data, same) or unlike(data, undone)
    if fault:
        return f'not edited: {fault}'
    changed = lines_changed(data, stamped)
    if changed != (1, 1):
        return f'{changed} lines went and came with a stamp'
    if not json.loads(data)['infinite']:
        fault = unlike(exact(stamped_tree(data, stamp)), exact(with_cells(json.loads(stamped))))
    # What packs anew need not give the same bytes.
    is_packed = any(f'"{name}"'.encode() in data for name in COMPRESSIONS if name not in (CSV, PLAIN))
    return fault or (None if is_packed else unlike(data, back))


def fault_of_map(case):
    """How a map in each layout is not saved as it should be, by both packages, or None."""
    texts = {name: text for name, text in layouts(case.given).items() if opened(text) is not None}
    stamps = {name: opened(text) for name, text in texts.items()}
    faults = [(f'Python, {name}', fault_of_saved(text, stamps[name], saved_by_python(text, stamps[name]))) for name, text in texts.items()]
    if f'"{ZSTANDARD}"'.encode() not in case.given:
        faults += faults_in_node(texts, stamps)
    return next((f'{name}: {fault}' for name, fault in faults if fault), None)


def faults_in_node(texts, stamps):
    with tempfile.TemporaryDirectory() as name:
        folder, files = Path(name), {f'{at}.tmj': name for at, name in enumerate(texts)}
        for file, layout in files.items():
            (folder / file).write_bytes(texts[layout])
        (folder / 'stamps.json').write_text(json.dumps({file: stamps[layout] for file, layout in files.items()}))
        ran('save_layouts.mjs', folder)
        for file, layout in files.items():
            saved = [(folder / f'{word}_{file}').read_bytes() for word in ('same', 'undone', 'stamped', 'back')]
            yield f'JavaScript, {layout}', fault_of_saved(texts[layout], stamps[layout], saved)


def test_maps():
    paths = [path for folder in (EXAMPLE_MAPS, SESSION_MAPS) for path in sorted(folder.glob('*.tmj'))]
    # Its cells are base64 with blanks in it, which a save leaves out.
    cases = [Case(path.name, path.read_bytes(), None) for path in paths if path.name != 'blanks.tmj']
    cases = [case for case in cases if opened(case.given) is not None]
    assert len(cases) > 10, len(cases)
    check_each(cases, fault_of_map, CORES)


def test_maps_of_tiled():
    with tempfile.TemporaryDirectory() as folder:
        paths = list(exports(folder))
        desert = next(path for path in paths if path.stem == 'desert')
        paths += list(in_each_format(desert))
        cases = [Case(path.name, path.read_bytes(), None) for path in paths]
        cases = [case for case in cases if opened(case.given) is not None]
        assert len(cases) >= 12, f'Tiled has exported {len(cases)} maps'
        check_each(cases, fault_of_map, CORES)


# ---- packed layers


def with_blanks(text):
    """A text of base64 with blanks around it and in it, as files of Tiled's own format have."""
    return f'\n   {text[:7]} {text[7:]}\n  '


def packed_map(compression, *layers, spelled=str, **members):
    """A map in Tiled's layout, whose layers are packed at the lowest level, which is not the map's."""
    packed = [
        tiles(at, 6, 5, data=spelled(data_of(cells, compression, 1)), encoding='base64', compression=compression)
        for at, cells in enumerate(layers, 1)
    ]
    return printed(map_of(*packed, width=6, height=5, compressionlevel=9, **members)).encode()


def fault_of_packed(case):
    """A layer whose cells are as they were keeps its text, also behind an edit of another one, and where an edit is taken back
    by another one."""
    compression, spelled = case.given
    data = packed_map(compression, CELLS, [7] * 30, spelled=spelled)
    with Editor() as editor:
        document = editor.open(data)
        document.stamp(1, 0, 0, [[5]])
        stamped = document.save_bytes()
        document.stamp(1, 0, 0, [[CELLS[0]]])
        document.save_bytes()
        was, came = (json.loads(text)['layers'] for text in (data, stamped))
        wanted = [5, *CELLS[1:]], was[1], (1, 1)
        return unlike(wanted, (with_cells({'layers': [came[0]]})['layers'][0]['data'], came[1], lines_changed(data, stamped)))


def test_packed_layers():
    names = [name for name in COMPRESSIONS if name not in (CSV, PLAIN)]
    cases = [Case(f'{name}, {spelled.__name__}', (name, spelled), None) for name in names for spelled in (str, with_blanks)]
    check_each(cases, fault_of_packed)


def test_layers_that_move():
    """A packed layer that is drawn elsewhere, or renamed, keeps its text."""
    data = packed_map(ZLIB, CELLS, [7] * 30)
    with Editor() as editor:
        document = editor.open(data)
        editor.run_lines(['layer rename 1 Another', 'layer move 1 1'])
        came = {layer['id']: layer['data'] for layer in json.loads(document.save_bytes())['layers']}
    fault = unlike({layer['id']: layer['data'] for layer in json.loads(data)['layers']}, came)
    assert not fault, fault
    passed()


# ---- layouts by their names


def test_new_maps():
    """Tiled's layout, or the one that is named; a later save keeps it."""
    with Editor() as editor:
        made = editor.new('made', 4, 3, 16, 16, 'town.tsj')
        compact = editor.step('show')[len('map '):].encode()
        tree = json.loads(compact)
        fault = unlike(printed(tree).encode(), made.save_bytes()) or unlike(compact, made.save_bytes(layout='compact'))
        assert not fault, fault
        rows = made.save_bytes(layout='rows')
        numbers = [line for line in rows.split(b'\n') if line and not line.strip(b'0, ]')]
        assert len(numbers) == 3 and json.loads(rows) == tree, rows
        made.stamp(1, 0, 1, [[5]])
        assert lines_changed(rows, made.save_bytes()) == (1, 1)
        fault = unlike(printed(json.loads(editor.step('show')[len('map '):])).encode(), made.save_bytes(layout='tiled'))
        assert not fault, fault
    passed(5)


def test_new_layers():
    """A layer that is added is packed as the others of its file are, in each layout."""
    for name in ('base64', 'zlib', 'town'):
        with Editor(folder=EXAMPLE_MAPS) as editor:
            document = editor.open(f'{name}.tmj')
            document.layers.add('tile', 'New')
            for layout in (None, 'tiled', 'rows', 'compact'):
                layers = [each for each in json.loads(document.save_bytes(layout=layout))['layers'] if each['type'] == 'tilelayer']
                formats = {(each.get('encoding'), each.get('compression') or None, type(each['data'])) for each in layers}
                assert len(formats) == 1, f'{name} in {layout}: {formats}'
                passed()


def test_new_maps_in_node():
    """JavaScript writes what Python does."""
    with Editor() as editor:
        made = editor.new('made', 4, 3, 16, 16, 'town.tsj')
        made.stamp(1, 0, 0, [[5]])
        wanted = [made.save_bytes(layout=layout).decode() for layout in (None, 'compact', 'tiled', 'rows', None)]
    texts, name, words = json.loads(ran('new_layouts.mjs'))
    fault = unlike((wanted, 'RangeError'), (texts, name))
    assert not fault and words.startswith('the layout of a map is one of tiled, rows, compact: '), f'{words}: {fault}'
    assert texts[0] == texts[2] and texts[3] == texts[4]
    passed(5)


def test_names_that_are_none():
    with Editor() as editor:
        made = editor.new('made', 4, 3, 16, 16, 'town.tsj')
        for call in (lambda: made.save_bytes(layout='xml'), lambda: made.save('/dev/null/a.tmj', layout='xml')):
            try:
                call()
                raise AssertionError('there is no such layout')
            except ValueError as fault:
                assert str(fault) == "the layout of a map is one of tiled, rows, compact: 'xml'", fault
    passed(2)


def test_versions():
    """The version of the source comes back."""
    for version in ({}, {'version': '1.8'}, {'version': 1.1}, {'version': 1}):
        tree = new_map(4, 3, 16, 16, 'town.tsj')
        tree.pop('version')
        data = printed({**tree, **version}).encode()
        with Editor() as editor:
            document = editor.open(data)
            came = document.save_bytes()
            document.properties['a'] = 1
            edited = json.loads(document.save_bytes())
        fault = unlike((data, version.get('version')), (came, edited.get('version')))
        assert not fault, fault
        passed()


# ---- files and lines


def test_files():
    """A save that changes no byte leaves the file alone; one of an edit does not, and `save_file` saves as `save` does."""
    with tempfile.TemporaryDirectory() as folder:
        path = Path(folder) / 'm.tmj'
        data = (EXAMPLE_MAPS / 'layers.tmj').read_bytes()
        path.write_bytes(data)
        os.utime(path, (1, 1))
        before = path.stat()
        with Editor(folder=folder) as editor:
            document = editor.open('m.tmj')
            document.mark_dirty()
            document.save()
            editor.save_file('m.tmj')
            after = path.stat()
            fault = unlike((before.st_ino, before.st_mtime_ns, data), (after.st_ino, after.st_mtime_ns, path.read_bytes()))
            assert not fault and document.status.clean, fault
            document.stamp(1, 0, 0, [[document.tilesets.first.first_id + 8]])
            document.save('n.tmj')
            assert lines_changed(data, (Path(folder) / 'n.tmj').read_bytes()) == (1, 1)
            document.undo()
            document.save('n.tmj')
            assert (Path(folder) / 'n.tmj').read_bytes() == data
            document.save('n.tmj', layout='compact')
            assert (Path(folder) / 'n.tmj').read_bytes() == text_of(json.loads(data))
    passed(5)


def test_lines():
    """The lines `open` and `save`, and the calls that do not open all maps, save one line. A document that a line has opened has no
    source."""
    data = (EXAMPLE_MAPS / 'layers.tmj').read_bytes()
    tree = {**json.loads(data), 'version': '1.10'}
    with Editor() as editor:
        editor.put_file('m.tmj', data)
        editor.run_lines(['open m m.tmj', 'save n.tmj'])
        came = editor.file('n.tmj'), editor.save_map(), editor.documents['m'].save_bytes()
        fault = unlike((text_of(tree), text_of(tree), printed(tree).encode()), came)
        assert not fault, fault
        editor.open_map('o', data)
        fault = unlike((text_of(tree), data, data), (editor.save_map(), editor.save_map(all_maps=True), editor.documents['o'].save_bytes()))
        assert not fault, fault
    passed(6)


# ---- Tiled reads them


def test_tiled_opens_layouts():
    """Tiled exports the same of a new map in each layout."""
    with Editor() as editor, tempfile.TemporaryDirectory() as name:
        folder = Path(name) / 'maps'
        shutil.copytree(EXAMPLE_MAPS, folder)
        made = editor.new('made', 4, 3, 16, 16, 'tiles.tsx')
        made.stamp(1, 0, 0, [[5, 6]])
        came = []
        for layout in ('tiled', 'rows', 'compact'):
            path = folder / f'{layout}.tmj'
            made.save(path, layout=layout)
            came.append(tiled_package.exported(path, folder, 'export.tmj'))
    assert came[0] is not None and came[0] == came[1] == came[2], came
    passed(2)
