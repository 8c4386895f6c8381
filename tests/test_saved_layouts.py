# SPDX-License-Identifier: MIT OR Apache-2.0
"""Saves maps by `tile_editor --all-maps` over files in many layouts, and looks at the bytes: a map
that was not edited comes back as it was, and its file keeps its inode and its time; after an edit
only the lines of what was edited change. The maps are those of `examples/maps`, of `sessions/maps`
and what Debian's package `tiled` exports of its own examples, in CSV and in Base64: as they are,
minimized, with line ends as on Windows, and as Python's and Node's printers lay them out. A stamp
in one that Tiled has exported changes one line, and Tiled saves the same bytes again. A new name,
and a file that is no map or can't be read, get Tiled's layout, by the short printer below. The
version and the empty compression of the file that is replaced come back; without the option none of
this holds. A save of a map of 1,000,000 cells takes less than twice the memory of one without the
option."""
import json
import os
import random
import re
import subprocess
import tempfile
from pathlib import Path

from lib import tiled_package
from lib.any_maps import exports
from lib.asides import OPTION, as_in, exact, exact_text, put_back
from lib.cases import CORES, Case, check_each, passed, unlike
from lib.compressions import CSV, PLAIN, with_compression
from lib.json_texts import tree_of
from lib.map_layouts import layouts, lines_changed, printed, turned
from lib.maps import cells_of, layers_in, map_of, packed, text_of, tiles
from lib.places import EXAMPLE_MAPS, SESSION_MAPS, TILE_EDITOR
from lib.sessions import heard

IS_LONG = True
PACKAGES = ('tiled',)
SEED = 20261129

# ---- layouts of a source


def all_layouts(data):
    """A text in each of the layouts, by a name for each."""
    tree = json.loads(data)
    return {
        **layouts(data),
        "Node's, on one line": json.dumps(tree, ensure_ascii=False, separators=(',', ':')).encode(),
        'members turned round': json.dumps(turned(tree), indent=1).encode(),
    }


def opened_maps():
    """The maps that the option opens, by their names; but one whose cells are base64 with blanks in
    it, which a save leaves out."""
    paths = [path for folder in (EXAMPLE_MAPS, SESSION_MAPS) for path in folder.glob('*.tmj')]
    files = {path.name: path.read_bytes() for path in paths if path.name != 'blanks.tmj'}
    names = sorted(files)
    lines = ''.join(f'open m {name}\ndiscard m\n' for name in names).encode()
    done, _ = heard(lines, files, [OPTION])
    replies = done.stdout.decode().split('\n')[:-1]
    pairs = zip(names, replies[::2])
    return {name: files[name] for name, reply in pairs if reply.startswith('ok')}


def sources():
    """The maps in each layout."""
    return {
        f'{name}, {layout}': text
        for name, data in opened_maps().items()
        for layout, text in all_layouts(data).items()
    }


# ---- not edited


def saved(data, *lines, name='m.tmj', file='m.tmj'):
    """What a session saves that opens a map and hears these lines."""
    session = '\n'.join([f'open m {file}', *lines, f'save {name}', '']).encode()
    done, files = heard(session, {file: data}, [OPTION])
    said = done.stdout.decode().split('\n')
    assert done.returncode == 0 and said[-2].startswith('saved '), f'{said}, {done.stderr!r}'
    assert not done.stderr, done.stderr.decode()
    return files[name]


def fault_of_unchanged(case):
    return unlike(case.given, saved(case.given))


def test_maps_that_are_not_edited():
    check_each([Case(name, data, None) for name, data in sources().items()], fault_of_unchanged, CORES)


def fault_of_undone(case):
    """All is as it was where an edit was undone."""
    return unlike(case.given, saved(case.given, 'layer add tile New', 'prop set map a int 1', 'goto 0'))


def test_edits_that_are_undone():
    check_each([Case(name, data, None) for name, data in sources().items()], fault_of_undone, CORES)


def test_a_file_that_stays():
    """It keeps its inode and its time where no byte changes, and has others where one does."""
    with tempfile.TemporaryDirectory() as folder:
        path = Path(folder) / 'm.tmj'
        path.write_bytes((EXAMPLE_MAPS / 'layers.tmj').read_bytes())
        os.utime(path, (1, 1))
        before = path.stat()

        def run(*lines):
            session = '\n'.join(['open m m.tmj', *lines, 'save m.tmj', ''])
            words = [TILE_EDITOR, OPTION, '--folder', folder]
            subprocess.run(words, input=session.encode(), capture_output=True, check=True, timeout=60)
            after = path.stat()
            return (after.st_ino, after.st_mtime_ns) == (before.st_ino, before.st_mtime_ns)

        assert run(), 'a save that changes no byte has made a new file'
        assert not run('stamp 1 0 0 1 9'), 'a save of an edit has left the file alone'
    passed(2)


# ---- edited


def tiled_sources():
    """Maps in Tiled's layout, with the id of a tile layer whose cells are an array."""
    for name, data in opened_maps().items():
        is_tiled = data.startswith(b'{ "') and not json.loads(data)['infinite']
        layers = [layer for layer in layers_in(json.loads(data)['layers']) if isinstance(layer.get('data'), list)]
        if is_tiled and layers:
            yield name, data, layers[-1]


def with_cell(data, layer, place, value):
    """The source with another value of one cell, in the line of the layer's cells."""
    cells = list(layer['data'])
    was = ', '.join(map(str, cells)).encode()
    cells[place] = value
    assert data.count(b'"data":[' + was + b']') == 1, layer['name']
    return data.replace(b'"data":[' + was + b']', b'"data":[' + ', '.join(map(str, cells)).encode() + b']')


def fault_of_stamp(case):
    data, layer = case.given
    place = random.Random(f'{SEED}{case.name}').randrange(len(layer['data']))
    value = layer['data'][place] + 1
    x, y = place % layer['width'], place // layer['width']
    for ends in (b'\n', b'\r\n'):
        source = data.replace(b'\n', ends)
        wanted = with_cell(data, layer, place, value).replace(b'\n', ends)
        fault = unlike(wanted, saved(source, f'stamp {layer["id"]} {x} {y} 1 {value}'))
        if fault:
            return fault
    return None


def is_alone(data, layer):
    """Whether the cells of no other layer are the same."""
    return data.count(b'"data":[' + ', '.join(map(str, layer['data'])).encode() + b']') == 1


def test_one_stamp():
    """Only the line of the layer's cells changes."""
    cases = [Case(name, (data, layer), None) for name, data, layer in tiled_sources() if is_alone(data, layer)]
    assert len(cases) >= 5, len(cases)
    check_each(cases, fault_of_stamp, CORES)


# Each edit of `objects.tmj`, with how many of its lines go and come.
EDITS = [
    ('rename', ['layer rename 2 Doors'], (1, 1)),
    ('hide', ['layer show 2 no'], (1, 1)),
    ('move', ['object move 1 20 40'], (2, 2)),
    ('both ids', ['object remove 2'], None),
    ('a property', ['prop set object:1 key string iron'], None),
    ('a new layer', ['layer add tile Above'], None),
]


def fault_of_edit(case):
    """The tree is the one that the plain model has; no more lines change than those."""
    lines, counts = case.given
    data = (EXAMPLE_MAPS / 'objects.tmj').read_bytes()
    came = saved(data, *lines)
    session = '\n'.join(['open m m.tmj', *lines, 'show', '']).encode()
    done, _ = heard(session, {'m.tmj': data}, [OPTION])
    shown = done.stdout.split(b'\nmap ')[1].rstrip(b'\n')
    wanted = as_in(data, put_back(json.loads(shown)))
    fault = unlike(exact(tree_of(text_of(wanted))[0]), exact_text(came))
    changed = lines_changed(data, came)
    if fault or counts and changed != counts:
        return fault or f'wanted {counts} lines to go and come, went and came {changed}'
    return None if sum(changed) < 40 else f'{changed} lines went and came'


def test_edits():
    check_each([Case(name, (lines, counts), None) for name, lines, counts in EDITS], fault_of_edit, CORES)


# ---- without a source


def fault_of_new_name(case):
    """A new name gets Tiled's layout, and so does one whose file is no map."""
    tree = put_back(json.loads(case.given))
    wanted = printed(json.loads(text_of({**tree, 'version': '1.10'}))).encode()
    return unlike(wanted, saved(case.given, name='new.tmj'))


def without_compressions(data):
    tree = json.loads(data)
    for layer in layers_in(tree['layers']):
        if layer.get('compression') == '':
            del layer['compression']
    return text_of(tree)


def test_new_names():
    cases = [Case(name, without_compressions(data), None) for name, data, _ in tiled_sources()]
    check_each(cases, fault_of_new_name, CORES)


def fault_of_no_map(case):
    data = (EXAMPLE_MAPS / 'layers.tmj').read_bytes()
    session = b'open m layers.tmj\nsave m.tmj\n'
    done, files = heard(session, {'layers.tmj': data, 'm.tmj': case.given}, [OPTION])
    wanted = printed({**json.loads(data), 'version': '1.10'}).encode()
    return unlike((b'', wanted), (done.stderr, files['m.tmj']))


def test_files_that_are_no_maps():
    texts = {
        'nothing': b'',
        'no JSON': b'{"layers":',
        'another tree': b'{"version":2}',
        'a list': b'[1, 2]',
        'a text': b'"layers"',
        'no UTF-8': b'{"layers":[],"a":"\xff"}',
        'too deep': b'[' * 200,
    }
    check_each([Case(name, data, None) for name, data in texts.items()], fault_of_no_map, CORES)


# ---- what the source has


def fault_of_version(case):
    """The version of the file comes back, with an edit and without."""
    tree = json.loads((EXAMPLE_MAPS / 'layers.tmj').read_bytes())
    tree.pop('version')
    data = printed({**tree, **case.given}).encode()
    edited = saved(data, 'prop set map a int 1')
    version = json.loads(edited).get('version', 'none')
    wanted = case.given.get('version', 'none')
    return unlike((data, wanted), (saved(data), version))


def test_versions():
    rows = {'none': {}, 'a text': {'version': '1.8'}, 'a number': {'version': 1.1}, 'a whole one': {'version': 1}}
    check_each([Case(name, given, None) for name, given in rows.items()], fault_of_version, CORES)


def test_empty_compressions():
    """They come back where the layer is still in base64; a layer that is new has one, as the others."""
    data = (EXAMPLE_MAPS / 'base64.tmj').read_bytes()
    edited = json.loads(saved(data, 'stamp 1 0 0 1 9', 'layer add tile New'))
    wanted = ['', '', '']
    came = [layer.get('compression') for layer in edited['layers']]
    fault = unlike(wanted, came)
    assert not fault, fault


def test_base64_with_blanks():
    """What is saved is base64 without blanks, so the lines of such layers change, with an edit and without, and no others."""
    layers = [tiles(at, 4, 3, data=f'\n   {packed([at] * 12)}\n  ', encoding='base64', compression='') for at in (1, 2)]
    tree = map_of(*layers, width=4, height=3)
    data = printed(tree).encode()
    for layer in layers:
        layer['data'] = layer['data'].strip()
    fault = unlike((printed(tree).encode(), (2, 2)), (saved(data), lines_changed(data, saved(data))))
    assert not fault, fault
    layers[0]['data'] = packed([9] + [1] * 11)
    fault = unlike(printed(tree).encode(), saved(data, 'stamp 1 0 0 1 9'))
    assert not fault, fault
    passed(2)


def test_without_the_option():
    """One line, whatever stood there."""
    data = (EXAMPLE_MAPS / 'layers.tmj').read_bytes()
    _, files = heard(b'open m m.tmj\nsave m.tmj\n', {'m.tmj': data})
    fault = unlike(text_of({**json.loads(data), 'version': '1.10'}), files['m.tmj'])
    assert not fault, fault


# ---- memory

# How many times the memory of a save in one line a save in the layout of its file takes at most, and where the step of a resize holds
# the cells of the old size, too.
MOST_MEMORY, MOST_OF_RESIZE = 2, 2.1
SIDE = 1000


def most_memory(data, lines, options=()):
    """The most memory that a session takes which opens a map and saves it, in KB. The program is asked while it waits for its next
    line: what wait4 tells of a program is no less than what this one took when it was started."""
    with tempfile.TemporaryDirectory() as folder:
        (Path(folder) / 'm.tmj').write_bytes(data)
        words = [TILE_EDITOR, *options, '--folder', folder]
        with subprocess.Popen(words, stdin=subprocess.PIPE, stdout=subprocess.PIPE) as program:
            program.stdin.write('\n'.join(['open m m.tmj', *lines, 'save m.tmj', '']).encode())
            program.stdin.flush()
            replies = [program.stdout.readline() for _ in (None, *lines, None)]
            status = Path(f'/proc/{program.pid}/status').read_text()
    assert program.returncode == 0 and replies[-1].startswith(b'saved '), replies
    return int(re.search(r'^VmHWM:\s+(\d+) kB$', status, re.MULTILINE)[1])


def fault_of_memory(case):
    data, lines = case.given
    plain, laid = most_memory(data, lines), most_memory(data, lines, [OPTION])
    return None if laid < case.wanted * plain else f'{laid} KB, and {plain} KB in one line'


def test_memory():
    chosen = random.Random(SEED)
    cells = [chosen.randrange(700) for _ in range(SIDE * SIDE)]
    data = printed(map_of(tiles(1, SIDE, SIDE, data=cells), width=SIDE, height=SIDE)).encode()
    sessions = [
        ('unchanged', [], MOST_MEMORY),
        ('with a stamp', ['stamp 1 990 990 1 9'], MOST_MEMORY),
        ('with another row', ['resize 1000 1001 0 0'], MOST_OF_RESIZE),
    ]
    check_each([Case(name, (data, lines), most) for name, lines, most in sessions], fault_of_memory)


# ---- Tiled's own maps


def stamp_of(data):
    """A stamp of one cell that is set, with another tile of the first tileset; None where no cell is, and for an infinite map, whose
    cells stand in chunks."""
    tree = json.loads(data)
    first = min((tileset['firstgid'] for tileset in tree['tilesets']), default=None)
    for layer in layers_in(tree['layers']):
        cells = cells_of(layer) if 'data' in layer else []
        place = next((at for at, value in enumerate(cells) if value), None)
        if place is not None and first is not None:
            value = first + (cells[place] == first)
            return f'stamp {layer["id"]} {place % layer["width"]} {place // layer["width"]} 1 {value}'
    return None


def fault_of_stamped(data, path):
    """With a stamp one line changes, and Tiled saves the same bytes again."""
    stamp = stamp_of(data)
    if stamp is None:
        return None
    stamped = path.parent / f'stamped_{path.name}'
    stamped.write_bytes(saved(data, stamp))
    again = tiled_package.exported(stamped, path.parent, f'again_{path.name}')
    return unlike(((1, 1), stamped.read_bytes()), (lines_changed(data, stamped.read_bytes()), again))


def fault_of_export(case):
    """What Tiled exports comes back, normal, minimized and with line ends as on Windows."""
    path = case.given
    data = path.read_bytes()
    for layout, text in all_layouts(data).items():
        fault = unlike(text, saved(text))
        if fault:
            return f'{layout}: {fault}'
    return fault_of_stamped(data, path)


def uncompressed(path):
    """The files that Tiled exports of a map whose layers are in CSV, and in Base64 (uncompressed)."""
    tree = json.loads(path.read_bytes())
    for form in (CSV, PLAIN):
        given = path.parent / f'given_{form}_{path.name}'
        given.write_bytes(json.dumps(with_compression(tree, form)).encode())
        name = f'{form}_{path.name}'
        assert tiled_package.exported(given, path.parent, name) is not None, f'Tiled has exported no {name}'
        yield path.parent / name


def test_maps_of_tiled():
    with tempfile.TemporaryDirectory() as folder:
        paths = [path for export in exports(folder) for path in uncompressed(export)]
        stamped = [path for path in paths if stamp_of(path.read_bytes())]
        assert len(paths) >= 30 and len(stamped) >= 20, f'{len(paths)} exports, {len(stamped)} of them with cells'
        check_each([Case(path.name, path, None) for path in paths], fault_of_export, CORES)
