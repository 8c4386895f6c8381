# SPDX-License-Identifier: MIT OR Apache-2.0
"""Tries the library in `lib/`: the calls of Python and of C on their edges, on random bytes, and
under the sanitizers of the C compiler; the examples in both languages, which make the same map; and
the package's forms of lines, which are those of the program's help. Compares the structs and the
arguments that the package declares with the header."""
import copy
import ctypes
import json
import os
import pickle
import random
import re
import string
import struct
import subprocess
import sys
import tempfile
import threading
from pathlib import Path

from lib.cases import Case, check_each, passed, raised, unlike
from lib.forms import FURTHER, HELP, spread
from lib.maps import FLAGLESS, cells_of, group, layers_in, map_of, set_cells, text_of, tiles
from lib.native import c_program
from lib.places import EXAMPLES, EXAMPLE_MAPS, NATIVE, TOP, example_maps

sys.path.insert(0, str(TOP / 'python'))
from roskevad import Closed, Editor, Refused, library, told  # noqa: E402
from roskevad.forms import FORMS  # noqa: E402

HEADER = (TOP / 'include' / 'roskevad.h').read_text()
# What the package has for a struct of the header, and for a type.
STRUCTS = {
    'roskevad_editor': library.CEditor,
    'roskevad_run': library.SelectionRun,
    'roskevad_lines_done': library.LinesDone,
    'roskevad_sizes': library.MapSizes,
    'roskevad_status': library.DocumentStatus,
    'roskevad_faulty_word': library.FaultyWord,
    'roskevad_told': library.Told,
}
TYPES = {
    'void *': ctypes.c_void_p,
    'bool ': ctypes.c_bool,
    'size_t ': ctypes.c_size_t,
    'uint32_t ': ctypes.c_uint32,
    'int32_t ': ctypes.c_int32,
    # A buffer, or what is copied from one.
    'uint8_t *': ctypes.c_void_p,
    'uint32_t *': ctypes.c_void_p,
    'const uint8_t *': ctypes.c_char_p,
}
# Structs that are taken out of bytes: of the first one some of its fields. A buffer of them has no type.
ROW = 'roskevad_layer_row'
STEP_ROW = 'roskevad_step_row'
LETTERS = {'uint32_t ': 'I', 'int32_t ': 'i', 'size_t ': 'N'}
SANITIZED = ['-fsanitize=address,undefined', '-fno-sanitize-recover=all', '-g']


def test_editors_that_are_closed_or_forked():
    """An editor can't be copied or pickled; a closed one, and one in a forked process, hears
    nothing."""
    editor = Editor(limit=5)
    raised(TypeError, copy.copy, editor)
    raised(TypeError, copy.deepcopy, editor)
    raised(TypeError, pickle.dumps, editor)
    child = os.fork()
    if child == 0:
        try:
            raised(Closed, editor.step, 'status')
            os._exit(0)
        except BaseException:
            os._exit(1)
    assert os.waitpid(child, 0)[1] == 0
    assert editor.step('status') == 'ok none clean'
    editor.close()
    editor.close()
    raised(Closed, editor.step, 'status')
    raised(ValueError, Editor, 1_000_001)


def filled(top):
    """A folder with a folder and a pipe in the place of maps."""
    (Path(top) / 'folder.tmj').mkdir()
    os.mkfifo(Path(top) / 'pipe.tmj')


def test_files_that_are_not_opened():
    with tempfile.TemporaryDirectory() as top, Editor(folder=top) as editor:
        filled(top)
        for name, code in (('none', 50), ('folder', 51)):
            refusal = raised(Refused, editor.open_file, f'{name}.tmj')
            fault = unlike((code, f"open_file('{name}.tmj')"), (refusal.code, refusal.line))
            assert not fault, fault
            passed()
        assert raised(Refused, editor.open_file, 'pipe.tmj').code == 51


def test_files_that_are_saved():
    """What is refused leaves the clean index, and nothing stays in the store."""
    with tempfile.TemporaryDirectory() as top, Editor(folder=top) as editor:
        filled(top)
        assert raised(Refused, editor.save_file, 'a.tmj').code == 10
        editor.step('new a 2 2 16 16 a.tsj')
        editor.step('stamp 1 0 0 1 1')
        assert raised(Refused, editor.save_file, 'none/a.tmj').code == 51
        assert raised(Refused, editor.save_file, 'folder.tmj').code == 51
        assert editor.step('status').split(' ')[2] == 'dirty'
        assert editor.save_file('a.tmj').startswith('saved a.tmj ')
        assert editor.step('status').split(' ')[2] == 'clean'
        file = Path(top) / 'a.tmj'
        file.chmod(0o640)
        assert (
            editor.save_file('a.tmj').startswith('saved a.tmj ')
            and file.stat().st_mode & 0o777 == 0o640
        )
        assert raised(Refused, editor.open_file, 'a.tmj').code == 11
        assert editor.open_file('a.tmj', 'b').startswith('ok')
        assert (
            sorted(os.listdir(top)) == ['a.tmj', 'folder.tmj', 'pipe.tmj'] and editor.files() == []
        )
        editor.step('begin M')
        assert raised(Refused, editor.save_file, 'a.tmj').code == 20
        assert raised(Refused, editor.step, 'stamp').forms == FORMS['stamp']


def test_what_no_line_tells():
    """Ids by names, the selection, the clean index, and which steps are macros."""
    with Editor() as editor:
        editor.step('new a 4 3 16 16 a.tsj')
        editor.step('layer add object Doors')
        assert editor.layer_id('Doors') == editor.last_layer_id() == 2
        editor.step('object add 2 0 0 8 8 door')
        assert editor.object_id('door') == editor.last_object_id() == 1
        raised(KeyError, editor.layer_id, 'Walls')
        editor.open_map('groups', (EXAMPLE_MAPS / 'groups.tmj').read_bytes())
        drawn = list(layers_in(editor.map()['layers']))
        assert any('layers' in layer for layer in drawn) and len(drawn) > len(
            editor.map()['layers']
        )
        for layer in drawn:
            first = next(each for each in drawn if each['name'] == layer['name'])
            assert editor.layer_id(layer['name']) == first['id']
        objects = [each for layer in drawn for each in layer.get('objects', ())]
        for each in objects:
            assert (
                editor.object_id(each['name'])
                == next(other for other in objects if other['name'] == each['name'])['id']
            )
        editor.step('use a')
        editor.step('select replace 1 1 2 2')
        assert editor.selection() == [(1, 1, 2), (2, 1, 2)]
        assert (
            editor.clean_index() == 0
            and editor.is_macro(0) is False
            and editor.is_macro(99) is None
        )
        raised(ValueError, editor.put_file, '../a', b'')


def test_many_lines():
    """Those that are not quiet are replied to; the first that is refused ends it."""
    with Editor() as editor:
        assert editor.run_lines([]) == []
        opened = ['new a 4 3 16 16 a.tsj', '# a note', '', 'stamp 1 0 0 1 5']
        assert editor.run_lines(opened) == ['ok 0/0 clean 0', 'ok 1/1 dirty 0']
        refusal = raised(Refused, editor.run_lines, ['undo', '', 'stamp 9 0 0 1 5', 'redo'])
        fault = unlike(
            (30, 'no such layer', 'stamp 9 0 0 1 5', 2, ['ok 0/1 clean 0']),
            (refusal.code, refusal.words, refusal.line, refusal.place, refusal.replies),
        )
        assert not fault, fault
        raised(ValueError, editor.run_lines, ['redo', 'redo\nredo'])
        assert editor.step('status') == 'ok 0/1 clean 0'
        replies = editor.run_lines([*['layer add object Doors'] * 60, 'show', 'status', 'show'])
        assert replies[60:] == [editor.step('show'), 'ok 60/60 dirty 0', editor.step('show')]
        refusal = raised(Refused, editor.run_lines, ['show', 'show', 'x'])
        assert (refusal.place, len(refusal.replies)) == (2, 2)
        refusal = raised(Refused, editor.run_lines, ['x' * 70_000])
        assert (refusal.code, refusal.place, refusal.replies) == (1, 0, [])


def test_work_while_a_file_is_written():
    """The clean mark stands at the step that is saved from the line `save` on: what is done while
    its bytes are written outside is a step of its own and not called saved, and `dirty` takes the
    mark away where they could not be written."""
    with Editor() as editor:
        editor.step('new a 4 3 16 16 a.tsj')
        editor.step('stamp 1 0 0 1 5')
        editor.step('save a.tmj')
        saved = editor.file('a.tmj')
        assert editor.step('stamp+ 1 1 0 1 5') == 'ok 2/2 dirty 0'
        assert editor.clean_index() == 1
        assert editor.step('undo') == 'ok 1/2 clean 0'
        assert editor.step('show') == 'map ' + saved.decode()
        editor.step('redo')
        assert editor.step('dirty') == 'ok 2/2 dirty 0' and editor.clean_index() is None
        assert editor.step('undo') == 'ok 1/2 dirty 0'


def test_large_files():
    """A file of any size is kept as it is, and a map of 90,000 cells is opened from one."""
    numbers = random.Random(67)
    grid = [numbers.randrange(1, 100) for _ in range(300 * 300)]
    layer = tiles(1, 300, 300, name='Tile Layer 1', data=grid)
    text = text_of(map_of(layer, width=300, height=300, nextlayerid=2, nextobjectid=1))
    files = {
        **{f'f{size}': numbers.randbytes(size) for size in (65_535, 65_536, 65_537, 5_000_000)},
        'm.tmj': text,
    }
    with Editor() as editor:
        for name, data in files.items():
            editor.put_file(name, data)
        assert {name: editor.file(name) for name in editor.files()} == files, 'the files differ'
        assert editor.step('open m m.tmj') == 'ok 0/0 clean 0'
        fault = unlike(f'map {text.decode()}', editor.step('show'))
        assert not fault, fault
        assert editor.step('save n.tmj') == f'saved n.tmj {len(text)}'
        assert editor.file('n.tmj') == text, 'the saved file differs'


def test_large_limits():
    """A document keeps as many steps as its editor's limit says, and no more."""
    for limit in (1_000, 1_001, 70_000):
        with Editor(limit=limit) as editor:
            editor.step('new a 4 3 16 16 a.tsj')
            stamps = [f'stamp 1 {at % 4} 0 1 {at % 99 + 1}' for at in range(limit + 5)]
            kept = [min(at, limit) for at in range(1, limit + 6)]
            replies = editor.run_lines(stamps)
            assert replies == [f'ok {count}/{count} dirty 0' for count in kept], replies[-9:]
            assert editor.step('goto 0') == f'ok 0/{limit} dirty 0'
            assert raised(Refused, editor.step, 'undo').code == 21
            # The fifth stamp was the last to go.
            assert editor.step('tile 1 0 0') == 'tile 5 ---- 1 4'
            assert editor.step(f'goto {limit}') == f'ok {limit}/{limit} dirty 0'
    with Editor(limit=1_000_000) as editor:
        assert editor.step('new a 4 3 16 16 a.tsj') == 'ok 0/0 clean 0'


def test_runs_of_a_large_selection():
    """A row of it is one run, and two where a column within it is taken out."""
    with Editor() as editor:
        editor.step('new big 4096 256 1 1 s')
        editor.step('select replace 0 0 4096 256')
        fault = unlike([(y, 0, 4096) for y in range(256)], editor.selection())
        assert not fault, fault
        editor.step('select subtract 2048 0 1 256')
        runs = [run for y in range(256) for run in ((y, 0, 2048), (y, 2049, 2047))]
        fault = unlike(runs, editor.selection())
        assert not fault, fault


def test_threads_in_turn():
    """One thread after another uses an editor that another one has made, and the last closes it."""
    editor = Editor()

    def work():
        editor.step(f'new a{len(documents)} 4 3 16 16 a.tsj')
        editor.run_lines(['stamp 1 0 0 4 1,2,3,4', 'undo', 'redo', 'show'])
        documents.append(editor.step('list'))

    documents = []
    for _ in range(4):
        each = threading.Thread(target=work)
        each.start()
        each.join()
    assert documents[-1] == 'docs a0 a1 a2 *a3'
    last = threading.Thread(target=editor.close)
    last.start()
    last.join()
    raised(Closed, editor.step, 'status')


def test_threads():
    """Calls from eight threads at once wait for each other."""
    with Editor() as editor:
        editor.step('new a 4 3 16 16 a.tsj')
        replies = []

        def draw():
            for _ in range(500):
                replies.extend(editor.step_bytes(line) for line in (b'stamp 1 0 0 1 5', b'undo'))

        work = [threading.Thread(target=draw) for _ in range(8)]
        for each in work:
            each.start()
        for each in work:
            each.join()
        assert len(replies) == 8000 and set(reply[:5] for reply in replies) <= {
            b'ok 1/',
            b'ok 0/',
            b'no 21',
        }


def test_random_bytes():
    """Random bytes as lines, of any length."""
    numbers = random.Random(20261125)
    with Editor() as editor:
        for at in range(20_000):
            line = numbers.randbytes(numbers.choice((0, 1, 5, 80, 3000)) if at % 500 else 70_000)
            reply = editor.step_bytes(line)
            assert reply is None or reply.startswith(b'no '), (line, reply)


# ---- C


def ran(program, *words):
    """Runs a program in C; what it finds wrong it says on standard error."""
    done = subprocess.run(
        [program, *words], cwd=TOP, stdout=subprocess.DEVNULL, stderr=subprocess.PIPE, text=True
    )
    assert done.returncode == 0, f'{words}: status {done.returncode}: {done.stderr[-2000:]}'
    passed()


def test_calls_of_c():
    """The edges of each call, and random bytes as lines, under the sanitizers."""
    calls = c_program(NATIVE / 'library_calls.c', *SANITIZED)
    for seed in ('1', '2', '3'):
        ran(calls, 'random', seed, '3000')


def test_examples_in_c_and_python():
    """Both make the same map."""
    with tempfile.TemporaryDirectory() as folder:
        files = [f'{folder}/fenced.tmj', f'{folder}/again.tmj']
        ran(c_program(EXAMPLES / 'fence.c', *SANITIZED), EXAMPLE_MAPS / 'layers.tmj', files[0])
        ran(sys.executable, EXAMPLES / 'fence.py', EXAMPLE_MAPS / 'layers.tmj', files[1])
        assert Path(files[0]).read_bytes() == Path(files[1]).read_bytes(), 'the maps differ'


def run_of_example(program, *words):
    """What a program in C prints that is right."""
    done = subprocess.run([program, *words], capture_output=True, text=True)
    assert done.returncode == 0, f'{words}: status {done.returncode}: {done.stderr[-2000:]}'
    return done.stdout


def drawn(tree):
    """A map as the example draws it: the signs of the tiles that lie on top."""
    signs = ['.'] * (tree['width'] * tree['height'])
    for layer in shown_layers(tree['layers']):
        for at, value in enumerate(cells_of(layer)):
            if value:
                tile = value % FLAGLESS
                signs[at] = (string.digits + string.ascii_letters)[tile % 62]
    rows = range(0, len(signs), tree['width'])
    return ''.join(f'{"".join(signs[at : at + tree["width"]])}\n' for at in rows)


def shown_layers(layers):
    """The tile layers that are visible, with the groups that they stand in."""
    for layer in layers:
        if layer['visible'] and layer['type'] == 'group':
            yield from shown_layers(layer['layers'])
        elif layer['visible'] and layer['type'] == 'tilelayer':
            yield layer


def fault_of_drawing(case):
    with tempfile.TemporaryDirectory() as folder:
        path = Path(folder) / 'map.tmj'
        path.write_bytes(text_of(case.given))
        came = run_of_example(c_program(EXAMPLES / 'draw.c', *SANITIZED), path)
    stamped = copy.deepcopy(case.given)
    first = next(layer for layer in layers_in(stamped['layers']) if layer['id'] == 1)
    cells = list(cells_of(first))
    changed = [at for at in range(4) if cells[at] != 7]
    cells[:4] = [7] * 4
    set_cells(first, cells)
    # The stamp changes cells of the first row alone.
    back = drawn(case.given)[changed[0] : changed[-1] + 1]
    return unlike(f'with a stamp:\n{drawn(stamped)}what the undo has changed:\n{back}\n', came)


def test_maps_that_the_example_draws():
    """Layer over layer, without those that are hidden or stand in a hidden group."""
    maps = {name: json.loads(example_maps()[name]) for name in ('layers.tmj', 'groups.tmj')}
    above = tiles(9, 5, 2, data=[0, 0x80000000 + 61, 0, 0, 0, 62, 1, 0, 0, 0])
    hidden = tiles(8, 5, 2, data=[9] * 10)
    below = tiles(1, 5, 2, data=list(range(10)))
    for name, inside in (
        ('a layer above', [above]),
        ('a hidden layer', [{**hidden, 'visible': False}, above]),
        ('a hidden group', [group(7, above, group(6, hidden), visible=False)]),
        ('a group in a group', [group(7, group(6, above))]),
    ):
        maps[name] = map_of(below, *inside, width=5, height=2, tilesets=[{'firstgid': 1, 'source': 'a'}])
    check_each([Case(name, tree, None) for name, tree in maps.items()], fault_of_drawing)


# ---- what the package declares


def test_structs_of_the_package():
    """They have the fields of the header's, in order."""
    structs = dict(
        re.findall(r'^typedef struct (\w+) \{\n(.*?)^\} \1;', HEADER, re.MULTILINE | re.DOTALL)
    )
    fault = unlike(sorted([*STRUCTS, ROW, STEP_ROW]), sorted(structs))
    assert not fault, fault
    fields_in = re.compile(r'^    (\w+ \*?)(\w+);', re.MULTILINE)
    letters = ''.join(LETTERS[kind] for kind, _ in fields_in.findall(structs.pop(STEP_ROW)))
    filled = struct.pack(letters, *range(1, 1 + len(letters)))
    fault = unlike((1, 2, 3, 4, 5, 6, 7, 8, 9), told.STEP_ROW.unpack(filled))
    assert not fault, f'{STEP_ROW}: {fault}'
    row = fields_in.findall(structs.pop(ROW))
    filled = struct.pack(''.join(LETTERS[kind] for kind, _ in row), *range(len(row)))
    read = library.LayerRow._make(library.LAYER_ROW.unpack(filled))._asdict()
    wanted = {field: at for at, (_, field) in enumerate(row) if field in read}
    fault = unlike(wanted, read)
    assert not fault, f'{ROW}: {fault}'
    for name, body in structs.items():
        fields = fields_in.findall(body)
        wanted = [(field, TYPES[kind]) for kind, field in fields]
        fault = unlike(wanted, list(STRUCTS[name]._fields_))
        assert not fault, f'{name}: {fault}'
        passed()


def test_arguments_of_the_package():
    """Each call of the header has those of its types."""
    types = {f'{name} *': ctypes.POINTER(kind) for name, kind in STRUCTS.items()}
    types.update({**TYPES, f'{ROW} *': ctypes.c_void_p, f'{STEP_ROW} *': ctypes.c_void_p})
    calls = re.findall(r'^(size_t|void) roskevad_(\w+)\(([^;{]*)\);', HEADER, re.MULTILINE)
    given = {
        name: (answer, [types[re.match(r'(.* \*?)\w+$', word)[1]] for word in words.split(', ')])
        for answer, name, words in calls
    }
    fault = unlike(sorted(given), sorted(library._PARAMETERS))
    assert not fault, fault
    for name, (answer, wanted) in given.items():
        call = getattr(library.LIBRARY, f'roskevad_{name}')
        fault = unlike(wanted, list(call.argtypes))
        assert not fault, f'{name}: {fault}'
        assert call.restype == (None if answer == 'void' else ctypes.c_size_t), name
        passed()


# ---- forms


def test_forms_of_the_package():
    """They are those of the program's help. Those of `prop set` name each type, and the help names
    none."""
    given = [form for forms in FORMS.values() for each in forms for form in spread(each)]
    typed = [form for form in given if form.startswith('prop set ')]
    assert {form.split(' ')[4] for form in typed} == {
        'string',
        'file',
        'int',
        'bool',
        'color',
        'object',
    }, typed
    fault = unlike(sorted({*HELP, *FURTHER} - {'prop set OWNER KEY TYPE VALUE'}), sorted({*given} - {*typed}))
    assert not fault, fault
    assert all(
        form.split(' ')[0].rstrip('+') == word for word, forms in FORMS.items() for form in forms
    )
