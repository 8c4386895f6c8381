# SPDX-License-Identifier: MIT OR Apache-2.0
"""Runs `map_report --json`, whose line for each file tells what the report for people tells, and
has the members of docs/map-files.md. The maps are those of test_reports.py; of a map that is
refused, what is wanted follows from the lines that are wanted there. Then come names and texts of
any letters, standard input, and what is no regular file."""
import json
import os
import re
import socket
import subprocess
import tempfile
from pathlib import Path

import test_reports as reports
from lib.asides import NAME_TAKEN, back, set_aside
from lib.cases import CORES, Case, check_each, unlike
from lib.commands import came_of, first_lines
from lib.maps import cells_of
from lib.places import EXAMPLE_MAPS, MAP_REPORT
from lib.refusals import refusal

NOT_REGULAR = 'not a regular file'
OTHER_COMPRESSION = 'only zlib and gzip are unpacked: choose another Tile Layer Format in Map > Map Properties'
ANOTHER_NAME = 'map_report: a word of the command line is not UTF-8'

# ---- what is wanted of a map that is refused

# A step of a path in words: an index, the name of a member in quotes, perhaps cut, or one without.
STEP = re.compile(r'\[(\d+)\]|\[("(?:[^"\\]|\\.)*")(\.\.\.)?\]|\.?([A-Za-z0-9_-]+)')


def path_in(words, tree):
    """The path that some words are, in a tree: names and indexes."""
    path = []
    for index, quoted, is_cut, name in STEP.findall('' if words == 'the root' else words):
        step = int(index) if index else json.loads(quoted) if quoted else name
        if is_cut:
            step = next(name for name in tree if name.startswith(step))
        path.append(step)
        inner = tree.get(step) if isinstance(tree, dict) else None
        tree = tree[step] if isinstance(tree, list) and step < len(tree) else inner
    return path


def place_of(text, tree):
    """The place that a line for people tells."""
    owner = re.match(r'(layer|object)(?: (\d+))?(?: ".*?")?: ', text)
    words = text[owner.end() if owner else 0 :].partition(' is ')[0]
    place = {'path': path_in(words, tree), 'text': text}
    if owner and owner[2]:
        place[owner[1]] = int(owner[2])
    return place


def refused(told, tree):
    """The object of a refusal, as `no 62 member missing: width is absent`."""
    code, words, text = re.fullmatch(r'no (\d+) ([^:]+): (.*)', told).groups()
    return {'code': int(code), 'words': words, 'places': [place_of(text, tree)]}


def unread(code, reason):
    words = refusal(code).partition(' ')[2].partition(' ')[2]
    return {'code': code, 'words': words, 'places': [], 'reason': reason}


def with_all_maps(told, tree):
    """What `--all-maps` makes of a map, as the last line for people says it."""
    if told == reports.OPENS:
        return {'opens': True}
    behind = told.partition('with --all-maps: ')[2]
    is_map = behind.startswith('no ')
    return {'opens': False, 'refused': refused(behind, tree) if is_map else unread(51, behind)}


def object_of_refusal(lines, tree):
    """The object that is wanted where these lines for people are."""
    first, *rows = lines.split('\n')
    wanted = refused(first, tree)
    if rows:
        rows = [row[2:] for row in rows]
        at = next(at for at, row in enumerate(rows) if row.startswith('with --all-maps'))
        if at > 0:
            # The last of these rows counts the others.
            wanted['places'] = [place_of(text, tree) for text in rows[:at - 1]]
        wanted['allmaps'] = with_all_maps(rows[at], tree)
        if rows[at + 1:]:
            wanted['allmaps']['refused']['reason'] = rows[at + 1]
    return wanted


# ---- what is wanted of a map that is read


def properties_of(owner):
    return [
        {'name': each['name'], 'type': each.get('type', 'string'), 'value': each['value']}
        for each in owner.get('properties', [])
    ]


def object_of_layer(layer, group):
    told = {
        'id': layer['id'],
        'type': layer['type'],
        'name': layer.get('name', ''),
        'group': group,
        'visible': layer.get('visible', True),
        'properties': properties_of(layer),
    }
    if layer['type'] == 'tilelayer':
        cells = cells_of(layer)
        told.update(cells=len(cells), set=sum(value != 0 for value in cells))
    return told


def text_in(owner, name):
    """A text that an object of JSON has; an empty one, where it has none."""
    value = owner.get(name)
    return value if isinstance(value, str) else ''


def shape_of(thing):
    shapes = [shape for shape in ('ellipse', 'point', 'polygon', 'polyline', 'text') if shape in thing]
    return 'tile' if thing.get('gid') is not None else (shapes or ['rectangle'])[0]


def object_of_thing(thing, layer):
    return {
        'id': thing['id'],
        'layer': layer['id'],
        'name': thing.get('name', ''),
        'class': text_in(thing, 'class') or text_in(thing, 'type'),
        'shape': shape_of(thing),
        'rotation': thing.get('rotation', 0),
        **{name: thing.get(name, 0) for name in ('x', 'y', 'width', 'height')},
        'visible': thing.get('visible', True),
        'gid': thing.get('gid'),
        'properties': properties_of(thing),
    }


def drawn(layers, group=None):
    """Layers in drawing order, a group before those in it, each with the id of its group."""
    for layer in layers:
        yield layer, group
        if layer['type'] == 'group':
            yield from drawn(layer['layers'], layer['id'])


def object_of_map(tree):
    layers = list(drawn(tree['layers']))
    sizes = ('width', 'height', 'tilewidth', 'tileheight', 'nextlayerid', 'nextobjectid')
    return {
        'refused': None,
        **{name: tree[name] for name in sizes},
        'orientation': text_in(tree, 'orientation'),
        'properties': properties_of(tree),
        'layers': [object_of_layer(*each) for each in layers],
        'objects': [
            object_of_thing(thing, layer)
            for layer, _ in layers
            if layer['type'] == 'objectgroup'
            for thing in layer['objects']
        ],
        'tilesets': [
            {'firstgid': each['firstgid'], 'source': each.get('source')}
            for each in tree['tilesets']
        ],
    }


# ---- runs


def lines_of(words, folder, **more):
    """The exit status of `map_report --json`, its lines, read, and standard error. Each line is
    UTF-8, and has nothing but JSON in one way of writing it."""
    status, output, errors = came_of([MAP_REPORT, '--json', *words], folder, **more)
    assert output == '' or output.endswith('\n'), output[-200:]
    lines = output.split('\n')[:-1]
    for line in lines:
        plain = json.dumps(json.loads(line), ensure_ascii=False, separators=(',', ':'))
        # Letters that need no escape have none; Python writes DEL as it is, too.
        assert line == plain, f'{line[:300]}\n{plain[:300]}'
    return status, [json.loads(line) for line in lines], errors


def fault_of(case):
    """What is wrong in the line of one file, or None."""
    with tempfile.TemporaryDirectory() as folder:
        (Path(folder) / 'map.tmj').write_bytes(case.given)
        came = lines_of(['map.tmj'], folder)
    if not any('allmaps' in (each['refused'] or {}) for each in case.wanted):
        came = without_all_maps(came)
    wanted = [(0 if not each['refused'] else 1, [{'file': 'map.tmj', **each}], '') for each in case.wanted]
    return None if came in wanted else unlike(wanted[0], came)


def without_all_maps(came):
    """What came, of maps that are refused as compressed without what `--all-maps` makes of them."""
    for line in came[1]:
        if line['refused'] and line['refused']['code'] == 65:
            line['refused'].pop('allmaps', None)
    return came


def as_json(case):
    """A case of the reports for people as one of JSON."""
    tree = json.loads(case.given)
    wanted = [
        {'refused': object_of_refusal(lines, tree)} if lines.startswith('no ') else object_of_map(tree)
        for lines in case.wanted
    ]
    return Case(case.name, case.given, wanted)


def test_maps_that_are_refused():
    table = (reports.fault(*row) for row in reports.TABLE)
    cases = [
        *reports.faults_of_members(),
        *table,
        *reports.faults_with_names(),
        *reports.faults_of_roots(),
    ]
    check_each(map(as_json, cases), fault_of, CORES)


def test_maps_that_are_read():
    cases = [*reports.good_maps(), *reports.reports_of_examples()]
    check_each(map(as_json, cases), fault_of, CORES)


# ---- with --all-maps


def fault_with_all_maps(case):
    """What is wrong in the line of one file, or None."""
    with tempfile.TemporaryDirectory() as folder:
        (Path(folder) / 'map.tmj').write_bytes(case.given)
        came = lines_of(['--all-maps', 'map.tmj'], folder)
    status = 1 if case.wanted['refused'] else 0
    return unlike((status, [{'file': 'map.tmj', **case.wanted}], ''), came)


def with_fractions():
    """A map with fractions as a rotation, a place and the value of a property."""
    thing = {'id': 1, 'name': 'a', 'x': 1.5, 'y': -0.25, 'width': 8, 'height': 2.75, 'rotation': 33.75}
    shown = {**thing, 'type': 'door', 'ellipse': True, 'properties': [{'name': 'b', 'type': 'float', 'value': 0.1}]}
    line = {'id': 2, 'class': 'path', 'polyline': [{'x': 0, 'y': 0.5}], 'x': 0, 'y': 0, 'width': 0, 'height': 0}
    layer = {'type': 'objectgroup', 'id': 9, 'name': 'l', 'opacity': 0.5, 'objects': [shown, line]}
    return reports.changed({'layers': [layer], 'orientation': 'isometric'})


def test_maps_that_all_maps_reads():
    """They are told as they are open: the plain model says how. What was set aside of a rotation or a
    value is told as it was."""
    trees = {'fractions': with_fractions()}
    for name in ('infinite.tmj', 'opacity_half.tmj', 'objects.tmj', 'layers.tmj'):
        trees[name] = json.loads((EXAMPLE_MAPS / name).read_bytes())
    check_each(
        [
            Case(name, json.dumps(tree).encode(), back(object_of_map(set_aside(tree))))
            for name, tree in trees.items()
        ],
        fault_with_all_maps,
    )


def test_maps_that_all_maps_refuses():
    taken = json.dumps(reports.changed({'roskevad': 1})).encode()
    empty = {'line': 1, 'column': 1, 'text': 'line 1, column 1'}
    compressed = json.loads((EXAMPLE_MAPS / 'zlib.tmj').read_bytes())
    cut = json.loads(json.dumps(compressed))
    cut['layers'][0]['data'] = compressed['layers'][0]['data'][:20]
    data = {'path': ['layers', 0, 'data'], 'text': f'layers[0].data is "{cut["layers"][0]["data"]}"'}
    compressed['layers'][0]['compression'] = 'zstd'
    place = {'path': ['layers', 0, 'compression'], 'text': 'layers[0].compression is "zstd"'}
    rows = {
        'a name that is taken': (taken, unread(51, NAME_TAKEN)),
        'nothing': (b'', {'code': 60, 'words': 'not JSON', 'places': [empty]}),
        'compressed': (json.dumps(compressed).encode(), {'code': 65, 'words': 'compressed', 'places': [place], 'reason': OTHER_COMPRESSION}),
        'cut off': (json.dumps(cut).encode(), {'code': 66, 'words': 'bad data', 'places': [data], 'reason': 'its packed data are cut off'}),
    }
    check_each(
        [Case(name, data, {'refused': refused}) for name, (data, refused) in rows.items()],
        fault_with_all_maps,
    )
    with tempfile.TemporaryDirectory() as top:
        (Path(top) / 'a').write_bytes(taken)
        came = came_of([MAP_REPORT, '--all-maps', 'a'], top)
    fault = unlike((1, f'a: {refusal(51)}: {NAME_TAKEN}\n', ''), came)
    assert not fault, fault


def test_what_is_no_json():
    """The places that docs/map-files.md names."""
    rows = [
        (b'', 1, 1),
        (b'{\n  "a": tru\n}', 2, 11),
        (b'{"a": "\xff"}', 1, 8),
        (b'[1, 2', 1, 5),
        (b'[\n1e400]', 2, 1),
        (b'{"a":"\\ud800"}', 1, 13),
    ]
    wanted = [
        {'line': line, 'column': column, 'text': f'line {line}, column {column}'}
        for _, line, column in rows
    ]
    check_each(
        [
            Case(
                f'{data!r}',
                data,
                [{'refused': {'code': 60, 'words': 'not JSON', 'places': [place]}}],
            )
            for (data, *_), place in zip(rows, wanted)
        ],
        fault_of,
    )


# ---- any letters

LETTERS = [chr(code) for code in [*range(1, 0x180), 0x2028, 0x2029, 0xFEFF, 0xFFFF, 0x1F33B]]


def named_map(text):
    """A map which has a text wherever a map can have one."""
    prop = {'name': text, 'type': text, 'value': {text: [text, None, True, -1, 2**63]}}
    thing = {'id': 1, 'name': text, 'properties': [prop, {**prop, 'name': f'{text}x', 'value': text}]}
    layer = {'type': 'objectgroup', 'id': 9, 'name': text, 'objects': [thing]}
    return reports.changed(
        {'layers': [layer], 'tilesets': [{'firstgid': 1, 'source': text}], 'properties': [prop]}
    )


def test_texts_of_any_letters():
    """As they stand in the file, and as escapes."""
    texts = ['', '\0', ''.join(LETTERS), '"\\/', 'a' * 1000, '\U0010ffff']
    cases = [
        Case(f'{text[:20]!r}, {is_ascii}', json.dumps(tree, ensure_ascii=is_ascii).encode(), [wanted])
        for text in texts
        for is_ascii in (True, False)
        for tree in [named_map(text)]
        for wanted in [object_of_map(tree)]
    ]
    check_each(cases, fault_of, CORES)


def test_names_of_files():
    """Each letter that a name can have; and a name that is not UTF-8, which refuses the command
    line: the file can be read as standard input."""
    with tempfile.TemporaryDirectory() as top:
        names = [f'a{letter}' for letter in LETTERS if letter != '/'] + ['"', '\\', '{}', ' ', '-x']
        for name in names:
            (Path(top) / name).write_text('{}')
        text = 'type is absent'
        wanted = {'code': 69, 'words': 'not a map', 'places': [{'path': ['type'], 'text': text}]}
        # Behind `--`, what begins with a hyphen is a file.
        came = lines_of(['--', *names], top)
        fault = unlike((1, [{'file': name, 'refused': wanted} for name in names], ''), came)
        assert not fault, fault
        odd = os.fsencode(top) + b'/\xff.tmj'
        Path(os.fsdecode(odd)).write_text('{}')
        came = came_of([MAP_REPORT, '--json', 'a"', odd], top)
        fault = unlike((2, '', f'{ANOTHER_NAME}\n'), came)
        assert not fault, fault
        with open(odd, 'rb') as file:
            fault = unlike((1, [{'file': '-', 'refused': wanted}], ''), lines_of(['-'], top, stdin=file))
        assert not fault, fault


# ---- standard input, and what is no file


def test_standard_input():
    """`-` is all of it, once, from a file or a pipe; `./-` is a file."""
    good = json.dumps(reports.GOOD)
    told = {'file': '-', **object_of_map(reports.GOOD)}
    empty = {'line': 1, 'column': 1, 'text': 'line 1, column 1'}
    none = {'file': '-', 'refused': {'code': 60, 'words': 'not JSON', 'places': [empty]}}
    plain = f'-: {reports.listing(reports.GOOD)}\n'
    with tempfile.TemporaryDirectory() as top:
        (Path(top) / '-').write_text(good)
        (Path(top) / 'b').write_text(good)
        piped = {'input': good.encode(), 'stdin': None}
        check_each(
            [
                Case('a pipe', (lines_of, ['-'], piped), (0, [told], '')),
                Case('no input', (lines_of, ['-'], {}), (1, [none], '')),
                Case('twice', (lines_of, ['-', '-'], piped), (1, [told, none], '')),
                Case(
                    'beside files',
                    (lines_of, ['b', '-', './-'], piped),
                    (0, [{**told, 'file': 'b'}, told, {**told, 'file': './-'}], ''),
                ),
                Case('for people', (plain_of, ['-'], piped), (0, plain, '')),
            ],
            lambda case: unlike(case.wanted, case.given[0](case.given[1], top, **case.given[2])),
        )


def plain_of(words, folder, **more):
    return came_of([MAP_REPORT, *words], folder, **more)


def test_input_that_is_a_folder():
    """It can be opened and not read."""
    with tempfile.TemporaryDirectory() as top:
        place = os.open(top, os.O_RDONLY)
        reason = 'Is a directory (os error 21)'
        wanted = (1, [{'file': '-', 'refused': unread(51, reason)}], f'map_report: -: {reason}\n')
        fault = unlike(wanted, lines_of(['-'], top, stdin=place))
        os.close(place)
    assert not fault, fault


def make_things(top):
    """Names of a folder that are no regular files, or lead to none, each with the reason."""
    os.mkfifo(f'{top}/pipe')
    (top / 'folder').mkdir()
    (top / 'to_pipe').symlink_to('pipe')
    (top / 'to_none').symlink_to('none')
    (top / 'ring').symlink_to('ring')
    with socket.socket(socket.AF_UNIX) as end:
        end.bind(f'{top}/socket')
    absent = (50, 'No such file or directory (os error 2)')
    names = ['pipe', 'folder', 'to_pipe', 'socket', '/dev/null', '/dev/zero', '.']
    return {
        **dict.fromkeys(names, (51, NOT_REGULAR)),
        'none': absent,
        'to_none': absent,
        'none/a': absent,
        'ring': (51, 'Too many levels of symbolic links (os error 40)'),
        'good/a': (51, 'Not a directory (os error 20)'),
        'n' * 256: (51, 'File name too long (os error 36)'),
    }


def test_what_is_no_regular_file():
    """Each is refused by name, none is waited for, and the next file is reported. A link to a map
    is read."""
    with tempfile.TemporaryDirectory() as folder:
        top = Path(folder)
        (top / 'good').write_text(json.dumps(reports.GOOD))
        (top / 'link').symlink_to('good')
        things = make_things(top)
        good = object_of_map(reports.GOOD)
        plain = reports.listing(reports.GOOD)
        for name, (code, reason) in things.items():
            told = f'map_report: {name}: {reason}\n'
            lines = [{'file': name, 'refused': unread(code, reason)}, {'file': 'link', **good}]
            fault = unlike((1, lines, told), lines_of([name, 'link'], top, timeout=20))
            fault = fault or unlike(
                (1, f'good: {plain}\n', told), plain_of([name, 'good'], top, timeout=20)
            )
            assert not fault, fault


def test_a_file_that_may_not_be_read():
    if os.geteuid() == 0:
        drop = ['setpriv', '--reuid=65534', '--regid=65534', '--clear-groups']
    else:
        drop = []
    with tempfile.TemporaryDirectory() as folder:
        top = Path(folder)
        top.chmod(0o755)
        (top / 'shut').write_text('{}')
        (top / 'shut').chmod(0)
        reason = 'Permission denied (os error 13)'
        line = json.dumps(
            {'file': f'{top}/shut', 'refused': unread(51, reason)}, separators=(',', ':')
        )
        program = top / 'map_report'
        program.write_bytes(MAP_REPORT.read_bytes())
        program.chmod(0o755)
        came = came_of([*drop, program, '--json', f'{top}/shut'])
    fault = unlike((1, f'{line}\n', f'map_report: {top}/shut: {reason}\n'), came)
    assert not fault, fault


# ---- command lines


def test_command_lines():
    rows = [
        (['--json'], 2, 'error: the following required arguments were not provided:'),
        (
            ['--json', '--table'],
            2,
            "error: the argument '--json' cannot be used with '--table'",
        ),
        (
            ['--json', '--json', 'x'],
            2,
            "error: the argument '--json' cannot be used multiple times",
        ),
    ]
    check_each(
        [Case(f'{words}', words, (status, '', error)) for words, status, error in rows],
        lambda case: unlike(case.wanted, first_lines([MAP_REPORT, *case.given])),
    )


def test_output_that_has_nowhere_to_go():
    with open('/dev/full', 'wb') as full:
        done = subprocess.run(
            [MAP_REPORT, '--json', '-'],
            input=b'{}',
            stdout=full,
            stderr=subprocess.PIPE,
            timeout=60,
        )
    reason = 'map_report: No space left on device (os error 28)\n'
    fault = unlike((1, reason), (done.returncode, done.stderr.decode()))
    assert not fault, fault
