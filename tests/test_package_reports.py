# SPDX-License-Identifier: MIT OR Apache-2.0
"""Compares what `report` of both packages tells of a map with the line of `map_report --json`: of good maps, of maps with each fault, of
the example maps and of what is no file. Packed layers are unpacked, and places keep their fractions: there the plain
model says what is wanted."""
import base64
import json
import subprocess
import sys
import tempfile
import zlib
from array import array
from pathlib import Path

import test_report_json as lines
import test_reports as reports
from lib.cases import Case, check_each, unlike
from lib.commands import came_of
from lib.places import EXAMPLE_MAPS, MAP_REPORT, TESTS, TOP

sys.path.insert(0, str(TOP / 'python'))
import roskevad  # noqa: E402

PACKAGES = ('nodejs',)
# What the packages open all the same, or tell in the words of the file: fractions, infinite maps and packed layers.
MORE = (61, 64, 65)


def maps():
    """Texts of maps, good ones and those with a fault, by their names."""
    cases = [*reports.good_maps(), *reports.faults_of_members(), *(reports.fault(*row) for row in reports.TABLE), *reports.faults_of_roots()]
    yield from ((case.name, case.given) for case in cases)
    yield from ((f'{data!r}', data) for data in (b'', b'{', b'[1, 2', b'{"a": "\xff"}', b'[]', b'{}'))


def told_by_program(paths, *options):
    _, output, _ = came_of([MAP_REPORT, '--json', *options, *paths], '/')
    return [json.loads(line) for line in output.splitlines()]


def told_by_node(paths):
    """The reports of JavaScript, by the paths of files and by their bytes."""
    words = ['node', TESTS / 'module' / 'package_reports.mjs']
    done = subprocess.run(words, input=json.dumps([str(path) for path in paths]), capture_output=True, text=True)
    assert done.returncode == 0, done.stderr[-2000:]
    return json.loads(done.stdout)


def fault_of(case):
    """How the reports of a file differ from the one that is wanted, or None."""
    path, (by_path, file, by_bytes) = case.given
    wanted = {name: value for name, value in case.wanted.items() if name != 'file'}
    python = roskevad.report(path), roskevad.report(Path(path).read_bytes())
    return (
        unlike({'file': str(path), **wanted}, python[0]) or unlike({'file': None, **wanted}, python[1])
        or unlike({'file': str(path), **wanted}, by_path) or unlike([None, wanted], [file, by_bytes])
        or unlike(list(case.wanted), list(python[0])) or unlike(list(case.wanted), list(by_path))
    )


def check(names, paths, wanted):
    check_each([Case(*each) for each in zip(names, zip(paths, told_by_node(paths)), wanted)], fault_of)


def written(folder, texts):
    paths = [Path(folder) / f'{at}.tmj' for at in range(len(texts))]
    for path, text in zip(paths, texts):
        path.write_bytes(text)
    return paths


def test_as_the_program():
    """Of maps that need no more than the program without `--all-maps`, and of the example maps with that option."""
    with tempfile.TemporaryDirectory() as folder:
        names, texts = zip(*maps())
        paths = written(folder, texts)
        rows = [row for row in zip(names, paths, told_by_program(paths)) if not row[2]['refused'] or row[2]['refused']['code'] not in MORE]
        assert len(rows) > 500, len(rows)
        check(*zip(*rows))
        examples = [path for path in sorted(EXAMPLE_MAPS.glob('*.tmj')) if path.stem != 'zlib']
        check([path.name for path in examples], examples, told_by_program(examples, '--all-maps'))


def test_fractions_and_packed_layers():
    """Fractions are those of the file, and packed layers are told as others."""
    packed = json.loads((EXAMPLE_MAPS / 'zlib.tmj').read_bytes())
    cells = {each['id']: array('I', zlib.decompress(base64.b64decode(each['data']))).tolist() for each in packed['layers']}
    plain = [{**each, 'data': cells[each['id']], 'encoding': 'csv', 'compression': ''} for each in packed['layers']]
    trees = {
        'fractions': (lines.with_fractions(), lines.object_of_map(lines.with_fractions())),
        'packed': (packed, lines.object_of_map({**packed, 'layers': plain})),
    }
    with tempfile.TemporaryDirectory() as folder:
        paths = written(folder, [json.dumps(tree).encode() for tree, _ in trees.values()])
        check(trees, paths, [{'file': '', **each} for _, each in trees.values()])


def test_packed_layers_that_are_refused():
    """The reason is told, as that of a file that can't be read."""
    tree = json.loads((EXAMPLE_MAPS / 'zlib.tmj').read_bytes())
    tree['layers'][0]['compression'] = 'none'
    place = {'path': ['layers', 0, 'compression'], 'text': 'layers[0].compression is "none"'}
    told = roskevad.report(json.dumps(tree).encode())
    reason = told['refused'].pop('reason', '')
    fault = unlike({'file': None, 'refused': {'code': 65, 'words': 'compressed', 'places': [place]}}, told)
    assert not fault and 'Tile Layer Format' in reason, fault or reason


def test_what_is_no_file():
    with tempfile.TemporaryDirectory() as folder:
        paths = [f'{folder}/none.tmj', folder]
        came = [roskevad.report(path) for path in paths], [by_path for by_path, _, _ in told_by_node(paths)]
        for told in came:
            codes = [(each['file'], each['refused']['code'], each['refused']['places'], bool(each['refused']['reason'])) for each in told]
            fault = unlike([(paths[0], 50, [], True), (paths[1], 51, [], True)], codes)
            assert not fault, fault
