# SPDX-License-Identifier: MIT OR Apache-2.0
"""Opens, edits and saves maps with fractions by `tile_editor --all-maps`, and compares replies and
files with the plain model of tests/lib/asides.py, which sets fractions aside and puts them back;
tests/test_infinite_maps.py does so with infinite maps. The
maps are made here; numbers at the edge of what a float can be stand in one of them. Random edits,
undos and redos follow in runs of their own. The sessions of `sessions/` are heard with the option,
too: they have the same replies and the same trees, each with the version of the file that it
replaces; how they are laid out, tests/test_saved_layouts.py sees. What is refused says why on standard
error. Maps with as many fractions as can be set aside are opened and saved in less than 1 GiB. Each
growth of some sessions is refused in turn. Debian's package `tiled` has example maps:
Tiled exports them, they are opened, edited, undone and saved, and Tiled exports what was saved; with
that they have the same numbers."""
import copy
import functools
import json
import os
import random
import subprocess
import tempfile
from pathlib import Path

from lib import tiled_package
from lib.asides import (
    MOST_FRACTIONS,
    NAME_TAKEN,
    OPTION,
    TOO_DEEP,
    TOO_MANY_FRACTIONS,
    TiledPlay,
    as_in,
    exact,
    exact_text,
    fault_of_tiled_files,
    fault_of_tiled_run,
)
from lib.cases import CORES, Case, check_each, in_processes, passed, fail_with, unlike
from lib.growths import REFUSED as NO_MEMORY
from lib.growths import Refuser, Session
from lib.json_texts import text_behind, tree_of
from lib.maps import new_map, objects_in, property_of, text_of, thing, things, tiles
from lib.places import EXAMPLE_MAPS, TILE_EDITOR
from lib.refusals import refusal
from lib.sessions import all_runs, fault_of_reasons, fault_of_replies, has_xml, heard

IS_LONG = True
PACKAGES = ('tiled',)
SEED, RUNS, STEPS = 20261127, 60, 40
# The kilobytes of 1 GiB.
GIB = 1 << 20
NUMBERS = ['413.333', '0.1', '5e-324', '1.7976931348623157e308', '1e20', '-0', '359.999999', '2.0']
FLAT = {'ellipse': True, 'rotation': 33.75}


def map_with(*layers, **members):
    """A map of 6 by 5 cells with these layers."""
    tree = new_map(6, 5, 16, 16, 'town.tsj')
    tree.update(layers=list(layers), nextlayerid=50, nextobjectid=100, **members)
    return tree


def fractions():
    """A map with fractions in each kind of place."""
    door = thing(1, x=10.5, y=20.25, width=3.75, height=8, properties=[property_of('a', 'float', 1.5)])
    line = thing(2, x=-0.5, y=2.0, width=0, height=0, polyline=[{'x': 0, 'y': 0}, {'x': 1.5, 'y': -2}])
    wide = thing(3, x=1e8, y=-999999999.75, width=0.001, height=1e-300, **FLAT)
    return map_with(
        tiles(1, 6, 5, opacity=0.5, parallaxx=0.75, tintcolor='#ff0000'),
        things(2, door, line, offsetx=0.25),
        {'id': 3, 'layers': [things(4, wide)], 'name': 'g', 'opacity': 0.125, 'type': 'group', 'visible': True},
        properties=[property_of('speed', 'float', 0.1), property_of('class', 'class', {'a': [0.5, 1]})],
        version=1.1,
    )


def text_with(tree):
    """A text as Tiled lays it out."""
    return json.dumps(tree, indent=4).encode()


# ---- what is opened and saved


def unchanged_run(name, tree):
    """A map that is opened, edited, undone and saved."""
    run = TiledPlay(name, {'m.tmj': text_with(tree)})
    run.hear('open m m.tmj', 'layer add tile Above', 'stamp 50 1 1 2 1,1', 'show', 'goto 0', 'save n.tmj')
    run.hear('open again n.tmj', 'show', 'save o.tmj')
    return run


def test_maps_that_are_not_changed():
    """Besides the model, the source itself tells what is saved."""
    tree = fractions()
    run = unchanged_run('fractions', tree)
    wanted = tree_of(text_behind(json.loads(json.dumps(tree))))[0]
    fault = unlike(exact(wanted), exact_text(run.after['n.tmj']))
    assert not fault, f'the model: {fault}'
    check_each([run], fault_of_tiled_run)


def text_of_number(number):
    tree = map_with(things(1, thing(1, rotation='NUMBER', x='NUMBER', polygon=[{'x': 'NUMBER', 'y': 0}])))
    return json.dumps(tree).replace('"NUMBER"', number).encode()


def fault_of_number(case):
    """A number that is opened and saved must be read as the same float."""
    done, files = heard(b'open m m.tmj\nsave n.tmj\n', {'m.tmj': text_of_number(case.given)}, [OPTION])
    if b'n.tmj' not in done.stdout:
        return f'came {done.stdout!r}, {done.stderr!r}'
    item = objects_in(tree_of(files['n.tmj'])[0])[0]
    wanted = exact(float(case.given))
    came = [exact(number) for number in (item['rotation'], item['x'], item['polygon'][0]['x'])]
    return unlike([wanted] * 3, came)


def test_numbers():
    """But an `x` beyond a map's limits, which the editor refuses."""
    near = [Case(number, number, None) for number in NUMBERS if abs(float(number)) < 1e9]
    check_each(near, fault_of_number, CORES)
    far = []
    for number in NUMBERS:
        tree = json.loads(text_of_number('0'))
        text = json.dumps(tree).replace('"rotation": 0', f'"rotation": {number}').encode()
        far.append(TiledPlay(f'a rotation of {number}', {'m.tmj': text}))
        far[-1].hear('open m m.tmj', 'show', 'object move 1 3 4', 'save n.tmj')
    check_each(far, fault_of_tiled_run, CORES)


def edited_run(name, *lines):
    run = TiledPlay(name, {'m.tmj': text_with(fractions())})
    run.hear('open m m.tmj', *lines, 'save n.tmj')
    return run, objects_in(json.loads(run.after['n.tmj']))[0]


def test_coordinates_that_an_edit_changes():
    """What an edit names lies on whole pixels; all else is exact."""
    rows = [
        (('object move 1 40 50',), (40, 50, 3.75, 8)),
        (('object move 1 10 50',), (10.5, 50, 3.75, 8)),
        (('object move 1 10 20',), (10.5, 20.25, 3.75, 8)),
        (('object resize 1 9 9',), (10.5, 20.25, 9, 9)),
        (('object resize 1 3 9',), (10.5, 20.25, 3.75, 9)),
        (('resize 6 5 1 0',), (26, 20.25, 3.75, 8)),
        (('resize 6 5 0 0',), (10.5, 20.25, 3.75, 8)),
        (('object move 1 40 50', 'undo'), (10.5, 20.25, 3.75, 8)),
    ]
    for lines, wanted in rows:
        run, item = edited_run(' '.join(lines), *lines)
        came = tuple(item[name] for name in ('x', 'y', 'width', 'height'))
        fault = unlike(wanted, came) or fault_of_tiled_run(run)
        assert not fault, f'{lines}: {fault}'
    passed(len(rows))


class Drawing(TiledPlay):
    """A map with fractions that is edited by chance."""

    def __init__(self, number):
        super().__init__(f'drawing {number}', {'m.tmj': text_with(fractions())})
        self.chosen = random.Random(SEED + number)
        self.hear('open m m.tmj')
        for _ in range(STEPS):
            self.hear(self.line())
        self.hear('show', 'save n.tmj', 'goto 0', 'save o.tmj', 'open again n.tmj', 'show')

    def line(self):
        chosen = self.chosen
        number, x, y = chosen.randint(1, 3), chosen.randint(-30, 60), chosen.randint(-30, 60)
        return chosen.choice(
            [
                f'object move {number} {x} {y}',
                f'object move+ {number} {chosen.choice([10, -1])} {chosen.choice([20, 2])}',
                f'object resize {number} {abs(x)} {chosen.choice([8, abs(y)])}',
                f'object remove {number}',
                f'prop set object:{number} a string b',
                f'stamp 1 {x % 6} {y % 5} 1 7',
                f'layer show {chosen.randint(1, 4)} no',
                f'resize {chosen.randint(4, 8)} 5 {chosen.randint(-1, 1)} 0',
                'undo',
                'undo',
                'redo',
            ]
        )


def test_random_edits():
    check_each([Drawing(number) for number in range(RUNS)], fault_of_tiled_run, CORES)


def with_option(run):
    """A run of `sessions/` with the option."""
    other = copy.copy(run)
    other.options = [*run.options, OPTION]
    return other


def saved_over(source, data):
    """The text of a file that the option saves over another: with what that has."""
    found = tree_of(data)
    return text_of(as_in(source, found[0])) if found and source != data else data


def fault_of_session(run):
    """How the program differs from a run, or None. Files that are saved are compared by their trees."""
    done, files = heard(run.session, run.before, run.options)
    if done.returncode != 0:
        return f'exit status {done.returncode}, {done.stderr.decode()[:300]}'
    wanted = {name: saved_over(run.before.get(name), data) for name, data in run.after.items()}
    return (
        fault_of_reasons(run.replies, done.stderr)
        or fault_of_replies(run.session, run.replies, done.stdout)
        or fault_of_tiled_files(wanted, files)
    )


def test_sessions_with_the_option():
    """All but those in which a map is refused for a fraction, since it is infinite, or since it is XML."""
    opened = [refusal(code).encode() for code in (61, 64)]
    runs = [run for run in all_runs() if not has_xml(run) and not any(reply in run.replies for reply in opened)]
    check_each(map(with_option, runs), fault_of_session, CORES)


# ---- what is refused


def nested(levels):
    return '[' * levels + '0.5' + ']' * levels


def kept(value):
    """The text of a map that keeps a member."""
    return text_of(map_with(tiles(1, 6, 5)))[:-1] + f',"kept":{value}}}'.encode()


def many(count, *layers, **members):
    """The text of a map with so many fractions in a list, and with these layers and members."""
    return text_of(map_with(tiles(1, 6, 5), *layers, kept=[0.5] * count, **members))


BAD_LAYER = tiles(2, 6, 5, chunks=[{}])
REFUSED = [
    ('the name in the map', kept('{"roskevad":1}'), 51, NAME_TAKEN),
    ('the name by an escape', kept('{"roskeva\\u0064":0.5}'), 51, NAME_TAKEN),
    ('a stand-in', kept('{"roskevad":[1071644672,0]}'), 51, NAME_TAKEN),
    ('a fraction that nests too deep', kept(nested(125)), 51, TOO_DEEP),
    ('nothing too deep', kept(nested(127)), 60, None),
    ('no JSON', b'{', 60, None),
    ('no UTF-8', b'"\xff"', 60, None),
    ('too great a number', kept('1e400'), 60, None),
    ('no map', b'[0.5]', 69, None),
    ('an object that is far away', text_with(map_with(things(1, thing(1, x=1e300)))), 68, None),
    ('a version that is a list', text_with(map_with(tiles(1, 6, 5), version=[0.5])), None, None),
    ('a fraction that nests deep', kept(nested(124)), None, None),
    ('as many fractions as there may be', many(MOST_FRACTIONS, version=1.5), None, None),
    ('one more fraction', many(MOST_FRACTIONS + 1), 51, TOO_MANY_FRACTIONS),
    ('one more, as a place', many(MOST_FRACTIONS, things(2, thing(1, x=0.5))), 51, TOO_MANY_FRACTIONS),
    ('one more, and a bad chunk', many(MOST_FRACTIONS + 1, BAD_LAYER, infinite=True), 51, TOO_MANY_FRACTIONS),
    ('one more, and the name', many(MOST_FRACTIONS + 1, roskevad=1), 51, NAME_TAKEN),
]


def fault_of_refused(case):
    """What is wrong with the replies to a map, or with what standard error says."""
    code, reason = case.wanted
    done, files = heard(b'open m m.tmj\nlist\n', {'m.tmj': case.given}, [OPTION])
    replies = 'ok 0/0 clean 0\ndocs *m\n' if code is None else f'{refusal(code)}\ndocs\n'
    errors = f'tile_editor: maps/m.tmj: {reason}\n' if reason else ''
    return unlike((0, replies, errors), (done.returncode, done.stdout.decode(), done.stderr.decode()))


def test_maps_that_are_refused():
    cases = [Case(name, data, (code, reason)) for name, data, code, reason in REFUSED]
    check_each(cases, fault_of_refused, CORES)


def points():
    """A map with as many fractions as there may be, as points of polygons."""
    polygon = [{'x': 0.5, 'y': -1.25}] * (MOST_FRACTIONS // 20)
    return text_of(map_with(things(1, *(thing(at, polygon=polygon) for at in range(1, 11)))))


def fault_of_memory(case):
    """What is wrong with how a map is opened and saved, or with the memory that it takes."""
    with tempfile.TemporaryDirectory() as folder:
        (Path(folder) / 'm.tmj').write_bytes(case.given)
        (Path(folder) / 'lines').write_text('open m m.tmj\nsave n.tmj\n')
        with open(f'{folder}/lines') as lines, open(f'{folder}/replies', 'w') as replies:
            program = subprocess.Popen([TILE_EDITOR, OPTION], cwd=folder, stdin=lines, stdout=replies)
            _, program.returncode, usage = os.wait4(program.pid, 0)
        came = Path(f'{folder}/replies').read_text()
        is_saved = exact_text(Path(f'{folder}/n.tmj').read_bytes()) == exact_text(case.given)
    if usage.ru_maxrss >= GIB:
        return f'{usage.ru_maxrss} KB of memory'
    return unlike((0, 'ok', True), (program.returncode, came[:2], is_saved))


def test_the_most_fractions():
    rows = {'a list': many(MOST_FRACTIONS), 'points': points()}
    check_each([Case(name, data, None) for name, data in rows.items()], fault_of_memory, CORES)


def test_without_the_option():
    """A map with fractions is refused as ever."""
    done, _ = heard(b'open m m.tmj\n', {'m.tmj': text_with(fractions())})
    fault = unlike((f'{refusal(61)}\n', ''), (done.stdout.decode(), done.stderr.decode()))
    assert not fault, fault


# ---- growths


class SavingSession(Session):
    """A session whose files a save lays out as they were. Where a growth is refused for that, the
    map is saved all the same, in a plainer layout: only the trees of files are compared."""

    def refused_at(self, growth):
        done, files = self.refuser.heard(self.lines, growth)
        if done.returncode == 1 or NO_MEMORY in done.stdout.split(b'\n'):
            return super().refused_at(growth)
        replies = done.stdout.split(b'\n')[:-1]
        self.see(replies == self.replies, growth, f'not the same replies: {replies[-3:]!r}')
        fault = fault_of_tiled_files(self.files, files)
        self.see(not fault, growth, fault)
        return None

    @functools.cached_property
    def files(self):
        """Those of the session where no growth is refused."""
        return self.refuser.heard(self.lines)[1]


def begun(name):
    """A session with the option, over a map with fractions."""
    lines = {
        'a map with fractions': 'open m m.tmj,object move 1 30 40,save n.tmj,undo,save n.tmj,show',
        'an infinite map': 'open m infinite.tmj,stamp 1 9 9 1 7,save n.tmj,undo,save n.tmj,show',
        'files that are refused': 'open m taken.tmj,open m deep.tmj,open m m.tmj,save n.tmj',
    }[name].split(',')
    before = {
        'infinite.tmj': (EXAMPLE_MAPS / 'infinite.tmj').read_bytes(),
        'm.tmj': text_of(map_with(things(1, thing(1, x=1.5)))),
        'taken.tmj': kept('{"roskevad":1}'),
        'deep.tmj': kept(nested(125)),
    }
    return SavingSession(name, Refuser(before, [OPTION]), [line.encode() for line in lines])


def fault_of_growth(each):
    session, growth = each
    try:
        begun_sessions()[session].refused_at(growth)
    except AssertionError as fault:
        return str(fault)
    return None


_sessions = {}


def begun_sessions():
    for name in ('a map with fractions', 'an infinite map', 'files that are refused'):
        if name not in _sessions:
            _sessions[name] = begun(name)
    return _sessions


def test_each_growth():
    growths = [
        (name, growth)
        for name, session in begun_sessions().items()
        for growth in range(1, session.growths + 1)
    ]
    fail_with(fault for fault in in_processes(fault_of_growth, growths, 20) if fault)
    passed(len(growths))


# ---- Tiled's own maps


def fault_of_export(case):
    """A map that Tiled exported is opened, edited, undone and saved: it has the same tree but for
    what the rules of writing say, and Tiled exports both the same."""
    folder, source = case.given
    name = f'{source.stem}.tmj'
    data = tiled_package.exported(source, source.parent, name)
    if data is None:
        return None
    run = TiledPlay(name, {name: data})
    run.hear(f'open m {name}', 'layer add tile New', 'prop set map a int 1', 'goto 0', 'save saved.tmj')
    fault = fault_of_tiled_run(run)
    if fault:
        return fault
    _, files = heard(run.session, run.before, run.options)
    saved = source.with_name('saved.tmj')
    saved.write_bytes(files['saved.tmj'])
    passed(exact_text(data) is not None)
    return tiled_package.unlike_exports(source.with_name(name), saved)


def test_maps_of_tiled():
    with tempfile.TemporaryDirectory() as folder:
        maps = tiled_package.unpacked(folder)
        assert maps, 'the package tiled has no example maps'
        check_each([Case(path.name, (folder, path), None) for path in maps], fault_of_export)
