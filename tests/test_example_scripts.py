# SPDX-License-Identifier: MIT OR Apache-2.0
"""Runs the scripts for Python in `examples/` on the example maps and on maps that are made here: what each changes must be what plain
edits of the maps' trees make, other files keep their bytes and their times, a map that is refused is told with its place, and one undo
takes back what a script has done to a map."""
import contextlib
import importlib.util
import json
import os
import shutil
import signal
import subprocess
import sys
import tempfile
from pathlib import Path

from lib import maps
from lib.cases import Case, check_each, see, unlike
from lib.places import EXAMPLES, EXAMPLE_MAPS, TOP

sys.path[:0] = [str(TOP / 'python'), str(EXAMPLES)]
from roskevad import Editor  # noqa: E402

FLAGS = 0xF0000000
# A time of files long ago, in nanoseconds.
LONG_AGO = 10**18
CUT = (EXAMPLE_MAPS / 'town.tmj').read_bytes()[:100]
# Where a file that is cut there is at fault: at its last byte.
CUT_LINE, CUT_COLUMN = CUT.count(b'\n') + 1, len(CUT) - CUT.rfind(b'\n') - 1
CUT_PLACE = f'line {CUT_LINE}, column {CUT_COLUMN}'


def run(name, *words, said=''):
    """The status of a script, and what it tells on its output and on standard error."""
    env = {**os.environ, 'PYTHONDONTWRITEBYTECODE': '1'}
    words = [sys.executable, EXAMPLES / f'{name}.py', *map(str, words)]
    done = subprocess.run(words, input=said, capture_output=True, text=True, timeout=120, env=env)
    return done.returncode, done.stdout, done.stderr


def script(name):
    """A script as a module."""
    spec = importlib.util.spec_from_file_location(f'example_{name}', EXAMPLES / f'{name}.py')
    module = importlib.util.module_from_spec(spec)
    before, sys.dont_write_bytecode = sys.dont_write_bytecode, True
    try:
        spec.loader.exec_module(module)
    finally:
        sys.dont_write_bytecode = before
    return module


@contextlib.contextmanager
def folder_of(**trees):
    """A folder with these maps, which were written long ago; with the example maps where none is given."""
    with tempfile.TemporaryDirectory() as top:
        folder = Path(top) / 'maps'
        if trees:
            folder.mkdir()
            for name, tree in trees.items():
                (folder / f'{name}.tmj').write_bytes(tree if isinstance(tree, bytes) else maps.text_of(tree))
        else:
            shutil.copytree(EXAMPLE_MAPS, folder)
        age(folder)
        yield folder


def age(folder):
    for path in folder.iterdir():
        os.utime(path, ns=(LONG_AGO, LONG_AGO))


def written_in(folder):
    """The names of the files that were written since."""
    return sorted(path.name for path in folder.iterdir() if path.stat().st_mtime_ns != LONG_AGO)


def tree_in(path):
    """The tree of a map, finite and unpacked."""
    with Editor() as editor:
        return editor.open(path).map()


def trees_in(folder):
    return {path.name: tree_in(path) for path in sorted(folder.glob('*.tmj'))}


def see_undo(source, edit):
    """Sees that an edit of a document is one step, which changes its bytes, and that its undo brings all of them back."""
    with Editor() as editor:
        document = editor.open(source)
        before = document.map(), document.save_bytes()
        edit(document)
        see((1, False), (document.status.index, document.status.clean))
        assert document.map() != before[0]
        document.undo()
        see((before, True), ((document.map(), document.save_bytes()), document.status.clean))


def drawn(rows, **members):
    """A map with one tile layer of these rows, and with members of its own."""
    width, height = len(rows[0]), len(rows)
    name = members.pop('name', 'Ground')
    layers = [maps.tiles(1, width, height, name=name, data=sum(rows, [])), *members.pop('more', [])]
    return maps.map_of(*layers, width=width, height=height, **members)


def rows_in(path, number=1):
    """The rows of a tile layer of a file."""
    tree = tree_in(path)
    data = next(layer for layer in maps.layers_in(tree['layers']) if layer['id'] == number)['data']
    return [data[at:at + tree['width']] for at in range(0, len(data), tree['width'])]


# ---- replace_tiles


def with_other_tile(tree, old, new):
    """A tree with another value in the place of one, in cells and objects; flips stay."""
    for layer in maps.layers_in(tree['layers']):
        if layer['type'] == 'tilelayer':
            maps.set_cells(layer, [value - old + new if value & ~FLAGS == old else value for value in maps.cells_of(layer)])
    for each in maps.objects_in(tree):
        if each.get('gid', 0) & ~FLAGS == old:
            each['gid'] += new - old
    return tree


def check_replace(name, old, new, first_id, touched):
    """Runs the script over the example maps, of which some are touched, and over one that is cut."""
    with folder_of() as folder:
        (folder / 'cut.tmj').write_bytes(CUT)
        age(folder)
        before = {path.name: tree_in(path) for path in folder.glob('*.tmj') if path.name != 'cut.tmj'}
        status, _, told = run('replace_tiles', folder, name, old, new)
        see((1, True, True), (status, told.startswith('cut.tmj stays as it is: 60 not JSON'), CUT_PLACE in told))
        see(sorted(touched), written_in(folder))
        (folder / 'cut.tmj').unlink()
        wanted = {file: with_other_tile(tree, first_id + old, first_id + new) if file in touched else tree for file, tree in before.items()}
        see(wanted, trees_in(folder))
        age(folder)
        see((0, '', ''), run('replace_tiles', folder, name, old, new))
        see([], written_in(folder))


def test_replace_tiles():
    """Of the tileset that most maps have as their first one, in cells with flips, in groups, and in an object; the house has no such tile.
    And of one that a single map has."""
    maps_with_it = {'base64', 'flips', 'groups', 'image_layer', 'infinite', 'layers', 'objects', 'opacity_half', 'properties', 'town', 'two_tilesets', 'zlib'}
    holders = {path.name for path in EXAMPLE_MAPS.glob('*.tmj') if 5 in {value & ~FLAGS for value in values_of(tree_in(path))}}
    see({f'{name}.tmj' for name in maps_with_it}, holders)
    check_replace('tiles.tsx', 4, 5, 1, holders)
    value = next(value for value in values_of(tree_in(EXAMPLE_MAPS / 'two_tilesets.tmj')) if value > 32)
    check_replace('tiles', value - 33, value - 32, 33, {'two_tilesets.tmj'})
    # The tileset with the first id 1 ends below 33: there it has no tile 40.
    with folder_of(two=(EXAMPLE_MAPS / 'two_tilesets.tmj').read_bytes()) as folder:
        see((0, '', ''), run('replace_tiles', folder, 'tiles.tsx', value - 1, 2))
        see([], written_in(folder))
    replace = script('replace_tiles').replace
    see_undo(EXAMPLE_MAPS / 'objects.tmj', lambda document: see(3, replace(document, 'tiles.tsx', 4, 5)))


def values_of(tree):
    """The values of all cells and objects."""
    cells = [value for layer in maps.layers_in(tree['layers']) if layer['type'] == 'tilelayer' for value in maps.cells_of(layer)]
    return {*cells, *(each.get('gid', 0) for each in maps.objects_in(tree))}


# ---- check_maps


def spawn(number, **members):
    """A spawn point as the rules want it."""
    given = [maps.property_of('facing', 'string', 'south'), maps.property_of('team', 'int', 1)]
    return maps.thing(number, **{'type': 'Spawn', 'point': True, 'properties': given, **members})


def guarded(*things, **members):
    """A map of 2 by 1 cells with these objects, and with the tileset of 32 tiles that stands beside it."""
    layers = [maps.tiles(1, name='Ground', data=[33, 32 + FLAGS]), maps.things(2, *things, name='Things')]
    return maps.map_of(*layers, **{'tilesets': [{'firstgid': 2, 'source': 'town.tsj'}], **members})


def test_check_maps():
    door = maps.thing(4, type='Door', x=33, y=0, name='door')
    # At the lower right corner, which is still on the map; and above it.
    corner, above = maps.thing(6, x=32, y=16), maps.thing(7, name='above', x=0, y=-1)
    chest = maps.thing(5, name='chest', gid=35 + 0x80000000)
    trees = {
        'a_good': guarded(spawn(3)),
        'b_none': guarded(),
        'c_typed': guarded(spawn(3, properties=[maps.property_of('team', 'string', '1')])),
        'd_door': guarded(spawn(3), door, corner, above),
        'e_tile': {**guarded(spawn(3)), 'layers': [maps.tiles(1, name='Ground', data=[0, 34]), maps.things(2, spawn(3), chest, name='Things')]},
        'f_cut': CUT,
        'g_below': {**guarded(spawn(3)), 'tilesets': [{'firstgid': 34, 'source': 'town.tsj'}]},
    }
    wanted = [
        {'file': 'b_none', 'rule': 'needed'},
        {'file': 'c_typed', 'rule': 'typed', 'layer': 'Things', 'object': 3, 'name': 'thing 3', 'x': 0, 'y': 0},
        {'file': 'c_typed', 'rule': 'typed', 'layer': 'Things', 'object': 3, 'name': 'thing 3', 'x': 0, 'y': 0},
        {'file': 'd_door', 'rule': 'outside', 'layer': 'Things', 'object': 4, 'name': 'door', 'x': 33, 'y': 0},
        {'file': 'd_door', 'rule': 'typed', 'layer': 'Things', 'object': 4, 'name': 'door', 'x': 33, 'y': 0},
        {'file': 'd_door', 'rule': 'outside', 'layer': 'Things', 'object': 7, 'name': 'above', 'x': 0, 'y': -1},
        {'file': 'e_tile', 'rule': 'tile', 'layer': 'Things', 'object': 5, 'name': 'chest', 'x': 0, 'y': 0},
        {'file': 'e_tile', 'rule': 'tile', 'layer': 'Ground', 'x': 1, 'y': 0},
        {'file': 'f_cut', 'rule': 'opens', 'code': 60, 'line': CUT_LINE, 'column': CUT_COLUMN},
        # Both values are below the first id.
        {'file': 'g_below', 'rule': 'tile', 'layer': 'Ground', 'x': 1, 'y': 0},
        {'file': 'g_below', 'rule': 'tile', 'layer': 'Ground', 'x': 0, 'y': 0},
    ]
    with folder_of(**trees) as folder:
        shutil.copy(EXAMPLE_MAPS / 'town.tsj', folder)
        status, told, errors = run('check_maps', folder, '--json')
        faults = [{**fault, 'file': Path(fault['file']).stem} for fault in json.loads(told)]
        came = [{name: value for name, value in fault.items() if name not in ('text', 'place')} for fault in faults]
        for one, other in zip(wanted, came):
            see(one, other)
        see((1, '', len(wanted)), (status, errors, len(came)))
        status, told, errors = run('check_maps', folder)
        see((1, '', len(faults)), (status, told, sum(line.startswith(str(folder)) for line in errors.splitlines())))
        for name in [*trees][1:]:
            (folder / f'{name}.tmj').unlink()
        see(((0, '[]\n', ''), (0, '', '')), (run('check_maps', folder, '--json'), run('check_maps', folder)))
        see((2, 2), (run('check_maps')[0], run('check_maps', folder / 'none')[0]))
        see(maps.text_of(trees['a_good']), (folder / 'a_good.tmj').read_bytes())


# ---- dungeon


def reached_from(rows, x, y):
    """The cells of the same value that are joined to one."""
    found, new = {(x, y)}, [(x, y)]
    while new:
        x, y = new.pop()
        for place in ((x + 1, y), (x - 1, y), (x, y + 1), (x, y - 1)):
            if place not in found and rows[place[1]][place[0]] == rows[y][x]:
                found.add(place)
                new.append(place)
    return found


def test_dungeon():
    with tempfile.TemporaryDirectory() as folder:
        one, other = Path(folder) / 'one.tmj', Path(folder) / 'other.tmj'
        see((0, 0), (run('dungeon', one, 'seed')[0], run('dungeon', other, 'seed')[0]))
        data = one.read_bytes()
        see(data, other.read_bytes())
        status, _, told = run('dungeon', one, 'another seed')
        see((1, f'{one} is there already\n', data), (status, told, one.read_bytes()))
        tree, rows = tree_in(one), rows_in(one)
        see((200, 200, ['Floor', 'Spawn points']), (tree['width'], tree['height'], [layer['name'] for layer in tree['layers']]))
        floor, wall = 3, 10
        see({floor, wall}, {value for row in rows for value in row})
        edge = [*rows[0], *rows[-1], *(row[0] for row in rows), *(row[-1] for row in rows)]
        see({wall}, {*edge})
        spawns = maps.objects_in(tree)
        see((40, 1), (len(spawns), sum(each['name'] == 'player' for each in spawns)))
        floors = reached_from(rows, int(spawns[0]['x'] // 16), int(spawns[0]['y'] // 16))
        see(sum(row.count(floor) for row in rows), len(floors))
        for each in spawns:
            see(('Spawn', True, True), (each['type'], each['point'], (each['x'] // 16, each['y'] // 16) in floors))
            team = 1 if each['name'] == 'player' else 2
            given = sorted((one['name'], one['type'], one['value']) for one in each['properties'])
            see([('facing', 'string', 'south'), ('team', 'int', team)], given)
    dungeon = script('dungeon')
    with Editor() as editor:
        document = editor.new('dungeon', 200, 200, 16, 16, 'town.tsj')
        before, rooms = document.map(), [(1, 1, 5, 5), (20, 30, 6, 7)]
        with document.macro('Dungeon'):
            dungeon.dig(document, rooms)
            dungeon.add_spawn_points(document, rooms)
        see((1, 2), (document.status.index, len(document.objects)))
        document.undo()
        see(before, document.map())


# ---- autotile

RING = [[9, 9, 9, 11, 9], [9, 0, 14, 0, 9], [9, 9, 12, 9, 9], [0, 0, 9, 0, 0]]
# Posts at corners, walls from side to side, their sides up and down; a window, a door and a tree stay.
RING_DONE = [[9, 10, 10, 11, 9], [17, 0, 14, 0, 17], [9, 10, 12, 10, 9], [0, 0, 17, 0, 0]]


def test_autotile():
    with folder_of(ring=drawn(RING, name='Walls'), none=drawn(RING)) as folder:
        see((0, 'saved\n', ''), run('autotile', folder / 'ring.tmj'))
        see((RING_DONE, ['ring.tmj']), (rows_in(folder / 'ring.tmj'), written_in(folder)))
        age(folder)
        see((0, 'nothing to change\n', ''), run('autotile', folder / 'ring.tmj'))
        status, _, told = run('autotile', folder / 'none.tmj')
        see((1, f'{folder / "none.tmj"}: no tile layer Walls\n'), (status, told))
        see([], written_in(folder))
        see((0, 'saved\n', ''), run('autotile', folder / 'none.tmj', 'Ground'))
        see(RING_DONE, rows_in(folder / 'none.tmj'))
    autotile_all = script('autotile').autotile_all
    see_undo(maps.text_of(drawn(RING, name='Walls')), lambda document: autotile_all(document, 'Walls'))
    with Editor() as editor:
        document = editor.open(EXAMPLE_MAPS / 'town.tmj')
        see(2, autotile_all(document, 'Walls'))
        autotile_all(document, 'Walls')
        see(1, document.status.count)


# ---- crop


def test_crop():
    rows = [[0] * 6, [0, 0, 5, 0, 0, 0], [0, 6, 0, 0, 0, 0], [0] * 6, [0] * 6]
    objects = [maps.thing(3, x=40, y=40, width=20, height=8), maps.thing(4, x=-100, y=8, width=8, height=8), maps.thing(5, x=16, y=16, gid=5)]
    trees = {
        'cells': drawn(rows),
        'things': drawn(rows, more=[maps.things(2, *objects)]),
        # There are 16 pixels to a cell on both axes of the isometric one; in the hexagonal one objects do not count.
        'isometric': drawn(rows, more=[maps.things(2, *objects)], orientation='isometric', tilewidth=32),
        'hexagonal': drawn(rows, more=[maps.things(2, *objects)], orientation='hexagonal', hexsidelength=8, staggeraxis='y', staggerindex='odd'),
        'full': drawn([[1, 0], [0, 1]]),
        'empty': drawn([[0, 0], [0, 0]]),
        'cut': CUT,
    }
    with folder_of(**trees) as folder:
        status, _, told = run('crop', *[folder / f'{name}.tmj' for name in sorted(trees)])
        see((1, True), (status, CUT_PLACE in told))
        see(['cells.tmj', 'hexagonal.tmj', 'isometric.tmj', 'things.tmj'], written_in(folder))
        see([[0, 5], [6, 0]], rows_in(folder / 'cells.tmj'))
        # Each second row lies aside there: so it begins at an even one.
        see([[0, 0, 0], [0, 0, 5], [0, 6, 0]], rows_in(folder / 'hexagonal.tmj'))
        # The first object reaches from 2, 2 to 3, 2; the second one is beside the map; the third one, a tile, is in the row 0, which it stands on.
        for name in ('things', 'isometric'):
            see([[0, 0, 0], [0, 5, 0], [6, 0, 0]], rows_in(folder / f'{name}.tmj'))
        places = [(each['x'], each['y']) for each in maps.objects_in(tree_in(folder / 'things.tmj'))]
        see([(24, 40), (-116, 8), (0, 16)], places)
    see_undo(maps.text_of(trees['things']), script('crop').crop)


# ---- make_room


def test_make_room():
    tilesets = [{'firstgid': first, 'source': f'{first}.tsj'} for first in (1, 5, 300)]
    made = drawn([[1, 4, 5], [7, 300, FLAGS | 302]], tilesets=tilesets, more=[maps.things(2, maps.thing(3, gid=FLAGS | 6), maps.thing(4, gid=301))])
    with folder_of(made=made, roomy=drawn([[1, 2]]), cut=CUT, last=drawn([[1, 100]], tilesets=[{'firstgid': 1}, {'firstgid': 2**28 - 101}])) as folder:
        paths = [folder / f'{name}.tmj' for name in ('made', 'roomy', 'cut', 'last')]
        status, out, told = run('make_room', 200, *paths)
        see((1, f'{paths[0]}: first ids 1 201 401\n'), (status, out))
        see((True, ['made.tmj']), (CUT_PLACE in told, written_in(folder)))
        tree = tree_in(paths[0])
        see([(1, '1.tsj'), (201, '5.tsj'), (401, '300.tsj')], [(each['firstgid'], each['source']) for each in tree['tilesets']])
        see([[1, 4, 201], [203, 401, FLAGS | 403]], rows_in(paths[0]))
        see([FLAGS | 202, 402], [each['gid'] for each in maps.objects_in(tree)])
        # There is no first id so great: such a map stays as it is.
        status, out, told = run('make_room', 2**28 - 50, paths[0])
        see((1, '', True), (status, out, 'out of range' in told))
    see_undo(maps.text_of(made), lambda document: script('make_room').make_room(document, 200))


# ---- text_map

GRID = 'a 5\nb 2147483653\nc 7\n\n.ab\nc..\n'


def test_text_map():
    rows = [[0, 5, 2147483653], [7, 0, 0]]
    with folder_of(small=drawn(rows), empty=drawn([[0, 0]])) as folder:
        path, grid = folder / 'small.tmj', folder / 'grid'
        see((0, 'a 5\nb 7\nc 2147483653\n\n.ac\nb..\n', ''), run('text_map', path, 'Ground'))
        see((0, '\n..\n', ''), run('text_map', folder / 'empty.tmj', 'Ground'))
        for text in (GRID, run('text_map', path, 'Ground')[1]):
            grid.write_text(text)
            see((0, '', ''), run('text_map', path, 'Ground', grid))
        see((['grid'], rows), (written_in(folder), rows_in(path)))
        grid.write_text('x 5\n. 6\n\n')
        grid.write_text('x 9\n\nx.\n.x\n')
        see((0, '', ''), run('text_map', path, 'Ground', grid))
        see([[9, 0, 2147483653], [0, 9, 0]], rows_in(path))
        data = path.read_bytes()
        for text, words in (('x 9\n\nxy\n', 'letters without a line: y'), ('x nine\n\nx\n', "no letter with a value: 'x nine'"), ('x 9\n\nx\nxx\n', 'rows')):
            grid.write_text(text)
            status, _, told = run('text_map', path, 'Ground', grid)
            see((1, True, data), (status, words in told, path.read_bytes()))
        see((1, 1), (run('text_map', path, 'None')[0], run('text_map', folder / 'none.tmj', 'Ground')[0]))
    text_map = script('text_map')
    see_undo(maps.text_of(drawn(rows)), lambda document: document.layers[1].write(0, 0, text_map.rows_of('x 9\n\nx.x\n')))

    def fault_of(case):
        with Editor() as editor:
            document = editor.open(case.given)
            for layer in document.layers.walk():
                if layer.kind == 'tile':
                    see(layer.rows(), text_map.rows_of(text_map.grid_of(layer)))
                    layer.write(0, 0, text_map.rows_of(text_map.grid_of(layer)))
            return unlike(0, document.status.count)

    check_each([Case(path.name, path, None) for path in sorted(EXAMPLE_MAPS.glob('*.tmj'))], fault_of)


# ---- rename_property


def renamed(tree, old, new):
    """A tree in which a property of the map, of layers and of objects has another name."""
    for owner in (tree, *maps.layers_in(tree['layers']), *maps.objects_in(tree)):
        for each in owner.get('properties', []):
            if each['name'] == old:
                each['name'] = new
    return tree


def test_rename_property():
    both = ['image_layer.tmj', 'properties.tmj']
    for old, new, files in (('truth', 'other', both), ('object', 'other', both), ('lines', 'two words', both), ('float one', '', both),
                            ('file', 'a\nb', both), ('locked', 'other', ['house.tmj', 'town.tmj'])):
        with folder_of() as folder:
            before = trees_in(folder)
            status, told, errors = run('rename_property', folder, old, new)
            see((0, files, ''), (status, [line.partition(':')[0] for line in told.splitlines()], errors))
            see(files, written_in(folder))
            see({name: renamed(tree, old, new) for name, tree in before.items()}, trees_in(folder))
    with folder_of() as folder:
        (folder / 'cut.tmj').write_bytes(CUT)
        age(folder)
        status, told, errors = run('rename_property', folder, 'truth', 'int')
        stays = [line.partition(' ')[0] for line in errors.splitlines() if 'stays as it is' in line]
        see((1, '', ['cut.tmj', *both], []), (status, told, stays, written_in(folder)))
        assert CUT_PLACE in errors, errors
    rename = script('rename_property').rename
    see_undo(EXAMPLE_MAPS / 'properties.tmj', lambda document: see(4, rename(document, 'truth', 'veritas')))
    listed = [maps.property_of('a', 'int', 1), {**maps.property_of('b', 'class', {'c': [1]}), 'propertytype': 'T'}, maps.property_of('d', 'float', 1.5)]
    with Editor() as editor:
        document = editor.open(maps.text_of(maps.map_of(maps.tiles(1), properties=listed)))
        before = document.map()
        with contextlib.suppress(ValueError):
            rename(document, 'a', 'b')
            raise AssertionError('a')
        see((before, 0), (document.map(), document.status.index))
        rename(document, 'b', 'e')
        rename(document, 'd', 'f')
        see([listed[0], {**listed[1], 'name': 'e'}, {**listed[2], 'name': 'f'}], document.map()['properties'])


# ---- watch_folder


def test_watch_folder():
    with folder_of(good=guarded(spawn(3)), bad=guarded()) as folder:
        shutil.copy(EXAMPLE_MAPS / 'town.tsj', folder)
        watcher = script('watch_folder').Watcher(folder)

        def look():
            return list(watcher.look())

        none = 'no object of the class Spawn'
        see(['bad.tmj: found, 1 faults', f'  now: {none}', 'good.tmj: found, 0 faults'], look())
        see([], look())
        (folder / 'bad.tmj').write_bytes(maps.text_of(guarded(maps.thing(9, type='Door', name='door'))))
        see(['bad.tmj: changed, 2 faults', "  now: object 9 'door' at 0, 0: no property locked"], look())
        (folder / 'bad.tmj').write_bytes(maps.text_of(guarded(spawn(3))))
        see(['bad.tmj: changed, 0 faults', f'  no longer: {none}', "  no longer: object 9 'door' at 0, 0: no property locked"], look())
        (folder / 'bad.tmj').write_bytes(CUT)
        told = look()
        see(('bad.tmj: changed, 1 faults', True), (told[0], CUT_PLACE in ' '.join(told)))
        (folder / 'bad.tmj').unlink()
        (folder / 'new.tmj').write_bytes(maps.text_of(guarded()))
        see(['bad.tmj: gone', 'new.tmj: found, 1 faults', f'  now: {none}'], look())
        process = subprocess.Popen([sys.executable, EXAMPLES / 'watch_folder.py', folder, '0.05'], stdout=subprocess.PIPE, text=True)
        see('good.tmj: found, 0 faults\n', process.stdout.readline())
        lines = [process.stdout.readline() for _ in range(2)]
        see(['new.tmj: found, 1 faults\n', f'  now: {none}\n'], lines)
        (folder / 'new.tmj').unlink()
        see('new.tmj: gone\n', process.stdout.readline())
        process.send_signal(signal.SIGINT)
        see(('', 0), (process.stdout.read(), process.wait(60)))
    see(1, run('watch_folder', folder)[0])


# ---- quest


def test_quest():
    """A layer with its class and members, a point, a hidden polygon and a turned tile; and the roof, which was hidden, is clear."""
    with folder_of() as folder:
        wanted = tree_in(folder / 'town.tmj')
        roof = next(layer for layer in maps.layers_in(wanted['layers']) if layer['name'] == 'Roof')
        roof.update(opacity=0, visible=True)
        corners = [{'x': 0, 'y': 0}, {'x': 48, 'y': 16}, {'x': 32, 'y': 64}, {'x': -16, 'y': 48}]
        given = [maps.property_of('wants', 'string', 'a key')]
        objects = [
            maps.thing(7, name='giver', type='Person', point=True, x=320, y=240, width=0, height=0, properties=given),
            maps.thing(8, name='search here', type='Area', visible=False, polygon=corners, x=320, y=240, width=0, height=0),
            maps.thing(9, name='sign', gid=31, rotation=45, x=336, y=240, width=16, height=16),
        ]
        quest = maps.things(17, *objects, name='Quest', color='#ffaa00', **{'class': 'Quest'})
        wanted['layers'].append({**quest, 'draworder': 'index'})
        wanted.update(nextlayerid=18, nextobjectid=10)
        see(0, run('quest', folder / 'town.tmj', folder / 'other.tmj')[0])
        see((['other.tmj'], wanted), (written_in(folder), tree_in(folder / 'other.tmj')))
        see(0, run('quest', folder / 'town.tmj')[0])
        see(wanted, tree_in(folder / 'town.tmj'))
        (folder / 'cut.tmj').write_bytes(CUT)
        status, _, told = run('quest', folder / 'cut.tmj')
        see((1, True, CUT), (status, CUT_PLACE in told, (folder / 'cut.tmj').read_bytes()))
    see_undo(EXAMPLE_MAPS / 'town.tmj', script('quest').add_quest)
    see_undo(EXAMPLE_MAPS / 'house.tmj', script('quest').add_quest)


# ---- console

POND = """
document.stamp('Ground', 2, 2, [[8, 8], [8, 8]])
document.stamp('Ground', 5, 3, [[8]])
frog = document.layers['Things'].objects.add('frog', 40, 40)
frog.properties['age'] = 3
document.objects['door'].remove()
document.properties['author'] = 'me'
"""
FAILS = "document.stamp('Ground', 2, 5, [[8]])\ndocument.layers['Cellar']\n"
# What the first of them changes in objects.tmj, whose next object has the id 8 or more.
CHANGED = [
    "object {id} 'frog': added", "object 1 'door': removed", 'the map: changed', "layer 1 'Ground': cells in 4 by 2 at 2, 2",
]


def consoled(folder, *commands):
    """The status of the console over a map, and the lines that it tells."""
    status, told, errors = run('console', folder / 'objects.tmj', said=''.join(f'{line}\n' for line in commands))
    see('', errors)
    return status, told.splitlines()


def test_console():
    with folder_of() as folder:
        path, pond, fails, none = folder / 'objects.tmj', folder / 'pond.py', folder / 'fails.py', folder / 'none.py'
        pond.write_text(POND)
        fails.write_text(FAILS)
        none.write_text("document.layers['Ground']\n")
        before = tree_in(path)
        changed = [line.format(id=before['nextobjectid']) for line in CHANGED]
        see((0, [*changed, 'undone: pond.py', 'redone: pond.py', 'undone: pond.py']), consoled(folder, f'run {pond}', 'undo', 'redo', 'undo', 'quit'))
        # What changes nothing drops nothing that can be redone.
        see((1, [*changed, 'undone: pond.py', 'nothing changed', 'redone: pond.py']), consoled(folder, f'run {pond}', 'undo', f'run {none}', 'redo'))
        # A script that fails leaves nothing, not even to be redone; the step before it stays.
        status, told = consoled(folder, f'run {pond}', f'run {fails}', 'steps', 'redo', 'undo', 'quit')
        see((0, changed, 'the map is as it was', 'pond.py', 'undone: pond.py'), (status, told[:4], told[5], told[6], told[8]))
        see((True, True), (told[4].startswith(f"{fails}, line 2: NotFound: there is no layer 'Cellar' here"), told[7].startswith('22 ')))
        see((1, changed), consoled(folder, f'run {pond}'))
        status, told = consoled(folder, f'run {pond}', 'quit', 'discard')
        see((0, True), (status, told[-1].startswith('13 ')))
        see((before, []), (tree_in(path), [name for name in written_in(folder) if name.endswith('.tmj')]))
        status, told = consoled(folder, f'run {folder / "missing.py"}', 'walk', f'run {fails}', f'run {pond}', 'save', 'quit')
        see((0, 'saved'), (status, told[-1]))
        wanted, water = before, before['layers'][0]['data']
        for at in (2 * 8 + 2, 2 * 8 + 3, 3 * 8 + 2, 3 * 8 + 3, 3 * 8 + 5):
            water[at] = 8
        frog = maps.thing(before['nextobjectid'], name='frog', x=40, y=40, width=0, height=0, properties=[maps.property_of('age', 'int', 3)])
        things = wanted['layers'][1]
        things['objects'] = [each for each in things['objects'] if each['name'] != 'door'] + [frog]
        wanted['properties'] = [*wanted.get('properties', []), maps.property_of('author', 'string', 'me')]
        wanted['nextobjectid'] += 1
        see(wanted, tree_in(path))


# ---- beside


def test_beside():
    left = drawn([[1, 2], [33, 4]], tilesets=[{'firstgid': 1, 'source': 'a.tsj'}, {'firstgid': 33, 'source': 'b.tsj'}], more=[maps.things(2, name='Things')])
    flipped = 0x80000000
    point = maps.thing(3, name='', type='Spawn', point=True, x=5, y=6, width=0, height=0, properties=[maps.property_of('to', 'object', 4)])
    sign = maps.thing(4, name='sign', gid=1 + flipped, rotation=45, x=8, y=9, visible=False, properties=[maps.property_of('team', 'int', 1)])
    over = maps.tiles(6, 1, 3, name='Over', data=[0, 0, 2], opacity=0, **{'class': 'sky'})
    right = drawn(
        [[1], [flipped + 34], [0]], tilesets=[{'firstgid': 1, 'source': 'b.tsj'}, {'firstgid': 33, 'source': 'a.tsj'}],
        more=[maps.things(5, point, sign, name='Things'), over], properties=[maps.property_of('author', 'string', 'me')])
    inner = maps.tiles(2, name='Ground', data=[1, 1], properties=[maps.property_of('a', 'float', 1)])
    sky = maps.layer_of(3, 'imagelayer', name='Sky', image='a.png', offsetx=8)
    group = maps.map_of(maps.group(1, inner, name='Group', opacity=0), sky, tilesets=[{'firstgid': 1, 'source': 'a.tsj'}])
    with folder_of(left=left, right=right, group=group) as folder:
        paths = [folder / f'{name}.tmj' for name in ('left', 'right', 'both')]
        see((0, '', ''), run('beside', *paths))
        see(['both.tmj'], written_in(folder))
        both = tree_in(paths[2])
        ground, things, new = both['layers']
        see((3, 3, [1, 2, 33, 33, 4, flipped + 2, 0, 0, 0]), (both['width'], both['height'], ground['data']))
        first, second = things['objects']
        wanted = {**point, 'id': first['id'], 'x': 37, 'properties': [maps.property_of('to', 'object', second['id'])]}
        see((wanted, {**sign, 'id': second['id'], 'x': 40, 'gid': 33 + flipped}), (first, second))
        see(maps.tiles(new['id'], 3, 3, name='Over', data=[0] * 8 + [34], opacity=0, **{'class': 'sky'}), new)
        see((right['properties'], left['tilesets']), (both['properties'], both['tilesets']))
        # A group, and what stands in it; and a tileset that the left map has not.
        see((0, '', ''), run('beside', paths[0], folder / 'group.tmj', paths[2]))
        both = tree_in(paths[2])
        wanted = {**inner, 'id': 9002, 'data': [0, 0, 1, 1, 0, 0, 0, 0], 'width': 4, 'height': 2}
        see([maps.group(9001, wanted, name='Group', opacity=0), {**sky, 'id': 9003, 'offsetx': 40}], both['layers'][2:])
        see((0, '', ''), run('beside', folder / 'group.tmj', paths[1], paths[2]))
        both = tree_in(paths[2])
        see([{'firstgid': 1, 'source': 'a.tsj'}, {'firstgid': 2, 'source': 'b.tsj'}], both['tilesets'])
        see(([0, 0, 2, 0, 0, flipped + 2, 0, 0, 0], flipped + 2), (both['layers'][2]['data'], both['layers'][3]['objects'][1]['gid']))
    joining = script('beside').Joining
    with Editor() as other:
        right_map = other.open(maps.text_of(right))
        see_undo(maps.text_of(left), lambda document: joining(document, right_map).join())
        see((0, True), (right_map.status.count, right_map.status.clean))


def test_beside_of_other_folders_and_fractions():
    """Paths lead from the folder of the left map, and what has a fraction is carried as all else is."""
    listed = [maps.property_of('speed', 'float', 1.5), maps.property_of('tune', 'file', 'a.ogg'),
              {**maps.property_of('shop', 'class', {'open': True}), 'propertytype': 'Shop'}, maps.property_of('two words', 'string', 'a\nb')]
    door = maps.thing(1, x=1.5, y=2, width=8, template='door.tx', properties=listed, polygon=[{'x': 0, 'y': 0}, {'x': 0.5, 'y': 8}])
    art = {'firstgid': 1, 'name': 'art', 'image': 'art.png', 'imagewidth': 32, 'imageheight': 16, 'tilewidth': 16, 'tileheight': 16, 'tilecount': 2,
           'columns': 2, 'margin': 0, 'spacing': 0}
    right = drawn([[2]], tilesets=[art, {'firstgid': 3, 'source': '../b.tsx'}], more=[maps.things(2, door, name='Things')], properties=listed[1:3])
    left = drawn([[7]], tilesets=[{'firstgid': 1, 'source': 'c.tsx'}])
    with tempfile.TemporaryDirectory() as top:
        folder = Path(top)
        (folder / 'maps').mkdir()
        (folder / 'maps' / 'right.tmj').write_bytes(maps.text_of(right))
        (folder / 'left.tmj').write_bytes(maps.text_of(left))
        (folder / 'c.tsx').write_text('<tileset name="c" tilecount="40"/>')
        status, _, told = run('beside', folder / 'left.tmj', folder / 'maps' / 'right.tmj', folder / 'both.tmj')
        see((0, ''), (status, told))
        both = tree_in(folder / 'both.tmj')
        see([{'firstgid': 1, 'source': 'c.tsx'}, {**art, 'firstgid': 41, 'image': 'maps/art.png'}, {'firstgid': 43, 'source': 'b.tsx'}], both['tilesets'])
        item = both['layers'][1]['objects'][0]
        carried = [listed[0], {**listed[1], 'value': 'maps/a.ogg'}, *listed[2:]]
        see(({'x': 17.5, 'y': 2, 'template': 'maps/door.tx', 'properties': carried, 'polygon': door['polygon']}, carried[1:3], [7, 42]),
            ({name: item[name] for name in ('x', 'y', 'template', 'properties', 'polygon')}, both['properties'], both['layers'][0]['data']))
