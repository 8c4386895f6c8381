# SPDX-License-Identifier: MIT OR Apache-2.0
"""Runs the tutorials of `docs/tutorials` over copies of the example maps: what each command prints,
and the reply to each line, must be what stands on the page; the lines must be those of the session
file; and the maps that are saved must be what plain edits of the example maps' trees make of
them."""
import json
import shutil
import tempfile
from pathlib import Path

from lib.any_maps import saved_as
from lib.asides import put_back, set_aside
from lib.cases import passed
from lib.edits import find_layer
from lib.maps import cells_of, compact, property_of, text_of, thing, things, written
from lib.pages import Clone, Page
from lib.places import BIN, EXAMPLES, EXAMPLE_MAPS, TOP, files_in

# The maps that are infinite, have a fraction, or are packed.
ALL_MAPS = {'infinite.tmj', 'opacity_half.tmj', 'zlib.tmj'}
# What a command ends with whose last line alone is on the page.
LAST_LINE = ' | tail -n 1'
LAVA, WATER = 13, 8
# Columns, rows, and how many of each.
LAKE, POND = (25, 17, 15, 12), (2, 12, 6, 5)


def town():
    """The tree of the town as it is written."""
    return json.loads(written((EXAMPLE_MAPS / 'town.tmj').read_bytes()))


def put(tree, number, x, y, rows):
    """Puts rows of values into a layer."""
    for down, row in enumerate(rows):
        at = (y + down) * tree['width'] + x
        find_layer(tree, number)['data'][at : at + len(row)] = row


def add_object(tree, layer, name, place, *properties):
    """Adds an object with properties."""
    number = tree['nextobjectid']
    x, y, width, height = place
    layer['objects'].append(
        thing(number, name=name, x=x, y=y, width=width, height=height, properties=list(properties))
    )
    tree['nextobjectid'] = number + 1


def with_house():
    """The town with a house in the place of some cells."""
    tree = town()
    put(
        tree,
        10,
        23,
        2,
        [
            [25, 26, 26, 26, 28, 27],
            [25, 26, 26, 26, 26, 27],
            [25, 26, 26, 26, 26, 27],
            [10, 11, 12, 10, 11, 10],
        ],
    )
    put(tree, 1, 21, 6, [[4] * 5])
    add_object(
        tree,
        find_layer(tree, 16),
        'New house',
        (25 * 16, 5 * 16, 16, 16),
        property_of('locked', 'bool', False),
    )
    return tree


def with_lava():
    """The town with lava in each cell of the rectangles that has water."""
    tree = town()
    cells = cells_of(find_layer(tree, 1))
    for x, y, width, height in (LAKE, POND):
        for at in (
            row * tree['width'] + column
            for row in range(y, y + height)
            for column in range(x, x + width)
        ):
            if cells[at] == WATER:
                cells[at] = LAVA
    return tree


def with_spawn_point(tree):
    """A map with a layer for the spawn point, in no group, and the spawn point in it."""
    layer = things(tree['nextlayerid'], name='Spawn points')
    tree['layers'].append(layer)
    tree['nextlayerid'] += 1
    middle = tree['width'] * tree['tilewidth'] // 2, tree['height'] * tree['tileheight'] // 2
    add_object(
        tree,
        layer,
        'spawn',
        (*middle, 0, 0),
        property_of('facing', 'string', 'south'),
        property_of('team', 'int', 1),
    )
    return tree


def lines_in(session):
    """The lines of a session file that are answered."""
    return [
        line
        for line in session.read_text().split('\n')
        if line.strip() and not line.startswith('#')
    ]


def see_files(page, folder, changed, gone=()):
    """Sees that a folder has the files of the example maps, but for those that are changed, and
    those that are gone."""
    wanted = {name: data for name, data in files_in(EXAMPLE_MAPS).items() if name not in gone}
    wanted.update(changed)
    files = files_in(folder)
    differ = sorted(
        name for name in wanted.keys() | files.keys() if wanted.get(name) != files.get(name)
    )
    assert not differ, f'{page.name}: {", ".join(differ)}: not what plain edits make'


def see_console(page, clone, console):
    """Sees that some commands print what the page has."""
    fault = clone.fault_of_console(console)
    assert not fault, f'{page.name}: {fault}'
    passed()


def check_session(name, saved, tree):
    """A page with the lines of one session, and the map that it saves."""
    page = Page(TOP / 'docs' / 'tutorials' / f'{name}.md')
    (run,) = page.runs()
    assert run.lines() == lines_in(
        EXAMPLES / f'{name}.session'
    ), f'{page.name}: the lines are not those of examples/{name}.session'
    with tempfile.TemporaryDirectory() as top:
        folder = Path(top) / 'maps'
        shutil.copytree(EXAMPLE_MAPS, folder)
        fault, _ = run.fault_in(BIN / 'tile_editor', folder)
        assert not fault, fault
        see_files(page, folder, {saved: text_of(tree)})
    passed(len(run.rows))
    with Clone() as clone:
        for console in page.consoles():
            clone.clear()
            see_console(page, clone, console)
            see_files(page, clone.maps, {saved: text_of(tree)})


def test_house():
    check_session('house', 'new_house.tmj', with_house())


def test_lava():
    check_session('lava', 'lava.tmj', with_lava())


def see_all_maps(page, folder):
    """Sees that each map of these kinds has a spawn point, and else is what it was. Gives the files."""
    files = {name: (folder / name).read_bytes() for name in ALL_MAPS}
    for name, data in files.items():
        source = json.loads((EXAMPLE_MAPS / name).read_bytes())
        wanted = put_back(with_spawn_point(set_aside(source)))
        assert saved_as(json.loads(data)) == saved_as(wanted), f'{page.name}: {name}: another map'
    return files


def see_maps(page, folder, wanted):
    """Sees that each map is the wanted one, whatever its layout. Gives the files."""
    files = {name: (folder / name).read_bytes() for name in wanted}
    for name, data in files.items():
        assert compact(data) == wanted[name], f'{page.name}: {name}: another map'
    return files


def test_spawn_points():
    """The page has the last of the lines that are printed. Without `tail` all of them are compared,
    and the status."""
    page = Page(TOP / 'docs' / 'tutorials' / 'spawn_points.md')
    refused, accepted = page.consoles()
    wanted = {
        name: text_of(with_spawn_point(json.loads(written(data))))
        for name, data in files_in(EXAMPLE_MAPS).items()
        if name.endswith('.tmj') and name not in ALL_MAPS
    }
    with Clone() as clone:
        see_console(page, clone, refused)
        see_files(page, clone.maps / 'spawn', {'cut.tmj': (clone.maps / 'spawn' / 'cut.tmj').read_bytes()})
        see_console(page, clone, accepted)
        changed = {**see_maps(page, clone.maps / 'spawn', wanted), **see_all_maps(page, clone.maps / 'spawn')}
        see_files(page, clone.maps / 'spawn', changed)
    command, _ = accepted[-1]
    assert command.endswith(LAST_LINE), f'{page.name}: {command}'
    told = [f'saved {name} {len(data)}' for name, data in sorted(changed.items())]
    whole = (command.removesuffix(LAST_LINE) + '; echo "status $?"', '\n'.join([*told, 'status 0']))
    with Clone() as clone:
        see_console(page, clone, refused)
        see_console(page, clone, [*accepted[:-1], whole])
        see_files(page, clone.maps / 'spawn', changed)
    passed(len(changed))
