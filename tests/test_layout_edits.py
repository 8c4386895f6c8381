# SPDX-License-Identifier: MIT OR Apache-2.0
"""Edits a map in the layouts that teams have, saves it over its file, and counts the lines that go
and come: each kind of edit, of own members too, changes its own lines, a neighbour's comma and the
next ids alone. The map is one that Tiled itself writes so. Its layouts are Tiled's, that minimized and with line ends
as on Windows, and those of Python's and Node's printers. How many lines an edit has, a table says
by the rules of docs/map-files.md. Each saved file is what the layout's printer makes of the edited
map, which the plain model tells; its tree is that of the compact save. With an undo and a save the
very bytes come back. As few lines change where members stand the other way round. Tiled opens each
saved file, and what it saves again is the file in its layout, but for two things that it changes.
Typed calls of the Python package save the same bytes."""
import json
import shutil
import sys
import tempfile
from contextlib import contextmanager
from pathlib import Path

from lib import tiled_package
from lib.asides import OPTION, as_in
from lib.cases import CORES, Case, check_each, passed, unlike
from lib.edits import EDITS, edited, read_edit
from lib.map_layouts import in_base64, in_csv, lines_changed, map_for_edits, printers, turned
from lib.maps import compact, map_of, text_of, tiles
from lib.members import MEMBER_EDITS, read_members
from lib.places import EXAMPLE_MAPS, TOP
from lib.sessions import ALL_EDITS, heard
from lib.whole_things import WHOLE_EDITS, read_whole_things

sys.path.insert(0, str(TOP / 'python'))
from roskevad import Editor  # noqa: E402

IS_LONG = True
PACKAGES = ('tiled',)

# ---- how many lines an edit changes

# Each edit with the lines that go and those that come: in Tiled's layout, where all cells of a
# layer are one line, and in an indented one, where each cell is a line. An object, a property or a
# tileset has a line for each member and two for its braces. A new tile layer has 10 members, a new
# object layer and an object 9, a property 3, a tileset 2. Indented, 12 cells take 13 lines more.
# The bracket that ends a list shares its line with the last brace in Tiled's layout; indented, it
# has a line of its own.
EDIT_ROWS = [
    # The cells that are given.
    ('stamp 1 1 1 2 20,21', (1, 1), (2, 2)),
    ('stamp 6 0 0 1 9', (1, 1), (1, 1)),
    ('erase 1 0 0 2 2', (1, 1), (4, 4)),
    ('fill 2 0 0 7', (1, 1), (12, 12)),
    # The width of the map, and width and cells of three layers. The cells: one more in each of
    # three rows; the last one gets a comma, but for the empty layer, to which zeros are added.
    ('resize 5 3 0 0', (7, 7), (4 + 1 + 0 + 1, 4 + 4 + 3 + 4)),
    # Both sizes of the map, both and the cells of three layers, and a coordinate of three objects.
    # Of the cells half go, and one more loses its comma.
    ('resize 3 2 -1 0', (2 + 9 + 3, 2 + 9 + 3), (11 + 7 + 6 + 7, 11 + 1 + 0 + 1)),
    # With the next id.
    ('layer add tile Roof', (1, 1 + 12), (1, 1 + 12 + 13)),
    ('layer add object Doors', (1, 1 + 11), (1, 1 + 11)),
    ('layer remove 2', (12, 0), (12 + 13, 0)),
    # An object layer without objects, whose list is one line.
    ('layer remove 4', (11, 0), (11, 0)),
    # A group: seven members, `layers` with its brackets, and the layer in it.
    ('layer remove 5', (2 + 7 + 1 + 12, 0), (2 + 7 + 2 + 12 + 13, 0)),
    # Where the layers stand, cells, ids and names are others; indented, fewer lines have all of one
    # layer go and come.
    ('layer move 1 1', (6, 6), (25, 25)),
    ('layer rename 2 Äußere/Mauer', (1, 1), (1, 1)),
    ('layer show 2 no', (1, 1), (1, 1)),
    # With the next id; into a list that was empty, with its brackets.
    ('object add 3 16 0 16 16 door', (1, 1 + 11), (1, 1 + 11)),
    ('object add 4 16 0 16 16 door', (2, 2 + 11), (2, 3 + 11)),
    ('object move 1 20 40', (2, 2), (2, 2)),
    ('object resize 1 9 7', (2, 2), (2, 2)),
    # Without properties, and with two and their brackets.
    ('object remove 2', (11, 0), (11, 0)),
    ('object remove 1', (11 + 1 + 10, 0), (11 + 2 + 10, 0)),
    # The value; with its type; one more; the first one, with its brackets.
    ('prop set map people int 13', (1, 1), (1, 1)),
    ('prop set map people string many', (2, 2), (2, 2)),
    ('prop set map ready bool true', (0, 5), (0, 5)),
    ('prop set map age int 3', (0, 5), (0, 5)),
    ('prop set object:2 key string iron', (0, 6), (0, 7)),
    ('prop set layer:2 note string walls', (0, 6), (0, 7)),
    ('prop remove map author', (5, 0), (5, 0)),
    ('prop remove layer:3 note', (6, 0), (7, 0)),
    ('tileset add 65 town.tsj', (0, 4), (0, 4)),
    ('tileset remove 33', (4, 0), (4, 0)),
]
# Own members. A new one stands by its name. In front of all members of the map it takes the bracket
# on its line in Tiled's layout. A point of a polygon has two members.
read_members()
MEMBER_ROWS = [
    ('member set object:1 rotation 90', (1, 1), (1, 1)),
    ('member set object:2 point true', (0, 1), (0, 1)),
    ('member set object:3 polygon [{"x":0,"y":0},{"x":8,"y":4}]', (0, 1 + 8), (0, 2 + 8)),
    ('member set layer:2 tintcolor "#ff8000"', (0, 1), (0, 1)),
    ('member set layer:6 opacity 0', (1, 1), (1, 1)),
    ('member set map backgroundcolor "#203040"', (1, 2), (0, 1)),
    ('member set map renderorder "left-up"', (1, 1), (1, 1)),
    ('member put object:2 {"name":"gate","rotation":45,"type":"door"}', (3, 3), (3, 3)),
    ('member put layer:3 {"offsetx":8,"offsety":-4}', (0, 2), (0, 2)),
    ('member put map {"hexsidelength":8,"orientation":"hexagonal"}', (1, 2), (1, 2)),
    ('member remove object:1 rotation', (1, 0), (1, 0)),
    ('member remove layer:3 draworder', (1, 0), (1, 0)),
    ('member remove map compressionlevel', (2, 1), (1, 0)),
]
# Lines that move things, set properties whole and give the map room. As many lines go and come as in what the printer makes of the map.
PLACE_LINES = [
    'object into 1 4 0', 'object into 2 3 2', 'object into 1 3 2', 'layer into 2 5 1', 'layer into 6 0 0', 'layer into 3 5 0', 'layer into 5 0 0',
    'prop put map {"name":"people","type":"int","value":13}', 'prop put object:2 {"name":"two words","propertytype":"T","type":"class","value":{"a":[1]}}',
    'extend 1 0 0 0', 'extend 0 2 1 1',
]
# The edits of a map in Base64, where the cells of a layer are one text. So are those of a new one.
CELL_WORDS = ('stamp', 'erase', 'fill', 'resize')
BASE64_ROWS = [
    *((line, one, one) for line, one, _ in EDIT_ROWS if line.split(' ')[0] in CELL_WORDS),
    # Two more members say that it is so.
    ('layer add tile Roof', (1, 1 + 14), (1, 1 + 14)),
]
# What Tiled's next save changes besides. It sorts properties, and a new one stands last.
# It writes some members of each object, layer and map, and two more of a hexagonal map.
CHANGED_BY_TILED = {
    ('prop set map age int 3', in_csv): (5, 5),
    ('member put map {"hexsidelength":8,"orientation":"hexagonal"}', in_csv): (0, 2),
    ('member remove object:1 rotation', in_csv): (0, 1),
    ('member remove layer:3 draworder', in_csv): (0, 1),
    ('member remove map compressionlevel', in_csv): (1, 2),
}
# Where members do not stand by their names, a new one stands last, behind one that gets a comma.
# The first ones by their names stand last there, so the ones before them lose theirs.
BEHIND_OTHERS = {
    'prop set object:2 key string iron': (1, 1 + 7),
    'member set object:2 point true': (1, 1 + 1),
    'member set object:3 polygon [{"x":0,"y":0},{"x":8,"y":4}]': (1, 1 + 10),
    'member set layer:2 tintcolor "#ff8000"': (1, 1 + 1),
    'member set map backgroundcolor "#203040"': (1, 1 + 1),
    'member put layer:3 {"offsetx":8,"offsety":-4}': (1, 1 + 2),
    'member put map {"hexsidelength":8,"orientation":"hexagonal"}': (2, 2 + 1),
    'member remove layer:3 draworder': (1 + 1, 1),
    'member remove map compressionlevel': (1 + 1, 1),
}
# The one edit whose undo, saved, does not bring the very bytes back. Python's printer escapes
# letters beyond ASCII. A file tells that by having such an escape. This layer has the only one, so
# once it is gone from the file, its letter comes back as it is.
NOT_BROUGHT_BACK = [('layer remove 4', "Python's")]


def lines_of(row, layout):
    """How many lines go and come with an edit in a layout."""
    _, in_tiled, indented = row
    own = {'minimized': (1, 1), "Python's": indented, "Node's": indented}
    return own.get(layout, in_tiled)


def tree_behind(tree, line):
    """The tree of a map behind an edit, by the plain model."""
    return edited(json.dumps(tree), (), read_edit(line)).tree


# ---- saves of the program


def saved(data, *lines, options=(OPTION,)):
    """What a session saves that opens a map and hears these lines."""
    session = '\n'.join(['open m m.tmj', *lines, 'save m.tmj', '']).encode()
    done, files = heard(session, {'m.tmj': data}, [*options, ALL_EDITS])
    assert b'\nno ' not in b'\n' + done.stdout and not done.stderr, done
    return files['m.tmj']


def fault_of_edit(case):
    """How a save, or the save of its undo, is not as it should be, or None."""
    tree, layout, line = case.given
    printer = printers()[layout]
    source = printer(tree)
    came = saved(source, line)
    changed = lines_changed(source, came)
    if case.wanted and changed != case.wanted:
        return f'wanted {case.wanted} lines to go and come, went and came {changed}'
    behind = tree_behind(tree, line)
    fault = unlike(printer(as_in(source, behind)), came)
    fault = fault or unlike(saved(source, line, options=()), compact(printer(behind)))
    if fault or (line, layout) in NOT_BROUGHT_BACK:
        return fault
    return unlike(source, saved(source, line, 'save m.tmj', 'undo'))


def check_rows(rows, form):
    """Looks at each edit of a table in each layout."""
    tree = map_for_edits(form)
    cases = [
        Case(f'{row[0]}, {layout}', (tree, layout, row[0]), lines_of(row, layout))
        for row in rows
        for layout in printers()
    ]
    check_each(cases, fault_of_edit, CORES)


def test_edits():
    kinds = {read_edit(row[0]).words for row in EDIT_ROWS}
    plain = set(EDITS) - {'select', 'select none', *MEMBER_EDITS, *WHOLE_EDITS} | {'layer add'}
    assert kinds == plain and len(kinds) == 17, kinds
    check_rows(EDIT_ROWS, in_csv)


def test_edits_of_places():
    read_whole_things()
    tree = map_for_edits(in_csv)
    cases = [Case(f'{line}, {layout}', (tree, layout, line), None) for line in PLACE_LINES for layout in printers()]
    check_each(cases, fault_of_edit, CORES)


def test_edits_of_own_members():
    assert {read_edit(row[0]).words for row in MEMBER_ROWS} == set(MEMBER_EDITS)
    check_rows(MEMBER_ROWS, in_csv)


def test_edits_in_base64():
    """The empty compression stays."""
    check_rows(BASE64_ROWS, in_base64)


MANY_COLUMNS, MANY_ROWS = 60, 50
LINES_OF_MANY = (
    'stamp 1 59 49 1 3',
    'stamp 1 0 0 1 99',
    'stamp 2 30 20 2 5,6',
    'fill 2 3 3 7',
    'erase 1 0 0 60 50',
    'resize 61 50 0 0',
    'resize 60 40 0 -10',
    'layer move 1 1',
    'layer remove 2',
)


def map_with_many_cells():
    """A map whose layers have more bytes than are looked at in one go."""
    cells = [1 + at * at % 70_001 for at in range(MANY_COLUMNS * MANY_ROWS)]
    layers = (
        tiles(1, MANY_COLUMNS, MANY_ROWS, data=cells),
        tiles(2, MANY_COLUMNS, MANY_ROWS),
    )
    return map_of(*layers, width=MANY_COLUMNS, height=MANY_ROWS, nextlayerid=3, version='1.8')


def fault_of_many(case):
    """How a save is not what the layout's printer makes of the edited map, or that of its undo not
    what the file had, or None."""
    tree, printer, line = case.given
    source = printer(tree)
    fault = unlike(printer(tree_behind(tree, line)), saved(source, line))
    return fault or unlike(source, saved(source, line, 'save m.tmj', 'undo'))


def test_edits_of_many_cells():
    tree = map_with_many_cells()
    cases = [
        Case(f'{line}, {layout}', (tree, printer, line), None)
        for line in LINES_OF_MANY
        for layout, printer in printers().items()
    ]
    check_each(cases, fault_of_many, CORES)


def fault_of_turned(case):
    """How a save changes more lines than it should of a file whose members do not stand by their
    names, or has another map, or None. What an undo brings back behind a save has its members by
    their names, so those bytes are not looked at."""
    tree, line = case.given
    source = json.dumps(turned(json.loads(text_of(tree))), indent=2).encode()
    came = saved(source, line)
    wanted = case.wanted, tree_behind(tree, line)
    return unlike(wanted, (lines_changed(source, came), json.loads(came)))


def test_edits_of_members_turned_round():
    tree = map_for_edits()
    cases = [
        Case(line, (tree, line), BEHIND_OTHERS.get(line, indented))
        for line, _, indented in EDIT_ROWS + MEMBER_ROWS
    ]
    check_each(cases, fault_of_turned, CORES)


# ---- Tiled opens what is saved


@contextmanager
def folder_of_maps():
    """A folder with the tilesets of the map."""
    with tempfile.TemporaryDirectory() as name:
        folder = Path(name) / 'maps'
        shutil.copytree(EXAMPLE_MAPS, folder)
        yield folder


def saved_again(folder, name, data):
    """What Tiled saves of a file's bytes, or None where it does not open them."""
    path = folder / f'{name}.tmj'
    path.write_bytes(data)
    return tiled_package.exported(path, folder, f'again_{name}.tmj')


def fault_of_tiled(case):
    """How Tiled changes more than it should, or None. What it saves of a file in another layout is
    the same."""
    folder, at, tree, line = case.given
    files = {name: saved(printer(tree), line) for name, printer in printers().items()}
    texts = {
        name: saved_again(folder, f'{at}_{place}', data)
        for place, (name, data) in enumerate(files.items())
    }
    first = texts["Tiled's"]
    others = [name for name, text in texts.items() if first is None or text != first]
    if others:
        return f'Tiled saves other bytes, or none, of {others}'
    return unlike(case.wanted, lines_changed(files["Tiled's"], first))


def test_tiled_saves_edits_again():
    with folder_of_maps() as folder:
        rows = [(in_csv, row) for row in EDIT_ROWS + MEMBER_ROWS]
        rows += [(in_base64, row) for row in BASE64_ROWS]
        cases = [
            Case(
                f'{line}, {form.__name__}',
                (folder, at, map_for_edits(form), line),
                CHANGED_BY_TILED.get((line, form), (0, 0)),
            )
            for at, (form, (line, *_)) in enumerate(rows)
        ]
        check_each(cases, fault_of_tiled, CORES)


def test_tiled_has_the_map():
    """The map is what Tiled writes, byte for byte."""
    with folder_of_maps() as folder:
        for form in (in_csv, in_base64):
            source = printers()["Tiled's"](map_for_edits(form))
            fault = unlike(source, saved_again(folder, form.__name__, source))
            assert not fault, fault
            passed()


# ---- typed calls of Python


def name_a_layer(document):
    document.layers[2].name = 'Äußere/Mauer'


def add_an_object(document):
    document.layers[4].objects.add('door', 16, 0, 16, 16)


def set_rotation(document, degrees):
    document.objects[1].members['rotation'] = degrees


def set_tint(document, colour):
    document.layers[2].members['tintcolor'] = colour


def put_offsets(document):
    document.layers[3].members.update(offsetx=8, offsety=-4)


CALLS = {
    'stamp 1 1 1 2 20,21': lambda document: document.stamp(1, 1, 1, [[20, 21]]),
    'erase 1 0 0 2 2': lambda document: document.erase(1, 0, 0, 2, 2),
    'fill 2 0 0 7': lambda document: document.fill(2, 0, 0, 7),
    'resize 3 2 -1 0': lambda document: document.resize(3, 2, -1, 0),
    'layer add tile Roof': lambda document: document.layers.add('tile', 'Roof'),
    'layer remove 5': lambda document: document.layers['House'].remove(),
    'layer move 1 1': lambda document: document.layers['Ground'].move(1),
    'layer rename 2 Äußere/Mauer': name_a_layer,
    'layer show 2 no': lambda document: setattr(document.layers[2], 'visible', False),
    'object add 4 16 0 16 16 door': add_an_object,
    'object move 1 20 40': lambda document: document.objects[1].move(20, 40),
    'object resize 1 9 7': lambda document: document.objects[1].resize(9, 7),
    'object remove 1': lambda document: document.objects[1].remove(),
    'prop set map ready bool true': lambda document: document.properties.set('ready', True),
    'prop remove layer:3 note': lambda document: document.layers[3].properties.pop('note'),
    'tileset add 65 town.tsj': lambda document: document.tilesets.add(65, 'town.tsj'),
    'tileset remove 33': lambda document: document.tilesets[33].remove(),
    'member set object:1 rotation 90': lambda document: set_rotation(document, 90),
    'member set layer:2 tintcolor "#ff8000"': lambda document: set_tint(document, '#ff8000'),
    'member put layer:3 {"offsetx":8,"offsety":-4}': put_offsets,
    'member remove map compressionlevel': lambda document: document.members.pop('compressionlevel'),
}


def fault_of_call(case):
    """How the bytes of a save, and of the save of its undo, differ from the program's, or None."""
    source, line = case.given
    with Editor() as editor:
        document = editor.open(source, 'm')
        CALLS[line](document)
        came = document.save_bytes()
        document.undo()
        return unlike((saved(source, line), source), (came, document.save_bytes()))


def test_python():
    """A call of each kind saves the bytes that the program saves."""
    kinds = {read_edit(line).words for line in CALLS}
    assert len(kinds) == 17 + len(MEMBER_EDITS), kinds
    assert set(CALLS) <= {row[0] for row in EDIT_ROWS + MEMBER_ROWS}
    tree = map_for_edits()
    cases = [
        Case(f'{line}, {layout}', (printer(tree), line), None)
        for line in CALLS
        for layout, printer in printers().items()
    ]
    check_each(cases, fault_of_call)
