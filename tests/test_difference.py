# SPDX-License-Identifier: MIT OR Apache-2.0
"""Tries what the Python package tells of two maps that differ: its words for each kind of change, and its statuses, which are those of
diff(1). For 150 pairs of maps with random edits the lines that lead from the one to the other are done by the program: its file has what
the other one has. Two maps are told to be the same if their files have the same, and only then. What no line can say is told so."""
import base64
import contextlib
import json
import random
import struct
import subprocess
import sys
import tempfile
import zlib
from pathlib import Path

from lib.cases import CORES, Case, check_each, see, unlike
from lib.histories import New, new_layer, put_back
from lib.maps import packed
from lib.merges import layers_of
from lib.places import TOP
from lib.sessions import ALL_EDITS, ALL_MAPS

sys.path.insert(0, str(TOP / 'python'))
import roskevad  # noqa: E402
from roskevad import Editor, Error  # noqa: E402

MAPS = TOP / 'examples' / 'maps'
SEED, PAIRS = 20261130, 150
ONE_OF_FILES = (
    'town.tmj', 'house.tmj', 'groups.tmj', 'objects.tmj', 'infinite.tmj', 'layers.tmj', 'properties.tmj', 'two_tilesets.tmj', 'zlib.tmj', 'base64.tmj',
)


def two(editor, file='town.tmj'):
    return [editor.open(MAPS / file, name) for name in ('one', 'other')]


def tree_of(data):
    """What a file has, unpacked, as a text in which true is not 1; without its version, and what says that nothing is packed."""
    tree = json.loads(data, parse_float=lambda text: int(float(text)) if float(text).is_integer() else float(text))
    tree.pop('version', None)
    for layer, _ in layers_of(tree):
        if layer.pop('compression', ''):
            layer['data'] = f'packed: {zlib.decompress(base64.b64decode(layer["data"])).hex()}'
    return json.dumps(tree, sort_keys=True)


# ---- words

WORDS = [
    ('nothing', 'pass', []),
    ('cells', 'town.stamp("Ground", 3, 4, [[7, 7], [0, 7]])', ['layer 1 "Ground": 3 cells in 3,4 to 4,5: tiles.tsx:0 -> tiles.tsx:6']),
    ('a flipped tile', 'town.stamp("Ground", 0, 0, [[2147483655]])',
     ['layer 1 "Ground": 1 cell in 0,0 to 0,0: tiles.tsx:0 -> tiles.tsx:6 flipped horizontally']),
    ('the last cell', 'town.stamp("Ground", 39, 29, [[7]])', ['layer 1 "Ground": 1 cell in 39,29 to 39,29: tiles.tsx:0 -> tiles.tsx:6']),
    ('empty cells', 'town.erase("Walls", 6, 3, 2, 1)', ['layer 4 "Walls": 2 cells in 6,3 to 7,3: tiles.tsx:9 -> empty']),
    ('a name', 'town.layers["Ground"].name = "Earth"', ['layer 1 "Earth": name "Ground" -> "Earth"']),
    ('members', 'town.layers["Ground"].members.update(opacity=0.5, tintcolor="#ff8800")',
     ['layer 1 "Ground": opacity 1 -> 0.5', 'layer 1 "Ground": tint color none -> "#ff8800"']),
    ('an object', 'town.objects["Inn"].members.update(x=100.5, rotation=45, type="House")',
     ['object 2 "Inn": rotation 0 -> 45', 'object 2 "Inn": class "Door" -> "House"', 'object 2 "Inn": x 128 -> 100.5']),
    ('its tile', 'town.objects["key"].tile = 5', ['object 4 "key": tile tiles.tsx:20 -> tiles.tsx:4']),
    ('true, which is not 1', 'town.objects["Inn"].members["kept"] = 1\nother.objects["Inn"].members["kept"] = True', ['object 2 "Inn": kept true -> 1']),
    ('2.0, which is 2', 'town.objects["Inn"].x = 128.0', []),
    ('an object that is added', 'town.layers["Things"].objects.add("barrel", 16, 24.5)', ['object 7 "barrel": added, in layer 15 "Things" at 16, 24.5']),
    ('one without a name', 'town.layers["Things"].objects.add("", 16, 24)', ['object 7: added, in layer 15 "Things" at 16, 24']),
    ('a name that would steer a terminal', 'town.objects["Inn"].name = "\\x1b[2J\\x9b"',
     ['object 2 "\\u001b[2J\\u009b": name "Inn" -> "\\u001b[2J\\u009b"']),
    ('one that is removed', 'town.objects["key"].remove()', ['object 4 "key": removed, in layer 15 "Things"']),
    ('one in another layer', 'town.objects["key"].move_into("Places")', ['object 4 "key": moved into layer 16 "Places"']),
    ('one in front', 'town.objects["Lake"].move_into("Places", 0)', ['object 5 "Lake": moved to place 0']),
    ('one behind the others', 'town.objects["Inn"].move_into("Places")', ['object 2 "Inn": moved to place 4']),
    ('the other way round', 'for each in list(town.layers["Places"].objects):\n  each.move_into("Places", 0)',
     ['object 5 "Lake": moved to place 1', 'object 3 "Smithy": moved to place 2', 'object 2 "Inn": moved to place 3', 'object 1 "start": moved to place 4']),
    ('two layers of objects', 'for name in ("Inn", "Lake"):\n  town.objects[name].move_into("Things")\nfor name in ("start", "key"):\n'
     '  town.objects[name].move_into("Places")',
     ['object 2 "Inn": moved into layer 15 "Things"', 'object 5 "Lake": moved into layer 15 "Things"', 'object 1 "start": moved to place 2',
      'object 4 "key": moved into layer 16 "Places"']),
    ('two groups', 'town.layers["Cottages"].move_into("Green")\ntown.layers["Trees"].move_into("Houses")\ntown.layers["Inn"].move_into("Green")',
     ['layer 12 "Trees": moved into layer 2 "Houses"', 'layer 10 "Cottages": moved into layer 11 "Green"', 'layer 3 "Inn": moved into layer 11 "Green"']),
    ('a property', 'town.properties["author"] = "me"', ['map: property author: "the Roskevad project" -> "me"']),
    ('its type', 'town.properties.set("people", "many", type="string")', ['map: property people: 12 (int) -> "many" (string)']),
    ('a new one, and none', 'del town.properties["night"]\ntown.properties["a b"] = 1.5', ['map: property night: false -> none', 'map: property a b: none -> 1.5']),
    ('their order', 'value = town.properties["author"]\ndel town.properties["author"]\ntown.properties["author"] = value',
     ['map: order of properties: ["author", "music", "night", "people"] -> ["music", "night", "people", "author"]']),
    ('a layer in a group', 'town.layers.add("group", "New").layers.add("tile", "Roofs")',
     ['layer 17 "New": added, a group', 'layer 18 "Roofs": added, a tile layer, in layer 17 "New"']),
    ('a group that is removed', 'town.layers["Green"].remove()',
     ['layer 11 "Green": removed, a group', 'layer 12 "Trees": removed, a tile layer', 'layer 13 "Bushes and fences": removed, a tile layer']),
    ('one of which a layer stays', 'town.layers["Bushes and fences"].move_into(None)\ntown.layers["Green"].remove()',
     ['layer 11 "Green": removed, a group', 'layer 12 "Trees": removed, a tile layer', 'layer 13 "Bushes and fences": moved out of all groups']),
    ('a layer that is moved', 'town.layers["Smithy"].move_into(None)', ['layer 7 "Smithy": moved out of all groups']),
    ('a layer in front', 'town.layers["Ground"].move(3)', ['layer 1 "Ground": moved to place 3']),
    ('a tileset', 'town.tilesets.add(1000, "walls.tsj")', ['tileset walls.tsj: added, first id 1000']),
    ('a tileset twice', 'town.tilesets.add(1000, "tiles.tsx")\ntown.stamp("Ground", 0, 0, [[1001]])',
     ['tileset tiles.tsx: added, first id 1000', 'layer 1 "Ground": 1 cell in 0,0 to 0,0: tiles.tsx:0 -> tiles.tsx (2):1']),
    ('its corners', 'town.objects["Lake"].members["polygon"] = [{"x": 0, "y": 0}, {"x": 9, "y": 0}, {"x": 9, "y": 8}]\n'
     'other.objects["Lake"].members["polygon"] = [{"x": 0, "y": 0}, {"x": 8, "y": 0}, {"x": 9, "y": 8}, {"x": 0, "y": 4}]',
     ['object 5 "Lake": polygon 4 corners -> 3 corners']),
    ('a text', 'town.objects["Inn"].members["text"] = {"text": "B", "bold": True, "halign": "center"}\n'
     'other.objects["Inn"].members["text"] = {"text": "A", "halign": "left"}',
     ['object 2 "Inn": horizontal alignment "left" -> "center", text "A" -> "B", bold none -> true']),
    ('words of panels', 'town.layers["Ground"].members.update(offsetx=4, parallaxy=0.5)\ntown.layers["Things"].members["draworder"] = "index"',
     ['layer 1 "Ground": horizontal offset none -> 4', 'layer 1 "Ground": vertical parallax factor none -> 0.5',
      'layer 15 "Things": drawing order "topdown" -> "index"']),
    ('a tileset in the map', "town._edit('tileset put {\"firstgid\":1000,\"name\":\"walls\",\"image\":\"walls.png\",\"imagewidth\":16,\"imageheight\":16,"
     '\"tilecount\":1,\"columns\":1,\"margin\":0,\"spacing\":0,\"tilewidth\":16,\"tileheight\":16}\')',
     ['tileset walls: added, first id 1000, with the picture walls.png']),
    ('its file', 'town.tilesets[1].source = "art/tiles.tsx"', ['tileset art/tiles.tsx: file "tiles.tsx" -> "art/tiles.tsx"']),
    ('what a map has of it', 'town.tilesets[1].members["origin"] = "the old town"', ['tileset tiles.tsx: origin none -> "the old town"']),
    ('the map', 'town.background = "#112233"', ['map: background color none -> "#112233"']),
    ('its size', 'town.extend(left=2, bottom=1)', ['map: 40 by 30 cells -> 42 by 31, all moved by 2, 0']),
    ('its size alone', 'town.extend(right=1)', ['map: 40 by 30 cells -> 41 by 30']),
    ('its size, and more', 'town.extend(top=3)\ntown.objects["Inn"].x = 0\ntown.stamp("Ground", 0, 3, [[7]])',
     ['map: 40 by 30 cells -> 40 by 33, all moved by 0, 3', 'layer 1 "Ground": 1 cell in 0,3 to 0,3: tiles.tsx:0 -> tiles.tsx:6', 'object 2 "Inn": x 128 -> 0']),
    ('what it counts', 'town.layers["Things"].objects.add("a", 0, 0).remove()', ['map: next object id 7 -> 8']),
]


def fault_of_words(case):
    with Editor() as editor:
        other, town = two(editor)
        exec(case.given, {'town': town, 'other': other})
        found = other.difference(town)
        told = [str(each) for each in found]
        town.mark_clean()
        other.mark_clean()
        return unlike((case.wanted, '\n'.join(case.wanted)), (told, str(found))) or (None if found.lines is not None else f'no lines, for {found.left}')


def test_words():
    """Each has lines, too."""
    check_each([Case(*row) for row in WORDS], fault_of_words)


# ---- what is no change, and what no line says


def test_first_ids_that_are_counted_anew():
    """Tiles are the same by their tileset and their id there: that a first id differs is told alone."""
    tree = json.loads((MAPS / 'two_tilesets.tmj').read_text())
    other = json.loads(json.dumps(tree).replace('"firstgid": 33', '"firstgid": 40'))
    for layer in other['layers']:
        layer['data'] = [value + 7 if 33 <= value < 1 << 28 else value for value in layer.get('data', [])]
    assert other != tree
    with Editor() as editor:
        found = editor.open(json.dumps(tree).encode()).difference(editor.open(json.dumps(other).encode()))
        see(['tileset tiles: first id 33 -> 40'], [str(each) for each in found])
        see(('tileset number 33 40',), found.lines)


def test_a_move_where_first_ids_are_counted_anew():
    """By how much all was moved is found by the tiles of tilesets, not by values."""
    with Editor() as editor:
        one, other = two(editor, 'two_tilesets.tmj')
        other.tilesets.renumber(33, 40)
        other.tilesets.renumber(1, 3)
        other.extend(left=1, top=1)
        see(['map: 8 by 6 cells -> 9 by 7, all moved by 1, 1', 'tileset tiles.tsx: first id 1 -> 3', 'tileset tiles: first id 33 -> 40'],
            [str(each) for each in one.difference(other)])
        done(editor)


def test_layers_that_come_back():
    """Each in one line, at its place and with all in it; one in a group that comes back is in that line."""
    with Editor() as editor:
        one, other = two(editor)
        one.layers['Things'].remove()
        one.layers['Green'].remove()
        one.layers['Inn'].remove()
        found = one.difference(other)
        see([f'layer put {place} {{"' for place in ('2 0', '0 2', '0 4')], [line[:line.index('{') + 2] for line in found.lines])
        see([4, 3, 1], [line.count('"type":"tilelayer"') + line.count('"objects":[{') + line.count('"layers":[{') for line in found.lines])
        editor.run_lines(['use one', *found.lines])
        see([], [*one.difference(other)])
        done(editor)


def test_layers_too_large_for_a_line():
    """They are added empty, and then what they hold; and what is longer yet on its own."""
    with Editor() as editor:
        one, other = (editor.new(name, 300, 200, 16, 16, 'a.tsj') for name in ('one', 'other'))
        group = other.layers.add('group', 'Group')
        group.layers.add('tile', 'Ground').write(0, 0, [[x * y % 5 for x in range(300)] for y in range(200)])
        things = group.layers.add('object', 'Things').objects
        for x in range(900):
            things.add(f'a rather long name of a thing {x}', x, 0)
        inner = group.layers.add('image', 'Sky')
        for at in range(2):
            inner.properties.set(f'long {at}', 'a' * 40_000)
        found = one.difference(other)
        assert found.lines, found.left
        see([*['layer'] * 4, 'member', *['object'] * 900, 'stamp'], [line.split(' ')[0] for line in found.lines][:906])
        see([True, True], [max(map(len, found.lines)) <= 65_535, len(found.lines) < 960])
        done(editor)


@contextlib.contextmanager
def one_and_other(one, other):
    with Editor() as editor:
        yield editor.open(one, 'one'), editor.open(other, 'other')
        done(editor)


def done(editor):
    for document in editor.documents.values():
        document.mark_clean()


def with_a_layer(file, **members):
    """A map as a file, and as it is with one layer more."""
    with Editor() as editor:
        document = editor.open(MAPS / file)
        before = document.save_bytes()
        document.layers.put({'type': 'tilelayer', 'id': 90, 'name': 'New', **members}).write(1, 1, [[2]])
        return before, document.save_bytes()


def test_formats_of_new_layers():
    """A save gives a new layer the format of the others: where it has that one in the other map, no line says so, and else a line does, if it
    can."""
    rows = [('numbers', 'town.tmj', {}, 0), ('base64', 'base64.tmj', {}, 0), ('zlib', 'zlib.tmj', {}, 0), ('chunks', 'infinite.tmj', {}, 0),
            ('base64 beside numbers', 'town.tmj', {'encoding': 'base64'}, 1), ('base64 beside zlib', 'zlib.tmj', {'encoding': 'base64'}, 1)]

    def fault_of(case):
        file, members, count = case.given
        with one_and_other(*with_a_layer(file, **members)) as (one, other):
            lines = one.difference(other).lines
            return unlike((1, case.wanted), lines and (len(lines), sum('encoding' in line for line in lines)))

    check_each([Case(name, given, given[2]) for name, *given in rows], fault_of)


def test_what_no_line_says():
    """That a map is infinite, or that zlib has packed a new layer where it has not packed the others."""
    tree = json.loads(with_a_layer('base64.tmj')[0])
    layer = json.loads(with_a_layer('zlib.tmj')[1])['layers'][-1]
    tree['layers'].append({**layer, 'id': 90})
    tree['nextlayerid'] = 91
    with one_and_other(json.dumps({**tree, 'layers': tree['layers'][:-1]}).encode(), json.dumps(tree).encode()) as (one, other):
        found = one.difference(other)
        see((None, True), (found.lines, found.left[0].words.startswith('what is of the file itself')))
        see(True, other.difference(one).lines is not None)


def test_versions_of_the_format():
    """Each file keeps its own, and lines lead from the one to the other."""
    tree = json.loads((MAPS / 'town.tmj').read_text())
    newer = json.dumps({**tree, 'version': '1.9'}).encode()
    with one_and_other(json.dumps({**tree, 'version': '1.10'}).encode(), newer) as (one, other):
        see([], [*one.difference(other)])
        other.objects['Inn'].x = 96
        see(('member put object:2 {"x":96}',), one.difference(other).lines)


def test_a_move_that_is_past_a_limit():
    """All objects but one seem to be moved along with the size, and with that one they can't be."""
    with Editor() as editor:
        maps = []
        for name, wide, moved in (('one', 2, 0), ('other', 3, 1)):
            document = editor.new(name, wide, 1, 1, 1, 'a.tsj')
            things = document.layers.add('object', 'Things').objects
            for x in (0, 5, 7):
                things.add(f'at {x}', x + moved, 0)
            things.add('far', 1_000_000_000, 0)
            document.mark_clean()
            maps.append(document)
        found = maps[0].difference(maps[1])
        see(['map: 2 by 1 cells -> 3 by 1', *(f'object {id} "at {x}": x {x} -> {x + 1}' for id, x in ((1, 0), (2, 5), (3, 7)))], [str(each) for each in found])
        assert found.lines, found.left


def test_groups_crosswise():
    """Of two groups each goes into the other one's place."""
    with Editor() as editor:
        one, other = two(editor)
        for document, (outer, inner) in ((one, ('A', 'B')), (other, ('B', 'A'))):
            groups = {name: document.layers.add('group', name) for name in ('A', 'B')}
            groups[inner].move_into(groups[outer])
        found = one.difference(other)
        see(['layer 17 "A": moved into layer 18 "B"', 'layer 18 "B": moved out of all groups'], sorted(str(each) for each in found))
        assert found.lines, found.left
        one.mark_clean()
        other.mark_clean()


# ---- lines, by chance


def edit(chosen, document):
    """One edit by chance; one that is refused changes nothing."""
    layers, objects = list(document.layers.walk()), list(document.objects)
    tiles = [layer for layer in layers if layer.kind == 'tile']
    holders = [layer for layer in layers if layer.kind == 'object']
    groups = [layer for layer in layers if layer.kind == 'group']
    owner = chosen.choice([document, *layers, *objects])
    first = document.tilesets.first
    value = first.value(chosen.randrange(8), flipped_vertically=chosen.random() < 0.2) if first else 0
    x, y = chosen.randint(-1, document.width), chosen.randint(-1, document.height)
    number = chosen.choice((0, 1, 16, 22.5, -3.25))
    kinds = [
        lambda: chosen.choice(tiles).write(x, y, [[chosen.choice((0, value)) for _ in range(4)] for _ in range(3)]),
        lambda: document.erase(chosen.choice(tiles), x, y, 3, 2),
        lambda: document.fill(chosen.choice(tiles), max(x, 0), max(y, 0), value),
        lambda: chosen.choice(holders).objects.add(chosen.choice(('', 'a', 'b c')), number, 8, point=chosen.random() < 0.5, properties={'a b': number}),
        lambda: chosen.choice(objects).remove(),
        lambda: chosen.choice(objects).members.update(x=number, rotation=chosen.choice((0, 45, 12.5)), name=chosen.choice(('', 'n'))),
        lambda: chosen.choice(objects).move_into(chosen.choice(holders), chosen.choice((0, None))),
        lambda: setattr(chosen.choice(objects), 'tile', chosen.choice((None, value or None))),
        lambda: document.layers.add(chosen.choice(('tile', 'object', 'group', 'image')), chosen.choice(('A', 'B b'))),
        lambda: chosen.choice(groups).layers.add('tile', 'inner'),
        lambda: document.layers.put(new_layer(chosen, New(document), value), chosen.choice([None, *groups]), chosen.randrange(2)),
        lambda: put_back(chosen, document, chosen.choice(layers)),
        lambda: chosen.choice(layers).remove(),
        lambda: chosen.choice(layers).move_into(chosen.choice([None, *groups]), chosen.choice((0, None))),
        lambda: chosen.choice(layers).members.update(opacity=chosen.choice((0.25, 1)), name=chosen.choice(('', 'L')), visible=chosen.random() < 0.5),
        lambda: owner.properties.set(chosen.choice(('a', 'b c', '')), chosen.choice((1, True, 1.5, '', 'x\ny', [1], {'k': 1}))),
        lambda: owner.properties.pop(chosen.choice(list(owner.properties))),
        lambda: document.members.update(backgroundcolor=chosen.choice(('#112233', '#445566'))),
        lambda: document.extend(*(chosen.choice((0, 0, 1, 2)) for _ in range(4))),
        lambda: document.resize(document.width - 1, document.height, chosen.choice((0, -1))),
        lambda: document.tilesets.add(chosen.choice((900, 1000)), chosen.choice(('a.tsj', 'b.tsj'))),
    ]
    try:
        chosen.choice(kinds)()
    except (Error, IndexError):
        pass


def pair(seed):
    """Two maps as files, and what is told of them."""
    chosen = random.Random(seed)
    with Editor() as editor:
        one, other = two(editor, chosen.choice(ONE_OF_FILES))
        for document, most in ((one, 2), (other, 8)):
            for _ in range(chosen.randint(0, most)):
                edit(chosen, document)
        files = [document.save_bytes() for document in (one, other)]
        # As files they are opened anew: an infinite map has another area then, if its edge was emptied.
        found = editor.open(files[0]).difference(editor.open(files[1]))
        return *files, [str(each) for each in found], found.lines, [str(each) for each in found.left]


def fault_of_pair(case):
    """How what is told of two maps is not so, or None. It is by the program, and by the trees of their files."""
    one, other, told, lines, left = pair(case.given)
    if (tree_of(one) == tree_of(other)) != (not told):
        return f'they are {"" if told else "not "}the same, and this is told: {told}'
    if lines is None:
        return None if left else 'no lines, and nothing that they leave'
    with tempfile.TemporaryDirectory() as folder:
        Path(folder, 'one.tmj').write_bytes(one)
        session = '\n'.join(['open one one.tmj', *lines, 'save one.tmj', ''])
        program = [TOP / 'bin' / 'tile_editor', '--folder', folder, '--strict', ALL_EDITS, ALL_MAPS]
        done = subprocess.run(program, input=session, capture_output=True, text=True)
        if done.returncode != 0:
            return f'{done.stderr}\n{session}'
        return unlike(tree_of(other), tree_of(Path(folder, 'one.tmj').read_bytes()))


def test_infinite_maps_that_grew():
    """One whose corner is farther left and farther up stays where it is on the plane: lines say so, by a line that has all stay there."""
    with Editor() as editor:
        one, other = (editor.open(TOP / 'sessions/all_edits/maps' / f'{name}.tmj') for name in ('corner', 'corner_extended'))
        found = one.difference(other)
        assert found.lines == ('extend 2 2 0 0', 'stamp 1 0 0 1 1'), found.lines
        assert found[0].words == '2 by 2 cells -> 4 by 4, 2 columns more at the left and 2 rows more above', found[0].words
        assert other.difference(one)[0].words == '4 by 4 cells -> 2 by 2, 2 columns fewer at the left and 2 rows fewer above'
        assert found[0].what == 'size', str(found)


def test_infinite_maps_that_grew_and_shrank():
    """One that has more columns at the left and fewer at the right gets room, and then it is cut. None loses a corner so."""
    tree = json.loads((MAPS / 'infinite.tmj').read_text())
    left = json.loads(json.dumps(tree))
    for layer, _ in layers_of(left):
        if 'chunks' in layer:
            layer['startx'] -= 32
            for chunk in layer['chunks']:
                chunk['x'] -= 32
    with one_and_other(*(json.dumps(each).encode() for each in (tree, left))) as (one, other):
        wide, high = one.width, one.height
        lines = one.difference(other).lines
        see(['extend 32 0 0 0', f'resize {wide} {high} 0 0'], [*(lines or ())][:2])
        see(None, other.difference(one).lines)


def test_lines_by_the_program():
    """Nearly all pairs have lines: those that have none have other chunks of an infinite map."""
    check_each([Case(f'pair {seed}', seed, None) for seed in range(SEED, SEED + PAIRS)], fault_of_pair, CORES)
    some = [pair(seed) for seed in range(SEED, SEED + 20)]
    have = sum(lines is not None for _, _, _, lines, _ in some)
    assert have >= 14, f'{have} of {len(some)} pairs have lines'


# ---- pictures and texts


def pixels(data):
    """The pixels of a PNG of a palette, by rows, each as its colour."""
    assert data[:8] == b'\x89PNG\r\n\x1a\n'
    parts, at = {}, 8
    while at < len(data):
        size, = struct.unpack('>I', data[at:at + 4])
        name, body, check = data[at + 4:at + 8], data[at + 8:at + 8 + size], data[at + 8 + size:at + 12 + size]
        see(check, struct.pack('>I', zlib.crc32(name + body)))
        parts[name], at = body, at + 12 + size
    wide, high, *kind = struct.unpack('>2I5B', parts[b'IHDR'])
    see([8, 3, 0, 0, 0], kind)
    rows, palette = zlib.decompress(parts[b'IDAT']), parts[b'PLTE']
    see((1 + wide) * high, len(rows))
    return [[tuple(palette[3 * value:3 * value + 3]) for value in rows[y * (wide + 1) + 1:(y + 1) * (wide + 1)]] for y in range(high)]


def test_pictures():
    """Cells as squares: one that is gone is red, a new one green, another one yellow, others grey; objects by their boxes."""
    with Editor() as editor:
        one, other = two(editor)
        other.erase('Walls', 3, 3, 1, 1)
        other.stamp('Trees', 10, 10, [[5]])
        other.stamp('Ground', 20, 20, [[9]])
        other.objects['Inn'].x = 320
        was = one.objects['Inn']
        rows = pixels(one.difference(other).picture())
        see((40 * 8, 30 * 8), (len(rows[0]), len(rows)))
        see([(220, 40, 40), (40, 170, 60), (230, 180, 0)], [rows[8 * y + 3][8 * x + 3] for x, y in ((3, 3), (10, 10), (20, 20))])
        red, green, blue = rows[8 * 25 + 3][8 * 5 + 3]
        see(True, red == green == blue < 255)
        see([(40, 90, 230), (255, 150, 150)], [rows[was.y // 2][x // 2] for x in (320, was.x)])
        other.mark_clean()


def test_pictures_of_large_maps():
    """They have smaller squares, of one pixel at least."""
    with Editor() as editor:
        documents = [editor.new(name, 2000, 3, 16, 16, 'a.tsj') for name in ('a', 'b')]
        documents[1].layers.add('tile', 'Ground')
        documents[1].stamp('Ground', 1999, 0, [[1]])
        rows = pixels(documents[0].difference(documents[1]).picture())
        see((4000, 6, (40, 170, 60)), (len(rows[0]), len(rows), rows[0][3999]))
        for document in documents:
            document.mark_clean()


def text_of(data):
    with tempfile.TemporaryDirectory() as folder:
        path = Path(folder, 'map.tmj')
        path.write_bytes(data)
        status, told, fault = command('--text', str(path))
        see((0, ''), (status, fault))
        return told.splitlines()


def test_texts():
    """A line for each fact; tiles are named by their tilesets, so that counting them anew changes nothing, and neither does room on a plane."""
    tree = json.loads((MAPS / 'two_tilesets.tmj').read_text())
    other = json.loads(json.dumps(tree).replace('"firstgid": 33', '"firstgid": 40'))
    for layer in other['layers']:
        layer['data'] = [value + 7 if 33 <= value < 1 << 28 else value for value in layer.get('data', [])]
    see(text_of(json.dumps(tree).encode()), text_of(json.dumps(other).encode()))
    with Editor() as editor:
        infinite, town = editor.open(MAPS / 'infinite.tmj'), editor.open(MAPS / 'town.tmj')
        before = text_of(infinite.save_bytes())
        infinite.extend(2, 2, 2, 2)
        see(before, text_of(infinite.save_bytes()))
        infinite.mark_clean()
        before = text_of(town.save_bytes())
        town.objects['Inn'].x = 96
        town.stamp('Ground', 0, 29, [[7, 7]])
        after = text_of(town.save_bytes())
        town.mark_clean()
        see('map, 40 by 30 cells', before[0])
        new = [line for line in after if line not in before]
        see(['  row 29: 0 to 1 tiles.tsx:6', '  x 96'], [new[0].partition(',')[0], new[1]])
        see(2, len(new))
        see(True, 'layer 4 "Walls", a tile layer, in layer 3 "Inn"' in before and '  property beds: 3 (int)' in before)


def test_texts_of_what_is_no_map():
    see(['{"a": ', 'b'], text_of(b'{"a": \nb\n'))


# ---- the command


def command(*words):
    done = subprocess.run([sys.executable, '-m', 'roskevad', 'diff', *words], cwd=TOP / 'python', capture_output=True, text=True)
    return done.returncode, done.stdout, done.stderr


def test_command():
    with tempfile.TemporaryDirectory() as folder, Editor(folder=folder) as editor:
        town = editor.open(MAPS / 'town.tmj')
        town.properties['author'] = 'me'
        town.save('one.tmj')
        tree = town.map()
        tree['layers'][0].update(encoding='base64', data=packed(tree['layers'][0]['data']))
        Path(folder, 'packed.tmj').write_text(json.dumps(tree))
        Path(folder, 'broken.tmj').write_text('{')
        one, other, same, broken = (str(Path(folder, name)) for name in ('one.tmj', 'packed.tmj', MAPS / 'town.tmj', 'broken.tmj'))
        told = 'map: property author: "the Roskevad project" -> "me"\n'
        lines = '# all edits, all maps\nprop put map {"name":"author","type":"string","value":"me"}\n'
        rows = [
            ('the same', (one, one), (0, '', '')), ('the same as JSON', ('--json', one, one), (0, '{"changes": []}\n', '')),
            ('the same as lines', ('--lines', one, one), (0, '', '')), ('another one', (same, one), (1, told, '')),
            ('as lines', ('--lines', same, one), (1, lines, '')),
        ]
        check_each([Case(*row) for row in rows], lambda case: unlike(case.wanted, command(*case.given)))
        see((1, told, ''), command('--png', f'{folder}/a.png', same, one))
        see(40 * 8, len(pixels(Path(folder, 'a.png').read_bytes())[0]))
        status, text, _ = command('--json', same, one)
        see((1, ['map', 0, '', 'property author']), (status, [json.loads(text)['changes'][0][name] for name in ('kind', 'id', 'name', 'what')]))
        trouble = [
            ('no such file', (one, f'{folder}/no.tmj'), f'50 no such file: {folder}/no.tmj\n'),
            ('no map', (broken, one), '60 not JSON'), ('one map', (one,), 'usage: '),
            ('two ways', ('--json', '--lines', one, one), 'not allowed'), ('a text of two', ('--text', one, one), 'wanted are two maps'),
            ('a picture that has no place', ('--png', f'{folder}/no/a.png', one, one), 'No such file'),
            ('no lines', ('--lines', other, one), 'no lines can say all of this:'),
        ]
        check_each([Case(*row) for row in trouble], lambda case: fault_of_trouble(case.wanted, *command(*case.given)))


def test_outputs_that_take_nothing():
    town, house = (str(MAPS / name) for name in ('town.tmj', 'house.tmj'))
    rows = [('a full disk', '> /dev/full', (2, 'No space left on device')), ('none', '>&-', (2, 'write failed')), ('none for faults', '2>&- >&-', (2, ''))]

    def fault_of(case):
        words = f'"$0" -m roskevad diff "$1" "$2" {case.given}'
        done = subprocess.run(['sh', '-c', words, sys.executable, town, house], cwd=TOP / 'python', capture_output=True, text=True)
        status, told = case.wanted
        return unlike((status, '', True), (done.returncode, done.stdout, told in done.stderr and 'Traceback' not in done.stderr))

    check_each([Case(*row) for row in rows], fault_of)


def fault_of_trouble(wanted, status, told, words):
    return unlike((2, '', True), (status, told, wanted in words)) and f'{status} {told!r} {words!r}'


def test_a_document_that_is_none():
    with Editor() as editor:
        one, other = two(editor)
        see(2, len({type(each) for each in (one.difference(other), roskevad.Difference(one, other)[:0])}))
        try:
            one.difference('town.tmj')
        except TypeError as fault:
            see('a map differs from that of a document: str', str(fault))
        else:
            raise AssertionError('nothing is raised')
