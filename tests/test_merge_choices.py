# SPDX-License-Identifier: MIT OR Apache-2.0
"""Takes a side of what two people have changed otherwise in one map: what comes of it for each kind of conflict, by keys, for all, by answers; of
random pairs theirs in a merge into ours is what ours is in one into theirs. Tries what else is said of a merge: by how much all was moved, which
members of classes mean objects, marks for who settles conflicts in Tiled; and the command with its statuses and files."""
import collections
import json
import subprocess
import sys
import tempfile
from pathlib import Path

import test_merge
from lib.cases import Case, check_each, check_in_processes, see, unlike
from lib.merges import Checked, Table, said, told_by
from lib.places import TOP
from lib.repositories import MAPS, command, saved

sys.path.insert(0, str(TOP / 'python'))
from roskevad import Editor, merge  # noqa: E402

SEED, PAIRS = 20261202, 60
INN = test_merge.INN


def taken(ours, theirs, file='town.tmj', **more):
    """What a merge of two scripts' maps gives, and the map that comes of it."""
    with Editor() as editor:
        documents = test_merge.three(editor, file)
        exec(ours, {'map': documents[1]})
        exec(theirs, {'map': documents[2]})
        try:
            found = merge(*documents, **more)
        finally:
            tree = documents[1].map()
            test_merge.done(editor)
        return found, tree


# ---- what comes of each

TOWN = 'for layer in map.layers.walk():\n  layer.kind == "tile" and map.erase(layer, 0, 0, 40, 30)\nmap.objects["key"].remove()\n'
#: A name, two scripts, the keys of the conflicts, and what is done to ours where theirs is taken.
TAKEN = [
    ('a member', f'{INN}.x = 96', f'{INN}.x = 32', ['object:2/x'], ['object 2 "Inn": x 96 -> 32']),
    ('cells', 'map.stamp("Ground", 3, 4, [[7, 7]])', 'map.stamp("Ground", 3, 4, [[9, 9]])', ['layer:1/cells/3,4'],
     ['layer 1 "Ground": 2 cells in 3,4 to 4,4: tiles.tsx:6 -> tiles.tsx:8']),
    ('a property', 'map.properties["people"] = 13', 'map.properties["people"] = 14', ['map/property people'], ['map: property people: 13 -> 14']),
    ('a property that is gone', 'map.properties["people"] = 13', 'del map.properties["people"]', ['map/property people'],
     ['map: property people: 13 -> none']),
    ('an object that ours removed', f'{INN}.remove()', f'{INN}.x = 96', ['object:2/removed'], ['object 2 "Inn": added, in layer 16 "Places" at 96, 160']),
    ('an object that theirs removed', f'{INN}.x = 96', f'{INN}.remove()', ['object:2/removed'], ['object 2 "Inn": removed, in layer 16 "Places"']),
    ('a layer that ours removed', 'map.layers["Ground"].remove()', 'map.stamp("Ground", 0, 0, [[9]])', ['layer:1/removed'],
     ['layer 1 "Ground": added, a tile layer']),
    ('an object in a layer that is gone', 'map.layers["Things"].remove()', 'map.layers["Things"].objects.add("box", 1, 2)', ['object:7/added'],
     ['layer 15 "Things": added, an object layer', 'object 7 "box": added, in layer 15 "Things" at 1, 2']),
    ('a layer with its objects', 'map.layers["Things"].remove()', 'map.layers["Things"].name = "Objects"', ['layer:15/removed'],
     ['layer 15 "Objects": added, an object layer', 'object 4 "key": added, in layer 15 "Objects" at 496, 400']),
    ('a layer in a group that is gone', 'map.layers["Green"].remove()', 'map.layers["Green"].layers.add("tile", "Moss")', ['layer:17/added'],
     ['layer 11 "Green": added, a group', 'layer 17 "Moss": added, a tile layer, in layer 11 "Green"']),
    ('a group that theirs removed', 'map.layers["Trees"].opacity = 0.5', 'map.layers["Green"].remove()', ['layer:12/removed', 'layer:11/removed'],
     ['layer 11 "Green": removed, a group', 'layer 12 "Trees": removed, a tile layer', 'layer 13 "Bushes and fences": removed, a tile layer']),
    ('a layer into two groups', 'map.layers["Ground"].move_into("Green")', 'map.layers["Ground"].move_into("Houses")', ['layer:1/moved'],
     ['layer 1 "Ground": moved into layer 2 "Houses"']),
    ('into a group that is gone', 'map.layers["Green"].remove()', 'map.layers["Ground"].move_into("Green")', ['layer:1/moved'],
     ['layer 11 "Green": added, a group', 'layer 1 "Ground": moved into layer 11 "Green"']),
    ('groups crosswise', 'map.layers["Green"].move_into("Houses")', 'map.layers["Houses"].move_into("Green")', ['layer:2/moved'],
     ['layer 11 "Green": moved out of all groups', 'layer 2 "Houses": moved into layer 11 "Green"']),
    ('an order', 'map.layers["Ground"].move(2)', 'map.layers["Ground"].move(3)', ['layer:1/order'], ['layer 1 "Ground": moved to place 3']),
    ('a shape', f'{INN}.members["ellipse"] = True', f'{INN}.members["point"] = True', ['object:2/shape'],
     ['object 2 "Inn": ellipse true -> none', 'object 2 "Inn": point none -> true']),
    ('a size', 'map.extend(right=1)', 'map.extend(right=2)', ['map/size'], ['map: 41 by 30 cells -> 42 by 30']),
    ('a size that cuts off', 'map.stamp("Ground", 39, 0, [[7]])', 'map.resize(39, 30)', ['map/size'], ['map: 40 by 30 cells -> 39 by 30']),
    ('the tile of a tileset that is gone', TOWN + 'map.tilesets[1].remove()', 'map.stamp("Ground", 0, 0, [[2]])', ['layer:1/cells/0,0'],
     ['tileset tiles.tsx: added, first id 1', 'layer 1 "Ground": 1 cell in 0,0 to 0,0: empty -> tiles.tsx:1']),
    ('an object with one', TOWN + 'map.tilesets[1].remove()', 'map.layers["Things"].objects.add("box", 1, 2, tile=5)', ['object:7/added'],
     ['tileset tiles.tsx: added, first id 1', 'object 7 "box": added, in layer 15 "Things" at 1, 2']),
]


def fault_of_taken(case):
    ours, theirs = case.given
    keys, changes = case.wanted
    found, _ = taken(ours, theirs, take='theirs')
    left, plain = taken(ours, theirs)[0], taken(ours, theirs, take='ours')[0]
    if left.settled or plain.conflicts or plain.lines != left.lines:
        return f'ours is not as without a choice: {plain.conflicts}'
    first = taken(ours, theirs, take={keys[-1]: 'theirs'})[0]
    if keys[-1] not in [each.key for each, side in first.settled if side == 'theirs']:
        return f'not taken by its key: {first.settled}'
    return unlike((keys, (), changes), ([each.key for each in left.conflicts], found.conflicts, [str(each) for each in found.changes]))


def test_theirs():
    """For each kind of conflict, where theirs is taken of it, and where ours is."""
    check_each([Case(name, (ours, theirs), (keys, changes)) for name, ours, theirs, keys, changes in TAKEN], fault_of_taken)


def test_what_is_cut_off():
    """Where theirs is taken of what lies outside the map of ours, the map has room for it again, with what was there."""
    found, tree = taken('map.resize(39, 30)', 'map.stamp("Ground", 38, 0, [[7, 7]])', take={'map/size': 'theirs'})
    base = json.loads((MAPS / 'town.tmj').read_bytes())
    wanted = [*base['layers'][0]['data']]
    wanted[38:40] = [7, 7]
    see(((), 40, wanted), (found.conflicts, tree['width'], tree['layers'][0]['data']))


def test_what_can_not_be_taken():
    """It stays a conflict, whichever side is taken of all."""
    use = 'map.layers["Things"].objects.add("box", 0, 0, tile=2)'
    found, _ = taken(use, TOWN + 'map.tilesets[1].remove()', take='theirs')
    see(['tileset tiles.tsx: removed by theirs, in use by ours; it stays'], [str(each) for each in found.conflicts])


def test_members_of_a_class():
    """Two people may change two members of a property of a class; one member is in conflict alone."""
    set_way = 'map.properties.set("way", {}, property_type="Way")'
    data = saved_with('map.properties.set("way", {"a": 1, "b": 2, "c": 3}, property_type="Way")')
    with Editor() as editor:
        base, ours, theirs = (editor.open(data, name) for name in ('base', 'ours', 'theirs'))
        exec(set_way.format('{"a": 5, "b": 2, "c": 4}'), {'map': ours})
        exec(set_way.format('{"a": 1, "b": 7, "c": 6}'), {'map': theirs})
        found = merge(base, ours, theirs)
        see(['map: property way: c 3 -> 4 (ours), 6 (theirs)'], [str(each) for each in found.conflicts])
        see(({'a': 5, 'b': 7, 'c': 4}, 'map/property way.c'), (ours.properties['way'], found.conflicts[0].key))
        test_merge.done(editor)


def saved_with(script):
    with Editor() as editor:
        document = editor.open(MAPS / 'town.tmj')
        exec(script, {'map': document})
        document.mark_clean()
        return document.save_bytes()


def test_a_tileset_that_goes_into_the_map():
    """Where it is kept, and what the map has of it, is of one side."""
    embed = ('map.tilesets[1].members.update(name="tiles", image="tiles.png", imagewidth=128, imageheight=64, tilecount=32, columns=8, margin=0, '
             'spacing=0, tilewidth=16, tileheight=16)\ndel map.tilesets[1].members["source"]')
    move = 'map.tilesets[1].source = "art/tiles.tsx"'
    found, tree = taken(move, embed)
    see((['tileset art/tiles.tsx: kept in the file tiles.tsx -> in the file art/tiles.tsx (ours), in the map (theirs)'], 'tileset:1/source',
         [{'firstgid': 1, 'source': 'art/tiles.tsx'}]), ([str(each) for each in found.conflicts], found.conflicts[0].key, tree['tilesets']))
    found, tree = taken(move, embed, take='theirs')
    see(((), ('tiles.png', None)), (found.conflicts, tuple(tree['tilesets'][0].get(name) for name in ('image', 'source'))))


def test_tilesets_with_one_name():
    """Two that are kept in the map are the same where their pictures are, too."""
    embed = 'map.tilesets.put({{"firstgid": 33, "name": "new", "image": "{}.png", "imagewidth": 16, "imageheight": 16, "tilecount": 1, "columns": 1, ' \
        '"margin": 0, "spacing": 0, "tilewidth": 16, "tileheight": 16}})'
    put = "map._edit('tileset put {}')"

    def script(image):
        return put.format(embed.format(image).partition('put(')[2].rpartition(')')[0])

    found, tree = taken(script('a'), script('b'))
    see(((), ['a.png', 'b.png']), (found.conflicts, [each['image'] for each in tree['tilesets'] if 'image' in each]))


def test_cells_alone():
    """A cell of a conflict may be taken for itself; the others are in conflict as before."""
    rows = 'map.stamp("Ground", 3, 4, [[{0}, {0}, {0}]])'
    found, tree = taken(rows.format(7), rows.format(9), take={'layer:1/cell/4,4': 'theirs'})
    see([7, 9, 7], tree['layers'][0]['data'][4 * 40 + 3:4 * 40 + 6])
    see((['layer:1/cells/3,4', 'layer:1/cells/5,4'], ['layer:1/cell/4,4']),
        ([each.key for each in found.conflicts], [each.key for each, _ in found.settled]))


# ---- pairs


def taken_of(base, ours, theirs, take):
    with Editor() as editor:
        documents = [editor.open(data, name) for name, data in (('base', base), ('ours', ours), ('theirs', theirs))]
        found = merge(*documents, take=take)
        data = documents[1].save_bytes()
        test_merge.done(editor)
        return found, json.loads(data)


class Nameless(Table):
    """A map as a table, without the ids of layers."""

    def place(self, layer):
        return 'map' if layer is None else layer['name']


def all_of(tree, known):
    """All that a map says, but for ids and orders."""
    table = Nameless(tree, known=known)
    return collections.Counter([*(table.whole(key) for key in table.rows if key != 'map'), said(table.rows['map']), said(table.named)])


def fault_of_pair(case):
    """How theirs in a merge into ours is not what ours is in one into theirs, or None."""
    base, (ours, theirs), _ = test_merge.pair(case.given, 20)
    one, tree = taken_of(base, ours, theirs, 'theirs')
    other, another = taken_of(base, theirs, ours, 'ours')
    if other.conflicts:
        return f'left where ours is taken: {other.conflicts}'
    # A group or a layer of objects that comes back brings what stood in it.
    known = Table(json.loads(base)).rows
    holders = [each for each, _ in one.settled if each.what == 'removed' and each.subject.kind == 'layer' and 'data' not in (each.base or {})]
    if one.conflicts or holders:
        return None
    return unlike(all_of(another, known), all_of(tree, known))


def test_pairs_of_histories():
    check_in_processes([Case(f'pair {seed}', seed, None) for seed in range(SEED, SEED + PAIRS)], fault_of_pair)


# ---- what else is said


def test_what_is_no_side():
    rows = [('no side', ValueError, 'a side is ours or theirs', {'take': 'both'}), ('a list', TypeError, 'what is taken is a side', {'take': ['ours']}),
            ('no conflict', ValueError, 'no conflict has this key: object:9/x', {'take': {'object:9/x': 'ours'}}),
            ('no project', ValueError, '', {'project': MAPS / 'tiles.png'}), ('no file', OSError, '', {'project': MAPS / 'no.tiled-project'})]

    def fault_of(case):
        kind, words, more = case.wanted
        try:
            taken(f'{INN}.x = 1', f'{INN}.x = 2', **more)
        except kind as fault:
            return None if words in str(fault) else str(fault)
        return 'nothing is raised'

    check_each([Case(name, None, wanted) for name, *wanted in rows], fault_of)


def test_offsets():
    """All was moved with the map, or without another size of it, as is said and not as is guessed."""
    shifted = 'map.extend(left=1)\nmap.resize(40, 30)'
    found, tree = taken('map.stamp("Ground", 5, 5, [[9]])', shifted, offset={'theirs': (1, 0)})
    see(((), ('all in the map of theirs was moved by 1, 0, as was said',)), (found.conflicts, found.notices))
    see(9, tree['layers'][0]['data'][5 * 40 + 6])
    found, tree = taken('map.stamp("Ground", 5, 5, [[9]])', 'map.extend(left=1)', offset={'theirs': (0, 0)})
    see(9, tree['layers'][0]['data'][5 * 41 + 5])


PROJECT = {'propertyTypes': [
    {'id': 1, 'name': 'Link', 'type': 'class', 'members': [
        {'name': 'target', 'type': 'object', 'value': 0}, {'name': 'count', 'type': 'int', 'value': 7},
        {'name': 'way', 'type': 'class', 'propertyType': 'Way', 'value': {}}, {'name': 'other', 'type': 'class', 'propertyType': 'Unknown', 'value': {}}]},
    {'id': 2, 'name': 'Way', 'type': 'class', 'members': [{'name': 'to', 'type': 'object', 'value': 0}]},
    {'id': 3, 'name': 'Kind', 'type': 'enum', 'values': ['a']},
]}
LINK = ('box = map.layers["Things"].objects.add("box", 16, 16)\nlever = map.layers["Things"].objects.add("lever", 0, 0)\n'
        'lever.properties.set("link", {{"target": box.id, "count": box.id, "way": {{"to": box.id}}, {}}}, property_type="Link")\n'
        'lever.properties.set("all", [{{"type": "object", "value": box.id}}, {{"type": "int", "value": 3}}], type="list")')


def test_classes_of_a_project():
    """Where a project says what a class has, its members that mean objects get their new ids, and its other numbers stay, untold."""
    with tempfile.TemporaryDirectory() as folder:
        project = Path(folder, 'game.tiled-project')
        project.write_text(json.dumps(PROJECT))
        ours = 'map.layers["Things"].objects.add("ours", 0, 0)'
        renumbered = ('object 7 "box" of theirs has the id 9 now',)
        unknown = 'the property link of theirs has the number 7 in it: look whether it means that object'
        found, tree = taken(ours, LINK.format('"kept": "a"'), project=project)
        lever = next(each for layer in tree['layers'] for each in layer.get('objects', []) if each['name'] == 'lever')
        see((renumbered, [{'target': 9, 'count': 7, 'way': {'to': 9}, 'kept': 'a'}, [{'type': 'object', 'value': 9}, {'type': 'int', 'value': 3}]]),
            (found.notices, [each['value'] for each in sorted(lever['properties'], key=lambda each: each['name'], reverse=True)]))
        see((*renumbered, unknown), taken(ours, LINK.format('"other": {"a": box.id}'), project=project)[0].notices)
        see((*renumbered, *[unknown] * 3), taken(ours, LINK.format('"kept": "a"'))[0].notices)


# ---- the command


def test_command():
    with tempfile.TemporaryDirectory() as folder:
        base = saved(folder, 'base.tmj', 'pass')
        ours, theirs = saved(folder, 'ours.tmj', f'{INN}.x = 96'), saved(folder, 'theirs.tmj', f'{INN}.y = 96')
        other, out = saved(folder, 'other.tmj', f'{INN}.x = 32\nmap.stamp("Ground", 0, 0, [[7]])'), Path(folder, 'out.tmj')
        see((0, '', ''), command('merge', base, ours, theirs, '-o', out))
        lines = [set(path.read_text().split('\n')) for path in (ours, out)]
        see((1, 1), (len(lines[0] - lines[1]), len(lines[1] - lines[0])))
        told = 'conflict: object 2 "Inn": x 128 -> 96 (ours), 32 (theirs)'
        see((1, f'{told} [object:2/x]\n', ''), command('merge', base, ours, other, '-o', out))
        see((1, f'a map: {told}\n', ''), command('merge', base, ours, other, '-o', out, '--name', 'a map'))
        with Editor() as editor:
            result = editor.open(out)
            see((96, 7), (result.objects['Inn'].x, result.layers['Ground'].cells(0, 0, 1, 1)[0]))
        see((0, '', ''), command('merge', base, ours, base, '-o', out))
        see(ours.read_bytes(), out.read_bytes())


def test_command_in_trouble():
    """Then nothing is written."""
    with tempfile.TemporaryDirectory() as folder:
        base = saved(folder, 'base.tmj', 'pass')
        Path(folder, 'broken.tmj').write_text('{')
        broken, none, out = Path(folder, 'broken.tmj'), Path(folder, 'no.tmj'), Path(folder, 'out.tmj')
        rows = [('a broken one', (base, base, broken, '-o', out), '60 not JSON'), ('a broken one of ours', (base, broken, base, '-o', out), '60 not JSON'),
                ('a broken one of both', (broken, base, base, '-o', out), '60 not JSON'), ('none', (base, base, none, '-o', out), 'no such file'),
                ('no base', (none, base, base, '-o', out), 'No such file'), ('no file to write', (base, base, base), 'usage: '),
                ('two maps', (base, base, '-o', out), 'usage: '), ('both', ('--check', base, base, base, base, '-o', out), 'usage: '),
                ('a folder that is not there', (base, base, saved(folder, 'theirs.tmj', f'{INN}.x = 0'), '-o', Path(folder, 'no', 'a')), 'No such file')]

        def fault_of(case):
            status, told, words = command('merge', *case.given)
            return unlike((2, '', True, False), (status, told, case.wanted in words and 'Traceback' not in words, out.exists()))

        check_each([Case(*row) for row in rows], fault_of)


def test_a_map_that_both_added():
    """Git gives an empty file as the base."""
    with tempfile.TemporaryDirectory() as folder:
        ours, theirs, base, out = saved(folder, 'ours.tmj', 'pass'), saved(folder, 'theirs.tmj', f'{INN}.x = 0'), Path(folder, 'base'), Path(folder, 'out')
        base.write_bytes(b'')
        see((0, '', ''), command('merge', base, ours, ours, '-o', out))
        status, told, _ = command('merge', base, ours, theirs, '-o', out)
        see((1, True, ours.read_bytes()), (status, told.startswith('conflict: map: both sides have added this map'), out.read_bytes()))


def test_check():
    """What a result has not of both sides is told, but for what is in conflict."""
    with tempfile.TemporaryDirectory() as folder:
        base, ours = saved(folder, 'base.tmj', 'pass'), saved(folder, 'ours.tmj', f'{INN}.x = 96\nmap.properties["people"] = 13')
        theirs = saved(folder, 'theirs.tmj', f'{INN}.x = 32\nmap.stamp("Ground", 0, 0, [[7]])')
        right = saved(folder, 'right.tmj', f'{INN}.x = 50\nmap.properties["people"] = 13\nmap.stamp("Ground", 0, 0, [[7]])')
        see((0, '', ''), command('merge', '--check', base, ours, theirs, right))
        told = ['not as merged: map: property people: 13 -> 12', 'not as merged: object 2 "Inn": y 160 -> 0']
        wrong = saved(folder, 'wrong.tmj', f'{INN}.x = 50\n{INN}.y = 0\nmap.stamp("Ground", 0, 0, [[7]])')
        see((1, told, ''), (lambda status, text, fault: (status, text.splitlines(), fault))(*command('merge', '--check', base, ours, theirs, wrong)))


def checked(folder, ours, theirs, result):
    """What a check tells of a result: of a script's map, or of what git makes of the texts."""
    files = [saved(folder, name, script) for name, script in (('base.tmj', 'pass'), ('ours.tmj', ours), ('theirs.tmj', theirs))]
    path = Path(folder, 'result.tmj')
    if result is None:
        done = subprocess.run(['git', 'merge-file', '-p', files[1], files[0], files[2]], capture_output=True)
        see(0, done.returncode)
        path.write_bytes(done.stdout)
    else:
        saved(folder, 'result.tmj', result)
    return command('merge', '--check', *files, path)


BOXES = 'map.layers["{}"].objects.add("{}", 0, 0)'
ORDER = 'map.layers.add("tile", "{}").move(0)'
CHECKED = [
    ('cells beside those in conflict', 'map.stamp("Ground", 0, 0, [[7]])', 'map.stamp("Ground", 0, 0, [[9]])\nmap.stamp("Ground", 5, 5, [[9]])',
     'map.stamp("Ground", 0, 0, [[13]])', (1, 'not as merged: layer 1 "Ground": 1 cell in 5,5 to 5,5: tiles.tsx:8 -> tiles.tsx:0\n')),
    ('what a shape in conflict is not', f'{INN}.members["ellipse"] = True', f'{INN}.members["point"] = True\n{INN}.y = 96',
     f'{INN}.members["point"] = True', (1, 'not as merged: object 2 "Inn": y 96 -> 160\n')),
    ('the order of what both added', ORDER.format('A'), ORDER.format('B'), 'map.layers.add("tile", "A")\n' + ORDER.format('B') + '\n'
     'map.layers["A"].move(1)', (0, '')),
    ('a size that was taken', 'map.resize(39, 30)', 'map.stamp("Ground", 38, 0, [[7, 7]])', 'map.stamp("Ground", 38, 0, [[7, 7]])', (0, '')),
    ('a group that was taken out', 'map.layers["Trees"].opacity = 0.5', 'map.layers["Green"].remove()', 'map.layers["Green"].remove()', (0, '')),
    ('a layer that came back', 'map.layers["Things"].remove()', 'map.layers["Things"].name = "Objects"', 'map.layers["Things"].name = "Objects"', (0, '')),
    ('an object that was not', 'map.layers["Things"].objects.add("box", 1, 2)', f'{INN}.y = 96', f'{INN}.y = 96',
     (1, 'not as merged: object 7 "box": removed, in layer 15 "Things"\n')),
    ('a removal that git loses', 'map.objects["key"].remove()', 'map.objects["key"].move_into("Places")', None,
     (1, 'in conflict, and merged as text, untold: object 4 "key": removed by ours, changed by theirs; it stays removed\n')),
    ('an id twice, by git', BOXES.format('Things', 'a'), BOXES.format('Places', 'b'), None, (2, '')),
]


def fault_of_check(case):
    with tempfile.TemporaryDirectory() as folder:
        status, told, _ = checked(folder, *case.given)
        return unlike(case.wanted, (status, told))


def test_what_a_check_tells():
    check_each([Case(name, given, wanted) for name, *given, wanted in CHECKED], fault_of_check)


def fault_of_text(case):
    """How a check tells a merge by git of the texts to be right that is not, or None."""
    data, sides, offsets = test_merge.pair(case.given, 8)
    with tempfile.TemporaryDirectory() as folder:
        paths = [Path(folder, name) for name in ('base', 'ours', 'theirs', 'result')]
        for path, text in zip(paths, (data, *sides)):
            path.write_bytes(text)
        done = subprocess.run(['git', 'merge-file', '-p', paths[1], paths[0], paths[2]], capture_output=True)
        if done.returncode != 0 or any(map(any, offsets)):
            return None
        paths[3].write_bytes(done.stdout)
        found, _, origin, _ = test_merge.merged_files(data, *sides)
        trees = [json.loads(each) for each in (data, *sides, done.stdout)]
        known = Table(trees[0]).rows
        try:
            told = told_by(found.conflicts, tuple(-each for each in origin) if trees[0].get('infinite') else (0, 0)) - {('map', 'size')}
            is_wrong = bool(Checked(*(Table(tree, known=known) for tree in trees), told).found())
        except AssertionError:
            is_wrong = True
        status, words, _ = command('merge', '--check', *paths)
        return unlike(is_wrong or bool(found.conflicts), status != 0) and f'{status} {words}'


def test_checks_of_texts_that_git_merges():
    """A check tells each that git has merged wrongly, or without a word where there is a conflict; and none that is right."""
    check_in_processes([Case(f'pair {seed}', seed, None) for seed in range(SEED, SEED + 40)], fault_of_text)


def test_choices_by_the_command():
    with tempfile.TemporaryDirectory() as folder:
        base, out = saved(folder, 'base.tmj', 'pass'), Path(folder, 'out.tmj')
        ours = saved(folder, 'ours.tmj', f'{INN}.x = 96\nmap.stamp("Ground", 0, 0, [[7]])')
        theirs = saved(folder, 'theirs.tmj', f'{INN}.x = 32\nmap.stamp("Ground", 0, 0, [[9]])')
        inn, cell = 'object 2 "Inn": x 128 -> 96 (ours), 32 (theirs)', 'layer 1 "Ground": 1 cell in 0,0 to 0,0: tiles.tsx:6 (ours), tiles.tsx:8 (theirs)'
        rows = [
            ('one', ['--take', 'theirs:object:2/x'], '', 1, [f'theirs: {inn}', f'conflict: {cell} [layer:1/cells/0,0]'], (32, 7)),
            ('all', ['--take', 'theirs'], '', 0, [f'theirs: {inn}', f'theirs: {cell}'], (32, 9)),
            ('all but one', ['--take', 'theirs', '--take', 'ours:object:2/x'], '', 0, [f'ours: {inn}', f'theirs: {cell}'], (96, 9)),
            ('by answers', ['--ask'], 'o\nt\n', 0, [f'ours: {inn}', f'theirs: {cell}'], (96, 9)),
            ('one cell has no cells of its own', ['--ask'], 'o\ne\nt\n', 0, [f'ours: {inn}', f'theirs: {cell}'], (96, 9)),
            ('no more answers', ['--ask'], 't\nq\n', 1, [f'theirs: {inn}', f'conflict: {cell} [layer:1/cells/0,0]'], (32, 7)),
        ]

        def fault_of(case):
            words, given = case.given
            status, lines, wanted = case.wanted
            came, told, fault = command('merge', base, ours, theirs, '-o', out, *words, given=given)
            with Editor() as editor:
                result = editor.open(out)
                found = result.objects['Inn'].x, result.layers['Ground'].cells(0, 0, 1, 1)[0]
            return unlike((status, '', lines, wanted), (came, fault, told.splitlines()[-len(lines):], found))

        check_each([Case(name, (words, given), wanted) for name, words, given, *wanted in rows], fault_of)
        see((2, '', 'roskevad merge: no conflict has this key: object:9/x\n'), command('merge', base, ours, theirs, '-o', out, '--take', 'ours:object:9/x'))
        for words, fault in ((('--take', 'both'), "argument --take: a side is ours or theirs: 'both'"),
                             (('--offset', 'theirs:2'), "argument --offset: ours or theirs, columns to the right and rows down, as theirs:2,-1, and none "
                              "past 4096: 'theirs:2'")):
            status, told, said = command('merge', base, ours, theirs, '-o', out, *words)
            see((2, '', f'roskevad merge: error: {fault}'), (status, told, said.splitlines()[-1]))


def test_what_cannot_be_told():
    """Then nothing is written."""
    with tempfile.TemporaryDirectory() as folder:
        base, ours, theirs = (saved(folder, f'{name}.tmj', script) for name, script in (('base', 'pass'), ('ours', 'pass'), ('theirs', f'{INN}.x = 96')))
        words = sys.executable, '-m', 'roskevad', 'merge', base, ours, theirs, '-o', Path(folder, 'out.tmj')
        with open('/dev/full', 'wb') as full:
            done = subprocess.run([*words, '--name', 'town.tmj', '--offset', 'ours:0,0'], cwd=TOP / 'python', stdout=full, stderr=subprocess.PIPE)
        see((2, False), (done.returncode, Path(folder, 'out.tmj').exists()))


def test_answers_for_each_cell():
    with tempfile.TemporaryDirectory() as folder:
        base, out = saved(folder, 'base.tmj', 'pass'), Path(folder, 'out.tmj')
        ours, theirs = (saved(folder, f'{value}.tmj', f'map.stamp("Ground", 3, 4, [[{value}] * 4])') for value in (7, 9))
        for answers, wanted in (('e\nt\no\nT\n', [9, 7, 9, 9]), ('e\nt\nq\n', [9, 7, 7, 7]), ('e\ns\nO\n', [7, 7, 7, 7])):
            status, told, _ = command('merge', base, ours, theirs, '-o', out, '--ask', given=answers)
            see((answers, wanted), (answers, json.loads(out.read_bytes())['layers'][0]['data'][4 * 40 + 3:4 * 40 + 7]))
            see((answers, 0 if 'T' in answers else 1), (answers, status))
            see(True, '\n  cell 3,4: tiles.tsx:6 (ours), tiles.tsx:8 (theirs)\n' in told)


def test_marks_by_the_command():
    """One for each conflict, in the colours and of the class by which it is known; what has no place is at the corner."""
    with tempfile.TemporaryDirectory() as folder:
        base, out = saved(folder, 'base.tmj', 'pass'), Path(folder, 'out.tmj')
        ours = saved(folder, 'ours.tmj', 'map.properties["people"] = 13\nmap.stamp("Ground", 2, 3, [[7, 7]])\nmap.objects["key"].remove()')
        theirs = saved(folder, 'theirs.tmj', 'map.properties["people"] = 14\nmap.stamp("Ground", 2, 3, [[9, 9]])\nmap.objects["key"].x = 64')
        status, told, _ = command('merge', base, ours, theirs, '-o', out, '--marks')
        tree = json.loads(out.read_bytes())
        layer = tree['layers'][-1]
        see((1, 'Conflicts', '#ff0000'), (status, layer['name'], layer['color']))
        see([{'name': 'conflicts', 'type': 'bool', 'value': True}], layer['properties'])
        boxes = {each['properties'][0]['value']: [each[name] for name in ('x', 'y', 'width', 'height', 'type')] for each in layer['objects']}
        key = next(each for each in json.loads(theirs.read_bytes())['layers'][-2]['objects'] if each['name'] == 'key')
        see({'map/property people': [0, 0, 16, 16, 'conflict'], 'layer:1/cells/2,3': [32, 48, 32, 16, 'conflict'],
             'object:4/removed': [64, key['y'] - key['height'], key['width'], key['height'], 'conflict']}, boxes)
        see(sorted(line.partition(': ')[2].rpartition(' [')[0] for line in told.splitlines()), sorted(each['name'] for each in layer['objects']))
        see((0, False), (command('merge', base, ours, theirs, '-o', out, '--take', 'ours', '--marks')[0], b'Conflicts' in out.read_bytes()))


GRIDS = [
    ('isometric', {'orientation': 'isometric', 'tilewidth': 32}, [32, 48, 32, 16]),
    ('staggered', {'orientation': 'staggered', 'staggeraxis': 'y', 'staggerindex': 'odd'}, [32, 24, 40, 16]),
    ('hexagonal', {'orientation': 'hexagonal', 'staggeraxis': 'x', 'staggerindex': 'odd', 'hexsidelength': 8}, [24, 48, 28, 24]),
]


def fault_of_grid(case):
    """Where the mark of two cells beside one another lies."""
    tree = {**json.loads((MAPS / 'town.tmj').read_bytes()), **case.given}
    with tempfile.TemporaryDirectory() as folder:
        paths = [Path(folder, name) for name in ('base', 'ours', 'theirs')]
        for path, value in zip(paths, (1, 7, 9)):
            tree['layers'][0]['data'][3 * 40 + 2:3 * 40 + 4] = [value] * 2
            path.write_text(json.dumps(tree))
        command('merge', *paths, '-o', Path(folder, 'out'), '--marks')
        marks = json.loads(Path(folder, 'out').read_bytes())['layers'][-1]['objects']
        return unlike([case.wanted], [[each[name] for name in ('x', 'y', 'width', 'height')] for each in marks])


def test_marks_on_other_grids():
    check_each([Case(*row) for row in GRIDS], fault_of_grid)


def test_marks_on_an_infinite_map():
    """They stand where the cells are on its plane, though the map has grown at the left."""
    data = (MAPS / 'infinite.tmj').read_bytes()
    with tempfile.TemporaryDirectory() as folder, Editor() as editor:
        paths = [Path(folder, name) for name in ('base', 'ours', 'theirs')]
        paths[0].write_bytes(data)
        left, top = editor.open(data, 'base').origin
        for path, value in zip(paths[1:], (5, 6)):
            document = editor.open(data, path.name)
            document.stamp(1, 2, 3, [[value]])
            if value == 6:
                document.extend(left=16)
                document.stamp(1, 0, 0, [[7]])
            document.save(path)
        command('merge', *paths, '-o', Path(folder, 'out'), '--marks')
        tree = json.loads(Path(folder, 'out').read_bytes())
        mark = tree['layers'][-1]['objects'][0]
        see(((left + 2) * tree['tilewidth'], (top + 3) * tree['tileheight'], 16, 16), tuple(mark[name] for name in ('x', 'y', 'width', 'height')))


def test_a_project_beside_the_map():
    """The nearest one is read; where it is broken, that is a note."""
    with tempfile.TemporaryDirectory() as folder:
        inner = Path(folder, 'maps')
        inner.mkdir()
        Path(folder, '.git').mkdir()
        base, ours = saved(folder, 'base.tmj', 'pass'), saved(folder, 'ours.tmj', 'map.layers["Things"].objects.add("ours", 0, 0)')
        theirs, out = saved(folder, 'theirs.tmj', LINK.format('"kept": "a"')), Path(inner, 'out.tmj')
        project = Path(folder, 'game.tiled-project')
        project.write_text(json.dumps(PROJECT))
        see((0, 'note: object 7 "box" of theirs has the id 9 now\n', ''), command('merge', base, ours, theirs, '-o', out))
        project.write_text('{')
        status, told, _ = command('merge', base, ours, theirs, '-o', out)
        see((0, True), (status, told.startswith(f'note: what {project} says of classes is not known: ')))
        see(2, command('merge', base, ours, theirs, '-o', out, '--project', project)[0])


def test_offsets_by_the_command():
    with tempfile.TemporaryDirectory() as folder:
        base, ours = saved(folder, 'base.tmj', 'pass'), saved(folder, 'ours.tmj', 'map.stamp("Ground", 5, 5, [[9]])')
        theirs, out = saved(folder, 'theirs.tmj', 'map.extend(left=1)'), Path(folder, 'out.tmj')
        told = 'note: all in the map of theirs was moved by 0, 0, as was said\n'
        see((0, told, ''), command('merge', base, ours, theirs, '-o', out, '--offset', 'theirs:0,0'))
        see(9, json.loads(out.read_bytes())['layers'][0]['data'][5 * 41 + 5])
        see(2, command('merge', base, ours, theirs, '-o', out, '--offset', 'theirs:1')[0])
