# SPDX-License-Identifier: MIT OR Apache-2.0
"""Brings two sides of a map together by the Python package: the words of each conflict, 200 random pairs of histories with a checker that
shares nothing with the merge, and merges behind merges. A merge with what both began with gives the other side; one undo gives ours back."""
import json
import os
import random
import sys

from lib.cases import Case, check_each, check_in_processes, see, unlike
from lib.histories import edit, history
from lib.merges import Checked, Table, layers_of, told_by
from lib.places import TOP

sys.path.insert(0, str(TOP / 'python'))
import roskevad  # noqa: E402
from roskevad import Editor, merge  # noqa: E402

MAPS = TOP / 'examples' / 'maps'
# So many pairs in the gate; by hand 2,000 once, by ROSKEVAD_PAIRS.
SEED, PAIRS, MOST, LONG = 20261201, int(os.environ.get('ROSKEVAD_PAIRS', 200)), 10, 40
RESERVED = '"roskevad"', '"roskevad_packed"', '"roskevad_compression"'
FILES = ('town', 'house', 'groups', 'objects', 'infinite', 'layers', 'properties', 'two_tilesets', 'zlib', 'base64', 'flips')


def three(editor, file='town.tmj'):
    return [editor.open(MAPS / file, name) for name in ('base', 'ours', 'theirs')]


def done(editor):
    for document in editor.documents.values():
        document.mark_clean()


def merged(ours, theirs, file='town.tmj'):
    """What two scripts make of a map, merged: the conflicts, the notices and the changes, as texts, and the map."""
    with Editor() as editor:
        documents = three(editor, file)
        exec(ours, {'map': documents[1]})
        exec(theirs, {'map': documents[2]})
        before = documents[1].save_bytes()
        found = merge(*documents)
        tree = documents[1].map()
        if found.lines:
            documents[1].undo()
        see(before, documents[1].save_bytes())
        done(editor)
        return [str(each) for each in found.conflicts], list(found.notices), [str(each) for each in found.changes], tree


# ---- words

INN = 'map.objects["Inn"]'
WORDS = [
    ('nothing', 'pass', 'pass', [], []),
    ('one side alone', 'pass', f'{INN}.x = 96', [], ['object 2 "Inn": x 128 -> 96']),
    ('the other side alone', f'{INN}.x = 96', 'pass', [], []),
    ('both the same', f'{INN}.x = 96', f'{INN}.x = 96', [], []),
    ('two members of one object', f'{INN}.x = 96', f'{INN}.y = 96', [], ['object 2 "Inn": y 160 -> 96']),
    ('one member', f'{INN}.x = 96', f'{INN}.x = 32', ['object 2 "Inn": x 128 -> 96 (ours), 32 (theirs)'], []),
    ('a new member', f'{INN}.members["rotation"] = 45', f'{INN}.members["rotation"] = 90', ['object 2 "Inn": rotation 0 -> 45 (ours), 90 (theirs)'], []),
    ('a class', f'{INN}.class_name = "A"', f'{INN}.class_name = "B"', ['object 2 "Inn": class "Door" -> "A" (ours), "B" (theirs)'], []),
    ('true is not 1', 'map.members["kept"] = True', 'map.members["kept"] = 1', ['map: kept none -> true (ours), 1 (theirs)'], []),
    ('one cell', 'map.stamp("Ground", 3, 4, [[7, 7]])', 'map.stamp("Ground", 4, 4, [[9, 9]])',
     ['layer 1 "Ground": 1 cell in 4,4 to 4,4: tiles.tsx:6 (ours), tiles.tsx:8 (theirs)'],
     ['layer 1 "Ground": 1 cell in 5,4 to 5,4: tiles.tsx:0 -> tiles.tsx:8']),
    ('cells that touch', 'map.stamp("Ground", 3, 4, [[7, 0, 7], [0, 7, 0]])', 'map.erase("Ground", 3, 4, 3, 2)',
     ['layer 1 "Ground": 3 cells in 3,4 to 5,5: tiles.tsx:6 (ours), empty (theirs)'],
     ['layer 1 "Ground": 3 cells in 3,4 to 5,5: tiles.tsx:0 -> empty']),
    ('cells that do not', 'map.stamp("Ground", 3, 4, [[7, 0, 7]])', 'map.stamp("Ground", 3, 4, [[8, 0, 8]])',
     [f'layer 1 "Ground": 1 cell in {x},4 to {x},4: tiles.tsx:6 (ours), tiles.tsx:7 (theirs)' for x in (3, 5)], []),
    ('an object that ours removed', f'{INN}.remove()', f'{INN}.x = 96', ['object 2 "Inn": removed by ours, changed by theirs; it stays removed'], []),
    ('an object that theirs removed', f'{INN}.x = 96', f'{INN}.remove()', ['object 2 "Inn": removed by theirs, changed by ours; it stays'], []),
    ('one that both removed', f'{INN}.remove()', f'{INN}.remove()', [], []),
    ('an object in a layer that is gone', 'map.layers["Things"].remove()', 'map.layers["Things"].objects.add("box", 1, 2)',
     ['object 7 "box": added by theirs in layer 15 "Things", which ours removed; it is not there'], ['map: next object id 7 -> 8']),
    ('a layer in a group that is gone', 'map.layers["Green"].remove()', 'map.layers["Green"].layers.add("tile", "Moss")',
     ['layer 17 "Moss": added by theirs in layer 11 "Green", which ours removed; it is not there'], ['map: next layer id 17 -> 18']),
    ('a group that theirs removed', 'map.layers["Trees"].opacity = 0.5', 'map.layers["Green"].remove()',
     ['layer 12 "Trees": removed by theirs, changed by ours; it stays',
      'layer 11 "Green": removed by theirs; it stays, since ours has changed what stands in it'],
     ['layer 13 "Bushes and fences": removed, a tile layer']),
    ('a layer into two groups', 'map.layers["Ground"].move_into("Green")', 'map.layers["Ground"].move_into("Houses")',
     ['layer 1 "Ground": moved into layer 11 "Green" (ours), into layer 2 "Houses" (theirs)'], []),
    ('into a group that is gone', 'map.layers["Green"].remove()', 'map.layers["Ground"].move_into("Green")',
     ['layer 1 "Ground": moved into layer 11 "Green" by theirs, which is not there; it stays where it is'], []),
    ('groups crosswise', 'map.layers["Green"].move_into("Houses")', 'map.layers["Houses"].move_into("Green")',
     ['layer 2 "Houses": moved into layer 11 "Green" by theirs; with what ours moved they would stand in one another'], []),
    ('the order of layers', 'map.layers["Ground"].move(2)', 'map.layers["Ground"].move(3)', ['layer 1 "Ground": moved to place 2 (ours), 3 (theirs)'], []),
    ('orders of two', 'map.layers["Ground"].move(2)', 'map.layers["Things"].move(0)', [], ['layer 15 "Things": moved to place 0']),
    ('a property', 'map.properties["people"] = 13', 'map.properties["people"] = 14', ['map: property people: 12 -> 13 (ours), 14 (theirs)'], []),
    ('its type', 'map.properties.set("people", 12.5, type="float")', 'map.properties.set("people", "12", type="string")',
     ['map: property people: 12 -> 12.5 (ours), "12" (theirs)'], []),
    ('its type alone', 'map.properties.set("people", "a", type="string")', 'map.properties.set("people", "a", type="file")',
     ['map: property people: 12 (int) -> "a" (string) (ours), "a" (file) (theirs)'], []),
    ('one that is gone', 'del map.properties["people"]', 'map.properties["people"] = 14', ['map: property people: 12 -> none (ours), 14 (theirs)'], []),
    ('two members of a class', f'{INN}.properties.set("to", {{"a": 5, "b": 2}}, property_type="Way")', f'{INN}.properties.set("to", '
     '{"a": 1, "b": 7}, property_type="Way")', ['object 2 "Inn": property to: none -> {"a": 5, "b": 2} (ours), {"a": 1, "b": 7} (theirs)'], []),
    ('two properties', 'map.properties["people"] = 13', 'map.properties["sun"] = True', [], ['map: property sun: none -> true']),
    ('two shapes', f'{INN}.members["ellipse"] = True', f'{INN}.members["point"] = True',
     ['object 2 "Inn": shape: a rectangle -> ellipse (ours), point (theirs)'], []),
    ('two versions of Tiled', 'map.members["tiledversion"] = "1.9.2"', 'map.members["tiledversion"] = "1.11.0"', [],
     ['map: version of Tiled "1.9.2" -> "1.11.0"']),
    ('two sizes', 'map.extend(right=1)', 'map.extend(right=2)',
     ['map: 40 by 30 cells -> 41 by 30 cells (ours), 42 by 30 cells (theirs)'], []),
    ('a size that cuts off', 'map.stamp("Ground", 39, 0, [[7]])', 'map.resize(39, 30)',
     ['map: 40 by 30 cells -> 39 by 30 cells (theirs), which cuts off what ours has changed; it stays'], []),
    ('what is cut off', 'map.resize(39, 30)', 'map.stamp("Ground", 38, 0, [[7, 7]])',
     ['layer 1 "Ground": 1 cell in 39,0 to 39,0: what theirs has there lies outside the map of ours'],
     ['layer 1 "Ground": 1 cell in 38,0 to 38,0: tiles.tsx:0 -> tiles.tsx:6']),
    ('a tileset in use', 'map.layers["Things"].objects.add("box", 0, 0, tile=2)',
     'for layer in map.layers.walk():\n  layer.kind == "tile" and map.erase(layer, 0, 0, 40, 30)\n'
     'map.objects["key"].remove()\nmap.tilesets[1].remove()', ['tileset tiles.tsx: removed by theirs, in use by ours; it stays'], None),
    ('its tile', 'for layer in map.layers.walk():\n  layer.kind == "tile" and map.erase(layer, 0, 0, 40, 30)\nmap.objects["key"].remove()\n'
     'map.tilesets[1].remove()', 'map.stamp("Ground", 0, 0, [[2]])', ['layer 1 "Ground": 1 cell in 0,0 to 0,0: empty (ours), tiles.tsx:1 (theirs)'], []),
]


def fault_of_words(case):
    ours, theirs = case.given
    conflicts, _, changes, _ = merged(ours, theirs)
    wanted = case.wanted if case.wanted[1] is not None else (case.wanted[0], changes)
    return unlike(wanted, (conflicts, changes))


def test_words():
    """The words of conflicts, and of what is done."""
    check_each([Case(name, (ours, theirs), (conflicts, changes)) for name, ours, theirs, conflicts, changes in WORDS], fault_of_words)


# ---- ids


def things(tree):
    """The objects of the layer Things of the town, by their names."""
    return {each['name']: each for layer in tree['layers'] if layer['name'] == 'Things' for each in layer['objects']}


ADD = 'box = map.layers["Things"].objects.add({!r}, 16, 16)\n'


def test_ids_that_both_added():
    """Those of theirs get new ids, and what refers to them along."""
    lever = 'lever = map.layers["Things"].objects.add("lever", 0, 0)\nlever.properties.set("opens", box.id, type="object")\n'
    conflicts, notices, _, tree = merged(ADD.format('chest'), ADD.format('door') + lever)
    see([], conflicts)
    see(['object 7 "door" of theirs has the id 9 now'], notices)
    found = things(tree)
    see((7, 9, 8, 9), tuple(found[name]['id'] for name in ('chest', 'door', 'lever')) + (found['lever']['properties'][0]['value'],))
    see(10, tree['nextobjectid'])


def test_layers_that_both_added():
    _, notices, _, tree = merged('map.layers.add("tile", "Roofs")', 'map.stamp(map.layers.add("tile", "Moss"), 0, 0, [[5]])')
    see(['layer 17 "Moss" of theirs has the id 18 now'], notices)
    see([(17, 'Roofs', 0), (18, 'Moss', 5)], [(each['id'], each['name'], each['data'][0]) for each in tree['layers'][-2:]])


def test_what_both_added_alike():
    """It is one thing, as where a commit was picked."""
    conflicts, notices, changes, tree = merged(ADD.format('chest'), ADD.format('chest'))
    see(([], [], []), (conflicts, notices, changes))
    see(1, sum(name == 'chest' for name in things(tree)))


def test_layers_that_are_cut():
    """Where both have given the map another size, what theirs has drawn outside it is told, by the id that its layer has by now."""
    ours = 'map.extend(right=1)\nmap.layers.add("tile", "Roofs")'
    conflicts, _, _, _ = merged(ours, 'map.extend(bottom=1)\nmap.stamp(map.layers.add("tile", "Moss"), 0, 30, [[5]])')
    see(['map: 40 by 30 cells -> 41 by 30 cells (ours), 40 by 31 cells (theirs)',
         'layer 18 "Moss": 1 cell in 0,30 to 0,30: what theirs has there lies outside the map of ours'], conflicts)


def test_objects_that_change_layers():
    """Each is put at its place, also where others leave its layer."""
    script = 'map.objects["Inn"].move_into("Things", 0)\nmap.objects["key"].move_into("Places")\nmap.objects["start"].move_into("Places")'
    conflicts, _, _, tree = merged('pass', script)
    see(([], [['Inn'], ['Smithy', 'Lake', 'Walk of the guard', 'key', 'start']]), (conflicts, [
        [each['name'] for each in layer['objects']] for layer in tree['layers'] if layer['type'] == 'objectgroup']))


def test_one_object_in_two_layers():
    """What both have added alike in layers that are not is in both."""
    add = 'map.layers.add("object", "{}").objects.add("chest", 16, 16)'
    conflicts, notices, _, tree = merged(add.format('Left'), add.format('Right'))
    see([], conflicts)
    see(['layer 17 "Right" of theirs has the id 18 now', 'object 7 "chest" of theirs has the id 8 now'], notices)
    see([('Left', [7]), ('Right', [8])], [(each['name'], [one['id'] for one in each['objects']]) for each in tree['layers'][-2:]])


def test_a_removal_that_is_reverted():
    """What was removed comes back by its id, the layer with what stands in it, at its place; and what means an object of it."""
    with Editor() as editor:
        town, base, ours = three(editor)
        for document in (base, ours):
            document.layers['Things'].remove()
            document.objects['Smithy'].properties.pop('key')
        ours.stamp('Ground', 0, 0, [[7]])
        found = merge(base, ours, town)
        see(((), ()), (found.conflicts, found.notices))
        see((1, 'layer put 0 4 {'), (sum(not line.startswith('prop ') for line in found.lines), found.lines[0][:15]))
        ours.stamp('Ground', 0, 0, [[1]])
        see([], [str(each) for each in town.difference(ours)])
        done(editor)


def test_numbers_in_classes():
    """A number in a property of a class that may mean an object with a new id is told, and stays."""
    lever = 'lever = map.layers["Things"].objects.add("lever", 0, 0)\nlever.properties.set("link", {"target": box.id})\n'
    _, notices, _, tree = merged(ADD.format('chest'), ADD.format('door') + lever)
    see(['object 7 "door" of theirs has the id 9 now', 'the property link of theirs has the number 7 in it: look whether it means that object'], notices)
    see({'target': 7}, things(tree)['lever']['properties'][0]['value'])


def test_references_to_what_is_gone():
    _, notices, _, _ = merged('map.objects["key"].remove()', 'map.objects["Inn"].properties.set("opened by", 4, type="object")')
    see(['object 2 "Inn": property opened by means object 4, which one side removed'], notices)


def test_references_to_what_is_not_there():
    """What means an object that its own side removed means none that the other side has added under that id."""
    add, later = ADD.format('chest'), ADD.format('door') + 'map.objects["Inn"].properties.set("to", box.id, type="object")\nbox.remove()'
    conflicts, notices, _, tree = merged(add, later)
    inn = next(each for layer in tree['layers'] for each in layer.get('objects', []) if each['name'] == 'Inn')
    see(([], ['object 2 "Inn" of theirs: property to meant an object that is not there, and means none now'], 0),
        (conflicts, notices, next(each['value'] for each in inn['properties'] if each['name'] == 'to')))
    conflicts, notices, _, tree = merged(later, add)
    see(([], ['object 7 "chest" of theirs has the id 8 now'], 8), (conflicts, notices, things(tree)['chest']['id']))


def test_a_merge_behind_a_merge():
    """A branch that goes on after its merge: what has another id since is found by what it is, on either side."""
    with Editor() as editor:
        base, main, branch = three(editor)
        main.layers['Things'].objects.add('A', 5, 0)
        branch.layers['Things'].objects.add('B', 9, 0)
        before = editor.open(branch.save_bytes(), 'before')
        merge(base, main, branch)
        other = editor.open(main.save_bytes(), 'other')
        branch.objects['B'].x = 50
        see(((), ('object 7 "B" has the id 8 in ours, since an earlier merge',)), merge(before, main, branch)[2:4])
        see({'A': (7, 5), 'B': (8, 50)}, {each.name: (each.id, each.x) for each in main.objects if each.name in ('A', 'B')})
        see((), merge(before, branch, other).conflicts)
        see({'A': 5, 'B': 50}, {each.name: each.x for each in branch.objects if each.name in ('A', 'B')})
        done(editor)


def test_a_copy_that_is_renamed():
    """A copy of an object is no object that has another id since: what theirs does to the object is done to it."""
    copy = 'map.layers["Places"].objects.add("Inn", 128, 160)\nmap.objects["Inn"].name = "Old inn"'
    _, notices, changes, _ = merged(copy, f'{INN}.y = 96')
    see(([], ['object 2 "Old inn": y 160 -> 96']), (notices, changes))


def test_a_layer_that_is_renamed():
    """A new layer with its old name is another one."""
    ours = 'map.layers["Ground"].name = "Old ground"\nmap.stamp(map.layers.add("tile", "Ground"), 5, 5, [[7]])'
    _, notices, changes, _ = merged(ours, 'map.stamp("Ground", 0, 0, [[7]])')
    see(([], ['layer 1 "Old ground": 1 cell in 0,0 to 0,0: tiles.tsx:0 -> tiles.tsx:6']), (notices, changes))


# ---- tilesets


def test_tilesets_that_both_added():
    """They get first ids of their own, and tiles go along."""
    ours = 'map.tilesets.add(33, "a.tsj")\nmap.stamp("Ground", 0, 0, [[34]])'
    _, _, _, tree = merged(ours, ours.replace('a.tsj', 'b.tsj').replace('0, 0', '1, 0'))
    firsts = {each['source']: each['firstgid'] for each in tree['tilesets']}
    see((33, 34, firsts['b.tsj'] + 1), (firsts['a.tsj'], *tree['layers'][0]['data'][:2]))
    see(True, firsts['b.tsj'] > 33)


def test_a_tileset_that_both_added():
    """One file is one tileset, though its first id is not the same."""
    ours = 'map.tilesets.add(33, "a.tsj")\nmap.stamp("Ground", 0, 0, [[34]])'
    conflicts, _, _, tree = merged(ours, ours.replace('33', '41').replace('34', '42').replace('0, 0', '1, 0'))
    see(([], [1, 33], [34, 34]), (conflicts, [each['firstgid'] for each in tree['tilesets']], tree['layers'][0]['data'][:2]))


def counted_anew(data, by):
    """A map whose second tileset begins later, as where the first one has grown."""
    tree = json.loads(data)
    limit = tree['tilesets'][1]['firstgid']
    tree['tilesets'][1]['firstgid'] += by
    for layer in tree['layers']:
        layer['data'] = [value + by if value & 0x0FFF_FFFF >= limit else value for value in layer['data']]
    return json.dumps(tree).encode()


def test_first_ids_that_are_counted_anew():
    """Tiled counts them anew where a tileset has grown: that is no change of a cell."""
    data = (MAPS / 'two_tilesets.tmj').read_bytes()
    with Editor() as editor:
        base, ours = (editor.open(data, name) for name in ('base', 'ours'))
        theirs = editor.open(counted_anew(data, 8), 'theirs')
        layer = next(each for each in ours.layers if each.kind == 'tile')
        ours.stamp(layer, 0, 0, [[34]])
        theirs.stamp(layer.id, 1, 0, [[43]])
        see((), merge(base, ours, theirs).conflicts)
        first = [*ours.tilesets][-1].first_id
        see([first + 1, first + 2], [ours.layers[layer.id].cells(0, 0, 2, 1)[at] for at in (0, 1)])
        done(editor)


def test_first_ids_that_are_counted_anew_where_ours_cuts():
    """What lies outside the map of ours is the same, too, and no conflict."""
    with Editor() as editor:
        base, ours, theirs = three(editor, 'two_tilesets.tmj')
        ours.resize(ours.width - 1, ours.height)
        theirs.tilesets.renumber(33, 40)
        see((), merge(base, ours, theirs, offset={'ours': (0, 0)}).conflicts)
        done(editor)


def test_first_ids_that_are_counted_anew_where_theirs_cuts():
    """The rows that are cut off stay as they are where the size is that of ours, and so they do where ours has counted anew; of a tileset that
    ours has removed nothing is left in them."""
    for counted, other in ((2, 1), (1, 2)):
        with Editor() as editor:
            documents = three(editor, 'two_tilesets.tmj')
            documents[counted].tilesets.renumber(33, 40)
            documents[1].extend(right=1)
            documents[2].resize(documents[2].width, documents[2].height - 1)
            found = merge(*documents)
            see(['map/size'], [each.key for each in found.conflicts])
            see([], [each for each in found.changes if each.what == 'cells'])
            done(editor)
    with Editor() as editor:
        base, ours, theirs = three(editor, 'two_tilesets.tmj')
        ours.erase(1, 0, 0, 8, 6)
        for each in [*ours.objects]:
            each.tile = None
        ours.tilesets[33].remove()
        theirs.resize(theirs.width, theirs.height - 1)
        see(['map/size'], [each.key for each in merge(base, ours, theirs, offset={'theirs': (0, 0)}).conflicts])
        see({0}, {*ours.layers[1].cells()})
        done(editor)


# ---- infinite maps, sizes


def test_two_infinite_maps_that_grow():
    """Both draw past the edge, at the right."""
    with Editor() as editor:
        base, ours, theirs = three(editor, 'infinite.tmj')
        wide, high = base.width, base.height
        for document, y in ((ours, 0), (theirs, 1)):
            document.extend(right=2 + y, bottom=1)
            document.stamp(1, wide + 1 + y, y, [[2]])
        see((), merge(base, ours, theirs).conflicts)
        see((wide + 3, high + 1), (ours.width, ours.height))
        see([2, 2], [ours.layers[1].cells(wide + 1 + y, y, 1, 1)[0] for y in (0, 1)])
        done(editor)


def grown_at_the_left(data):
    """A map with two tiles in a chunk at the left of all others, as Tiled has it where somebody draws there."""
    tree = json.loads(data)
    layer = next(each for each in tree['layers'] if each.get('chunks'))
    left, top = (min(each[name] for each in layer['chunks']) for name in 'xy')
    layer['chunks'].append({'x': left - 16, 'y': top, 'width': 16, 'height': 16, 'data': [2, 3, *[0] * 254]})
    return json.dumps(tree).encode(), (left - 16, top)


def test_an_infinite_map_that_grows_at_the_left():
    """It gets room there, and nothing moves on the plane: what ours has drawn is where it was."""
    data = (MAPS / 'infinite.tmj').read_bytes()
    theirs, corner = grown_at_the_left(data)
    with Editor() as editor:
        document = editor.open(data, 'ours')
        document.stamp(1, 3, 4, [[5]])
        place = document.origin[0] + 3, document.origin[1] + 4
        ours = document.save_bytes()
        document.mark_clean()
    found, result, origin, _ = merged_files(data, ours, theirs)
    cells = Table(json.loads(result)).cells['layer', 1]
    see(((), corner), (found.conflicts, origin))
    see([1, 2, 4], [cells[at][1] for at in (corner, (corner[0] + 1, corner[1]), place)])


def test_a_staggered_map_that_grows_above():
    """It gets an even number of rows there, so that no row stands otherwise."""
    tree = json.loads((MAPS / 'infinite.tmj').read_text())
    tree.update(orientation='staggered', staggeraxis='y', staggerindex='odd')
    with Editor() as editor:
        base, ours, theirs = (editor.open(json.dumps(tree).encode(), name) for name in ('base', 'ours', 'theirs'))
        theirs.extend(top=1)
        theirs.stamp(1, 2, 0, [[5]])
        see((), merge(base, ours, theirs).conflicts)
        see((base.origin[1] - 2, 0, 5), (ours.origin[1], ours.layers[1].cells(2, 0, 1, 1)[0], ours.layers[1].cells(2, 1, 1, 1)[0]))
        done(editor)


def test_all_that_is_moved():
    """Theirs has moved all with the size, ours has drawn and moved an object: it moves along, with its fraction."""
    conflicts, notices, changes, tree = merged('map.stamp("Ground", 0, 0, [[7]])\nmap.objects["Inn"].x = 1.5', 'map.extend(left=2, top=1)\n'
                                               'map.objects["Inn"].y = 16')
    see(([], ['theirs has another size, and all in the map was moved by 2, 1 with it, as far as the maps tell']), (conflicts, notices))
    see(('map: 40 by 30 cells -> 42 by 31', 7), (changes[0], tree['layers'][0]['data'][42 + 2]))
    inn = next(each for layer in tree['layers'] for each in layer.get('objects', []) if each['name'] == 'Inn')
    see((33.5, 16), (inn['x'], inn['y']))


# ---- as a step


def test_as_one_step():
    """A merge is one step, on all cells, whatever is selected; and none where nothing is to be done."""
    with Editor() as editor:
        base, ours, theirs = three(editor)
        ours.select(9, 9, 1, 1)
        theirs.stamp('Ground', 0, 0, [[7]])
        theirs.objects['Inn'].x = 0
        found = merge(base, ours, theirs)
        see(('Merge', True, 7, 0), (ours.undo_text, ours.steps[-1].is_macro, ours.layers['Ground'].cells(0, 0, 1, 1)[0], len(ours.selection)))
        see((ours, 2), (found.document, len(found.lines)))
        ours.undo()
        see((1, 1), (ours.layers['Ground'].cells(0, 0, 1, 1)[0], len(ours.selection)))
        see((), merge(base, theirs, base).lines)
        see(2, len(theirs.steps))
        done(editor)


def test_documents_that_are_none():
    with Editor() as editor:
        base, ours, _ = three(editor)
        for given in ((base, ours, 'town.tmj'), (None, ours, base)):
            try:
                merge(*given)
            except TypeError as fault:
                see('a merge is of documents', str(fault).partition(':')[0])
            else:
                raise AssertionError('nothing is raised')
        see(roskevad.Conflict.__name__, 'Conflict')


# ---- random histories


def pair(seed, most=MOST, kind='json'):
    """A file of a kind, two files that come of random edits of it, and by how much all was moved with them."""
    chosen = random.Random(seed)
    name = chosen.choice(FILES)
    data, sides, offsets = with_classes(MAPS / f'{name}.tmj', kind), [], []
    for _ in range(2):
        with Editor() as editor:
            document = editor.open(data, 'side')
            offset = history(chosen, document, most, ('cut',) if name == 'infinite' else (), kind)
            # All in an infinite map stays where it is on its plane.
            offsets.append((0, 0) if name == 'infinite' else offset)
            sides.append(document.save_bytes())
    return data, sides, offsets


def with_classes(path, kind):
    """A map that has properties of a class, as a file of a kind."""
    with Editor() as editor:
        document = editor.open(path, 'base')
        for owner in [document, *[*document.objects][:2]]:
            owner.properties.set('link', {'to': 1, 'by': 2}, type='class', property_type='Link')
        data = document.save_bytes(kind=kind)
        document.mark_clean()
        return data


def tree_of(data):
    """The tree of a file, without what is noted of XML."""
    if data.startswith(b'{'):
        return json.loads(data)
    with Editor() as editor:
        return without_notes(json.loads(editor.open(data).save_bytes(kind='json')))


def without_notes(value):
    if isinstance(value, list):
        return [without_notes(each) for each in value]
    return {name: without_notes(each) for name, each in value.items() if name != 'roskevad_tmx'} if isinstance(value, dict) else value


def merged_files(base, ours, theirs, offset=None):
    """What a merge tells, the file that comes of it, where the corner of an infinite map lies, and what one undo leaves."""
    with Editor() as editor:
        documents = [editor.open(data, name) for name, data in (('base', base), ('ours', ours), ('theirs', theirs))]
        found = merge(*documents, offset=offset)
        after = ours
        if found.lines:
            documents[1].undo()
            after = documents[1].save_bytes()
            documents[1].redo()
        data = documents[1].save_bytes()
        origin = documents[1].origin
        done(editor)
        return found, data, origin, after


def fault_of_pair(case):
    return fault_at(case.given)


def fault_at(seed):
    """The same by its seed: a fourth of the pairs have up to 40 edits a side, behind which nobody can guess by how much all was moved."""
    is_long = seed % 4 == 0
    return fault_of(seed, LONG if is_long else MOST, is_long)


def fault_of(seed, most, is_said=False, kind='json'):
    """How a merge of two histories is not as it must be, or None. By how much all was moved may be said, and is guessed else."""
    data, sides, offsets = pair(seed, most, kind)
    said_offset = {name: by for name, by, side in zip(('ours', 'theirs'), offsets, sides) if any(by) and (is_said or leaves_nothing(data, side))}
    found, result, origin, after = merged_files(data, *sides, said_offset)
    if after != sides[0]:
        return 'one undo does not give ours back'
    if any(name in line for line in found.lines for name in RESERVED):
        return f'a line has a reserved name: {found.lines}'
    trees = [tree_of(each) for each in (data, *sides, result)]
    fault, offset = fault_of_size(trees, offsets, found.conflicts)
    known = Table(trees[0]).rows
    tables = [Table(tree, by, known) for tree, by in zip(trees, ((0, 0), *offsets, offset))]
    shown = tuple(-each for each in origin) if trees[0].get('infinite') else offset
    told = told_by(found.conflicts, shown) - {('map', 'size')}
    faults = [*([fault] if fault else []), *Checked(*tables, told).found()]
    return '\n    '.join([*faults, *map(str, found.conflicts)]) if faults else fault_of_same(data, sides)


def leaves_nothing(base, side):
    """Whether a side has removed all layers that have cells or objects: then nothing tells by how much all was moved."""
    kept = [{layer['id'] for layer, _ in layers_of(tree_of(data)) if layer['type'] in ('tilelayer', 'objectgroup')} for data in (base, side)]
    return kept[0].isdisjoint(kept[1])


def fault_of_size(trees, offsets, conflicts):
    """What is wrong with the size of a merged map, and by how much all in it was moved. An infinite map keeps its members."""
    sizes = [(tree['width'], tree['height'], *by) for tree, by in zip(trees, ((0, 0), *offsets))]
    told = any(each.what == 'size' for each in conflicts)
    is_ours = sizes[2] in sizes[:2] or told
    wanted = sizes[1] if is_ours else sizes[2]
    may_be_told = sizes[2] not in sizes[:2] and (sizes[1] != sizes[0] or any(small < large for small, large in zip(sizes[2][:2], sizes[0])))
    must_be_told = sizes[2] not in sizes[:2] and sizes[1] != sizes[0]
    if told and not may_be_told or must_be_told and not told:
        return f'the size is {"" if told else "not "}told: {sizes}', wanted[2:]
    return unlike(wanted[:2], (trees[3]['width'], trees[3]['height'])), wanted[2:]


def fault_of_same(base, sides):
    """How a merge with what both began with, or of one side with itself, does not give that side."""
    for ours, theirs, wanted in ((base, sides[1], sides[1]), (sides[0], base, sides[0]), (sides[0], sides[0], sides[0])):
        found, result, _, _ = merged_files(base, ours, theirs)
        if found.conflicts or theirs is not sides[1] and found.lines:
            return f'a merge with nothing has {found.conflicts} and {found.lines}'
        fault = unlike(whole(wanted), whole(result))
        if fault:
            return f'a merge with nothing is not the other side: {fault}'
    return None


def whole(data):
    """A map as a text, but for how its cells are written."""
    tree = tree_of(data)
    table = Table(tree)
    return json.dumps([sorted((str(key), table.whole(key)) for key in table.rows if key != 'map'), table.rows['map'], table.named,
                       [tree[name] for name in ('nextlayerid', 'nextobjectid')],
                       [(str(key), list(map(str, children))) for key, children in sorted(table.children.items(), key=str)]], sort_keys=True)


def test_pairs_of_histories():
    check_in_processes([Case(f'pair {seed}', seed, None) for seed in range(SEED, SEED + PAIRS)], fault_of_pair)


def fault_of_second(case):
    """How a second merge of a branch loses what its people have changed since the first one, or None."""
    chosen = random.Random(case.given)
    kinds = ('extend', 'cut', 'layer remove', 'object remove', 'fill', 'erase', 'prop remove', 'tileset add', 'tileset remove')
    with Editor() as editor:
        base, main, branch = three(editor)
        for document, first in ((main, 0), (branch, 100)):
            for number in range(2):
                document.layers['Things'].objects.add(f'{document.name} {number}', first + chosen.randrange(99), 8)
            history(chosen, document, 3, kinds)
        if merge(base, main, branch).conflicts:
            done(editor)
            return None
        before = editor.open(branch.save_bytes(), 'before')
        edit(chosen, main, [0, 0], kinds)
        mine = [each for each in branch.objects if each.name.startswith('theirs ')]
        for each in mine:
            each.members.update(x=each.x + 200, rotation=30)
        found = merge(before, main, branch)
        there = {each.name: (each.x, each.members.get('rotation')) for each in main.objects}
        lost = [each.name for each in mine if there.get(each.name) != (each.x, 30)]
        done(editor)
        return f'lost: {lost}' if lost and not found.conflicts else None


def test_second_merges():
    check_in_processes([Case(f'seed {seed}', seed, None) for seed in range(SEED, SEED + 40)], fault_of_second)
