# SPDX-License-Identifier: MIT OR Apache-2.0
"""Opens, edits and saves maps with groups of layers, which are made here: at the limits of the
layers and of the nesting of groups and one past each, with one fault or two in a file; the maps of
`examples/maps` that have groups, edited in each layer; and 150 random trees, each with 40 random
edits. The plain model of tests/lib/model.py tells the replies and the maps."""
import copy
import random

from lib.cases import CORES, check_each
from lib.edits import siblings_of
from lib.maps import (
    MOST_INSIDE,
    group,
    layer_of,
    layers_in,
    many_tiles,
    map_of,
    objects_in,
    set_cells,
    text_of,
    thing,
    things,
    tiles,
)
from lib.model import Play
from lib.places import example_maps
from lib.refusals import refusal
from lib.sessions import Run, fault_of_run

SEED, TREES, EDITS = 20261125, 150, 40


# ---- files that are read as they stand, and files that are refused


def without(layer, name):
    return {key: value for key, value in layer.items() if key != name}


def inside(count, layer, first=1001):
    """A layer inside so many groups."""
    for number in range(first + count - 1, first - 1, -1):
        layer = group(number, layer)
    return layer


# A layer with a fault of its own: its data has one value too few.
BAD = tiles(8000, data=[0])


def kept(depth):
    """Arrays so many deep."""
    value = []
    for _ in range(depth - 1):
        value = [value]
    return value


def full_trees():
    """Trees of 256 layers, groups among them, by name."""
    yield 'flat', map_of(*many_tiles(256, 1))
    yield 'in one group', map_of(group(1, *many_tiles(255, 2)))
    yield 'in a row of groups', map_of(
        *(group(8 * i + 1, *many_tiles(7, 8 * i + 2)) for i in range(32))
    )
    yield 'in the innermost of 16 groups', map_of(inside(15, group(1, *many_tiles(240, 2))))
    yield 'at each depth', map_of(*many_tiles(9, 1), stairs(1))
    yield 'all of them groups', map_of(*(group(i) for i in range(1, 257)))


def stairs(depth):
    """16 groups in one another, with 15 layers around each but the first one, and 6 in the last."""
    first = 100 * depth
    if depth == MOST_INSIDE:
        return group(first, *many_tiles(6, first + 1))
    return group(first, *many_tiles(7, first + 1), stairs(depth + 1), *many_tiles(8, first + 8))


def read_trees():
    """Maps that are read and written as they stand, by name."""
    for name, layer in [
        ('tile layer', tiles(1)),
        ('object layer', things(1, thing(1))),
        ('image layer', layer_of(1, 'imagelayer')),
    ]:
        yield f'a {name} inside 16 groups', map_of(inside(16, layer))
    yield 'an empty group inside 15', map_of(inside(15, group(1)))
    yield 'two groups of 16, side by side', map_of(inside(16, tiles(1)), inside(16, tiles(2), 2001))
    yield 'no layers but an empty group', map_of(group(1))
    for name, tree in full_trees():
        yield f'256 layers {name}', tree
    yield 'members that other kinds of layers read', map_of(
        group(
            1,
            tiles(2, layers=[5]),
            things(3, layers=None),
            data=[1, 2],
            objects='none',
            width=-1,
            height=True,
            encoding='zip',
            compression='zlib',
            draworder='index',
            image='x.png',
            offsetx=3,
            tintcolor='#ff0000',
        )
    )
    yield 'properties of a group', map_of(
        group(1, tiles(2), properties=[{'name': 'a', 'type': 'int', 'value': 1}])
    )
    yield 'a member 127 deep', map_of(inside(16, tiles(1, kept=kept(127 - 35))))
    yield 'one name for a property of each group', map_of(
        group(
            1,
            group(2, properties=[{'name': 'a', 'type': 'int', 'value': 1}]),
            properties=[{'name': 'a', 'type': 'int', 'value': 2}],
        )
    )
    yield 'an id of a layer that an object has too', map_of(group(1, things(2, thing(1), thing(2))))


def faulty_trees():
    """Maps that are refused, by name, each with its code."""
    yield from trees_too_deep()
    yield from trees_with_bad_groups()
    yield from trees_with_too_many_layers()
    yield from trees_with_bad_ids()


def trees_too_deep():
    """Faults inside 16 groups and more."""
    yield 'a group inside 16 groups', map_of(inside(16, group(1))), 68
    yield 'a tile layer inside 17 groups', map_of(inside(17, tiles(1))), 68
    yield 'inside 16 groups a group with a bad child', map_of(inside(16, group(1, BAD))), 68
    yield 'inside 16 groups a group without layers', map_of(
        inside(16, without(group(1), 'layers'))
    ), 62
    yield 'inside 16 groups a group whose layers are no array', map_of(
        inside(16, group(1) | {'layers': {}})
    ), 63
    yield 'inside 16 groups a group without an id', map_of(inside(16, without(group(1), 'id'))), 62
    yield 'inside 16 groups a group whose name is no text', map_of(inside(16, group(1, name=5))), 63
    yield 'a bad layer in front of a group inside 16 groups', map_of(BAD, inside(16, group(1))), 66
    yield 'a group inside 16 groups in front of a bad layer', map_of(inside(16, group(1)), BAD), 68
    yield 'a member 128 deep', map_of(inside(16, tiles(1, kept=kept(128 - 35)))), 60


def trees_with_bad_groups():
    """Faults of a group, or of a layer in it."""
    yield 'a group without layers', map_of(without(group(1), 'layers')), 62
    for layers in (None, {}, 0, True, ''):
        yield f'layers {layers!r} of a group', map_of(group(1) | {'layers': layers}), 63
    for entry in (None, [], 0, True, 'x'):
        yield f'an entry {entry!r} of a group', map_of(group(1) | {'layers': [entry]}), 63
    yield 'a group of another type in a group', map_of(group(1, group(2, type='Group'))), 63
    yield 'a group without a type', map_of(group(1, without(group(2), 'type'))), 62
    yield 'a bad layer in a group', map_of(group(1, BAD)), 66
    yield 'a layer of another size in a group', map_of(group(1, tiles(2, width=3))), 66
    yield 'compressed cells in a group', map_of(
        group(1, tiles(2, encoding='base64', compression='zlib'))
    ), 65
    yield 'a fraction in a group', map_of(group(1, tiles(2), opacity=0.5)), 61
    yield 'a bad layer in a group, in front of bad tilesets', map_of(group(1, BAD), tilesets=5), 66
    yield 'bad properties of a group in front of its layers', map_of(
        group(1, BAD, properties={})
    ), 63
    yield 'a bad object in a group', map_of(group(1, things(2, thing(1, x='0')))), 63


def trees_with_too_many_layers():
    """257 layers, and what is refused before them."""
    yield '257 layers at the top', map_of(*many_tiles(257, 1)), 68
    yield '257 layers in one group', map_of(group(1, *many_tiles(256, 2))), 68
    yield '257 layers in the innermost of 16 groups', map_of(
        inside(15, group(1, *many_tiles(241, 2)))
    ), 68
    for name, tree in full_trees():
        if name != 'flat':
            yield f'256 layers {name}, and one more in the deepest group', with_one_deepest(
                tree
            ), 68
        yield f'256 layers {name}, and one more at the top', map_of(
            *tree['layers'], tiles(9000)
        ), 68
    yield 'a bad layer behind a group whose array passes 256', map_of(
        group(1, *many_tiles(254, 10)), group(2, tiles(3)), BAD
    ), 68
    yield 'a bad layer in front of it', map_of(
        BAD, group(1, *many_tiles(254, 10)), group(2, tiles(3))
    ), 66
    yield 'a bad layer in a group in front of it', map_of(
        group(1, *many_tiles(253, 10), BAD), group(2, tiles(3))
    ), 66
    yield 'a bad layer in the array that passes', map_of(
        group(1, *many_tiles(254, 10)), group(2, BAD)
    ), 68
    yield 'an entry that is no object in the array that passes', map_of(
        group(1) | {'layers': [5] * 256}
    ), 68
    yield 'a group without layers in front of it', map_of(
        without(group(1), 'layers'), group(2, *many_tiles(256, 10))
    ), 62
    yield 'a bad layer behind arrays of 256', map_of(group(1, *many_tiles(254, 10)), BAD), 66
    yield 'a bad layer at the top where an array below it passes', map_of(
        BAD, *many_tiles(200, 10), group(1, *many_tiles(60, 300))
    ), 66
    yield 'more at the top than a group has left', map_of(
        *many_tiles(200, 10), group(1, *many_tiles(55, 300)), group(2) | {'layers': [5]}
    ), 68


def trees_with_bad_ids():
    """Ids that stand twice, or are not below the next one."""
    yield 'an id twice, in two groups', map_of(group(1, tiles(2)), group(3, tiles(2))), 67
    yield 'an id twice, in a group and at the top', map_of(group(1, tiles(2)), tiles(2)), 67
    yield 'an id of a group and of its layer', map_of(group(1, tiles(1))), 67
    yield 'an id of two groups in one another', map_of(group(1, group(2, group(1)))), 67
    yield 'an id twice in one group', map_of(group(1, group(3, tiles(2), tiles(2)))), 67
    yield 'an id of objects twice, in two groups', map_of(
        group(1, things(2, thing(5))), group(3, things(4, thing(5)))
    ), 67
    yield 'an id of objects twice, in a group and at the top', map_of(
        things(1, thing(5)), group(3, group(2, things(4, thing(5))))
    ), 67
    yield 'a property of a group twice', map_of(
        group(1, properties=[{'name': 'a', 'value': 1}, {'name': 'a', 'value': 2}])
    ), 67
    yield 'an id of a layer in a group not below the next', map_of(
        group(1, group(2, tiles(9001)))
    ), 68
    yield 'an id of a group not below the next', map_of(group(1, group(9001, tiles(2)))), 68
    yield 'an id of an object in a group not below the next', map_of(
        group(1, group(2, things(3, thing(9001))))
    ), 68
    yield 'an id twice, and not below the next', map_of(group(9001, tiles(9001))), 67
    yield 'an id of 0 in a group', map_of(group(1, tiles(0))), 68


def with_one_deepest(tree):
    """A map with one more layer in the group that stands inside the most groups, the last of
    those."""
    tree = copy.deepcopy(tree)
    depths = list(groups_by_depth(tree['layers'], 0))
    _, deepest = max(enumerate(depths), key=lambda pair: (pair[1][0], pair[0]))
    deepest[1]['layers'].append(tiles(9000))
    return tree


def groups_by_depth(layers, depth):
    for layer in layers:
        if layer['type'] == 'group':
            yield depth, layer
            yield from groups_by_depth(layer['layers'], depth + 1)


def files_run():
    """Each file that is read is saved as the same bytes; each other one is refused by its code."""
    run = Run('files')
    for at, (name, tree) in enumerate(read_trees()):
        text = text_of(tree)
        run.put(f'r{at}.tmj', text)
        run.say_all([(f'# {name}', None), (f'open m r{at}.tmj', 'ok 0/0 clean 0')])
        run.save(f's{at}.tmj', text)
        run.say('discard m', 'ok none clean')
    for at, (name, tree, code) in enumerate(faulty_trees()):
        run.put(f'f{at}.tmj', text_of(tree))
        run.say_all([(f'# {name}', None), (f'open m f{at}.tmj', refusal(code))])
    run.say('list', 'docs')
    return run


# ---- runs that edit


class Edits(Play):
    """A run that looks at the map behind each edit and each turn."""

    def begin(self, name, file, tree):
        """Puts a map into the folder and opens it."""
        self.put(file, text_of(tree))
        self.hear(f'open {name} {file}')

    def edit(self, *lines):
        for line in lines:
            if not self.hear(line).startswith('no '):
                self.hear('show')

    def go_to(self, index):
        self.hear(f'goto {index}', 'show')

    @property
    def tree(self):
        return self.document.tree

    @property
    def count(self):
        return len(self.document.steps)


def each_edit(run, layer):
    """Each kind of edit on one layer; those that are of another kind are refused."""
    number = layer['id']
    count = len(siblings_of(run.tree, number)[0])
    run.edit(
        f'stamp {number} 1 0 1 2',
        f'erase {number} 0 0 1 1',
        f'fill {number} 1 0 3',
        f'object add {number} 5 6 7 8 new one',
        f'layer rename {number} renamed',
        f'layer show {number} no',
        f'layer show {number} yes',
        f'prop set layer:{number} depth int 3',
        f'prop remove layer:{number} depth',
        f'layer move {number} {count}',
        f'layer move {number} {count - 1}',
        f'layer move {number} 0',
    )
    for item in layer['objects'] if layer['type'] == 'objectgroup' else []:
        run.edit(
            f'object move {item["id"]} -5 5',
            f'object resize {item["id"]} 1 2',
            f'prop set object:{item["id"]} open bool true',
            f'object remove {item["id"]}',
        )


def example_run(name, data):
    """A map is opened and saved; each of its layers is edited in each way and removed; all is
    undone, and saved again as the bytes of the first save."""
    run = Edits(name)
    run.put(name, data)
    run.hear(f'open m {name}', 'save first.tmj')
    tree = run.tree
    for layer in layers_in(tree['layers']):
        each_edit(run, layer)
    run.edit(f'resize {tree["width"] + 2} {tree["height"] - 1} 1 -2')
    for layer in reversed(list(layers_in(tree['layers']))):
        run.edit(
            f'layer remove {layer["id"]}',
            *(f'tileset remove {tileset["firstgid"]}' for tileset in tree['tilesets']),
        )
    whole = run.count
    run.go_to(0)
    run.hear('save second.tmj')
    run.go_to(whole)
    run.go_to(0)
    for layer in layers_in(tree['layers']):
        run.edit(f'layer remove {layer["id"]}')
        run.go_to(0)
    run.hear('save third.tmj')
    return run


def full_run():
    """What 256 layers in groups refuse, and what they take once some are removed."""
    run = Edits('256 layers in groups')
    run.begin(
        'm',
        'm.tmj',
        map_of(group(1, *many_tiles(100, 10)), inside(15, group(2, *many_tiles(139, 200)))),
    )
    run.edit(
        'layer add tile More',
        'layer add object More',
        'layer move 10 100',
        'layer move 10 99',
        'layer move 338 139',
        'layer move 338 0',
        'layer remove 200',
        'layer add tile More',
        'layer add tile Too many',
        'layer remove 1002',
    )
    run.edit(*['layer add object Again'] * 3)
    run.go_to(3)
    run.edit('layer add tile Taken', 'layer add tile Too many')
    run.go_to(0)
    run.hear('save same.tmj')
    return run


# ---- random trees


def random_layer(chosen, ids, depth, tree):
    """A layer of any kind, with ids of its own."""
    number = ids.pop()
    kind = chosen.choice(
        ['tile', 'tile', 'object', 'image', 'group', 'group'] if depth < 4 else ['tile', 'object']
    )
    if kind == 'tile':
        layer = tiles(number, tree['width'], tree['height'])
        if chosen.random() < 0.3:
            layer['encoding'] = 'base64'
        set_cells(
            layer,
            [
                chosen.choice([0, 0, 1, 2, 5, 0x80000001])
                for _ in range(tree['width'] * tree['height'])
            ],
        )
        return layer
    if kind == 'object':
        items = [
            thing(ids.pop(), **({'gid': 5} if chosen.random() < 0.3 else {}))
            for _ in range(chosen.randint(0, 2))
        ]
        return things(number, *items)
    if kind == 'image':
        return layer_of(number, 'imagelayer', image='sky.png')
    return group(number, *random_layers(chosen, ids, depth + 1, tree))


def random_layers(chosen, ids, depth, tree):
    count = chosen.randint(1, 4) if depth == 0 else chosen.randint(0, 3)
    return [random_layer(chosen, ids, depth, tree) for _ in range(count)]


def random_edit(chosen, tree):
    """An edit of any kind, most of the time on a layer or an object that is there."""
    numbers = [layer['id'] for layer in layers_in(tree['layers'])] * 4 + [tree['nextlayerid']]
    layer = chosen.choice(numbers)
    item = chosen.choice([item['id'] for item in objects_in(tree)] * 4 + [tree['nextobjectid']])
    owner = chosen.choice(['map', f'layer:{layer}', f'layer:{layer}', f'object:{item}'])
    x, y = chosen.randint(-1, tree['width']), chosen.randint(-1, tree['height'])
    key = chosen.choice(['a', 'b'])
    lines = [
        f'stamp {layer} {x} {y} 1 {chosen.choice([1, 2, 5, 0x80000005])}',
        f'erase {layer} {x} {y} {chosen.randint(0, 3)} {chosen.randint(0, 3)}',
        f'fill {layer} {x} {y} {chosen.choice([0, 1, 2, 5])}',
        f'layer add {chosen.choice(["tile", "object"])} Added',
        f'layer remove {layer}',
        f'layer move {layer} {chosen.randint(0, 4)}',
        f'layer rename {layer} {chosen.choice(["A", "B"])}',
        f'layer show {layer} {chosen.choice(["yes", "no"])}',
        f'resize {chosen.randint(1, 5)} {chosen.randint(1, 5)} {x} {y}',
        f'object add {layer} {x} {y} 3 4 Added',
        f'object move {item} {x} {y}',
        f'object resize {item} 3 {chosen.randint(3, 4)}',
        f'object remove {item}',
        f'prop set {owner} {key} {chosen.choice([f"int {x}", "string a b", "bool true"])}',
        f'prop remove {owner} {key}',
        f'tileset add {chosen.choice([0, 5, 9])} more.tsj',
        f'tileset remove {chosen.choice([1, 5, 9])}',
    ]
    words = ['layer move' in line for line in lines].index(True)
    return chosen.choice(lines + [lines[words]] * 3)


def random_run():
    """Random trees, with random edits and undos; each is saved at the end, and turned back."""
    run, chosen = Edits('random trees'), random.Random(SEED)
    for number in range(TREES):
        tree = map_of(
            width=chosen.randint(1, 4),
            height=chosen.randint(1, 4),
            tilesets=[{'firstgid': 1, 'source': 't.tsj'}, {'firstgid': 5, 'source': 's.tsj'}],
        )
        ids = random.Random(number).sample(range(1, 9001), 2000)
        tree['layers'] = random_layers(chosen, ids, 0, tree)
        run.begin(f'm{number}', f'm{number}.tmj', tree)
        for _ in range(EDITS):
            run.edit(random_edit(chosen, run.tree))
            if chosen.random() < 0.1:
                run.go_to(chosen.randint(0, run.count + 1))
        run.go_to(run.count)
        run.hear(f'save end{number}.tmj')
        run.go_to(0)
        run.hear(f'save back{number}.tmj', f'discard m{number}')
    return run


def test_files_that_are_read_or_refused():
    check_each([files_run()], fault_of_run)


def test_256_layers():
    check_each([full_run()], fault_of_run)


def test_example_maps_with_groups():
    check_each(
        [example_run(name, data) for name, data in example_maps().items() if b'"group"' in data],
        fault_of_run,
        CORES,
    )


def test_random_trees():
    check_each([random_run()], fault_of_run)
