# SPDX-License-Identifier: MIT OR Apache-2.0
"""Compares what the library tells of the active map with the text of `show`, on 150 random maps with
groups and on maps that stand at the limits of groups: the outline, the cells of rectangles in each
layer, whole, in part, empty and past each edge, and the next ids; and the action text of each step
with `undotext`."""
import copy
import json
import random
import sys

from lib.cases import Case, check_each, passed, unlike
from lib.maps import cells_of, layers_in, map_of, text_of
from lib.places import TOP, example_maps
from test_group_maps import TREES, random_edit, random_layers, read_trees
from test_saved_maps import REFUSED as UNREAD

sys.path.insert(0, str(TOP / 'python'))
from roskevad import Editor, Refused  # noqa: E402

SEED = 20261126


def without_data(tree):
    """A map without the values of its tile layers' cells."""
    tree = copy.deepcopy(tree)
    for layer in layers_in(tree['layers']):
        if layer['type'] == 'tilelayer':
            del layer['data']
    return tree


def rectangles(chosen, width, height):
    """Rectangles in a map of that size, at its edges and past each."""
    yield 0, 0, width, height
    for _ in range(4):
        x, y = chosen.randint(0, width), chosen.randint(0, height)
        yield x, y, chosen.randint(0, width - x), chosen.randint(0, height - y)
    yield width, height, 0, 0
    yield from [(width + 1, 0, 0, 0), (0, height + 1, 0, 0), (0, 0, width + 1, 1), (1, 0, width, 1)]
    yield from [(0, 0, 1, height + 1), (0, 1, 1, height), (-1, 0, 1, 1), (0, -1, 1, 1)]
    yield from [(2**64 - 1, 0, 2, 1), (1, 0, 2**64 - 1, 1), (0, 2**64 - 1, 1, 2), (0, 0, 1, 2**64)]


def wanted_cells(tree, layer, x, y, width, height):
    """The cells of a rectangle, by the map's tree; None where it leaves the map."""
    if min(x, y) < 0 or x + width > tree['width'] or y + height > tree['height']:
        return None
    cells = cells_of(layer)
    rows = (row * tree['width'] + x for row in range(y, y + height))
    return [value for start in rows for value in cells[start : start + width]]


def fault_of_views(editor, chosen):
    """How what the editor tells differs from the text of the map."""
    text = editor.step('show')[len('map ') :]
    tree = json.loads(text)
    outline = editor._copy_bytes('outline')
    if outline != text_of(without_data(tree)):
        return unlike(text_of(without_data(tree)), outline)
    if (editor.last_layer_id() + 1, editor.last_object_id() + 1) != (
        tree['nextlayerid'],
        tree['nextobjectid'],
    ):
        return 'the next ids are others'
    for layer in layers_in(tree['layers']):
        for each in rectangles(chosen, tree['width'], tree['height']):
            is_tiles = layer['type'] == 'tilelayer'
            wanted = wanted_cells(tree, layer, *each) if is_tiles else None
            came = editor.cells(layer['id'], *each)
            fault = unlike(wanted, None if came is None else list(came))
            if fault:
                return f'{each} of layer {layer["id"]}: {fault}'
    for layer in (0, tree['nextlayerid'], 2**32, 2**32 + 1, -1):
        if editor.cells(layer, 0, 0, 1, 1) is not None:
            return f'there is a layer {layer}'
    passed(len(tree['layers']))
    return None


def fault_of_actions(editor):
    """How the action text of each step differs from what `undotext` says behind it."""
    index = int(editor.step('status').split(' ')[1].split('/')[0])
    count = int(editor.step('status').split(' ')[1].split('/')[1])
    for at in range(count):
        editor.step(f'goto {at + 1}')
        fault = unlike(
            editor.step('undotext')[len('text ') :], editor.action_text(at)
        )
        if fault:
            return f'step {at}: {fault}'
    if editor.action_text(count) is not None:
        return 'there is a text past the last step'
    editor.step(f'goto {index}')
    return None


def test_maps_with_groups():
    def fault_of(case):
        with Editor() as editor:
            editor.open_map('m', text_of(case.given))
            return fault_of_views(editor, random.Random(SEED))

    check_each([Case(name, tree, None) for name, tree in read_trees()], fault_of)


def test_example_maps():
    """Those that are read."""

    def fault_of(case):
        with Editor() as editor:
            editor.open_map('m', case.given)
            return fault_of_views(editor, random.Random(SEED))

    maps = [Case(name, data, None) for name, data in example_maps().items() if name not in UNREAD]
    check_each(maps, fault_of)


def random_tree(number):
    chosen = random.Random(number)
    tree = map_of(
        width=chosen.randint(1, 6),
        height=chosen.randint(1, 6),
        tilesets=[{'firstgid': 1, 'source': 't.tsj'}, {'firstgid': 5, 'source': 's.tsj'}],
    )
    ids = chosen.sample(range(1, 9001), 2000)
    tree['layers'] = random_layers(chosen, ids, 0, tree)
    return tree


def fault_of_tree(case):
    """How a random map differs, as it is opened and behind some random edits."""
    chosen = random.Random(SEED + case.given)
    with Editor() as editor:
        editor.open_map('m', text_of(random_tree(case.given)))
        for _ in range(3):
            fault = fault_of_views(editor, chosen) or fault_of_actions(editor)
            if fault:
                return fault
            for _ in range(8):
                editor.step_bytes(random_edit(chosen, editor.map()).encode())
    return None


def test_random_trees():
    check_each(
        [Case(f'random tree {number}', number, None) for number in range(TREES)], fault_of_tree
    )


def test_open_macros():
    """An open macro stands last, with the action text of the outermost one."""
    with Editor() as editor:
        assert editor.action_text(0) is None
        editor.step('new a 4 3 16 16 a.tsj')
        assert editor.action_text(0) is None
        for line in ('stamp 1 0 0 1 5', 'begin Fence || build a fence', 'begin Gate || a gate'):
            editor.step(line)
        assert [editor.action_text(at) for at in range(3)] == ['stamp tiles', 'build a fence', None]
        for line in ('end', 'end', 'begin Wall'):
            editor.step(line)
        # The macros were empty, and so is this one, whose text names its action too.
        told = [editor.action_text(at) for at in range(4)]
        assert told[-2:] == ['Wall', None] or told[2] == 'Wall', told


def test_nothing_active():
    with Editor() as editor:
        assert editor.cells(1, 0, 0, 0, 0) is None
        for call in (editor.outline, editor.last_layer_id, editor.last_object_id):
            try:
                call()
            except Refused as refusal:
                assert refusal.code == 10
            else:
                raise AssertionError(f'{call} is not refused')
