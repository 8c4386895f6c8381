# SPDX-License-Identifier: MIT OR Apache-2.0
"""Does on the page in Chromium what somebody does who knows Tiled: makes ten objects of all shapes by mouse and keys, gives them
names, classes and properties, renames, turns and doubles some, copies all into a second map with another tileset, and saves both. Real
Tiled finds the same objects in both files."""
import json
import shutil
import tempfile
from pathlib import Path

from lib.cases import passed
from lib.maps import objects_in
from lib.places import EXAMPLE_MAPS
from lib.tiled_package import exported
from page.bench import Bench, points_at, standing, take_tile
from page.browser import ActionChains, By, Keys
from test_page_handles import turn

NEEDS_BROWSER = True
IS_LONG = True
PACKAGES = ('tiled',)
FILES = ('tiles.tsx', 'tiles.png', 'furniture.tsx', 'furniture.png')
CORNERS = [{'x': 0, 'y': 0}, {'x': 40, 'y': 0}, {'x': 40, 'y': 40}, {'x': 10, 'y': 30}]
LINE = [{'x': 0, 'y': 0}, {'x': 40, 'y': 20}, {'x': 80, 'y': 0}]
# The chest is the twenty-first tile, at the fifth place of the third row.
CHEST, CHEST_AT = 20, (4, 2)
FLIPPED = 0x80000000
# Each shape with the places of the hand, and what its object is.
SHAPES = [
    ('rectangle', [[(20, 20), (60, 50)]], {'x': 20, 'y': 20, 'width': 40, 'height': 30}),
    ('rectangle', [[(200, 140), (250, 170)]], {'x': 200, 'y': 140, 'width': 50, 'height': 30}),
    ('point', [[(100, 30)]], {'x': 100, 'y': 30, 'width': 0, 'height': 0, 'point': True}),
    ('ellipse', [[(130, 20), (170, 60)]], {'x': 130, 'y': 20, 'width': 40, 'height': 40, 'ellipse': True}),
    ('polygon', [[(200, 20)], [(240, 20)], [(240, 60)], [(210, 50)]], {'x': 200, 'y': 20, 'width': 0, 'height': 0, 'polygon': CORNERS}),
    ('polyline', [[(20, 100)], [(60, 120)], [(100, 100)]], {'x': 20, 'y': 100, 'width': 0, 'height': 0, 'polyline': LINE}),
    ('text', [[(130, 100), (220, 120)]], {'x': 130, 'y': 100, 'width': 90, 'height': 20, 'text': {'text': 'The Inn', 'wrap': True}}),
    ('tile', [[(40, 150)]], {'x': 32, 'y': 158, 'width': 16, 'height': 16, 'gid': CHEST + 1}),
    ('tile', [[(80, 150)]], {'x': 72, 'y': 158, 'width': 16, 'height': 16, 'gid': CHEST + 1 + FLIPPED}),
    ('tile', [[(120, 150)]], {'x': 112, 'y': 158, 'width': 16, 'height': 16, 'gid': CHEST + 1 + FLIPPED}),
]
NAMES = [
    ('gate', 'Door'), ('trap', 'Danger'), ('start', 'Spawn'), ('lake', 'Water'), ('yard', 'Area'), ('path', 'Route'), ('sign', 'Label'),
    ('chest', 'Chest'), ('chest two', 'Chest'), ('', 'Chest'),
]
# Properties by the names of their objects: name, what is typed, type, and the value.
PROPERTIES = {
    'gate': [('opens with', 'gold key', 'string', 'gold key'), ('price', '12', 'int', 12), ('open', 'true', 'bool', True)],
    'lake': [('deep water', '#80ff0000', 'color', '#80ff0000'), ('depth', '2,5', 'float', 2.5)],
    'chest': [('note', '', 'string', '')],
}


def type_keys(page, *keys):
    """What is typed is taken at once: nothing need be waited for."""
    ActionChains(page.driver, duration=0).send_keys(*keys).perform()


def new_map(page, name, tiles):
    """Makes a map of 20 by 15 cells by the dialog, and an object layer in it."""
    page.click('#new')
    page.wait(lambda: page.texts('dialog[open]'), 'the dialog')
    page.js('const at = document.querySelector("dialog [name=tiles]"); at.value = arguments[0]; at.dispatchEvent(new Event("change", {bubbles: true}))', tiles)
    page.press('dialog button', 'Room 20 × 15')
    page.fill_in(name=name)
    page.click('#add-object-layer')
    type_keys(page, 'Things', Keys.ENTER)


def draw(page, shape, drags):
    page.click(f'#shape-{shape}')
    for places in drags:
        page.drag_points([list(point) for point in points_at(page, places)])
    if shape.startswith('poly'):
        page.keys(Keys.ENTER)


def make(page):
    """Makes the objects: the tool stays in hand, and X flips the tile that is in it."""
    page.keys('i')
    for at, (shape, drags, _) in enumerate(SHAPES):
        if at == 7:
            page.click('#shape-tile')
            take_tile(page, CHEST_AT)
        if at == 8:
            page.keys('x')
        draw(page, shape, drags)


def choose(page, number):
    page.click_at(f'#objects li[data-object="{number}"]')


def name_all(page):
    page.keys('s')
    for number, (name, kind) in enumerate(NAMES, 1):
        choose(page, number)
        page.click_at('#properties [data-key=" name"]')
        type_keys(page, name, Keys.TAB, kind, Keys.ENTER)
    choose(page, 7)
    page.click_at('#properties [data-key=" text"]')
    ActionChains(page.driver).key_down(Keys.CONTROL).send_keys('a').key_up(Keys.CONTROL).perform()
    type_keys(page, 'The Inn', Keys.ENTER)


def add_properties(page):
    """By the row below the table, with Tab from the name to the value and the type."""
    for name, rows in PROPERTIES.items():
        choose(page, [each for each, _ in NAMES].index(name) + 1)
        for key, typed, kind, _ in rows:
            page.click_at('#new-name')
            if kind == 'bool':
                type_keys(page, key, Keys.TAB, Keys.TAB, kind)
                page.click('#new-value')
                page.click('#add-property')
            else:
                type_keys(page, key, Keys.TAB, typed, Keys.TAB, kind, Keys.ENTER)


def rename(page, number, name):
    """By a double click in the list."""
    row = lambda: page.find(f'#objects li[data-object="{number}"]')
    page.double_click(row, lambda: page.driver.find_elements(By.CSS_SELECTOR, 'dialog[open]'))
    page.fill_in(name=name)


def wanted_objects():
    """What the objects of the first map are, by what was done: without those numbers that a turn by the hand gives."""
    made = []
    for number, ((_, _, shape), (name, kind)) in enumerate(zip(SHAPES, NAMES), 1):
        rows = [{'name': key, 'type': each, 'value': value} for key, _, each, value in sorted(PROPERTIES.get(name, ()))]
        made.append({'id': number, 'name': name, 'type': kind, 'rotation': 0, 'visible': True, **shape, **({'properties': rows} if rows else {})})
    by_name = {each['name']: each for each in made}
    by_name['chest two']['rotation'] = 22.5
    by_name['yard']['name'] = 'court'
    by_name['']['name'] = 'third chest'
    # One cell to the right and down.
    made.append({**by_name['lake'], 'id': 11, 'x': 146, 'y': 36})
    return made


def without(thing, *names):
    return {name: value for name, value in thing.items() if name not in names}


def told(folder, name):
    """The objects of a saved map, as Tiled exports them."""
    made = json.loads(exported(folder / name, folder, f'tiled_{name}'))
    for each in objects_in(made):
        each.get('properties', []).sort(key=lambda property: property['name'])
    return made


def see_same(objects, wanted):
    assert len(objects) == len(wanted)
    for came, other in zip(objects, wanted):
        assert came == other, (came, other)
        passed()


def see_first(objects):
    """Tiled's objects of the first map are those that were made; of the gate and the trap their turns are known."""
    wanted = wanted_objects()
    gate, trap = objects[:2]
    assert abs(gate['rotation'] - 90) <= 3 and trap['rotation'] == 60, (gate, trap)
    turned = ('rotation', 'x', 'y')
    see_same([without(each, *turned) for each in objects[:2]], [without(each, *turned) for each in wanted[:2]])
    see_same(objects[2:], wanted[2:])


def see_second(first, second):
    """The copies are what the first map has, all as far away, and their tiles those of the same tileset there."""
    sets = {each['source']: each['firstgid'] for each in second['tilesets']}
    by = sets['tiles.tsx'] - 1
    copies, objects = objects_in(second), objects_in(first)
    assert by > 0 and list(sets) == ['furniture.tsx', 'tiles.tsx'] and len(copies) == len(objects) == 11
    # A place of a copy is a whole pixel.
    right, down = (round(copies[2][name] - objects[2][name]) for name in 'xy')
    placed = lambda one: {**one, 'x': round(one['x'] + right), 'y': round(one['y'] + down)}
    wanted = [{**placed(each), **({'gid': each['gid'] + by} if 'gid' in each else {})} for each in objects]
    see_same(copies, wanted)


def test_ten_objects():
    bench = Bench(empty=True, has_log=False)
    with bench as page, tempfile.TemporaryDirectory() as top:
        folder = Path(top)
        for name in FILES:
            shutil.copy(EXAMPLE_MAPS / name, folder)
        page.choose_files(*(folder / name for name in FILES))
        new_map(page, 'cave', 'tiles.tsx')
        make(page)
        name_all(page)
        add_properties(page)
        rename(page, 5, 'court')
        rename(page, 10, 'third chest')
        choose(page, 1)
        turn(page, 1, 90)
        choose(page, 2)
        turn(page, 2, 58, Keys.CONTROL)
        choose(page, 9)
        page.type_into('#properties [data-key=" rotation"]', '22.5')
        choose(page, 4)
        page.ctrl('d')
        page.ctrl('a')
        assert page.texts('#owner') == ['11 objects']
        page.ctrl('c')
        new_map(page, 'hall', 'furniture.tsx')
        ActionChains(page.driver).move_to_element(page.find('#view')).perform()
        page.ctrl('v')
        assert len(page.notices()) == 1 and 'tiles.tsx' in page.notices()[0] and standing(page)[0] == 1
        page.answer('Add it')
        page.wait(lambda: page.texts('#owner') == ['11 objects'], 'they are pasted')
        for name in ('hall', 'cave'):
            page.click(f'.tab[data-document="{name}"]')
            page.ctrl('s')
            page.fill_in()
            (folder / f'{name}.tmj').write_bytes(bench.saved(f'{name}.tmj'))
        first, second = told(folder, 'cave.tmj'), told(folder, 'hall.tmj')
        see_first(objects_in(first))
        see_second(first, second)
