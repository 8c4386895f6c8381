# SPDX-License-Identifier: MIT OR Apache-2.0
"""Works with objects on the page in Chromium, by mouse and keys: which one a click chooses, the
list with its search, names, handles and arrow keys, copies and what these do not
keep, and keys that act on what the tool in hand shows as chosen."""
import json
import math

from lib.cases import passed
from lib.maps import objects_in
from page.bench import (
    Bench,
    cell,
    choose,
    colours_now,
    corner_of,
    layer_of,
    middle_of,
    object_of,
    points_at,
    spelled,
    standing,
)
from page.browser import ActionChains, Keys

NEEDS_BROWSER = True
IS_LONG = True
INN, KEY, LAKE, WALK = 2, 4, 5, 6
# How far beside the corner of an object its handle stands, in pixels of the screen.
ASIDE = 7


def chosen(page):
    return page.js('return roskevad.bench.objectId')


def click_at(page, x, y):
    """Clicks at a place in pixels of the map."""
    page.drag_points(points_at(page, [(x, y)]))


def type_keys(page, *keys):
    """Types where the keys go by now."""
    ActionChains(page.driver).send_keys(*keys).perform()
    page.js('return new Promise(done => setTimeout(done, 50))')
    page.settle()


def drag_handle(page, number, edges, across, down, *held):
    """Drags a handle of the chosen object, named by the edges that it moves, by pixels of the
    map."""
    shape, scale = object_of(page, number), corner_of(page)[2]
    places = {'w': 0, 'n': 0, 'e': 1, 's': 1}
    x = shape['x'] + shape['width'] * next((places[e] for e in edges if e in 'we'), 0.5)
    y = shape['y'] + shape['height'] * next((places[e] for e in edges if e in 'ns'), 0.5)
    (left, top), = points_at(page, [(x, y)])
    left += {'w': -ASIDE, 'e': ASIDE}.get(edges[-1], 0)
    top += {'n': -ASIDE, 's': ASIDE}.get(edges[0], 0)
    goal = [left + round(across * scale), top + round(down * scale)]
    page.drag_points([[left, top], [(left + goal[0]) // 2, (top + goal[1]) // 2], goal], *held)


def test_what_a_click_chooses():
    """An object of the layer in hand comes first, and then the smallest one; a line is chosen near
    it, and not within its frame. The panel and the list follow."""
    with Bench() as page:
        page.keys('s')
        key, lake = object_of(page, KEY), object_of(page, LAKE)
        assert layer_of(page, 'Places')['objects'][3]['id'] == LAKE
        choose(page, 'Ground')
        click_at(page, key['x'] + 8, key['y'] - 8)
        assert chosen(page) == KEY and page.texts('#owner') == ['key']
        assert page.find('#of-object').get_attribute('class') == 'on'
        assert page.texts('#objects .now .name') == ['key']
        choose(page, 'Places')
        assert page.texts('#owner') == ['Places'], 'the panel follows a layer, too'
        click_at(page, key['x'] + 8, key['y'] - 8)
        assert chosen(page) == LAKE and page.texts('#owner') == ['Lake']
        click_at(page, lake['x'] + 2, lake['y'] + 2)
        assert chosen(page) is None, 'the corner of the frame of an ellipse is none of it'
        walk = object_of(page, WALK)
        click_at(page, walk['x'] + 30, walk['y'] + 40)
        assert chosen(page) is None
        click_at(page, walk['x'] + 112, walk['y'] + 40)
        assert chosen(page) == WALK and not spelled(page)


def test_list():
    """The list has the objects by their layers; the search finds some by name, class or id; a click
    chooses one and shows it."""
    with Bench() as page:
        assert page.texts('#objects .head .name') == ['Places', 'Things']
        listed = [layer_of(page, name)['objects'] for name in ('Places', 'Things')]
        names = [each['name'] for objects in listed for each in objects]
        assert page.texts('#objects li:not(.head) .name') == names
        page.find('#object-search').send_keys('door')
        assert page.texts('#objects li:not(.head) .name') == ['Inn', 'Smithy']
        page.find('#object-search').send_keys(' 3', Keys.ENTER)
        page.settle()
        assert chosen(page) == 3 and page.texts('#owner') == ['Smithy']
        page.find('#object-search').send_keys(Keys.ESCAPE)
        for _ in range(4):
            page.click('#zoom-in')
        page.click(f'#objects li[data-object="{INN}"]')
        x, y = middle_of(page, INN)
        box = page.js(
            'const box = roskevad.view.box.getBoundingClientRect();'
            'return [box.left, box.top, box.right, box.bottom]'
        )
        assert chosen(page) == INN and box[0] < x < box[2] and box[1] < y < box[3]
        assert page.js('return roskevad.tools.name') == 'objects' and not spelled(page)


def test_many():
    """In a map of 3,000 objects the list is searched, and follows each choice. An object of a
    locked layer is chosen where that layer is in hand, and not removed."""
    bench = Bench(empty=True)
    with bench as page:
        town = json.loads((bench.folder / 'town.tmj').read_text())
        layer = next(each for each in town['layers'] if each['name'] == 'Things')
        model = {'height': 6, 'width': 6, 'rotation': 0, 'type': '', 'visible': True}
        layer['objects'] = [
            {**model, 'id': 10 + at, 'name': f'crate {at}', 'x': at % 60 * 10, 'y': at // 60 * 9}
            for at in range(3000)
        ]
        town['nextobjectid'] = 4000
        next(each for each in town['layers'] if each['name'] == 'Places')['locked'] = True
        (bench.folder / 'crates.tmj').write_text(json.dumps(town))
        page.choose_files(bench.folder / 'crates.tmj', *bench.folder.glob('*.ts?'))
        page.keys('s')
        assert 'more: search' in page.texts('#objects .more')[0]
        page.find('#object-search').send_keys('crate 3009')
        assert page.texts('#objects li:not(.head) .name') == ['crate 2999']
        page.click('#objects li[data-object="3009"]')
        page.keys(Keys.ARROW_LEFT)
        assert chosen(page) == 3009
        assert spelled(page) == ['object move 3009 589 441'], spelled(page)
        lake = object_of(page, LAKE)
        click_at(page, lake['x'] + 96, lake['y'] + 112)
        assert chosen(page) not in (LAKE, 3009), 'none of a locked layer that is not in hand'
        choose(page, 'Places')
        click_at(page, lake['x'] + 96, lake['y'] + 112)
        assert chosen(page) == LAKE
        page.keys(Keys.DELETE)
        assert 'locked' in page.bubble() and len(spelled(page)) == 1


def test_rename():
    """A double click in the list asks for another name of an object."""
    with Bench() as page:
        page.keys('s')
        page.drag_points([middle_of(page, INN)])
        page.double_click(lambda: page.find('#objects li.now'), lambda: page.texts('dialog[open]'))
        type_keys(page, 'Old inn', Keys.ENTER)
        assert spelled(page) == [f'member set object:{INN} name "Old inn"'] and page.texts('#owner') == ['Old inn']
        assert page.texts('#objects .now .name') == ['Old inn'] and object_of(page, INN)['name'] == 'Old inn'


def test_handles():
    """A handle resizes by one line; where the corner moves as well it is one step of two lines,
    which one undo takes back. The handles are seen with the tool Objects alone."""
    with Bench() as page:
        page.keys('s')
        inn = object_of(page, INN)
        page.drag_points([middle_of(page, INN)])
        corner = points_at(page, [(inn['x'] + 16, inn['y'] + 16)])[0]
        handle = [[corner[0] + ASIDE, corner[1] + ASIDE]]
        assert colours_now(page, handle) == [(255, 255, 255)]
        page.keys('b')
        assert colours_now(page, handle) != [(255, 255, 255)]
        page.keys('s')
        drag_handle(page, INN, 'se', 10, 20)
        assert spelled(page) == [f'object resize {INN} 26 36'] and standing(page) == (1, 1)
        drag_handle(page, INN, 'nw', -8, 4)
        assert spelled(page)[1:] == [
            'begin Resize Object || resize object',
            f'object resize {INN} 34 32',
            f"object move {INN} {inn['x'] - 8} {inn['y'] + 4}",
            'end',
        ] and standing(page) == (2, 2)
        page.ctrl('z')
        assert object_of(page, INN) == {**inn, 'width': 26, 'height': 36}
        page.ctrl('z')
        assert object_of(page, INN) == inn and standing(page) == (0, 2)
        drag_handle(page, INN, 'se', 13, 30, Keys.CONTROL)
        assert object_of(page, INN) == {**inn, 'width': 32, 'height': 48}, 'the grid'
        drag_handle(page, INN, 'nw', 100, 100)
        small = object_of(page, INN)
        assert (small['width'], small['height'], small['x']) == (1, 1, inn['x'] + 31)
        page.ctrl('z')
        drag_handle(page, INN, 'e', 5, 5)
        assert spelled(page)[-1] == f'object resize {INN} 37 48', 'an edge moves one way'
        count, (x, y) = len(spelled(page)), middle_of(page, INN)
        page.hold([[x, y], [x + 30, y + 9]])
        assert page.js('return roskevad.overlay.dragged.id') == INN
        type_keys(page, Keys.ESCAPE)
        page.let_go()
        assert len(spelled(page)) == count, 'Escape ends a drag, which does nothing then'


def test_arrows():
    """Arrow keys move the chosen object by a pixel, and with Shift by a cell; a run of them is one
    step, which does not join another one."""
    with Bench() as page:
        page.keys('s')
        x, y = middle_of(page, INN)
        page.drag_points([[x, y], [x + 20, y], [x + 40, y]])
        inn = object_of(page, INN)
        for key in (Keys.ARROW_RIGHT, Keys.ARROW_DOWN):
            page.keys(key)
        page.keys(Keys.ARROW_UP, Keys.SHIFT)
        at, up = inn['x'] + 1, inn['y'] + 1 - 16
        assert spelled(page)[1:] == [
            f"object move {INN} {at} {inn['y']}",
            f"object move+ {INN} {at} {inn['y'] + 1}",
            f'object move+ {INN} {at} {up}',
        ] and standing(page) == (2, 2)
        page.ctrl('z')
        assert object_of(page, INN) == inn and standing(page) == (1, 2)
        for key in (Keys.ARROW_LEFT, Keys.ARROW_RIGHT, Keys.ARROW_LEFT):
            page.keys(key)
        assert standing(page) == (2, 2) and object_of(page, INN)['x'] == inn['x'] - 1
        page.ctrl('z')
        assert object_of(page, INN) == inn, 'the drag before it stands'
        page.keys('b')
        page.keys(Keys.ARROW_LEFT)
        assert object_of(page, INN) == inn, 'with another tool no object moves'


# Objects of all kinds, with all that Tiled gives one.
CORNERS = [{'x': 0, 'y': 0}, {'x': 32, 'y': -8}, {'x': 16, 'y': 40}]
DEEP = [
    {'name': 'two words', 'type': 'string', 'value': 'a\nb'},
    {'name': 'speed', 'type': 'float', 'value': 3},
    {'name': 'tint', 'type': 'color', 'value': ''},
    {'name': 'rank', 'propertytype': 'Rank', 'type': 'int', 'value': 2},
    {'name': 'drops', 'propertytype': 'Loot', 'type': 'class', 'value': {'gold': 5, 'also': {'gem': True}}},
]
KINDS_OF_OBJECTS = [
    {'name': '', 'x': 40, 'y': 400, 'width': 32, 'height': 16},
    {'name': 'trap', 'type': 'Trap', 'x': 40, 'y': 400, 'width': 32, 'height': 16, 'rotation': 45, 'properties': DEEP},
    {'name': 'pond', 'x': 40, 'y': 400, 'width': 48, 'height': 24, 'ellipse': True},
    {'name': 'exit', 'type': 'Exit', 'x': 40, 'y': 400, 'width': 0, 'height': 0, 'point': True},
    {'name': 'roof', 'x': 40, 'y': 400, 'width': 0, 'height': 0, 'polygon': CORNERS, 'rotation': -30},
    {'name': 'wall', 'x': 40, 'y': 400, 'width': 0, 'height': 0, 'polyline': CORNERS},
    {'name': 'sign', 'x': 40, 'y': 400, 'width': 80, 'height': 20, 'text': {'text': 'Inn\n"old"', 'wrap': True, 'pixelsize': 12}},
    {'name': 'chest', 'type': 'Chest', 'x': 40, 'y': 416, 'width': 32, 'height': 16, 'gid': 12 + (1 << 31)},
    {'name': 'guard', 'x': 40, 'y': 400, 'template': 'guard.tj', 'own': [None, {'a': 'b'}]},
    {'name': 'x' * 300, 'class': 'Old', 'x': 40, 'y': 400, 'width': 8, 'height': 8},
]


def put(page, layer, **members):
    """Adds an object, and chooses it; its id."""
    page.editor.lines(f'object put {layer} {json.dumps(members)}')
    number = max(each['id'] for each in objects_in(page.editor.map()))
    page.js('roskevad.bench.chooseObject(arguments[0])', number)
    return number


def test_copies():
    """Ctrl+D makes a copy of an object of any kind with all that it is, one cell to the right and down, as one
    step, and chooses it."""
    with Bench() as page:
        layer = layer_of(page, 'Places')['id']
        page.keys('s')
        for members in KINDS_OF_OBJECTS:
            number = put(page, layer, **members)
            [_, count], lines = standing(page), len(spelled(page))
            page.ctrl('d')
            first, second = object_of(page, number), object_of(page, number + 1)
            assert second == {**first, 'id': number + 1, 'x': first['x'] + 16, 'y': first['y'] + 16}, members['name']
            assert chosen(page) == number + 1 and standing(page) == (count + 1, count + 1)
            [begin, line, end] = spelled(page)[lines:]
            assert begin == 'begin Duplicate Object || duplicate object' and end == 'end'
            assert line.startswith(f'object put {layer} ' + '{') and not page.notices()
            said = f"Duplicate Object · {members['name'][:100] or f'object {number + 1}'}"
            assert page.texts('#steps .now .name')[0].startswith(said)
            page.ctrl('z')
            assert object_of(page, number) == first and len(objects_in(page.editor.map())) == number
            passed()


def test_whole_town():
    """Each object of the town is copied and cut whole: a cut and a paste give back what was there, but for its id
    and its place."""
    with Bench() as page:
        page.keys('s')
        for before in objects_in(page.editor.map()):
            page.js('roskevad.bench.chooseObject(arguments[0])', before['id'])
            page.ctrl('x')
            assert spelled(page)[-1] == f"object remove {before['id']}" and not page.notices()
            page.ctrl('v')
            after = object_of(page, chosen(page))
            assert after == {**before, **{each: after[each] for each in ('id', 'x', 'y')}}, before['name']
            passed()


def test_large_copies():
    """A copy has the fractions of its object, but lies on whole pixels. An object that is too large is copied by nothing, and nothing stays copied."""
    bench = Bench(empty=True)
    with bench as page:
        town = json.loads((bench.folder / 'town.tmj').read_text())
        layer = next(each for each in town['layers'] if each['name'] == 'Places')
        deep = [{'name': 'speed', 'type': 'float', 'value': 0.5}, {'name': 'drops', 'type': 'class', 'value': {'share': [0.25]}}]
        odd = {'id': 7, 'name': 'odd', 'type': 'Odd', 'x': 40.5, 'y': 400.25, 'width': 30.5, 'height': 16, 'rotation': 22.5, 'visible': True}
        odd['properties'] = [*deep, {'name': 'kept', 'type': 'float', 'value': 2}]
        bent = {'id': 8, 'name': 'bent', 'type': '', 'x': 80.75, 'y': 400, 'width': 0, 'height': 0, 'rotation': 0, 'visible': True}
        bent['polygon'] = [{'x': 0, 'y': 0}, {'x': 10.5, 'y': 3.25}, {'x': 5, 'y': 20}]
        many = [{'x': at % 100, 'y': at // 100} for at in range(5000)]
        layer['objects'] += [odd, bent, {**bent, 'id': 9, 'name': 'long', 'polygon': many}]
        town['nextobjectid'] = 10
        (bench.folder / 'odd.tmj').write_text(json.dumps(town))
        page.choose_files(bench.folder / 'odd.tmj', *bench.folder.glob('*.ts?'))
        page.keys('s')
        for number in (7, 8):
            page.js('roskevad.bench.chooseObject(arguments[0])', number)
            page.ctrl('d')
            assert not page.notices() and len(spelled(page)) == 3 * (number - 6)
        made = {each['id']: each for each in objects_in(page.editor.map_with_fractions())}
        first, second = made[10], made[11]
        assert (first['width'], first['rotation'], first['type'], first['x'], first['y']) == (30.5, 22.5, 'Odd', 57, 416)
        assert first['properties'] == odd['properties']
        assert second['polygon'] == bent['polygon']
        for key, done in (('c', 'copied'), ('x', 'cut'), ('d', 'copied')):
            page.js('roskevad.bench.chooseObject(9)')
            page.ctrl(key)
            assert page.bubble().startswith(f'long is not {done}: it is too large for a copy, by ') and not page.notices(), page.bubble()
        page.ctrl('v')
        assert page.bubble().startswith('Nothing is copied.') and len(objects_in(page.editor.map())) == 11


def test_clipboard():
    """With Objects Ctrl+C, Ctrl+V and Ctrl+X are about the chosen object; the middle of a paste is where the mouse
    is, of a turned tile and of a polygon, too."""
    with Bench() as page:
        layer = layer_of(page, 'Places')['id']
        page.editor.lines(f'object add {layer} 32 400 32 16 trap')
        page.keys('s')
        page.drag_points([middle_of(page, 7)])
        page.ctrl('x')
        assert spelled(page)[-1] == 'object remove 7' and chosen(page) is None
        x, y = points_at(page, [(200, 420)])[0]
        page.drag_points([[x, y]])
        place = page.js('const {pixelX, pixelY} = roskevad.bench.place; return [pixelX, pixelY]')
        left, top = (math.floor(at - half + 0.5) for at, half in zip(place, (16, 8)))
        page.ctrl('v')
        members = '{"height":16,"name":"trap","rotation":0,"type":"","visible":true,"width":32,"x":%d,"y":%d}' % (left, top)
        assert spelled(page)[-3:] == ['begin Paste Object || paste object', f'object put {layer} {members}', 'end'] and chosen(page) == 8
        assert abs(left - 184) < 2 and abs(top - 412) < 2, 'its middle is where the mouse is'
        # By its corners it reaches from 0 to 32 and from -8 to 40.
        for members, middle in (({'polygon': CORNERS}, (16, 16)), ({'gid': 12, 'width': 32, 'height': 16, 'rotation': 90}, (8, 16))):
            put(page, layer, x=300, y=300, **members)
            page.ctrl('c')
            page.js('document.activeElement?.blur()')
            page.ctrl('v')
            now = object_of(page, chosen(page))
            assert abs(now['x'] + middle[0] - place[0]) <= 1 and abs(now['y'] + middle[1] - place[1]) <= 1, now
            page.ctrl('z')


def test_keys_and_tools():
    """Delete and Ctrl+C act on cells of the selection with a tool for cells, though an object was
    chosen before, and on the object with Objects. Nothing that is hidden is removed."""
    with Bench() as page:
        page.keys('s')
        page.drag_points([middle_of(page, INN)])
        ground = choose(page, 'Ground')
        page.keys('r')
        page.drag([(3, 20), (4, 20)])
        page.ctrl('c')
        assert page.js('return roskevad.bench.stamp.width') == 2
        page.keys('r')
        page.keys(Keys.DELETE)
        assert spelled(page)[-1].startswith(f'erase {ground} ') and cell(page, ground, 3, 20) == 0
        assert object_of(page, INN)['name'] == 'Inn'
        page.keys('s')
        page.drag_points([middle_of(page, INN)])
        places = layer_of(page, 'Places')['id']
        page.click(f'#layers li[data-layer="{places}"] .eye')
        lines = spelled(page)
        for held in ((Keys.DELETE,), ('x', Keys.CONTROL), (Keys.ARROW_LEFT,)):
            # On a machine with other work the bubble may be gone again, but not what it said.
            page.js('document.getElementById("bubble").textContent = ""')
            page.keys(*held)
            assert spelled(page) == lines and 'hidden' in page.js('return document.getElementById("bubble").textContent'), held
        page.click(f'#layers li[data-layer="{ground}"] .eye')
        choose(page, 'Ground')
        page.keys('r')
        page.keys(Keys.DELETE)
        assert spelled(page)[-1] == f'layer show {ground} no' and 'hidden' in page.bubble()
        page.ctrl('z')
        page.ctrl('z')
        page.keys('s')
        page.drag_points([middle_of(page, INN)])
        page.keys(Keys.DELETE)
        assert spelled(page)[-1] == f'object remove {INN}'
        passed(6)
