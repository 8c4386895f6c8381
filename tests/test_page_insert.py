# SPDX-License-Identifier: MIT OR Apache-2.0
"""Adds objects of all shapes on the page in Chromium, by mouse and keys: by a drag, by a click and corner by
corner, on pixels and on grids, with the tool in hand afterwards and no dialog; and names them in the panel."""
import json

from lib.cases import passed
from lib.maps import compact, objects_in
from lib.places import EXAMPLE_MAPS
from page.bench import Bench, choose, colours_now, layer_of, object_of, played, points_at, spelled, standing, take_tile
from page.browser import ActionChains, Keys
from selenium.webdriver.support.ui import Select

NEEDS_BROWSER = True
IS_LONG = True
YELLOW = (255, 211, 77)
USUAL = {'name': '', 'type': '', 'rotation': 0, 'visible': True}
SHAPES = ['rectangle', 'point', 'ellipse', 'polygon', 'polyline', 'tile', 'text']


def insert(page, shape, snap='none'):
    """Takes Insert with a shape, and a grid."""
    page.keys('s')
    page.keys('i')
    page.click(f'#shape-{shape}')
    snap_to(page, snap)


def snap_to(page, snap):
    Select(page.find('#snapping')).select_by_value(snap)
    page.settle()


def drag(page, *places, held=()):
    """Drags over places in pixels of the map; one place is a click."""
    page.drag_points([list(point) for point in points_at(page, places)], *held)


def move(page, x, y):
    """Moves the hand to a place of the map."""
    chain = ActionChains(page.driver, duration=0)
    chain.w3c_actions.pointer_action.move_to_location(*points_at(page, [(x, y)])[0])
    chain.perform()
    page.settle()


def newest(page):
    return max(objects_in(page.editor.map()), key=lambda each: each['id'])


def added(page):
    """The newest object without its id and what is usual, which it must have. It is chosen, the tool is in hand, and
    no dialog is there."""
    made = newest(page)
    assert page.js('return [roskevad.bench.objectId, roskevad.tools.name]') == [made['id'], 'insert']
    assert not page.texts('dialog[open]') and USUAL.items() <= made.items(), made
    assert page.texts('#owner') == [f"Object {made['id']}"]
    return {name: value for name, value in made.items() if name not in ('id', *USUAL)}


def shape_now(page):
    return page.js('return roskevad.tools.all.insert.shape')


def test_shapes():
    """Each shape is one step in the words of those who draw, undone by one key; the next one is drawn without another
    key, and the copied session has it."""
    with Bench() as page:
        layer = choose(page, 'Places')
        take_tile(page, (3, 1))
        box = {'x': 40, 'y': 90, 'width': 30, 'height': 50}
        corner = [{'x': 0, 'y': 0}, {'x': 60, 'y': 0}, {'x': 60, 'y': 40}]
        cases = {
            'rectangle': ([[(40, 90), (70, 140)]], box),
            'point': ([[(41, 93)]], {'x': 41, 'y': 93, 'width': 0, 'height': 0, 'point': True}),
            'ellipse': ([[(70, 140), (40, 90)]], {**box, 'ellipse': True}),
            'polygon': ([[(40, 90)], [(100, 90)], [(100, 130)], [(40, 90)]], {'x': 40, 'y': 90, 'width': 0, 'height': 0, 'polygon': corner}),
            'polyline': ([[(40, 90)], [(100, 90)], [(100, 130)], [(100, 130)]], {'x': 40, 'y': 90, 'width': 0, 'height': 0, 'polyline': corner}),
            'tile': ([[(48, 98)]], {'x': 40, 'y': 106, 'width': 16, 'height': 16, 'gid': 12}),
            'text': ([[(40, 90), (70, 140)]], {**box, 'text': {'text': 'Hello World', 'wrap': True}}),
        }
        assert list(cases) == SHAPES
        for at, (shape, (drags, wanted)) in enumerate(cases.items()):
            insert(page, shape)
            for _ in range(2):
                count = standing(page)[0]
                for places in drags:
                    drag(page, *places)
                assert added(page) == wanted, shape
                assert standing(page) == (count + 1, count + 1)
                number = newest(page)['id']
                assert page.texts('#steps .now .name') == [f'Insert {shape.capitalize()} · object {number}']
            page.ctrl('z')
            assert standing(page)[0] == at + 1 and newest(page)['id'] == number - 1
            passed()
        session = page.editor.session().decode()
        assert session.startswith('# all edits') and session.count(f'\nobject put {layer} ') == 7 + 7


def test_kept():
    """New objects and copies are there again behind a reload, with their steps, and the program plays the copied session to
    the same map."""
    bench = Bench()
    with bench as page:
        choose(page, 'Places')
        insert(page, 'ellipse', 'cell')
        drag(page, (40, 90), (70, 140))
        insert(page, 'polygon', 'half')
        for place in ((140, 90), (200, 90), (200, 130)):
            drag(page, place)
        page.keys(Keys.ENTER)
        page.ctrl('d')
        page.ctrl('z')
        page.js('roskevad.bench.chooseObject(8)')
        page.ctrl('d')
        page.ctrl('x')
        page.ctrl('v')
        shown, steps = page.editor.shown(), page.texts('#steps .name')
        assert [each.partition(' · ')[0] for each in steps[1:]] == [
            'Insert Ellipse', 'Insert Polygon', 'Duplicate Object', 'Remove Object', 'Paste Object',
        ]
        page.reload()
        assert page.editor.shown() == shown and page.texts('#steps .name') == steps
        page.say('save end.tmj')
        folder = played(bench, page.editor.session(), EXAMPLE_MAPS, '--all-edits')
        assert compact((folder / 'end.tmj').read_bytes()) == compact(bench.saved('end.tmj')) == shown


def test_names():
    """The name of a new object is typed in the panel, and may be empty; so are the class, and the words of a text, which may have
    several lines."""
    with Bench() as page:
        choose(page, 'Places')
        insert(page, 'text')
        drag(page, (40, 90))
        number = newest(page)['id']
        assert added(page)['width'] == 92 and added(page)['height'] == 19, 'a click makes a text of a usual size'
        page.type_into('#properties [data-key=" name"]', 'sign')
        page.type_into('#properties [data-key=" class"]', 'Sign')
        field = page.find('#properties [data-key=" text"]')
        field.click()
        field.send_keys(Keys.CONTROL, 'a')
        field.send_keys('The Inn', Keys.SHIFT, Keys.ENTER)
        field.send_keys(Keys.NULL, '"old"', Keys.TAB)
        page.settle()
        now = object_of(page, number)
        assert (now['name'], now['type'], now['text']) == ('sign', 'Sign', {'text': 'The Inn\n"old"', 'wrap': True})
        assert spelled(page)[-1] == f'member set object:{number} text ' + '{"text":"The Inn\\n\\"old\\"","wrap":true}'
        drag(page, (200, 90))
        assert newest(page)['id'] == number + 1 and added(page)['text']['text'] == 'Hello World', 'the tool is still in hand'


def test_keys_of_tiled():
    """With an object layer in hand keys take the shapes that they take in Tiled; with a tile layer the same keys take tools for tiles. A key of
    one's own goes before them."""
    with Bench() as page:
        tool = lambda: page.js('return [roskevad.tools.name, roskevad.tools.all.insert.shape]')
        choose(page, 'Places')
        for key, shape in (('r', 'rectangle'), ('c', 'ellipse'), ('p', 'polygon'), ('t', 'tile'), ('e', 'text')):
            page.keys(key)
            assert tool() == ['insert', shape], key
            passed()
        page.keys('o')
        assert tool()[0] == 'objects'
        choose(page, 'Ground')
        for key, name in (('r', 'select'), ('p', 'rectangle'), ('e', 'eraser')):
            page.keys(key)
            assert tool()[0] == name, key
            passed()
        page.keys('t')
        assert tool()[0] == 'eraser', 'no tool for tiles has this key'
        page.keys(Keys.F1)
        assert 'With an object layer, as in Tiled' in page.texts('#keys h3')
        page.js('document.querySelector("#keys").close(); const {keys} = roskevad.toolbar; keys.own.give(arguments[0], "c", keys.rows); keys.bind()',
                'Brush: draws the stamp; Shift draws a line from the last cell')
        choose(page, 'Places')
        page.keys('c')
        assert tool()[0] == 'brush'


def test_fonts():
    """A text has fields for its font, the height and colour of its letters, its style and where it lies in its box; one value at a time
    is set, and what is as by default is not written."""
    with Bench() as page:
        choose(page, 'Places')
        insert(page, 'text')
        drag(page, (40, 90))
        number = newest(page)['id']
        field = lambda name: f'#properties [data-key=" text {name}"]'
        text = lambda: {name: value for name, value in object_of(page, number)['text'].items() if name != 'text'}
        assert [page.find(field(name)).get_attribute('value') for name in ('fontfamily', 'pixelsize', 'color')] == ['sans-serif', '16', '#000000']
        wanted = {'wrap': True}
        for name, value in (('fontfamily', 'DejaVu Serif'), ('pixelsize', 24), ('color', '#80aa2200')):
            page.type_into(field(name), value)
            wanted[name] = value
            assert text() == wanted, (name, text())
        for name in ('bold', 'italic', 'underline', 'strikeout'):
            page.click(field(name))
            wanted[name] = True
            assert text() == wanted, (name, text())
        for name, value in (('halign', 'center'), ('valign', 'bottom')):
            Select(page.find(field(name))).select_by_value(value)
            page.settle()
            wanted[name] = value
            assert text() == wanted, (name, text())
        assert page.texts('#steps .now .name') == [f'Set Text · object {number}']
        for name, value in (('fontfamily', 'sans-serif'), ('pixelsize', 16), ('color', Keys.DELETE)):
            page.type_into(field(name), value)
            del wanted[name]
            assert text() == wanted, (name, text())
        for name in ('bold', 'wrap'):
            page.click(field(name))
            del wanted[name]
            assert text() == wanted, (name, text())
        lines = len(spelled(page))
        page.type_into(field('pixelsize'), '0')
        assert page.texts('#properties .fault') == ['a whole number from 1 to 4,096'] and len(spelled(page)) == lines


def test_grids():
    """On a grid a drag takes the cells, or half cells, that it goes over; points, corners and tiles stand at its lines. Ctrl
    turns it round, of Objects, too. Without a grid a click takes a cell."""
    with Bench() as page:
        choose(page, 'Places')
        insert(page, 'rectangle', 'cell')
        for snap, held, wanted in (
            ('cell', (), (32, 80, 48, 64)),
            ('half', (), (40, 88, 32, 56)),
            ('none', (), (41, 90, 29, 50)),
            ('none', (Keys.CONTROL,), (32, 80, 48, 64)),
            ('cell', (Keys.CONTROL,), (41, 90, 29, 50)),
        ):
            snap_to(page, snap)
            drag(page, (41, 90), (70, 140), held=held)
            assert tuple(added(page)[each] for each in ('x', 'y', 'width', 'height')) == wanted, (snap, held)
            passed()
        for snap, wanted in (('none', (64, 128, 16, 16)), ('half', (64, 136, 8, 8)), ('cell', (64, 128, 16, 16))):
            snap_to(page, snap)
            drag(page, (70, 140))
            assert tuple(added(page)[each] for each in ('x', 'y', 'width', 'height')) == wanted, f'a click, {snap}'
        for snap, wanted in (('none', (71, 139)), ('half', (72, 136)), ('cell', (64, 144))):
            for shape in ('point', 'polyline'):
                insert(page, shape, snap)
                drag(page, (71, 139))
                if shape == 'polyline':
                    drag(page, (203, 203))
                    page.keys(Keys.ENTER)
                    last = {'none': 203, 'half': 200, 'cell': 208}[snap]
                    assert added(page)['polyline'][1] == {'x': last - wanted[0], 'y': last - wanted[1]}
                made = added(page)
                assert (made['x'], made['y']) == wanted, (shape, snap)
                passed()
        insert(page, 'tile', 'cell')
        page.js('roskevad.bench.takeStamp({width: 1, height: 1, values: [5]})')
        drag(page, (71, 139))
        assert (added(page)['x'], added(page)['y']) == (64, 144), 'the cell under the hand'
        page.keys('s')
        number = newest(page)['id']
        drag(page, (79, 130), (99, 142))
        now = object_of(page, number)
        assert (now['x'], now['y']) == (80, 160), 'an object is dragged to the grid'
        drag(page, (81, 159), (88, 166), held=(Keys.CONTROL,))
        now = object_of(page, number)
        assert (now['x'], now['y']) == (87, 167), 'and with Ctrl to any pixel'
        page.reload()
        assert page.js('return roskevad.bench.snapping') == 'cell' and shape_now(page) == 'tile', 'they are kept'


def test_corners():
    """A polygon is drawn corner by corner: Backspace takes one back, Escape gives it up, and nothing is added before it has
    corners enough. A corner moves as long as the button is down. A line that ends at its first corner is closed."""
    with Bench() as page:
        choose(page, 'Places')
        insert(page, 'polygon')
        for place in ((40, 90), (100, 90)):
            drag(page, place)
        move(page, 100, 130)
        [first] = points_at(page, [(70, 90)])
        assert colours_now(page, [first]) == [YELLOW], 'what is drawn is seen'
        page.keys(Keys.ENTER)
        assert page.bubble() == 'A polygon has at least 3 corners.' and not spelled(page)
        drag(page, (100, 130))
        page.keys(Keys.BACK_SPACE)
        drag(page, (90, 140), (80, 150))
        page.keys(Keys.ENTER)
        assert added(page)['polygon'] == [{'x': 0, 'y': 0}, {'x': 60, 'y': 0}, {'x': 40, 'y': 60}] and standing(page) == (1, 1)
        for place in ((140, 90), (200, 90), (200, 130)):
            drag(page, place)
        assert page.js('return roskevad.bench.objectId') is None
        page.keys(Keys.ESCAPE)
        page.keys(Keys.ENTER)
        assert standing(page) == (1, 1) and page.js('return roskevad.tools.name') == 'insert'
        drag(page, (140, 90))
        page.keys(Keys.BACK_SPACE)
        page.keys(Keys.ENTER)
        assert standing(page) == (1, 1) and len(objects_in(page.editor.map())) == 7, 'no object was removed'
        for place in ((140, 90), (200, 90)):
            drag(page, place)
        page.keys('b')
        page.keys('s')
        insert(page, 'polyline')
        for place in ((140, 90), (200, 90), (200, 130), (142, 91)):
            drag(page, place)
        corners = [{'x': 0, 'y': 0}, {'x': 60, 'y': 0}, {'x': 60, 'y': 40}, {'x': 0, 'y': 0}]
        assert added(page)['polyline'] == corners, 'another tool has given up the polygon'
        page.keys(Keys.BACK_SPACE)
        assert len(objects_in(page.editor.map())) == 7, 'without corners it is about the chosen object'


def test_double_click():
    """A double click is the last corner, and ends there."""
    with Bench() as page:
        choose(page, 'Places')
        insert(page, 'polyline')
        drag(page, (40, 90))
        chain = ActionChains(page.driver, duration=0)
        hand = chain.w3c_actions.pointer_action
        hand.move_to_location(*points_at(page, [(100, 120)])[0])
        for _ in range(2):
            hand.pointer_down(button=0)
            hand.pointer_up(button=0)
        chain.perform()
        page.settle()
        assert added(page)['polyline'] == [{'x': 0, 'y': 0}, {'x': 60, 'y': 30}]


def test_keys():
    """I takes Insert, and again its next shape, Shift+I the one before. On the map by Tab a first Enter begins and a second one
    ends over cells; a point is in the middle of one; two at one place end a polygon. Keys act on the new object."""
    with Bench() as page:
        choose(page, 'Places')
        assert not page.find('#shapes').is_displayed() and not page.find('#snapping').is_displayed()
        page.keys('i')
        assert shape_now(page) == 'rectangle' and page.find('#shapes').is_displayed()
        for shape in [*SHAPES[1:], SHAPES[0]]:
            page.keys('i')
            assert shape_now(page) == shape and page.find(f'#shape-{shape}').get_attribute('aria-pressed') == 'true'
        page.keys('i', Keys.SHIFT)
        assert shape_now(page) == 'text'
        page.keys('i')
        page.js('roskevad.mapKeys.cell = [3, 5]; roskevad.view.box.focus({focusVisible: true})')

        def press(*keys):
            ActionChains(page.driver).send_keys(*keys).perform()
            page.settle()

        press(Keys.ENTER, Keys.ARROW_RIGHT, Keys.ARROW_DOWN, Keys.ENTER)
        assert added(page) == {'x': 48, 'y': 80, 'width': 32, 'height': 32}
        page.js('roskevad.tools.all.insert.take("point")')
        press(Keys.ENTER)
        assert added(page) == {'x': 72, 'y': 104, 'width': 0, 'height': 0, 'point': True}
        page.js('roskevad.tools.all.insert.take("polygon")')
        press(Keys.ENTER, Keys.ARROW_RIGHT, Keys.ENTER, Keys.ARROW_DOWN, Keys.ENTER, Keys.ENTER)
        assert added(page)['polygon'] == [{'x': 0, 'y': 0}, {'x': 16, 'y': 0}, {'x': 16, 'y': 16}]
        number = newest(page)['id']
        page.ctrl('d')
        assert newest(page)['id'] == number + 1 and newest(page)['polygon'] == object_of(page, number)['polygon']
        page.ctrl('c')
        page.ctrl('v')
        assert newest(page)['id'] == number + 2 and page.js('return roskevad.tools.name') == 'insert'
        page.keys(Keys.DELETE)
        assert newest(page)['id'] == number + 1
        page.keys(Keys.ESCAPE)
        assert page.js('return roskevad.bench.objectId') is None


def test_layers():
    """A new object goes into the chosen layer, or into the only object layer; where that is hidden or locked, or where none is
    chosen, it is said, and nothing is added. In a layer that is moved aside it stands where the hand was."""
    with Bench() as page:
        choose(page, 'Ground')
        insert(page, 'rectangle')
        drag(page, (40, 90), (70, 140))
        assert page.bubble() == 'Choose an object layer first: Things or Places.' and not spelled(page)
        layer = choose(page, 'Places')
        page.editor.lines(f'member put layer:{layer} ' + json.dumps({'offsetx': 10, 'offsety': -20}))
        count = len(spelled(page))
        drag(page, (40, 90), (70, 140))
        assert added(page) == {'x': 30, 'y': 110, 'width': 30, 'height': 50}
        for line, back, word in (('layer show {} no', 'layer show {} yes', 'hidden'),
                                 ('member set layer:{} locked true', 'member remove layer:{} locked', 'locked')):
            page.editor.lines(line.format(layer))
            count = len(spelled(page))
            for shape in ('rectangle', 'polygon'):
                insert(page, shape)
                drag(page, (40, 90), (70, 140))
                assert word in page.bubble() and 'Nothing was added.' in page.bubble() and len(spelled(page)) == count, page.bubble()
            page.editor.lines(back.format(layer))
            passed()
        page.editor.lines(f"layer remove {layer_of(page, 'Things')['id']}")
        choose(page, 'Ground')
        insert(page, 'point')
        drag(page, (40, 90))
        assert page.js('return roskevad.bench.layerId') == layer and added(page)['point'], 'the only object layer takes it'


def test_tiles():
    """A tile object has the tile in hand, with its flips, and the size of its image; it stands with its middle at the hand.
    Without a tile it is said."""
    with Bench() as page:
        choose(page, 'Places')
        insert(page, 'tile')
        take_tile(page, (3, 1))
        page.keys('x')
        drag(page, (100, 100))
        assert added(page) == {'x': 92, 'y': 108, 'width': 16, 'height': 16, 'gid': 12 + (1 << 31)}
        page.js('roskevad.bench.takeStamp({width: 1, height: 1, values: [0]})')
        count = len(spelled(page))
        drag(page, (140, 100))
        assert page.bubble().startswith('No tile is in the hand.') and len(spelled(page)) == count
