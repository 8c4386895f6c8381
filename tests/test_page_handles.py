# SPDX-License-Identifier: MIT OR Apache-2.0
"""Works with one object on the page in Chromium by its handles and fields: it is turned, by 15 degrees with Ctrl,
its corners are moved, added and removed, its numbers follow a drag, and fields set whether it is seen and its
tile. Each is one step."""
import json
import math

from page.bench import Bench, layer_of, middle_of, object_of, points_at, spelled, standing
from page.browser import ActionChains, Keys

NEEDS_BROWSER = True
INN, KEY, LAKE, WALK = 2, 4, 5, 6


def choose_object(page, number):
    page.js('roskevad.objects.choose(arguments[0])', number)
    page.settle()


def handle(page, name):
    """Where a handle of the chosen object is in the window."""
    code = '''const {overlay, bench, view} = roskevad, {object, layer} = bench.chosenObject;
              const shape = overlay.shapeOf(object), scale = view.scale / view.ratio, frame = view.box.getBoundingClientRect();
              const found = roskevad.handlesOf(shape, scale).find(([each]) => each === arguments[0]);
              const angle = (object.rotation ?? 0) * Math.PI / 180, [left, top] = overlay.screenPlace(object, layer);
              const [x, y] = [found[1] * view.scale, found[2] * view.scale];
              const [across, down] = [left + x * Math.cos(angle) - y * Math.sin(angle), top + x * Math.sin(angle) + y * Math.cos(angle)];
              return [frame.left + across / view.ratio, frame.top + down / view.ratio]'''
    return [round(each) for each in page.js(code, name)]


def middle(page, number):
    """The middle of an object in pixels of the map, turned as it is."""
    code = '''const {overlay} = roskevad, {object, layer} = roskevad.editor.map.object(arguments[0]);
              const [x, y] = [object.width / 2, (object.gid ? -1 : 1) * object.height / 2], angle = (object.rotation ?? 0) * Math.PI / 180;
              return [object.x + x * Math.cos(angle) - y * Math.sin(angle), object.y + x * Math.sin(angle) + y * Math.cos(angle)]'''
    return page.js(code, number)


def turn(page, number, degrees, *keys):
    """Drags the handle that turns around the middle of the object, by an angle."""
    (x, y), at = points_at(page, [middle(page, number)])[0], handle(page, 'turn')
    radius, angle = math.hypot(at[0] - x, at[1] - y), math.atan2(at[1] - y, at[0] - x) + math.radians(degrees)
    goal = [round(x + radius * math.cos(angle)), round(y + radius * math.sin(angle))]
    page.drag_points([at, [(at[0] + goal[0]) // 2, (at[1] + goal[1]) // 2], goal], *keys)


def field(page, key):
    return page.find(f'#properties [data-key=" {key}"]').get_attribute('value')


def test_turn():
    """An object is turned around its middle as one step, by whole degrees, and by 15 with Ctrl; undo brings all back."""
    with Bench() as page:
        before = object_of(page, LAKE)
        choose_object(page, LAKE)
        page.js('roskevad.view.fit()')
        page.settle()
        at = middle(page, LAKE)
        turn(page, LAKE, 40)
        now = object_of(page, LAKE)
        assert abs(now['rotation'] - 40) <= 2 and standing(page) == (1, 1), now
        assert all(abs(one - other) <= 1 for one, other in zip(middle(page, LAKE), at)), (middle(page, LAKE), at)
        assert page.texts('#steps li .name')[-1].startswith('Rotate Object · Lake') and field(page, 'rotation') == str(now['rotation'])
        turn(page, LAKE, 20, Keys.CONTROL)
        assert object_of(page, LAKE)['rotation'] == 60, object_of(page, LAKE)
        page.ctrl('z')
        page.ctrl('z')
        assert object_of(page, LAKE) == before


def test_fields_follow():
    """Place, size and rotation follow while an object is dragged, and are as before where Escape ends the drag."""
    with Bench() as page:
        choose_object(page, LAKE)
        x, y = middle_of(page, LAKE)
        before = object_of(page, LAKE)
        page.hold([[x, y], [x + 20, y], [x + 40, y + 20]])
        shown = [int(field(page, key)) for key in ('x', 'y')]
        assert shown[0] > before['x'] + 20 and shown[1] > before['y'] + 5, shown
        assert page.js('return document.getElementById("hand-words").textContent') == f'{shown[0]}, {shown[1]}'
        page.keys(Keys.ESCAPE)
        page.let_go()
        assert [field(page, key) for key in ('x', 'y')] == [str(before['x']), str(before['y'])] and not spelled(page)
        page.drag_points([[x, y], [x + 20, y], [x + 40, y + 20]])
        now = object_of(page, LAKE)
        assert [field(page, key) for key in ('x', 'y')] == [str(now['x']), str(now['y'])] == [str(each) for each in shown]


def test_corners():
    """A corner is dragged, one comes where the middle of an edge is dragged, and a double click takes one away;
    a polygon keeps three."""
    with Bench() as page:
        things = layer_of(page, 'Places')['id']
        corners = [{'x': 0, 'y': 0}, {'x': 80, 'y': 0}, {'x': 80, 'y': 60}, {'x': 0, 'y': 60}]
        page.editor.lines(f'object put {things} {json.dumps({"name": "yard", "x": 300, "y": 120, "polygon": corners})}')
        number = layer_of(page, 'Places')['objects'][-1]['id']
        choose_object(page, number)
        at = handle(page, 'corner 2')
        scale = page.js('return roskevad.view.scale')
        page.drag_points([at, [at[0] + 10, at[1] + 5], [at[0] + round(20 * scale), at[1] + round(10 * scale)]])
        polygon = object_of(page, number)['polygon']
        assert abs(polygon[2]['x'] - 100) <= 1 and abs(polygon[2]['y'] - 70) <= 1 and len(polygon) == 4, polygon
        assert page.texts('#steps li .name')[-1].startswith('Move Corner')
        at = handle(page, 'edge 0')
        page.drag_points([at, [at[0], at[1] - 10], [at[0], at[1] - round(30 * scale)]])
        polygon = object_of(page, number)['polygon']
        assert len(polygon) == 5 and abs(polygon[1]['x'] - 40) <= 1 and abs(polygon[1]['y'] + 30) <= 1, polygon
        count = standing(page)[0]
        chain = ActionChains(page.driver, duration=0)
        chain.w3c_actions.pointer_action.move_to_location(*handle(page, 'corner 1'))
        chain.double_click().perform()
        page.settle()
        assert len(object_of(page, number)['polygon']) == 4 and standing(page)[0] == count + 1
        for at in range(2):
            chain = ActionChains(page.driver, duration=0)
            chain.w3c_actions.pointer_action.move_to_location(*handle(page, 'corner 3' if at == 0 else 'corner 1'))
            chain.double_click().perform()
            page.settle()
        assert len(object_of(page, number)['polygon']) == 3 and 'at least 3 corners' in page.bubble()
        for _ in range(4):
            page.ctrl('z')
        assert object_of(page, number)['polygon'] == corners


def test_fields():
    """Fields set whether an object is seen and its rotation; a button gives a tile object the tile in hand."""
    with Bench() as page:
        choose_object(page, KEY)
        page.js('roskevad.bench.takeStamp({width: 1, height: 1, values: [30]})')
        page.click('#take-tile')
        assert object_of(page, KEY)['gid'] == 30 and 'tiles 29' in page.find('#properties').text
        page.click('#properties [data-key=" visible"]')
        assert object_of(page, KEY)['visible'] is False
        page.ctrl('z')
        assert object_of(page, KEY)['visible'] is True and page.find('#properties [data-key=" visible"]').is_selected()
        page.type_into('#properties [data-key=" rotation"]', '33')
        assert object_of(page, KEY)['rotation'] == 33


def test_fingers():
    """A handle takes a finger in a square of 44 pixels around it, and a mouse nearer to it; in the middle of a small object a
    finger moves that."""
    def draw(kind, *points):
        """Goes from the first point to the last one, by a finger or by the mouse."""
        if kind == 'mouse':
            return page.drag_points([list(each) for each in points])
        told = lambda what, *at: page.driver.execute_cdp_cmd('Input.dispatchTouchEvent', {'type': what, 'touchPoints': [{'x': x, 'y': y, 'id': 1} for x, y in at]})
        told('touchStart', points[0])
        for each in points[1:]:
            told('touchMove', each)
        told('touchEnd')
        page.settle()
        return None

    with Bench() as page:
        page.keys('s')
        choose_object(page, INN)
        inn = object_of(page, INN)
        page.js('''const {view} = roskevad;
                   view.zoomTo(3 * view.ratio);
                   [view.originX, view.originY] = [(100 - arguments[0]) * 3, (60 - arguments[1]) * 3];
                   view.redraw()''', inn['x'], inn['y'])
        page.settle()
        for kind, aside, is_taken in (('touch', 20, True), ('mouse', 4, True), ('mouse', 12, False), ('touch', 25, False)):
            choose_object(page, INN)
            x, y = handle(page, 'se')
            index = standing(page)[0]
            draw(kind, (x + aside, y + aside), (x + aside + 15, y + aside + 15), (x + aside + 30, y + aside + 30))
            wide = object_of(page, INN)['width']
            assert (standing(page)[0] == index + 1) is is_taken and (wide == inn['width'] + 10) is is_taken, (kind, aside, wide)
            if is_taken:
                page.ctrl('z')
        choose_object(page, INN)
        page.js('const {view} = roskevad; view.zoomTo(view.ratio); view.redraw()')
        page.settle()
        x, y = middle_of(page, INN)
        draw('touch', (x, y), (x + 20, y), (x + 40, y))
        assert object_of(page, INN) == {**inn, 'x': inn['x'] + 40}


def test_shapes_in_words():
    """The table says what an object is: its shape, and by how much it is turned."""
    with Bench() as page:
        said = lambda: page.js('return getComputedStyle(document.getElementById("owner"), "::after").content')
        corners = len(object_of(page, WALK).get('polygon') or object_of(page, WALK)['polyline'])
        for number, words in ((1, 'point'), (INN, 'rectangle'), (KEY, 'tile'), (LAKE, 'ellipse'), (WALK, f' with {corners} corners')):
            choose_object(page, number)
            assert words in said() and 'turned' not in said(), (number, said())
        choose_object(page, INN)
        page.editor.lines(f'member set object:{INN} rotation 45')
        assert 'rectangle, turned by 45°' in said()
        page.click('#of-map')
        assert said() in ('""', 'none', 'normal'), said()
