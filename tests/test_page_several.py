# SPDX-License-Identifier: MIT OR Apache-2.0
"""Works with several objects at once on the page in Chromium: a band and Shift choose them, a drag, arrow keys,
buttons and keys move, align, remove, copy and double them as one step, fields show what they share, and keys
act on what was chosen last, cells or objects."""
import json

from lib.maps import objects_in
from page.bench import Bench, cell, choose, layer_of, middle_of, object_of, points_at, spelled, standing
from page.browser import ActionChains, Keys
from test_page_menus import pick

NEEDS_BROWSER = True
IS_LONG = True


def crates(page, count=3):
    """Puts crates in a row into a layer of their own, and gives their ids."""
    page.editor.lines('layer add object Crates')
    layer = layer_of(page, 'Crates')['id']
    for at in range(count):
        members = {'name': f'crate {at}', 'type': 'Box', 'x': 100 + 40 * at, 'y': 120 + 6 * at, 'width': 20 + 4 * at, 'height': 16}
        page.editor.lines(f'object put {layer} {json.dumps(members)}')
    page.keys('s')
    choose(page, 'Crates')
    return [each['id'] for each in layer_of(page, 'Crates')['objects']]


def chosen(page):
    return page.js('return roskevad.bench.objectIds')


def band(page, box, *keys):
    (left, top), (right, bottom) = points_at(page, [box[:2], box[2:]])
    page.drag_points([[left, top], [(left + right) // 2, (top + bottom) // 2], [right, bottom]], *keys)


def all_chosen(page):
    band(page, (90, 105, 240, 160))


def places(page, ids):
    return [(each['x'], each['y']) for each in (object_of(page, number) for number in ids)]


def field(page, key):
    return page.find(f'#properties [data-key="{key}"]')


def test_choose():
    """A band chooses all objects of the layer in hand that it touches; Shift adds and takes away, on the map, with a band
    and in the list; a click at one of several chooses that alone. All of that sends no line."""
    with Bench() as page:
        ids = crates(page)
        lines = len(spelled(page))
        band(page, (90, 105, 165, 160))
        assert chosen(page) == ids[:2] and page.texts('#owner') == ['2 objects']
        assert len(page.texts('#objects .now')) == 2
        page.drag_points([middle_of(page, ids[2])], Keys.SHIFT)
        assert chosen(page) == ids
        page.drag_points([middle_of(page, ids[0])], Keys.SHIFT)
        assert chosen(page) == ids[1:]
        band(page, (90, 105, 130, 160), Keys.SHIFT)
        assert set(chosen(page)) == set(ids)
        page.drag_points([middle_of(page, ids[1])])
        assert chosen(page) == [ids[1]]
        ActionChains(page.driver).key_down(Keys.CONTROL).click(page.find(f'#objects li[data-object="{ids[0]}"]')).key_up(Keys.CONTROL).perform()
        page.settle()
        assert chosen(page) == [ids[1], ids[0]]
        page.keys(Keys.ESCAPE)
        assert chosen(page) == [] and len(spelled(page)) == lines


def test_all_of_a_layer():
    """With an object layer in hand Ctrl+A chooses all of its objects that are seen, and sends no line; Ctrl+Shift+A drops them. With the tool
    that selects cells, and with a tile layer, it is about cells."""
    with Bench() as page:
        ids = crates(page)
        page.editor.lines(f'member set object:{ids[1]} visible false')
        lines = len(spelled(page))
        page.ctrl('a')
        assert chosen(page) == [ids[0], ids[2]] and page.texts('#owner') == ['2 objects'] and len(spelled(page)) == lines
        page.ctrl('a', Keys.SHIFT)
        assert chosen(page) == [] and len(spelled(page)) == lines
        page.js('document.getElementById("menu-button").click()')
        pick(page, 'Select all')
        assert chosen(page) == [ids[0], ids[2]]
        page.click('#tool-select')
        page.ctrl('a')
        assert spelled(page)[lines:] == ['select replace 0 0 40 30']
        page.keys('s')
        layer = layer_of(page, 'Crates')['id']
        page.editor.lines('select none', f'member set layer:{layer} locked true')
        lines = len(spelled(page))
        page.ctrl('a')
        assert page.bubble() == 'Crates is locked. Nothing was chosen.' and len(spelled(page)) == lines
        choose(page, 'Ground')
        page.ctrl('a')
        assert spelled(page)[lines:] == ['select replace 0 0 40 30']


def test_move():
    """A drag of one of several moves all as one step, and so does a run of arrow keys; aligned they stand in line."""
    with Bench() as page:
        ids = crates(page)
        before, (index, _) = places(page, ids), standing(page)
        all_chosen(page)
        x, y = middle_of(page, ids[0])
        page.drag_points([[x, y], [x + 20, y + 10], [x + 40, y + 20]])
        moved = places(page, ids)
        by = (moved[0][0] - before[0][0], moved[0][1] - before[0][1])
        assert by[0] > 20 and by[1] > 10 and moved == [(x + by[0], y + by[1]) for x, y in before], (before, moved)
        assert standing(page) == (index + 1, index + 1) and page.texts('#steps li .name')[-1].startswith('Move Objects')
        for _ in range(3):
            page.keys(Keys.ARROW_RIGHT)
        page.keys(Keys.ARROW_DOWN, Keys.SHIFT)
        assert places(page, ids) == [(x + 3, y + 16) for x, y in moved] and standing(page) == (index + 2, index + 2)
        page.ctrl('z')
        assert places(page, ids) == moved
        page.click('#align-top')
        assert {y for _, y in places(page, ids)} == {moved[0][1]}
        page.click('#align-right')
        rights = {each['x'] + each['width'] for each in (object_of(page, number) for number in ids)}
        assert rights == {moved[2][0] + 28}
        for _ in range(3):
            page.ctrl('z')
        assert places(page, ids) == before


def test_copies_and_removal():
    """Delete, Ctrl+X, Ctrl+C with Ctrl+V, and Ctrl+D are about all that are chosen, each as one step; a paste keeps how they
    stand to one another, and chooses them."""
    with Bench() as page:
        ids = crates(page)
        index = standing(page)[0]
        before = page.editor.map()
        all_chosen(page)
        page.keys(Keys.DELETE)
        assert not layer_of(page, 'Crates')['objects'] and standing(page) == (index + 1, index + 1)
        page.ctrl('z')
        assert page.editor.map() == before
        all_chosen(page)
        page.ctrl('d')
        twins = chosen(page)
        assert len(twins) == 3 and not set(twins) & set(ids)
        assert places(page, twins) == [(x + 16, y + 16) for x, y in places(page, ids)]
        assert [object_of(page, number)['name'] for number in twins] == [f'crate {at}' for at in range(3)]
        page.ctrl('z')
        all_chosen(page)
        page.ctrl('c')
        assert '3 objects are copied' in page.bubble()
        hand = ActionChains(page.driver, duration=0)
        hand.w3c_actions.pointer_action.move_to_location(*points_at(page, [(400, 300)])[0])
        hand.perform()
        page.ctrl('v')
        pasted = chosen(page)
        offsets = lambda numbers: [(x - places(page, numbers)[0][0], y - places(page, numbers)[0][1]) for x, y in places(page, numbers)]
        assert len(pasted) == 3 and offsets(pasted) == offsets(ids) and len(objects_in(page.editor.map())) == 12
        page.ctrl('z')
        all_chosen(page)
        page.ctrl('x')
        assert not layer_of(page, 'Crates')['objects']
        page.ctrl('z')
        assert page.editor.map() == before


def test_fields():
    """Fields show what all share, and nothing where they do not; a value is set of all as one step. So are properties."""
    with Bench() as page:
        ids = crates(page)
        page.editor.lines(*(f'prop set object:{number} weight int {5 if number == ids[0] else 7}' for number in ids))
        page.editor.lines(*(f'prop set object:{number} open bool true' for number in ids[:2]))
        index = standing(page)[0]
        all_chosen(page)
        assert field(page, ' name').get_attribute('value') == '' and field(page, ' name').get_attribute('placeholder') == 'several values'
        assert field(page, ' class').get_attribute('value') == 'Box' and field(page, ' height').get_attribute('value') == '16'
        assert field(page, ' x').get_attribute('value') == ''
        page.type_into('#properties [data-key=" class"]', 'Crate')
        assert [object_of(page, number)['type'] for number in ids] == ['Crate'] * 3 and standing(page) == (index + 1, index + 1)
        page.type_into('#properties [data-key=" y"]', '150')
        assert [y for _, y in places(page, ids)] == [150] * 3
        page.click('#properties [data-key=" visible"]')
        assert not any(object_of(page, number)['visible'] for number in ids)
        page.ctrl('z')
        rows = page.texts('#properties tr[data-property] td:first-child span:first-child')
        assert rows == ['weight'], rows
        assert field(page, 'weight').get_attribute('value') == ''
        page.type_into('#properties [data-key="weight"]', '9')
        assert all(object_of(page, number)['properties'][-1 if number == ids[2] else 0]['value'] == 9 for number in ids)
        page.find('#new-name').send_keys('colour')
        page.find('#new-value').send_keys('red', Keys.ENTER)
        page.settle()
        assert all(any(each['name'] == 'colour' for each in object_of(page, number)['properties']) for number in ids)
        page.click('#properties tr[data-property="colour"] button')
        assert not any(each['name'] == 'colour' for number in ids for each in object_of(page, number)['properties'])
        page.drag_points([middle_of(page, ids[0])])
        assert page.texts('#owner') == ['crate 0'] and field(page, ' name').get_attribute('value') == 'crate 0'


def test_chosen_last():
    """Delete acts on what was chosen last, cells or objects, whichever tool is in hand; what is hidden stays, and is named."""
    with Bench() as page:
        ids = crates(page)
        ground = choose(page, 'Ground')
        page.keys('r')
        page.drag([(3, 20), (4, 21)])
        page.js('roskevad.bench.chooseObjects(arguments[0])', ids[:2])
        page.keys('b')
        page.keys(Keys.DELETE)
        assert [each['id'] for each in layer_of(page, 'Crates')['objects']] == ids[2:] and cell(page, ground, 3, 20) != 0
        page.ctrl('z')
        page.js('roskevad.bench.chooseObjects(arguments[0])', ids[:2])
        choose(page, 'Ground')
        page.keys('r')
        page.drag([(5, 20), (6, 21)])
        page.keys(Keys.DELETE)
        assert cell(page, ground, 5, 20) == 0 and len(layer_of(page, 'Crates')['objects']) == 3
        page.editor.lines(f'member set object:{ids[0]} visible false')
        page.js('roskevad.bench.chooseObjects(arguments[0])', ids)
        page.keys(Keys.DELETE)
        assert [each['id'] for each in layer_of(page, 'Crates')['objects']] == ids[:1] and 'crate 0 is hidden' in page.bubble()


def test_pick_an_object():
    """A property that names an object takes one that is clicked at on the map, of several objects as of one; Escape leaves it."""
    with Bench() as page:
        ids = crates(page)
        page.editor.lines(*(f'prop set object:{number} opens object 0' for number in ids))
        all_chosen(page)
        page.click('#properties tr[data-property="opens"] .pick-object')
        page.keys(Keys.ESCAPE)
        lines = len(spelled(page))
        assert chosen(page) == ids
        page.click('#properties tr[data-property="opens"] .pick-object')
        page.drag_points([middle_of(page, 2)])
        named = [each['value'] for number in ids for each in object_of(page, number)['properties']]
        assert named == [2, 2, 2] and chosen(page) == ids and len(spelled(page)) == lines + 5
        page.drag_points([middle_of(page, ids[0])])
        page.click('#properties tr[data-property="opens"] .pick-object')
        page.drag_points([middle_of(page, 3)])
        assert object_of(page, ids[0])['properties'][0]['value'] == 3 and spelled(page)[-1] == f'prop set object:{ids[0]} opens object 3'


def test_tiles_of_several():
    """Several tile objects show the tile that they share, and a button gives all of them the one in hand, as one step. Where one of them is
    none there is no such row."""
    with Bench() as page:
        ids = crates(page)
        layer = layer_of(page, 'Crates')['id']
        made = [{'x': 100 + 20 * at, 'y': 200, 'width': 16, 'height': 16, 'gid': gid} for at, gid in enumerate((21, 21, 5))]
        page.editor.lines(*(f'object put {layer} {json.dumps(each)}' for each in made))
        tiles = [each['id'] for each in layer_of(page, 'Crates')['objects']][3:]
        told = lambda: [text.split('\n')[0] for text in page.texts('#properties tr:has(#take-tile) .value')]
        for numbers, words in ((tiles[:2], ['tiles 20']), (tiles, ['several values']), ([ids[0], *tiles], [])):
            page.js('roskevad.bench.chooseObjects(arguments[0])', numbers)
            page.settle()
            assert told() == words, (numbers, told())
        page.js('roskevad.bench.chooseObjects(arguments[0]); roskevad.bench.takeStamp({width: 1, height: 1, values: [30]})', tiles)
        page.settle()
        index = standing(page)[0]
        page.click('#take-tile')
        assert [object_of(page, number)['gid'] for number in tiles] == [30] * 3 and standing(page)[0] == index + 1 and told() == ['tiles 29']


def order_of(page, name='Crates'):
    return [each['id'] for each in layer_of(page, name)['objects']]


def do(page, text):
    """Picks an item of the menu of the chosen objects."""
    ActionChains(page.driver).context_click(page.find('#objects li.now')).perform()
    page.settle()
    page.js('[...document.querySelectorAll("#menu button")].find(each => each.querySelector(".words").textContent === arguments[0]).click()', text)
    page.settle()


def test_order():
    """Raise and Lower go by one, and past no other one that is chosen; two more go to an end. All are one step, and where nothing
    is to be done it is said."""
    with Bench() as page:
        ids = crates(page, 4)
        one, two, three, four = ids
        wanted = [
            ([one], 'Raise', [two, one, three, four]),
            ([one], 'Raise to the top', [two, three, four, one]),
            ([one], 'Lower', [two, three, one, four]),
            ([one], 'Lower to the bottom', [one, two, three, four]),
            ([one, two], 'Raise', [three, one, two, four]),
            ([three, two], 'Raise', [one, three, four, two]),
            ([one, three], 'Raise to the top', [four, two, one, three]),
            ([three, two], 'Lower to the bottom', [two, three, four, one]),
        ]
        for numbers, text, order in wanted:
            page.js('roskevad.bench.chooseObjects(arguments[0])', numbers)
            page.settle()
            index = standing(page)[0]
            do(page, text)
            assert order_of(page) == order and standing(page)[0] == index + 1, (text, numbers, order_of(page))
            assert chosen(page) == numbers
        page.js('roskevad.bench.chooseObjects(arguments[0])', [one])
        page.settle()
        do(page, 'Raise')
        assert 'above all others of its layer already' in page.bubble() and standing(page)[0] == index + 1
        page.ctrl('z')
        assert order_of(page) == wanted[-2][2]


def test_other_layer():
    """The chosen objects go to another layer by the menu, in their order, behind those that are there, with all that they have; not
    into one that is locked."""
    with Bench() as page:
        ids = crates(page)
        things = layer_of(page, 'Things')
        before = [each['id'] for each in things['objects']]
        page.editor.lines(f'prop set object:{ids[0]} opens int 3')
        was = [object_of(page, number) for number in ids[:2]]
        page.js('roskevad.bench.chooseObjects(arguments[0])', [ids[1], ids[0]])
        page.settle()
        index = standing(page)[0]
        do(page, 'Move to Things')
        assert order_of(page, 'Things') == [*before, *ids[:2]] and order_of(page) == [ids[2]] and standing(page)[0] == index + 1
        assert [object_of(page, number) for number in ids[:2]] == was and sorted(chosen(page)) == ids[:2]
        page.ctrl('z')
        assert order_of(page) == ids
        page.editor.lines(f'member set layer:{things["id"]} locked true')
        page.js('roskevad.bench.chooseObjects(arguments[0])', ids[:1])
        page.settle()
        do(page, 'Move to Things')
        assert 'locked' in page.bubble() and order_of(page) == ids


def test_drag_in_the_list():
    """A row is dragged to another place of its layer or into another one, with all that are chosen; Escape ends it."""
    box = 'const {left, top, height, width} = document.querySelector(arguments[0]).getBoundingClientRect()'
    row = lambda page, css: page.js(f'{box}; return [left + width / 2, top, height]', css)
    point = lambda page, css, share: [int(row(page, css)[0]), int(row(page, css)[1] + share * row(page, css)[2])]
    of = lambda number: f'#objects li[data-object="{number}"]'
    with Bench() as page:
        one, two, three = ids = crates(page)
        page.js('document.querySelector(arguments[0]).scrollIntoView()', of(one))
        page.hold([point(page, of(one), 0.5), point(page, of(two), 0.5), point(page, of(three), 0.9)])
        assert page.find(of(three)).get_attribute('class') == 'drop-below'
        page.let_go()
        assert order_of(page) == [two, three, one] and chosen(page) == [one]
        assert spelled(page)[-1] == f'object into {one} {layer_of(page, "Crates")["id"]} 2'
        page.hold([point(page, of(one), 0.5), point(page, of(three), 0.5), point(page, of(two), 0.1)])
        page.driver.switch_to.active_element.send_keys(Keys.ESCAPE)
        page.let_go()
        assert order_of(page) == [two, three, one]
        page.js('roskevad.bench.chooseObjects(arguments[0])', [two, one])
        page.settle()
        things = layer_of(page, 'Things')
        first = things['objects'][0]['id']
        page.js('document.querySelector(arguments[0]).scrollIntoView({block: "center"})', of(first))
        page.hold([point(page, of(one), 0.5), point(page, of(first), 0.9), point(page, of(first), 0.1)])
        page.let_go()
        assert order_of(page, 'Things')[:3] == [two, one, first] and order_of(page) == [three] and ids
        page.js('document.querySelector(arguments[0]).scrollIntoView({block: "center"})', of(three))
        head = f'#objects li[data-layer="{things["id"]}"]'
        page.hold([point(page, of(three), 0.5), point(page, head, 0.9), point(page, head, 0.5)])
        page.let_go()
        assert order_of(page, 'Things')[-1] == three and order_of(page) == []
