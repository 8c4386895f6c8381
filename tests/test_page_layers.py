# SPDX-License-Identifier: MIT OR Apache-2.0
"""Works with the list of layers on the page in Chromium, by mouse and keys: a double click, a drag within a
group, groups that are folded, layers that are hidden or locked, on which nothing is drawn unasked, new layers,
names that are typed in a row, the layer above and below, and tools that a layer does not take."""
import contextlib
import json

from lib.maps import layers_in
from page.bench import (
    Bench,
    cell,
    cells_with,
    choose,
    colours_now,
    layer_of,
    middle_of,
    see_colours,
    spelled,
    standing,
    take_tile,
)
from page.browser import ActionChains, Keys
from page.layer_list import DROP, ids_of, make_room, now, point_in, row_of
from test_page_fields import field_of, type_keys, with_ctrl
from test_page_menus import pick, right_click

NEEDS_BROWSER = True
IS_LONG = True
def row_fields(page):
    """What stands in the fields of rows of the list."""
    return page.js('return [...document.querySelectorAll("#layers .row-field")].map(field => field.value)')


def test_double_click():
    """It renames the layer under the hand, whichever is the one in hand; the rows stay the same ones at a
    click. A double click at an eye is two clicks."""
    with Bench() as page:
        ground, square = choose(page, 'Ground'), layer_of(page, 'Square')['id']
        page.js('window.rows = [...document.querySelectorAll("#layers li")]')
        choose(page, 'Square')
        choose(page, 'Ground')
        assert page.js('return window.rows.every((row, at) => document.querySelectorAll("#layers li")[at] === row)')
        page.double_click(lambda: page.find(f'#layers li[data-layer="{square}"] .name'), lambda: row_fields(page))
        type_keys(page, 'Market place', Keys.ENTER)
        assert spelled(page) == [f'layer rename {square} Market place']
        assert page.texts('#layers li.now .name') == ['Market place']
        ActionChains(page.driver).double_click(page.find(f'#layers li[data-layer="{ground}"] .eye')).perform()
        page.wait(lambda: len(spelled(page)) == 3, 'two clicks at an eye')
        assert spelled(page)[1:] == [f'layer show {ground} no', f'layer show {ground} yes']


def test_drag():
    """A layer is dragged to each place of its group, the drop is shown, and one line is sent."""
    with Bench() as page:
        make_room(page)
        top = ids_of(page.editor.map()['layers'])
        ground, last = top[0], top[-1]
        # Above the upper half of a row is above it; the list begins with the layer that is drawn last.
        page.hold([point_in(page, ground), point_in(page, last, 0.9), point_in(page, last, 0.1)])
        left, high, width, _ = row_of(page, last)
        assert colours_now(page, [(int(left + width / 2), int(high) + 1)]) == [DROP]
        assert spelled(page) == []
        page.let_go()
        assert spelled(page) == [f'layer move {ground} {len(top) - 1}']
        assert ids_of(page.editor.map()['layers']) == [*top[1:], ground]
        see_colours(page, [(x, 2) for x in range(0, 40, 3)])
        page.ctrl('z')
        page.hold([point_in(page, last), point_in(page, ground, 0.1), point_in(page, ground, 0.9)])
        left, high, width, height = row_of(page, ground)
        assert colours_now(page, [(int(left + width / 2), int(high + height) - 1)]) == [DROP]
        page.let_go()
        assert ids_of(page.editor.map()['layers']) == [last, *top[:-1]]
        assert standing(page) == (1, 1)
        # A press that hardly moves is a click.
        spot = point_in(page, ground)
        page.drag_points([spot, [spot[0] + 2, spot[1] + 1]])
        assert page.js('return roskevad.bench.layerId') == ground and standing(page) == (1, 1)


def test_drag_in_a_group():
    """A layer is dragged among those of its group. Escape ends a drag."""
    with Bench() as page:
        make_room(page)
        houses = layer_of(page, 'Houses')
        inside = ids_of(houses['layers'])
        ground = layer_of(page, 'Ground')['id']
        page.hold([point_in(page, inside[0]), point_in(page, inside[0], 0.1), point_in(page, inside[-1], 0.1)])
        page.let_go()
        assert ids_of(layer_of(page, 'Houses')['layers']) == [*inside[1:], inside[0]]
        assert spelled(page) == [f'layer move {inside[0]} {len(inside) - 1}']
        things = layer_of(page, 'Things')['id']
        page.hold([point_in(page, ground), point_in(page, things), point_in(page, things, 0.1)])
        page.driver.switch_to.active_element.send_keys(Keys.ESCAPE)
        page.let_go()
        assert len(spelled(page)) == 1 and page.texts('#layers .drop-above, #layers .drop-below, #layers .dragged') == []


def test_folds():
    """A group hides its layers in the list, and is unfolded where one of them is chosen elsewhere; a drag over
    a folded group goes past all of it."""
    with Bench() as page:
        names = page.texts('#layers .name')
        houses = layer_of(page, 'Houses')
        count = len(list(layers_in(houses['layers'])))
        page.click(f'#layers li[data-layer="{houses["id"]}"] .fold')
        at = names.index('Houses')
        assert page.texts('#layers .name') == names[: at + 1] + names[at + 1 + count :] and spelled(page) == []
        ground = layer_of(page, 'Ground')['id']
        page.hold([point_in(page, ground), point_in(page, houses['id'], 0.9), point_in(page, houses['id'], 0.1)])
        page.let_go()
        assert spelled(page) == [f'layer move {ground} 1'] and page.editor.map()['layers'][0]['id'] == houses['id']
        page.ctrl('z')
        page.reload()
        assert page.texts('#layers .name') == names[: at + 1] + names[at + 1 + count :], 'it stays folded'
        page.js('roskevad.bench.chooseLayer(arguments[0])', houses['layers'][0]['id'])
        assert len(page.texts('#layers .name')) > len(names) - count
        page.click(f'#layers li[data-layer="{houses["id"]}"] .fold')
        page.click(f'#layers li[data-layer="{houses["id"]}"] .fold')
        assert set(page.texts('#layers .name')) == set(names)


def test_hidden():
    """Nothing is drawn on a hidden layer, by no tool; the page says so at the mouse, and draws all the same
    where it is told to. A layer that is shown again is barred anew when it is hidden."""
    with Bench() as page:
        ground = choose(page, 'Ground')
        take_tile(page, (3, 1))
        page.click(f'#layers li[data-layer="{ground}"] .eye')
        before, lines = page.editor.map(), spelled(page)
        for key in 'bef':
            page.keys(key)
            page.drag([(3, 22), (6, 22)])
            assert 'Ground is hidden' in page.bubble(), key
            [told] = page.notices()
            assert 'Ground is hidden' in told
            hand, spot = page.point((6, 22)), page.find('#bubble').location
            assert abs(spot['x'] - hand[0]) < 200 and abs(spot['y'] - hand[1]) < 80
        assert page.editor.map() == before and spelled(page) == lines
        choose(page, 'Square')
        assert page.notices() == [], 'behind another layer it is over'
        choose(page, 'Ground')
        page.keys('b')
        page.drag([(3, 22)])
        page.answer('Draw all the same')
        page.drag([(3, 22), (6, 22)])
        assert cells_with(page, 'Ground', 12) >= {(3, 22), (6, 22)} and page.notices() == []
        page.ctrl('z')
        page.click(f'#layers li[data-layer="{ground}"] .eye')
        page.drag([(3, 22), (6, 22)])
        see_colours(page, [(x, 22) for x in range(3, 7)])
        page.click(f'#layers li[data-layer="{ground}"] .eye')
        count = standing(page)
        page.drag([(3, 23)])
        assert standing(page) == count and page.notices()
        page.answer('Show it')
        assert spelled(page)[-1] == f'layer show {ground} yes' and page.notices() == []
        houses = layer_of(page, 'Houses')
        page.click(f'#layers li[data-layer="{houses["id"]}"] .eye')
        choose(page, 'Cottages')
        page.drag([(3, 23)])
        assert 'The group Houses is hidden' in page.bubble()


def locked_rows(page):
    """The ids of the layers whose row shows that they are locked."""
    return sorted(page.js('return [...document.querySelectorAll("#layers .lock.on")].map(lock => Number(lock.closest("li").dataset.layer))'))


def test_locked():
    """A layer that Tiled has locked, or that stands in a group that it has locked, is drawn on where the page
    is told to alone; no line is sent for that, and the map keeps what it has."""
    bench = Bench(empty=True)
    with bench as page:
        told = json.loads((bench.folder / 'town.tmj').read_text())
        layers = {layer['name']: layer for layer in layers_in(told['layers'])}
        layers['Ground']['locked'] = layers['Houses']['locked'] = True
        (bench.folder / 'locked.tmj').write_text(json.dumps(told))
        page.choose_files(*bench.folder.glob('*.ts?'), *bench.folder.glob('*.png'), bench.folder / 'locked.tmj')
        assert locked_rows(page) == sorted([layers['Ground']['id'], layers['Houses']['id']])
        take_tile(page, (3, 1))
        for name, words in (('Ground', 'Ground is locked'), ('Cottages', 'The group Houses is locked')):
            number, count = choose(page, name), standing(page)
            page.keys('b')
            page.drag([(3, 23)])
            assert words in page.bubble() and words in page.notices()[0]
            assert standing(page) == count
            page.answer('Draw all the same')
            page.drag([(3, 23)])
            assert cell(page, number, 3, 23) == 12 and standing(page)[0] == count[0] + 1
            page.drag([(4, 23)])
            assert cell(page, number, 4, 23) == 12, 'it is told once'
        assert all(line.startswith('stamp') for line in spelled(page))
        assert layer_of(page, 'Ground')['locked'] is True


def test_a_lock():
    """The lock in a row locks a layer and unlocks it, each a step. What is said over the map unlocks all that
    bars the layer."""
    with Bench() as page:
        take_tile(page, (3, 1))
        ground, houses = layer_of(page, 'Ground')['id'], layer_of(page, 'Houses')['id']
        for number in (ground, houses):
            page.click(f'#layers li[data-layer="{number}"] .lock')
        assert spelled(page) == [f'member set layer:{number} locked true' for number in (ground, houses)]
        assert locked_rows(page) == sorted([ground, houses])
        page.click(f'#layers li[data-layer="{ground}"] .lock')
        assert spelled(page)[-1] == f'member remove layer:{ground} locked' and locked_rows(page) == [houses]
        assert 'locked' not in layer_of(page, 'Ground')
        choose(page, 'Cottages')
        count = standing(page)
        page.keys('b')
        page.drag([(3, 23)])
        assert standing(page) == count and 'The group Houses is locked' in page.notices()[0]
        page.answer('Unlock it')
        assert spelled(page)[-1] == f'member remove layer:{houses} locked' and page.notices() == []
        assert locked_rows(page) == [] and 'locked' not in layer_of(page, 'Houses')


def grouped_town(bench, name):
    """A copy of the town under another name, in which the object layer Places stands in the group Green, and the
    Inn has no class."""
    town = json.loads((bench.folder / 'town.tmj').read_text())
    green = next(each for each in town['layers'] if each['name'] == 'Green')
    places = next(each for each in town['layers'] if each['name'] == 'Places')
    town['layers'].remove(places)
    green['layers'].append(places)
    next(each for each in places['objects'] if each['id'] == 2)['type'] = ''
    (bench.folder / name).write_text(json.dumps(town))
    return [bench.folder / name, *bench.folder.glob('*.ts?'), *bench.folder.glob('*.png')]


def change_nothing(page, words, *acts):
    """Does what may change nothing of the map; each time the page says why at the hand."""
    before = page.editor.map()
    for act in acts:
        page.js('roskevad.bench.bubble.hide()')
        act()
        assert words in page.bubble(), (act, page.bubble())
        assert not page.texts('dialog[open]') and page.editor.map() == before, act


def test_a_lock_bars_tiles():
    """On a locked layer no tool and no key changes a cell, and what is copied is not pasted there. The map is
    resized with all that it has."""
    with Bench() as page:
        ground = choose(page, 'Ground')
        take_tile(page, (3, 1))
        page.click(f'#layers li[data-layer="{ground}"] .lock')

        def drawn(key):
            return lambda: (page.keys(key), page.drag([(3, 20), (6, 22)]))

        change_nothing(page, 'Ground is locked', *(drawn(key) for key in 'befp'))
        page.keys('r')
        page.drag([(3, 20), (4, 21)])
        keys = (lambda: page.keys(Keys.DELETE), lambda: page.ctrl('x'))
        change_nothing(page, 'Ground is locked', *keys)
        page.ctrl('c')
        page.ctrl('v')
        change_nothing(page, 'Ground is locked', lambda: page.drag([(8, 8)]))
        width = page.editor.map()['width']
        page.click('#resize')
        page.fill_in(width=width + 2)
        assert page.editor.map()['width'] == width + 2 and layer_of(page, 'Ground')['locked'] is True


@contextlib.contextmanager
def grouped_page():
    """The town with its layers of objects in the group Green, and one of these objects chosen: the page, and the id of that group."""
    bench = Bench(empty=True)
    with bench as page:
        page.choose_files(*grouped_town(bench, 'grouped.tmj'))
        page.keys('s')
        page.click('#objects li[data-object="2"]')
        yield page, layer_of(page, 'Green')['id']


def test_a_locked_group_bars_objects():
    """Of a layer in a locked group no object is dragged, resized, moved by keys, removed, cut, doubled or added."""
    with grouped_page() as (page, green):
        page.ctrl('c')
        page.click(f'#layers li[data-layer="{green}"] .lock')
        # A copy changes nothing.
        page.ctrl('c')
        assert page.bubble().startswith('Inn is copied')
        x, y = middle_of(page, 2)
        corner = page.js('const {object} = roskevad.bench.chosenObject, {scale} = roskevad.view; return [object.width * scale / 2, object.height * scale / 2]')
        far = [x + int(corner[0]), y + int(corner[1])]
        change_nothing(
            page,
            'The group Green is locked',
            lambda: page.drag_points([[x, y], [x + 30, y + 9], [x + 40, y + 20]]),
            lambda: page.drag_points([far, [far[0] + 20, far[1] + 20], [far[0] + 30, far[1] + 30]]),
            lambda: page.keys(Keys.ARROW_RIGHT),
            lambda: page.keys(Keys.DELETE),
            lambda: page.ctrl('v'),
            lambda: page.ctrl('d'),
            lambda: page.ctrl('x'),
            lambda: (page.keys('i'), page.drag([(20, 5), (22, 6)])),
        )
        assert spelled(page) == [f'member set layer:{green} locked true']
        page.keys('s')
        page.click(f'#layers li[data-layer="{green}"] .lock')
        page.click('#objects li[data-object="2"]')
        page.keys(Keys.ARROW_RIGHT)
        assert spelled(page)[-1].startswith('object move 2 ')


def test_a_lock_bars_lists_and_fields():
    """The fields of objects on a locked layer are grey, and it is said why, with a button that unlocks; the list and the menus rename, hide,
    raise and move none of them. Those of a hidden layer go on, and so do the fields of the locked layer."""
    with grouped_page() as (page, green):
        fields = 'return [...document.querySelectorAll("#properties :is(input, select, textarea, button)")].filter(each => !each.matches(":disabled")).length'
        assert page.js(fields) > 8 and not page.find('#why-locked').is_displayed()
        page.click(f'#layers li[data-layer="{green}"] .lock')
        page.click('#objects li[data-object="2"]')
        assert page.js(fields) == 0 and page.texts('#why-locked span') == ['The group Green is locked.']
        why = page.js('return roskevad.properties.sendEach(() => "member set object:2 name \\"x\\"", "Set name")')
        assert why == 'The group Green is locked.', 'also where a field is late'

        def item(text):
            return lambda: (right_click(page, '#objects li[data-object="2"]'), pick(page, text))

        row = lambda share: page.js('const {left, top, height} = document.querySelector(`#objects li[data-object="${arguments[0]}"]`).getBoundingClientRect();'
                                    'return [Math.round(left + 40), Math.round(top + arguments[1] * height)]', *share)
        change_nothing(
            page,
            'The group Green is locked',
            lambda: page.keys(Keys.F2),
            lambda: page.double_click(lambda: page.find('#objects li[data-object="2"]'), page.bubble),
            *(item(text) for text in ('Rename', 'Hide', 'Raise', 'Move to Things', 'Delete')),
            lambda: page.drag_points([row((2, 0.5)), row((5, 0.5)), row((5, 0.9))]),
        )
        # The layer itself is not barred.
        page.click('#of-layer')
        assert not page.find('#why-locked').is_displayed()
        page.type_into('#properties [data-key=" opacity"]', '0.5')
        assert spelled(page)[-1].startswith('member set layer:') and spelled(page)[-1].endswith(' opacity 0.5')
        page.click('#of-object')
        page.click('#unlock')
        assert spelled(page)[-1] == f'member remove layer:{green} locked' and not page.find('#why-locked').is_displayed()
        page.type_into('#properties [data-key=" name"]', 'Tavern')
        assert spelled(page)[-1] == 'member set object:2 name "Tavern"'
        page.click(f'#layers li[data-layer="{green}"] .eye')
        page.click('#objects li[data-object="2"]')
        page.type_into('#properties [data-key=" name"]', 'Inn')
        assert spelled(page)[-1] == 'member set object:2 name "Inn"'


def test_looks_of_locks():
    """The lock of a layer that is open is faint until the mouse is at its row. In a locked group each layer shows
    that it is locked by that, and the lock in its row is its own all the same."""
    with Bench() as page:
        houses, cottages, ground = (layer_of(page, name)['id'] for name in ('Houses', 'Cottages', 'Ground'))

        def faint(number):
            return float(page.js('return getComputedStyle(document.querySelector(`#layers li[data-layer="${arguments[0]}"] .lock .icon`)).opacity', number))

        assert max(faint(number) for number in (houses, cottages, ground)) < 0.4
        page.click(f'#layers li[data-layer="{houses}"] .lock')
        assert faint(houses) == 1 and 0.4 < faint(cottages) < 1 and faint(ground) < 0.4
        lock = f'#layers li[data-layer="{cottages}"] .lock'
        assert page.find(lock).get_attribute('title') == 'The group Houses is locked. Lock this layer, too'
        page.click(lock)
        assert spelled(page)[-1] == f'member set layer:{cottages} locked true' and faint(cottages) == 1
        assert page.find(lock).get_attribute('title') == 'Unlock this layer. The group Houses stays locked'
        assert page.texts('#steps li .name')[-2:] == ['Lock Layer · Houses', 'Lock Layer · Cottages']


def test_layer_above_and_below():
    """PgUp and PgDn choose the layer in the row above or below, as far as there is one, with Ctrl too; what is
    under the hand is told of it. In a field, and where another list has the keys, they are for that."""
    with Bench() as page:
        ids = page.js('return [...document.querySelectorAll("#layers li")].map(row => Number(row.dataset.layer))')
        page.click(f'#layers li[data-layer="{ids[0]}"] .name')
        page.drag([(3, 20)])
        page.keys(Keys.PAGE_UP)
        assert now(page) == ids[0]
        for number in ids[1:4]:
            page.keys(Keys.PAGE_DOWN)
            assert now(page) == number and page.texts('#layers .now .name') == [page.js('return roskevad.bench.layer.data.name')]
            assert page.js('return roskevad.bench.layer.data.name') in page.find('#place').text
        page.ctrl(Keys.PAGE_UP)
        assert now(page) == ids[2]
        page.ctrl(Keys.PAGE_DOWN)
        assert now(page) == ids[3] and page.texts('#owner') == [layer_named(page, ids[3])]
        field_of(page, ' offsetx').click()
        type_keys(page, Keys.PAGE_DOWN)
        assert now(page) == ids[3]
        page.js('document.querySelector("#steps li").focus()')
        type_keys(page, Keys.PAGE_DOWN)
        assert now(page) == ids[3]
        page.js('document.querySelector("#layers .now").focus()')
        type_keys(page, Keys.PAGE_DOWN)
        assert now(page) == ids[4] and not spelled(page)
        page.keys(Keys.F1)
        assert {'PgUp, Ctrl+PgUp', 'PgDn, Ctrl+PgDn'} <= set(page.texts('#keys th'))
        page.press('dialog button', 'Close')


def test_in_a_folded_group():
    """From a layer in a folded group PgDn goes on behind the group, and a rename shows its row."""
    with Bench() as page:
        cottages, houses = choose(page, 'Cottages'), layer_of(page, 'Houses')['id']
        fold = f'#layers li[data-layer="{houses}"] .fold'
        page.click(fold)
        page.keys(Keys.PAGE_DOWN)
        assert page.texts('#layers .now .name') == ['Ground']
        page.keys(Keys.PAGE_UP)
        assert now(page) == houses
        page.click(fold)
        choose(page, 'Cottages')
        page.click(fold)
        page.click('#rename-layer')
        type_keys(page, 'Huts', Keys.ENTER)
        assert spelled(page) == [f'layer rename {cottages} Huts'] and page.texts('#layers .now .name') == ['Huts']


def layer_named(page, number):
    return next(layer['name'] for layer in layers_in(page.editor.map()['layers']) if layer['id'] == number)


def test_the_current_layer():
    """The name of the current layer is the only bold one."""
    with Bench() as page:
        choose(page, 'Cottages')
        bold = '''const all = [...document.querySelectorAll("#layers .name, #steps .name")];
                  return all.filter(name => getComputedStyle(name).fontWeight > 400).map(name => name.textContent)'''
        assert page.js(bold) == ['Cottages']


def test_new_layers():
    """A new layer is named in a row above the current one, and added there with its name as one step; above the
    group, where the current one stands in one; Escape adds none, and Enter takes the name that is proposed."""
    with Bench() as page:
        make_room(page)
        town = page.editor.map()
        number, names = town['nextlayerid'], page.texts('#layers .name')
        choose(page, 'Ground')
        page.click('#add-tile-layer')
        count = sum(layer['type'] == 'tilelayer' for layer in layers_in(town['layers']))
        assert row_fields(page) == [f'Tile Layer {count + 1}'] and not page.texts('dialog[open]')
        rows = page.js('return [...document.querySelectorAll("#layers li")].map(row => row.dataset.layer ?? "new")')
        assert rows[-2:] == ['new', str(town['layers'][0]['id'])]
        type_keys(page, Keys.ESCAPE)
        assert not row_fields(page) and not spelled(page) and page.texts('#layers .name') == names
        page.click('#add-tile-layer')
        type_keys(page, 'Paths', Keys.ENTER)
        assert spelled(page) == ['begin Add Layer || add layer', 'layer add tile Paths', f'layer move {number} 1', 'end'], spelled(page)
        assert standing(page) == (1, 1) and ids_of(page.editor.map()['layers'])[:2] == [town['layers'][0]['id'], number]
        assert now(page) == number and page.texts('#layers .name') == [*names[:-1], 'Paths', 'Ground']
        assert page.find('#bubble').get_attribute('hidden')
        page.ctrl('z')
        assert page.editor.map() == {**town, 'nextlayerid': number} and page.texts('#layers .name') == names
        # In a group, above all of that.
        choose(page, 'Cottages')
        page.click('#add-object-layer')
        type_keys(page, Keys.ENTER)
        at = page.editor.map()['layers'].index(layer_of(page, 'Object Layer 3'))
        assert page.editor.map()['layers'][at - 1]['name'] == 'Houses' and standing(page) == (1, 1)
        # On top of all one line is enough.
        page.click(f'#layers li[data-layer="{town["layers"][-1]["id"]}"] .name')
        page.click('#add-group-layer')
        type_keys(page, 'Clouds', Keys.ENTER)
        assert spelled(page)[-1] == 'layer add group Clouds' and standing(page) == (2, 2)
        assert page.editor.map()['layers'][-1]['name'] == 'Clouds'


def test_a_layer_too_many():
    """Where the map has all layers that it can have, the name of another one is marked, with why; none is added."""
    with Bench() as page:
        page.editor.lines(*['layer add tile More'] * 250)
        lines = len(spelled(page))
        page.click('#add-tile-layer')
        type_keys(page, 'One more', Keys.ENTER)
        assert row_fields(page) == ['One more'] and page.texts('#layers .fault') == ['A map has at most 256 layers.']
        type_keys(page, Keys.ESCAPE)
        assert not row_fields(page) and len(spelled(page)) == lines and not page.texts('#layers .fault')


def test_a_press_behind_a_new_layer():
    """A press on the map adds the layer that is being named, and is on it."""
    with Bench() as page:
        choose(page, 'Ground')
        take_tile(page, (3, 1))
        number = page.editor.map()['nextlayerid']
        page.click('#add-tile-layer')
        type_keys(page, 'Marks')
        page.drag([(3, 20), (5, 20)])
        assert layer_of(page, 'Marks')['id'] == number == now(page)
        assert spelled(page)[-2:] == [f'stamp {number} 3 20 1 12', f'stamp+ {number} 4 20 1 12,12'] or cells_with(page, 'Marks', 12) == {(3, 20), (4, 20), (5, 20)}
        assert standing(page) == (2, 2)


def test_rename_in_the_row():
    """A layer is renamed in its row: Enter and leaving the row set the name, Escape leaves the old one; what is
    refused stays, marked; a name that is no other one is no step."""
    with Bench() as page:
        ground = choose(page, 'Ground')
        page.js('document.querySelector("#layers .now").focus()')
        type_keys(page, Keys.F2)
        assert row_fields(page) == ['Ground']
        type_keys(page, 'Floor', Keys.ESCAPE)
        assert not row_fields(page) and not spelled(page) and page.texts('#layers .now .name') == ['Ground']
        assert page.js('return document.activeElement === document.querySelector("#layers .now")'), 'the keys stay in the list'
        page.click('#rename-layer')
        type_keys(page, Keys.ENTER)
        assert not row_fields(page) and not spelled(page)
        page.click('#rename-layer')
        type_keys(page, 'x' * 201, Keys.ENTER)
        assert row_fields(page) == ['x' * 201] and '200' in page.texts('#layers .fault')[0] and not spelled(page)
        with_ctrl(page, 'a')
        type_keys(page, 'Floor', Keys.ENTER)
        assert spelled(page) == [f'layer rename {ground} Floor'] and not page.texts('#layers .fault')
        page.click('#rename-layer')
        type_keys(page, 'Soil')
        page.click('#of-map')
        assert spelled(page)[-1] == f'layer rename {ground} Soil' and not row_fields(page)
        page.click('#rename-layer')
        type_keys(page, 'So')
        with_ctrl(page, 'z')
        assert row_fields(page) == ['Soil'] and len(spelled(page)) == 2
        type_keys(page, Keys.DELETE, Keys.ENTER)
        assert spelled(page)[-1] == f'member set layer:{ground} name ""' and page.texts('#layers .now .name') == ['(no name)']


def test_raise_and_lower():
    """Where a layer is the highest or the lowest one of its group the button for that is grey, and says so."""
    with Bench() as page:
        top = page.editor.map()['layers']
        for name, up, down in ((top[-1]['name'], False, True), ('Ground', True, False), ('Cottages', False, True)):
            choose(page, name)
            assert [page.find(css).is_enabled() for css in ('#layer-up', '#layer-down')] == [up, down], name
        title = page.find('#layer-up').get_attribute('title')
        assert title == 'Raise this layer above the next one. It is the highest layer of its group already', title
        page.click('#layer-down')
        assert page.find('#layer-up').is_enabled() and spelled(page) == [f'layer move {now(page)} 1']


def test_remove():
    """Behind a layer that is removed the one below is the current one, or else the one above, or the group."""
    with Bench() as page:
        for name, next_name in (('Cottages', 'Smithy'), ('Inn', 'Smithy'), ('Smithy', 'Houses'), ('Ground', 'Houses')):
            number = choose(page, name)
            page.click('#remove-layer')
            assert spelled(page)[-1] == f'layer remove {number}' and page.texts('#layers .now .name') == [next_name], name


TILE_TOOLS, OBJECT_TOOLS = ['brush', 'eraser', 'fill', 'rectangle'], ['objects', 'insert']


def grey_tools(page):
    return page.js('return [...document.querySelectorAll("#tools .off")].map(button => button.id.slice(5))')


def title_of(page, tool):
    return page.find(f'#tool-{tool}').get_attribute('title')


def test_tools_of_layers():
    """A tool that cannot act on the current layer is grey, and its title says why; it stays in hand, and acts on
    the next layer that it is for."""
    with Bench() as page:
        choose(page, 'Ground')
        assert grey_tools(page) == ['insert'] and 'Choose an object layer first.' in title_of(page, 'insert')
        assert title_of(page, 'brush').startswith('Brush (B): Draw')
        choose(page, 'Places')
        assert grey_tools(page) == TILE_TOOLS
        assert title_of(page, 'fill') == 'Fill (F): Places has objects and no tiles. Choose a tile layer to draw.'
        choose(page, 'Houses')
        assert grey_tools(page) == [*TILE_TOOLS, 'insert'] and 'Houses is a group' in title_of(page, 'brush')
        faint = page.js('return [...document.querySelectorAll("#tools .icon")].map(icon => Number(getComputedStyle(icon).opacity) < 0.6)')
        assert faint == [True] * 4 + [False, False, True]
        page.keys('f')
        choose(page, 'Ground')
        assert page.js('return roskevad.tools.name') == 'fill' and grey_tools(page) == ['insert']
        # Of a map without objects.
        page.click('#new')
        page.fill_in(name='field', width='8', height='7')
        assert grey_tools(page) == OBJECT_TOOLS and 'This map has no objects' in title_of(page, 'objects')
        assert "'Add an object layer'" in title_of(page, 'insert')
        page.click('#add-object-layer')
        type_keys(page, Keys.ENTER)
        assert grey_tools(page) == TILE_TOOLS
        page.ctrl('z')
        assert grey_tools(page) == OBJECT_TOOLS


def test_tools_of_maps():
    """A map opens with a tool that its layer takes; each map has its own again behind a change of tab."""
    bench = Bench(empty=True)
    with bench as page:
        town = json.loads((bench.folder / 'town.tmj').read_text())
        town['layers'] = [layer for layer in town['layers'] if layer['type'] == 'objectgroup']
        (bench.folder / 'places.tmj').write_text(json.dumps(town))
        name = 'return roskevad.tools.name'
        files = [*bench.folder.glob('*.ts?'), *bench.folder.glob('*.png')]
        page.choose_files(*files, bench.folder / 'town.tmj')
        page.keys('p')
        page.choose_files(bench.folder / 'places.tmj')
        assert page.js(name) == 'objects' and grey_tools(page) == TILE_TOOLS
        page.keys('i')
        page.choose_files(bench.folder / 'house.tmj')
        assert page.js(name) == 'brush'
        page.keys('e')
        page.click('#new')
        page.fill_in(name='field', width='8', height='7')
        assert page.js(name) == 'eraser', 'it takes that'
        for document, tool in (('town', 'rectangle'), ('places', 'insert'), ('house', 'eraser')):
            page.click(f'.tab[data-document="{document}"]')
            assert page.js(name) == tool, document
