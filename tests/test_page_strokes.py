# SPDX-License-Identifier: MIT OR Apache-2.0
"""Draws on the page in Chromium by mouse and keys: strokes of brush and eraser, each of which is
one step, fills, selections, stamps that are flipped and turned, and strokes by chance. Each test
has a server and a copy of the maps of its own."""
from page.bench import (
    Bench,
    FLIPS,
    cell,
    cells_with,
    choose,
    see_colours,
    spelled,
    standing,
    take_tile,
)
from page.browser import ActionChains, By, Keys
from selenium.webdriver.support.ui import Select

NEEDS_BROWSER = True
IS_LONG = True


def test_brush():
    """A stroke is one step of one stamp and of lines that follow; it is seen at once."""
    with Bench() as page:
        ground = choose(page, 'Ground')
        take_tile(page, (3, 1))
        before = cells_with(page, 'Ground', 12)
        page.drag([(2, 2), (6, 2), (6, 5)])
        stroke = {(x, 2) for x in range(2, 7)} | {(6, y) for y in range(2, 6)}
        assert cells_with(page, 'Ground', 12) == before | stroke
        lines = spelled(page)
        assert standing(page) == (1, 1) and lines[0] == f'stamp {ground} 2 2 1 12', lines
        assert len(lines) == 8 and all(line.startswith('stamp+ ') for line in lines[1:]), lines
        see_colours(page, stroke)
        page.ctrl('z')
        assert standing(page) == (0, 1) and cells_with(page, 'Ground', 12) == before


def test_strokes_apart():
    """A stroke that begins where nothing changes is a step of its own, and so is one that gives
    back what it changed."""
    with Bench() as page:
        ground = choose(page, 'Ground')
        take_tile(page, (3, 1))
        page.drag([(2, 2), (4, 2)])
        page.drag([(3, 2), (4, 2), (6, 2)])
        assert standing(page) == (2, 2)
        assert [line for line in spelled(page) if line.startswith('stamp ')] == [
            f'stamp {ground} 2 2 1 12',
            f'stamp {ground} 5 2 1 12',
        ]
        page.drag([(2, 2), (5, 2)])
        assert standing(page) == (2, 2), 'a stroke that changes nothing sends nothing'
        page.ctrl('z')
        assert cell(page, ground, 4, 2) == 12 and cell(page, ground, 5, 2) != 12


def test_stroke_that_vanishes():
    """A stroke of two tiles gives back its first cell on the way to the left: the step goes, and
    the next line follows no other's."""
    with Bench(empty=True) as page:
        for line in (
            'new a 8 3 16 16 tiles.tsx',
            'stamp 1 4 0 2 5,5',
            'stamp 1 0 1 8 7,6,6,6,6,6,6,6',
            'stamp 1 0 2 2 7,5',
        ):
            page.say(line)
        page.js('roskevad.bench.takeStamp({width: 2, height: 1, values: [7, 5]})')
        page.drag([(5, 0), (4, 0), (3, 0), (2, 0)])
        lines = spelled(page)[3:]
        assert lines[0].startswith('stamp ') and standing(page)[0] == 4, lines
        page.ctrl('z')
        assert [cell(page, 1, x, 0) for x in range(8)] == [0, 0, 0, 0, 5, 5, 0, 0]
        assert standing(page) == (3, 4)


def test_eraser_and_sizes():
    """The eraser, and the sides 3 and 9 of brush and eraser, over the edge of the map too."""
    with Bench() as page:
        ground = choose(page, 'Ground')
        page.keys('3', Keys.SHIFT)
        page.keys('e')
        page.drag([(10, 10), (12, 10)])
        assert spelled(page) == [
            f'erase {ground} 9 9 3 3',
            f'erase+ {ground} 10 9 3 3',
            f'erase+ {ground} 11 9 3 3',
        ]
        assert all(
            cell(page, ground, x, y) == 0 for x in range(9, 14) for y in range(9, 12)
        ) and standing(page) == (1, 1)
        page.keys('9', Keys.SHIFT)
        page.keys('b')
        take_tile(page, (2, 0))
        page.drag([(1, 1)])
        assert spelled(page)[-1] == f'stamp {ground} -3 -3 9 ' + ','.join(['3'] * 81)
        assert {(x, y) for x in range(6) for y in range(6)} <= cells_with(page, 'Ground', 3)


def test_fill_and_selection():
    """Selections by a drag and the keys that add, subtract and intersect; a fill and a stroke keep
    to them."""
    with Bench() as page:
        ground = choose(page, 'Ground')
        page.keys('r')
        page.drag([(2, 2), (7, 6)])
        page.drag([(10, 3), (11, 4)], Keys.SHIFT)
        page.drag([(3, 3), (4, 4)], Keys.CONTROL)
        page.drag([(2, 2), (10, 5)], Keys.CONTROL, Keys.SHIFT)
        assert spelled(page) == [
            'select replace 2 2 6 5',
            'select add 10 3 2 2',
            'select subtract 3 3 2 2',
            'select intersect 2 2 9 4',
        ]
        inside = {
            (x, y) for x in range(2, 8) for y in range(2, 6) if not (x in (3, 4) and y in (3, 4))
        } | {(10, 3), (10, 4)}
        selected = {
            (column + i, row)
            for row, column, count in page.editor.state()['selection']
            for i in range(count)
        }
        assert selected == inside
        take_tile(page, (4, 0))
        page.keys('9', Keys.SHIFT)
        page.keys('b')
        page.drag([(5, 4)])
        assert cells_with(page, 'Ground', 5) >= {each for each in inside if each[0] < 10}
        page.keys('f')
        page.drag([(10, 3)])
        assert spelled(page)[-1] == f'fill {ground} 10 3 5' and cell(page, ground, 10, 4) == 5
        page.ctrl('a', Keys.SHIFT)
        assert page.editor.state()['selection'] == []
        see_colours(page, inside)


def test_fill_with_holes():
    """A stamp of several cells is repeated over those that are filled. Its empty cells leave them as
    they are."""
    with Bench(empty=True) as page:
        page.say('new a 8 6 16 16 tiles.tsx')
        page.say('stamp 1 1 0 1 12,4')
        page.keys('f')
        page.drag([(0, 0), (1, 1)], button=2)
        page.drag([(6, 4)])
        assert page.editor.map()['layers'][0]['data'] == [0, 12] * 4 + [0, 4] * 4 + [0, 12] * 4 + [
            0,
            4,
        ] * 4 + [0, 12] * 4 + [0, 4] * 4
        assert standing(page) == (2, 2)


def test_stamp_of_selected():
    """What was selected is the stamp; it is flipped and turned by Tiled's keys; the right button
    takes tiles too."""
    with Bench('layers.tmj') as page:
        page.keys('r')
        page.drag([(0, 0), (1, 1)])
        layer = page.js('return roskevad.bench.layerId')
        old = [cell(page, layer, x, y) for y in (0, 1) for x in (0, 1)]
        page.ctrl('c')
        page.ctrl('a', Keys.SHIFT)
        page.drag([(5, 4)])
        assert spelled(page)[-1] == f'stamp {layer} 4 3 2 ' + ','.join(map(str, old))
        page.keys('x')
        page.drag([(5, 4)])
        values = [old[1], old[0], old[3], old[2]]
        assert spelled(page)[-1] == f'stamp {layer} 4 3 2 ' + ','.join(
            str(value | FLIPS[0] if value else 0) for value in values
        )
        see_colours(page, [(4, 3), (5, 3), (4, 4), (5, 4)])
        page.keys('z')
        page.drag([(5, 4)])
        see_colours(page, [(4, 3), (5, 3), (4, 4), (5, 4)])
        page.drag([(0, 0), (2, 0)], button=2)
        assert page.js('return roskevad.bench.stamp.width') == 3


def test_turned_stamps():
    """A stamp of two by two tiles that is flipped and turned is seen as its picture flipped and
    turned."""
    last = 31
    turns = {
        'x': lambda u, v: (last - u, v),
        'y': lambda u, v: (u, last - v),
        'z': lambda u, v: (v, last - u),
        'Z': lambda u, v: (last - v, u),
    }
    spots = [(u, v) for u in range(1, 32, 6) for v in range(2, 32, 7)]
    with Bench(empty=True) as page:
        page.say('new a 8 6 16 16 tiles.tsx')
        page.say('stamp 1 0 0 2 12,4,3,11')

        def seen(points):
            places = [
                page.places([(4 + u // 16, 3 + v // 16)], (u % 16, v % 16))[0] for u, v in points
            ]
            return page.colours(places)

        page.keys('r')
        page.drag([(0, 0), (1, 1)])
        page.ctrl('c')
        page.ctrl('a', Keys.SHIFT)
        page.drag([(5, 4)])
        for key in 'xzyZ':
            before = seen([turns[key](u, v) for u, v in spots])
            page.keys(key.lower(), *([Keys.SHIFT] if key == 'Z' else []))
            page.drag([(5, 4)])
            assert seen(spots) == before and len(set(before)) > 4, key
        assert spelled(page)[-1].startswith('stamp 1 4 3 2 ')


def test_tools_by_mouse():
    """The tools and the size of the brush by clicks; the keys do the same."""
    with Bench() as page:
        ground = choose(page, 'Ground')
        take_tile(page, (3, 1))
        page.click('#tool-eraser')
        Select(page.find('#brush-size')).select_by_visible_text('5 × 5')
        page.drag([(10, 20)])
        page.click('#tool-brush')
        page.drag([(10, 20)])
        page.click('#tool-select')
        page.drag([(2, 20), (4, 22)])
        page.click('#tool-fill')
        page.drag([(3, 21)])
        page.click('#take')
        page.drag([(3, 21)])
        stamp = f'stamp {ground} 8 18 5 ' + ','.join(['12'] * 25)
        assert spelled(page) == [
            f'erase {ground} 8 18 5 5',
            stamp,
            'select replace 2 20 3 3',
            f'fill {ground} 3 21 12',
        ], spelled(page)
        held = page.driver.find_elements(By.CSS_SELECTOR, '#tools .on')
        assert [each.get_attribute('aria-label') for each in held] == ['Brush']
        values = [cell(page, ground, x, y) for y in range(20, 23) for x in range(2, 5)]
        assert (
            page.js('return roskevad.bench.stamp') == {'width': 3, 'height': 3, 'values': values}
            and 12 in values
        )


def test_second_tileset():
    """Tiles of another tileset of the map are chosen in the palette, and drawn."""
    with Bench('two_tilesets.tmj') as page:
        sets = page.editor.map()['tilesets']
        Select(page.find('#tilesets')).select_by_value(str(sets[1]['firstgid']))
        take_tile(page, (1, 0))
        layer = page.js('return roskevad.bench.layerId')
        page.drag([(1, 1), (2, 1)])
        value = sets[1]['firstgid'] + 1
        assert [cell(page, layer, x, 1) for x in (1, 2)] == [value, value]
        see_colours(page, [(1, 1), (2, 1)])
        page.keys('e')
        assert (
            page.find('#tool-eraser').get_attribute('class') == 'on'
        ), 'the list of tilesets takes no keys once it has answered'


def test_hand_that_leaves():
    """A stroke ends where the button goes up beside the map, and a hand without a button draws
    nothing."""
    with Bench() as page:
        ground = choose(page, 'Ground')
        take_tile(page, (3, 1))
        page.drag_points([page.point((3, 20)), page.point((1, 20)), [20, 500]])
        lines = spelled(page)
        assert lines[:3] == [
            f'stamp {ground} 3 20 1 12',
            f'stamp+ {ground} 2 20 1 12',
            f'stamp+ {ground} 1 20 1 12',
        ] and standing(page) == (1, 1)
        chain = ActionChains(page.driver, duration=30)
        for x in (6, 8, 10):
            chain.w3c_actions.pointer_action.move_to_location(*page.point((x, 22)))
        chain.perform()
        page.settle()
        assert spelled(page) == lines and page.find('#place').text.startswith('10, 22')


def test_stroke_behind_a_turn():
    """A stroke that begins before an undo is seen is drawn on the map that the undo gives."""
    with Bench() as page:
        ground = choose(page, 'Ground')
        take_tile(page, (3, 1))
        way = [(3, 20), (6, 20)]
        page.stroke(way)
        page.stroke(way, 'undo')
        assert (
            standing(page) == (1, 1)
            and spelled(page)[5] == f'stamp {ground} 3 20 1 12'
            and len(spelled(page)) == 9
        ), spelled(page)
        page.stroke(way, 'undo', 'redo')
        assert standing(page) == (1, 1) and len(spelled(page)) == 11
        page.stroke(
            [(3, 21)], 'layer add tile Over all', 'frobnicate', 'layer add tile Never heard'
        )
        assert standing(page) == (3, 3) and 'There is no such line' in page.bubble()
        assert [line.split(' ')[0] for line in spelled(page)[11:]] == ['layer', 'stamp']


def test_loaded_in_a_stroke():
    """The page is loaded anew while the button is down: what was sent stands, and the next stroke
    is a step of its own."""
    with Bench() as page:
        ground = choose(page, 'Ground')
        take_tile(page, (3, 1))
        hand = [page.point((x, 20)) for x in (3, 4, 5)]
        page.js(
            '''for (const [at, [x, y]] of arguments[0].entries()) {
                     const kind = at ? "pointermove" : "pointerdown";
                     document.getElementById("view").setPointerCapture = () => {};
                     document.getElementById("view").dispatchEvent(new PointerEvent(kind, {clientX: x, clientY: y, button: 0, pointerId: 7, bubbles: true}));
                   }''',
            hand,
        )
        page.settle()
        page.open()
        choose(page, 'Ground')
        take_tile(page, (3, 1))
        page.drag([(5, 20), (7, 20)])
        assert standing(page) == (2, 2) and cells_with(page, 'Ground', 12) >= {
            (x, 20) for x in range(3, 8)
        }
        page.ctrl('z')
        assert cell(page, ground, 5, 20) == 12 and cell(page, ground, 6, 20) != 12
