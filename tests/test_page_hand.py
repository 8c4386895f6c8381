# SPDX-License-Identifier: MIT OR Apache-2.0
"""Tries the hand on the page in Chromium: lines by Shift, rectangles, fills with a pattern, cut,
copy and paste of cells, kept stamps, Escape, keys in fields, and where words at the hand stand.
Each test has a copy of the maps of its own."""
import random

from lib.cases import passed
from page.bench import Bench, cell, cells_with, choose, see_colours, spelled, standing, take_tile
from page.browser import ActionChains, By, Keys

NEEDS_BROWSER = True
IS_LONG = True
# How many maps by chance are filled.
FILLS = 24


def line_between(one, other):
    """The cells of a line: one a column, or one a row where it is steep, as near to it as can
    be."""
    (x0, y0), (x1, y1) = one, other
    count = max(abs(x1 - x0), abs(y1 - y0), 1)
    return {
        (int(x0 + (x1 - x0) * at / count + 0.5), int(y0 + (y1 - y0) * at / count + 0.5))
        for at in range(count + 1)
    }


def test_lines():
    """Shift draws a line from the last cell of the stroke before, as one step, with brush and
    eraser; behind an undo it has its first cell, too; in another map it is a stroke as any
    other."""
    with Bench('town.tmj', 'flips.tmj') as page:
        page.click('.tab[data-document="town"]')
        choose(page, 'Ground')
        take_tile(page, (3, 1))
        before = cells_with(page, 'Ground', 12)
        page.drag([(2, 20), (4, 20)], Keys.SHIFT)
        assert cells_with(page, 'Ground', 12) - before == line_between((2, 20), (4, 20))
        page.drag([(14, 25)], Keys.SHIFT)
        page.drag([(20, 21)], Keys.SHIFT)
        drawn = line_between((4, 20), (14, 25)) | line_between((14, 25), (20, 21))
        seen = cells_with(page, 'Ground', 12) - before
        assert seen == drawn | line_between((2, 20), (4, 20)), seen ^ drawn
        assert standing(page) == (3, 3)
        see_colours(page, sorted(drawn)[:6])
        page.ctrl('z')
        page.ctrl('z')
        page.ctrl('z')
        page.drag([(20, 25)], Keys.SHIFT)
        assert (20, 21) in cells_with(page, 'Ground', 12) - before and standing(page) == (1, 1)
        page.keys('e')
        page.drag([(20, 25)])
        page.drag([(24, 25)], Keys.SHIFT)
        assert spelled(page)[-1].startswith('erase+ ') and standing(page) == (3, 3)
        page.click('.tab[data-document="flips"]')
        page.keys('b')
        take_tile(page, (5, 1))
        page.drag([(2, 0)], Keys.SHIFT)
        assert len(spelled(page)) == 1, 'a line does not lead from one map to another'


def test_rectangles():
    """A rectangle is filled with one tile or with a pattern, from its upper left corner on, as one
    step; what lies outside of the map or of the selection stays."""
    with Bench(empty=True) as page:
        page.say('new a 12 9 16 16 tiles.tsx')
        page.keys('p')
        take_tile(page, (3, 1))
        page.drag([(5, 4), (2, 2)])
        assert spelled(page) == ['stamp 1 2 2 4 ' + ','.join(['12'] * 12)], spelled(page)
        page.js('roskevad.bench.takeStamp({width: 2, height: 2, values: [5, 6, 7, 0]})')
        page.drag([(8, 5), (14, 10)])
        rows = [[5, 6, 5, 6], [7, 0, 7, 0], [5, 6, 5, 6], [7, 0, 7, 0]]
        assert [[cell(page, 1, 8 + x, 5 + y) for x in range(4)] for y in range(4)] == rows
        assert standing(page) == (2, 2)
        see_colours(page, [(8, 5), (9, 5), (8, 6), (11, 7)])
        page.say('select replace 0 0 1 1')
        page.drag([(0, 0), (3, 0)])
        assert spelled(page)[-1] == 'stamp 1 0 0 4 5,6,5,6' and cell(page, 1, 1, 0) == 0
        page.drag([(1, 1), (3, 3)])
        assert 'selection' in page.bubble() and standing(page) == (4, 4)
        page.keys('b')
        page.drag_points([page.point((-1, 3))])
        assert 'outside' in page.bubble() and standing(page) == (4, 4)


PATTERN = {'width': 3, 'height': 2, 'values': [11, 12, 13, 14, 15, 16]}


def changed(page, before):
    """The cells that are others than before, with their values."""
    now = page.editor.map()['layers'][0]['data']
    return {(at % 10, at // 10): value for at, value in enumerate(now) if value != before[at]}


def fill_both(page, x, y):
    """Fills at a cell with a pattern, and then by a line, and undoes both: the cells of each. Gives
    how many there were."""
    before, (index, _) = page.editor.map()['layers'][0]['data'], standing(page)
    page.stroke([(x, y)])
    filled = changed(page, before)
    assert standing(page)[0] == index + bool(filled), (x, y, spelled(page)[-3:])
    if filled:
        page.editor.lines('undo')
    page.editor.lines(f'fill 1 {x} {y} 20')
    wanted = changed(page, before)
    assert set(filled) == set(wanted), (x, y, set(filled) ^ set(wanted))
    if wanted:
        left, top = min(x for x, _ in wanted), min(y for _, y in wanted)
        assert filled == {
            (x, y): PATTERN['values'][(y - top) % 2 * 3 + (x - left) % 3] for x, y in wanted
        }
        page.editor.lines('undo')
    return len(wanted)


def test_pattern_fills():
    """A fill with a pattern takes the cells that the line `fill` takes, on maps and in selections
    by chance, and is one step. It is repeated from the upper left corner of their rectangle on."""
    numbers, counts = random.Random(20261127), []
    with Bench(empty=True) as page:
        page.say('new a 10 8 16 16 tiles.tsx')
        page.keys('f')
        page.js('roskevad.bench.takeStamp(arguments[0])', PATTERN)
        for at in range(FILLS):
            cells = ','.join(str(numbers.choice([1, 1, 2])) for _ in range(80))
            lines = [f'stamp 1 0 0 10 {cells}']
            if at % 3 == 2:
                lines += ['select replace 1 1 6 6', 'select subtract 3 2 2 3']
            page.editor.lines('select none', *lines)
            counts.append(fill_both(page, numbers.randrange(10), numbers.randrange(8)))
            passed()
        assert 0 in counts and max(counts) > 20, counts
        page.editor.lines('select none', 'erase 1 0 0 10 8')
        page.drag([(4, 4)])
        see_colours(page, [(0, 0), (1, 0), (2, 1), (9, 7)])


def selected_cells(page):
    return {
        (column + at, row)
        for row, column, count in page.editor.state()['selection']
        for at in range(count)
    }


def test_cut_and_paste():
    """Ctrl+X takes the selected cells and empties them; with a selection that bars it the stamp
    says so; Ctrl+V drops the selection and has the stamp in the hand."""
    with Bench() as page:
        ground = choose(page, 'Ground')
        old = [cell(page, ground, x, y) for y in (20, 21) for x in (3, 4, 5)]
        page.keys('r')
        page.drag([(3, 20), (5, 21)])
        page.ctrl('x')
        assert spelled(page)[-1] == f'erase {ground} 3 20 3 2' and standing(page) == (2, 2)
        page.keys('b')
        page.drag([(20, 24)])
        assert 'selection' in page.bubble() and standing(page) == (2, 2)
        page.ctrl('v')
        assert selected_cells(page) == set() and spelled(page)[-1] == 'select none'
        page.drag([(20, 24)])
        assert spelled(page)[-1] == f'stamp {ground} 19 23 3 ' + ','.join(map(str, old))
        assert not page.find('#bubble').is_displayed(), 'what was said goes when a stroke works'
        page.ctrl('z')
        take_tile(page, (3, 1))
        page.ctrl('v')
        page.drag([(20, 24)])
        assert [cell(page, ground, x, 23) for x in (19, 20, 21)] == old[:3]


def test_stamp_of_all():
    """A stamp of a whole map is one step of lines that each fit, as few as they can be."""
    # Flipped tiles, whose values have ten digits.
    tiles = [0x80000005 + y for y in range(2)]
    with Bench(empty=True) as page:
        page.say('new wide 3000 4 16 16 tiles.tsx')
        page.editor.lines(*(f'stamp 1 0 {y} 3000 {",".join([str(tile)] * 3000)}' for y, tile in enumerate(tiles)))
        page.ctrl('a')
        page.ctrl('c')
        page.ctrl('v')
        page.js(
            'const {view} = roskevad; view.zoomTo(1);'
            'view.originX = 600 - 1500 * 16; view.originY = 40; view.redraw()'
        )
        page.settle()
        index = standing(page)[0]
        page.drag([(1500, 2)])
        assert standing(page)[0] == index, 'it gives each cell what it has'
        page.drag([(1501, 3)])
        assert standing(page)[0] == index + 1, spelled(page)[-2:]
        assert [line.split(' ')[:5] for line in spelled(page)[-2:]] == [
            ['stamp', '1', '1', '1', '3000'],
            ['stamp+', '1', '1', '2', '3000'],
        ], [line[:40] for line in spelled(page)[-4:]]
        assert [cell(page, 1, 2999, y) for y in range(4)] == [tiles[0], *tiles, 0]
        page.js('roskevad.bench.takeStamp({width: 3000, height: 4, values: new Array(12000).fill(7)})')
        page.drag([(1500, 2)])
        assert [line[:24] for line in spelled(page)[-1:]] == ['stamp 1 0 0 3000 7,7,7,7'], spelled(page)[-1][:24]
        assert [cell(page, 1, 2999, y) for y in range(4)] == [7] * 4


def test_kept_stamps():
    """As in Tiled Ctrl and a digit keep the stamp, and the digit takes it again, whatever letter the keyboard has there;
    with Shift it is the side of the brush. The list of keys, and what is said, name these keys."""
    with Bench() as page:
        take_tile(page, (3, 1))
        page.ctrl('2')
        assert 'the key 2 takes it' in page.bubble()
        take_tile(page, (4, 0))
        page.ctrl('9')
        page.keys('e')
        page.keys('2')
        assert page.js('return [roskevad.tools.name, roskevad.bench.stamp.values, roskevad.bench.brushSize]') == [
            'brush',
            [12],
            1,
        ]
        page.keys('9')
        assert page.js('return roskevad.bench.stamp.values') == [5]
        page.js('document.body.dispatchEvent(new KeyboardEvent("keydown", {key: "é", code: "Digit2", bubbles: true}))')
        assert page.js('return roskevad.bench.stamp.values') == [12]
        page.keys('3')
        assert 'Ctrl+3 keeps the one in hand' in page.bubble() and 'Shift+3' in page.bubble()
        page.keys('3', Keys.SHIFT)
        assert page.js('return [roskevad.bench.stamp.values, roskevad.bench.brushSize]') == [[12], 3]
        assert 'Shift+1 to Shift+9' in page.js('return document.getElementById("brush-size").parentElement.title')
        page.keys(Keys.F1)
        told = dict(zip(page.texts('#keys th'), page.texts('#keys td')))
        assert 'Takes the stamp' in told['1 to 9'] and 'Keeps the stamp' in told['Ctrl+1 to Ctrl+9']
        assert 'side of brush' in told['Shift+1 to Shift+9']
        page.keys(Keys.ESCAPE)


def test_escape():
    """Escape takes a stroke back, and an earlier one stays; a drag of a rectangle does nothing then;
    with nothing under way it drops the selection; a dialog goes, and nothing else."""
    with Bench() as page:
        ground = choose(page, 'Ground')
        take_tile(page, (3, 1))
        page.drag([(3, 18), (5, 18)])
        before = page.editor.shown()
        page.hold_cells([(3, 20), (5, 20)])
        page.keys(Keys.ESCAPE)
        page.hold_cells([(8, 20)], is_pressed=False)
        page.let_go()
        assert spelled(page)[-2:] == [f'stamp+ {ground} 5 20 1 12', 'undo'] and standing(page) == (1, 2)
        assert page.editor.shown() == before and cell(page, ground, 4, 18) == 12
        page.hold_cells([(3, 18), (5, 18)])
        page.keys(Keys.ESCAPE)
        page.let_go()
        assert standing(page) == (1, 2), 'a stroke that has changed nothing takes no other one back'
        page.keys('p')
        page.hold_cells([(3, 22), (8, 25)])
        page.keys(Keys.ESCAPE)
        page.let_go()
        assert standing(page) == (1, 2)
        page.keys('r')
        page.drag([(3, 22), (8, 25)])
        page.hold_cells([(10, 22), (12, 25)])
        page.keys(Keys.ESCAPE)
        page.let_go()
        assert len(selected_cells(page)) == 24
        page.click('#resize')
        ActionChains(page.driver).send_keys(Keys.ESCAPE).perform()
        page.settle()
        assert not page.driver.find_elements(By.CSS_SELECTOR, 'dialog')
        assert len(selected_cells(page)) == 24
        page.keys(Keys.ESCAPE)
        assert selected_cells(page) == set() and spelled(page)[-1] == 'select none'
        page.keys(Keys.ESCAPE)
        assert standing(page) == (3, 3), 'with nothing selected it does nothing'


def test_keys_in_fields():
    """Ctrl+S saves in a field, too, and never opens the browser's own Save, also in a dialog;
    Ctrl+C copies text that is marked in the log, and no cells."""
    bench = Bench()
    with bench as page:
        choose(page, 'Ground')
        take_tile(page, (3, 1))
        page.js(
            'globalThis.kept = [];'
            'const keep = event => event.ctrlKey && kept.push(event.key + event.defaultPrevented);'
            'addEventListener("keydown", keep)'
        )
        page.drag([(3, 20), (5, 20)])
        page.find('#macro-name').send_keys(Keys.CONTROL, 's')
        page.settle()
        assert page.editor.state()['isClean'] and bench.saved('town.tmj')
        page.click('#resize')
        field = page.find('dialog input')
        field.send_keys(Keys.CONTROL, 's')
        field.send_keys(Keys.CONTROL, Keys.SHIFT, 's')
        ActionChains(page.driver).send_keys(Keys.ESCAPE).perform()
        page.ctrl('s')
        told = [each for each in page.js('return kept') if each[:2] in ('st', 'sf', 'St', 'Sf')]
        assert told == ['strue', 'strue', 'Strue', 'strue'], told
        stamp = page.js('return roskevad.bench.stamp')
        codes = '#lines code'
        across = 8 - page.driver.find_elements(By.CSS_SELECTOR, codes)[-2].size['width'] // 2
        page.double_click(
            lambda: page.driver.find_elements(By.CSS_SELECTOR, codes)[-2],
            lambda: page.js('return String(getSelection()).trim()'),
            across,
        )
        marked = page.js('return String(getSelection()).trim()')
        chain = ActionChains(page.driver).key_down(Keys.CONTROL).send_keys('c')
        chain.key_up(Keys.CONTROL).perform()
        page.find('#line').send_keys(Keys.CONTROL, 'v')
        assert page.js('return document.getElementById("line").value').strip() == marked
        assert page.js('return roskevad.bench.stamp') == stamp
        page.hold_cells([(9, 20)], is_pressed=False)
        page.drag([(9, 20)])
        assert page.js('return String(getSelection())') == ''


def frame(page, css):
    return page.js(
        'const box = document.querySelector(arguments[0]).getBoundingClientRect();'
        'return [box.left, box.top, box.right, box.bottom]',
        css,
    )


def is_apart(one, other):
    return one[2] <= other[0] or other[2] <= one[0] or one[3] <= other[1] or other[3] <= one[1]


def test_notices():
    """What is said at the hand covers neither the buttons for sessions, nor what was just drawn, in
    each corner of the map; it goes when the next thing works."""
    with Bench() as page:
        choose(page, 'Ground')
        take_tile(page, (3, 1))
        page.say('frobnicate')
        assert page.find('#bubble').is_displayed()
        for css in ('#copy', '#play'):
            assert is_apart(frame(page, '#bubble'), frame(page, css)), css
        page.drag([(3, 20)])
        assert not page.find('#bubble').is_displayed()
        page.click('#copy')
        assert 'clipboard' in page.bubble()
        for css in ('#copy', '#play'):
            assert is_apart(frame(page, '#bubble'), frame(page, css)), css
        for corner in ((1, 1), (38, 1), (1, 28), (38, 28)):
            page.drag([corner, (corner[0] - 1, corner[1] - 1)])
            page.ctrl('1')
            drawn = page.js('return roskevad.view.drawnBox()')
            box = [drawn[side] for side in ('left', 'top', 'right', 'bottom')]
            assert is_apart(frame(page, '#bubble'), box), (corner, box)
        page.keys('r')
        page.drag([(3, 3), (4, 4)])
        assert not page.find('#bubble').is_displayed()


def test_stroke_beside_the_map():
    """A stroke that begins outside of the map says so, and no longer once it draws."""
    with Bench() as page:
        ground = choose(page, 'Ground')
        take_tile(page, (3, 1))
        page.hold_cells([(-2, 3), (-1, 3)])
        assert 'outside' in page.bubble()
        page.hold_cells([(0, 3), (2, 3)], is_pressed=False)
        assert not page.find('#bubble').is_displayed()
        page.let_go()
        assert standing(page) == (1, 1) and cell(page, ground, 2, 3) == 12
        page.ctrl('z')
        page.say('select replace 20 20 2 2')
        page.hold_cells([(18, 20)])
        assert 'selection' in page.bubble()
        page.hold_cells([(20, 20)], is_pressed=False)
        assert not page.find('#bubble').is_displayed()
        page.let_go()
        assert cell(page, ground, 20, 20) == 12 and cell(page, ground, 19, 20) != 12


def play(page, text, *answers):
    """Plays lines by the dialog, with answers to what is asked then: what was asked."""
    page.find('#play').click()
    page.js('document.querySelector("#session textarea").value = arguments[0]', text)
    page.fill_in('Play')
    told = []
    for answer in answers:
        told.append(page.find('dialog h2').text)
        page.fill_in(answer)
    assert not page.driver.find_elements(By.CSS_SELECTOR, 'dialog'), 'nothing is asked'
    return told


def test_sessions_that_save():
    """A session that saves asks first; one that opens what this window has saved as a download says
    which bytes it opens; one that does neither is played at once."""
    bench = Bench()
    with bench as page:
        ground = choose(page, 'Ground')
        session = f'stamp {ground} 3 20 1 12\nsave town.tmj\n'
        assert play(page, session, 'Cancel') == ['This session saves town.tmj. Play it?']
        assert standing(page) == (0, 0) and spelled(page) == []
        play(page, session, 'Play it')
        size = len(bench.saved('town.tmj'))
        assert page.editor.state()['isClean'] and standing(page) == (1, 1)
        told = play(page, 'close town\nopen town town.tmj\n', 'Play it')
        assert len(told) == 1 and f'{size:,} bytes' in told[0] and 'town.tmj' in told[0], told
        assert cell(page, ground, 3, 20) == 12
        play(page, 'close town\nopen b flips.tmj\n')
        assert page.editor.state()['active'] == 'b'
