# SPDX-License-Identifier: MIT OR Apache-2.0
"""Works with macros after the fact on the page in Chromium: the last steps become one, by a button and by
Shift in the list, also those of a window that was loaded anew; Ctrl+Z and Ctrl+Y in an open macro; and
both by chance, compared with the map behind each edit."""
import random

from lib.cases import passed
from page.bench import Bench, cell, choose, draw, spelled, standing, take_tile
from page.browser import ActionChains, Keys

NEEDS_BROWSER = True
IS_LONG = True
# How many runs of edits by chance are made.
RUNS = 12


def steps(page):
    return page.texts('#steps li[data-place] .name')


def group(page, count, name):
    page.click('#group-steps')
    page.fill_in('Group', count=count, name=name)


def test_group():
    """The last steps become one, with their name: one key undoes them all, and brings them back. What was drawn
    in one stroke, a macro among them and what stands before them stay as they are."""
    with Bench() as page:
        assert not page.find('#group-steps').is_enabled() and 'Nothing is done yet' in page.find('#group-steps').get_attribute('title')
        draw(page)
        first = page.editor.shown()
        draw(page, 21)
        page.editor.lines('begin Two', 'prop set map a int 1', 'prop set map b int 2', 'end', 'layer add tile New')
        before = page.editor.shown()
        group(page, 3, 'House')
        assert standing(page) == (2, 2) and steps(page)[-1] == 'House' and page.editor.shown() == before
        assert page.texts('#steps li.now .kind') == ['macro']
        page.ctrl('z')
        assert page.editor.shown() == first and standing(page) == (1, 2)
        page.ctrl('y')
        assert page.editor.shown() == before


def test_not_grouped():
    """Where the map was saved among the steps, or there are fewer, nothing is done and it is said; steps to be done
    again go behind a question alone."""
    bench = Bench()
    with bench as page:
        draw(page)
        draw(page, 21)
        page.ctrl('s')
        bench.saved('town.tmj')
        draw(page, 22)
        lines = len(spelled(page))
        page.click('#group-steps')
        page.fill_in('Group', count=2, name='House')
        assert 'saved among these steps' in page.find('dialog .fault').text and len(spelled(page)) == lines
        page.fill_in('Group', count=7)
        assert 'There are 3 steps' in page.find('dialog .fault').text
        page.fill_in('Group', count=1, name='a || b')
        assert '||' in ' '.join(page.texts('dialog .fault')) and len(spelled(page)) == lines
        page.fill_in('Cancel')
        draw(page, 23)
        page.ctrl('z')
        before = page.editor.shown()
        page.click('#group-steps')
        assert '1 step is undone' in page.find('dialog').text
        page.fill_in('Cancel')
        assert standing(page) == (3, 4)
        page.click('#group-steps')
        page.fill_in('Group them all the same')
        page.fill_in('Group', count=1, name='House')
        assert standing(page) == (3, 3) and steps(page)[-1] == 'House · Ground' and page.editor.shown() == before


def test_group_in_the_list():
    """Shift and a click at a step group all from it on; so it is where the window was loaded anew."""
    with Bench() as page:
        for row in (20, 21, 22):
            draw(page, row)
        before = page.editor.shown()
        page.reload()
        ActionChains(page.driver).key_down(Keys.SHIFT).click(page.find('#steps li[data-place="2"]')).key_up(Keys.SHIFT).perform()
        page.fill_in('Group', name='Path')
        assert standing(page) == (2, 2) and page.editor.shown() == before and steps(page)[-1] == 'Path · Ground'
        page.reload()
        page.ctrl('z')
        page.ctrl('y')
        assert page.editor.shown() == before


def test_all_as_it_was():
    """Where one of the lines is refused, no step is grouped, and all is as it was."""
    with Bench() as page:
        draw(page)
        page.editor.lines(*(['begin M'] * 64), 'prop set map a int 1', *(['end'] * 64))
        draw(page, 22)
        before, names = page.editor.shown(), steps(page)
        page.click('#group-steps')
        page.fill_in('Group', count=2, name='Deep')
        assert 'all is as it was' in page.find('dialog').text
        page.fill_in('Cancel')
        assert page.editor.shown() == before and standing(page) == (3, 3) and steps(page) == names


def test_undo_in_a_macro():
    """While a macro is open Ctrl+Z takes back its last edit, and of an empty one the macro; Ctrl+Y gives it back
    until the next edit. Escape takes back a stroke alone."""
    with Bench() as page:
        ground = choose(page, 'Ground')
        take_tile(page, (3, 1))
        whole = page.editor.shown()
        page.click('#macro')
        page.drag([(3, 20), (6, 20)])
        one = page.editor.shown()
        page.drag([(3, 21), (6, 21)])
        two = page.editor.shown()
        page.ctrl('z')
        assert page.editor.shown() == one and page.editor.state()['depth'] == 1
        page.ctrl('z')
        assert page.editor.shown() == whole and page.editor.state()['depth'] == 1
        page.ctrl('z')
        assert page.editor.state()['depth'] == 0 and page.editor.shown() == whole
        for each in (whole, one, two):
            page.ctrl('y')
            assert page.editor.shown() == each and page.editor.state()['depth'] == 1
            # A window that is loaded anew has it, too.
            page.reload()
            assert page.find('#redo').is_enabled() == (each != two)
        page.ctrl('z')
        page.click('#undo')
        page.drag([(3, 22), (6, 22)])
        page.ctrl('y')
        assert 'Nothing of this macro is undone' in page.bubble() and cell(page, ground, 3, 20) != 12
        before = page.editor.shown()
        page.hold_cells([(3, 24), (6, 24)])
        page.keys(Keys.ESCAPE)
        assert page.editor.shown() == before and page.editor.state()['depth'] == 1
        page.click('#macro')
        assert standing(page) == (1, 1)
        page.ctrl('z')
        assert page.editor.shown() == whole


def edits_by_chance(numbers):
    """Edits, each as its lines: strokes, properties, layers, objects that are moved on, macros in the macro."""
    cell = lambda: f'{numbers.randrange(9)} {numbers.randrange(7)}'
    stroke = [f'stamp 1 {cell()} 1 {numbers.randrange(1, 30)}'] + [f'stamp+ 1 {cell()} 1 {numbers.randrange(1, 30)}' for _ in range(numbers.randrange(3))]
    return numbers.choice([
        stroke,
        [f'prop set map key{numbers.randrange(3)} int {numbers.randrange(1000)}'],
        [f'layer add tile L{numbers.randrange(1000)}'],
        ['begin Inner', *stroke, 'end'],
        [f'erase 1 {cell()} 3 2'],
    ])


def test_by_chance():
    """Edits in an open macro are taken back and done again, in any order; then the last steps are grouped: the map is
    always the one that it was behind that edit."""
    numbers = random.Random(20261130)
    with Bench(empty=True) as page:
        page.say('new a 9 7 16 16 tiles.tsx')
        for _ in range(RUNS):
            page.editor.lines('goto 0', 'begin M')
            seen, at = [page.editor.shown()], 0
            for _ in range(14):
                turn = numbers.choice('eeeuur')
                if turn == 'e':
                    page.editor.lines(*edits_by_chance(numbers))
                    seen[at + 1:] = [page.editor.shown()]
                    at += 1
                elif turn == 'u' and at > 0:
                    page.ctrl('z')
                    at -= 1
                elif turn == 'r' and at < len(seen) - 1:
                    page.ctrl('y')
                    at += 1
                assert page.editor.shown() == seen[at], (turn, at, spelled(page)[-20:])
            page.editor.lines('end')
            for _ in range(3):
                page.editor.lines(*edits_by_chance(numbers))
            shown, (index, _) = page.editor.shown(), standing(page)
            count = numbers.randrange(1, index + 1)
            assert page.js('return roskevad.bench.macros.whyNot(arguments[0]) || roskevad.bench.macros.group(arguments[0], "G").isAccepted', count) is True
            page.settle()
            assert page.editor.shown() == shown and standing(page) == (index - count + 1, index - count + 1)
            passed()
