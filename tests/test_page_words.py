# SPDX-License-Identifier: MIT OR Apache-2.0
"""Reads what the page says to a designer in Chromium: no code of a refusal, no file of docs, no line
and no raw exception is named; a refused map names line, column and member, and what to do."""
import json
import re

from lib.cases import passed
from lib.places import EXAMPLE_MAPS
from page.bench import Bench, draw

NEEDS_BROWSER = True
# What no designer is told: a code in brackets, a page of docs, what lines can do, names of exceptions.
MACHINE = re.compile(r'\(\d\d?\)|docs/|\.md\b|\b[Nn]o line\b|Exception|Error\b|undefined|\bnull\b')
BARRED_CLIPBOARD = '''
const writeText = async () => { throw new DOMException("Write permission denied.", "NotAllowedError"); };
Object.defineProperty(navigator, "clipboard", {value: {writeText}});
roskevad.lines.copy();'''
HOUSE = (EXAMPLE_MAPS / 'house.tmj').read_text()


def told(page):
    return page.bubble()


def broken_maps():
    """Broken maps by the names of their files: what each has, and what is said of it."""
    cut = HOUSE[:400]
    wide = json.loads(HOUSE)
    del wide['tilewidth']
    large = {**json.loads(HOUSE), 'height': 99_999_999}
    return {
        'cut.tmj': (cut, [f'Line {cut.count(chr(10)) + 1}, column ', 'ends too early', 'a copy of it', 'anew in Tiled']),
        'wide.tmj': (json.dumps(wide), ['Line 1, column 1', 'tilewidth is absent', 'with a current Tiled']),
        'large.tmj': (json.dumps(large), ['Line 1, column ', 'height is 99999999', 'more than the page takes', '4,096 columns']),
        'list.tmj': ('[]', ['Line 1, column 1', 'the root is an array', 'no map', 'Open the map, not its tileset']),
    }


def test_refused_maps():
    """A map that is refused is named with line, column, member, why and what to do; so it is in the list."""
    bench = Bench('town.tmj', served=True)
    with bench as page:
        for name, (text, _) in broken_maps().items():
            (bench.folder / name).write_text(text)
        for name, (_, wanted) in broken_maps().items():
            page.js('roskevad.documents.openPath(arguments[0])', name)
            page.wait(lambda: name in told(page), f'{name} is refused')
            words = told(page)
            assert words.startswith(f'{name} was not opened. ') and not MACHINE.search(words), words
            assert all(each in words for each in wanted), (words, wanted)
            passed()
        page.ctrl('o')
        row = '#file-list li[data-path="cut.tmj"] .details'
        page.wait(lambda: page.texts(row)[0], 'it is looked into')
        assert page.texts(row)[0].startswith('line ') and not MACHINE.search(page.texts(row)[0])
        page.fill_in('Cancel')


def test_refused_lines():
    """What is refused is said in words, with what to do, for each code that a line may be refused with."""
    with Bench() as page:
        code = 'return roskevad.bench.sayRefusal({refusal: {code: arguments[0], words: arguments[1]}, isAccepted: false}) && 0'
        refusals = re.findall(r'\[(\d+), "([^"]+)"\]', (EXAMPLE_MAPS.parents[1] / 'js' / 'refusals.js').read_text())
        assert len(refusals) > 30
        for number, words in refusals:
            page.js(code, int(number), words)
            said = told(page)
            assert len(said) > 12 and not MACHINE.search(said) and said[0].isupper(), (number, said)
            passed()


def test_standing():
    """The bar below the map counts no steps: it says how many are undone, and whether the map is saved."""
    with Bench() as page:
        standing = lambda: page.find('#standing').text
        assert standing() == 'saved'
        draw(page)
        draw(page, 22)
        assert standing() == 'not saved'
        page.ctrl('z')
        assert standing() == '1 step undone, not saved'
        page.ctrl('z')
        assert standing() == '2 steps undone, saved'
        page.click('#macro')
        assert standing() == 'a macro is open, not saved', standing()
        page.click('#macro')


def test_nothing_open():
    """Without a map Save says to open one; what can be done with a map alone is grey, and says why."""
    with Bench(empty=True) as page:
        for css in ('#save', '#save-as', '#resize', '#undo', '#redo', '#macro', '#take', '#layer-up', '#add-tile-layer', '#remove-layer', '#new-tileset'):
            at = page.find(css)
            assert not at.is_enabled() and 'Open a map first' in at.get_attribute('title'), (css, at.get_attribute('title'))
        for css in page.js('return [...document.querySelectorAll("#tools button")].map(each => `#${each.id}`)'):
            at = page.find(css)
            assert 'off' in at.get_attribute('class') and 'Open a map first' in at.get_attribute('title'), css
        assert not page.find('#macro-name').is_enabled()
        page.ctrl('s')
        assert told(page) == 'Open a map first.'
    with Bench() as page:
        assert page.find('#save').is_enabled() and 'Nothing is undone' in page.find('#redo').get_attribute('title')
        assert 'Nothing is done yet' in page.find('#undo').get_attribute('title')
        page.ctrl('z')
        assert told(page) == 'There is nothing to undo.'


def test_nothing_chosen():
    """What is about something that is not chosen, or was not copied, is grey in menus and says so; so is the button of the selected cells."""
    with Bench() as page:
        why = {'Cut': 'Select cells or choose an object first', 'Copy': 'Select cells or choose an object first', 'Paste': 'Nothing is copied',
               'Duplicate': 'Choose an object first', 'Delete': 'Select cells or choose an object first', 'Select nothing': 'Nothing is selected'}
        row = '''const rows = [...document.querySelectorAll("#menu button")].filter(each => each.ariaDisabled === "true");
                 return rows.map(each => [each.querySelector(".words").textContent, each.title]);'''

        def grey():
            page.click('#menu-button')
            found = dict(page.js(row))
            page.js('document.querySelector("#menu-ground").dispatchEvent(new PointerEvent("pointerdown"))')
            return found

        first = grey()
        assert all(first.get(name) == words for name, words in why.items()), first
        assert not page.find('#take').is_enabled() and 'Select cells first' in page.find('#take').get_attribute('title')
        page.editor.lines('select replace 3 20 2 2')
        assert set(why) & set(grey()) == {'Paste', 'Duplicate'} and page.find('#take').is_enabled()
        draw(page)
        page.ctrl('c')
        assert 'Paste' not in grey()


def test_name_of_a_macro():
    """A macro without a name is not begun; it is said in words where that is wanted."""
    with Bench() as page:
        for name in ('', 'x' * 201, 'a || '):
            page.js('document.querySelector("#macro-name").value = arguments[0]', name)
            page.click('#macro')
            assert told(page).startswith('Give the macro a name') and not MACHINE.search(told(page)), told(page)
            assert page.editor.state()['depth'] == 0 and page.editor.state()['count'] == 0
            passed()


def test_thrown():
    """What a browser throws is told in words of its kind."""
    with Bench() as page:
        page.js(BARRED_CLIPBOARD)
        page.wait(lambda: told(page), 'it is said')
        assert told(page) == 'The clipboard was not written: the browser does not allow it.', told(page)
        page.js('roskevad.editor.place.maps = async () => { throw new TypeError("x is undefined"); }')
        page.ctrl('o')
        page.fill_in('Cancel')
        assert told(page) == 'The files cannot be listed: the page fails at it.', told(page)
