# SPDX-License-Identifier: MIT OR Apache-2.0
"""Works with the menus of the page in Chromium: all buttons in words with their keys, menus on layers, objects, tiles,
tabs and the map, F6 from panel to panel, keys of one's own, and what was opened lately."""
from lib.places import EXAMPLE_MAPS
from page.bench import Bench, choose, layer_of, middle_of, object_of, spelled, standing
from page.browser import ActionChains, Keys, Page, browser
from page.own_folder import put, site, take_folder

NEEDS_BROWSER = True
IS_LONG = True
INN = 2
NAMES = '''
const bars = ["file-actions", "tools", "layer-actions", "tileset-actions", "looks", "page-actions", "turns"];
const buttons = [...document.querySelectorAll(bars.map(id => `#${id} button`).join(", "))];
return buttons.filter(each => each.id !== "menu-button").map(each => each.ariaLabel || each.textContent);'''
# In which of the panels the focus is, in the order of F6.
WHERE = '''
const panels = ["#file-actions", "#tools", "#tabs", "#panel-tiles", "#panel-properties", "#view", "#panel-layers", "#panel-objects", "#panel-steps", "#line-box"];
return panels.findIndex(css => document.activeElement.closest(css));'''


def rows(page):
    return page.texts('#menu button .words')


def pick(page, text):
    page.js('[...document.querySelectorAll("#menu button")].find(each => each.querySelector(".words").textContent === arguments[0]).click()', text)
    page.settle()


def right_click(page, css):
    ActionChains(page.driver).context_click(page.find(css)).perform()
    page.settle()


def test_menu():
    """The menu has each button of the bars in words, with its keys, grey where it is grey; a click does what the button does."""
    with Bench() as page:
        page.click('#menu-button')
        words = rows(page)
        names = page.js(NAMES)
        assert set(names) <= set(words), set(names) - set(words)
        assert {'Cut', 'Copy', 'Paste', 'Duplicate', 'Delete', 'Select all'} <= set(words)
        keys = dict(zip(words, page.texts('#menu button .keys')))
        assert keys['Brush'] == 'B' and keys['Save'] == 'Ctrl+S' and keys['Undo'] == 'Ctrl+Z', keys
        assert page.js('return [...document.querySelectorAll("#menu button")].find(each => each.textContent.startsWith("Undo")).ariaDisabled') == 'true'
        pick(page, 'Rectangle')
        assert page.js('return roskevad.tools.name') == 'rectangle' and not rows(page)
        page.keys(Keys.F10)
        assert 'Brush' in rows(page)
        ActionChains(page.driver).send_keys('b', Keys.ESCAPE).perform()
        page.settle()
        assert not rows(page) and page.js('return roskevad.tools.name') == 'rectangle', 'no key goes past the menu'


def test_on_layers_and_tabs():
    """A layer is hidden, locked and removed from its menu; a tab is closed, and all others are."""
    with Bench('town.tmj', 'house.tmj', 'layers.tmj') as page:
        page.click('.tab[data-document="town"]')
        ground = layer_of(page, 'Ground')['id']
        page.js('document.querySelector("#layers [data-layer=\\"" + arguments[0] + "\\"]").scrollIntoView()', ground)
        right_click(page, f'#layers li[data-layer="{ground}"] .name')
        assert page.js('return roskevad.bench.layerId') == ground and 'Rename' in rows(page)
        pick(page, 'Hide')
        assert spelled(page) == [f'layer show {ground} no']
        right_click(page, f'#layers li[data-layer="{ground}"] .name')
        pick(page, 'Lock')
        assert layer_of(page, 'Ground')['locked'] is True
        right_click(page, '.tab[data-document="layers"]')
        pick(page, 'Close')
        assert page.texts('.tab .title') == ['town.tmj', 'house.tmj']
        right_click(page, '.tab[data-document="town"]')
        pick(page, 'Close the others')
        assert page.texts('.tab .title') == ['town.tmj']


def test_on_objects_and_tiles():
    """An object on the map and in the list has a menu, and so have tiles and selected cells. Tools that stamp take tiles with
    the right button."""
    with Bench() as page:
        page.keys('s')
        x, y = middle_of(page, INN)
        page.drag_points([[x, y]], button=2)
        assert page.js('return roskevad.bench.objectIds') == [INN] and 'Duplicate' in rows(page)
        pick(page, 'Duplicate')
        assert page.texts('#steps li .name')[-1].startswith('Duplicate Object')
        right_click(page, f'#objects li[data-object="{INN}"]')
        pick(page, 'Hide')
        assert object_of(page, INN)['visible'] is False
        right_click(page, '#palette')
        pick(page, 'Insert the tile as an object')
        assert page.js('return [roskevad.tools.name, roskevad.tools.all.insert.shape]') == ['insert', 'tile']
        choose(page, 'Ground')
        page.keys('b')
        page.drag([(3, 20)], button=2)
        assert not rows(page)
        page.keys('r')
        page.drag([(3, 20), (4, 21)])
        page.drag([(3, 20)], button=2)
        pick(page, 'Delete')
        assert spelled(page)[-1].startswith('erase ')


def test_panels_by_f6():
    """F6 goes through the panels and comes back, also from a field; Shift goes the other way."""
    with Bench() as page:
        page.js('document.activeElement.blur()')
        seen = []
        for _ in range(11):
            ActionChains(page.driver).send_keys(Keys.F6).perform()
            seen.append(page.js(WHERE))
        assert seen == [*range(10), 0], seen
        ActionChains(page.driver).key_down(Keys.SHIFT).send_keys(Keys.F6).key_up(Keys.SHIFT).perform()
        assert page.js(WHERE) == 9


def test_own_keys():
    """A click at a key in the list and another key change it, also behind a reload; the one that had it has it no more; a button
    gives all back. Keys that the browser keeps are named."""
    with Bench() as page:
        page.keys(Keys.F1)
        assert 'Keys that the browser keeps' in page.texts('#keys h3') and any('Ctrl+W' in each for each in page.texts('#keys th'))
        row = '[...document.querySelectorAll("#keys tr")].find(each => each.querySelector("td").textContent.startsWith("Eraser")).querySelector("button")'
        page.js(f'{row}.click()')
        ActionChains(page.driver).send_keys('q').perform()
        assert page.js(f'return {row}.textContent') == 'Q'
        page.js('document.querySelector("#keys").close()')
        page.settle()
        for _ in range(2):
            page.keys('b')
            page.keys('e')
            assert page.js('return roskevad.tools.name') == 'brush'
            page.keys('q')
            assert page.js('return roskevad.tools.name') == 'eraser'
            page.reload()
        page.keys(Keys.F1)
        page.press('#keys button', 'The keys as they were')
        page.js('document.querySelector("#keys").close()')
        page.settle()
        page.keys('b')
        page.keys('e')
        assert page.js('return roskevad.tools.name') == 'eraser'


def test_recent():
    """The menu has the maps that were opened lately in the same folder."""
    with Bench(served=True) as page:
        for name in ('house.tmj', 'layers.tmj'):
            page.js('roskevad.documents.openPath(arguments[0])', name)
            page.settle()
        page.click('#menu-button')
        recent = [word for word, keys in zip(rows(page), page.texts('#menu button .keys')) if keys == 'recent map']
        assert recent[:2] == ['house.tmj', 'town.tmj'], recent
        pick(page, 'town.tmj')
        assert page.editor.state()['active'] == 'town' and standing(page) == (0, 0)


def recent(page, keys):
    """What the menu has of what was opened lately: maps, or folders."""
    page.click('#menu-button')
    found = [word for word, each in zip(rows(page), page.texts('#menu button .keys')) if each == keys]
    ActionChains(page.driver).send_keys(Keys.ESCAPE).perform()
    page.settle()
    return found


def test_recent_folders():
    """Folders of the browser are in the menu, the last one first, also behind a reload; a click opens one, where it asks for a
    map of it. Maps of one folder are not offered in another one; one that is gone is named."""
    names = ('tiles.tsx', 'tiles.png', 'town.tmj', 'house.tmj')
    with site() as address:
        page = Page(browser(), f'{address}/roskevad.html')
        page.has_log = False
        page.clear(f'{address}/blank.html')
        page.open()
        put(page, {f'{folder}/{name}': (EXAMPLE_MAPS / name).read_bytes() for folder in ('castle', 'village') for name in names})
        assert recent(page, 'recent folder') == []
        for folder, name in (('castle', 'town.tmj'), ('village', 'house.tmj')):
            take_folder(page, folder)
            page.fill_in(file=name)
            page.js('roskevad.documents.close(roskevad.editor.openDocuments.active)')
            page.settle()
        assert recent(page, 'recent folder') == ['village', 'castle'] and recent(page, 'recent map') == ['house.tmj']
        page.reload()
        assert recent(page, 'recent folder') == ['village', 'castle']
        page.click('#menu-button')
        pick(page, 'castle')
        page.fill_in(file='house.tmj')
        assert page.editor.state()['active'] == 'house' and page.find('#folder').text == 'castle'
        assert recent(page, 'recent folder') == ['castle', 'village'] and recent(page, 'recent map') == ['town.tmj']
        gone = '''const done = arguments[0]; navigator.storage.getDirectory().then(top => top.getDirectoryHandle("castle"))
                  .then(folder => folder.removeEntry("town.tmj")).then(done)'''
        page.driver.execute_async_script(gone)
        page.click('#menu-button')
        pick(page, 'town.tmj')
        page.wait(lambda: 'town.tmj' in page.bubble(), 'the map is named')
        page.driver.get('about:blank')
