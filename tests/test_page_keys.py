# SPDX-License-Identifier: MIT OR Apache-2.0
"""Works on the page by keys alone, and looks at what readers of the screen are told: the list of keys,
the order of Tab, the browser's accessibility tree, the ring of the focus, and the three tasks on the
example world."""
import json

from lib.cases import Case, check_each, passed
from lib.maps import cells_of
from lib.places import EXAMPLE_MAPS
from page.bench import Bench, choose, layer_of, spelled, standing, take_tile
from page.browser import ActionChains, By, Keys

NEEDS_BROWSER = True
IS_LONG = True
KINDS = {'tilelayer': 'tiles', 'objectgroup': 'objects', 'imagelayer': 'image', 'group': 'group'}
CONTROLS = (
    'button', 'textbox', 'combobox', 'checkbox', 'tab', 'treeitem', 'option', 'searchbox', 'tree', 'listbox', 'toolbar',
    'tablist', 'application', 'dialog', 'separator', 'spinbutton', 'ColorWell', 'log', 'region',
)


def press(page, *keys):
    """Presses keys where the focus is."""
    ActionChains(page.driver).send_keys(*keys).perform()
    page.settle()


def hold(page, key, *keys):
    chain = ActionChains(page.driver).key_down(key)
    chain.send_keys(*keys).key_up(key).perform()
    page.settle()


def focus(page, css):
    """Goes to an element as keys do."""
    page.js('document.activeElement?.blur()')
    press(page, Keys.TAB)
    page.js('document.querySelector(arguments[0]).focus()', css)
    page.settle()


def focused(page):
    return page.js('const at = document.activeElement; return at.id || at.getAttribute("aria-label") || at.tagName')


# ---- the list of keys


# What keys do in lists, on the map and on the tiles, by the tables that bind them there.
PLACE_KEYS = '''
const {lists, mapKeys, tileKeys} = roskevad;
return [...lists, mapKeys, tileKeys].flatMap(({group}) => group.rows.map(([keys, text]) => [keys, text]));'''


def test_list_of_keys():
    """F1, also in a field, `?` and a button list the keys, and the list has each key that is
    bound, also in lists, on the map and on the tiles; Escape closes it, and no other key goes past it."""
    with Bench() as page:
        bound = page.js('return [...roskevad.toolbar.keys.calls.keys()]')
        texts = page.js('return roskevad.toolbar.keys.rows.map(([, text]) => text)')
        page.keys(Keys.F1)
        told = page.texts('#keys th')
        rows = page.texts('#keys td')
        assert set(texts) <= set(rows), set(texts) - set(rows)
        assert {'B', 'Ctrl+Z', 'Ctrl+Shift+Z, Ctrl+Y', '1 to 9', 'Ctrl+1 to Ctrl+9', 'Shift+1 to Shift+9', 'F1, ?', 'Esc'} <= set(told), told
        digits = {f'{held}{digit}' for held in ('', 'Ctrl+', 'Shift+') for digit in range(1, 10)}
        single = {key for key in bound if 'arrow' not in key} - digits
        names = {'escape': 'Esc', 'delete': 'Del', 'backspace': 'Backspace', 'f1': 'F1'}
        names |= {f'{held}{key}': f'{held}{name}' for held in ('', 'Ctrl+') for key, name in (('pageup', 'PgUp'), ('pagedown', 'PgDn'))}
        listed = {key for row in told for key in row.split(', ')}
        missing = [key for key in single if not listed & {names.get(key, key), key.title(), key.upper(), f'{key[:-1]}{key[-1].upper()}'}]
        assert not missing, missing
        groups = page.texts('#keys h3')
        assert {'A list, by Tab', 'The layers, by Tab', 'On the map, by Tab', 'On the tiles, by Tab', 'The edge of a panel, by Tab'} <= set(groups)
        places = page.js(PLACE_KEYS)
        assert len(places) > 20
        unlisted = [(keys, text) for keys, text in places if not any(text == row and head for head, row in zip(told, rows))]
        assert not unlisted, unlisted
        page.keys('e')
        assert page.js('return roskevad.tools.name') == 'brush', 'no key goes past the list'
        press(page, Keys.ESCAPE)
        page.find('#macro-name').send_keys(Keys.F1)
        assert page.find('#keys').is_displayed()
        press(page, Keys.ESCAPE)
        page.keys('?')
        press(page, Keys.ENTER)
        assert not page.driver.find_elements(By.CSS_SELECTOR, '#keys'), 'Enter is at Close'
        page.click('#list-keys')
        assert page.find('#keys').is_displayed()
        passed(len(bound))


# ---- Tab and the focus


REACHED = '''
return [...document.querySelectorAll("button, input, select, textarea, [tabindex]")]
  .filter(each => each.tabIndex >= 0 && !each.disabled && each.checkVisibility() && each.getClientRects().length)
  .map(each => (each.dataset.test = each.id || each.ariaLabel || each.title || each.textContent));'''
# What has a key of its own in its list: it is no stop of Tab.
SKIPPED = '''
return [...document.querySelectorAll("button, input, select, textarea")]
  .filter(each => each.tabIndex < 0 && each.checkVisibility() && !each.closest("#layers, #tabs")).map(each => each.outerHTML)'''


def test_tab_reaches_all():
    """Tab goes once around all that can be pressed or typed into, and the lists, the map, the tiles
    and the edges of the panels."""
    with Bench('town.tmj', 'house.tmj') as page:
        page.click('#macro')
        page.js('document.activeElement.blur()')
        wanted = page.js(REACHED)
        assert page.js(SKIPPED) == []
        seen = []
        for _ in range(len(wanted) + 4):
            ActionChains(page.driver).send_keys(Keys.TAB).perform()
            seen.append(page.js('return document.activeElement.dataset.test ?? ""'))
        assert set(wanted) <= set(seen), set(wanted) - set(seen)
        needed = {'view', 'palette', 'left-edge', 'right-edge', 'lines', 'line', 'undo', 'save', 'tool-brush', 'try', 'list-keys'}
        assert needed - {'undo'} <= set(seen), needed - set(seen)
        passed(len(wanted))


# Of the pixels of two pictures of one place how many differ by a contrast of three to one.
DIFFERENT = '''
const [one, other, done] = arguments;
const bright = (data, at) => {
  const [red, green, blue] = [0, 1, 2].map(part => data[at + part] / 255).map(part => part <= 0.04045 ? part / 12.92 : ((part + 0.055) / 1.055) ** 2.4);
  return 0.2126 * red + 0.7152 * green + 0.0722 * blue;
};
const load = text => new Promise(ready => {
  const image = new Image();
  image.onload = () => {
    const pen = new OffscreenCanvas(image.width, image.height).getContext("2d");
    pen.drawImage(image, 0, 0);
    ready(pen.getImageData(0, 0, image.width, image.height).data);
  };
  image.src = "data:image/png;base64," + text;
});
Promise.all([load(one), load(other)]).then(([first, second]) => {
  let count = 0;
  for (let at = 0; at < first.length; at += 4) {
    const [low, high] = [bright(first, at), bright(second, at)].sort((a, b) => a - b);
    if ((high + 0.05) / (low + 0.05) >= 3) count++;
  }
  done(count);
});'''
FOCUSED = (
    '#save', '#tool-brush', '#tool-eraser', '#brush-size', '#macro-name', '.tab.on', '.tab .close', '#layers li.now', '#steps li.now',
    '#panel-layers h2', '#palette', '#view', '#left-edge', '#line', '#turn-log', '#of-map', '#properties input', '#object-search',
)


def shot(page, css):
    """What is seen of an element and around it."""
    box = page.js('const {left, top, width, height} = document.querySelector(arguments[0]).getBoundingClientRect(); return [left, top, width, height]', css)
    left, top = max(0, box[0] - 6), max(0, box[1] - 6)
    clip = {'x': left, 'y': top, 'width': box[0] + box[2] + 6 - left, 'height': box[1] + box[3] + 6 - top, 'scale': 1}
    return box, page.driver.execute_cdp_cmd('Page.captureScreenshot', {'clip': clip})['data']


def fault_of_focus(page, css):
    page.js('document.activeElement?.blur()')
    _, before = shot(page, css)
    page.js('document.querySelector(arguments[0]).focus({preventScroll: true})', css)
    box, after = shot(page, css)
    ring = page.driver.execute_async_script(DIFFERENT, before, after)
    # A ring of two pixels around it; a part of it may be over something else.
    wanted = 2 * (box[2] + box[3])
    return None if ring >= wanted else f'{css}: {ring} pixels stand out, and {wanted:.0f} must'


def test_focus_is_seen():
    """Around what has the focus pixels stand out by three to one from what is there without it, by
    light and by dark."""
    with Bench() as page:
        for scheme in ('light', 'dark'):
            page.driver.execute_cdp_cmd('Emulation.setEmulatedMedia', {'features': [
                {'name': 'prefers-color-scheme', 'value': scheme}, {'name': 'prefers-reduced-motion', 'value': 'reduce'}]})
            page.js('document.activeElement?.blur()')
            press(page, Keys.TAB)
            check_each([Case(f'{css} {scheme}', css, None) for css in FOCUSED], lambda case: fault_of_focus(page, case.given))
        page.driver.execute_cdp_cmd('Emulation.setEmulatedMedia', {'features': []})


# ---- what readers of the screen are told


class Tree:
    """The browser's accessibility tree of the page."""

    def __init__(self, page):
        nodes = page.driver.execute_cdp_cmd('Accessibility.getFullAXTree', {})['nodes']
        self.by_id = {node['nodeId']: node for node in nodes}
        self.nodes = [node for node in nodes if not node.get('ignored')]

    def all(self, role, name=None, within=None):
        nodes = self.nodes if within is None else list(self.below(within))
        return [node for node in nodes if role_of(node) == role and name in (None, name_of(node))]

    def one(self, role, name=None, within=None):
        found = self.all(role, name, within)
        assert len(found) == 1, (role, name, [name_of(node) for node in found])
        return found[0]

    def below(self, node):
        for number in node.get('childIds', ()):
            child = self.by_id[number]
            if not child.get('ignored'):
                yield child
            yield from self.below(child)


def role_of(node):
    return node['role']['value']


def name_of(node):
    return node.get('name', {}).get('value', '')


def state_of(node, name):
    return next((each['value'].get('value') for each in node.get('properties', ()) if each['name'] == name), None)


def chosen_in(tree, node, role):
    return [name_of(each) for each in tree.all(role, None, node) if state_of(each, 'selected')]


def listed_layers(layers, depth=1):
    """The layers as they are listed, each with its level: the one that is drawn last is the first."""
    for layer in reversed(layers):
        words = [layer['name'], KINDS[layer['type']], *([] if layer['visible'] else ['hidden'])]
        yield ', '.join(words), depth
        yield from listed_layers(layer.get('layers', ()), depth + 1)


def test_tools_and_toolbars():
    """The tools are a toolbar whose buttons tell which one is in hand."""
    with Bench() as page:
        names = ['Brush', 'Eraser', 'Fill', 'Rectangle', 'Select', 'Objects', 'Insert']

        def pressed():
            tree = Tree(page)
            buttons = tree.all('button', None, tree.one('toolbar', 'Tools'))
            assert [name_of(each) for each in buttons] == names, buttons
            return [name_of(each) for each in buttons if state_of(each, 'pressed') == 'true']

        assert pressed() == ['Brush']
        page.keys('e')
        assert pressed() == ['Eraser']
        grid = Tree(page).one('button', 'Grid')
        assert state_of(grid, 'pressed') == 'true'
        page.ctrl('g')
        assert state_of(Tree(page).one('button', 'Grid'), 'pressed') == 'false'


def test_lists_are_told():
    """Layers are a tree with their kinds and levels, maps are tabs, steps are a list; each tells what is chosen."""
    with Bench('town.tmj', 'house.tmj') as page:
        page.click('.tab[data-document="town"]')
        tree = Tree(page)
        layers = [(name_of(each), state_of(each, 'level')) for each in tree.all('treeitem', None, tree.one('tree', 'Layers'))]
        assert layers == list(listed_layers(page.editor.map()['layers'])), layers
        assert chosen_in(tree, tree.one('tree', 'Layers'), 'treeitem') == ['Ground, tiles']
        tabs = tree.one('tablist', 'Maps')
        assert sorted(name_of(each) for each in tree.all('tab', None, tabs)) == ['house.tmj', 'town.tmj']
        assert chosen_in(tree, tabs, 'tab') == ['town.tmj']
        assert name_of(tree.one('application', 'Map town.tmj'))
        take_tile(page, (3, 0))
        page.stroke([(1, 20), (2, 20)])
        tree = Tree(page)
        steps = tree.one('listbox', 'Steps')
        assert [name_of(each) for each in tree.all('option', None, steps)] == ['0 (as it began), saved', '1 Stamp · Ground']
        assert chosen_in(tree, steps, 'option') == ['1 Stamp · Ground']
        assert chosen_in(tree, tree.one('tablist', 'Maps'), 'tab') == ['town.tmj, not saved']
        page.ctrl('z')
        tree = Tree(page)
        assert name_of(tree.all('option', None, tree.one('listbox', 'Steps'))[1]) == '1 Stamp · Ground, undone'


def test_all_has_a_name():
    """Each control has a name of letters, and so has each dialog, which is told as one; notices are told at once, and
    what is said at the hand is told, too."""
    with Bench() as page:
        def nameless():
            nodes = Tree(page).nodes
            return [
                (role_of(node), name_of(node), node['backendDOMNodeId'])
                for node in nodes
                if role_of(node) in CONTROLS and not any(sign.isalnum() for sign in name_of(node))
            ]

        page.keys('s')
        assert nameless() == [], nameless()
        page.keys('b')
        tree = Tree(page)
        assert state_of(tree.all('alert')[0], 'live') == 'assertive'
        dialogs = (('#new', 'A new map'), ('#open', 'Open a map'), ('#resize', 'Another size of the map'), ('#list-keys', 'Keys'))
        for css, name in dialogs:
            page.click(css)
            dialog = Tree(page).one('dialog')
            assert name_of(dialog) == name, dialog
            assert nameless() == [], nameless()
            press(page, Keys.ESCAPE)
        page.keys('r')
        page.ctrl('c')
        assert page.find('#announcement').get_attribute('textContent') == 'Select cells first, with the tool Select.'
        assert state_of(next(each for each in Tree(page).all('status') if each), 'live') == 'polite'


def test_more_than_colour():
    """What is chosen or pressed has a bar, what was undone is struck out, and what is hidden has another picture."""
    with Bench() as page:
        take_tile(page, (3, 0))
        page.stroke([(1, 20)])
        page.ctrl('z')
        style = 'return getComputedStyle(document.querySelector(arguments[0]))[arguments[1]]'
        for css in ('#tool-brush', '.tab.on', '#layers li.now', '#steps li.now'):
            assert 'inset' in page.js(style, css, 'boxShadow'), css
        assert page.js(style, '#tool-eraser', 'boxShadow') == 'none'
        assert page.js(style, '#steps .undone .name', 'textDecorationLine') == 'line-through'


# ---- the page by keys


def test_lists_by_keys():
    """Arrow keys go through layers, objects, steps and tabs; the focus stays in the list."""
    with Bench('town.tmj', 'house.tmj') as page:
        page.click('.tab[data-document="house"]')
        names = page.texts('.tab')
        focus(page, '.tab.on')
        assert focused(page) == 'house.tmj'
        press(page, Keys.ARROW_LEFT if names[0] == 'town.tmj' else Keys.ARROW_RIGHT)
        assert focused(page) == 'town.tmj' and page.editor.state()['active'] == 'house'
        press(page, Keys.ENTER)
        assert page.editor.state()['active'] == 'town' and focused(page) == 'town.tmj'
        focus(page, '#layers li.now')
        assert focused(page) == 'Ground, tiles'
        press(page, Keys.ARROW_UP)
        assert focused(page) == 'Walls, tiles' and page.js('return roskevad.bench.layer.data.name') == 'Walls'
        press(page, Keys.SPACE)
        inn = page.js('return roskevad.bench.layerId')
        assert spelled(page)[-1] == f'layer show {inn} no' and focused(page) == 'Walls, tiles, hidden'
        press(page, Keys.HOME)
        assert focused(page) == 'Places, objects'
        press(page, *[Keys.ARROW_DOWN] * 3)
        assert focused(page) == 'Green, group'
        press(page, Keys.ARROW_LEFT)
        press(page, Keys.ARROW_DOWN)
        assert focused(page) == 'Houses, group', 'the group Green is folded'
        press(page, Keys.F2)
        assert focused(page) == 'name' and not page.texts('dialog[open]')
        press(page, Keys.ESCAPE)
        assert focused(page) == 'Houses, group'
        take_tile(page, (3, 0))
        choose(page, 'Ground')
        page.stroke([(1, 20)])
        focus(page, '#steps li.now')
        press(page, Keys.HOME)
        press(page, Keys.ENTER)
        assert standing(page)[0] == 0 and focused(page).startswith('0 ')
        page.keys('s')
        focus(page, '#objects [tabindex]')
        press(page, Keys.HOME, Keys.ARROW_DOWN)
        assert page.js('return roskevad.bench.objectId') is not None
        focus(page, '.tab.on')
        press(page, Keys.DELETE)
        assert page.editor.state()['active'] == 'house' and page.texts('.tab') == ['house.tmj']


def test_map_by_keys():
    """Where the map has the focus, arrow keys move a cell, Enter draws there, with Shift a line; a
    rectangle takes two. What is there is told. A click leaves arrow keys to the view."""
    with Bench() as page:
        ground = layer_of(page, 'Ground')['id']
        page.click('#tool-brush')
        take_tile(page, (3, 0))
        focus(page, '#view')
        press(page, Keys.ARROW_RIGHT)
        hold(page, Keys.SHIFT, Keys.ARROW_LEFT * 6, Keys.ARROW_UP * 6)
        told = page.find('#announcement').get_attribute('textContent')
        assert told.startswith('0, 0 ') and 'Ground' in told and page.find('#place').text == told, told
        press(page, Keys.ARROW_DOWN * 2, Keys.ARROW_RIGHT * 3)
        press(page, Keys.ENTER)
        assert spelled(page)[-1] == f'stamp {ground} 3 2 1 4' and focused(page) == 'view'
        press(page, Keys.ARROW_RIGHT * 4)
        hold(page, Keys.SHIFT, Keys.ENTER)
        assert [cells_of(layer_of(page, 'Ground'))[2 * 40 + x] for x in range(3, 8)] == [4] * 5
        press(page, 'p')
        press(page, Keys.ENTER)
        press(page, Keys.ARROW_DOWN * 2, Keys.ARROW_RIGHT)
        count = standing(page)[1]
        press(page, Keys.ENTER)
        cells = cells_of(layer_of(page, 'Ground'))
        assert [cells[y * 40 + x] for y in (2, 3, 4) for x in (7, 8)] == [4] * 6 and standing(page)[1] == count + 1
        press(page, Keys.ENTER)
        press(page, Keys.ARROW_DOWN)
        press(page, Keys.ESCAPE)
        press(page, Keys.ARROW_DOWN)
        assert standing(page)[1] == count + 1, 'Escape has ended the rectangle'
        origin = page.js('return [roskevad.view.originX, roskevad.view.originY]')
        page.keys('b')
        page.drag([(20, 20)])
        press(page, Keys.ARROW_RIGHT)
        assert page.js('return [roskevad.view.originX, roskevad.view.originY]') != origin


def test_tiles_and_edges_by_keys():
    """Arrow keys take another tile, with Shift several; an edge goes by 16 pixels."""
    with Bench() as page:
        focus(page, '#palette')
        press(page, Keys.ARROW_RIGHT * 2, Keys.ARROW_DOWN)
        assert page.js('return roskevad.bench.stamp') == {'width': 1, 'height': 1, 'values': [11]}
        hold(page, Keys.SHIFT, Keys.ARROW_RIGHT, Keys.ARROW_DOWN)
        assert page.js('return roskevad.bench.stamp') == {'width': 2, 'height': 2, 'values': [11, 12, 19, 20]}
        width = page.find('#left').size['width']
        focus(page, '#left-edge')
        press(page, Keys.ARROW_RIGHT)
        assert 14 <= page.find('#left').size['width'] - width <= 20
        focus(page, '#panel-steps h2')
        press(page, Keys.ENTER)
        assert not page.find('#steps').is_displayed()
        heads = [each for each in Tree(page).all('button') if name_of(each).upper().endswith('STEPS') and 'GROUP' not in name_of(each).upper()]
        assert state_of(heads[0], 'expanded') is False


# ---- the example world


def said(page):
    page.js('return new Promise(done => requestAnimationFrame(() => requestAnimationFrame(done)))')
    return page.find('#lesson .said').text


def ring(page):
    """The middle of the ring, and how wide and high it is."""
    page.js('return new Promise(done => requestAnimationFrame(() => requestAnimationFrame(done)))')
    box = page.find('#lesson-ring').rect
    return box['x'] + box['width'] / 2, box['y'] + box['height'] / 2, box['width'], box['height']


def click_ring(page):
    """Clicks where the ring is."""
    x, y, *_ = ring(page)
    page.drag_points([(int(x), int(y))])


def drag_ring(page):
    """Drags from the first cell of the ring to the last one."""
    x, y, width, height = ring(page)
    right, down = width / 2 - 14, height / 2 - 14
    page.drag_points([(int(x - right), int(y - down)), (int(x), int(y)), (int(x + right), int(y + down))])


def test_three_tasks():
    """Somebody who only clicks and drags where the ring is, and reads what is said, draws a path, and
    a house as one step, undoes all, and has it back; no other host and no file is asked for."""
    with Bench(empty=True) as page:
        page.open()
        page.click('#start-ways button:last-child')
        page.wait(lambda: page.find('#lesson').is_displayed(), 'the lesson')
        town = json.loads((EXAMPLE_MAPS / 'town.tmj').read_text())
        assert page.editor.map()['layers'] == town['layers'] and not page.notices()
        begun = page.editor.shown()
        assert said(page) == 'Click the tile of the path.'
        click_ring(page)
        assert 'drag' in said(page)
        drag_ring(page)
        assert standing(page) == (1, 1) and said(page).startswith('The path is one step')
        click_ring(page)
        for act in (click_ring, click_ring, click_ring, click_ring, drag_ring, click_ring, drag_ring, click_ring, click_ring, click_ring):
            act(page)
        assert said(page) == 'Roof, wall and door are one step: a macro.' and standing(page) == (2, 2), said(page)
        cottages = cells_of(layer_of(page, 'Cottages'))
        assert [[cottages[y * 40 + x] for x in range(23, 28)] for y in range(3, 7)] == [[26] * 5] * 3 + [[10, 10, 12, 10, 10]]
        whole = page.editor.shown()
        click_ring(page)
        click_ring(page)
        assert standing(page)[0] == 1 and said(page).startswith('Undo the rest')
        click_ring(page)
        assert page.editor.shown() == begun and said(page).startswith('Redo all')
        click_ring(page)
        assert page.editor.shown() == whole and said(page).startswith('All is there again')
        click_ring(page)
        assert not page.find('#lesson').is_displayed() and not page.find('#lesson-ring').is_displayed()
        asked = page.js('return performance.getEntriesByType("resource").map(each => each.name).filter(name => !/^(blob|data):/.test(name))')
        assert asked == [], asked


def test_a_lesson_is_left_and_begun_anew():
    """Escape leaves the lesson at any time, and undoes nothing; *Try it* begins it anew with the town as it was."""
    with Bench(empty=True) as page:
        page.open()
        page.click('#try')
        page.wait(lambda: page.find('#lesson').is_displayed(), 'the lesson')
        begun = page.editor.shown()
        click_ring(page)
        drag_ring(page)
        drawn = page.editor.shown()
        page.keys(Keys.ESCAPE)
        assert not page.find('#lesson').is_displayed() and page.editor.shown() == drawn != begun
        page.click('#try')
        page.wait(lambda: page.find('#lesson').is_displayed(), 'the lesson')
        assert page.editor.shown() == begun and standing(page) == (0, 1)
        page.keys('e')
        click_ring(page)
        click_ring(page)
        assert page.js('return roskevad.tools.name') == 'brush', 'what is missing is pointed at first'
        page.click('#lesson-again')
        page.click('#lesson-leave')
        assert not page.find('#lesson').is_displayed()


def test_own_maps_stay_alone():
    """Where maps of the user are open, the example opens in a window of its own, which is said before and then;
    closed with nothing drawn, it is not offered again."""
    with Bench(served=True) as page:
        driver, own = page.driver, page.driver.current_window_handle
        assert 'in a new tab' in page.find('#try').get_attribute('title')
        page.find('#try').click()
        page.wait(lambda: len(driver.window_handles) == 2, 'another window')
        driver.switch_to.window(next(each for each in driver.window_handles if each != own))
        page.wait_ready()
        page.wait(lambda: page.find('#lesson').is_displayed(), 'the lesson')
        assert page.js('return roskevad.editor.place.kind') == 'chosen' and page.editor.state()['active'] == 'town'
        assert 'new tab' not in page.find('#try').get_attribute('title')
        driver.close()
        driver.switch_to.window(own)
        assert 'in a new tab' in page.find('#announcement').get_attribute('textContent')
        assert page.js('return roskevad.editor.place.kind') == 'served' and standing(page) == (0, 0)
        page.reload()
        assert page.notices() == [] and standing(page) == (0, 0)
