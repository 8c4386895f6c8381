# SPDX-License-Identifier: MIT OR Apache-2.0
"""Looks at how the page is laid out: how much of the window the map has, contrasts and targets in light
and dark, pictures on buttons, the log in words, the page where no map is open, objects' outlines and names."""
from lib.cases import passed
from lib.maps import layers_in
from page.bench import Bench, Tiles, choose, colours_now, layer_of, middle_of, take_tile, wanted_colour
from page.browser import ActionChains, Keys, browser

NEEDS_BROWSER = True
IS_LONG = True
# The least share of the window that the map has where the screen has 1280 by 720 at 150 %.
LEAST_SHARE = 0.4
LEAST_CONTRAST, LEAST_OF_PICTURES = 4.5, 3
LEAST_TARGET = 24
# Widths and heights in pixels of the page, and how many of the screen each is.
SMALL, USUAL, LARGE = (853, 480, 1.5), (1280, 720, 1), (1920, 1080, 1)
THEMES = ('light', 'dark')

# The texts and pictures that are seen, each with its contrast to what is behind it; what is behind is
# the colours of the elements around it, one over the other.
CONTRASTS = '''
const parts = text => { const [r, g, b, a = 1] = text.match(/[\\d.]+/g).map(Number); return [r, g, b, a]; };
const over = ([r, g, b, a], under) => [r, g, b].map((each, at) => each * a + under[at] * (1 - a));
const behind = at => at === null ? [255, 255, 255] : over(parts(getComputedStyle(at).backgroundColor), behind(at.parentElement));
const light = colour => { const [r, g, b] = colour.map(each => (each /= 255) <= 0.04045 ? each / 12.92 : ((each + 0.055) / 1.055) ** 2.4);
                          return 0.2126 * r + 0.7152 * g + 0.0722 * b; };
const faded = at => at === null ? 1 : Number(getComputedStyle(at).opacity) * faded(at.parentElement);
const contrast = (colour, at) => {
  const ground = behind(at), [r, g, b, a] = parts(colour), [one, other] = [light(over([r, g, b, a * faded(at)], ground)), light(ground)];
  return (Math.max(one, other) + 0.05) / (Math.min(one, other) + 0.05);
};
const isSeen = at => at.checkVisibility({visibilityProperty: true}) && at.getBoundingClientRect().width > 1;
const found = [];
const walker = document.createTreeWalker(document.body, NodeFilter.SHOW_TEXT);
while (walker.nextNode()) {
  const at = walker.currentNode.parentElement;
  if (walker.currentNode.data.trim() && at.tagName !== "SCRIPT" && at.tagName !== "OPTION" && isSeen(at))
    found.push(["text", walker.currentNode.data.slice(0, 40), contrast(getComputedStyle(at).color, at)]);
}
for (const at of document.querySelectorAll("input:not([type=checkbox], [type=color]), select, textarea")) {
  if (!isSeen(at)) continue;
  found.push(["text", at.value.slice(0, 40), contrast(getComputedStyle(at).color, at)]);
  if (at.placeholder) found.push(["text", at.placeholder, contrast(getComputedStyle(at, "::placeholder").color, at)]);
}
for (const at of document.querySelectorAll(".icon")) {
  if (isSeen(at) && !at.closest(":disabled")) found.push(["picture", at.closest("button").title, contrast(getComputedStyle(at).color, at.closest("button"))]);
}
return found;'''
# What is clicked at: all that is seen of it, with its width and height.
TARGETS = '''
const css = "button, input, select, textarea, a, summary, .tab, aside li, #file-list li, .panel > h2, .grip";
return [...document.querySelectorAll(css)].filter(at => at.checkVisibility({visibilityProperty: true})).map(at => {
  const {width, height} = at.getBoundingClientRect();
  return [`${at.tagName} ${at.id} ${at.className} ${at.title || at.textContent}`.slice(0, 80), width, height];
}).filter(([, width]) => width > 0);'''


def look(size=USUAL, theme='light'):
    """Has the browser show the page in a window of this size, and by this choice of the system."""
    width, height, ratio = size
    told = {'width': width, 'height': height, 'deviceScaleFactor': ratio, 'mobile': False}
    browser().execute_cdp_cmd('Emulation.setDeviceMetricsOverride', told)
    features = [{'name': 'prefers-color-scheme', 'value': theme}]
    browser().execute_cdp_cmd('Emulation.setEmulatedMedia', {'features': features})


def look_as_before():
    browser().execute_cdp_cmd('Emulation.clearDeviceMetricsOverride', {})
    browser().execute_cdp_cmd('Emulation.setEmulatedMedia', {'features': []})


def see_all(page, where):
    """Each text and each target that is seen is large and plain enough: how many they are."""
    contrasts = page.js(CONTRASTS)
    least = {'text': LEAST_CONTRAST, 'picture': LEAST_OF_PICTURES}
    weak = [each for each in contrasts if each[2] < least[each[0]]]
    targets = page.js(TARGETS)
    small = [each for each in targets if min(each[1:]) < LEAST_TARGET - 0.01]
    assert not weak and not small, (where, weak, small)
    return len(contrasts) + len(targets)


def work(page):
    """Has something of all panels: a stroke, an undone step, an object, a refused line."""
    choose(page, 'Ground')
    take_tile(page, (3, 1))
    page.stroke([(3, 20), (5, 20)])
    page.say('layer show 2 no')
    page.ctrl('z')
    page.say('stamp 1 a')
    page.click('#objects li:nth-child(3)')


def test_contrasts_and_targets():
    """Texts have a contrast of 4.5 at least, pictures of 3, and what is clicked at has 24 pixels at
    least: in light and dark, on each panel, in dialogs, and where no map is open."""
    seen = 0
    try:
        for theme in THEMES:
            look(USUAL, theme)
            with Bench() as page:
                seen += see_all(page, (theme, 'at first'))
                work(page)
                page.js('roskevad.bench.say("Nothing was drawn.")')
                assert page.texts('#lines .refused') and page.find('#bubble').is_displayed()
                seen += see_all(page, (theme, 'at work'))
                page.js('roskevad.bench.bubble.hide()')
                for css in ('#new', '#open', '#resize'):
                    page.find(css).click()
                    page.wait(lambda: page.texts('dialog[open]'), 'a dialog')
                    seen += see_all(page, (theme, css))
                    page.fill_in('Cancel')
                page.click('#menu-button')
                seen += see_all(page, (theme, 'the menu'))
                ActionChains(page.driver).send_keys(Keys.ESCAPE).perform()
                page.keys(Keys.F1)
                seen += see_all(page, (theme, 'the keys'))
                page.js('document.querySelector("#keys").close()')
                # A notice, and a field that is refused.
                page.js('roskevad.panel.showMissing.call({tilesets: {all: [], missing: ["a.png"]}, editor: roskevad.editor})')
                page.js('roskevad.status.showNotDrawn(["animations"])')
                assert page.texts('#undrawn-features')[0]
                page.click('#of-map')
                page.find('#new-value').send_keys('rain', Keys.ENTER)
                page.settle()
                assert page.texts('#properties .fault')
                seen += see_all(page, (theme, 'a notice'))
            with Bench(empty=True, has_log=False) as page:
                page.wait(lambda: page.texts('#start-maps .details'), 'the maps are listed')
                seen += see_all(page, (theme, 'no map'))
        passed(seen)
    finally:
        look_as_before()


# Of each row of the steps whether it is cut off, and by how much its text goes past what stands behind it, or past the list.
STEP_ROWS = '''
return [...document.querySelectorAll("#steps li[data-place]")].map(row => {
  const [, name, ...marks] = row.children, text = document.createRange();
  text.selectNodeContents(name);
  const ends = [...marks.filter(each => each.textContent).map(each => each.getBoundingClientRect().left), row.getBoundingClientRect().right];
  return [name.classList.contains("cut"), text.getBoundingClientRect().right - Math.min(...ends)];
});'''


def test_long_steps():
    """A step whose text has no room beside its marks is cut off, and no other one, also where the panel gets another width."""
    with Bench(has_log=False) as page:
        page.editor.lines('prop set map a int 1', 'begin A path to the beach', 'prop set map b int 2', 'end')
        page.editor.lines(f'begin {"long name " * 19}', 'prop set map c int 3', 'end')
        page.settle()
        for width, cut in ((420, [False, False, False, True]), (180, [False, False, True, True]), (420, [False, False, False, True])):
            page.js('roskevad.panels.widen("right", arguments[0])', width)
            page.settle()
            rows = page.js(STEP_ROWS)
            assert [is_cut for is_cut, _ in rows] == cut and all(past <= 0 for is_cut, past in rows if not is_cut), (width, rows)
            passed()


SHARE = '''
const {width, height} = document.getElementById("view").getBoundingClientRect();
return width * height / innerWidth / innerHeight;'''
OUTSIDE = '''
return [...document.querySelectorAll("header button, header select, header input, footer button")].filter(at => at.checkVisibility()).filter(at => {
  const {left, top, right, bottom} = at.getBoundingClientRect();
  return left < 0 || top < 0 || right > innerWidth || bottom > innerHeight;
}).map(at => at.id);'''


def test_sizes():
    """At 1280 by 720 and 150 % the map has 40 percent of the window; no button lies outside of it, the
    tools stand in one row, and all columns of the palette are seen."""
    try:
        for size in (SMALL, USUAL, LARGE):
            look(size)
            with Bench(has_log=False) as page:
                share = page.js(SHARE)
                assert share >= LEAST_SHARE, (size, share)
                assert page.js(OUTSIDE) == [], size
                rows = page.js('return [...document.querySelectorAll("header .row")].map(row => row.offsetHeight)')
                assert len(rows) == 2 and max(rows) < 40, (size, rows)
                assert page.js('const box = document.getElementById("palette-box"); return box.scrollWidth <= box.clientWidth'), size
                see_all(page, size)
        passed(3)
    finally:
        look_as_before()


def test_pictures_on_buttons():
    """Each button without words has a picture, a name for readers of the screen, and a title, which
    names the key of each tool."""
    with Bench(has_log=False) as page:
        told = page.js(
            'return [...document.querySelectorAll("button")].filter(at => at.checkVisibility() && !at.textContent.trim())'
            '.map(at => [at.id || at.className, at.querySelectorAll("svg path").length, at.getAttribute("aria-label"), at.title])'
        )
        told = [each for each in told if each[0] != 'fold']
        assert len(told) > 30
        for button, lines, name, title in told:
            assert lines and name and title, button
        tools = {name: title for button, _, name, title in told if button.startswith('tool-')}
        keys = {'Brush': 'B', 'Eraser': 'E', 'Fill': 'F', 'Rectangle': 'P', 'Select': 'R', 'Objects': 'S', 'Insert': 'I'}
        assert set(tools) == set(keys)
        for name, key in keys.items():
            assert tools[name].startswith(f'{name} ({key})'), tools[name]
        assert [name for _, _, name, _ in told if name == 'Undo'] and 'Ctrl+Z' in page.find('#undo').get_attribute('title')
        passed(len(told))


def log(page):
    """The rows of the log: their words and their lines."""
    return page.js(
        'return [...document.querySelectorAll("#lines li")].map(row => [row.querySelector(".words").textContent, row.querySelector("code").textContent])'
    )


def test_log():
    """The log is folded until it is wanted, and tells in words what each line did, a stroke as a whole;
    what a line is about has its name, also where it is removed or has another one then."""
    with Bench(has_log=False) as page:
        assert not page.find('#line-box').is_displayed() and not page.find('#line-edge').is_displayed()
        assert page.find('#turn-log').get_attribute('aria-expanded') == 'false'
        ground, things = choose(page, 'Ground'), layer_of(page, 'Things')['id']
        take_tile(page, (3, 1))
        page.stroke([(3, 20), (14, 20)])
        page.click('#turn-log')
        assert page.find('#line').is_displayed() and page.find('#turn-log').get_attribute('aria-expanded') == 'true'
        rows = log(page)[1:]
        assert rows[0] == ['Stamp on Ground: 12 cells', f'stamp {ground} 3 20 1 12'], rows
        assert len(rows) == 12 and all(words == '' and line.startswith('stamp+ ') for words, line in rows[1:]), rows
        said = {
            f'erase {ground} 3 20 5 2': 'Erase on Ground: 10 cells',
            f'stamp {ground} 3 20 2 12,0,0,13': 'Stamp on Ground: 2 cells',
            f'stamp {ground} 3 20 1 12': 'Stamp on Ground: 1 cell',
            f'fill {ground} 4 21 12': 'Fill on Ground from 4, 21',
            f'layer rename {ground} Meadow': 'Rename layer Ground to Meadow',
            f'layer show {ground} no': 'Hide layer Meadow',
            'undo': 'Undo',
            f'layer remove {ground}': 'Remove layer Meadow',
            'layer add tile Fog': 'Add tile layer Fog',
            'object move 4 10 20': 'Move Lake' if name_of(page, 4) == 'Lake' else f'Move {name_of(page, 4)}',
            'prop set map weather string rain': 'Set weather of the map',
            'prop take map "weather"': 'Remove weather of the map',
            'prop put map {"name":"","value":5}': 'Set (no name) of the map',
            'layer add group The yard': 'Add group layer The yard',
            f'object into 4 {things} 0': f'Move {name_of(page, 4)} into Things',
            'extend 0 0 0 0': 'Add room to the map: none',
            'layer add image Sky': 'Add image layer Sky',
            f'object put {things} {{"name":"Bell tower","point":true}}': 'Add object Bell tower',
            f'object put {things} {{}}': 'Add object without a name',
            'tileset put {"firstgid":5000,"source":"more.tsx"}': 'Add tileset more.tsx',
            'select replace 1 2 3 4': 'Select 3 × 4 cells',
            'select subtract 1 2 1 1': 'Take 1 × 1 cells from the selection',
            'select none': 'Select nothing',
            'status': '',
            'layer remove 999': 'Not done',
        }
        for line, words in said.items():
            page.say(line)
            assert log(page)[-1] == [words, line], (words, log(page)[-1])
        page.click('#turn-log')
        assert not page.find('#line-box').is_displayed()
        passed(len(said) + 2)


def test_gestures_in_the_log():
    """What the hand did is told by the log and behind the texts of the steps, which are the editor's own: a
    rectangle, a pattern, cut and empty cells, a selection that a paste drops; also behind a reload."""
    with Bench(has_log=False) as page:
        choose(page, 'Ground')
        take_tile(page, (3, 1))
        page.keys('p')
        page.drag([(3, 20), (6, 22)])
        page.js('roskevad.bench.takeStamp({width: 2, height: 1, values: [12, 4]})')
        page.keys('f')
        page.drag([(4, 21)])
        page.keys('r')
        page.drag([(3, 20), (4, 21)])
        page.ctrl('x')
        page.ctrl('z')
        page.keys('r')
        page.keys(Keys.DELETE)
        page.ctrl('v')
        page.click(f'#layers li[data-layer="{page.js("return roskevad.bench.layerId")}"] .eye')
        said = [words for words, _ in log(page) if words][1:]
        wanted = [
            'Rectangle on Ground: 12 cells', 'Fill on Ground: 12 cells', 'Select 2 × 2 cells', 'Cut from Ground: 2 × 2', 'Undo',
            'Empty the selected cells of Ground', 'Drop the selection, to paste', 'Hide layer Ground',
        ]
        assert said == wanted, said
        steps = [
            'Stamp · Ground: rectangle', 'Stamp · Ground: pattern', 'Select · 2 × 2', 'Erase · Ground: the selected cells',
            'Select · none, to paste', 'Show Layer · Ground: hidden',
        ]
        assert page.texts('#steps li .name')[1:] == steps, page.texts('#steps li .name')
        page.reload()
        assert page.texts('#steps li .name')[1:] == steps
        assert [words for words, _ in log(page) if words][1:] == said
        passed(2)


def name_of(page, number):
    return page.js('return roskevad.editor.map.object(arguments[0]).object.name', number)


def box(page, css):
    return page.js(
        'const {left, top, right, bottom} = document.querySelector(arguments[0]).getBoundingClientRect(); return [left, top, right, bottom]', css
    )


def is_apart(one, other):
    return one[2] <= other[0] or other[2] <= one[0] or one[3] <= other[1] or other[3] <= one[1]


# A message, as the page says it of a tileset that it does not find.
MISSING = 'roskevad.panel.showMissing.call({tilesets: {all: [], missing: ["a.png"]}, editor: roskevad.editor})'


def test_bars_over_the_map():
    """Messages and tasks push nothing aside, and cover neither what was drawn last, nor the press that they are
    about, nor what the ring of the lesson is around."""
    with Bench(has_log=False) as page:
        choose(page, 'Ground')
        take_tile(page, (3, 1))
        parts = ('#view', '#left', '#right', 'header', 'footer')
        before = [box(page, css) for css in parts]
        page.js(MISSING)
        page.js('roskevad.example.name = "town"; return roskevad.example.lesson.begin()')
        page.settle()
        assert page.notices() and page.find('#lesson').is_displayed()
        assert [box(page, css) for css in parts] == before
        # A stroke is covered in none of its parts.
        cells = ((1, 1), (38, 1), (20, 1), (1, 28), (38, 28), (20, 29))
        for stroke in (*([cell] for cell in cells), [(19, 29), (19, 15)], [(21, 1), (21, 15)]):
            page.stroke(stroke)
            page.settle()
            cell = stroke[0]
            drawn = page.js('return roskevad.view.drawn')
            assert drawn == [stroke[0][0], min(y for _, y in stroke), stroke[0][0], max(y for _, y in stroke)], (stroke, drawn)
            drawn = page.js('const {left, top, right, bottom} = roskevad.view.drawnBox(); return [left, top, right, bottom]')
            assert is_apart(box(page, '#bars'), drawn), (cell, drawn, box(page, '#bars'))
        page.answer('OK')
        page.click('#lesson-leave')
        ground = page.js('return roskevad.bench.layerId')
        page.editor.lines(f'layer show {ground} no')
        for cell in ((20, 29), (20, 0)):
            page.drag([cell])
            x, y = page.point(cell)
            assert page.notices() and is_apart(box(page, '#bars'), [x - 8, y - 8, x + 8, y + 8]), cell
            page.js('document.querySelector("#notice-bars .notice").remove()')
        passed(10)


PANELS = ('#left', '#right', '#panel-tiles', '#panel-properties', '#panel-layers', '#panel-objects', '#panel-steps', '#line-box')
OF_RIGHT = ('#right', '#panel-layers', '#panel-objects', '#panel-steps')
OF_LEFT = ('#left', '#panel-tiles', '#panel-properties')
# The last panel of a column has what is left below it.
LAST = {'#panel-properties': '#left', '#panel-steps': '#right'}


def room(page, css):
    return [*box(page, css)[:3], box(page, LAST.get(css, css))[3]]


def test_edges():
    """Each edge between panels is dragged by something that is 24 pixels wide and high, too: a grip, the head of
    the panel below, which a click still folds, or the bar below the map. All other panels stay as they are."""
    # What is dragged, how far, and how much wider or higher which panel is then.
    drags = {
        '#left-grip': ((60, 0), {each: (60, 0) for each in OF_LEFT}),
        '#right-grip': ((-50, 0), {each: (50, 0) for each in OF_RIGHT}),
        '#panel-properties h2': ((0, -40), {'#panel-tiles': (0, -40), '#panel-properties': (0, 40)}),
        '#panel-objects h2': ((0, -40), {'#panel-layers': (0, -40), '#panel-objects': (0, 40)}),
        '#panel-steps h2': ((0, -60), {'#panel-objects': (0, -60), '#panel-steps': (0, 60)}),
        '#standing': ((0, -50), {'#line-box': (0, 50)}),
    }
    with Bench() as page:
        for css, ((right, down), wanted) in drags.items():
            edges = box(page, css)
            x, y = int(edges[0] + edges[2]) // 2, int(edges[1] + edges[3]) // 2
            left, top, *corner = edges if css != '#standing' else box(page, 'footer')
            assert corner[0] - left >= LEAST_TARGET and corner[1] - top >= LEAST_TARGET, css
            before = {each: room(page, each) for each in PANELS}
            page.drag_points([(x, y), (x + right // 2, y + down // 2), (x + right, y + down)])
            for each, (one, other) in ((each, (before[each], room(page, each))) for each in PANELS):
                more = (other[2] - other[0] - one[2] + one[0], other[3] - other[1] - one[3] + one[1])
                most = wanted.get(each, (0, more[1]) if each == '#line-box' else (0, 0))
                if each != '#line-box' or css == '#standing':
                    assert all(abs(one - other) <= 4 for one, other in zip(more, most)), (css, each, more)
            assert page.find('#steps').is_displayed(), 'a drag folds nothing'
        page.click('#panel-steps h2')
        assert not page.find('#steps').is_displayed()
        passed(len(drags))


def test_look_is_chosen():
    """A button takes the look of the system, the light or the dark one, whatever the system has; it stays for
    the next visit."""
    try:
        look(USUAL, 'light')
        with Bench(has_log=False) as page:
            seen = []
            for turn in range(4):
                page.wait(lambda: page.find('#turn-look').get_attribute('title'), 'the button says what it does')
                beside = box(page, '#view')
                seen.append(page.colours([[4, 30], [int(beside[0]) + 4, int(beside[1]) + 4]]))
                if turn == 2:
                    page.reload()
                    assert page.colours([[4, 30]]) == seen[-1][:1], 'the dark look is kept'
                page.click('#turn-look')
            assert seen[0] == seen[1] == seen[3] and all(sum(each) < 3 * 85 for each in seen[2]), seen
            look(USUAL, 'dark')
            page.settle()
            assert page.js('return document.documentElement.dataset.look') == 'light'
            assert all(sum(each) > 3 * 170 for each in page.colours([[4, 30]])), 'it is the user who chooses'
            page.js('localStorage.clear()')
            passed(5)
    finally:
        look_as_before()


def test_themes():
    """The page is light or dark as the system is, at once where that changes, and so is what stands
    beside the map."""
    try:
        look(USUAL, 'light')
        with Bench(has_log=False) as page:
            beside = page.js('const {left, top} = document.getElementById("view").getBoundingClientRect(); return [left + 4, top + 4]')
            points = [[4, 30], [int(each) for each in beside]]
            seen = []
            for theme in ('light', 'dark', 'light'):
                look(USUAL, theme)
                page.settle()
                seen.append(page.colours(points))
            assert seen[0] == seen[2], seen
            assert all(sum(light) > 3 * 170 and sum(dark) < 3 * 85 for light, dark in zip(*seen[:2])), seen
            passed(3)
    finally:
        look_as_before()


CARDS = 'return [...document.querySelectorAll("#start-maps li")].map(card => [card.dataset.path, card.dataset.drawn ?? ""])'
CELL = '''
const [path, wide, high, x, y] = arguments;
const canvas = document.querySelector(`#start-maps li[data-path="${path}"] canvas`);
const side = Math.min(canvas.width / wide, canvas.height / high);
const [left, top] = [(canvas.width - wide * side) / 2 + x * side, (canvas.height - high * side) / 2 + y * side].map(Math.round);
const {data} = canvas.getContext("2d").getImageData(left + 1, top + 1, side - 2, side - 2);
return [0, 1, 2].map(part => data.filter((_, at) => at % 4 === part).reduce((sum, each) => sum + each, 0) / (data.length / 4));'''


def test_no_map():
    """Where no map is open, the maps of the folder are shown with their sizes and with pictures, which
    are made once they are seen; a click opens one, and they come back behind the last one."""
    with Bench(empty=True, has_log=False) as page:
        page.wait(lambda: dict(page.js(CARDS)).get('house.tmj') == 'yes', 'the house is drawn')
        cards = dict(page.js(CARDS))
        assert 'town.tmj' in cards and page.find('#empty').is_displayed()
        assert '8 × 6' in page.find('#start-maps li[data-path="house.tmj"] .details').text
        assert page.texts('#start-ways button')[0] == 'New map'
        look((700, 480, 1))
        shown = page.js('return roskevad.startPage.waiting.length')
        assert shown < len(cards)
        page.js('document.querySelector(\'#start-maps li[data-path="town.tmj"]\').scrollIntoView()')
        page.wait(lambda: dict(page.js(CARDS))['town.tmj'] == 'yes', 'the town is drawn once it is seen')
        look_as_before()
        pictures = {(x, y): page.js(CELL, 'house.tmj', 8, 6, x, y) for x in range(8) for y in range(6)}
        page.click('#start-maps li[data-path="house.tmj"] button')
        assert not page.find('#empty').is_displayed() and page.editor.state()['active'] == 'house'
        house = page.editor.map()
        tiles = Tiles(page, house)
        things = [each for layer in layers_in(house['layers']) for each in layer.get('objects', ()) if each.get('gid')]
        covered = {(each['x'] // 16, each['y'] // 16 - 1) for each in things}
        assert len(covered) == 1
        for place in set(pictures) - covered:
            shown = pictures[place]
            wanted = [wanted_colour(house, place, (x, y), tiles) for x in range(1, 15) for y in range(1, 15)]
            means = [sum(each[part] for each in wanted) / len(wanted) for part in range(3)]
            assert all(abs(one - other) < 24 for one, other in zip(means, shown)), (place, means, shown)
        page.click('.tab .close')
        assert page.find('#empty').is_displayed()
        page.click('#start-ways button')
        page.find('dialog .presets button').click()
        page.fill_in(name='room')
        assert (page.editor.map()['width'], page.editor.map()['height']) == (20, 15)
        passed(len(pictures) + 5)


def test_outlines_and_names():
    """The outline of an object has a dark edge on both sides, and N hides the names of objects and
    shows them again."""
    with Bench(has_log=False) as page:
        page.ctrl('g')
        number = next(
            each['id'] for layer in layers_in(page.editor.map()['layers']) for each in layer.get('objects', ())
            if each['width'] and not each.get('gid') and not {'ellipse', 'polygon', 'polyline', 'point'} & set(each)
        )
        told = page.js('const {object} = roskevad.editor.map.object(arguments[0]); return [object.width, object.height]', number)
        scale = page.js('return roskevad.view.scale')
        x, y = middle_of(page, number)
        left = int(x - told[0] * scale / 2)
        page.picture()
        shown = [sum(each) for each in colours_now(page, [(at, y) for at in range(left - 5, left + 6)])]
        brightest = shown.index(max(shown[2:9]))
        assert shown[brightest] > 3 * 150 and max(min(shown[:brightest]), min(shown[brightest:])) < 3 * 100, shown
        name = (left + 2, int(y - told[1] * scale / 2) - 9)
        with_name = page.colours([name])
        page.keys('n')
        without = page.colours([name])
        assert with_name != without and page.find('#turn-names').get_attribute('class') == ''
        page.click('#turn-names')
        assert page.colours([name]) == with_name
        passed(3)
