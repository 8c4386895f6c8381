# SPDX-License-Identifier: MIT OR Apache-2.0
"""Works with many open maps on the page in Chromium: the active tab is in sight, a list has all of
them, the header keeps its height, many chosen files are opened only when that is wanted, and what a
closed window had is offered again."""
from page.bench import Bench, draw
from page.browser import ActionChains, Keys

NEEDS_BROWSER = True
SEEN = '''
const tab = document.querySelector(".tab.on").getBoundingClientRect(), strip = document.getElementById("tabs").getBoundingClientRect();
return tab.left >= strip.left - 1 && tab.right <= strip.right + 1;'''
HEIGHT = 'return document.querySelector("header").offsetHeight'


def many_maps(bench, count):
    text = (bench.folder / 'layers.tmj').read_text()
    names = [f'a_long_name_of_a_map_{at:02}.tmj' for at in range(count)]
    for name in names:
        (bench.folder / name).write_text(text)
    return [*bench.folder.glob('*.tsx'), *(bench.folder / name for name in names)]


def active(page):
    return page.editor.state()['active']


def tabs(page):
    return page.js('return [...document.querySelectorAll(".tab")].map(each => each.dataset.document)')


def test_many_tabs():
    """The active tab is seen, however it became active, in a narrow window too; the header keeps its height;
    the list shows each map, and is left by Escape."""
    bench = Bench()
    with bench as page:
        height = page.js(HEIGHT)
        page.choose_files(*many_maps(bench, 9))
        page.fill_in('Open all 9')
        assert len(tabs(page)) == 10 and page.js(SEEN) and page.js(HEIGHT) == height
        page.say('use town')
        assert active(page) == 'town' and page.js(SEEN)
        page.say('use a_long_name_of_a_map_05')
        assert page.js(SEEN)
        page.click('#list-tabs')
        rows = page.texts('#menu button .words')
        assert len(rows) == 10 and rows[0] == 'town.tmj', rows
        ActionChains(page.driver).send_keys(Keys.ESCAPE).perform()
        assert not page.texts('#menu button') and active(page) == 'a_long_name_of_a_map_05'
        page.click('#list-tabs')
        page.press('#menu button', 'town.tmj')
        page.settle()
        assert active(page) == 'town' and page.js(SEEN) and page.js('return document.documentElement.scrollLeft') == 0
        # A press beside the list closes it, and draws nothing.
        page.click('#list-tabs')
        page.drag([(5, 20)])
        assert not page.texts('#menu button') and page.editor.state()['count'] == 0
        assert page.js('return [...document.querySelectorAll(".tab .close")].every(each => each.tabIndex === -1)')


def test_many_chosen_files():
    """More than five maps are opened only when that is wanted; else they are chosen from: of a list, or
    with pictures where no map is open."""
    bench = Bench(empty=True, has_log=False)
    with bench as page:
        page.choose_files(*many_maps(bench, 8))
        assert page.texts('dialog[open] h2') == ['8 maps were chosen. Each that is opened has a tab.']
        page.fill_in('Choose from them')
        assert tabs(page) == [] and 'a_long_name_of_a_map_07.tmj' in page.texts('#start-maps .name')
        page.choose_files(*many_maps(bench, 5))
        assert len(tabs(page)) == 5
        page.choose_files(*many_maps(bench, 8))
        page.fill_in('Choose from them')
        page.wait(lambda: page.texts('#file-list li'), 'the list stands there')
        page.fill_in(file='a_long_name_of_a_map_07.tmj')
        assert len(tabs(page)) == 6 and active(page) == 'a_long_name_of_a_map_07'


def test_closed_window():
    """What a window had that its user has closed is offered again, with all its steps."""
    with Bench() as page:
        draw(page)
        page.driver.switch_to.new_window('tab')
        other = page.driver.current_window_handle
        page.driver.switch_to.window(next(each for each in page.driver.window_handles if each != other))
        page.driver.close()
        page.driver.switch_to.window(other)
        page.open()
        assert 'town.tmj (1 step' in page.notices()[0], page.notices()
        page.answer('Restore')
        assert tabs(page) == ['town'] and page.editor.state()['count'] == 1
