# SPDX-License-Identifier: MIT OR Apache-2.0
"""Works with several maps on the page in Chromium, by mouse and keys: what a closed tab gives way to, names of
tabs, the list of maps to open, and what each map keeps: zoom, place, layer, tool, stamp and panels."""
import json

from lib.places import EXAMPLE_MAPS, EXAMPLES
from page.bench import Bench, choose, standing, take_tile
from page.browser import Keys
from selenium.webdriver.support.ui import Select

NEEDS_BROWSER = True
IS_LONG = True


def tabs(page):
    return [each.replace('×', '').replace('•', '').strip() for each in page.texts('.tab')]


def active(page):
    return page.editor.state()['active']


def close(page, name):
    page.find(f'.tab[data-document="{name}"] .close').click()


def test_closing():
    """The tab to the right is active behind a closed one, and behind the last one that to the left; one that
    is not active leaves the active one."""
    with Bench('town.tmj', 'house.tmj', 'layers.tmj', 'objects.tmj') as page:
        assert sorted(tabs(page)) == ['house.tmj', 'layers.tmj', 'objects.tmj', 'town.tmj']
        order = [each['name'] for each in page.editor.state()['documents']]
        page.click(f'.tab[data-document="{order[1]}"]')
        close(page, order[1])
        page.settle()
        assert active(page) == order[2]
        close(page, order[0])
        page.settle()
        assert active(page) == order[2]
        page.click(f'.tab[data-document="{order[3]}"]')
        page.editor.lines('prop set map weather string calm')
        close(page, order[3])
        page.fill_in('Cancel')
        assert active(page) == order[3]
        close(page, order[3])
        page.fill_in('Discard')
        assert active(page) == order[2] and page.texts('#layers .name')
        close(page, order[2])
        page.settle()
        assert active(page) is None and page.find('#empty').is_displayed()


def test_save_as():
    """The tab has the file's new name, and so has the window; the old file opens as a tab of its own, and one
    that is open is gone to, by the list and by a file that is chosen."""
    bench = Bench('town.tmj', served=True)
    with bench as page:
        page.editor.lines('prop set map weather string calm')
        page.ctrl('s', Keys.SHIFT)
        page.fill_in(file='orchard.tmj')
        assert tabs(page) == ['orchard.tmj'] and page.driver.title == 'orchard.tmj – Roskevad'
        assert 'orchard.tmj' in page.find('.tab').get_attribute('title')
        saved = json.loads((bench.folder / 'orchard.tmj').read_text())
        assert {'name': 'weather', 'type': 'string', 'value': 'calm'} in saved['properties']
        page.ctrl('o')
        page.fill_in(file='town.tmj')
        assert tabs(page) == ['orchard.tmj', 'town.tmj'] and page.bubble() == ''
        for name in ('orchard.tmj', 'town.tmj', 'orchard.tmj'):
            page.ctrl('o')
            page.fill_in(file=name)
            assert page.driver.title == f'{name} – Roskevad' and len(tabs(page)) == 2
        page.reload()
        assert tabs(page) == ['orchard.tmj', 'town.tmj']


def open_list(page):
    page.find('body').send_keys(Keys.CONTROL, 'o')
    page.wait(lambda: page.driver.find_elements('css selector', '#choose-file'), 'the list')


def told_of(page, path):
    row = page.find(f'#file-list li[data-path="{path}"]')
    return [row.find_element('css selector', f'.{part}').text for part in ('details', 'size')]


def test_list():
    """It has the maps of the folder with their sizes, and of one that would be refused the reason, once its row
    is seen; what is typed sifts it, arrow keys and a double click choose."""
    bench = Bench('town.tmj', served=True)
    with bench as page:
        (bench.folder / 'broken.tmj').write_text('{"height":')
        (bench.folder / 'odd.tmj').write_text((EXAMPLE_MAPS / 'house.tmj').read_text().replace('"tilewidth"', '"tilewide"', 1))
        for at in range(60):
            (bench.folder / f'z{at:02}.tmj').write_text('[]')
        (bench.folder / 'y.tmj').write_bytes((EXAMPLE_MAPS / 'layers.tmj').read_bytes() + b' ' * 1_200_000)
        open_list(page)
        page.wait(lambda: told_of(page, 'broken.tmj')[0].startswith('line 1, column 10: the file ends too early'), 'the reason is read')
        page.wait(lambda: 'tilewidth is absent' in told_of(page, 'odd.tmj')[0], 'the reason is read')
        assert told_of(page, 'town.tmj') == ['open', f'{round((EXAMPLE_MAPS / "town.tmj").stat().st_size / 1000)} kB']
        assert told_of(page, 'house.tmj')[0] == '' and told_of(page, 'broken.tmj')[1] == '10 bytes'
        assert told_of(page, 'y.tmj')[1] == '1.2 MB'
        told = 'return document.querySelector(`#file-list li[data-path="z59.tmj"] .details`).textContent'
        assert page.js(told) == '', 'a row that is not seen is not read'
        page.js('document.getElementById("file-list").scrollTo(0, 100000)')
        page.wait(lambda: page.js(told) != '', 'a row that comes into view is read')
        page.find('#choose-file [name=file]').send_keys('LAY')
        shown = page.js('return [...document.querySelectorAll("#file-list li:not([hidden])")].map(row => row.dataset.path)')
        assert shown == ['image_layer.tmj', 'layers.tmj']
        page.find('#choose-file [name=file]').send_keys(Keys.ARROW_DOWN, Keys.ENTER)
        page.settle()
        assert active(page) == 'layers'
        open_list(page)
        row = '#file-list li[data-path="house.tmj"]'
        page.double_click(lambda: page.find(row), lambda: not page.texts('dialog[open]'))
        page.wait(lambda: active(page) == 'house', 'it is opened')
        page.ctrl('o')
        page.fill_in(file='broken.tmj')
        assert 'or is no map' in page.bubble() and active(page) == 'house'
        page.ctrl('o')
        page.fill_in('Cancel')
        assert len(tabs(page)) == 3


STANDS = '''
const {view, bench, tools, palette, layers} = roskevad;
const panels = ["left", "right", "line-box"].map(id => document.getElementById(id).style.cssText);
return {view: [view.scale, view.originX, view.originY], layer: bench.layerId, tool: tools.name, brush: bench.brushSize,
        stamp: bench.stamp, tileset: document.getElementById("tilesets").value, side: palette.side, folded: [...layers.folded], panels,
        heads: [...document.querySelectorAll(".panel.folded")].map(panel => panel.id)};'''


def test_files_that_are_no_maps():
    """A chosen file that is no map is named, and what to do; tilesets and images are taken without a word
    beside a map, and with a word where no map is there."""
    bench = Bench(empty=True)
    with bench as page:
        for name, text in (('notes.txt', 'x'), ('rules.json', '{"a": 1}'), ('set.json', '{"tilewidth": 16}')):
            (bench.folder / name).write_text(text)
        page.choose_files(*(bench.folder / name for name in ('town.tmj', 'notes.txt', 'rules.json', 'set.json')))
        [told] = page.notices()
        assert 'notes.txt, rules.json.' in told and 'set.json' not in told and active(page) == 'town', told
        page.choose_files(bench.folder / 'house.tmj', bench.folder / 'tiles.png')
        assert page.notices() == [] and active(page) == 'house'
    bench = Bench(empty=True, has_log=False)
    with bench as page:
        page.open()
        page.choose_files(bench.folder / 'tiles.png')
        page.wait(lambda: 'No map is among the chosen files' in page.find('#start-hint').text, 'that no map is there')
        assert page.notices() == ['tiles.png is a picture.\nMake a map with it\nOK']


def test_maps_in_xml():
    """A map in XML is listed and opened, and what is wrong with one is said. A save keeps the kind of the file that is there; a new one is of
    the kind of its name. Where name and file disagree, the page says so."""
    bench = Bench('town.tmj', served=True)
    source = (EXAMPLES / 'layers.tmx').read_bytes().replace(b'maps/', b'')
    with bench as page:
        for name, data in (('cave.tmx', source), ('broken.tmx', b'<map>\n <layer'), ('odd.tmj', source)):
            (bench.folder / name).write_bytes(data)
        page.js('roskevad.documents.openPath("broken.tmx")')
        page.wait(lambda: 'Line 2, column 7: a tag is spelled wrong.' in page.bubble(), 'it is refused')
        page.ctrl('o')
        page.fill_in(file='cave.tmx')
        assert active(page) == 'cave' and page.notices() == []
        page.js('return roskevad.bench.act(["stamp 1 0 0 1 9", "undo"])')
        page.ctrl('s')
        assert (bench.folder / 'cave.tmx').read_bytes() == source
        for name, is_xml in (('new.tmj', False), ('new.tmx', True)):
            page.find('#save-as').click()
            page.fill_in(file=name)
            page.wait((bench.folder / name).exists, f'{name} is saved')
            assert (bench.folder / name).read_bytes().startswith(b'<') == is_xml
        page.js('roskevad.documents.openPath("odd.tmj")')
        page.wait(lambda: page.notices(), 'it is told')
        assert 'odd.tmj has XML in it, and its name says JSON' in page.notices()[0]


def edge(page, css):
    return page.js(
        'const box = document.querySelector(arguments[0]).getBoundingClientRect();'
        'return [Math.round(box.left + box.width / 2), Math.round(box.top + box.height / 2)]',
        css,
    )


def work_in_town(page):
    choose(page, 'Square')
    page.keys('+')
    page.keys('+')
    hand = page.point((12, 12))
    page.drag_points([hand, [hand[0] + 30, hand[1] - 25]], button=1)
    page.click('#palette-larger')
    left, top = page.js('const box = document.getElementById("palette-size").getBoundingClientRect(); return [box.left, box.top]')
    page.drag_points([[int(left + 60), int(top + 60)], [int(left + 110), int(top + 60)]])
    page.keys('e')
    page.keys('4', Keys.SHIFT)
    page.click('#layers li[data-layer="2"] .fold')
    x, y = edge(page, '#left-edge')
    page.drag_points([[x, y], [x + 40, y], [x + 70, y]])
    page.unfold_log()
    x, y = edge(page, '#line-edge')
    page.drag_points([[x, y], [x, y - 20], [x, y - 60]])
    page.click('#panel-properties h2')


def test_what_a_map_keeps():
    """Each map keeps its zoom, place, layer, tool, stamp and panels: over another tab, a page that is loaded
    anew, a file that is saved as another one, and a map that is opened again."""
    bench = Bench('town.tmj', 'two_tilesets.tmj', served=True)
    with bench as page:
        page.click('.tab[data-document="town"]')
        fresh = page.js(STANDS)
        work_in_town(page)
        town = page.js(STANDS)
        unlike = {name for name in town if town[name] != fresh[name]}
        assert unlike == set(town) - {'tileset'}, unlike
        assert len(town['stamp']['values']) == 2 and town['tool'] == 'eraser' and town['brush'] == 4
        page.click('.tab[data-document="two_tilesets"]')
        other = page.js(STANDS)
        assert other['view'] != town['view'] and other['panels'] != town['panels'] and other['tool'] == 'brush'
        page.keys('f')
        tileset = str(page.editor.map()['tilesets'][1]['firstgid'])
        Select(page.find('#tilesets')).select_by_value(tileset)
        take_tile(page, (2, 1))
        other = page.js(STANDS)
        assert other['tileset'] == tileset
        page.click('.tab[data-document="town"]')
        assert page.js(STANDS) == town
        page.click('.tab[data-document="two_tilesets"]')
        assert page.js(STANDS) == other
        page.reload()
        assert page.js(STANDS) == other
        page.click('.tab[data-document="town"]')
        assert page.js(STANDS) == town
        page.reload()
        assert page.js(STANDS) == town and standing(page) == (0, 0)
        page.ctrl('s', Keys.SHIFT)
        page.fill_in(file='orchard.tmj')
        assert page.js(STANDS) == town
        page.click('.tab[data-document="two_tilesets"]')
        page.click('.tab[data-document="town"]')
        assert page.js(STANDS) == town
        close(page, 'town')
        page.settle()
        assert page.js(STANDS) == other
        page.ctrl('o')
        page.fill_in(file='orchard.tmj')
        assert page.js(STANDS) == town


def test_a_map_that_is_first_seen():
    """It is shown whole, and takes the tool and the stamp that are in the hand."""
    with Bench() as page:
        take_tile(page, (3, 1))
        page.keys('f')
        page.keys('+')
        page.ctrl('o')
        page.fill_in(file='layers.tmj')
        told = page.js(STANDS)
        assert told['tool'] == 'fill' and told['stamp']['values'] == [12]
        view = told['view']
        page.click('#fit')
        assert page.js(STANDS)['view'] == view
