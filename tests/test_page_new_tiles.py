# SPDX-License-Identifier: MIT OR Apache-2.0
"""Begins with pictures on the page in Chromium: tilesets of a picture that is in the folder, chosen or dropped, in the map
or as a file beside it, with a preview of the cut; which tiles are used, and where; and new maps with a tileset or a picture,
of each orientation, finite or infinite. Real Tiled draws those that are made of one picture as the page does."""
import base64
import json
import tempfile
from pathlib import Path

from lib.places import EXAMPLE_MAPS
from page.bench import Bench, cell, choose, layer_of, spelled, standing, take_tile
from page.browser import ActionChains, Keys, Page, browser
from page.own_folder import bytes_in, folder_page, put, site, take_folder
from page.planes import to_middle
from page.tiled_pictures import compared
from test_page_menus import pick, right_click

NEEDS_BROWSER = True
IS_LONG = True
PACKAGES = ('tiled',)
DROP = '''
const [name, text, done] = arguments;
const data = new DataTransfer(), bytes = Uint8Array.from(atob(text), letter => letter.charCodeAt(0));
data.items.add(new File([bytes], name, {type: "image/png"}));
const isTaken = !document.body.dispatchEvent(new DragEvent("drop", {dataTransfer: data, bubbles: true, cancelable: true}));
setTimeout(() => done(isTaken), 300);'''


def picture(name='tiles.png'):
    return (EXAMPLE_MAPS / name).read_bytes()


def drop(page, name, data):
    """Drops a file. Where the page leaves it to the browser, that shows it in the place of the page."""
    assert page.driver.execute_async_script(DROP, name, base64.b64encode(data).decode()), 'the browser has it'
    page.settle()


def set_choice(page, name, value):
    page.js('const at = document.querySelector(`dialog [name=${arguments[0]}]`);'
            'at.value = arguments[1]; at.dispatchEvent(new Event("change", {bubbles: true}))', name, value)
    page.js('return new Promise(done => setTimeout(done, 100))')
    page.settle()


def type_in(page, **fields):
    for name, value in fields.items():
        field = page.find(f'dialog [name={name}]')
        field.clear()
        field.send_keys(str(value))


def begin(page, css):
    page.click(css)
    page.wait(lambda: page.texts('dialog[open]'), 'a dialog')


def cut_words(page):
    page.wait(lambda: page.texts('#cut-words'), 'a preview')
    return page.texts('#cut-words')[0]


def members(page, at=-1):
    return page.editor.map()['tilesets'][at]


def test_in_the_map():
    """A picture that is there becomes a tileset of the map, cut as the fields say and the preview shows; its tiles come behind
    all others, and the first one is in the hand."""
    with Bench() as page:
        count = len(page.editor.map()['tilesets'])
        begin(page, '#new-tileset')
        page.fill_in(file='tiles.png')
        assert cut_words(page) == 'The picture has 128 × 64 pixels: 32 tiles, 8 × 4.'
        assert page.find('dialog [name=name]').get_attribute('value') == 'tiles' and not page.texts('dialog [name=where]')
        type_in(page, side='20', margin='2', spacing='1')
        assert cut_words(page) == 'The picture has 128 × 64 pixels: 18 tiles, 6 × 3. Pixels of no tile: 1 at the right and 12 below.'
        type_in(page, side='200')
        assert cut_words(page) == 'The picture has 128 × 64 pixels: no tile of 200 × 16 has room in it.'
        page.fill_in()
        assert 'No tile of 200 × 16 pixels has room' in page.find('dialog .fault').text and spelled(page) == []
        page.fill_in(side='32', tall='32', margin='0', spacing='0', name='large tiles')
        told, [line] = members(page), spelled(page)
        assert line.startswith('tileset put ') and standing(page) == (1, 1) and len(page.editor.map()['tilesets']) == count + 1
        first = told.pop('firstgid')
        assert told == {
            'columns': 4, 'image': 'tiles.png', 'imageheight': 64, 'imagewidth': 128, 'margin': 0, 'name': 'large tiles', 'spacing': 0,
            'tilecount': 8, 'tileheight': 32, 'tilewidth': 32,
        }
        page.wait(lambda: page.find('#tilesets').get_attribute('value') == str(first), 'it is shown')
        ground = choose(page, 'Ground')
        page.keys('b')
        page.drag([(20, 20)])
        assert cell(page, ground, 20, 20) == first
        page.ctrl('z')
        page.ctrl('z')
        assert len(page.editor.map()['tilesets']) == count


def test_as_a_file():
    """In a folder the tileset may be a file beside the map: it is written at once, over no other one, and stays when the step
    is undone."""
    with folder_page() as page:
        begin(page, '#new-tileset')
        page.fill_in(file='tiles.png')
        set_choice(page, 'where', 'as a file beside the map')
        page.fill_in(name='a/b')
        assert 'A name of a file' in page.find('dialog .fault').text
        page.fill_in(name='stones', side='32', tall='32')
        page.wait(lambda: not page.texts('dialog[open]'), 'it is made')
        source = members(page)
        assert source['source'] == 'stones.tsj' and spelled(page) == [f'tileset add {source["firstgid"]} stones.tsj']
        told = json.loads(bytes_in(page, 'stones.tsj'))
        wanted = {'type': 'tileset', 'name': 'stones', 'image': 'tiles.png', 'imagewidth': 128, 'imageheight': 64, 'columns': 4, 'tilecount': 8}
        assert {name: told[name] for name in wanted} == wanted and (told['tilewidth'], told['tileheight'], told['margin'], told['spacing']) == (32, 32, 0, 0)
        page.ctrl('z')
        assert bytes_in(page, 'stones.tsj') is not None and members(page).get('source') != 'stones.tsj'
        before = bytes_in(page, 'stones.tsj')
        begin(page, '#new-tileset')
        page.fill_in(file='tiles.png')
        set_choice(page, 'where', 'as a file beside the map')
        page.fill_in(name='stones')
        assert page.find('dialog .fault').text == 'The file stones.tsj is there already. Choose another name.'
        page.fill_in('Cancel')
        assert bytes_in(page, 'stones.tsj') == before and standing(page) == (0, 1)
        # The list of the folder's has it.
        begin(page, '#add-tileset')
        page.fill_in(file='stones.tsj')
        assert members(page)['source'] == 'stones.tsj' and members(page)['firstgid'] == source['firstgid']


def test_of_this_machine():
    """A picture that is elsewhere comes among the chosen files, and into a folder as a copy beside the map, over no other one."""
    bench = Bench()
    with bench as page:
        other = bench.folder / 'other place.png'
        other.write_bytes(picture('smoke.png'))
        begin(page, '#new-tileset')
        page.find('#picture-file').send_keys(str(other))
        assert cut_words(page).startswith('The picture has')
        page.fill_in(side='8', tall='8')
        assert members(page)['image'] == 'other place.png' and members(page)['tilewidth'] == 8
        elsewhere = bench.folder / 'elsewhere'
        elsewhere.mkdir()
        (elsewhere / 'stones.png').write_bytes(picture('smoke.png'))
        (elsewhere / 'tiles.png').write_bytes(picture('smoke.png'))
        with folder_page() as page:
            begin(page, '#new-tileset')
            page.find('#picture-file').send_keys(str(elsewhere / 'tiles.png'))
            page.wait(lambda: page.bubble(), 'it is said')
            assert page.bubble() == 'tiles.png was not taken: tiles.png is there already, and is another one.' and bytes_in(page, 'tiles.png') == picture()
            begin(page, '#new-tileset')
            page.find('#picture-file').send_keys(str(elsewhere / 'stones.png'))
            cut_words(page)
            assert bytes_in(page, 'stones.png') == picture('smoke.png')
            page.fill_in('Cancel')


def test_dropped():
    """What can be made of a picture that is dropped is offered: a tileset, or a map where none is open. In a folder it is
    written there."""
    with Bench() as page:
        drop(page, 'stones.png', picture('smoke.png'))
        assert page.notices() == ['stones.png is a picture.\nMake a tileset of it\nOK']
        page.answer('Make a tileset of it')
        cut_words(page)
        page.fill_in(side='8', tall='8')
        assert members(page)['image'] == 'stones.png'
    with folder_page() as page:
        drop(page, 'stones.png', picture('smoke.png'))
        assert bytes_in(page, 'stones.png') == picture('smoke.png') and page.js('return roskevad.editor.place.kind') == 'folder'
        page.answer('Make a tileset of it')
        cut_words(page)
        page.fill_in(side='8', tall='8')
        assert members(page)['image'] == 'stones.png'
    with Bench(empty=True) as page:
        page.js('roskevad.editor.place.files.clear()')
        drop(page, 'tiles.png', picture())
        page.answer('Make a map with it')
        assert cut_words(page) == 'The picture has 128 × 64 pixels: 32 tiles, 8 × 4.'
        page.fill_in(name='first', width='10', height='8')
        told = page.editor.map()
        assert (told['width'], told['height'], told['tilewidth']) == (10, 8, 16) and members(page)['image'] == 'tiles.png' and standing(page) == (0, 0)


def test_dropped_on_a_served_folder():
    """Where a server gives the folder, nothing is taken by a drop: the page stays, and says where the file has to be."""
    bench = Bench(served=True)
    with bench as page:
        before = page.editor.map()
        drop(page, 'stones.png', picture('smoke.png'))
        assert page.bubble() == f'Put stones.png into the folder {bench.folder}: then it is listed by New tileset.', page.bubble()
        drop(page, 'yard.tmj', b'{}')
        assert page.bubble() == f'Put yard.tmj into the folder {bench.folder}: then it is listed by Open.', page.bubble()
        assert page.editor.map() == before and page.notices() == [] and not (bench.folder / 'stones.png').exists()


def test_image_layer():
    """A new image layer has the picture that is chosen for it, as one step; or none yet. Cancel adds none."""
    with Bench() as page:
        number, count = page.editor.map()['nextlayerid'], len(page.editor.map()['layers'])
        choose(page, 'Ground')
        begin(page, '#add-image-layer')
        page.fill_in('Cancel')
        assert not page.texts('#layers .new') and spelled(page) == []
        begin(page, '#add-image-layer')
        page.fill_in(file='smoke.png')
        page.wait(lambda: page.js('return document.activeElement.className') == 'row-field', 'a name is asked for')
        page.driver.switch_to.active_element.send_keys('Mist', Keys.ENTER)
        page.settle()
        assert layer_of(page, 'Mist')['image'] == 'smoke.png' and standing(page) == (1, 1)
        assert spelled(page)[1:-1] == ['layer add image Mist', f'layer move {number} 1', f'member set layer:{number} image "smoke.png"']
        begin(page, '#add-image-layer')
        page.click('#without-picture')
        page.wait(lambda: page.js('return document.activeElement.className') == 'row-field', 'a name is asked for')
        page.driver.switch_to.active_element.send_keys(Keys.ENTER)
        page.settle()
        assert standing(page) == (2, 2) and len(page.editor.map()['layers']) == count + 2 and layer_of(page, 'Image Layer 2')['image'] == ''


def test_uses():
    """Over a tile of the palette it is told whether the map uses it; a tileset that is used says where, and is not removed."""
    with Bench() as page:
        told = page.editor.map()

        def over(place):
            point = page.js('const box = document.getElementById("palette").getBoundingClientRect(), {palette} = roskevad;'
                            'return [box.left, box.top].map((from, axis) => Math.floor(from + arguments[0][axis] * palette.pitch + palette.side / 2))', place)
            chain = ActionChains(page.driver, duration=0)
            chain.w3c_actions.pointer_action.move_to_location(*point)
            chain.perform()
            page.settle()
            return page.texts('#tile-number') + page.texts('#tile-uses')

        def count(number):
            def inside(layers):
                for layer in layers:
                    yield from inside(layer.get('layers', []))
                    yield from layer.get('data', [])
                    yield from (each.get('gid', 0) for each in layer.get('objects', []))
            return sum(value & 0x0FFFFFFF == number for value in inside(told['layers']))

        assert over([0, 0]) == ['tile 0', f'used {count(1):,} times']
        unused = next(tile for tile in range(32) if count(tile + 1) == 0)
        assert over([unused % 8, unused // 8]) == [f'tile {unused}', 'not used']
        ground = choose(page, 'Ground')
        page.editor.lines(f'stamp {ground} 0 0 1 {unused + 1}')
        assert over([(unused + 1) % 8, 0]) and over([unused % 8, unused // 8]) == [f'tile {unused}', 'used once']
        lines = spelled(page)
        page.click('#remove-tileset')
        words = page.bubble()
        assert words.startswith('The map uses tiles: 1,200 cells of Ground, ') and words.endswith('Replace these or empty them first.'), words
        assert spelled(page) == lines


def test_new_map_with_a_tileset():
    """New proposes a free name, a tileset that is there and its size of a tile; a name that is taken is told at once. The map
    has no step."""
    with Bench() as page:
        begin(page, '#new')
        names = page.js('return [...document.querySelectorAll("dialog [name=tiles] option")].map(each => each.value)')
        assert {'tiles.tsx', 'walls.tsj', 'tiles.png'} <= set(names) and names[-1] == ''
        assert page.find('dialog [name=tiles]').get_attribute('value') == 'tiles.tsx'
        assert page.find('dialog [name=name]').get_attribute('value') == 'map' and page.find('dialog [name=side]').get_attribute('value') == '16'
        type_in(page, name='house')
        assert page.texts('dialog .fault')[0] == 'The file house.tmj is there already. Choose another name.'
        type_in(page, name='town')
        assert page.texts('dialog .fault')[0] == 'A map that is open has this name already: choose another one.'
        type_in(page, name='yard')
        assert page.texts('dialog .fault')[0] == ''
        page.fill_in(width='12', height='9')
        assert page.editor.session().decode() == 'new yard 12 9 16 16 tiles.tsx\n' and standing(page) == (0, 0)
        begin(page, '#new')
        assert page.find('dialog [name=name]').get_attribute('value') == 'map'
        page.fill_in('Cancel')


def test_new_maps_of_other_kinds():
    """A map may be isometric, staggered, hexagonal or infinite, and have a picture of its own, or no tiles yet. It has no step and
    no file, comes back behind a reload, and is saved as Tiled lays it out."""
    bench = Bench()
    with bench as page:
        begin(page, '#new')
        set_choice(page, 'tiles', 'tiles.png')
        cut_words(page)
        set_choice(page, 'orientation', 'isometric')
        page.find('dialog [name=infinite]').click()
        page.fill_in(name='plane', width='20', height='10', side='32', tall='16')
        told = page.editor.map()
        assert told['orientation'] == 'isometric' and (told['width'], told['height']) == (32, 16) and (told['tilewidth'], told['tileheight']) == (32, 16)
        assert members(page)['image'] == 'tiles.png' and members(page)['columns'] == 4
        assert standing(page) == (0, 0) and page.texts('#lines li')[-1].startswith('New map plane')
        assert page.editor.state()['documents'][-1]['path'] is None and page.find('#standing').text == 'not saved yet'
        page.keys('b')
        page.drag([(2, 2)])
        assert standing(page) == (1, 1)
        page.reload()
        page.wait(lambda: standing(page) == (1, 1), 'it is back')
        page.ctrl('s')
        page.fill_in(file='plane.tmj')
        saved = bench.saved('plane.tmj').decode()
        assert json.loads(saved)['infinite'] is True and saved.startswith('{ "compressionlevel":-1,\n "height":'), saved[:60]
        stagger = {'staggeraxis': 'y', 'staggerindex': 'odd'}
        for kind, more in (('staggered', stagger), ('hexagonal', {**stagger, 'hexsidelength': 12})):
            begin(page, '#new')
            set_choice(page, 'tiles', '')
            set_choice(page, 'orientation', kind)
            page.fill_in(name=kind, width='6', height='5', side='28', tall='24')
            told = page.editor.map()
            assert {name: told[name] for name in more} == more and told['orientation'] == kind and told['tilesets'] == [] and standing(page) == (0, 0)


def test_chunks_of_a_new_map():
    """A new infinite map is saved with the chunks that are drawn on, and with those at its two corners, which say how large it is."""
    with folder_page() as page:
        begin(page, '#new')
        page.find('dialog [name=infinite]').click()
        page.fill_in(name='wide', width='40', height='60')
        page.wait(lambda: page.editor.state()['active'] == 'wide', 'it is made')
        assert (page.editor.map()['width'], page.editor.map()['height']) == (48, 64)
        to_middle(page)
        take_tile(page, (1, 1))
        page.keys('b')
        page.drag([(17, 2), (18, 2)])
        page.ctrl('s')
        page.fill_in(file='wide.tmj')
        page.wait(lambda: bytes_in(page, 'wide.tmj') is not None, 'it is saved')
        chunks = json.loads(bytes_in(page, 'wide.tmj'))['layers'][0]['chunks']
        assert sorted((each['x'], each['y'], any(each['data'])) for each in chunks) == [(0, 0, False), (16, 0, True), (32, 48, False)]


def show_tileset(page, at):
    """Chooses a tileset of the map in the palette, by its place."""
    page.js('const at = document.getElementById("tilesets"); at.selectedIndex = arguments[0]; at.dispatchEvent(new Event("change"))', at)
    page.settle()


def see_as_tiled(page, *names):
    """Tiled draws maps of the folder as the page does, pixel by pixel."""
    with tempfile.TemporaryDirectory() as top:
        for name in ('tiles.png', 'tiles.tsj', *names):
            data = bytes_in(page, name)
            if data is not None:
                (Path(top) / name).write_bytes(data)
        for name in names:
            told = compared(page, Path(top) / name)
            assert told['colours'] > 3 and told['count'] == 0, (name, told)


def test_a_folder_without_maps():
    """A folder that has pictures alone asks for no map to open: the page without a map says how to begin there."""
    with site() as address:
        page = Page(browser(), f'{address}/roskevad.html')
        page.clear(f'{address}/blank.html')
        page.open()
        put(page, {'tiles.png': picture()})
        take_folder(page)
        page.settle()
        assert not page.texts('dialog[open]'), page.texts('dialog[open]')
        page.wait(lambda: page.find('#start-hint').text == "There is no map in the browser's own folder yet: make a new one.", 'it is said')
        page.press('#start-ways button', 'New map')
        page.wait(lambda: page.texts('dialog[open]'), 'a dialog')
        assert page.find('dialog [name=tiles]').get_attribute('value') == 'tiles.png'
        page.fill_in('Cancel')
        page.driver.get('about:blank')


def test_the_whole_way():
    """From a folder with one picture and nothing else: a map with two tilesets and three tile layers in a group, and an infinite
    one that is drawn past its edge on all four sides. Tiled draws both as the page does."""
    with folder_page() as page:
        page.js('return navigator.storage.getDirectory().then(async top => { for (const name of ["tiles.tsx", "town.tmj"]) await top.removeEntry(name); })')
        page.find('.tab .close').click()
        page.settle()
        page.wait(lambda: page.find('#empty').is_displayed(), 'no map is open')
        begin(page, '#new')
        assert page.find('dialog [name=tiles]').get_attribute('value') == 'tiles.png'
        cut_words(page)
        set_choice(page, 'where', 'as a file beside the map')
        page.fill_in(name='home', width='12', height='10')
        page.wait(lambda: not page.texts('dialog[open]'), 'it is made')
        assert members(page) == {'firstgid': 1, 'source': 'tiles.tsj'} and standing(page) == (0, 0)
        begin(page, '#new-tileset')
        page.fill_in(file='tiles.png')
        page.fill_in(name='large', side='32', tall='32')
        page.wait(lambda: len(page.editor.map()['tilesets']) == 2, 'a second one')
        assert members(page)['firstgid'] == 33
        number = layer_of(page, 'Tile Layer 1')['id']
        right_click(page, f'#layers li[data-layer="{number}"] .name')
        pick(page, 'Group')
        for _ in range(2):
            choose(page, 'Tile Layer 1')
            page.ctrl('d', Keys.SHIFT)
        [group] = page.editor.map()['layers']
        assert group['type'] == 'group' and [each['type'] for each in group['layers']] == ['tilelayer'] * 3
        page.keys('b')
        for at, layer in enumerate(group['layers']):
            page.click(f'#layers li[data-layer="{layer["id"]}"] .name')
            show_tileset(page, at % 2)
            take_tile(page, (1 + at, 1))
            page.drag([(2, 2 + 2 * at), (6, 2 + 2 * at)])
        page.ctrl('s')
        page.fill_in(file='home.tmj')
        page.wait(lambda: bytes_in(page, 'home.tmj') is not None, 'it is saved')
        told = json.loads(bytes_in(page, 'home.tmj'))
        assert told['tilesets'][0] == {'firstgid': 1, 'source': 'tiles.tsj'} and len(told['layers'][0]['layers']) == 3
        begin(page, '#new')
        page.find('dialog [name=infinite]').click()
        page.fill_in(name='land', width='16', height='16')
        page.wait(lambda: page.editor.state()['active'] == 'land', 'it is made')
        to_middle(page)
        take_tile(page, (1, 1))
        page.keys('b')
        for cells in ([(15, 8), (17, 8)], [(8, 15), (8, 17)], [(0, 8), (-2, 8)], [(20, 0), (20, -2)]):
            page.drag(cells)
        assert (page.editor.map()['width'], page.editor.map()['height']) == (48, 48) and standing(page) == (4, 4)
        page.ctrl('s')
        page.fill_in(file='land.tmj')
        page.wait(lambda: bytes_in(page, 'land.tmj') is not None, 'it is saved')
        see_as_tiled(page, 'home.tmj', 'land.tmj')
