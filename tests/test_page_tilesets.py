# SPDX-License-Identifier: MIT OR Apache-2.0
"""Works with tilesets on the page in Chromium, by mouse and keys: the palette's zoom and width, the tile
that is picked, tilesets that are added and removed, tiles in words; and opens hostile files, of which each
is named, all else is drawn, and the page stays quick."""
import json

from lib.cases import passed
from lib.places import EXAMPLE_MAPS
from page import hostile
from page.bench import Bench, cell, choose, layer_of, see_colours, spelled, standing, take_tile
from page.browser import ActionChains, pixels
from page.own_folder import folder_page, put
from selenium.webdriver.common.actions.wheel_input import ScrollOrigin
from selenium.webdriver.common.keys import Keys

NEEDS_BROWSER = True
IS_LONG = True
# The longest that the page may work in one go, in milliseconds: what goes over the tiles that are
# claimed takes minutes. Other steps may take the processors.
LONGEST = 8000


def frame_of(page, css):
    return page.js(
        'const box = document.querySelector(arguments[0]).getBoundingClientRect();'
        'return [box.left, box.top, box.width, box.height]',
        css,
    )


def middle(page, css):
    left, top, width, height = frame_of(page, css)
    return [round(left + width / 2), round(top + height / 2)]


def palette_colour(page, place, side, pixel):
    """The colour that the palette shows in a tile, at a pixel of its image."""
    left, top, _, _ = frame_of(page, '#palette-size')
    at = [start + cell * (side + 1) + 1 + (pixel + 0.5) * side / 16 for start, cell in zip((left, top), place)]
    return page.colours([[int(each) for each in at]])[0]


def image_colour(page, place, pixel, image='tiles.png'):
    point = [16 * each + pixel for each in place]
    return pixels(page.driver, (EXAMPLE_MAPS / image).read_bytes(), [point])[0][:3]


def test_zoom_and_width():
    """Buttons and Ctrl with the wheel make the tiles larger and smaller, and the edge makes the panel
    wider: the tile under the hand is the one that is shown and taken. Its id is told."""
    with Bench() as page:
        choose(page, 'Ground')
        assert palette_colour(page, (4, 0), 32, 8) == image_colour(page, (4, 0), 8)
        page.click('#palette-larger')
        assert palette_colour(page, (4, 0), 48, 8) == image_colour(page, (4, 0), 8)
        spot = middle(page, '#palette-box')
        wheel = ScrollOrigin.from_viewport(*spot)
        for turn in (-100, 100, 100, 100):
            chain = ActionChains(page.driver).key_down(Keys.CONTROL)
            chain.scroll_from_origin(wheel, 0, turn).key_up(Keys.CONTROL).perform()
            page.settle()
        assert page.js('return roskevad.palette.side') == 24
        page.click('#palette-larger')
        page.click('#palette-larger')
        left, top = middle(page, '#left-edge')
        before = frame_of(page, '#left')[2]
        page.drag_points([[left, top], [left + 60, top], [left + 150, top]])
        assert abs(frame_of(page, '#left')[2] - before - 150) < 8
        left, top, _, _ = frame_of(page, '#palette-size')
        page.drag_points([[int(left + 7 * 49 + 20), int(top + 20)]])
        assert page.find('#tile-number').text == 'tile 7'
        page.keys('b')
        page.drag([(20, 20)])
        assert spelled(page)[-1] == f'stamp {layer_of(page, "Ground")["id"]} 20 20 1 8'
        # A panel that is too narrow is scrolled.
        left, top = middle(page, '#left-edge')
        page.drag_points([[left, top], [left - 100, top], [200, top]])
        for _ in range(3):
            page.click('#palette-larger')
        page.js('document.getElementById("palette-box").scrollTo(5000, 5000)')
        page.settle()
        assert palette_colour(page, (7, 3), 128, 8) == image_colour(page, (7, 3), 8)
        left, top, width, high = frame_of(page, '#palette-size')
        page.drag_points([[int(left + width - 60), int(top + high - 60)]])
        assert page.js('return roskevad.bench.stamp.values') == [32]


def test_picked_tile():
    """A tile that is taken from the map is shown by the palette, in its tileset, and told in words."""
    with Bench('two_tilesets.tmj') as page:
        told = page.editor.map()
        first = told['tilesets'][1]['firstgid']
        number = next(layer['id'] for layer in told['layers'] if layer['type'] == 'tilelayer')
        page.editor.lines(f'stamp {number} 0 0 2 {first + 29},{0x80000000 + first + 30}')
        for _ in range(4):
            page.click('#palette-larger')
        page.click(f'#layers li[data-layer="{number}"] .name')
        page.keys('b')
        page.drag([(0, 0)], button=2)
        name = page.js('return roskevad.tilesets.all[1].name')
        assert page.find('#stamp-size').text == f'{name} 29'
        assert page.js('return document.getElementById("tilesets").value') == str(first)
        box, tile = frame_of(page, '#palette-box'), frame_of(page, '#palette-size')
        left, top = tile[0] + 29 % 8 * 129, tile[1] + 29 // 8 * 129
        assert box[0] <= left and left + 129 <= box[0] + box[2] + 1, (box, left)
        assert box[1] <= top and top + 129 <= box[1] + box[3] + 1, (box, top)
        page.drag([(1, 0)], button=2)
        assert page.find('#stamp-size').text == f'{name} 30, flipped'


# Each pair of flips, by what Tiled's keys X, Y and Z make of a tile.
TURNS = {
    '': '', 'x': 'flipped', 'y': 'flipped down', 'xy': 'turned round', 'z': 'turned right', 'zzz': 'turned left',
    'zx': 'turned right, flipped', 'zzzx': 'turned left, flipped',
}  # fmt: skip


def test_status():
    """The bar tells the cell, the pixel, the layer and the tile in words; steps tell their layer."""
    with Bench() as page:
        number = choose(page, 'Ground')
        for at, (keys, words) in enumerate(TURNS.items()):
            take_tile(page, (3, 1))
            for key in keys:
                page.keys(key)
            page.drag([(3 + at, 20)])
            told = page.find('#place').text.split(' · ')
            assert told[0] == f'{3 + at}, 20' and told[2] == 'Ground', told
            assert told[3] == f'tiles 11{", " if words else ""}{words}', (keys, told)
            across, down = told[1].removesuffix(' px').split(', ')
            assert int(across) // 16 == 3 + at and int(down) // 16 == 20, told
            assert str(cell(page, number, 3 + at, 20)) not in page.find('#place').text
            passed()
        page.keys('e')
        page.drag([(3, 20)])
        assert page.find('#place').text.endswith('Ground · empty')
        page.say('object move 1 8 8')
        page.say('prop set map weather string calm')
        page.say('layer rename 1 Meadow')
        for name, x, more in (('Fence', 4, 'erase+ 1 5 20 1 1'), ('Mixed', 6, 'layer show 2 no')):
            for line in (f'begin {name}', f'erase 1 {x} 20 1 1', more, 'end'):
                page.say(line)
        inn = page.js('return roskevad.editor.map.object(1).object.name')
        names = page.texts('#steps li .name')
        assert names[1:3] == ['Stamp · Meadow'] * 2, 'a layer has the name that it has now'
        assert names[-6:] == [
            'Erase · Meadow', f'Move Object · {inn}', 'Set Property · weather', 'Rename Layer · Meadow', 'Fence · Meadow', 'Mixed',
        ], names  # fmt: skip
        page.reload()
        assert page.texts('#steps li .name') == names
        for _ in range(3):
            page.ctrl('z')
        page.say('layer show 1 no')
        assert page.texts('#steps li .name')[-1] == 'Show Layer · Ground: hidden'


def add_and_remove(bench, source):
    with bench as page:
        ground = choose(page, 'Ground')
        before = page.texts('#tilesets option')
        page.find('#add-tileset').click()
        page.wait(lambda: '32 tiles of 16 × 16' in page.texts('#file-list .details'), 'a tileset is looked into')
        assert 'in the map already' in page.texts('#file-list .details')
        page.fill_in(file=source)
        # The tileset that is there has the ids 1 to 32.
        assert spelled(page)[-1] == f'tileset add 33 {source}' and page.notices() == []
        assert page.texts('#tilesets option') == [*before, 'walls']
        assert page.js('return roskevad.palette.tileset.first') == 33, 'the new one is shown'
        assert palette_colour(page, (3, 1), 32, 8) == image_colour(page, (3, 1), 8)
        take_tile(page, (3, 1))
        page.drag([(3, 20)])
        assert cell(page, ground, 3, 20) == 33 + 11
        count = standing(page)
        page.click('#remove-tileset')
        assert page.bubble() == 'The map uses walls: 1 cell of Ground. Replace these or empty them first.' and standing(page) == count
        page.ctrl('z')
        page.click('#remove-tileset')
        assert spelled(page)[-1] == 'tileset remove 33' and page.texts('#tilesets option') == before


def test_add_and_remove():
    """A tileset of the folder is added with the first id behind those that are there, drawn with, and
    removed where nothing uses it."""
    add_and_remove(Bench(), 'walls.tsj')


def test_add_and_remove_of_a_folder():
    add_and_remove(Bench(served=True), 'walls.tsj')


def test_behind_a_lost_one():
    """Behind a tileset that is not found, of which nobody knows how many tiles it has, another one begins at the next thousand;
    the file that is lost is chosen from what is said of it."""
    bench = Bench(empty=True)
    with bench as page:
        town = json.loads((bench.folder / 'town.tmj').read_text())
        town['tilesets'] = [{'firstgid': 5, 'source': 'lost.tsx'}]
        ground = next(layer for layer in town['layers'] if layer['name'] == 'Ground')
        ground['data'][0] = 5 + 1003
        (bench.folder / 'lost.tmj').write_text(json.dumps(town))
        page.choose_files(bench.folder / 'lost.tmj')
        [told] = page.notices()
        assert 'Not found: lost.tsx' in told
        page.js('document.getElementById("files").addEventListener("click", event => { event.preventDefault(); window.isAsked = true; })')
        page.answer('Find it')
        assert page.js('return window.isAsked') is True
        page.find('#add-tileset').click()
        page.wait(lambda: page.texts('dialog[open]'), 'a dialog')
        assert 'room for whole thousands' in page.find('#choose-file details').text
        page.fill_in(file='walls.tsj')
        assert spelled(page) == ['tileset add 2005 walls.tsj']


def test_behind_one_that_is_lost_by_now():
    """Behind a tileset that another open map has shown, and that is gone by now, another one begins where its tiles end."""
    bench = Bench(served=True)
    with bench as page:
        town = json.loads((bench.folder / 'town.tmj').read_text())
        (bench.folder / 'late.tmj').write_text(json.dumps({**town, 'tilesets': [{'firstgid': 5, 'source': 'tiles.tsx'}]}))
        (bench.folder / 'tiles.tsx').unlink()
        page.js('return roskevad.documents.openPath("late.tmj")')
        page.settle()
        assert 'Not found: tiles.tsx.' in page.notices()[0], page.notices()
        page.find('#add-tileset').click()
        page.wait(lambda: page.texts('dialog[open]'), 'a dialog')
        page.fill_in(file='walls.tsj')
        # Its file had 32 tiles.
        assert spelled(page) == ['tileset add 37 walls.tsj']
        assert all('404' in each['message'] for each in page.log()), 'the browser tells of files that are not there'


def said(page):
    """What was said last at the hand, also where it is gone by now."""
    return page.js('return document.getElementById("bubble").textContent')


def lose_tiles(folder):
    """Moves the tiles of the town into a folder of their own, as somebody does who tidies up."""
    (folder / 'art').mkdir()
    for name in ('tiles.tsx', 'tiles.png'):
        (folder / name).rename(folder / 'art' / name)


def see_found(page, name, source):
    """The page tells what is lost, lists what the folder has, those of the same name first, and reads it from there."""
    assert f'Not found: {name}.' in page.notices()[0], page.notices()
    before = page.editor.shown()
    page.answer('Find it')
    page.wait(lambda: page.texts('#choose-file'), 'a list')
    assert page.texts('#choose-file h2') == [f'Where is {name}?'] and page.texts('#file-list li.now .name') == [source]
    page.press('dialog button', 'OK')
    page.wait(lambda: page.js('return roskevad.tilesets.all.every(each => each.image) && !document.querySelector("dialog[open]")'), 'it is read')
    page.settle()
    assert page.notices() == [] and f'{name} is read from {source} now.' in said(page), said(page)
    assert page.editor.shown() == before and spelled(page) == [] and standing(page) == (0, 0)


def test_find_it():
    """A tileset that stands elsewhere in the folder is found there, with its image: it is drawn, also behind a reload; the map is as it was.
    A list that is left changes nothing."""
    bench = Bench(served=True, empty=True)
    with bench as page:
        lose_tiles(bench.folder)
        page.js('return roskevad.documents.openPath("town.tmj")')
        page.settle()
        page.answer('Find it')
        page.fill_in('Cancel')
        assert 'Not found: tiles.tsx.' in page.notices()[0] and page.js('return roskevad.tilesets.all[0].image') is None
        page.answer('Find it')
        page.fill_in(file='walls.tss')
        page.wait(lambda: said(page) == 'walls.tss is not there.', 'it is said')
        see_found(page, 'tiles.tsx', 'art/tiles.tsx')
        see_colours(page, [(x, 2) for x in range(0, 40, 5)])
        page.reload()
        page.wait(lambda: page.js('return roskevad.tilesets.all.length > 0 && roskevad.tilesets.all[0].image !== null'), 'it is read again')
        assert page.notices() == []
        # It is the same tileset as that of a map that names it where it is.
        town = json.loads((bench.folder / 'town.tmj').read_text())
        town['tilesets'] = [{'firstgid': 101, 'source': 'art/tiles.tsx'}]
        town['layers'] = [{**layer, 'data': [0] * 1200} for layer in town['layers'] if layer['name'] == 'Ground']
        (bench.folder / 'moved.tmj').write_text(json.dumps(town))
        take_tile(page, (3, 1))
        page.js('return roskevad.documents.openPath("moved.tmj")')
        page.settle()
        assert page.js('return roskevad.bench.stamp.values') == [112]
        assert all('404' in each['message'] for each in page.log()), 'the browser tells of files that are not there'


def test_find_it_in_a_folder():
    """The same in a folder that the browser gives, of an image that is lost."""
    with folder_page() as page:
        town = json.loads((EXAMPLE_MAPS / 'town.tmj').read_text())
        sets = (EXAMPLE_MAPS / 'tiles.tsx').read_text().replace('tiles.png', 'gone.png')
        put(page, {'lost.tmj': json.dumps({**town, 'tilesets': [{'firstgid': 1, 'source': 'lost.tsx'}]}).encode(), 'lost.tsx': sets.encode()})
        page.js('return roskevad.documents.openPath("lost.tmj")')
        page.settle()
        see_found(page, 'gone.png', 'tiles.png')


def replace(page, source):
    """Replaces the tileset that the palette shows by one of the folder."""
    page.wait(lambda: page.texts('#choose-file'), 'a list')
    page.fill_in(file=source)
    page.wait(lambda: page.js('return !roskevad.tilesets.isReading && !document.querySelector("dialog[open]")'), 'it is read')
    page.settle()


def test_replace():
    """Another file stands in the place of a tileset, as one step: no cell changes. What it lacks of the tiles that are in use is said."""
    bench = Bench(served=True, empty=True)
    with bench as page:
        (bench.folder / 'few.tsj').write_text((bench.folder / 'walls.tsj').read_text().replace('"tilecount":32', '"tilecount":8'))
        page.js('return roskevad.documents.openPath("town.tmj")')
        page.settle()
        layers = page.editor.map()['layers']
        page.click('#replace-tileset')
        assert page.texts('#choose-file h2') == ['Replace tiles']
        replace(page, 'walls.tsj')
        assert page.texts('#steps li .name')[-1] == 'Replace Tileset · walls.tsj' and standing(page) == (1, 1)
        assert page.editor.map()['tilesets'] == [{'firstgid': 1, 'source': 'walls.tsj'}] and page.editor.map()['layers'] == layers
        assert page.texts('#tilesets option') == ['walls'] and page.notices() == []
        page.ctrl('z')
        assert page.editor.map()['tilesets'] == [{'firstgid': 1, 'source': 'tiles.tsx'}] and page.texts('#tilesets option') == ['tiles']
        page.click('#replace-tileset')
        replace(page, 'few.tsj')
        page.wait(lambda: 'The map uses tiles that walls does not have: ' in said(page), 'it is said')
        assert said(page).endswith('They are drawn as numbers.'), said(page)


def test_replace_one_in_the_map():
    """A tileset that the map has in itself is replaced with all that it is; undone, it is there again."""
    bench = Bench(served=True, empty=True)
    with bench as page:
        town, walls = (json.loads((bench.folder / name).read_text()) for name in ('town.tmj', 'walls.tsj'))
        embedded = {'firstgid': 1, **{name: walls[name] for name in walls if name not in ('type', 'version', 'tiledversion')}}
        (bench.folder / 'whole.tmj').write_text(json.dumps({**town, 'tilesets': [embedded]}))
        page.js('return roskevad.documents.openPath("whole.tmj")')
        page.settle()
        before = page.editor.shown()
        page.click('#replace-tileset')
        replace(page, 'tiles.tsx')
        assert page.editor.map()['tilesets'] == [{'firstgid': 1, 'source': 'tiles.tsx'}] and standing(page) == (1, 1)
        page.ctrl('z')
        assert page.editor.shown() == before


def test_replace_it():
    """A tileset that is lost is replaced from what is said of it."""
    bench = Bench(served=True, empty=True)
    with bench as page:
        (bench.folder / 'tiles.tsx').unlink()
        page.js('return roskevad.documents.openPath("town.tmj")')
        page.settle()
        assert 'Not found: tiles.tsx.' in page.notices()[0], page.notices()
        page.answer('Replace it')
        replace(page, 'walls.tsj')
        assert page.notices() == [] and page.editor.map()['tilesets'] == [{'firstgid': 1, 'source': 'walls.tsj'}]
        see_colours(page, [(x, 2) for x in range(0, 40, 5)])
        assert all('404' in each['message'] for each in page.log()), 'the browser tells of files that are not there'


# ---- hostile files

WATCH = '''
window.longest = 0;
new PerformanceObserver(list => list.getEntries().forEach(each => (window.longest = Math.max(window.longest, each.duration))))
  .observe({type: "longtask"});'''


def open_and_draw(page, name, words, wrong=''):
    """Opens a map, sees what is said of it, and draws a tile of the tileset that is right."""
    page.js('window.longest = 0; return roskevad.documents.openPath(arguments[0])', name)
    page.settle()
    told = page.notices()
    assert page.editor.state()['active'] == name[:-4], page.bubble()
    if words is None:
        assert told == [], (name, told)
    else:
        assert wrong in told[0] and words in told[0], (name, told)
    first = page.js('return roskevad.tilesets.all.find(set => set.source === "right.tsx")?.first ?? 0')
    if first and name != 'flat.tmj':
        page.editor.lines('layer add tile Drawn on')
        number = layer_of(page, 'Drawn on')['id']
        page.click(f'#layers li[data-layer="{number}"] .name')
        page.js('roskevad.bench.takeStamp({width: 1, height: 1, values: [arguments[0]]})', first + 4)
        page.keys('b')
        page.drag([(1, 1)])
        assert cell(page, number, 1, 1) == first + 4
        [seen] = page.colours(page.places([(1, 1)], (8, 8)))
        assert name == 'objects.tmj' or seen == image_colour(page, (4, 0), 8), (name, seen)
    longest = page.js('return window.longest')
    assert longest < LONGEST, (name, longest)
    page.editor.lines(f'discard {name[:-4]}')
    passed()


def test_hostile_files():
    """Each is opened beside a tileset that is right: it is named, all others are drawn, and nothing takes
    long."""
    bench = Bench(empty=True, served=True)
    with bench as page:
        hostile.put_files(bench.folder)
        page.js(WATCH)
        for name, (_, words) in hostile.TILESETS.items():
            open_and_draw(page, f'{name}.tmj', words, name)
        for name, (_, words) in hostile.MAPS.items():
            open_and_draw(page, name, words)
        wrong = [name for name, (_, words) in hostile.TILESETS.items() if words]
        (bench.folder / 'all.tmj').write_text(hostile.map_with(*wrong, 'right.tsx'))
        page.js('return roskevad.documents.openPath("all.tmj")')
        page.settle()
        assert f'And {len(wrong) - 3} more' in page.notices()[0]
        images = page.js('return roskevad.tilesets.all.map(set => set.image !== null)')
        assert images[-1] is True
        page.js('return roskevad.documents.openPath("right.tsx.tmj")')
        page.settle()
        page.find('#add-tileset').click()
        page.wait(lambda: 'too large' in ' '.join(page.texts('#file-list .details')), 'files are looked into')
        page.fill_in('Cancel')


def test_colours_from_afar():
    """Colours are found when a tile is first drawn, a bounded number a frame: those of 1,000 tiles come one
    behind the other, and at last each cell has the mean of its tile."""
    bench = Bench(empty=True)
    with bench as page:
        count = 1024
        # A picture of 32 by 32 tiles, each of one colour.
        code = '''const canvas = new OffscreenCanvas(512, 512), pen = canvas.getContext("2d"), done = arguments[0];
                  for (let at = 0; at < 1024; at++) {
                    pen.fillStyle = `rgb(${at % 32 * 8}, ${Math.floor(at / 32) * 8}, 77)`;
                    pen.fillRect(at % 32 * 16, Math.floor(at / 32) * 16, 16, 16);
                  }
                  canvas.convertToBlob().then(blob => blob.arrayBuffer()).then(bytes => done([...new Uint8Array(bytes)]));'''
        image = bytes(page.driver.execute_async_script(code))
        (bench.folder / 'many.png').write_bytes(image)
        numbers = f'tilewidth="16" tileheight="16" tilecount="{count}" columns="32"'
        (bench.folder / 'many.tsx').write_text(hostile.tsx(numbers, 'many.png', 'many'))
        told = json.loads((EXAMPLE_MAPS / 'layers.tmj').read_text())
        layer = {**told['layers'][0], 'width': 32, 'height': 32, 'data': list(range(1, count + 1))}
        told.update(width=32, height=32, layers=[layer], tilesets=[{'firstgid': 1, 'source': 'many.tsx'}])
        (bench.folder / 'many.tmj').write_text(json.dumps(told))
        page.choose_files(bench.folder / 'many.tsx', bench.folder / 'many.png', bench.folder / 'many.tmj')
        page.click('#grid')
        looks = '''const {view, tilesets} = roskevad, counts = [];
                   tilesets.forgetLooks();
                   view.scale = 0.25; view.originX = view.originY = 40; view.redraw();
                   const known = () => tilesets.looks.kinds.reduce((sum, kind) => sum + (kind !== 0), 0);
                   const done = arguments[0];
                   const next = () => { counts.push(known()); counts.length < 20 ? requestAnimationFrame(next) : done(counts); };
                   requestAnimationFrame(next);'''
        counts = page.driver.execute_async_script(looks)
        steps = [after - before for before, after in zip(counts, counts[1:])]
        assert counts[-1] == count and max(steps) <= 400, counts
        cells = [(x, y) for x in range(1, 32, 5) for y in range(0, 32, 7)]
        for (x, y), seen in zip(cells, page.colours(page.places(cells, (8, 8)))):
            assert seen == (x * 8, y * 8, 77), ((x, y), seen)
