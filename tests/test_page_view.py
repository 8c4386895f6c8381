# SPDX-License-Identifier: MIT OR Apache-2.0
"""Tries what the page shows of a map in Chromium: Tiled's own examples and maps of all
orientations, layers and tile objects as Tiled draws and clicks them; the wheel, scroll bars, the
map in small, and screens of other scales."""
import base64
import json
import random
import struct
import zlib
from pathlib import Path

from lib.cases import passed
from lib.places import EXAMPLE_MAPS
from lib.tiled_package import exported, unpacked
from page.bench import PAGE, Bench, cell, choose, corner_of, spelled, standing, take_tile
from page.browser import ActionChains, Keys, Page, pixels, started
from page.tiled_pictures import compared, put, show, without_outlines

NEEDS_BROWSER = True
IS_LONG = True
PACKAGES = ('tiled',)
# An opacity, and soft edges over one another, are rounded otherwise: by at most this of 255.
ROUNDED = {
    'sewers': 2,
    'isometric_grass_and_water': 3,
    'isometric_staggered_grass_and_water': 3,
    'sandbox': 3,
    'sandbox2': 3,
}
# How many pixels differ at the edges of tile objects that are stretched to fractions of a pixel.
EDGES = {'sandbox': 40}
# Flags of tiles that are turned by 60 or 120 degrees, and how far their corners reach out of their
# cells then.
TURNED, REACH = 0x30000000, 12


def cells_of(layer):
    data = layer['data']
    if isinstance(data, list):
        return data
    packed = base64.b64decode(data)
    unpacked_data = zlib.decompress(packed, 47) if layer.get('compression') else packed
    return [each[0] for each in struct.iter_unpack('<I', unpacked_data)]


def turned_boxes(told):
    """The boxes of the cells of a hexagonal map whose tiles are turned by 60 or 120 degrees: their
    edges are smoothed otherwise. By columns, as the one example is."""
    wide, high, side = told['tilewidth'], told['tileheight'], told['hexsidelength']
    step = (wide + side) // 2
    for layer in told['layers']:
        for at, value in enumerate(cells_of(layer)):
            if value & TURNED:
                x, y = at % told['width'], at // told['width']
                top = y * high + (high // 2 if x % 2 else 0)
                yield x * step - REACH, top - REACH, x * step + wide + REACH, top + high + REACH


def is_in(box, place):
    return box[0] <= place[0] < box[2] and box[1] <= place[1] < box[3]


def test_examples():
    """Tiled's example maps are drawn pixel by pixel as Tiled draws them, but for outlines of
    objects, rounded shares of colours, and edges of turned hexagons and of stretched tile
    objects."""
    bench = Bench(empty=True)
    with bench as page:
        top = Path(bench.top.name) / 'tiled'
        paths = [path for path in unpacked(top) if not path.stem.startswith('rule_')]
        assert len(paths) == 12, paths
        for path in paths:
            name = f'seen_{path.parent.name}_{path.stem}.tmj'
            told = without_outlines(json.loads(exported(path, path.parent, name)))
            seen = put(path.parent / name, told)
            came = compared(page, seen, ROUNDED.get(path.stem, 0))
            boxes = [] if told['orientation'] != 'hexagonal' else list(turned_boxes(told))
            unlike = [each for each in came['unlike'] if not any(is_in(box, each) for box in boxes)]
            assert len(unlike) <= EDGES.get(path.stem, 0) and came['count'] < 1000, (
                path,
                came['count'],
                unlike[:4],
            )
            assert came['colours'] > 3, path
            passed()


# ---- maps of our own


def show_at(page, scale, x, y):
    """Draws the map at a scale, with its corner at a place of the canvas."""
    page.js(
        'const {view} = roskevad; [view.scale, view.originX, view.originY] = arguments;'
        'view.isWhole = true; view.draw()',
        scale,
        x,
        y,
    )


def drawn_at(page, x, y, side):
    """The values of a square of the canvas, four for each pixel."""
    return page.js(
        'const [x, y, side] = arguments;'
        'return [...roskevad.view.pen.getImageData(x, y, side, side).data]',
        x,
        y,
        side,
    )


def size_of_canvas(page):
    return page.js('const {canvas} = roskevad.view; return [canvas.width, canvas.height]')


def tile_layer(number, width, height, data, **more):
    sizes = {'x': 0, 'y': 0, 'width': width, 'height': height}
    named = {'id': number, 'name': f'Layer {number}', 'type': 'tilelayer'}
    return {**named, 'visible': True, 'opacity': 1, **sizes, 'data': data, **more}


def map_of(layers, width, height, side=(16, 16), **more):
    return {
        'type': 'map',
        'version': '1.8',
        'orientation': 'orthogonal',
        'renderorder': 'right-down',
        'infinite': False,
        'width': width,
        'height': height,
        'tilewidth': side[0],
        'tileheight': side[1],
        'nextlayerid': 90,
        'nextobjectid': 90,
        'tilesets': [
            {'firstgid': 1, 'source': 'tiles.tsx'},
            {'firstgid': 33, 'source': 'tall.tsx'},
        ],
        'layers': layers,
        **more,
    }


TALL = (
    '<?xml version="1.0"?><tileset version="1.8" name="tall" tilewidth="16" tileheight="32" '
    'tilecount="16" columns="8"{more}><tileoffset x="3" y="-2"/>'
    '<image source="tiles.png" width="128" height="64"/><tile id="2"><animation>'
    '<frame tileid="5" duration="100"/><frame tileid="2" duration="100"/>'
    '</animation></tile></tileset>'
)
STAGGERS = [
    {'staggeraxis': axis, 'staggerindex': index} for axis in 'xy' for index in ('odd', 'even')
]
KINDS = [
    *({'renderorder': order} for order in ('right-down', 'right-up', 'left-down', 'left-up')),
    {'orientation': 'isometric', 'side': (32, 16)},
    *({'orientation': 'staggered', 'side': (24, 16), **each} for each in STAGGERS),
    *(
        {'orientation': 'hexagonal', 'side': (20, 18), 'hexsidelength': 8, **each}
        for each in STAGGERS
    ),
]


def put_tiles(folder, more=''):
    folder.mkdir()
    (folder / 'tiles.png').write_bytes((EXAMPLE_MAPS / 'tiles.png').read_bytes())
    (folder / 'tiles.tsx').write_bytes((EXAMPLE_MAPS / 'tiles.tsx').read_bytes())
    (folder / 'tall.tsx').write_text(TALL.format(more=more))
    return folder


def flags(numbers, kind):
    """Flips of a tile; on a hexagonal map none that turns it."""
    return numbers.randrange(4 if kind.get('orientation') == 'hexagonal' else 8) << (
        30 if kind.get('orientation') == 'hexagonal' else 29
    )


def random_cells(numbers, kind, count, share):
    def value():
        if numbers.random() > share:
            return 0
        return numbers.choice((numbers.randrange(1, 33), numbers.randrange(33, 49))) | flags(
            numbers, kind
        )

    return [value() for _ in range(count)]


def test_orientations():
    """Maps of all orientations, axes, indices and orders, with tiles by chance, some larger than
    their cells, moved, flipped or animated, are drawn as Tiled draws them."""
    numbers = random.Random(20261127)
    bench = Bench(empty=True)
    with bench as page:
        folder = put_tiles(Path(bench.top.name) / 'kinds')
        for at, kind in enumerate(KINDS):
            layers = [
                tile_layer(number, 9, 8, random_cells(numbers, kind, 72, share))
                for number, share in ((1, 0.9), (2, 0.3))
            ]
            told = map_of(layers, 9, 8, **kind)
            came = compared(page, put(folder / f'kind_{at}.tmj', told))
            assert came['colours'] > 10 and not came['unlike'], (kind, came['unlike'][:4])
            passed()


def test_layers():
    """Groups, opacity, tints, image layers that repeat or are moved, a clear colour, hidden layers,
    and tile objects with sizes, flips and quarter turns are drawn as Tiled draws them."""
    numbers = random.Random(8)
    bench = Bench(empty=True)
    with bench as page:
        folder = put_tiles(Path(bench.top.name) / 'layers', ' objectalignment="center"')
        ground = tile_layer(1, 8, 6, random_cells(numbers, {}, 48, 0.9))
        upper = tile_layer(2, 8, 6, random_cells(numbers, {}, 48, 0.4), tintcolor='#ff8040')
        image = {'type': 'imagelayer', 'id': 3, 'name': 'Image', 'visible': True, 'x': 0, 'y': 0}
        image.update(image='tiles.png', opacity=1, tintcolor='#80ffc0')
        hidden = tile_layer(4, 8, 6, [5] * 48, visible=False)
        group = {'type': 'group', 'id': 5, 'name': 'Group', 'visible': True, 'opacity': 0.5}
        group.update(layers=[tile_layer(6, 8, 6, random_cells(numbers, {}, 48, 0.3))])
        sized = [
            {'gid': 12, 'x': 8, 'y': 40, 'width': 16, 'height': 16},
            {'gid': 11 | 1 << 31, 'x': 30, 'y': 60, 'width': 32, 'height': 48},
            {'gid': 35, 'x': 70, 'y': 50, 'width': 16, 'height': 32},
            {'gid': 20, 'x': 100, 'y': 44, 'width': 16, 'height': 16, 'rotation': 90},
            {'gid': 21, 'x': 100, 'y': 20, 'width': 16, 'height': 16, 'visible': False},
        ]
        objects = [
            {'id': at + 1, 'name': '', 'rotation': 0, 'type': '', 'visible': True, **each}
            for at, each in enumerate(sized)
        ]
        things = {'type': 'objectgroup', 'id': 7, 'name': 'Things', 'visible': True, 'opacity': 1}
        things.update(x=0, y=0, draworder='topdown', objects=objects)
        roof = tile_layer(8, 8, 6, random_cells(numbers, {}, 48, 0.2))
        layers = [ground, upper, image, hidden, group, things, roof]
        came = compared(page, put(folder / 'layers.tmj', map_of(layers, 8, 6)), 1)
        assert not came['unlike'] and came['colours'] > 50, (came['count'], came['unlike'][:5])
        repeated = {**image, 'repeatx': True, 'offsetx': -40, 'transparentcolor': '#63aa4b'}
        repeated.pop('tintcolor')
        show(page, put(folder / 'repeated.tmj', map_of([repeated], 8, 6)))
        show_at(page, 1, 200, 20)
        seen = [drawn_at(page, 200 + x, 29, 1)[:3] for x in (5, 133, -123, 261)]
        image_pixels = pixels(page.driver, (folder / 'tiles.png').read_bytes(), [(45, 9)])
        assert [tuple(each) for each in seen] == [image_pixels[0][:3]] * 4, (seen, image_pixels)


def test_moved_layers():
    """A layer with an offset, also within a group, is drawn beside the map, too, and a stroke on it
    is seen where it lies."""
    bench = Bench(empty=True)
    with bench as page:
        folder = put_tiles(Path(bench.top.name) / 'moved')
        inner = tile_layer(2, 4, 4, [0] * 15 + [12], offsetx=10, offsety=4)
        group = {'type': 'group', 'id': 3, 'name': 'G', 'visible': True, 'opacity': 1}
        group.update(offsetx=20, layers=[inner])
        show(page, put(folder / 'moved.tmj', map_of([tile_layer(1, 4, 4, [1] * 16), group], 4, 4)))
        show_at(page, 1, 40, 40)
        moved = drawn_at(page, 40 + 48 + 30, 40 + 48 + 4, 16)
        picture = (folder / 'tiles.png').read_bytes()
        wanted = pixels(
            page.driver, picture, [(48 + x, 16 + y) for y in range(16) for x in range(16)]
        )
        assert [tuple(moved[at : at + 3]) for at in range(0, 1024, 4)] == [
            each[:3] for each in wanted
        ]
        page.editor.lines('stamp 2 0 0 1 12')
        page.settle()
        assert drawn_at(page, 40 + 30, 40 + 4, 16) == moved
        choose(page, 'Layer 2')
        take_tile(page, (4, 0))
        page.drag_points([points_on(page, 30 + 16 + 2, 4 + 16 + 2)])
        assert spelled(page)[-1] == 'stamp 2 1 1 1 5', 'a click is about the cell of the layer'


# ---- clicks


def middle_in(kind, x, y):
    """The middle of a cell in the map's picture, by Tiled's rules, for a map of 9 by 8 cells."""
    wide, high = kind.get('side', (16, 16))
    side, axis = kind.get('hexsidelength', 0), kind.get('staggeraxis')
    moved = kind.get('staggerindex') == 'even'
    if kind.get('orientation') == 'isometric':
        return (x - y) * wide / 2 + 8 * wide / 2, (x + y + 1) * high / 2
    if axis == 'x':
        down = high / 2 if (x % 2 == 0) == moved else 0
        return x * (wide + side) / 2 + wide / 2, y * high + high / 2 + down
    if axis == 'y':
        right = wide / 2 if (y % 2 == 0) == moved else 0
        return x * wide + wide / 2 + right, y * (high + side) / 2 + high / 2
    return x * wide + wide / 2, y * high + high / 2


def test_clicks():
    """A click changes the cell that Tiled's rules give, from the middle of a cell to near its
    corners; also beyond the upper left corner of the map. A fill goes along columns and rows."""
    numbers = random.Random(5)
    bench = Bench(empty=True)
    with bench as page:
        folder = put_tiles(Path(bench.top.name) / 'clicks')
        for at, kind in enumerate(KINDS[3:]):
            told = map_of([tile_layer(1, 9, 8, [0] * 72)], 9, 8, **kind)
            show(page, put(folder / f'click_{at}.tmj', told))
            show_at(page, 2, 30, 30)
            page.settle()
            page.keys('b')
            page.js('roskevad.bench.takeStamp({width: 1, height: 1, values: [12]})')
            wide, high = kind.get('side', (16, 16))
            for _ in range(6):
                x, y = numbers.randrange(9), numbers.randrange(8)
                left, top = middle_in(kind, x, y)
                across, down = numbers.choice(((0, 0), (0.4, 0), (-0.4, 0), (0, 0.4), (0, -0.4)))
                point = points_on(page, left + across * (wide - 1), top + down * (high - 1))
                before = len(spelled(page))
                page.drag_points([point])
                said = spelled(page)[before:]
                assert said in ([f'stamp 1 {x} {y} 1 12'], []), (kind, (x, y), said)
                assert cell(page, 1, x, y) == 12, (kind, (x, y), said)
                passed()
        walls = [f'stamp 1 0 3 9 {",".join("7" * 9)}', f'stamp 1 4 0 1 {",".join("7" * 8)}']
        page.editor.lines('erase 1 0 0 9 8', *walls)
        page.keys('f')
        page.drag_points([points_on(page, *middle_in(KINDS[-1], 1, 1))])
        assert spelled(page)[-1] == 'fill 1 1 1 12'
        data = page.editor.map()['layers'][0]['data']
        assert {at for at, value in enumerate(data) if value == 12} == {
            y * 9 + x for y in range(3) for x in range(4)
        }


def test_objects_over_cells():
    """A new object over cells of an isometric map has as many pixels a cell each way as a cell is
    high, as Tiled counts; a click in it chooses it."""
    bench = Bench(empty=True)
    with bench as page:
        folder = put_tiles(Path(bench.top.name) / 'objects')
        things = {'type': 'objectgroup', 'id': 2, 'name': 'Things', 'visible': True, 'opacity': 1}
        things.update(x=0, y=0, draworder='topdown', objects=[])
        layers = [tile_layer(1, 9, 8, [1] * 72), things]
        show(page, put(folder / 'iso.tmj', map_of(layers, 9, 8, **KINDS[4])))
        choose(page, 'Things')
        page.keys('i')
        page.drag([(4, 3), (6, 5)], Keys.CONTROL)
        new = page.editor.map()['layers'][1]['objects'][0]
        assert [new[each] for each in ('x', 'y', 'width', 'height')] == [64, 48, 48, 48]
        page.keys('s')
        page.drag([(1, 1)])
        assert page.js('return roskevad.bench.objectId') is None
        page.drag([(5, 4)])
        assert page.js('return roskevad.bench.objectId') == 90


def points_on(page, x, y):
    """Where a pixel of the map's picture is in the window."""
    left, top, scale = corner_of(page)
    return [round(left + x * scale), round(top + y * scale)]


# ---- moving


def view_of(page):
    return page.js('const {view} = roskevad; return [view.originX, view.originY, view.scale]')


def turn_wheel(page, point, across, down, *keys):
    chain = ActionChains(page.driver, duration=0)
    chain.w3c_actions.pointer_action.move_to_location(*point)
    for key in keys:
        chain.key_down(key)
    chain.w3c_actions.wheel_action.scroll(*point, across, down, 0, 'viewport')
    for key in keys:
        chain.key_up(key)
    chain.perform()
    page.settle()


def test_wheel_and_keys():
    """The wheel scrolls both ways, with Shift to the side; with Ctrl it changes the scale and keeps
    the cell under the hand there; keys and buttons do so, too; the middle button and the space bar
    move the map."""
    with Bench() as page:
        page.ctrl('0')
        x, y, scale = view_of(page)
        assert scale == 1
        page.keys('+')
        page.keys('+')
        page.ctrl('+')
        page.settle()
        assert view_of(page)[2] == 3
        page.ctrl('-')
        assert view_of(page)[2] == 2
        page.keys('+')
        point = page.point((20, 15))
        x, y, scale = view_of(page)
        turn_wheel(page, point, 0, 120)
        assert view_of(page) == [x, y - 120, scale]
        turn_wheel(page, point, 40, -20)
        assert view_of(page) == [x - 40, y - 100, scale]
        turn_wheel(page, point, 0, 60, Keys.SHIFT)
        assert view_of(page) == [x - 100, y - 100, scale]
        under = 'return roskevad.view.placeOf({clientX: arguments[0], clientY: arguments[1]}).cell'
        cell_there = page.js(under, *point)
        turn_wheel(page, point, 0, -120, Keys.CONTROL)
        assert view_of(page)[2] == 4
        assert cell_there == page.js(under, *point)
        x, y, scale = view_of(page)
        page.drag_points([point, [point[0] + 30, point[1] + 20]], button=1)
        assert view_of(page) == [x + 30, y + 20, scale] and standing(page) == (0, 0)
        page.drag_points([point, [point[0] - 10, point[1] + 5]], Keys.SPACE)
        assert view_of(page) == [x + 20, y + 25, scale] and standing(page) == (0, 0)
        page.keys(Keys.ARROW_RIGHT)
        assert view_of(page) == [x - 60, y + 25, scale]
        for _ in range(40):
            page.js('roskevad.view.pan(-500, -500)')
        page.settle()
        left, top, right, bottom = on_screen(page)
        assert right > 40 and bottom > 40, 'the map is never lost'


def on_screen(page):
    """The box of the whole map on the canvas."""
    code = '''const {view} = roskevad, [width, height] = view.sizeOnScreen();
              return [view.originX, view.originY, view.originX + width, view.originY + height]'''
    return page.js(code)


def test_fit():
    """A map of 1,024 by 1,024 cells, one of large tiles and a long one are shown whole by Fit, and
    by its key, and can be drawn on."""
    with Bench(empty=True) as page:
        sizes = {'a': '1024 1024 16 16', 'b': '300 2000 64 32', 'c': '4096 3 16 16'}
        for name, size in sizes.items():
            page.say(f'new {name} {size} tiles.tsx')
            page.js('roskevad.view.zoomTo(2)')
            if name == 'a':
                page.ctrl('/')
            else:
                page.click('#fit')
            left, top, right, bottom = on_screen(page)
            wide, high = size_of_canvas(page)
            assert left >= 0 and top >= 0 and right <= wide and bottom <= high, (name, right)
            assert not page.find('#scroll-x').is_displayed()
        page.click('.tab[data-document="a"]')
        page.click('#fit')
        page.editor.lines('stamp 1 500 500 100 ' + ','.join(['12'] * 5000))
        page.settle()
        left, top, right, bottom = on_screen(page)
        across, down = left + 550 / 1024 * (right - left), top + 520 / 1024 * (bottom - top)
        seen = drawn_at(page, int(across), int(down), 1)
        assert seen[:3] != [0x5B, 0x60, 0x68], 'cells are seen from afar'


def drag_by(page, css, across, down, at=(0.5, 0.5)):
    """Drags a thing by so many pixels."""
    box = page.find(css).rect
    start = [int(box['x'] + box['width'] * at[0]), int(box['y'] + box['height'] * at[1])]
    page.drag_points([start, [start[0] + across, start[1] + down]])


def test_scroll_bars():
    """Bars stand where not all of the map is seen; a drag of one moves the view, and a press beside
    its handle by what is seen. They draw nothing."""
    with Bench() as page:
        assert not page.find('#scroll-x').is_displayed()
        page.ctrl('0')
        for _ in range(4):
            page.keys('+')
        x, y, _ = view_of(page)
        assert page.find('#scroll-x').is_displayed() and page.find('#scroll-y').is_displayed()
        drag_by(page, '#scroll-x .handle', 30, 0)
        moved = view_of(page)
        assert moved[0] < x - 30 and moved[1] == y
        drag_by(page, '#scroll-y .handle', 0, -20)
        assert view_of(page)[1] > y + 20 and view_of(page)[0] == moved[0]
        y = view_of(page)[1]
        drag_by(page, '#scroll-y', 0, 0, at=(0.5, 0.99))
        assert view_of(page)[1] < y
        assert standing(page) == (0, 0) and spelled(page) == []


def test_mini_map():
    """The whole map stands in small where not all is seen; a press shows the part around it; it has
    the map's colours, and goes by its key."""
    with Bench() as page:
        assert not page.find('#mini-map').is_displayed()
        page.ctrl('0')
        for _ in range(4):
            page.keys('+')
        page.wait(lambda: page.find('#mini-map').is_displayed(), 'the map in small')
        box = page.find('#mini-map').rect
        place = [int(box['x'] + box['width'] * 0.3), int(box['y'] + box['height'] * 0.6)]
        page.drag_points([place])
        (wide, high), (x, y, scale) = size_of_canvas(page), view_of(page)
        middle = (wide / 2 - x) / scale, (high / 2 - y) / scale
        assert abs(middle[0] - 0.3 * 640) < 8 and abs(middle[1] - 0.6 * 480) < 8, middle
        assert standing(page) == (0, 0)
        lake = page.js(
            'const pen = document.getElementById("mini-map").getContext("2d");'
            'return [...pen.getImageData(...arguments, 1, 1).data]',
            int(box['width'] * 33 / 40),
            int(box['height'] * 20 / 30),
        )
        assert lake[2] > lake[0] + 40, f'the lake is blue: {lake}'
        page.keys('m')
        assert not page.find('#mini-map').is_displayed()
        page.click('#turn-mini-map')
        assert page.find('#mini-map').is_displayed()


def test_sharp():
    """On screens of other scales each pixel of the canvas is one of the screen, so that tiles are
    as sharp as their images."""
    for ratio in (1.25, 1.5):
        driver = started(f'--force-device-scale-factor={ratio}')
        try:
            page = Page(driver, PAGE.as_uri())
            page.open()
            names = ('tiles.tsx', 'tiles.png', 'flips.tmj')
            page.choose_files(*(EXAMPLE_MAPS / name for name in names))
            show_at(page, 2, 20, 20)
            page.ctrl('g')
            see_sharp(page, ratio)
        finally:
            driver.quit()
        passed()


def see_sharp(page, ratio):
    """Sees that a part of the screen is the canvas, pixel by pixel."""
    box = page.js(
        'const box = roskevad.view.canvas.getBoundingClientRect();'
        'return [box.left, box.top, box.width, box.height]'
    )
    wide, high = size_of_canvas(page)
    assert abs(wide - box[2] * ratio) <= 1 and abs(high - box[3] * ratio) <= 1, (wide, high, box)
    places = [(20 + 4 * x, 20 + 5 * y + y % 2) for x in range(12) for y in range(12)]
    picture = base64.b64decode(page.driver.get_screenshot_as_base64())
    left, top = round(box[0] * ratio), round(box[1] * ratio)
    shown = pixels(page.driver, picture, [(left + x, top + y) for x, y in places])
    data = drawn_at(page, 0, 0, 100)
    drawn = [tuple(data[4 * (100 * y + x) :][:4]) for x, y in places]
    assert drawn == shown and len(set(shown)) > 3, ratio


def touch(page, kind, *points):
    """Has fingers touch the screen at these points of the window."""
    touched = [{'x': x, 'y': y, 'id': at} for at, (x, y) in enumerate(points)]
    page.driver.execute_cdp_cmd('Input.dispatchTouchEvent', {'type': kind, 'touchPoints': touched})


def test_fingers():
    """Two fingers change the scale and move the map, and draw nothing; one finger draws, by a touch
    or by a drag."""
    with Bench() as page:
        ground = choose(page, 'Ground')
        take_tile(page, (3, 1))
        scale = view_of(page)[2]
        left, top = page.point((20, 15))
        touch(page, 'touchStart', (left, top))
        touch(page, 'touchStart', (left, top), (left + 40, top))
        touch(page, 'touchMove', (left - 20, top), (left + 60, top))
        page.settle()
        x, y, larger = view_of(page)
        assert abs(larger / scale - 2) < 0.05, larger
        touch(page, 'touchMove', (left - 10, top + 30), (left + 70, top + 30))
        page.settle()
        moved = view_of(page)
        assert abs(moved[0] - x - 10) < 2 and abs(moved[1] - y - 30) < 2, (x, y, moved)
        touch(page, 'touchEnd')
        page.settle()
        assert standing(page) == (0, 0) and view_of(page) == moved
        touch(page, 'touchStart', page.point((20, 14)))
        touch(page, 'touchEnd')
        page.settle()
        assert spelled(page) == [f'stamp {ground} 20 14 1 12']
        touch(page, 'touchStart', page.point((17, 13)))
        touch(page, 'touchMove', page.point((18, 13)))
        touch(page, 'touchMove', page.point((19, 13)))
        touch(page, 'touchEnd')
        page.settle()
        assert standing(page) == (2, 2) and cell(page, ground, 18, 13) == 12


def test_texts_and_words():
    """A text object is drawn in its colour within its box; what is not drawn as Tiled does is said
    in the bar below the map."""
    bench = Bench(empty=True)
    with bench as page:
        folder = put_tiles(Path(bench.top.name) / 'texts')
        text = {'text': 'Inn Inn Inn', 'color': '#ff0000', 'pixelsize': 20, 'bold': True}
        text['wrap'] = True
        label = {'id': 1, 'name': '', 'type': '', 'rotation': 0, 'visible': True, 'text': text}
        label.update(x=16, y=16, width=60, height=60)
        things = {'type': 'objectgroup', 'id': 2, 'name': 'Things', 'visible': True, 'opacity': 1}
        things.update(x=0, y=0, draworder='topdown', objects=[label])
        layers = [tile_layer(1, 8, 6, [0] * 48, parallaxx=0.5), things]
        show(page, put(folder / 'texts.tmj', map_of(layers, 8, 6)))
        show_at(page, 1, 0, 0)
        data = drawn_at(page, 0, 0, 96)
        places = [at for at in range(0, len(data), 4) if data[at : at + 3] == [255, 0, 0]]
        red = {(at // 4 % 96, at // 4 // 96) for at in places}
        assert len(red) > 100 and all(16 <= x < 76 and 16 <= y < 76 for x, y in red), len(red)
        assert max(y for _, y in red) > 40, 'the text goes on below its first line'
        told = page.find('#undrawn-features').text
        assert all(word in told for word in ('parallax', 'texts', 'animations')), told
        image = {'type': 'imagelayer', 'id': 1, 'name': 'I', 'visible': True, 'opacity': 1}
        image.update(x=0, y=0, image='none.png')
        put(folder / 'image.tmj', map_of([image], 8, 6))
        page.choose_files(folder / 'image.tmj')
        page.wait(lambda: 'none.png' in page.find('#undrawn-features').text, 'the image is named')
