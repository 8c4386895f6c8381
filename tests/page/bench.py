# SPDX-License-Identifier: MIT OR Apache-2.0
"""The page over a copy of the example maps, what is asked of its editor, and the colours that the page
must show by the images of the tilesets. The state is looked at by lines, and what is seen by its
pixels."""
import base64
import json
import shutil
import subprocess
import tempfile
from pathlib import Path
from xml.etree import ElementTree

from lib.maps import cells_of, layers_in
from lib.places import BIN, EXAMPLE_MAPS, TOP
from page.browser import DOWNLOADS, Page, Server, browser, pixels

PAGE = TOP / 'python' / 'roskevad' / 'page' / 'roskevad.html'
TILE_KINDS = ('.tsx', '.tsj', '.png')
FLIPS = (0x80000000, 0x40000000, 0x20000000)
# What stands behind the map.
GROUND = (0x5B, 0x60, 0x68)


class Bench:
    """The page over a copy of the example maps, with the town or other maps open: the one file, for
    which all files of the copy are chosen, or, if `served`, what `./tile_page` serves. Behind the
    test the browser may have logged no error."""

    def __init__(self, *files, limit=None, empty=False, served=False, has_log=True):
        self.top = tempfile.TemporaryDirectory()
        self.folder = Path(self.top.name) / 'maps'
        shutil.copytree(EXAMPLE_MAPS, self.folder)
        self.options = [] if limit is None else ['--limit', str(limit)]
        self.names = [] if empty else files or ('town.tmj',)
        browser().get_log('browser')
        self.server = None
        if served:
            self.server = self.serve()
            self.page = Page(browser(), self.server.address)
            self.page.clear(f'{self.server.address.split("?")[0]}files')
        else:
            self.page = Page(browser(), PAGE.as_uri())
            blank = Path(self.top.name) / 'blank.html'
            blank.write_text('<!doctype html>')
            self.page.clear(blank.as_uri())
        self.page.has_log = has_log
        browser().get_log('browser')
        self.page.open()
        if not served:
            self.choose()

    def serve(self, *words):
        names = [str(self.folder / name) for name in self.names]
        return Server(self.folder, *self.options, *words, *names)

    def choose(self):
        """Chooses the files: those that are no maps, and the maps that are opened. The others are
        there to be opened."""
        paths = [path for path in sorted(self.folder.iterdir()) if path.suffix in TILE_KINDS]
        others = [path for path in self.folder.glob('*.tmj') if path.name not in self.names]
        self.page.js(
            'roskevad.editor.place.take(arguments[0].map(([path, text]) => ({path, bytes: new TextEncoder().encode(text)})))',
            [[path.name, path.read_text()] for path in others],
        )
        self.page.choose_files(*paths, *(self.folder / name for name in self.names))

    def saved(self, name):
        """The bytes of a map that the page has saved, in the folder or among the downloads."""
        if self.server is not None:
            return (self.folder / name).read_bytes()
        self.page.wait(lambda: (DOWNLOADS / name).exists(), f'{name} is downloaded')
        data = (DOWNLOADS / name).read_bytes()
        (DOWNLOADS / name).unlink()
        return data

    def __enter__(self):
        return self.page

    def __exit__(self, kind, *_):
        errors = self.page.log()
        self.page.driver.get('about:blank')
        if self.server is not None:
            self.server.end()
        self.top.cleanup()
        assert kind or not errors, f'the browser has logged {errors}'


def played(bench, session, before, *options):
    """The folder behind a session that `tile_editor` plays over files as they were."""
    folder = Path(bench.top.name) / 'played'
    shutil.copytree(before, folder)
    done = subprocess.run(
        [BIN / 'tile_editor', '--all-maps', '--folder', folder, *options, *bench.options],
        input=session,
        capture_output=True,
        timeout=60,
    )
    assert done.returncode == 0 and b'\nno ' not in b'\n' + done.stdout, done.stdout[-300:]
    return folder


# ---- what the map has


def layer_of(page, name):
    return next(layer for layer in layers_in(page.editor.map()['layers']) if layer['name'] == name)


def choose(page, name):
    """Clicks at a layer, and gives its id."""
    number = layer_of(page, name)['id']
    page.click(f'#layers li[data-layer="{number}"] .name')
    return number


def cell(page, layer, x, y):
    return int(page.editor.lines(f'tile {layer} {x} {y}')[0].split(' ')[1])


def cells_with(page, name, value):
    data, width = layer_of(page, name)['data'], page.editor.map()['width']
    return {(at % width, at // width) for at, each in enumerate(data) if each == value}


def take_tile(page, place):
    """Clicks at a tile of the palette, by its column and row."""
    point = page.js(
        'const box = document.getElementById("palette").getBoundingClientRect(), {palette} = roskevad;'
        'return [box.left, box.top].map((from, axis) => Math.floor(from + arguments[0][axis] * palette.pitch + palette.side / 2))',
        place,
    )
    page.drag_points([point])


def draw(page, row=20):
    """A stroke over the ground of the town."""
    choose(page, 'Ground')
    take_tile(page, (3, 1))
    page.drag([(3, row), (6, row)])


def focus(page):
    """The window gets the focus, as when its user comes back from another one."""
    page.js('dispatchEvent(new Event("focus"))')
    page.wait(lambda: not page.js('return roskevad.documents.outside.isLooking'), 'it has looked')
    page.settle()


def spelled(page):
    """The lines of the session so far, without the first one and what is said before it."""
    return [line for line in page.editor.session().decode().splitlines() if not line.startswith('#')][1:]


def standing(page):
    state = page.editor.state()
    return state['index'], state['count']


def object_of(page, number):
    return next(
        each
        for layer in layers_in(page.editor.map()['layers'])
        for each in layer.get('objects', ())
        if each['id'] == number
    )


# ---- pixels


def visible_layers(layers, is_seen=True, right=0, down=0):
    """The tile layers that are seen, each with how many pixels it is moved to the right and down,
    by itself and by its groups."""
    for layer in layers:
        place = (
            is_seen and layer['visible'],
            right + layer.get('offsetx', 0),
            down + layer.get('offsety', 0),
        )
        if layer['type'] == 'group':
            yield from visible_layers(layer['layers'], *place)
        elif place[0] and layer['type'] == 'tilelayer':
            yield layer, *place[1:]


def source_pixel(value, across, down, side):
    """The pixel of a tile's image that stands at a pixel of its cell: the flips turned back, the
    last one first."""
    if value & FLIPS[0]:
        across = side - 1 - across
    if value & FLIPS[1]:
        down = side - 1 - down
    return (down, across) if value & FLIPS[2] else (across, down)


class Tiles:
    """The tilesets of a map, read by this script, and the pixels of their images, unpacked by the
    browser once each."""

    images = {}

    def __init__(self, page, town):
        self.sets = []
        for each in town['tilesets']:
            columns, image, width, height = each_image(each)
            if image not in self.images:
                points = [(x, y) for y in range(height) for x in range(width)]
                self.images[image] = pixels(
                    page.driver, (EXAMPLE_MAPS / image).read_bytes(), points
                )
            self.sets.append((each['firstgid'], columns, width, self.images[image]))

    def colour(self, value, across, down, side=16):
        """Red, green, blue and alpha at a pixel of a cell that has this value."""
        across, down = source_pixel(value, across, down, side)
        first, columns, width, seen = max(
            each for each in self.sets if each[0] <= value & 0x0FFFFFFF
        )
        tile = (value & 0x0FFFFFFF) - first
        return seen[(tile // columns * side + down) * width + tile % columns * side + across]


def each_image(tileset):
    """The columns of a tileset, its image, and how wide and high that is."""
    source = tileset.get('source', '')
    if source.endswith('.tsx'):
        root = ElementTree.parse(EXAMPLE_MAPS / source).getroot()
        image = root.find('image')
        return (
            int(root.get('columns')),
            image.get('source'),
            int(image.get('width')),
            int(image.get('height')),
        )
    told = json.loads((EXAMPLE_MAPS / source).read_text()) if source else tileset
    return told['columns'], told['image'], told['imagewidth'], told['imageheight']


def wanted_colour(town, place, pixel, tiles):
    """The colour that a map has at a pixel of a cell: of its highest tile that is not clear
    there."""
    colour, side = GROUND, 16
    for layer, right, below in visible_layers(town['layers']):
        (column, across), (row, down) = (
            divmod(place[at] * side + pixel[at] - moved, side)
            for at, moved in ((0, right), (1, below))
        )
        is_inside = 0 <= column < town['width'] and 0 <= row < town['height']
        value = cells_of(layer)[row * town['width'] + column] if is_inside else 0
        seen = tiles.colour(value, across, down) if value else (0, 0, 0, 0)
        if seen[3] == 255:
            colour = seen[:3]
    return colour


def see_colours(page, places, pixel=(5, 9)):
    """Looks at a pixel in each of these cells, on the screen and in the tilesets' images."""
    places, town = list(places), page.editor.map()
    tiles = Tiles(page, town)
    for place, shown in zip(places, page.colours(page.places(places, pixel))):
        wanted = wanted_colour(town, place, pixel, tiles)
        assert shown == wanted, (place, shown, wanted)


def free_places(town, step=1):
    """Cells that no object and no name covers."""
    boxes = [
        (o['x'] - 24, o['y'] - 48, o['x'] + o['width'] + 96, o['y'] + o['height'] + 24)
        for layer in layers_in(town['layers'])
        for o in layer.get('objects', ())
    ]
    for at in range(0, town['width'] * town['height'], step):
        x, y = at % town['width'], at // town['width']
        if not any(
            left <= x * 16 + 8 <= right and top <= y * 16 + 8 <= bottom
            for left, top, right, bottom in boxes
        ):
            yield x, y


def middle_of(page, number):
    code = '''const view = roskevad.view, {object} = roskevad.editor.map.object(arguments[0]), frame = view.box.getBoundingClientRect();
              const top = object.gid ? -object.height / 2 : object.height / 2;
              return [frame.left + view.originX + (object.x + object.width / 2) * view.scale, frame.top + view.originY + (object.y + top) * view.scale]'''
    return [int(each) for each in page.js(code, number)]


def corner_of(page):
    """Where the map begins in the window, and its scale."""
    code = '''const view = roskevad.view, frame = view.box.getBoundingClientRect();
              return [frame.left + view.originX, frame.top + view.originY, view.scale]'''
    return page.js(code)


def points_at(page, places):
    """Where these pixels of the map are in the window."""
    left, top, scale = corner_of(page)
    return [(int(left + x * scale), int(top + y * scale)) for x, y in places]


def colours_now(page, points):
    """The colours that are seen while the hand stays where it is."""
    data = base64.b64decode(page.driver.get_screenshot_as_base64())
    return [each[:3] for each in pixels(page.driver, data, points)]
