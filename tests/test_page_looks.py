# SPDX-License-Identifier: MIT OR Apache-2.0
"""Looks at what the page to draw on shows, by its pixels in Chromium: the example maps as their
tilesets have them, hidden layers, flips, tiles of other sizes than a cell as Tiled draws them, the
grid, the selection, objects and their names, and the palette."""
import json

from lib.cases import passed
from page import tiles
from page.bench import (
    Bench,
    GROUND,
    Tiles,
    choose,
    colours_now,
    corner_of,
    free_places,
    layer_of,
    middle_of,
    object_of,
    points_at,
    see_colours,
    spelled,
    standing,
)
from page.browser import ActionChains, pixels

NEEDS_BROWSER = True
IS_LONG = True
# The colour of the object that is chosen.
CHOSEN = (0xFF, 0xD3, 0x4D)


def test_seen():
    """The town is drawn as its tilesets have it; a hidden layer goes, and so does a group; all
    comes back."""
    with Bench() as page:
        places = list(free_places(page.editor.map(), 3))
        see_colours(page, places)
        ground = choose(page, 'Ground')
        page.click(f'#layers li[data-layer="{ground}"] .eye')
        assert spelled(page) == [f'layer show {ground} no']
        see_colours(page, places)
        page.ctrl('z')
        page.click(f'#layers li[data-layer="{layer_of(page, "Houses")["id"]}"] .eye')
        see_colours(page, places)
        page.ctrl('z')
        see_colours(page, places[::5])
        passed(len(places))


def test_flips():
    """The eight flips of a tile, at three pixels each, as Tiled draws them."""
    with Bench('flips.tmj') as page:
        for pixel in ((5, 9), (2, 3), (13, 6)):
            see_colours(page, [(x, 0) for x in range(8)], pixel)


def test_tilesets():
    """The example maps, with tilesets in `.tsx` and `.tsj` files and in the map, with cells in
    base64, and with groups."""
    names = (
        'two_tilesets.tmj',
        'house.tmj',
        'base64.tmj',
        'groups.tmj',
        'town.tmj',
    )
    with Bench(*names) as page:
        for name in names:
            page.click(f'.tab[data-document="{name[:-4]}"]')
            places = [
                place
                for place in free_places(page.editor.map())
                if name != 'town.tmj' or place[0] % 4 == 0
            ]
            assert places
            for pixel in ((5, 9), (12, 3)):
                see_colours(page, places, pixel)


def test_colours_without_image():
    """A tileset that is not in the folder: each tile has a colour of its own."""
    with Bench(empty=True) as page:
        page.say('new bare 6 4 16 16 none.tsj')
        page.say('stamp 1 0 0 3 1,2,3')
        shown = page.colours(page.places([(x, 0) for x in range(4)], (1, 1)))
        assert len(set(shown)) == 4, shown
        across = page.colours([page.places([(1, 0)], (4 + at / 4, 8))[0] for at in range(32)])
        assert len(set(across)) > 1, 'the number stands in the tile'


def test_grid():
    """The grid darkens the edges of the cells, and goes by its key and comes by its button."""
    with Bench() as page:
        points = points_at(
            page, [(16 * x, 16 * y + 8) for x, y in ((3, 20), (9, 21), (20, 4), (30, 27))]
        )
        seen = page.colours(points)
        page.ctrl('g')
        bare = page.colours(points)
        assert all(sum(one) < sum(other) for one, other in zip(seen, bare)), (seen, bare)
        page.click('#grid')
        assert page.colours(points) == seen


def test_selection_seen():
    """Cells that are selected are seen in another colour, and no other cells are."""
    with Bench() as page:
        inside, outside = [(3, 3), (5, 4)], [(2, 3), (6, 4), (20, 20)]
        points = page.places(inside + outside, (5, 9))
        before = page.colours(points)
        page.keys('r')
        page.drag([(3, 3), (5, 4)])
        after = page.colours(points)
        assert all(before[at] != after[at] for at in (0, 1)) and before[2:] == after[2:], (
            before,
            after,
        )
        page.ctrl('z')
        assert page.colours(points) == before


def frame_of(thing):
    """Points on the left edge of an object's frame and on its name."""
    return [(thing['x'], thing['y'] + thing['height'] // 2), (thing['x'] + 2, thing['y'] - 10)]


def test_objects_seen():
    """An object is a frame with a name; while it is dragged the page draws it where the hand is,
    and sends its one line at the end."""
    with Bench() as page:
        number = next(
            each['id'] for each in layer_of(page, 'Places')['objects'] if each['name'] == 'Inn'
        )
        was, scale = object_of(page, number), corner_of(page)[2]
        points = points_at(
            page, frame_of(was) + frame_of({**was, 'x': was['x'] + 40, 'y': was['y'] + 24})
        )
        shown = page.colours(points)
        page.click(f'#layers li[data-layer="{choose(page, "Places")}"] .eye')
        bare = page.colours(points)
        assert shown[0] != bare[0] and shown[1] != bare[1] and shown[2:] == bare[2:], (shown, bare)
        page.ctrl('z')
        page.click('#tool-objects')
        x, y = middle_of(page, number)
        page.hold([[x, y], [x + 10, y + 3], [x + round(40 * scale), y + round(24 * scale)]])
        way = colours_now(page, points)
        assert way[:2] == bare[:2] and way[2] == CHOSEN and way[3] != bare[3], (way, bare)
        assert [line for line in spelled(page) if line.startswith('object')] == [] and object_of(
            page, number
        ) == was
        page.let_go()
        assert (
            spelled(page)[-1] == f"object move {number} {was['x'] + 40} {was['y'] + 24}"
            and standing(page)[0] == 1
        )
        assert page.colours(points) == way


# How opaque what is drawn over the map is, at places in pixels of the map with a length aside on the screen.
OVER = '''
const {view, overlay} = roskevad;
const at = (origin, place, aside) => Math.floor(origin + place * view.scale + aside);
const alphaAt = ([x, y, right, down]) => overlay.pen.getImageData(at(view.originX, x, right), at(view.originY, y, down), 1, 1).data[3];
return arguments[0].map(alphaAt);'''


def is_drawn(page, *places):
    return [alpha > 0 for alpha in page.js(OVER, [[*place, 0, 0][:4] for place in places])]


def point_at(page, x, y):
    """Moves the hand to a place of the map."""
    chain = ActionChains(page.driver, duration=0)
    chain.w3c_actions.pointer_action.move_to_location(*points_at(page, [(x, y)])[0])
    chain.perform()
    page.settle()


def test_outlines():
    """A tile and a text have a frame where they are chosen, or under the mouse with Objects; other shapes have one
    always, turned as they are, and a point is a pin. Hidden names are seen of the one under the mouse."""
    with Bench() as page:
        page.click('#grid')
        layer = choose(page, 'Places')
        made = [
            {'gid': 12, 'x': 48, 'y': 64, 'width': 32, 'height': 32, 'name': 'tile'},
            {'text': {'text': 'words'}, 'x': 112, 'y': 32, 'width': 32, 'height': 32, 'name': 'text'},
            {'text': {'text': ''}, 'x': 176, 'y': 32, 'width': 32, 'height': 32},
            {'x': 260, 'y': 40, 'width': 32, 'height': 16, 'rotation': 90},
            {'x': 320, 'y': 60, 'point': True, 'width': 0, 'height': 0},
        ]
        page.editor.lines(*[f'object put {layer} {json.dumps(each)}' for each in made])
        tile, text, empty, turned, plain = (48, 48), (112, 48), (176, 48), (260, 56), (276, 40)
        name = (50, 32, 0, -10)
        page.picture()
        for tool in 'bs':
            page.keys(tool)
            assert is_drawn(page, tile, text, empty, turned, plain, name) == [False, False, True, True, False, True], tool
            # Its head is 13 pixels above the point.
            assert is_drawn(page, (320, 60, 0, -13), (320, 60, 0, -1), (320, 60, 6, 0)) == [True, True, False]
        page.keys('n')
        for x, y, wanted in ((64, 48, [True, False, True]), (128, 48, [False, True, False]), (400, 40, [False] * 3)):
            point_at(page, x, y)
            assert is_drawn(page, tile, text, name) == wanted, (x, y)
        page.keys('b')
        point_at(page, 64, 48)
        assert is_drawn(page, tile, name) == [False, False], 'the brush is not about objects'
        page.keys('s')
        page.drag_points(points_at(page, [(64, 48)]))
        page.picture()
        assert is_drawn(page, tile, text, name) == [True, False, True]
        [frame] = page.colours(points_at(page, [tile]))
        assert frame == CHOSEN
        (x, y), = points_at(page, [(320, 60)])
        page.drag_points([(x, y - 13)])
        assert page.texts('#owner') == [f"Object {layer_of(page, 'Places')['objects'][-1]['id']}"], 'a pin is chosen by its head'


def test_palette():
    """The palette has the tiles of the tileset."""
    with Bench() as page:
        tiles = Tiles(page, page.editor.map())
        wanted = {(at % 8, at // 8): tiles.colour(at + 1, 8, 8) for at in range(32)}
        solid = {place: colour[:3] for place, colour in wanted.items() if colour[3] == 255}
        code = 'const pen = document.getElementById("palette").getContext("2d"); return arguments[0].map(([x, y]) => [...pen.getImageData(x, y, 1, 1).data])'
        seen = [
            tuple(each[:3])
            for each in page.js(code, [(33 * x + 17, 33 * y + 17) for x, y in solid])
        ]
        assert seen == list(solid.values()) and len(set(seen)) > 5, [
            each for each in zip(solid, seen, solid.values()) if each[1] != each[2]
        ]


def test_tiles_as_tiled():
    """Each pixel of tiles of other sizes than a cell is the one that Tiled draws."""
    bench = Bench(empty=True)
    with bench as page:
        tiles.put_map(bench.folder)
        page.choose_files(*sorted(bench.folder.glob('*.tsx')), bench.folder / 'sizes.tmj')
        page.js(
            'const {view} = roskevad; view.scale = 1; view.originX = view.originY = 40; view.redraw()'
        )
        page.settle()
        wide, high = tiles.WIDTH * tiles.SIDE, tiles.HEIGHT * tiles.SIDE
        seen = page.js(
            'return [...roskevad.view.pen.getImageData(40, 40, ...arguments).data]', wide, high
        )
        points = [(x, y) for y in range(high) for x in range(wide)]
        wanted = [
            each[:3] if each[3] else GROUND
            for each in pixels(page.driver, tiles.PICTURE.read_bytes(), points)
        ]
        unlike = [
            point
            for at, point in enumerate(points)
            if tuple(seen[4 * at : 4 * at + 3]) != wanted[at]
        ]
        assert not unlike and len(set(wanted)) > 5, unlike[:5]
        passed(len(points))
