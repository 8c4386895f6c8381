# SPDX-License-Identifier: MIT OR Apache-2.0
"""Draws past the edges of infinite maps on the page in Chromium: they grow by whole chunks, in one step with what is
drawn, and all that is seen stays where it is, objects of maps of each orientation too, which stand where Tiled has them;
chunks that stay empty are not saved; past its limits a map grows no farther, and says so."""
import json
import shutil
import tempfile
from pathlib import Path

from lib.cases import Case, check_each, unlike
from lib.maps import layers_in
from lib.places import EXAMPLE_MAPS
from page.bench import Bench, choose, colours_now, layer_of, see_colours, spelled, standing
from page.browser import ActionChains, Keys
from page.planes import Plane, chunk, infinite
from page.tiled_pictures import compared

NEEDS_BROWSER = True
PACKAGES = ('tiled',)
IS_LONG = True
TILE = 12


def size(page):
    told = page.editor.map()
    return told['width'], told['height']


def plane_of(told, number=1):
    """The cells of a layer of a saved map that are not empty, on the plane."""
    layer = next(each for each in layers_in(told['layers']) if each['id'] == number)
    return {(c['x'] + at % c['width'], c['y'] + at // c['width']): value for c in layer['chunks'] for at, value in enumerate(c['data']) if value}


def places(told, number=1):
    layer = next(each for each in layers_in(told['layers']) if each['id'] == number)
    return sorted((c['x'], c['y'], c['width'], c['height']) for c in layer['chunks'])


def seen(page, *cells):
    return [page.point(each) for each in cells]


def test_to_the_right_and_down():
    """A stroke past the right edge, and one past the lower one, each make the map larger by a chunk; each is one step with
    what is drawn, on both sides of the edge. Nothing moves, and only the chunks that were drawn on are saved."""
    plane = Plane(infinite(chunk(0, 0)))
    with plane as page:
        assert '16 × 16, infinite' in page.find('#properties').text
        before, corner = page.editor.map(), seen(page, (0, 0))
        page.drag([(14, 3), (16, 3), (17, 3)])
        assert size(page) == (32, 16) and standing(page) == (1, 1) and page.editor.state()['depth'] == 0
        assert seen(page, (0, 0)) == corner and page.texts('#steps li .name')[-1] == 'Stamp'
        assert [line for line in spelled(page) if line.startswith('extend')] == ['extend 0 0 16 0'] and page.notices() == []
        page.drag([(20, 15), (20, 18)])
        assert size(page) == (32, 32) and standing(page) == (2, 2)
        # A stroke that stays in the map is a plain step.
        page.drag([(1, 1), (2, 1)])
        assert page.texts('#steps li .name')[-1] == 'Stamp · Tiles 1' and standing(page) == (3, 3)
        told = plane.saved(page)
        drawn = {(x, 3) for x in range(14, 18)} | {(20, y) for y in range(15, 19)} | {(1, 1), (2, 1)}
        assert plane_of(told) == {**{(x, y): 3 for x in range(16) for y in range(16)}, **dict.fromkeys(drawn, TILE)}
        assert places(told) == [(0, 0, 16, 16), (16, 0, 16, 16), (16, 16, 16, 16)]
        assert told['layers'][-1]['objects'][0]['x'] == 40
        for _ in range(3):
            page.ctrl('z')
        assert page.editor.map() == before and seen(page, (0, 0)) == corner


def test_to_the_left_and_up():
    """Before the first column and row, too: what is seen stays where it is, behind an undo and a redo as well. So it is in
    the file, on its plane: what is drawn there has places below 0, and nothing is told."""
    plane = Plane(infinite(chunk(0, 0)))
    with plane as page:
        before, corner = page.editor.map(), seen(page, (0, 0))
        page.drag([(1, 3), (-2, 3)])
        assert size(page) == (32, 16) and standing(page) == (1, 1) and seen(page, (16, 0)) == corner
        assert page.notices() == []
        page.drag([(20, -1)])
        assert size(page) == (32, 32) and seen(page, (16, 16)) == corner and page.notices() == []
        see_colours(page, [(13, 19), (14, 19), (16, 19), (17, 19), (18, 19), (20, 15), (28, 28), (31, 31)])
        saved = plane.saved(page)
        drawn = {(x, 3) for x in range(-2, 2)} | {(4, -1)}
        assert plane_of(saved) == {**{(x, y): 3 for x in range(16) for y in range(16)}, **dict.fromkeys(drawn, TILE)}
        assert places(saved) == [(-16, 0, 16, 16), (0, -16, 16, 16), (0, 0, 16, 16)]
        assert (saved['layers'][-1]['objects'][0]['x'], saved['layers'][-1]['objects'][0]['y']) == (40, 24)
        page.ctrl('z')
        assert seen(page, (16, 0)) == corner
        page.ctrl('z')
        assert seen(page, (0, 0)) == corner and page.editor.map() == before
        page.ctrl('y')
        assert seen(page, (16, 0)) == corner and size(page) == (32, 16)


def test_objects_at_fractions():
    """Objects at fractions of a pixel keep these where a map grows before its first column and row."""
    told = infinite(chunk(0, 0))
    told['layers'][-1]['objects'][0].update(x=40.5, y=24)
    plane = Plane(told)
    with plane as page:
        page.drag([(-1, -1)])
        assert page.notices() == []
        saved = plane.saved(page)['layers'][-1]['objects'][0]
        assert (saved['x'], saved['y']) == (40.5, 24)
        page.ctrl('z')
        assert page.js('return roskevad.editor.map.object(1).object.x') == 40.5


# Maps whose objects do not count by cells, with what says how their cells lie.
OTHERS = {
    'isometric': {}, 'staggered': {'staggeraxis': 'y', 'staggerindex': 'odd'}, 'hexagonal': {'staggeraxis': 'x', 'staggerindex': 'odd', 'hexsidelength': 8},
}


def with_a_tile(kind, *chunks):
    """An infinite map of a kind, with an object that is a tile."""
    told = infinite(*chunks, orientation=kind, **OTHERS[kind])
    told['layers'][-1]['objects'][0].update(gid=30, name='', x=80, y=64)
    return told


def around_object(page):
    """Points of the screen around the object, and their colours."""
    left, top = page.js('const {view, bench} = roskevad, {x, y} = bench.map.object(1).object, box = view.box.getBoundingClientRect();'
                        'const at = view.map.projection.place(x, y);'
                        'return [box.left + view.originX + at[0], box.top + view.originY + at[1]]')
    points = [(round(left) + x, round(top) - y) for x in range(-6, 20, 3) for y in range(-3, 20, 3)]
    return points, page.colours(points)


def test_objects_of_other_maps():
    """On isometric, staggered and hexagonal maps, too, an object stays beside its cells where a map grows to the left and up, and behind an
    undo."""
    def fault_of(case):
        with Plane(with_a_tile(case.name, chunk(0, 0))) as page:
            choose(page, 'Tiles 1')
            points, before = around_object(page)
            assert len(set(before)) > 3
            page.drag([(0, 0), (-1, -1)])
            grown = size(page), page.colours(points), around_object(page)[0]
            page.ctrl('z')
            return unlike(((32, 32), before, points), grown) or unlike(((16, 16), before), (size(page), page.colours(points)))

    check_each([Case(kind, None, None) for kind in OTHERS], fault_of)


def test_objects_of_other_maps_as_opened():
    """Where the first chunk lies before cell 0, 0 of the plane, an object stands where Tiled draws it."""
    def fault_of(case):
        with Bench(empty=True) as page, tempfile.TemporaryDirectory() as top:
            for name in ('tiles.png', 'tiles.tsx'):
                shutil.copy(EXAMPLE_MAPS / name, top)
            path = Path(top) / 'plane.tmj'
            path.write_text(json.dumps(with_a_tile(case.name, chunk(0, 0), chunk(-16, -16))))
            return unlike(0, compared(page, path)['count'])

    check_each([Case(kind, None, None) for kind in OTHERS if kind != 'isometric'], fault_of)


def test_image_layers():
    """The picture of an image layer stays where it is, too, before the first column and row, behind an undo, and as the map is opened."""
    told = infinite(chunk(0, 0))
    told['layers'].append({'type': 'imagelayer', 'id': 3, 'name': 'Mist', 'image': 'tiles.png', 'opacity': 1, 'visible': True, 'x': 0, 'y': 0,
                           'offsetx': 32, 'offsety': 48})
    told['nextlayerid'] = 4
    with Plane(told) as page:
        choose(page, 'Tiles 1')
        points = seen(page, *((x, y) for x in range(3, 9) for y in range(4, 7)))
        before = page.colours(points)
        assert len(set(before)) > 3
        page.drag([(0, 0), (-1, -1)])
        assert size(page) == (32, 32) and page.colours(points) == before
        page.ctrl('z')
        assert size(page) == (16, 16) and page.colours(points) == before
    told['layers'][0]['chunks'].append(chunk(-16, -16))
    with Plane(told) as page:
        page.js('roskevad.view.panBy(-256, -256)')
        page.settle()
        assert page.colours(seen(page, *((x, y) for x in range(19, 25) for y in range(20, 23)))) == before


def test_all_sides_at_once():
    """A rectangle over all four edges makes one step, with one line for all sides; so does a stamp of several tiles, as what
    is pasted."""
    with Plane(infinite(chunk(0, 0, 4, 4), size=(8, 4))) as page:
        assert size(page) == (4, 4)
        page.keys('p')
        page.drag([(-1, -1), (8, 5)])
        # Chunks of 8 by 4 on their multiples of the plane.
        assert [line for line in spelled(page) if line.startswith('extend')] == ['extend 8 4 12 4'] and size(page) == (24, 12)
        assert standing(page) == (1, 1) and page.editor.map()['layers'][0]['data'].count(TILE) == 10 * 7
        page.keys('r')
        page.drag([(7, 3), (9, 5)])
        page.ctrl('c')
        page.ctrl('v')
        page.drag([(24, 11)])
        assert standing(page)[0] == standing(page)[1] and size(page) == (32, 16)
    # Where the corner lies within a chunk of the plane, the map grows up to the chunk's edge at each side.
    with Plane(infinite(chunk(-4, -2, 4, 4), size=(8, 8))) as page:
        page.keys('p')
        page.drag([(-1, -1), (5, 0)])
        assert [line for line in spelled(page) if line.startswith('extend')] == ['extend 4 6 8 0'] and size(page) == (16, 10)


def test_before_it_grows():
    """What would be drawn past an edge is shown there before, under the brush and while a rectangle is dragged; the map grows
    behind that."""
    with Plane(infinite(chunk(0, 0))) as page:
        page.keys('p')
        page.hold_cells([(10, 10), (12, 12), (19, 18)])
        looks = [[x, y + 3] for x, y in (page.point(each) for each in ((12, 12), (18, 12), (12, 17), (30, 30)))]
        inside, right, below, beside = colours_now(page, looks)
        assert right == below and right not in (beside, inside) and size(page) == (16, 16) and spelled(page) == []
        page.let_go()
        assert size(page) == (32, 32)


def test_escape():
    """Escape in a stroke takes back what the map has grown, too."""
    with Plane(infinite(chunk(0, 0))) as page:
        before, corner = page.editor.map(), seen(page, (0, 0))
        page.hold_cells([(14, 3), (16, 3), (18, 3)])
        page.driver.switch_to.active_element.send_keys(Keys.ESCAPE)
        page.let_go()
        assert page.editor.map() == before and page.editor.state()['depth'] == 0 and seen(page, (0, 0)) == corner
        # In a macro that is open it is an edit of that.
        page.click('#macro')
        page.drag([(15, 3), (16, 3)])
        page.click('#macro')
        assert standing(page) == (1, 1) and size(page) == (32, 16)
        # With the eraser, by a fill, and where cells are selected, nothing grows.
        page.keys('f')
        page.drag([(5, -2)])
        assert page.bubble() == 'A fill ends where the map does: the brush makes it larger.'
        page.keys('e')
        page.drag([(5, 0), (5, -2)])
        page.keys('r')
        page.drag([(1, 1), (2, 2)])
        page.keys('b')
        page.drag([(5, 0), (5, -2)])
        assert size(page) == (32, 16)


def test_past_the_limits():
    """A map grows up to 4,096 columns and rows and 1,048,576 cells: past that it says so and draws nothing there. A finite map
    does not grow."""
    with Plane(infinite(chunk(0, 0), chunk(1008, 1008))) as page:
        assert size(page) == (1024, 1024)
        page.drag([(-1, 3)])
        assert page.bubble() == 'The map cannot grow there: it has at most 1,048,576 cells, and has 1024 × 1024.'
        assert spelled(page) == [] and size(page) == (1024, 1024)
    with Bench() as page:
        choose(page, 'Ground')
        page.js('roskevad.view.pan(60, 0)')
        page.settle()
        before = page.editor.map()
        page.drag([(-1, 3)])
        assert page.bubble() == 'This is outside the map.' and page.editor.map() == before


def test_by_keys():
    """On an infinite map the cell of the keys goes past the edges, and Enter draws there."""
    with Plane(infinite(chunk(0, 0))) as page:
        page.js('roskevad.view.box.focus()')
        corner = seen(page, (0, 0))
        for held, key in ((Keys.SHIFT, Keys.ARROW_RIGHT), (Keys.SHIFT, Keys.ARROW_UP)):
            ActionChains(page.driver).key_down(held).send_keys(key).key_up(held).perform()
        ActionChains(page.driver).send_keys(Keys.ENTER, Keys.ARROW_LEFT, Keys.ENTER).perform()
        page.settle()
        assert size(page) == (32, 32) and seen(page, (0, 16)) == corner and standing(page) == (2, 2)
        data = page.editor.map()['layers'][0]['data']
        drawn = {(at % 32, at // 32 - 16) for at, value in enumerate(data) if value == TILE}
        assert len(drawn) == 2 and max(y for _, y in drawn) < 0 and min(x for x, _ in drawn) >= 16, drawn


def places_of(page):
    """Columns and rows by which the old map goes, in the dialog for another size."""
    return [page.find(f'dialog [name={name}]').get_attribute('value') for name in ('right', 'down')]


def test_another_size():
    """The dialog for another size has nine places for the old map, a picture, and words of what comes and what is cut off.
    Another size keeps the place; a number that is typed is none of the nine."""
    with Bench() as page:
        page.click('#resize')
        assert page.texts('#old-map-place .hint') == ['The size stays as it is.']
        buttons = page.js('return [...document.querySelectorAll("#old-map-place .places button")].map(each => each.ariaLabel)')
        assert buttons[0] == 'Upper left' and buttons[4] == 'In the middle' and buttons[8] == 'Lower right' and len(buttons) == 9
        for name, value in (('width', '46'), ('height', '25')):
            page.find(f'dialog [name={name}]').clear()
            page.find(f'dialog [name={name}]').send_keys(value)
        assert places_of(page) == ['0', '0'] and page.texts('#old-map-place .hint') == ['Adds 6 columns at the right. Cuts off 5 rows below.']
        page.click('#old-map-place button[aria-label="In the middle"]')
        assert places_of(page) == ['3', '-3'] and page.find('#old-map-place .on').get_attribute('title') == 'In the middle'
        told = 'Adds 3 columns at the left, 3 columns at the right. Cuts off 3 rows above, 2 rows below.'
        assert page.texts('#old-map-place .hint') == [told] and page.find('#old-map-place svg').get_attribute('aria-label') == told
        boxes = page.js('return ["kept", "new"].map(name => document.querySelector(`#old-map-place .${name}`).getBBox()).map(b => [b.x, b.y, b.width, b.height])')
        scale = boxes[1][2] / 46
        assert [round(side / scale) for side in (boxes[0][0] - boxes[1][0], boxes[0][1] - boxes[1][1], *boxes[0][2:])] == [3, 0, 40, 25]
        page.click('#old-map-place button[aria-label="Lower right"]')
        assert places_of(page) == ['6', '-5']
        page.fill_in(right='1')
        assert spelled(page) == ['resize 46 25 1 -5'] and layer_of(page, 'Ground')['width'] == 46
