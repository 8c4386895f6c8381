# SPDX-License-Identifier: MIT OR Apache-2.0
"""Looks at what the page shows before something is done, by its pixels in Chromium: the tiles under a
rectangle, a line, a fill and a paste, the size beside the hand, the chosen tile in the palette, and
that lines of the palette hide no pixel."""
from lib.cases import passed
from lib.places import EXAMPLE_MAPS
from page.bench import Bench, choose, colours_now, spelled, standing
from page.browser import ActionChains, Keys, pixels

NEEDS_BROWSER = True
LEAST_CONTRAST = 3
PANELS = {'light': (0xF6, 0xF7, 0xF9), 'dark': (0x33, 0x37, 0x3D)}
SAND, WALL, ROOF = 12, 9, 5


def seen_in(page, cells):
    """The colours at two pixels of each cell, none at its edge nor under the hand's words."""
    return [colours_now(page, page.places(cells, pixel)) for pixel in ((5, 9), (12, 4))]


def words(page):
    return page.js('const at = document.getElementById("hand-words"); return at.hidden ? "" : at.textContent')


def take(page, *values, width=1):
    stamp = {'width': width, 'height': len(values) // width, 'values': list(values)}
    page.js('roskevad.bench.takeStamp(arguments[0])', stamp)


def new_map(page):
    """An empty map of 12 by 9 with a wall across it, large on the screen."""
    page.say('new a 12 9 16 16 tiles.tsx')
    page.editor.lines(f'stamp 1 0 5 12 {",".join([str(WALL)] * 12)}')
    page.js('roskevad.editor.tellSoon(); roskevad.overlay.hasGrid = false; roskevad.view.fit()')
    page.settle()


def is_as_done(page, cells, show, do):
    """Whether what `show` has seen in cells is what is seen there behind `do`, but fainter: each
    differs from the ground in the same places."""
    page.hold_cells([(11, 8)], is_pressed=False)
    before = seen_in(page, cells)
    show()
    shown = seen_in(page, cells)
    do()
    page.hold_cells([(11, 8)], is_pressed=False)
    done = seen_in(page, cells)
    for empty, faint, whole in zip(sum(before, []), sum(shown, []), sum(done, [])):
        mixed = [round(0.25 * one + 0.75 * other) for one, other in zip(empty, whole)]
        assert all(abs(one - other) <= 3 for one, other in zip(faint, mixed)), (empty, faint, whole)
    return before != done


def test_rectangle():
    """Under a drag of the rectangle the tiles stand that it leaves, and its size beside the hand."""
    with Bench(empty=True) as page:
        new_map(page)
        page.keys('p')
        take(page, SAND, ROOF, WALL, SAND, width=2)
        inner = [(x, y) for x in (2, 3, 4) for y in (1, 2)]
        assert is_as_done(page, inner, lambda: page.hold_cells([(1, 0), (6, 3)]), lambda: page.let_go())
        page.hold_cells([(1, 0), (6, 3)])
        assert words(page) == '6 × 4'
        page.let_go()
        assert words(page) == '' and standing(page) == (2, 2)
        page.keys('r')
        page.hold_cells([(2, 2), (4, 2)])
        assert words(page) == '3 × 1'
        page.let_go()


def test_fill():
    """The whole region of a fill is seen before the click, with one tile and with a pattern, and how
    many cells it has; the selection cuts it, and behind a line it is looked for anew."""
    with Bench(empty=True) as page:
        new_map(page)
        page.keys('f')
        region = [(0, 0), (11, 0), (4, 4), (11, 4), (2, 2)]
        for stamp in ((SAND,), (SAND, ROOF)):
            take(page, *stamp, width=len(stamp))
            assert is_as_done(page, region, lambda: page.hold_cells([(7, 2)], is_pressed=False), lambda: page.drag([(7, 2)]))
            page.ctrl('z')
        page.hold_cells([(7, 2)], is_pressed=False)
        assert words(page) == '60 cells'
        page.hold_cells([(7, 7)], is_pressed=False)
        assert words(page) == '36 cells'
        page.editor.lines('select replace 3 6 2 2')
        page.hold_cells([(3, 6)], is_pressed=False)
        assert words(page) == '4 cells'
        page.hold_cells([(7, 7)], is_pressed=False)
        assert words(page) == ''


def test_line():
    """A line by Shift is seen with its tiles, also where the hand rests while Shift goes down; so are
    the cells that the eraser would empty."""
    with Bench(empty=True) as page:
        new_map(page)
        page.keys('b')
        take(page, SAND)
        page.drag([(1, 1)])
        line = [(2, 1), (3, 1), (4, 1)]
        show = lambda: page.hold_cells([(6, 1)], Keys.SHIFT, is_pressed=False)
        assert is_as_done(page, line, show, lambda: (page.drag([(6, 1)], Keys.SHIFT), page.let_go(Keys.SHIFT)))
        page.hold_cells([(10, 1)], is_pressed=False)
        before = seen_in(page, [(8, 1)])
        ActionChains(page.driver).key_down(Keys.SHIFT).perform()
        page.settle()
        assert seen_in(page, [(8, 1)]) != before and words(page) == '5 cells long'
        page.let_go(Keys.SHIFT)
        assert seen_in(page, [(8, 1)]) == before


def test_paste():
    """The tiles of a paste are seen where they would be put down, with its size beside the hand."""
    with Bench(empty=True) as page:
        new_map(page)
        page.editor.lines(f'stamp 1 1 1 2 {SAND},{WALL},{ROOF},{SAND}', 'select replace 1 1 2 2')
        page.ctrl('c')
        page.ctrl('v')

        def show():
            page.hold_cells([(7, 3)], is_pressed=False)
            assert words(page) == '2 × 2'

        assert is_as_done(page, [(6, 2), (7, 2), (6, 3), (7, 3)], show, lambda: page.drag([(7, 3)]))
        page.hold_cells([(7, 3)], is_pressed=False)
        assert words(page) == '', 'it is put down'


def test_still_hand():
    """Where the hand rests, another size, another stamp, a turn and a paste are seen at once, however
    large the stamp is. A size for a pattern is none, and that is said."""
    with Bench(empty=True) as page:
        new_map(page)
        page.keys('b')
        take(page, SAND)
        page.hold_cells([(5, 2)], is_pressed=False)
        around = [(4, 2), (6, 2), (5, 1), (5, 3)]
        before = seen_in(page, around)
        page.keys('3', Keys.SHIFT)
        assert all(one != other for one, other in zip(sum(seen_in(page, around), []), sum(before, [])))
        page.keys('1', Keys.SHIFT)
        assert seen_in(page, around) == before
        take(page, SAND, WALL, width=2)
        assert seen_in(page, [(4, 2)]) != seen_in(page, [(3, 2)])
        page.keys('2', Keys.SHIFT)
        assert 'The stamp of 2 × 1 is drawn as it is' in page.bubble()
        page.editor.lines('select replace 0 5 12 1')
        page.ctrl('c')
        page.ctrl('v')
        assert page.js('return roskevad.overlay.hand.cells.slice(2)') == [12, 1] and words(page) == '12 × 1'
        page.js('roskevad.bench.takeStamp({width: 100, height: 100, values: new Array(10_000).fill(arguments[0])})', SAND)
        assert seen_in(page, [(0, 0)]) != seen_in(page, [(0, 5)]) and page.js('return roskevad.overlay.hand.valueAt(0, 0)') == SAND
        assert spelled(page)[-1].startswith('select') and words(page) == '', 'that is no paste'
        page.ctrl('v')
        assert words(page) == '12 × 1'
        page.drag([(5, 2)])
        assert words(page) == '', 'it is put down'


def luminance(colour):
    linear = [each / 255 / 12.92 if each <= 10 else ((each / 255 + 0.055) / 1.055) ** 2.4 for each in colour]
    return 0.2126 * linear[0] + 0.7152 * linear[1] + 0.0722 * linear[2]


def contrast(one, other):
    high, low = sorted((luminance(one), luminance(other)), reverse=True)
    return (high + 0.05) / (low + 0.05)


TILES = '''const {palette} = roskevad, {side} = palette, [x, y] = palette.spotOf(arguments[0]);
return [...palette.pen.getImageData(x, y, side, side).data];'''


def tile_pixels(page, tile):
    data = page.js(TILES, tile)
    return [tuple(data[at:at + 4]) for at in range(0, len(data), 4)]


def over(panel, colour):
    """A colour with an alpha over that of a panel."""
    return tuple(round((each * colour[3] + ground * (255 - colour[3])) / 255) for each, ground in zip(colour, panel))


def test_palette():
    """Each pixel of each tile is seen in the palette, also beside its lines. The frame of a chosen tile
    has a contrast of 3 at least to what was there, in light and dark. The tile that is in hand at first has it, too."""
    with Bench() as page:
        assert page.js('return [roskevad.palette.side, roskevad.bench.stamp.values]') == [32, [1]]
        framed = tile_pixels(page, 0)
        choose(page, 'Ground')
        points = [(x, y) for y in range(16 * 4) for x in range(16 * 8)]
        image = pixels(page.driver, (EXAMPLE_MAPS / 'tiles.png').read_bytes(), points)
        for tile in range(32):
            take(page, 32 if tile == 0 else 1)
            page.settle()
            seen = tile_pixels(page, tile)
            left, top = tile % 8 * 16, tile // 8 * 16
            for y in range(32):
                for x in range(32):
                    wanted = image[(top + y // 2) * 128 + left + x // 2]
                    assert wanted[3] != 255 or seen[y * 32 + x][:3] == wanted[:3], (tile, x, y, seen[y * 32 + x], wanted)
            take(page, tile + 1)
            page.settle()
            chosen = tile_pixels(page, tile)
            assert tile != 0 or chosen == framed
            for look, panel in PANELS.items():
                pairs = [(over(panel, one), over(panel, other)) for one, other in zip(seen, chosen)]
                marks = [(contrast(*pair), pair) for pair in pairs if pair[0] != pair[1]]
                assert max(marks)[0] >= LEAST_CONTRAST, (look, tile, max(marks), len(marks))
                passed()
