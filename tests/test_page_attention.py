# SPDX-License-Identifier: MIT OR Apache-2.0
"""Looks at what draws the eye on the page in Chromium: one accent for the tool in hand and the current layer, panels
that share their column by what stands in them, and messages that never cover what was just drawn."""
import itertools
import json

from lib.cases import passed
from page.bench import Bench, choose, draw, take_tile
from page.browser import Keys
from test_page_layout import THEMES, look, look_as_before

NEEDS_BROWSER = True
SIZES = ((1440, 900, 1), (1280, 720, 1))
# How much of a panel may be empty while another one has a bar to scroll.
MOST_EMPTY = 1 / 3
ACCENTED = '''
const probe = document.createElement("i");
probe.style.background = "var(--on)";
document.body.append(probe);
const accent = getComputedStyle(probe).backgroundColor;
probe.remove();
return [...document.querySelectorAll("body *")].filter(each => each.checkVisibility() && getComputedStyle(each).backgroundColor === accent)
  .map(each => `${each.id || each.parentElement.id} ${each.className}`);'''
# Of each column which share of it is below its last panel; and of each of its panels whether it scrolls, and which share of it is empty.
COLUMNS = '''
return [...document.querySelectorAll("aside")].map(column => {
  const boxOf = each => each.getBoundingClientRect(), panels = [...column.querySelectorAll(".panel:not(.folded)")];
  const told = panels.map(panel => {
    const list = panel.querySelector("#palette-box, #property-box, #layers, #objects, #steps");
    const inside = list.lastElementChild ? boxOf(list.lastElementChild).bottom : boxOf(list).top;
    return [panel.id, list.scrollHeight > list.clientHeight + 1, Math.max(0, boxOf(list).bottom - inside) / boxOf(panel).height];
  });
  return [column.id, (boxOf(column).bottom - boxOf(panels.at(-1)).bottom) / boxOf(column).height, told];
});'''


def see_panels(page, where):
    columns = page.js(COLUMNS)
    panels = [panel for _, _, told in columns for panel in told]
    assert len(panels) == 5, panels
    is_scrolled = any(scrolls for _, scrolls, _ in panels)
    empty = [name for name, _, share in panels if share > MOST_EMPTY] + [name for name, share, _ in columns if share > MOST_EMPTY]
    assert not (is_scrolled and empty), (where, empty, columns)
    passed()


# ---- maps with more of something, or without it
def without_objects(town):
    town['layers'] = [layer for layer in town['layers'] if layer['type'] != 'objectgroup']


def with_objects(town):
    layer = next(layer for layer in town['layers'] if layer['type'] == 'objectgroup')
    layer['objects'] = [{**layer['objects'][0], 'id': 1000 + at, 'name': f'Spawn {at}', 'x': 10 * at} for at in range(40)]
    town['nextobjectid'] = 2000


def with_layers(town):
    tiles = next(layer for layer in town['layers'] if layer['type'] == 'tilelayer')
    town['layers'] = [{**tiles, 'id': 100 + at, 'name': f'Floor {at}'} for at in range(12)]
    town['nextlayerid'] = 200


def with_properties(town):
    town['properties'] = [{'name': f'rule{at}', 'type': 'int', 'value': at} for at in range(15)]


def test_accent():
    """The accent is on the tool in hand and the current layer, and on nothing else, in light and dark."""
    try:
        for theme in THEMES:
            look((1280, 720, 1), theme)
            with Bench('house.tmj', 'town.tmj') as page:
                choose(page, 'Ground')
                draw(page)
                page.click('#objects li:nth-child(3)')
                page.click('#macro')
                accented = page.js(ACCENTED)
                assert sorted(accented) == ['layers now', 'tool-objects on'], (theme, accented)
                passed()
    finally:
        look_as_before()


def test_panels():
    """No panel scrolls while another one, or a column, is more than a third empty: with few steps and many, whatever the table
    of properties is about, and a stamp of one tile and of several."""
    try:
        for size in SIZES:
            look(size)
            with Bench(has_log=False) as page:
                see_panels(page, (size, 'at first'))
                choose(page, 'Ground')
                page.click('#of-layer')
                see_panels(page, (size, 'a layer'))
                for row in range(20, 28):
                    draw(page, row)
                    see_panels(page, (size, row))
                page.js('roskevad.palette.takeTiles([1, 1], [4, 3])')
                see_panels(page, (size, 'twelve tiles'))
                for number in (4, 2, 5):
                    page.js('roskevad.objects.choose(arguments[0])', number)
                    page.settle()
                    see_panels(page, (size, 'the object', number))
            with Bench('layers.tmj', has_log=False) as page:
                see_panels(page, (size, 'few layers'))
    finally:
        look_as_before()


def test_panels_of_other_maps():
    """Nor do they on maps without objects, with 40 of them, with 12 layers, and with 15 properties: of the map, a layer and an
    object, at first and behind 40 steps."""
    try:
        for size, change in itertools.product(SIZES, (without_objects, with_objects, with_layers, with_properties)):
            look(size)
            bench = Bench(empty=True, has_log=False)
            with bench as page:
                town = json.loads((bench.folder / 'town.tmj').read_text())
                change(town)
                (bench.folder / 'other.tmj').write_text(json.dumps(town))
                page.choose_files(bench.folder / 'other.tmj', *bench.folder.glob('*.ts?'), *bench.folder.glob('*.png'))
                for steps in (0, 40):
                    ground = page.js('return roskevad.editor.map.layers.find(layer => layer.isTiles).id')
                    page.editor.lines(*(f'stamp {ground} {at % 30} 20 1 {1 + at % 23}' for at in range(steps)))
                    first = page.js('return [...roskevad.editor.map.places.keys()][0] ?? null')
                    for owner in ('map', 'layer', 'object')[: 2 if first is None else 3]:
                        if owner == 'object':
                            page.js('roskevad.objects.choose(arguments[0])', first)
                            page.settle()
                        page.click(f'#of-{owner}')
                        see_panels(page, (size, change.__name__, steps, owner))
    finally:
        look_as_before()


COVERED = '''
const bars = document.getElementById("bars"), frame = bars.getBoundingClientRect(), drawn = roskevad.view.drawnBox();
if (!drawn) return 'nothing was drawn';
const isApart = frame.right <= drawn.left || drawn.right <= frame.left || frame.bottom <= drawn.top || drawn.bottom <= frame.top;
return !isApart && bars.checkVisibility({visibilityProperty: true});'''


def test_messages():
    """A message stands beside what was drawn; where all that is seen was drawn a button below the map has it, and shows it when
    it is wanted, until the next press."""
    with Bench() as page:
        choose(page, 'Ground')
        page.js('roskevad.view.zoomTo(4); roskevad.view.originX = roskevad.view.originY = -300; roskevad.view.redraw()')
        page.settle()
        page.keys('p')
        take_tile(page, (3, 1))
        seen = page.js('const {left, top, right, bottom} = roskevad.view.box.getBoundingClientRect();'
                       'return [[left + 36, top + 36], [right - 44, bottom - 44]].map(([clientX, clientY]) => roskevad.view.placeOf({clientX, clientY}).cell)')
        page.drag(seen)
        page.js('roskevad.panel.showMissing.call({tilesets: {all: [], missing: ["a.png"]}, editor: roskevad.editor})')
        page.settle()
        assert not page.js(COVERED) and page.find('#messages').text == '1 message'
        page.click('#messages')
        assert page.js(COVERED) and not page.find('#messages').is_displayed()
        page.keys(Keys.ESCAPE)
        page.ctrl('z')
        page.drag(seen)
        assert not page.js(COVERED) and page.find('#messages').is_displayed()
        page.ctrl('z')
        page.keys('b')
        page.drag([seen[0]])
        assert not page.js(COVERED) and page.find('#bars .notice').is_displayed() and not page.find('#messages').is_displayed()
