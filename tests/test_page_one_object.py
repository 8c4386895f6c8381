# SPDX-License-Identifier: MIT OR Apache-2.0
"""Moves, resizes and sets one of 4,000 objects on the page in Chromium: that object alone is read, by the
library's look-up of it, and drawn. Behind random edits the page has the map that a look at all of it
gives, and shows what it shows where all is drawn anew."""
import json

from lib.cases import passed
from lib.maps import layer_of as any_layer
from lib.maps import map_of, thing, things, tiles
from page.bench import Bench, middle_of, object_of, spelled, standing
from page.browser import Keys
from page.many_objects import count_calls, counted, crates

NEEDS_BROWSER = True
IS_LONG = True
MANY, EDITS = 4000, 200

# What a drag of a handle of the chosen object does at its end.
RESIZE = '''
const {objects} = roskevad.tools.all;
objects.send(objects.stepOf({...roskevad.bench.chosenObject, handle: "se", all: []}, {x: 5, y: 7, width: 20, height: 30}));'''


def see_one_read(page, do, times=1):
    """Does something that reads one object, so many times, and nothing else of the map. Gives the lines that
    make a document the active one."""
    count_calls(page)
    do()
    page.settle()
    counts, lines = counted(page)
    assert (counts.get('object', 0), counts.get('outline', 0), counts.get('cells', 0)) == (times, 0, 0), counts
    return [line for line in lines if line.startswith('use ')]


def shown_place(page, number):
    """The place that the page has of an object, and the one in the map."""
    page_has = page.js('const {object} = roskevad.editor.map.object(arguments[0]); return [object.x, object.y]', number)
    now = object_of(page, number)
    assert page_has == [now['x'], now['y']], (page_has, now)
    return tuple(page_has)


def test_one_of_many():
    """Arrow keys, a drag, a handle, the table, a property, undo and redo read that object alone, and ask for no
    cells. The place that the page shows is that of the map."""
    bench = Bench(empty=True)
    with bench as page:
        number = crates(bench.folder, MANY)[-1]
        page.choose_files(bench.folder / 'crates.tmj', *bench.folder.glob('*.ts?'))
        page.keys('s')
        for _ in range(6):
            page.click('#zoom-in')
        page.js('roskevad.objects.choose(arguments[0])', number)
        page.settle()
        x, y = shown_place(page, number)
        assert see_one_read(page, lambda: page.keys(Keys.ARROW_RIGHT)) == []
        assert see_one_read(page, lambda: page.keys(Keys.ARROW_DOWN, Keys.SHIFT)) == []
        assert shown_place(page, number) == (x + 1, y + 16)
        assert spelled(page) == [f'object move {number} {x + 1} {y}', f'object move+ {number} {x + 1} {y + 16}']
        left, top = middle_of(page, number)
        see_one_read(page, lambda: page.drag_points([[left, top], [left + 40, top + 9], [left + 90, top + 30]]))
        assert spelled(page)[-1].startswith(f'object move {number} ') and standing(page) == (2, 2), (standing(page), spelled(page))
        dragged = shown_place(page, number)
        assert dragged != (x + 1, y + 16)
        see_one_read(page, lambda: page.js(RESIZE))
        assert shown_place(page, number) == (5, 7) and standing(page) == (3, 3), 'a macro of two lines about it'
        see_one_read(page, lambda: page.type_into('#properties input[data-key=" width"]', 48))
        see_one_read(page, lambda: page.editor.lines(f'prop set object:{number} open bool true'))
        assert page.texts('#properties [data-property] td:first-child span:first-child') == ['open']
        for at, line in enumerate(['undo'] * 5 + ['redo'] * 5):
            assert see_one_read(page, lambda: page.editor.lines(line)) == [], (line, at)
            shown_place(page, number)
        assert object_of(page, number)['width'] == 48 and page.js('return roskevad.bench.objectId') == number
        for name, text in ((' name', 'gate'), (' class', 'Door'), (' rotation', '45')):
            see_one_read(page, lambda: page.type_into(f'#properties [data-key="{name}"]', text))
        now = page.js('const {name, type, rotation} = roskevad.editor.map.object(arguments[0]).object; return [name, type, rotation]', number)
        assert now == ['gate', 'Door', 45] == [object_of(page, number)[each] for each in ('name', 'type', 'rotation')]
        see_one_read(page, lambda: page.editor.lines('goto 5'))
        page.editor.lines('new other 4 4 16 16 tiles.tsx', 'use crates')
        used = see_one_read(page, lambda: page.editor.lines(f'object move {number} 9 9'))
        assert set(used) <= {'use other', 'use crates'} and used.count('use other') == used.count('use crates'), used
        page.editor.lines(f'object move {number} 10 10', f'object move {number - 1} 10 20')
        see_one_read(page, lambda: page.editor.lines(f'object move {number} 9 9', f'object move {number - 1} 10 30'), 2)


# ---- by chance

MODEL = '''
const inOrder = (_, each) => each?.constructor === Object ? Object.fromEntries(Object.entries(each).sort(([one], [other]) => one < other ? -1 : 1)) : each;
const told = map => JSON.stringify([map.data, map.layers.map(({group, ...layer}) => [group?.id, layer]), map.odd, map.runs], inOrder);
const seeCells = ([id, cells]) => {
  const [x0, y0, x1, y1] = roskevad.view.cache.box;
  return JSON.stringify([...cells]) === JSON.stringify([...roskevad.editor.map.cells(id, x0, y0, x1 - x0, y1 - y0)]);
};
globalThis.seeModel = () => {
  const {editor, view} = roskevad, [has, wanted] = [editor.map, editor.modelNow()];
  const isFound = ({id}) => JSON.stringify(has.object(id)?.object) === JSON.stringify(wanted.object(id)?.object);
  const isKnown = told(has) === told(wanted) && wanted.layers.every(layer => (layer.data.objects ?? []).every(isFound));
  return isKnown && [...view.cache.layers].every(seeCells);
};
const frames = async () => {
  for (let at = 0; at < 3; at++) await new Promise(done => requestAnimationFrame(done));
};
const pixels = () => ["map", "overlay"].map(id => {
  const {width, height} = document.getElementById(id);
  const pen = new OffscreenCanvas(width, height).getContext("2d");
  pen.fillStyle = "#5b6068";
  pen.fillRect(0, 0, width, height);
  pen.drawImage(document.getElementById(id), 0, 0);
  return pen.getImageData(0, 0, width, height).data;
});
// In how many pixels what is seen differs from what is seen where all is drawn anew, but for the edges of slanted lines, which a
// smaller part may soften otherwise.
globalThis.seePixels = async () => {
  await frames();
  const before = pixels();
  roskevad.view.redraw();
  roskevad.overlay.redraw();
  await frames();
  return pixels().reduce((sum, after, at) => sum + after.filter((value, place) => Math.abs(value - before[at][place]) > 40).length, 0);
};'''
BY_CHANCE = '''
const [seed, count, name, done] = arguments;
let state = seed;
const below = most => {
  state = (Math.imul(state, 1664525) + 1013904223) >>> 0;
  return Math.floor(state / 2 ** 32 * most);
};
const {editor, bench} = roskevad;
const oneOf = all => all[below(all.length)];
const objects = () => editor.map.layers.flatMap(layer => layer.data.objects ?? []);
const place = () => `${below(500) - 60} ${below(400) - 60}`;
const near = ({x = 0, y = 0}) => `${Math.floor(x) + oneOf([0, 0, 1, -1, 9])} ${Math.floor(y) + oneOf([0, 0, 1, -1, 9])}`;
const value = () => oneOf(["string two words", "int 5", "bool true", "color #ff8800", `object ${below(9)}`]);
const onOne = [
  each => `object move ${each.id} ${place()}`,
  each => `object move ${each.id} ${near(each)}`,
  each => `object move+ ${each.id} ${near(each)}`,
  each => `object resize ${each.id} ${below(60)} ${below(60)}`,
  each => `prop set object:${each.id} ${oneOf(["a", "b"])} ${value()}`,
  each => `prop set+ object:${each.id} ${oneOf(["a", "b"])} ${value()}`,
  each => `prop remove object:${each.id} ${oneOf(["a", "b", "deep"])}`,
  each => `prop put object:${each.id} {"name":"two words","value":${below(9)}}`,
  each => `object into ${each.id} ${editor.map.object(each.id)?.layer.id ?? 2} ${below(3)}`,
  each => `object into ${each.id} ${oneOf(editor.map.layers.filter(layer => layer.type === "objectgroup")).id} ${below(3)}`,
];
const other = [
  () => [`object add ${oneOf(editor.map.layers.filter(layer => layer.type === "objectgroup")).id} ${place()} 20 10 new`],
  () => [`object remove ${oneOf(objects()).id}`],
  () => [`layer show ${oneOf(editor.map.layers).id} ${oneOf(["yes", "no"])}`],
  () => [`layer move ${oneOf(editor.map.layers).id} 0`],
  () => [`layer into ${oneOf(editor.map.layers).id} ${oneOf([0, 4])} ${below(2)}`],
  () => ["prop set map a int 1"],
  () => [`stamp 1 ${below(8)} ${below(8)} 1 ${below(30)}`],
  () => [`select ${oneOf(["replace", "add"])} ${below(8)} ${below(8)} 3 3`],
  () => ["select none"],
  () => [`use ${oneOf(["other", name])}`, `use ${name}`],
  () => ["clear"],
];
const two = (one, second) => [oneOf(onOne)(one), oneOf(onOne)(second)];
const lines = () => {
  const [turn, all] = [below(100), objects()];
  const one = oneOf(all);
  if (turn < 40) return [oneOf(onOne)(one)];
  if (turn < 52) return ["undo"];
  if (turn < 64) return ["redo"];
  if (turn < 68) return [`goto ${below(editor.stand().count + 1)}`];
  if (turn < 74) return ["begin Some || do some", ...two(one, one), "end"];
  if (turn < 78) return ["begin Some || do some", ...two(one, oneOf(all)), oneOf([...oneOf(other.slice(0, 9))()]), "end"];
  if (turn < 86) return [...two(one, oneOf(all)), ...two(one, one), "undo"];
  return oneOf(other)();
};
(async () => {
  const wrong = [];
  let most = 0;
  for (let at = 0; at < count && !wrong.length; at++) {
    if (below(5) === 0) bench.chooseObject(oneOf(objects()).id);
    const said = lines();
    editor.doLines(said, {isFree: true});
    if (!seeModel()) wrong.push([at, said, "the map"]);
    if (at % 8 === 0 || wrong.length) {
      const differing = await seePixels();
      most = Math.max(most, differing);
      if (differing > 20) wrong.push([at, said, `${differing} pixels`]);
    }
  }
  done({wrong, most});
})().catch(fault => done({wrong: [String(fault), fault.stack]}));'''


def float_of(name, value):
    return {'name': name, 'type': 'float', 'value': value}


def shapes():
    """Objects of all shapes, some with fractions; those of tiles and texts overlap others."""
    corners = [{'x': 0, 'y': 0}, {'x': 40, 'y': 5}, {'x': 10.5, 'y': 30}]
    yield dict(x=40, y=40, width=30, height=20)
    yield dict(x=60, y=50, width=40, height=30, ellipse=True, rotation=30)
    yield dict(x=90, y=20, width=0, height=0, point=True)
    yield dict(x=120, y=60, width=0, height=0, polygon=corners, rotation=-12.5)
    yield dict(x=20, y=120, width=0, height=0, polyline=corners)
    yield dict(x=70, y=120, width=32, height=32, gid=21, name='a tile with quite a long name')
    yield dict(x=80, y=125, width=48, height=16, gid=30 + (1 << 31), rotation=45, type='Item')
    text = {'text': 'words in a box that wrap', 'wrap': True, 'pixelsize': 12, 'color': '#ff2244'}
    yield dict(x=100, y=100, width=60, height=40, text=text, name='')
    yield dict(x=10.5, y=3, rotation=0.25, properties=[float_of('deep', 0.1)])
    yield dict(x=7, y=3.75, width=12.25, height=9.5, visible=False)


def map_of_shapes(is_infinite):
    objects = [thing(at + 1, **{'name': f'thing {at + 1}', **each}) for at, each in enumerate(shapes())]
    front = things(3, *objects[6:], name='Front', opacity=0.5, offsetx=5, offsety=-3.5)
    group = any_layer(4, 'group', layers=[front], offsetx=8, offsety=2)
    ground = tiles(1, 20, 16, data=[at % 7 + 1 for at in range(320)])
    if is_infinite:
        chunk = {'data': [at % 7 + 1 for at in range(256)], 'height': 16, 'width': 16, 'x': -16, 'y': -16}
        ground = tiles(1, 16, 16, chunks=[chunk], startx=-16, starty=-16)
        del ground['data']
    roof = any_layer(5, 'tilelayer', **{**ground, 'id': 5, 'name': 'Roof', 'opacity': 0.4, 'offsetx': 96})
    sizes = {'width': 20, 'height': 16, 'tilewidth': 16, 'tileheight': 16, 'nextlayerid': 6, 'nextobjectid': 100}
    tilesets = [{'firstgid': 1, 'source': 'tiles.tsx'}]
    layers = [ground, things(2, *objects[:6], name='Back', color='#22aa44'), roof, group]
    return map_of(*layers, **sizes, infinite=is_infinite, tilesets=tilesets, properties=[float_of('b', 0.2)])


def see_by_chance(page, name, seed):
    page.driver.set_script_timeout(600)
    page.js(MODEL)
    page.editor.lines('new other 4 4 16 16 tiles.tsx', f'use {name}')
    page.keys('s')
    count_calls(page)
    told = page.driver.execute_async_script(BY_CHANCE, seed, EDITS, name)
    counts, _ = counted(page)
    page.settle()
    assert not told['wrong'], (seed, told, spelled(page)[-8:])
    # The check itself reads the whole outline once behind each edit.
    assert counts['object'] > EDITS / 3 and counts['outline'] < EDITS * 1.6, counts
    passed()


def test_by_chance():
    """On a map with objects of all shapes, and on one that was infinite and has fractions, 200 random edits:
    moves, sizes, properties, macros, additions, removals, layers, cells, undo, redo and goto."""
    for name, is_infinite in (('shapes', False), ('endless', True)):
        bench = Bench(empty=True)
        with bench as page:
            (bench.folder / f'{name}.tmj').write_text(json.dumps(map_of_shapes(is_infinite)))
            page.choose_files(bench.folder / f'{name}.tmj', *bench.folder.glob('*.ts?'), *bench.folder.glob('*.png'))
            see_by_chance(page, name, 20261129 + is_infinite)


def test_fractions():
    """Where a step leaves the whole part of a place as it is, its fraction is shown again; an infinite map's
    objects stand where they did."""
    bench = Bench(empty=True)
    with bench as page:
        (bench.folder / 'endless.tmj').write_text(json.dumps(map_of_shapes(True)))
        page.choose_files(bench.folder / 'endless.tmj', *bench.folder.glob('*.ts?'))
        has = 'const {object} = roskevad.editor.map.object(9); return [object.x, object.y, object.rotation, object.properties[0].value]'
        assert page.js(has) == [266.5, 259, 0.25, 0.1]
        see_one_read(page, lambda: page.editor.lines('object move 9 266 300'))
        assert page.js(has) == [266.5, 300, 0.25, 0.1]
        see_one_read(page, lambda: page.editor.lines('object move 9 267 300'))
        assert page.js(has) == [267, 300, 0.25, 0.1]
        for line, wanted in (('undo', [266.5, 300, 0.25, 0.1]), ('undo', [266.5, 259, 0.25, 0.1])):
            see_one_read(page, lambda: page.editor.lines(line))
            assert page.js(has) == wanted
        see_one_read(page, lambda: page.editor.lines('prop set object:10 a int 1'))
        assert page.js('const {object} = roskevad.editor.map.object(10); return [object.x, object.y, object.width]') == [263, 259.75, 12.25]


def test_odd_members():
    """A map with a member of another kind is read whole: what the page tells of it is counted there."""
    bench = Bench(empty=True)
    with bench as page:
        odd = map_of_shapes(False)
        odd['layers'][1]['objects'][0]['rotation'] = 'left'
        (bench.folder / 'odd.tmj').write_text(json.dumps(odd))
        page.choose_files(bench.folder / 'odd.tmj', *bench.folder.glob('*.ts?'))
        page.js(MODEL)
        count_calls(page)
        page.editor.lines('object move 2 5 5')
        counts, _ = counted(page)
        assert counts['outline'] == 1 and page.js('return seeModel()') and page.js('return roskevad.editor.map.odd.count') == 1
