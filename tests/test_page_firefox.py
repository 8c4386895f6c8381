# SPDX-License-Identifier: MIT OR Apache-2.0
"""Opens the page's one file in Firefox from a disk: chooses files, draws with the mouse, undoes by keys,
draws, turns and copies objects, saves, and loads the page anew in the midst of work."""
import json
import shutil
import subprocess
import tempfile
import time
from pathlib import Path

from lib.places import BIN, EXAMPLE_MAPS, TOP
from page.fox import Fox

PACKAGES = ('firefox-esr',)
IS_LONG = True
PAGE = TOP / 'python' / 'roskevad' / 'page' / 'roskevad.html'
FILES = [EXAMPLE_MAPS / name for name in ('tiles.tsx', 'tiles.png', 'town.tmj')]
CONTROL, SHIFT, ENTER = '\ue009', '\ue008', '\ue007'
STATE = '''
const {index, count, isClean} = window.roskevad.editor.standing();
return {index, count, isClean};'''


def standing(fox):
    state = fox.js(STATE)
    return state['index'], state['count'], state['isClean']


def stroke(fox, cells):
    points = fox.js('return arguments[0].map(cell => window.roskevad.view.middleOf(...cell))', cells)
    fox.drag([(int(x), int(y)) for x, y in points])


def chosen(fox):
    """The page with the town, and the tile of its ground in the hand."""
    fox.open(PAGE.as_uri())
    assert fox.js('return isSecureContext') is True
    assert fox.js('return document.querySelector("#save-hint").textContent') == 'saves are downloads'
    fox.send_keys('#files', '\n'.join(map(str, FILES)))
    fox.wait('window.roskevad.editor.map && window.roskevad.tilesets.all[0]?.image')
    fox.settle()
    fox.js('window.roskevad.bench.takeStamp({width: 1, height: 1, values: [12]})')


def see_saved(fox):
    """The download has the bytes that the program saves behind the same session."""
    session = fox.js('return window.roskevad.editor.copied()')
    file = fox.downloads / 'town.tmj'
    end = time.monotonic() + 60
    while not (file.exists() and file.stat().st_size) and time.monotonic() < end:
        time.sleep(0.1)
    with tempfile.TemporaryDirectory() as top:
        maps = Path(top) / 'maps'
        shutil.copytree(EXAMPLE_MAPS, maps)
        words = [BIN / 'tile_editor', '--folder', maps, '--strict', '--all-maps']
        subprocess.run(words, input=session.encode(), stdout=subprocess.DEVNULL, check=True)
        assert file.read_bytes() == (maps / 'town.tmj').read_bytes()


def test_a_drawing():
    with Fox() as fox:
        chosen(fox)
        stroke(fox, [(3, 20), (8, 20)])
        stroke(fox, [(3, 22), (8, 22)])
        assert standing(fox) == (2, 2, False)
        fox.press(CONTROL, 'z')
        assert standing(fox) == (1, 2, False)
        fox.press(CONTROL, SHIFT, 'z')
        assert standing(fox) == (2, 2, False)
        fox.press(CONTROL, 'z')
        fox.press(CONTROL, 's')
        assert standing(fox) == (1, 2, True)
        see_saved(fox)
        stroke(fox, [(3, 24), (8, 24)])
        before = fox.js('return window.roskevad.editor.editor.step("show")')
        fox.reload()
        fox.settle()
        assert standing(fox) == (2, 2, False)
        assert fox.js('return window.roskevad.editor.editor.step("show")') == before
        assert fox.js('return window.roskevad.tilesets.all.map(set => set.image !== null)') == [True]
        fox.press(CONTROL, 'z')
        assert standing(fox) == (1, 2, True)
        stroke(fox, [(3, 25), (8, 25)])
        assert standing(fox) == (2, 2, False)


def objects_of(fox):
    """The objects of the layer in hand, as the map has them."""
    shown = json.loads(fox.js('return window.roskevad.editor.editor.step("show").slice(4)'))
    number = fox.js('return window.roskevad.bench.layerId')
    return next(each['objects'] for each in shown['layers'] if each['id'] == number)


# Where the handle that turns the chosen object is in the window, and where its middle is, of one that is not turned.
TURN = '''
const {bench, overlay, view, handlesOf} = window.roskevad, {object, layer} = bench.chosenObject, frame = view.box.getBoundingClientRect();
const [left, top] = overlay.screenPlace(object, layer);
const [, x, y] = handlesOf(overlay.shapeOf(object), view.scale / view.ratio).find(([name]) => name === "turn");
const at = (across, down) => [frame.left + (left + across * view.scale) / view.ratio, frame.top + (top + down * view.scale) / view.ratio];
return [at(x, y), at(object.width / 2, object.height / 2)].map(place => place.map(Math.round));'''


def turn(fox):
    """Turns the chosen object by a quarter, by its handle."""
    (x, y), (middle_x, middle_y) = fox.js(TURN)
    radius = middle_y - y
    fox.drag([(x, y), (middle_x + radius // 2, middle_y - radius), (middle_x + radius, middle_y)])


def test_objects():
    """A polygon and an ellipse are drawn, one is turned, and they are copied, cut and pasted, and undone; copies go to another map."""
    with Fox() as fox:
        chosen(fox)
        fox.js('const {bench, editor} = window.roskevad; bench.chooseLayer(editor.map.layers.find(each => each.type === "objectgroup").id)')
        before = len(objects_of(fox))
        for _ in range(3):
            fox.press('i')
        stroke(fox, [(20, 5), (22, 6)])
        assert objects_of(fox)[-1]['ellipse'] and standing(fox) == (1, 1, False)
        fox.press('s')
        turn(fox)
        assert abs(objects_of(fox)[-1]['rotation'] - 90) <= 2 and standing(fox) == (2, 2, False)
        fox.press(CONTROL, 'z')
        fox.press('i')
        fox.press('i')
        for cell in ((3, 20), (8, 20), (8, 24)):
            stroke(fox, [cell])
        fox.press(ENTER)
        polygon = objects_of(fox)[-1]
        assert polygon['polygon'] == [{'x': 0, 'y': 0}, {'x': 80, 'y': 0}, {'x': 80, 'y': 64}] and standing(fox) == (2, 2, False)
        fox.press(CONTROL, 'd')
        fox.press(CONTROL, 'x')
        fox.press(CONTROL, 'v')
        copy = objects_of(fox)[-1]
        assert copy == {**polygon, **{each: copy[each] for each in ('id', 'x', 'y')}} and len(objects_of(fox)) == before + 3
        assert standing(fox) == (5, 5, False)
        fox.press(CONTROL, 'z')
        assert len(objects_of(fox)) == before + 2
        fox.press(CONTROL, 'a')
        fox.press(CONTROL, 'c')
        first = objects_of(fox)
        fox.js('const {bench, editor} = window.roskevad;'
               'return editor.send(["new other 20 15 16 16 tiles.tsx", "layer add object Things"]).then(() => bench.chooseLayer(2))')
        fox.press(CONTROL, 'v')
        shape = lambda each: {name: each.get(name) for name in ('name', 'type', 'width', 'height', 'rotation', 'ellipse', 'polygon', 'point', 'text', 'gid')}
        assert [shape(each) for each in objects_of(fox)] == [shape(each) for each in first]
