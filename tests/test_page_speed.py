# SPDX-License-Identifier: MIT OR Apache-2.0
"""Measures how long the page takes in Chromium on a map of eight layers of 1,024 by 1,024 cells: from
the hand, or from the key, to the picture, and how much of that is its work; a stamp of a whole layer
takes as few lines as have room for it, and is one step. And how long it works on an arrow key that moves
one of 4,000 objects, on a stroke beside a list of 450 steps, and on one in which a map grows. docs/speed.md has what
it measures on a machine that does nothing else; here it may take longer, and is tried several times."""
import json
from statistics import median

from page.bench import Bench, standing, take_tile
from page.browser import Keys
from page.many_objects import crates
from page.planes import Plane, chunk, infinite

NEEDS_BROWSER = True
ALONE = True
# The most that the browser may measure, in milliseconds: docs/speed.md has what it measures on a
# machine that does nothing else.
STROKE, TURN, STAMP, NUDGE, GROWTH = 16, 50, 1500, 30, 50
# How much longer it may take here, and how often it is tried: other steps may take the processors.
SLACK, TRIES = 4, 5
LAYERS, SIDE = 8, 1024
OBJECTS = 4000
# How many steps the list has, how many strokes a round has, quick ones and lone ones, how many rounds are measured before a
# look, and how much longer a stroke may take than where the list is folded.
STEPS, STROKES, LONE, ROUNDS, BESIDE = 450, 12, 4, 4, 1.1
# Presses an arrow key some times, and gives how long the page has worked on each: at the key, in the next frame, and on its painting.
PRESSES = '''
const [times, done] = arguments;
const press = () => new Promise(came => {
  let begun;
  requestAnimationFrame(() => (begun = performance.now()));
  const before = performance.now();
  document.body.dispatchEvent(new KeyboardEvent("keydown", {key: "ArrowRight", bubbles: true, cancelable: true}));
  const behind = performance.now();
  requestAnimationFrame(() => {
    const painted = new MessageChannel();
    painted.port1.onmessage = () => came(behind - before + performance.now() - begun);
    painted.port2.postMessage(null);
  });
});
(async () => {
  const all = [];
  for (let at = 0; at < times; at++) {
    all.push(await press());
    await roskevad.editor.telling;
    await new Promise(go => setTimeout(go, 50));
  }
  done(all.sort((one, other) => one - other));
})();'''


def large_map(folder):
    """A map of eight layers of 1,048,576 cells, with values by chance."""
    layers = []
    for number in range(1, LAYERS + 1):
        data = [(at * 2654435761 * number >> 7) % 32 + 1 for at in range(SIDE * SIDE)]
        sizes = {'x': 0, 'y': 0, 'width': SIDE, 'height': SIDE}
        named = {'id': number, 'name': f'Layer {number}', 'type': 'tilelayer'}
        layers.append({**named, 'visible': True, 'opacity': 1, **sizes, 'data': data})
    large = {
        'type': 'map',
        'version': '1.10',
        'orientation': 'orthogonal',
        'renderorder': 'right-down',
        'infinite': False,
        'width': SIDE,
        'height': SIDE,
        'tilewidth': 16,
        'tileheight': 16,
        'nextlayerid': LAYERS + 1,
        'nextobjectid': 1,
        'layers': layers,
        'tilesets': [{'firstgid': 1, 'source': 'tiles.tsx'}],
    }
    (folder / 'large.tmj').write_text(json.dumps(large, separators=(',', ':')))


def measured(page, name):
    """The longest and the middle of what the browser has measured, in milliseconds."""
    times = sorted(
        page.js(
            'return performance.getEntriesByName(arguments[0]).map(each => each.duration)', name
        )
    )
    page.js('performance.clearMeasures(arguments[0])', name)
    return times[len(times) // 2], times[-1], len(times)


def times_at(page, scale):
    """Draws a stroke, undoes it, makes it again, and leaves the map as it was: the middle and the
    longest time of a move of the hand, the longest of the page's work in it, and those of the
    turns."""
    page.js('performance.clearMeasures()')
    step = max(1, round(2 / scale))
    page.drag([(step * x, step * (3 + x % 5)) for x in range(2, 14)])
    middle, longest, count = measured(page, 'stroke')
    work = measured(page, 'stroke work')[1]
    assert count > 5
    page.ctrl('z')
    page.ctrl('z', Keys.SHIFT)
    undo, redo = measured(page, 'undo')[1], measured(page, 'redo')[1]
    page.ctrl('z')
    return middle, longest, work, undo, redo


def test_large_map():
    """At four scales, of which the smallest shows a pixel a cell."""
    bench = Bench(empty=True)
    told = []
    with bench as page:
        large_map(bench.folder)
        page.choose_files(bench.folder / 'large.tmj')
        take_tile(page, (3, 1))
        for scale in (2, 1, 0.25, 1 / 16):
            page.js(
                'const {view} = roskevad; view.zoomTo(arguments[0]); view.originX = view.originY = 12; view.redraw()',
                scale,
            )
            page.settle()
            for _ in range(TRIES):
                middle, longest, work, undo, redo = times_at(page, scale)
                told.append(
                    f'at {scale:.4g}: stroke {middle:.0f} to {longest:.0f} ms, work {work:.0f}, undo {undo:.0f}, redo {redo:.0f}'
                )
                is_quick = longest <= STROKE * SLACK and max(undo, redo) <= TURN * SLACK
                if is_quick:
                    break
            assert is_quick, told
        large_stamp(page)


def large_stamp(page):
    """A stamp of all cells of a layer is one step of lines that are as long as they may be. Each line that
    follows costs as much as what is there before it, so many would take some seconds."""
    code = '''const {bench} = roskevad, {map} = bench;
              bench.takeStamp({width: map.width, height: map.height, values: Array.from(map.cells(1, 0, 0, map.width, map.height)).reverse()})'''
    page.js(code)
    index = standing(page)[0]
    page.js('performance.clearMeasures()')
    page.drag([(SIDE // 2, SIDE // 2)])
    time = measured(page, 'stroke')[1]
    assert standing(page)[0] == index + 1 and time <= STAMP * SLACK, time
    lines = page.js('return roskevad.editor.copied().trim().split("\\n").filter(line => line.startsWith("stamp")).map(line => [line.slice(0, 7), line.length])')
    last = next(at for at in range(len(lines) - 1, -1, -1) if lines[at][0] == 'stamp 1')
    lines = lines[last:]
    assert all(line[0] == 'stamp+ ' and 60_000 < line[1] <= 65_535 for line in lines[1:-1]) and len(lines) < 60, lines


def test_one_of_many_objects():
    """An arrow key on one of 4,000 objects."""
    bench = Bench(empty=True, has_log=False)
    with bench as page:
        number = crates(bench.folder, OBJECTS)[OBJECTS // 2]
        page.choose_files(bench.folder / 'crates.tmj', *bench.folder.glob('*.ts?'))
        page.js('roskevad.objects.choose(arguments[0])', number)
        page.settle()
        page.driver.set_script_timeout(60)
        for _ in range(TRIES):
            times = page.driver.execute_async_script(PRESSES, 20)
            quick = times[len(times) // 4]
            if quick <= NUDGE:
                break
        assert quick <= NUDGE * 2 and standing(page)[0] == 1, times


# Takes another tile; and draws quick strokes, each a step, and gives how many rows of the list came, went or moved.
TAKE = 'const {bench} = roskevad; bench.takeStamp({width: 1, height: 1, values: [1 + (bench.stamp.values[0] + 6) % 31]})'
DRAWS = '''
const [count, done] = arguments, {bench, editor, view} = roskevad;
let moved = 0;
const rowsOf = each => [...each.addedNodes, ...each.removedNodes].filter(node => node.tagName === "LI").length;
const watch = new MutationObserver(records => records.forEach(each => (moved += rowsOf(each))));
watch.observe(document.getElementById("steps"), {childList: true, subtree: true});
view.box.setPointerCapture = () => {};
const tell = (kind, x, y) => {
  const [clientX, clientY] = view.middleOf(x, y);
  view.box.dispatchEvent(new PointerEvent(kind, {clientX, clientY, button: 0, pointerId: 7, bubbles: true}));
};
(async () => {
  for (let at = 0; at < count; at++) {
    bench.takeStamp({width: 1, height: 1, values: [1 + (bench.stamp.values[0] + 6) % 31]});
    tell("pointerdown", 2, 4);
    for (let x = 3; x < 7; x++) tell("pointermove", x, 4);
    tell("pointerup", 7, 4);
    await editor.telling;
    await new Promise(go => requestAnimationFrame(() => requestAnimationFrame(go)));
  }
  watch.disconnect();
  done(moved);
})();'''


def draw_quickly(page):
    moved = page.driver.execute_async_script(DRAWS, STROKES)
    # With each stroke one comes, and the ends of the list move now and then.
    assert moved < 8 * STROKES, moved
    return STROKES


def draw_alone(page):
    """Strokes of the hand, each of which begins once the list waits for none."""
    for _ in range(LONE):
        page.js(TAKE)
        page.drag([(x, 4 + x % 3) for x in range(2, 14)])
        wait_for_list(page)
    return LONE


def wait_for_list(page):
    page.wait(lambda: page.js('const {steps} = roskevad; return !steps.isLate && performance.now() > steps.shownAt + steps.time'), 'the list is shown')


# A stroke of five cells in one task, and of another tile.
AT_ONCE = TAKE + ''';
const {view} = roskevad;
view.box.setPointerCapture = () => {};
const tell = (kind, x) => {
  const [clientX, clientY] = view.middleOf(x, 4);
  view.box.dispatchEvent(new PointerEvent(kind, {clientX, clientY, button: 0, pointerId: 7, bubbles: true}));
};
tell("pointerdown", 2);
for (const x of [3, 4, 5]) tell("pointermove", x);
tell("pointerup", 6);'''


def draw_at_once(page):
    """Strokes that are done at once, each of which begins once the list waits for none."""
    for _ in range(LONE):
        page.js(AT_ONCE)
        page.settle()
        wait_for_list(page)
    return LONE


def work_of(page, draw):
    """Draws strokes, and gives how long the page's thread has worked on each, in milliseconds."""
    told = lambda: {each['name']: each['value'] for each in page.driver.execute_cdp_cmd('Performance.getMetrics', {})['metrics']}
    before = told()['ThreadTime']
    count = draw(page)
    return (told()['ThreadTime'] - before) * 1000 / count


def see_strokes(page, draw):
    """A stroke takes little longer beside the list than where it is folded, by the middle of several rounds, which take turns."""
    fold = 'const panel = document.getElementById("panel-steps"); if (panel.classList.contains("folded") !== arguments[0]) panel.querySelector("h2").click()'
    work_of(page, draw)
    times, told = {False: [], True: []}, []
    for _ in range(TRIES):
        for at in range(2 * ROUNDS):
            is_folded = at % 2 == 1
            page.js(fold, is_folded)
            page.settle()
            times[is_folded].append(work_of(page, draw))
        beside, alone = median(times[False]), median(times[True])
        told.append(f'{beside:.1f} ms beside the list, {alone:.1f} with it folded')
        if beside <= BESIDE * alone:
            break
    assert beside <= BESIDE * alone, (draw.__name__, told)


def test_many_steps():
    """With 450 steps a stroke takes little longer than where their list is folded, a lone one, one that is done at once and
    quick ones: of its rows a few change, and quick strokes share a change of the list. What is out of sight is not drawn."""
    with Bench(has_log=False) as page:
        page.driver.execute_cdp_cmd('Performance.enable', {})
        page.driver.set_script_timeout(120)
        page.js('roskevad.bench.chooseLayer(roskevad.editor.map.layers.find(each => each.data.name === "Ground").id)')
        ground = page.js('return roskevad.bench.layerId')
        page.editor.lines(*(f'stamp {ground} {at % 30} {20 + at % 8} 1 {1 + at % 23}' for at in range(STEPS)))
        page.settle()
        assert standing(page)[1] > STEPS - 20 and len(page.texts('#steps li')) > 100
        for draw in (draw_quickly, draw_alone, draw_at_once):
            see_strokes(page, draw)
        # The last stroke is listed a moment later.
        page.settle()
        assert page.find('#steps li.now').get_attribute('data-place') == str(standing(page)[0])
        assert page.js('return document.querySelector("#steps > ul").checkVisibility({contentVisibilityAuto: true})') is False


GROWS = '''
const {bench} = roskevad, found = [];
for (let at = 0; at < arguments[0]; at++) {
  const start = performance.now();
  bench.growth.reach([1000, 3, 1, 1]);
  found.push(performance.now() - start);
  bench.growth.end(true);
}
return found;'''


def test_growth():
    """The event in which an infinite map of 1,000 by 1,000 cells with four layers grows takes at most 50 ms."""
    chunks = [chunk(x, y, 40, 40) for x in range(0, 1000, 40) for y in range(0, 1000, 40)]
    with Plane(infinite(*chunks, layers=4)) as page:
        told = []
        for _ in range(TRIES):
            told += page.js(GROWS, TRIES)
            if min(told) <= GROWTH:
                break
        assert min(told) <= GROWTH, told
