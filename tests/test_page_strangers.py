# SPDX-License-Identifier: MIT OR Apache-2.0
"""Opens on the page what strangers made: maps and tilesets with one odd member, images, texts, properties and
polygons that are more than the page shows, and long sessions, which it plays in parts and stops."""
import base64
import re

from lib.cases import Case, check_each, passed
from page import strangers
from page.bench import Bench, standing
from page.browser import ActionChains, Keys
from page.hostile import write_png

NEEDS_BROWSER = True
IS_LONG = True
# The longest that the page may be held, in milliseconds. Other steps may take the processors.
LONGEST = 8000
# How many lines a session has that is stopped.
SESSION = 100_000
# A tenth of the pixels that the images of a map may have.
TENTH = 13_421_772

# Opens a map beside other files, looks at all of it, draws, and tells what is seen, what the page says of it, and what went wrong.
LOOK = '''
const [text, files, done] = arguments, {editor, view, overlay, bench, tools, tilesets} = roskevad, faults = [];
const onError = event => faults.push(String(event.message ?? event.reason?.stack ?? event.reason));
for (const name of ["error", "unhandledrejection"]) addEventListener(name, onError);
const warn = console.warn;
console.warn = (...all) => faults.push(all.map(String).join(" "));
const bytes = text => new TextEncoder().encode(text), frame = () => new Promise(go => requestAnimationFrame(() => setTimeout(go)));
const sum = canvas => new Uint32Array(canvas.getContext("2d").getImageData(0, 0, canvas.width, canvas.height).data.buffer)
  .reduce((sum, pixel) => Math.imul(sum ^ pixel, 16777619) >>> 0, 2166136261);
(async () => {
  editor.place.take([["x.tmj", text], ...Object.entries(files)].map(([path, text]) => ({path, bytes: bytes(text)})));
  const {replies: [reply]} = await editor.openPath("x.tmj");
  const {active} = editor.openDocuments, seen = [];
  if (reply.startsWith("ok")) {
    while (editor.underWay || tilesets.isReading) await frame();
    for (const id of ["of-map", "of-layer", "of-object"]) document.getElementById(id).click();
    tools.choose("objects");
    bench.chooseLayer(50);
    bench.chooseObject(1);
    view.redraw();
    for (let at = 0; at < 6 || view.images.waiting; at++) await frame();
    tools.choose("brush");
    bench.chooseLayer(1);
    await bench.act(["stamp 1 0 0 1 1", "undo"]);
    await frame();
    seen.push(sum(view.canvas), sum(overlay.canvas));
  }
  const words = document.getElementById("undrawn-features").textContent;
  if (active) editor.doLines([`discard ${active}`]);
  await frame();
  for (const name of ["error", "unhandledrejection"]) removeEventListener(name, onError);
  console.warn = warn;
  done({reply, seen, words, faults});
})().catch(fault => done({reply: "", seen: [], words: "", faults: [...faults, String(fault.stack)]}));'''


def looked(page, text, files):
    return page.driver.execute_async_script(LOOK, text, files)


# What was seen of plain maps.
PLAIN = {}


def what_is_wrong(page, maps, named):
    """What is wrong with the page on an odd map, beside the same one without what is odd."""
    odd, key = looked(page, *maps[0]), str(maps[1])
    plain = PLAIN[key] = PLAIN.get(key) or looked(page, *maps[1])
    if odd['faults'] or plain['faults'] or not odd['reply'].startswith('ok') or not plain['reply'].startswith('ok'):
        return f'{odd} {plain}'
    if odd['seen'] != plain['seen']:
        return f'it is not drawn as if the member were absent: {odd} {plain}'
    if named is None:
        return '' if odd['words'] == plain['words'] else f'{odd["words"]} is said'
    return '' if named in odd['words'] and named not in plain['words'] else f'{named!r} is not named: {odd["words"]}'


def test_odd_members():
    """A member of another kind counts as not there, and is named; all else is drawn. Names of the page's own do
    not come from files."""
    with Bench(empty=True) as page:
        check_each(strangers.ODD, lambda odd: what_is_wrong(page, odd.maps(), odd.named))
        named = 'a point of the polygon of the object 1'
        points = [Case(f'a point {value}', strangers.with_points(value), named) for value in strangers.ODD_POINTS]
        check_each(points, lambda case: what_is_wrong(page, case.given, case.wanted))
        told = looked(page, strangers.map_of_thing(polygon=[]), {})
        assert told['faults'] == [], told


# ---- more than the page shows

HELD = '''
globalThis.held = 0;
let last = performance.now();
clearInterval(globalThis.holding);
globalThis.holding = setInterval(() => { const now = performance.now(); held = Math.max(held, now - last); last = now; }, 20);'''


def take(page, files):
    """Gives files to the page, as if they were chosen: their bytes by their names."""
    told = [[name, base64.b64encode(data if isinstance(data, bytes) else data.encode()).decode()] for name, data in files.items()]
    code = 'roskevad.editor.place.take(arguments[0].map(([path, coded]) => ({path, bytes: Uint8Array.from(atob(coded), sign => sign.charCodeAt(0))})))'
    page.js(code, told)


def shown(page, text, files=None):
    """Opens a map, sees that it is drawn upon soon, and gives what the page says is not drawn."""
    take(page, {'x.tmj': text, **(files or {})})
    page.editor.lines('discard x')
    page.js(HELD)
    page.js('return roskevad.editor.openPath("x.tmj").then(done => done.replies)')
    page.settle()
    page.wait(lambda: page.js('const {tilesets, view} = roskevad; return !tilesets.isReading && !view.images.waiting'), 'the images')
    assert page.editor.lines('stamp 1 0 0 1 7')[0].startswith('ok 1/1'), page.editor.state()
    held = page.js('return held')
    assert held < LONGEST, held
    return page.find('#undrawn-features').text


def drawn_tilesets(page):
    return page.js('return roskevad.tilesets.all.map(each => Boolean(each.image))')


def test_images():
    """All images of a map have one budget of pixels: those of its tilesets in their order, and then those of image
    layers. What is past it is a number, or not drawn, and named. How large an image is, is known by its head."""
    bench = Bench(empty=True)
    with bench as page:
        assert page.js('return roskevad.tilesets.budget.left') == 134_217_728
        page.js('roskevad.tilesets.most = arguments[0]', TENTH)
        # Three of these have their place, and a fourth one has not.
        write_png(bench.folder / 'large.png', 2048, 2048)
        large = (bench.folder / 'large.png').read_bytes()
        images = {f's{at}.png': large for at in range(6)}
        text, files = strangers.map_of_tilesets(5)
        words = shown(page, text, {**images, **files})
        assert drawn_tilesets(page) == [True, True, True, False, False], words
        assert 's3.png, s4.png' in words and 's2.png' not in words, words
        assert page.js('return roskevad.tilesets.all.map(each => each.held)') == [32] * 5, 'how many tiles each image has is known'
        # Another map has all of it anew.
        text, files = strangers.map_of_tilesets(3)
        assert 'png' not in shown(page, text, files) and drawn_tilesets(page) == [True] * 3
        words = shown(page, strangers.map_of_images(6, 's{}.png'), images)
        assert 's3.png, s4.png, s5.png' in words and 's2.png' not in words, words
        # A copy without the clear colour counts once; one with a tint counts besides.
        words = shown(page, strangers.map_of_images(4, 's{}.png', transparentcolor='#010101'), images)
        assert 's3.png' in words and 's2.png' not in words, words
        assert 'tints' in shown(page, strangers.map_of_images(2, 's{}.png', tintcolor='#ff0000'), images)
        # The picture of this one is larger than its screen; and no head tells more than all images may have.
        odd = {'wide.gif': strangers.gif((1, 1), (60_000, 60_000)), 'huge.png': large[:16] + (60_000).to_bytes(4, 'big') * 2 + large[24:]}
        for name in odd:
            words = shown(page, strangers.map_of_images(1, name), odd)
            assert f'{name}, which has 60,000 × 60,000 pixels' in words, words
            passed()


MADE = '''
const [kind, done] = arguments, canvas = new OffscreenCanvas(24, 16), pen = canvas.getContext("2d");
pen.fillStyle = "#c04080";
pen.fillRect(0, 0, 24, 16);
canvas.convertToBlob({type: `image/${kind}`, quality: 1}).then(blob => blob.arrayBuffer()).then(bytes => done([blob = kind, [...new Uint8Array(bytes)]][1]));'''


def test_kinds_of_images():
    """A PNG, a JPEG, a GIF, a WebP and a BMP are drawn; an SVG is named."""
    with Bench(empty=True) as page:
        images = {f'i.{kind}': bytes(page.driver.execute_async_script(MADE, kind)) for kind in ('png', 'jpeg', 'webp')}
        images |= {'i.gif': strangers.gif((1, 1), (1, 1)), 'i.bmp': strangers.bmp(20, (0xC0, 0x40, 0x80))}
        code = 'const image = [...roskevad.view.images.all.values()][1] ?? [...roskevad.view.images.all.values()][0]; return [image.width, image.height]'
        sizes = {'i.gif': [1, 1], 'i.bmp': [20, 20]}
        for name, data in images.items():
            assert name not in shown(page, strangers.map_of_images(1, name), {name: data}), name
            assert page.js(code) == sizes.get(name, [24, 16]), name
            passed()
        svg = {'i.svg': strangers.SVG, 'text.png': 'hello'}
        assert 'the image i.svg, which is an SVG' in shown(page, strangers.map_of_images(1, 'i.svg'), svg)
        assert 'the image text.png, which is no PNG' in shown(page, strangers.map_of_images(1, 'text.png'), svg)
        text, files = strangers.map_of_tilesets(1)
        shown(page, text, {'s0.tsj': files['s0.tsj'].replace('s0.png', 'i.svg')})
        assert 'i.svg is an SVG' in page.notices()[0] and drawn_tilesets(page) == [False]


def test_long_texts():
    """Texts and names are cut before they are measured, and so is the value of a property, which stays whole; corners and
    objects are counted."""
    with Bench(empty=True) as page:
        words = shown(page, strangers.map_of_thing(text={'text': 'word ' * 400_000, 'wrap': True}, name='n' * 1_000_000))
        assert 'the rest of texts of more than 4,096 letters' in words, words
        name = page.texts('#objects [data-object="1"] .name')[0]
        assert 200 <= len(name) < 300 and name.endswith('…'), len(name)
        # All texts together have a bound, too.
        assert 'the rest of texts' in shown(page, strangers.map_of_texts(200, 2000))
        assert 'the rest of texts' not in shown(page, strangers.map_of_texts(100, 2000))
        # More points than a call takes arguments.
        points = [{'x': at % 777, 'y': at * 7 % 555} for at in range(150_000)]
        assert 'some of more than 65,536 corners' in shown(page, strangers.map_of_thing(polygon=points))
        page.js('roskevad.tools.choose("objects"); roskevad.bench.chooseObject(1)')
        page.settle()
        words = shown(page, strangers.map_of_objects(10_000))
        assert 'shapes and names where more than 4,000 objects are seen' in words, words


def test_long_property():
    with Bench(empty=True) as page:
        for kind, value, why in (('string', 'v' * 3_000_000, ''), ('class', {f'm{at}': {'in': 'v' * 9} for at in range(5000)}, '')):
            shown(page, strangers.map_with_property(kind, value))
            page.click('#of-map')
            field = page.find('[data-key="long"]')
            text = field.get_property('value')
            assert len(text) == 1025 and text.endswith('…'), (kind, len(text))
            assert not field.is_enabled() and any(words in page.find('[data-property="long"] .barred').text for words in ('first 1,024', 'more than 200 members'))
            [kept] = [each['value'] for each in page.editor.map()['properties'] if each['name'] == 'long']
            assert kept == value, f'{why}the value is as it was'
            passed()


# ---- long sessions


SAID = 'return document.getElementById("bubble").textContent'
# Plays stamps by the page's dialog: so many, behind some lines and before others.
PLAY = HELD + '''
const [before, count, behind] = arguments;
globalThis.stamps = Array.from({length: count}, (_, at) => `stamp 1 ${at % 40} ${Math.floor(at / 40) % 30} 1 ${1 + at % 30}`);
document.getElementById("play").click();
document.querySelector("#session textarea").value = [...before, ...stamps, ...behind].join("\\n");
document.querySelector("#session [type=submit]").click();'''
# Whether the session so far ends with the first of these stamps, before some other lines.
ENDS = '''
const [count, others] = arguments, lines = roskevad.editor.copied().split("\\n").slice(0, -1);
return lines.length > count && lines.slice(lines.length - count - others, lines.length - others).every((line, at) => line === stamps[at]);'''


def by_button(page):
    page.js('document.querySelector("#playing button").click()')


def by_escape(page):
    ActionChains(page.driver).send_keys(Keys.ESCAPE).perform()


def stopped(page, stop):
    """Waits until a session is played, stops it, and gives how many lines it tells then, and what it says."""
    page.wait(lambda: page.js('return document.querySelector("#playing progress")?.value > 2000'), 'it is played')
    told = page.find('#playing p').text
    assert re.fullmatch(r'[\d,]+ of [\d,]+ lines', told), told
    # All else takes nothing meanwhile.
    under = page.js('const [x, y] = roskevad.view.middleOf(5, 5); return document.elementFromPoint(x, y)?.closest("#view")?.id ?? ""')
    assert under == '', under
    ActionChains(page.driver).send_keys('e').perform()
    stop(page)
    page.settle()
    assert page.js('return roskevad.tools.name') == 'brush', 'no key came to the tools'
    held = page.js('return held')
    assert held < LONGEST, held
    said = page.js(SAID)
    found = re.search(r'Stopped after ([\d,]+) of [\d,]+ lines', said)
    assert found, said
    return int(found[1].replace(',', '')), said


def test_stop():
    """A session of many edits shows how far it is, and is stopped by the button and by Escape: what was done is one
    step, and undone by one key."""
    with Bench() as page:
        before = page.editor.shown()
        for stop in (by_button, by_escape):
            page.js(PLAY, [], SESSION, [])
            count, said = stopped(page, stop)
            assert 0 < count < SESSION and 'as one step' in said, said
            assert standing(page) == (1, 1) and page.js(ENDS, count, 1), said
            page.ctrl('z')
            assert page.editor.shown() == before and standing(page) == (0, 1)


def test_refused_lines():
    """Where a line is refused behind many parts, nothing is changed; of a session that is no edits alone, what was done
    before a stop stays, as its own steps."""
    with Bench() as page:
        before = page.editor.shown()
        page.js(PLAY, [], 20_000, ['stamp 99 0 0 1 5', 'erase 1 0 0 9 9'])
        page.wait(lambda: 'Line' in page.js(SAID), 'what was refused is said')
        said = page.js(SAID)
        assert said.startswith('Line 20,001 of 20,002') and said.endswith('Nothing is changed.'), said
        assert page.editor.shown() == before
        page.js(PLAY, ['use town'], SESSION, [])
        count, said = stopped(page, by_button)
        assert 'as one step' not in said and page.js(ENDS, count - 1, 0), said
        index, steps = standing(page)
        assert index == steps > 1000, (index, steps)
