# SPDX-License-Identifier: MIT OR Apache-2.0
"""Copies, keeps and pastes tiles and objects on the page in Chromium, between maps whose tilesets stand in
another order, at other first ids, in another folder, in the map itself, or not at all: a tile stays the
tile that it was, or is refused by name. A copy that is refused leaves nothing older to be pasted."""
import json
import random

from lib.cases import passed
from lib.maps import objects_in
from lib.places import EXAMPLE_MAPS
from page.bench import Bench, choose, spelled, standing

NEEDS_BROWSER = True
IS_LONG = True
WIDTH, HEIGHT = 8, 6
# Tiles of `tiles.tsx` by their numbers where its first id is 1: in several flips and turns.
FLIPS = (0x80000000, 0x40000000, 0x20000000, 0x10000000)
TILES = [5, FLIPS[0] | 12, FLIPS[1] | 1, sum(FLIPS[:3]) | 32, FLIPS[3] | 3]
# A tileset that a map has in itself.
BRICKS = {'columns': 8, 'image': 'tiles.png', 'imageheight': 64, 'imagewidth': 128, 'margin': 0, 'name': 'bricks', 'spacing': 0,
          'tilecount': 32, 'tileheight': 16, 'tilewidth': 16}  # fmt: skip
# Maps by their names: their tilesets, each with its first id, and the first of their cells.
MAPS = {
    'one': ([(1, 'tiles.tsx')], TILES),
    'two': ([(1, 'furniture.tsx'), (5, 'town.tsj'), (37, 'tiles.tsx')], []),
    'twice': ([(1, 'tiles.tsx'), (33, 'tiles.tsx')], [37]),
    'third': ([(1, 'furniture.tsx'), (5, 'tiles.tsx'), (37, 'tiles.tsx')], []),
    'few': ([(1, 'furniture.tsx')], [2, FLIPS[0] | 9]),
    'both': ([(1, 'tiles.tsx'), (33, 'walls.tsj')], [6, 35]),
    'embedded': ([(1, 'tiles.tsx'), (33, BRICKS)], [37, FLIPS[0] | 38]),
    'turned': ([(1, dict(reversed(BRICKS.items())))], []),
    'other': ([(1, {**BRICKS, 'margin': 1})], []),
    'far': ([(1, 'tiles.tsx')], [40, 5]),
    'near': ([(1, 'furniture.tsx'), (5, 'tiles.tsx'), (37, 'town.tsj')], []),
    'lost': ([(1, 'gone.tsx')], [20]),
    'tight': ([(1, 'gone.tsx'), (11, 'tiles.tsx')], []),
    'loose': ([(1, 'tiles.tsx'), (33, 'gone.tsx')], []),
    'sub/deep': ([(1, '../furniture.tsx'), (5, '../tiles.tsx')], []),
    'sub/bare': ([(1, '../furniture.tsx')], []),
    'sub/alike': ([(1, 'tiles.tsx')], []),
}


TAKEN = 'roskevad.editor.place.take([{path: arguments[0], bytes: new TextEncoder().encode(arguments[1])}])'


def map_with(tilesets, cells=()):
    """The text of a map of one tile layer, with these cells in front."""
    told = json.loads((EXAMPLE_MAPS / 'layers.tmj').read_text())
    layer = {**told['layers'][0], 'data': [*cells, *[0] * (WIDTH * HEIGHT - len(cells))]}
    sets = [{'firstgid': first, **({'source': each} if isinstance(each, str) else each)} for first, each in tilesets]
    return json.dumps({**told, 'layers': [layer], 'tilesets': sets})


def put_maps(folder, *names):
    for name in names:
        (folder / f'{name}.tmj').write_text(map_with(*MAPS[name]))


class Maps(Bench):
    """The page with some of the maps open, the first one shown."""

    def __init__(self, *names, **options):
        super().__init__(empty=True, has_log=False, **options)
        (self.folder / 'sub').mkdir()
        put_maps(self.folder, *names)
        other = (EXAMPLE_MAPS / 'furniture.tsx').read_text().replace('furniture.png', '../furniture.png')
        (self.folder / 'sub' / 'tiles.tsx').write_text(other)
        for name in names:
            path = f'{name}.tmj'
            if self.server is None:
                self.page.js(TAKEN, path, (self.folder / path).read_text())
            open_map(self.page, path)
        go(self.page, names[0])


def open_map(page, path):
    page.js('return roskevad.documents.openPath(arguments[0]).then(() => null)', path)
    page.settle()


def go(page, name):
    """Shows a map by its tab."""
    document = name.rpartition('/')[2]
    page.click(f'.tab[data-document="{document}"]')
    assert page.editor.state()['active'] == document


def cells(page, row, count=WIDTH):
    return page.editor.map()['layers'][0]['data'][row * WIDTH :][:count]


def copy(page, count, key='c'):
    """Selects the first cells of the map, copies them, and selects nothing."""
    page.editor.lines(f'select replace 0 0 {count} 1')
    page.ctrl(key)
    page.editor.lines('select none')


def draw(page, row, count=1):
    """Draws the stamp, which is so wide, from the first cell of a row on."""
    page.stroke([(count // 2, row)])


def hand(page):
    return page.js('return roskevad.bench.stamp.values')


def say_nothing(page):
    page.js('roskevad.bench.bubble.hide()')


def notices_of(page, word):
    return [each for each in page.notices() if word in each]


def moved(values, by):
    return [value + by for value in values]


# ---- what a tile is on another map


def test_other_order():
    """A copied tile is the same tile of the same tileset, with its flips, on a map whose tilesets stand in
    another order, and back. Where one stands twice it is the first, but on the map that it is of."""
    with Maps('one', 'two', 'twice', 'third') as page:
        copy(page, 5)
        go(page, 'two')
        page.ctrl('v')
        draw(page, 2, 5)
        assert cells(page, 2, 5) == moved(TILES, 36), cells(page, 2)
        page.editor.lines('select replace 0 2 5 1')
        page.ctrl('c')
        go(page, 'one')
        page.ctrl('v')
        draw(page, 3, 5)
        assert cells(page, 3, 5) == TILES and not page.bubble() and not page.notices()
        passed()
        for name, wanted in (('twice', 5), ('third', 9)):
            copy(page, 1)
            go(page, name)
            page.ctrl('v')
            draw(page, 2)
            assert cells(page, 2, 1) == [wanted], (name, cells(page, 2))
            go(page, 'one')
            passed()
        go(page, 'twice')
        copy(page, 1)
        page.ctrl('v')
        draw(page, 3)
        assert cells(page, 3, 1) == [37], 'it stays as it is on its own map'
        go(page, 'third')
        page.ctrl('v')
        draw(page, 3)
        assert cells(page, 3, 1) == [9]


def test_missing_tileset():
    """A tileset that the map does not have is named, nothing is pasted, and it is offered: its first id is
    behind all that is known or used. Several are added as one step. One that is taken away again takes the
    stamp with it."""
    with Maps('one', 'few', 'both') as page:
        copy(page, 5)
        go(page, 'few')
        say_nothing(page)
        page.ctrl('v')
        assert 'tiles.tsx' in page.bubble() and 'Nothing was pasted' in page.bubble(), page.bubble()
        draw(page, 2, 5)
        assert standing(page) == (0, 0), (spelled(page), hand(page))
        page.answer('OK')
        page.ctrl('v')
        page.answer('Add it')
        assert spelled(page) == ['tileset add 10 tiles.tsx'] and not page.notices()
        assert page.js('return roskevad.palette.tileset.first') == 10, 'its tiles are shown'
        draw(page, 2, 5)
        assert cells(page, 2, 5) == moved(TILES, 9)
        passed()
        page.ctrl('z')
        page.ctrl('z')
        assert standing(page) == (0, 2) and 'tiles.tsx' in page.bubble() and hand(page) == [0], page.bubble()
        draw(page, 3)
        assert standing(page) == (0, 2), 'a number past the end of another tileset is not drawn'
        go(page, 'both')
        copy(page, 2)
        go(page, 'few')
        page.ctrl('v')
        [told] = notices_of(page, 'walls.tsj')
        assert 'tiles.tsx and walls.tsj' in told, told
        page.answer('Add them')
        wanted = ['begin Add Tilesets || add tilesets', 'tileset add 10 tiles.tsx', 'tileset add 42 walls.tsj', 'end']
        assert spelled(page)[-4:] == wanted, spelled(page)
        draw(page, 2, 2)
        assert cells(page, 2, 2) == [15, 44] and standing(page) == (2, 2)
        passed()


def test_folders():
    """A tileset is known by its file, from whichever folder a map names it: the same file by another path, and
    another file by the same path."""
    with Maps('one', 'sub/deep', 'sub/bare', 'sub/alike', served=True) as page:
        copy(page, 5)
        go(page, 'sub/deep')
        page.ctrl('v')
        draw(page, 2, 5)
        assert cells(page, 2, 5) == moved(TILES, 4)
        go(page, 'sub/bare')
        page.ctrl('v')
        page.answer('Add it')
        assert spelled(page)[-1] == 'tileset add 5 ../tiles.tsx', spelled(page)
        draw(page, 2, 5)
        assert cells(page, 2, 5) == moved(TILES, 4)
        go(page, 'sub/alike')
        say_nothing(page)
        page.ctrl('v')
        assert 'does not have the tileset tiles.tsx' in page.bubble(), page.bubble()
        draw(page, 2, 5)
        assert standing(page) == (0, 0), spelled(page)


def test_tilesets_in_maps():
    """A tileset that a map has in itself is known by its members, in whatever order. No line adds it to another
    map, so there it is refused by name."""
    with Maps('embedded', 'turned', 'other') as page:
        copy(page, 2)
        go(page, 'turned')
        page.ctrl('v')
        draw(page, 2, 2)
        assert cells(page, 2, 2) == [5, FLIPS[0] | 6]
        go(page, 'other')
        say_nothing(page)
        page.ctrl('v')
        assert 'bricks, which embedded.tmj has in itself' in page.bubble(), page.bubble()
        draw(page, 2, 2)
        assert not spelled(page) and not notices_of(page, 'embedded')


def test_past_the_end():
    """A tile past the end of its tileset is not pasted on another map, where its number would be another tile,
    also where only the next tileset tells where it ends. On its own map it is drawn where the user says so."""
    with Maps('far', 'near', 'lost', 'tight', 'loose') as page:
        copy(page, 2)
        draw(page, 2, 2)
        assert 'tiles.tsx has 32 tiles, and no tile 39' in page.bubble() and cells(page, 2, 2) == [0, 0], page.bubble()
        page.answer('Draw it all the same')
        draw(page, 2, 2)
        assert cells(page, 2, 2) == [40, 5]
        passed()
        go(page, 'near')
        say_nothing(page)
        page.ctrl('v')
        assert 'tiles.tsx has 32 tiles, and no tile 39' in page.bubble(), page.bubble()
        draw(page, 2, 2)
        assert not spelled(page) and not page.notices()
        passed()
        go(page, 'lost')
        copy(page, 1)
        go(page, 'tight')
        say_nothing(page)
        page.ctrl('v')
        assert 'Tile 19 of gone.tsx' in page.bubble(), page.bubble()
        draw(page, 2)
        assert not spelled(page)
        passed()
        go(page, 'loose')
        page.ctrl('v')
        draw(page, 2)
        assert cells(page, 2, 1) == [52]


def test_shorter_file():
    """A tile is refused by name where the file of its tileset has become shorter since it was copied."""
    bench = Maps('one', 'two', served=True)
    with bench as page:
        copy(page, 5)
        (bench.folder / 'tiles.tsx').write_text((EXAMPLE_MAPS / 'furniture.tsx').read_text())
        go(page, 'two')
        page.ctrl('v')
        assert 'tiles.tsx has 4 tiles, and no tile ' in page.bubble(), page.bubble()
        draw(page, 2, 5)
        assert standing(page) == (0, 0), spelled(page)


# The tilesets of maps by chance, and how many tiles each has; of one nobody knows it.
SIZES = {'tiles.tsx': 32, 'furniture.tsx': 4, 'town.tsj': 32, 'gone.tsx': None, 'bricks': 32}
COPIED = '''
const {numbers} = roskevad.bench.carried, [values] = arguments;
(globalThis.copies ??= []).push(numbers.copyOf({width: values.length, height: 1, values}));'''
READ = '''
return copies.map(copy => {
  const {values, lost, past} = roskevad.bench.carried.numbers.read(copy);
  return values ?? {lost: lost.length, past: past.length};
});'''


def random_map(numbers):
    """Some tilesets, each with its first id, and some numbers of their tiles, of which a few are past the end."""
    names, first, sets, values = list(SIZES), 1, [], []
    for _ in range(numbers.randrange(1, 5)):
        name = numbers.choice(names)
        end = first + numbers.choice([2, 4, 32, 40])
        sets.append((first, name))
        values += [numbers.randrange(16) << 28 | numbers.randrange(first, end) for _ in range(numbers.randrange(3))]
        first = end
    return sets, values or [sets[0][0]]


def tile_of(value, sets):
    """The tileset of a number, and the tile's id there."""
    first, name = max(each for each in sets if each[0] <= value & 0x0FFFFFFF)
    return name, (value & 0x0FFFFFFF) - first


def number_of(value, sets, others):
    """The number that a tile has on a map with other tilesets; `lost` or `past` where it has none."""
    name, tile = tile_of(value, sets)
    first = min((first for first, each in others if each == name), default=None)
    if SIZES[name] is not None and tile >= SIZES[name]:
        return 'past'
    if first is None:
        return 'lost'
    return value & 0xF0000000 | first + tile if tile_of(first + tile, others) == (name, tile) else 'past'


def is_read(told, values, sets, others):
    """Whether what the page makes of a copy is what it must be."""
    wanted = [number_of(value, sets, others) for value in values]
    if not {'lost', 'past'} & set(wanted):
        return told == wanted
    lost = {tile_of(value, sets)[0] for value, each in zip(values, wanted) if each == 'lost'}
    return isinstance(told, dict) and told['lost'] >= len(lost) and bool(told['past']) == ('past' in wanted)


def test_maps_by_chance():
    """Between maps with tilesets by chance each number is that of the same tile, or there is none."""
    numbers = random.Random(20261128)
    made = [random_map(numbers) for _ in range(14)]
    with Maps('one') as page:
        for at, (sets, _) in enumerate(made):
            text = map_with([(first, BRICKS if name == 'bricks' else name) for first, name in sets])
            page.js(TAKEN, f'map{at}.tmj', text)
            open_map(page, f'map{at}.tmj')
            page.js(COPIED, made[at][1])
        whole = 0
        for at, (others, values) in enumerate(made):
            page.editor.lines(f'use map{at}')
            told = page.js(READ)
            assert told[at] == values, 'on its own map a number stays'
            for other, (sets, copied) in enumerate(made):
                assert other == at or is_read(told[other], copied, sets, others), (sets, copied, others, told[other])
                whole += other != at and isinstance(told[other], list)
                passed()
        assert 20 < whole < 140, whole


# ---- the hand, and what is kept


def test_hand():
    """Behind a change of tab the hand has the same tiles, by their numbers there; where that map does not have
    them it has none, and the tileset is named. Nobody has taken the first tile of a map, so it goes without a
    word."""
    with Maps('one', 'two', 'few', 'both') as page:
        assert [hand(page), page.bubble()] == [[1], '']
        page.js('roskevad.bench.takeStamp({width: 2, height: 1, values: arguments[0]})', TILES[:2])
        page.editor.lines('new fresh 8 6 16 16 town.tsj', 'tileset add 33 tiles.tsx')
        page.editor.lines('use one', 'layer add tile Upper')
        page.js('roskevad.layouts.all.clear()')
        go(page, 'two')
        assert hand(page) == moved(TILES[:2], 36)
        draw(page, 2, 2)
        assert cells(page, 2, 2) == moved(TILES[:2], 36)
        page.keys('x')
        passed()
        page.js('roskevad.layouts.all.clear()')
        go(page, 'few')
        assert 'put down' in page.bubble() and 'tiles.tsx' in page.bubble(), page.bubble()
        for key in 'bfp':
            page.keys(key)
            draw(page, 2)
            assert hand(page) == [0] and not spelled(page) and 'No tile' in page.bubble(), key
        page.ctrl('5')
        assert 'no stamp is kept' in page.bubble()
        passed()
        go(page, 'two')
        assert hand(page) == [FLIPS[0] ^ value for value in moved(TILES[1::-1], 36)], 'it has its own stamp'
        page.js('roskevad.layouts.all.clear()')
        go(page, 'fresh')
        assert hand(page) == [FLIPS[0] ^ value for value in moved(TILES[1::-1], 32)]
        page.editor.lines('undo')
        assert 'put down' in page.bubble() and hand(page) == [0], page.bubble()


SLOW = '''
const {place} = roskevad.editor, bytes = place.bytes;
const read = new Promise(done => globalThis.letRead = done);
place.bytes = async path => {
  await read;
  return bytes.call(place, path);
};'''


def test_slow_files():
    """While the tilesets of another map are read the hand has its tiles already; the tiles that are still shown are
    those of the map before, and none of them is taken."""
    with Maps('one', 'two') as page:
        page.js('roskevad.bench.takeStamp({width: 1, height: 1, values: arguments[0]}); roskevad.layouts.all.clear()', TILES[:1])
        page.js(SLOW + 'roskevad.bench.act(["use two"])')
        page.wait(lambda: page.js('return roskevad.editor.openDocuments.active') == 'two', 'the other map')
        assert hand(page) == moved(TILES[:1], 36)
        page.js('roskevad.palette.takeTiles([3, 0], [3, 0])')
        assert 'still being read' in page.bubble() and hand(page) == moved(TILES[:1], 36), page.bubble()
        page.js('letRead()')
        page.settle()
        page.js('roskevad.palette.choose(5)')
        page.js('roskevad.palette.takeTiles([3, 0], [3, 0])')
        assert hand(page) == [8]


def test_digits():
    """A stamp that is kept on a digit is the same tiles on each map; a missing tileset is offered."""
    with Maps('one', 'two', 'few') as page:
        page.js('roskevad.bench.takeStamp({width: 2, height: 1, values: arguments[0]})', TILES[:2])
        page.ctrl('2')
        go(page, 'two')
        page.keys('2')
        assert hand(page) == moved(TILES[:2], 36)
        go(page, 'few')
        say_nothing(page)
        page.keys('2')
        assert 'tiles.tsx' in page.bubble() and 'Nothing was taken' in page.bubble(), page.bubble()
        page.answer('Add it')
        assert spelled(page) == ['tileset add 10 tiles.tsx'] and hand(page) == moved(TILES[:2], 9)
        go(page, 'one')
        page.ctrl('c')
        page.keys('2')
        assert hand(page) == TILES[:2]


OLD = '''
addEventListener("pagehide", () => {
  const all = JSON.parse(sessionStorage.getItem("roskevad-layouts"));
  for (const [, each] of all) each.stamp = each.stamp && {width: each.stamp.width, height: each.stamp.height, values: each.stamp.values};
  sessionStorage.setItem("roskevad-layouts", JSON.stringify(all));
});'''


def test_stored_stamps():
    """The stamp that a map keeps is the same tiles behind a reload, also where the map's file has them under
    other numbers by then. One that an earlier version has stored, as numbers alone, is for its own map."""
    bench = Maps('one', 'two', 'few', served=True)
    with bench as page:
        go(page, 'two')
        page.js('roskevad.bench.takeStamp({width: 2, height: 1, values: arguments[0]})', moved(TILES[:2], 36))
        go(page, 'one')
        page.js('roskevad.bench.takeStamp({width: 1, height: 1, values: [12]})')
        page.editor.lines('discard two')
        (bench.folder / 'two.tmj').write_text(map_with(*MAPS['third']))
        page.reload()
        open_map(page, 'two.tmj')
        assert hand(page) == moved(TILES[:2], 4)
        go(page, 'one')
        assert hand(page) == [12]
        (bench.folder / 'one.tmj').write_text(map_with(*MAPS['two']))
        page.js('window.dispatchEvent(new Event("focus"))')
        page.wait(lambda: notices_of(page, 'one.tmj has changed'), 'the change is told of')
        page.answer('Reload')
        assert hand(page) == [48], 'the map has other tilesets by now'
        passed()
        page.editor.lines('discard two')
        (bench.folder / 'two.tmj').write_text(map_with(*MAPS['few']))
        page.reload()
        open_map(page, 'two.tmj')
        assert hand(page) == [0] and 'tiles.tsx' in page.bubble(), page.bubble()
        passed()
        page.click('.tab')
        page.js(OLD)
        page.reload()
        assert hand(page) == [48]
        page.js('roskevad.layouts.all.delete([...roskevad.layouts.all.keys()].find(key => key.endsWith("few.tmj")))')
        go(page, 'few')
        assert hand(page) == [0] and 'tiles.tsx' in page.bubble(), page.bubble()


# ---- copies that are refused, and what the clipboard has


def test_refused_cells():
    """Behind a copy of cells that is refused nothing older is pasted, and that is said: nothing is selected, the
    cells are empty, no map is open. A cut that the layer bars copies all the same."""
    with Maps('one') as page:
        copy(page, 2)
        page.keys('r')
        page.ctrl('c')
        assert 'Select cells first' in page.bubble() and 'Nothing is copied any more' in page.bubble(), page.bubble()
        page.ctrl('v')
        assert page.bubble().startswith('Nothing is copied.') and page.js('return roskevad.tools.name') == 'select', page.bubble()
        passed()
        for key in 'cx':
            copy(page, 2)
            page.editor.lines('select replace 0 4 3 2')
            page.ctrl(key)
            assert 'empty' in page.bubble() and 'Nothing is copied any more' in page.bubble(), (key, page.bubble())
            page.ctrl('v')
            assert page.bubble().startswith('Nothing is copied.') and page.editor.state()['selection'], key
            passed()
        copy(page, 2)
        page.editor.lines('layer show 1 no', 'select replace 2 0 2 1')
        lines = spelled(page)
        page.ctrl('x')
        assert spelled(page) == lines and 'hidden' in page.bubble(), page.bubble()
        page.editor.lines('layer show 1 yes')
        page.ctrl('v')
        draw(page, 3, 2)
        assert cells(page, 3, 2) == TILES[2:4]
        passed()
        page.editor.lines('discard one')
        page.ctrl('c')
        assert 'Open a map first' in page.bubble(), page.bubble()
        page.ctrl('v')
        open_map(page, 'one.tmj')
        page.ctrl('v')
        assert page.bubble().startswith('Nothing is copied.'), page.bubble()


INN = 2


def test_refused_objects():
    """Behind a copy of an object that is refused, as too large, no other one is pasted."""
    bench = Bench(empty=True, has_log=False)
    with bench as page:
        town = json.loads((bench.folder / 'town.tmj').read_text())
        inn = next(each for each in objects_in(town) if each['id'] == INN)
        inn['polygon'] = [{'x': at % 100, 'y': at // 100} for at in range(5000)]
        (bench.folder / 'town.tmj').write_text(json.dumps(town))
        page.choose_files(bench.folder / 'town.tmj', *bench.folder.glob('*.ts?'))
        layer = choose(page, 'Places')
        page.editor.lines(f'object add {layer} 32 400 32 16 trap')
        page.keys('s')
        page.js('roskevad.bench.chooseObject(7)')
        page.ctrl('c')
        count = len(objects_in(page.editor.map()))
        page.js('roskevad.bench.chooseObject(arguments[0])', INN)
        for key in 'cxd':
            page.ctrl(key)
            assert 'is too large for a copy' in page.bubble(), key
        page.ctrl('v')
        assert len(objects_in(page.editor.map())) == count and page.bubble().startswith('Nothing is copied.'), page.bubble()
        page.js('roskevad.bench.chooseObject(7)')
        page.ctrl('c')
        page.js('roskevad.bench.chooseObject(null)')
        page.ctrl('c')
        assert 'Choose an object first' in page.bubble() and 'Nothing is copied any more' in page.bubble(), page.bubble()


def test_kinds():
    """What was copied last is pasted, whatever tool is in hand: an object into an object layer, cells into the
    hand. Selected cells of a tile layer are copied with Objects, too, where no object is chosen."""
    with Bench('town.tmj', 'objects.tmj', 'flips.tmj', has_log=False) as page:
        page.click('.tab[data-document="objects"]')
        [layer] = [each['id'] for each in page.editor.map()['layers'] if each['type'] == 'objectgroup']
        number = page.editor.map()['nextobjectid']
        page.editor.lines(
            f'object add {layer} 16 16 16 16 crate',
            f'prop set object:{number} key object 1',
            f'prop set object:{number} lid bool true',
        )
        page.keys('s')
        page.js('roskevad.bench.chooseObject(arguments[0])', number)
        page.ctrl('c')
        page.click('.tab[data-document="town"]')
        things, ground = choose(page, 'Things'), choose(page, 'Ground')
        page.keys('b')
        page.js('return roskevad.bench.act(arguments[0]).then(() => null)', ['layer add object Third'])
        say_nothing(page)
        page.ctrl('v')
        assert 'Choose an object layer first' in page.bubble() and len(spelled(page)) == 1, page.bubble()
        assert page.js('return roskevad.tools.name') == 'brush', 'the tool in hand is as it was'
        choose(page, 'Things')
        page.keys('b')
        page.ctrl('v')
        [_, added, _] = spelled(page)[1:]
        assert added.startswith(f'object put {things} '), added
        members = json.loads(added.split(' ', 3)[3])
        assert members['name'] == 'crate' and members['properties'] == [{'name': 'lid', 'type': 'bool', 'value': True}], members
        assert page.bubble().startswith('Without key'), page.bubble()
        assert page.js('return roskevad.tools.name') == 'objects', 'they are shown by that tool'
        passed()
        choose(page, 'Ground')
        page.js('roskevad.bench.chooseObject(null)')
        page.js('roskevad.bench.chooseLayer(arguments[0])', ground)
        page.keys('s')
        page.editor.lines('select replace 3 20 3 1')
        page.ctrl('c')
        assert len(hand(page)) == 3 and page.js('return roskevad.tools.name') == 'brush', page.bubble()
        page.keys('s')
        lines = len(spelled(page))
        page.ctrl('v')
        assert spelled(page)[lines:] == ['select none'] and page.js('return roskevad.tools.name') == 'brush'
        passed()
        page.click('.tab[data-document="flips"]')
        page.keys('s')
        say_nothing(page)
        page.stroke([(1, 1)])
        assert 'no objects' in page.bubble()


def add_things(page, *objects):
    """Adds an object layer with objects to the map that is shown; the ids of these."""
    page.editor.lines('layer add object Things')
    layer = page.editor.map()['layers'][-1]['id']
    first = page.editor.map()['nextobjectid']
    page.editor.lines(*[f'object put {layer} {json.dumps(each)}' for each in objects])
    page.js('roskevad.bench.chooseLayer(arguments[0])', layer)
    return list(range(first, first + len(objects)))


def copy_object(page, number):
    page.keys('s')
    page.js('roskevad.bench.chooseObject(arguments[0])', number)
    page.ctrl('c')


def pasted(page):
    """Pastes, and gives the object that has come; None where nothing was pasted."""
    before = {each['id'] for each in objects_in(page.editor.map())}
    page.ctrl('v')
    come = [each for each in objects_in(page.editor.map()) if each['id'] not in before]
    return come[0] if come else None


SIGN = {'name': 'sign', 'type': 'Sign', 'x': 32, 'y': 32, 'width': 16, 'height': 16, 'rotation': 90}


def test_tile_objects():
    """The tile of an object is the same tile on another map, with its flips and whichever number it has there. Where
    the tileset is missing nothing is pasted, and it is offered; the stamp in hand stays."""
    with Maps('one', 'two', 'few') as page:
        numbers = add_things(page, *[{**SIGN, 'gid': gid} for gid in TILES[:4]])
        for name in ('two', 'few'):
            go(page, name)
            add_things(page)
        for number, gid in zip(numbers, TILES):
            go(page, 'one')
            copy_object(page, number)
            assert not page.notices() and pasted(page)['gid'] == gid, 'at home it stays'
            go(page, 'two')
            made = pasted(page)
            assert {**SIGN, 'gid': gid + 36}.items() <= {**made, 'x': 32, 'y': 32}.items(), made
            assert page.texts('#steps .now .name') == ['Paste Object · sign']
            passed()
        go(page, 'few')
        stamp, count = hand(page), standing(page)[1]
        assert pasted(page) is None and 'tiles.tsx' in page.bubble() and 'Nothing was pasted' in page.bubble(), page.bubble()
        assert hand(page) == stamp and standing(page)[1] == count
        page.answer('Add it')
        [made], [added] = objects_in(page.editor.map()), page.editor.map()['tilesets'][1:]
        assert added['source'] == 'tiles.tsx' and made['gid'] == (TILES[3] - 1) + added['firstgid'], made
        assert standing(page)[1] == count + 2


def test_objects_elsewhere():
    """On a map in another folder an object names the same files, as its template and in properties; what no file is
    stays as it is, and so does a web address. Properties that name an object are left out there, but for none."""
    files = [{'name': 'sound', 'type': 'file', 'value': 'sounds/ouch.ogg'}, {'name': 'none', 'type': 'file', 'value': ''}]
    files += [{'name': 'page', 'type': 'file', 'value': 'https://a.example/b'}, {'name': 'text', 'type': 'string', 'value': 'sounds/ouch.ogg'}]
    named = [{'name': 'key', 'type': 'object', 'value': 1}, {'name': 'no key', 'type': 'object', 'value': 0}]
    with Maps('one', 'sub/deep', 'two', served=True) as page:
        [number] = add_things(page, {'template': 'signs/wood.tj', 'x': 8, 'y': 8, 'properties': [*files, *named]})
        for name in ('two', 'sub/deep'):
            go(page, name)
            add_things(page)
        go(page, 'one')
        copy_object(page, number)
        assert pasted(page)['properties'] == [*files, *named]
        for name, up in (('two', ''), ('sub/deep', '../')):
            go(page, name)
            made = pasted(page)
            assert made['template'] == f'{up}signs/wood.tj'
            values = [f'{up}sounds/ouch.ogg', '', 'https://a.example/b', 'sounds/ouch.ogg', 0]
            assert [each['value'] for each in made['properties']] == values, made
            assert page.bubble().startswith('Without key:'), page.bubble()
            passed()
        assert all('wood.tj' in each['message'] for each in page.log()), 'the file of the template is not there'
