# SPDX-License-Identifier: MIT OR Apache-2.0
"""Works on the page while its journal fails: maps that cannot be shown, rows of the database that are damaged, a
database that takes nothing for a time or has lost what it had, journals of which only the maps come back, and full
ones with an open macro. What was done is not lost; where it is, the page says so."""
import time

from lib.cases import passed
from lib.maps import compact
from lib.places import EXAMPLE_MAPS
from page.bench import Bench, cell, spelled, standing
from page.browser import Keys

NEEDS_BROWSER = True
IS_LONG = True
# A word of a map that cannot be shown: its outline does not become a tree.
UNSHOWABLE = 'cannot be shown'
# Has texts with that word be refused by JSON.parse, from which the outline of a map comes.
BAR = '''
const parse = JSON.parse;
JSON.parse = (text, ...more) => {
  if (String(text).includes("cannot be shown")) throw new RangeError("Array buffer allocation failed");
  return parse(text, ...more);
};'''
# Has the database take nothing for as long as globalThis.isFull.
FILL = '''
const {put} = IDBObjectStore.prototype;
globalThis.isFull = false;
IDBObjectStore.prototype.put = function (...words) {
  if (globalThis.isFull) throw new DOMException("It has no room.", globalThis.fault ?? "QuotaExceededError");
  return put.apply(this, words);
};'''
LATER = '''
const done = arguments[arguments.length - 1], words = arguments;
(async () => CODE)().then(told => done(told ?? null), fault => done(`throws ${fault}`));'''


def later(page, code, *words):
    """What a promise gives."""
    return page.driver.execute_async_script(LATER.replace('CODE', code), *words)


def fill(page, is_full=True):
    page.js('globalThis.isFull = arguments[0]', is_full)


def sign(page):
    """What the bar below the map says of the journal."""
    found = page.find('#kept')
    return found.text if found.is_displayed() else ''


def wait_kept(page):
    page.wait(lambda: page.js('return roskevad.editor.journal.isKept'), 'the journal goes on')
    page.settle()


def unshowable(bench, name='strange.tmj'):
    """A map of the folder that has the word."""
    text = (EXAMPLE_MAPS / 'layers.tmj').read_text()
    at = text.index('{') + 1
    word = f'"properties":[{{"name":"is","type":"string","value":"{UNSHOWABLE}"}}],'
    (bench.folder / name).write_text(text[:at] + word + text[at:])
    return bench.folder / name


def with_tabs(page):
    return [each['name'] for each in page.editor.state()['documents']]


# ---- maps that cannot be shown


def test_a_map_that_is_not_opened():
    """A map that cannot be shown is closed again, which is told with why; the journal never has it, so what else is
    open comes back when the page is loaded anew."""
    bench = Bench(has_log=False)
    with bench as page:
        page.editor.lines('stamp 1 3 20 1 12', 'stamp 1 4 20 1 12')
        before = page.editor.shown()
        page.js(BAR)
        page.choose_files(unshowable(bench))
        [told] = page.notices()
        assert told.startswith('strange.tmj was not opened') and 'more memory than there is' in told, told
        assert with_tabs(page) == ['town'] and standing(page) == (2, 2)
        assert page.editor.shown() == before
        page.editor.lines('stamp 1 5 20 1 12')
        page.reload()
        assert with_tabs(page) == ['town'] and standing(page) == (3, 3) and page.notices() == []


def test_a_map_that_is_not_shown_any_more():
    """Where a journal has a map that cannot be shown, all else comes back, and what it has done stays; it can be
    forgotten, but not by Enter."""
    bench = Bench(has_log=False)
    with bench as page:
        page.editor.lines('stamp 1 3 20 1 12', 'stamp 1 4 20 1 12')
        page.choose_files(unshowable(bench))
        page.editor.lines('prop set map author string me')
        at_start = page.driver.execute_cdp_cmd('Page.addScriptToEvaluateOnNewDocument', {'source': BAR})
        try:
            for _ in range(2):
                page.reload()
                assert with_tabs(page) == ['town', 'strange']
                [told] = page.notices()
                assert 'strange.tmj cannot be shown' in told and 'more memory than there is' in told, told
                assert standing(page) == (1, 1), 'its own step is there'
            page.click('.tab[data-document="town"]')
            assert standing(page) == (2, 2) and page.notices() == []
            page.editor.lines('undo', 'redo')
            page.click('.tab[data-document="strange"]')
            page.answer('Forget')
            page.driver.switch_to.active_element.send_keys(Keys.ENTER)
            page.settle()
            assert with_tabs(page) == ['town', 'strange'], 'Enter forgets nothing'
            page.answer('Forget')
            page.fill_in('Forget')
            assert with_tabs(page) == ['town'] and page.notices() == []
            page.reload()
            assert with_tabs(page) == ['town'] and standing(page) == (2, 2)
        finally:
            page.driver.execute_cdp_cmd('Page.removeScriptToEvaluateOnNewDocument', at_start)


def test_a_drawing_that_throws():
    """Where a drawing throws, whatever it is, the page is there, with all documents and steps."""
    throw = '''
    for (const name of ["fillRect", "drawImage", "clearRect"]) {
      const was = CanvasRenderingContext2D.prototype[name];
      CanvasRenderingContext2D.prototype[name] = function (...words) {
        if (this.canvas.id === "map" && document.querySelector(".tab")) throw new TypeError("not drawn");
        return was.apply(this, words);
      };
    }'''
    with Bench('town.tmj', 'layers.tmj', has_log=False) as page:
        page.editor.lines('use layers', 'prop set map author string me')
        page.editor.lines('use town', 'stamp 1 3 20 1 12')
        at_start = page.driver.execute_cdp_cmd('Page.addScriptToEvaluateOnNewDocument', {'source': throw})
        try:
            page.reload()
            page.editor.lines('stamp 1 4 20 1 12', 'use layers')
            assert with_tabs(page) == ['town', 'layers'] and standing(page) == (1, 1)
            page.driver.get_log('browser')
        finally:
            page.driver.execute_cdp_cmd('Page.removeScriptToEvaluateOnNewDocument', at_start)
        page.reload()
        page.driver.get_log('browser')
        page.editor.lines('use town')
        assert standing(page) == (2, 2) and page.notices() == []


def test_the_mark_of_a_replay():
    """A journal counts as being replayed until its map is drawn: where drawing ends the page, it is not taken up again
    unasked."""
    look = '''
    const {fillRect} = CanvasRenderingContext2D.prototype;
    globalThis.marks = [];
    CanvasRenderingContext2D.prototype.fillRect = function (...words) {
      const isMap = this.canvas.id === "map" && document.querySelector(".tab");
      if (isMap) globalThis.marks.push(sessionStorage.getItem("roskevad-replaying"));
      return fillRect.apply(this, words);
    };'''
    with Bench(has_log=False) as page:
        page.editor.lines('stamp 1 3 20 1 12')
        number = page.js('return roskevad.editor.journal.id')
        at_start = page.driver.execute_cdp_cmd('Page.addScriptToEvaluateOnNewDocument', {'source': look})
        try:
            page.reload()
        finally:
            page.driver.execute_cdp_cmd('Page.removeScriptToEvaluateOnNewDocument', at_start)
        marks = page.js('return globalThis.marks')
        assert marks and marks[0] == number, marks
        assert page.js('return sessionStorage.getItem("roskevad-replaying")') is None
        # As if the page had ended while it was drawn.
        page.js('sessionStorage.setItem("roskevad-replaying", arguments[0])', number)
        page.reload()
        assert with_tabs(page) == [] and 'town.tmj (1 step' in page.notices()[0]
        page.answer('Restore')
        assert standing(page) == (1, 1)
        page.reload()
        assert standing(page) == (1, 1), 'it was shown, and is taken up again'


# ---- rows that are damaged


DAMAGE = '''
(() => {
  const entries = [{line: "new a 3 3 1 1 t", reply: "ok 0/0 clean 0"}, {line: "stamp 1 0 0 1 5", reply: "ok 1/1 dirty 0"}];
  const {journal} = roskevad.editor;
  const whole = {version: roskevad.editor.version, limit: 0, count: 1, size: 9, began: 1, changed: 1,
    documents: [{name: "a", path: null, steps: 1, isClean: false, lines: 2}], source: journal.source()};
  return journal.database.write(({rows, records}) => words[0].forEach((change, at) => {
    rows.put({...whole, ...change, id: `damaged ${at}`});
    records.put({journal: `damaged ${at}`, at: 0, entries, sum: 7});
  }));
})()'''
DAMAGES = [
    {'documents': None},
    {'documents': [None]},
    {'documents': [{}]},
    {'documents': [{'name': 'a', 'path': 5, 'steps': 1, 'lines': 3}]},
    {'documents': [{'name': '<b>', 'path': '<img src=x onerror=window.pwned=1>', 'steps': '<b>', 'lines': 3}]},
    {'source': None},
    {'version': 5},
    {'changed': 'x'},
    {'limit': -1},
]


def test_damaged_rows():
    """They are named, given as sessions and forgotten; the journal of the window comes back beside them."""
    with Bench(has_log=False) as page:
        page.editor.lines('stamp 1 3 20 1 12')
        assert later(page, DAMAGE, DAMAGES) is None
        page.reload()
        assert with_tabs(page) == ['town'] and standing(page) == (1, 1)
        told = page.notices()
        assert len(told) == len(DAMAGES) and all('cannot be read' in each for each in told), told
        assert page.js('return window.pwned ?? null') is None
        page.answer('Forget')
        page.fill_in('Forget')
        page.reload()
        assert len(page.notices()) == len(DAMAGES) - 1 and standing(page) == (1, 1)
        passed(len(DAMAGES))


OTHERWISE = '''
(async () => {
  const {database} = roskevad.editor.journal;
  const records = [];
  for await (const each of database.recordsOf(words[0])) records.push(each);
  const changed = records.find(({entries}) => entries.some(each => each.line === words[1]));
  changed.entries.find(each => each.line === words[1]).reply = "ok 9/9 dirty 0";
  changed.sum = roskevad.sumOf(changed.entries);
  await database.write(({records: kept}) => kept.put(changed));
})()'''


def test_a_document_that_fails():
    """Where a line of one document gives another reply than it gave, the others of its journal come back, and go on in a
    journal of the window; the one is offered apart, and its map may be had."""
    with Bench(has_log=False) as page:
        page.editor.lines('stamp 1 3 20 1 12')
        page.editor.lines('new cave 5 4 16 16 tiles.tsx', 'stamp 1 1 1 1 7', 'stamp 1 2 1 1 7', 'use town')
        page.editor.lines('stamp 1 4 20 1 12', 'new hut 6 5 16 16 tiles.tsx', 'stamp 1 1 1 1 9', 'use cave')
        number = page.js('return roskevad.editor.journal.id')
        assert later(page, OTHERWISE, number, 'stamp 1 2 1 1 7') is None
        page.reload()
        for _ in range(2):
            state = page.editor.state()
            counts = {each['name']: (each['count'], each['path']) for each in state['documents']}
            assert counts == {'town': (2, 'town.tmj'), 'hut': (1, None)}, counts
            assert page.js('return roskevad.tilesets.all.map(set => set.image !== null)') == [True]
            [told] = page.notices()
            assert 'cave (2 steps, not saved)' in told and 'town' not in told, told
            page.editor.lines('use town', 'undo', 'redo')
            page.reload()
        page.answer('Forget')
        page.fill_in('Forget')
        page.reload()
        assert page.notices() == [] and with_tabs(page) == ['town', 'hut']


# ---- a journal that is broken off


def work(page):
    """Steps, one that is undone, and a macro that stays open."""
    page.editor.lines('stamp 1 4 20 1 12', 'stamp 1 5 20 1 12', 'undo', 'begin Wall', 'stamp 1 6 20 2 12,12')


def all_of(page):
    return page.editor.state(), page.editor.shown(), page.editor.session()


# How many rows and records the database has.
COUNTS = '''
(() => {
  const {opened} = roskevad.editor.journal.database;
  const count = store => new Promise(done => {
    const asked = opened.transaction([store]).objectStore(store).count();
    asked.onsuccess = () => done(asked.result);
  });
  return Promise.all(["journals", "records"].map(count));
})()'''


def see_all_again(page, before):
    page.reload()
    after = all_of(page)
    assert after == before, (after[0], before[0])


def test_a_journal_that_goes_on():
    """While the database takes nothing, a sign stands in the bar. With room again all is kept, without a question: steps,
    undone ones and the open macro. A second time it is told again."""
    with Bench(has_log=False) as page:
        page.editor.lines('stamp 1 3 20 1 12')
        page.js(FILL)
        fill(page)
        work(page)
        [told] = page.notices()
        assert 'keeps nothing more' in told and 'full' in told, told
        page.answer('OK')
        assert sign(page) == 'Not kept' and page.notices() == []
        fill(page, False)
        page.editor.lines('stamp 1 9 20 1 12')
        wait_kept(page)
        assert sign(page) == '' and 'keeps all of this window again' in page.notices()[0]
        page.answer('OK')
        # A write that may be torn.
        page.js('globalThis.fault = "UnknownError"')
        fill(page)
        page.editor.lines('stamp 1 9 21 1 12')
        assert 'keeps nothing more' in page.notices()[0] and sign(page) == 'Not kept'
        fill(page, False)
        # It is tried again without any step.
        wait_kept(page)
        counts = later(page, COUNTS)
        assert counts == [1, page.js('return roskevad.editor.journal.row.count')], counts
        see_all_again(page, all_of(page))
        assert page.editor.state()['depth'] == 1 and page.notices() == []


def lose(page):
    """The database loses the journal while it takes nothing."""
    fill(page)
    work(page)
    told = later(page, 'roskevad.editor.journal.database.forget(roskevad.editor.journal.id)')
    assert told is None, told
    page.answer('OK')


def test_a_journal_that_is_written_anew():
    """Where what was kept is gone, all is written once more from what the window holds, with the chosen files."""
    with Bench(has_log=False) as page:
        page.editor.lines('stamp 1 3 20 1 12')
        page.js(FILL)
        lose(page)
        fill(page, False)
        wait_kept(page)
        assert 'keeps all of this window again' in page.notices()[0]
        see_all_again(page, all_of(page))
        assert page.js('return roskevad.tilesets.all.map(set => set.image !== null)') == [True]


def test_a_browser_that_takes_away_what_it_keeps():
    """What the browser clears while the window is there is written anew at once."""
    bench = Bench(has_log=False, served=True)
    with bench as page:
        page.editor.lines('stamp 1 3 20 1 12', 'begin Wall', 'stamp 1 4 20 1 12')
        before = all_of(page)
        cleared = {'origin': bench.server.address.split('/?')[0], 'storageTypes': 'indexeddb'}
        page.driver.execute_cdp_cmd('Storage.clearDataForOrigin', cleared)
        page.wait(page.notices, 'it is told')
        wait_kept(page)
        see_all_again(page, before)


def test_a_journal_that_begins_from_the_maps():
    """Where the window holds the lines no more, it begins with the maps as they are, and says so. What was not saved is
    not saved, and a map without a file has none."""
    with Bench(has_log=False) as page:
        page.editor.lines('new cave 5 4 16 16 tiles.tsx', 'stamp 1 1 1 1 7', 'use town', 'stamp 1 3 20 1 12')
        page.js(FILL)
        lose(page)
        page.js('if (roskevad.editor.journal.held) roskevad.editor.journal.held.entries = null')
        before = page.editor.shown()
        fill(page, False)
        wait_kept(page)
        told = page.notices()[0]
        assert 'from the maps as they are' in told and 'have ended' in told, told
        for _ in range(2):
            state = page.editor.state()
            assert standing(page) == (0, 0) and state['depth'] == 0 and page.editor.shown() == before
            assert [(each['name'], each['isClean'], each['path']) for each in state['documents']] == [
                ('town', False, 'town.tmj'),
                ('cave', False, None),
            ]
            page.reload()
        assert spelled(page) == ['dirty'] and page.notices() == []


def test_a_reload_of_a_broken_journal():
    """A page that is loaded anew before there is room says how far its documents are kept, also where they were saved as
    downloads, until that is read."""
    with Bench(has_log=False) as page:
        page.editor.lines('stamp 1 3 20 1 12')
        page.js(FILL)
        fill(page)
        page.editor.lines(*(f'stamp 1 {x} 21 1 12' for x in range(5)))
        page.ctrl('s')
        assert page.editor.state()['isClean']
        for _ in range(2):
            page.reload()
            [told] = page.notices()
            assert 'later steps are missing' in told and 'town.tmj (1 of 6 steps kept)' in told, told
            assert standing(page) == (1, 1)
        page.answer('OK')
        page.reload()
        assert page.notices() == [] and standing(page) == (1, 1)


def leave(page, begin, *more):
    """Another window does lines of which no more is kept than it begins with, and is closed."""
    first = page.driver.current_window_handle
    page.driver.switch_to.new_window('tab')
    page.open()
    begin()
    page.js(FILL)
    fill(page)
    page.editor.lines(*more)
    page.js('addEventListener("beforeunload", event => event.stopImmediatePropagation(), true)')
    time.sleep(0.5)
    page.driver.close()
    page.driver.switch_to.window(first)
    page.reload()


def test_an_offer_of_a_broken_journal():
    """What a closed window has left says how far it is kept, also where nothing but a map that was opened is."""
    bench = Bench(has_log=False)
    with bench as page:
        cave = ('new cave 5 4 16 16 tiles.tsx', 'stamp 1 1 1 1 7')
        more = ('stamp 1 2 1 1 7', 'stamp 1 3 1 1 7', 'new hut 5 4 16 16 tiles.tsx')
        leave(page, lambda: page.editor.lines(*cave), *more)
        [told] = page.notices()
        assert 'cave (1 of 3 steps kept, not saved), hut (not kept)' in told, told
        assert 'later steps are missing' in told, told
        page.answer('Forget')
        page.fill_in('Forget')
        leave(page, lambda: page.choose_files(bench.folder / 'layers.tmj'), 'prop set map author string me')
        [told] = page.notices()
        assert 'layers.tmj (0 of 1 steps kept)' in told, told
        page.answer('Forget')
        page.fill_in('Forget')
        page.reload()
        assert page.notices() == []


# ---- journals of which the maps come back


CHANGE = '''
(async () => {
  const {database} = roskevad.editor.journal;
  const [row] = (await database.rows()).filter(each => each.id === words[1]);
  const records = [];
  for await (const each of database.recordsOf(row.id)) records.push(each);
  if (words[0] === "version") row.version = "0.0.1";
  else records[2].entries[0].line += "0";
  await database.write(({rows, records: kept}) => {
    rows.put(row);
    records.forEach(each => kept.put(each));
  });
})()'''


def test_maps_of_journals_that_are_not_restored():
    """Of a journal of another version the maps come back as they stood last, and of one that is damaged in its middle as
    they stood before: without steps, not saved, and in a journal of the window. The old one is kept."""
    for change, cells, words in (('version', (12, 12), 'of version 0.0.1'), ('middle', (12, 0), 'not as it was written')):
        with Bench(has_log=False) as page:
            for x in (3, 4):
                page.editor.lines(f'erase 1 {x} 20 1 1', 'undo', f'stamp 1 {x} 20 1 12')
            page.editor.lines('goto 0')
            was = cell(page, 1, 4, 20)
            page.editor.lines('goto 2')
            number = page.js('return roskevad.editor.journal.id')
            assert later(page, CHANGE, change, number) is None
            page.reload()
            assert with_tabs(page) == [] and words in page.notices()[0], page.notices()
            page.answer('Open the maps')
            page.wait(lambda: with_tabs(page) == ['town'], 'the maps are open')
            page.settle()
            for _ in range(2):
                assert standing(page) == (0, 0) and not page.editor.state()['isClean']
                found = [cell(page, 1, x, 20) for x in (3, 4)]
                assert found == [each or was for each in cells], (change, found, was)
                assert page.js('return roskevad.tilesets.all.map(set => set.image !== null)') == [True]
                assert len(page.notices()) == 1, 'the journal is kept'
                page.reload()
            passed()


# ---- full ones


def test_a_full_journal_with_a_macro():
    """At the bound undo, redo, goto and end go on, within a room that is kept back; beginning anew ends the macro, behind
    a question, and waits for a save that is under way."""
    with Bench(has_log=False, served=True) as page:
        page.editor.lines('stamp 1 3 20 1 12', 'stamp 1 4 20 1 12')
        page.js('roskevad.editor.journal.bound = roskevad.editor.journal.size + 1')
        page.editor.lines('begin Wall', 'stamp 1 5 20 1 12', 'begin Deep', 'stamp 1 6 20 1 12')
        before = page.editor.shown()
        assert 'no more room' in page.notices()[0]
        assert page.editor.lines('stamp 1 7 20 1 12') == [] and page.editor.shown() == before
        page.answer('Save and begin anew')
        assert 'A macro is open in town.tmj' in page.find('dialog').text
        page.fill_in('Cancel')
        assert page.editor.state()['depth'] == 2 and 'no more room' in page.notices()[0]
        page.click('#macro')
        assert page.editor.state()['depth'] == 1, 'end goes on'
        page.answer('Save and begin anew')
        page.js('roskevad.editor.journal.bound = 2 ** 28')
        page.fill_in('End it and begin anew')
        page.wait(lambda: page.notices() == [], 'it has begun anew')
        page.settle()
        state = page.editor.state()
        assert state['depth'] == 0 and state['isClean'] and page.editor.shown() == before
        page.reload()
        assert page.editor.shown() == before and page.editor.state()['isClean']
        page.editor.lines('stamp 1 8 20 1 12', 'stamp 1 9 20 1 12')
        page.js('roskevad.editor.journal.bound = roskevad.editor.journal.size + 1')
        page.editor.lines('stamp 1 10 20 1 12')
        told = page.editor.lines('undo', 'redo', 'goto 0', 'goto 3')
        assert [each.split()[1] for each in told] == ['2/3', '3/3', '0/3', '3/3'], told
        page.js('roskevad.editor.journal.bound = roskevad.editor.journal.size - 2 ** 20')
        assert page.editor.lines('undo') == [], 'what is kept back has an end'


SLOW = '''
const {place} = roskevad.editor, write = place.write.bind(place);
place.write = async (...words) => {
  place.write = write;
  await new Promise(done => (globalThis.goOn = done));
  return write(...words);
};'''


def test_a_save_before_a_journal_begins_anew():
    """A save that is under way ends first, and its file stays that of the map."""
    bench = Bench(has_log=False, served=True)
    with bench as page:
        page.editor.lines('stamp 1 3 20 1 12')
        page.js(SLOW)
        page.js('roskevad.documents.save()')
        page.wait(lambda: page.js('return Boolean(globalThis.goOn)'), 'the save is under way')
        page.js('roskevad.editor.journal.bound = roskevad.editor.journal.size + 1')
        page.js('roskevad.editor.doLines(["select replace 1 1 2 2"])')
        page.wait(lambda: page.notices(), 'the journal is full')
        # A hand of the driver's would wait until the save has ended.
        page.js('document.querySelector("#notice-bars .notice[data-about=full] button").click()')
        page.js('roskevad.editor.journal.bound = 2 ** 28; globalThis.goOn()')
        page.wait(lambda: page.notices() == [], 'it has begun anew')
        page.settle()
        assert compact((bench.folder / 'town.tmj').read_bytes()) == page.editor.shown()
        page.reload()
        assert page.editor.state()['isClean'] and page.notices() == [] and standing(page) == (0, 0)
        page.editor.lines('stamp 1 4 20 1 12')
        page.ctrl('s')
        assert compact((bench.folder / 'town.tmj').read_bytes()) == page.editor.shown(), 'its file is known, and nothing is asked'
