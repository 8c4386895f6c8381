# SPDX-License-Identifier: MIT OR Apache-2.0
"""Ends browsers under the page, and looks for what was done behind a new start: killed in the midst of
strokes, in a save and in a replay; journals that are damaged, replay otherwise, are of another version
or full; a browser that keeps nothing; and a page that asks no other host for anything."""
import json
import random
import time

from lib.cases import passed
from lib.places import EXAMPLE_MAPS
from page.bench import PAGE, cells_with, choose, draw, standing
from page.browser import DOWNLOADS
from page.lives import Life

NEEDS_BROWSER = True
IS_LONG = True
KILLS = 10
FILES = [EXAMPLE_MAPS / name for name in ('tiles.tsx', 'tiles.png', 'town.tmj')]
# Strokes of three cells, one behind the other, as fast as the page is; and how many of them are
# listed as steps.
DRAW = '''
const {view, editor} = roskevad;
globalThis.listed = 0;
editor.addEventListener("state", () => (globalThis.listed = editor.state.count));
view.box.setPointerCapture = () => {};
const tell = (kind, cell) => {
  const [clientX, clientY] = view.middleOf(...cell);
  view.box.dispatchEvent(new PointerEvent(kind, {clientX, clientY, button: 0, pointerId: 7, bubbles: true}));
};
let number = editor.stand().count;
globalThis.drawing = setInterval(() => {
  roskevad.bench.takeStamp({width: 1, height: 1, values: [1 + number % 30]});
  const [x, y] = [number * 3 % 36, Math.floor(number / 12) % 30];
  tell("pointerdown", [x, y]);
  tell("pointermove", [x + 2, y]);
  tell("pointerup", [x + 2, y]);
  number++;
}, 4);'''


def opened(life, *flags):
    """A page in a new browser, with the town."""
    page = life.begin(*flags)
    if page.editor.state()['active'] is None and not page.notices():
        page.choose_files(*FILES)
    return page


def test_killed_in_strokes():
    """At most the stroke under the hand is gone: each step that was listed is there, with its undo."""
    numbers = random.Random(20261126)
    with Life(PAGE.as_uri()) as life:
        page = opened(life)
        for _ in range(KILLS):
            choose(page, 'Ground')
            page.js(DRAW)
            page.wait(lambda: page.js('return globalThis.listed > 0'), 'strokes are listed')
            time.sleep(numbers.uniform(0, 0.8))
            listed = page.js('return globalThis.listed')
            life.kill()
            page = life.begin()
            [told] = page.notices()
            assert 'town.tmj (' in told and 'not saved' in told, told
            page.answer('Restore')
            assert page.notices() == [] and page.find('#undo').is_enabled()
            index, count = standing(page)
            assert index == count >= listed, (listed, index, count)
            before = page.editor.map()
            page.editor.lines('undo', 'redo')
            assert page.editor.map() == before
            passed()
        page.ctrl('z')
        assert standing(page) == (count - 1, count)
        assert page.js('return roskevad.tilesets.all.map(set => set.image !== null)') == [True]


def test_all_that_is_restored():
    """Steps, undone steps, the clean mark, an open macro, the selection and another document; and a
    session that plays to the same bytes."""
    with Life(PAGE.as_uri()) as life:
        page = opened(life)
        page.choose_files(EXAMPLE_MAPS / 'layers.tmj')
        page.click('.tab[data-document="town"]')
        draw(page, 20)
        page.ctrl('s')
        draw(page, 21)
        page.ctrl('z')
        page.say('member put object:2 {"name":"Gate","rotation":90}')
        page.say('begin A wall')
        page.say('member set object:2 type "Door of all"')
        page.say('select replace 2 2 5 5')
        draw(page, 3)
        before = page.editor.state(), page.editor.shown(), page.editor.session()
        life.kill()
        page = life.begin()
        page.answer('Restore')
        after = page.editor.state(), page.editor.shown(), page.editor.session()
        assert after == before
        assert after[0]['depth'] == 1 and after[0]['cleanIndex'] == 1


def test_killed_in_a_save():
    """A save of which nobody knows whether it was written is not called one."""
    with Life(PAGE.as_uri()) as life:
        page = opened(life)
        draw(page, 20)
        page.js('roskevad.editor.place.write = () => new Promise(() => {})')
        page.js('roskevad.documents.save()')
        page.wait(lambda: 'is being saved' in page.find('#standing').text, 'the save has begun')
        time.sleep(0.3)
        life.kill()
        page = life.begin()
        page.answer('Restore')
        state = page.editor.state()
        assert (state['index'], state['isClean'], state['cleanIndex']) == (1, False, None), state


def test_killed_in_a_replay():
    """A replay changes no journal: behind a crash in it all is there."""
    with Life(PAGE.as_uri()) as life:
        page = opened(life)
        choose(page, 'Ground')
        lines = [f'stamp 1 {at % 40} {at // 40 % 30} 1 {1 + (at + at // 1200) % 30}' for at in range(20_000)]
        page.editor.lines(*lines)
        before = page.editor.shown(), standing(page)
        assert before[1][1] > 15_000
        life.kill()
        page = life.begin()
        page.js('document.querySelector("#notice-bars button").click()')
        life.kill()
        page = life.begin()
        page.answer('Restore')
        page.wait(lambda: page.editor.state()['active'] == 'town', 'it is restored')
        assert (page.editor.shown(), standing(page)) == before


# ---- journals that are not restored


CHANGE = '''
const [change, done] = arguments;
const {database} = roskevad.editor.journal;
(async () => {
  const [row] = await database.rows();
  const records = [];
  for await (const each of database.recordsOf(row.id)) records.push(each);
  const was = structuredClone([row, records]);
  const does = {
    edited: () => (records[1].entries[0].line += "0"),
    otherwise: () => {
      records[1].entries[0].reply = "ok 9/9 dirty 0";
      records[1].sum = roskevad.sumOf(records[1].entries);
    },
    older: () => (row.version = "0.0.1"),
    holed: () => (records[1].at = 1000),
    shortened: () => records.pop(),
    back: () => ([row.version] = [roskevad.editor.version]),
  };
  if (change === "back") records.splice(0, records.length, ...globalThis.saved[1]);
  else globalThis.saved = was;
  does[change]();
  await database.restart(row, null);
  await database.write(({records: kept}) => records.forEach(each => kept.put(each)));
})().then(() => done(""), fault => done(String(fault)));'''
CHANGES = {
    'edited': 'a part of it is not as it was written',
    'holed': 'a part of it is missing',
    'shortened': 'its end is missing',
    'otherwise': 'one of its steps comes out otherwise',
    'older': 'of version 0.0.1',
}


def test_journals_that_are_not_restored():
    """One that is damaged, replays otherwise or is of another version is told, kept, and given as a
    session."""
    with Life(PAGE.as_uri()) as life:
        page = opened(life)
        page.editor.lines('stamp 1 3 20 1 12')
        page.editor.lines('stamp 1 4 20 1 12', 'member set object:2 rotation 90')
        life.kill()
        page, marked = life.begin(), 0
        for change, told in CHANGES.items():
            assert page.driver.execute_async_script(CHANGE, change) == ''
            page.js('return roskevad.recovery.start()')
            assert len(page.notices()) == 1, 'it is offered anew'
            page.answer('Restore')
            page.wait(lambda: told in ''.join(page.notices()), told)
            assert 'It is kept' in page.notices()[0], page.notices()
            page.answer('As a session')
            file = DOWNLOADS / 'town.session'
            page.wait(file.exists, 'the session is downloaded')
            said = file.read_text().splitlines()
            file.unlink()
            # A damaged one has the lines before the damage.
            marks = ['# all edits, all maps'] if 'member set object:2 rotation 90' in said else []
            assert said[:len(marks) + 1] == [*marks, 'open town town.tmj'], said
            marked += len(marks)
            assert page.editor.state()['active'] is None
            assert page.driver.execute_async_script(CHANGE, 'back') == ''
            page.reload()
            passed()
        assert marked > 0


def test_a_full_journal():
    """At its bound no edit is taken until the journal is begun anew from the saved maps, where the
    steps end."""
    with Life(PAGE.as_uri()) as life:
        page = opened(life)
        draw(page, 20)
        page.js('roskevad.editor.journal.bound = roskevad.editor.journal.size + 1')
        draw(page, 21)
        [told] = page.notices()
        assert 'no more room' in told and 'steps end' in told, told
        before = page.editor.shown()
        page.drag([(3, 22), (6, 22)])
        assert page.editor.shown() == before and 'no more room' in page.bubble()
        page.js('roskevad.editor.journal.bound = 2 ** 28')
        page.answer('Save and begin anew')
        page.wait(lambda: page.notices() == [], 'it has begun anew')
        page.settle()
        assert standing(page) == (0, 0) and page.editor.shown() == before
        assert not page.texts('.tab.unsaved')
        draw(page, 23)
        life.kill()
        page = life.begin()
        page.answer('Restore')
        assert standing(page) == (1, 1) and (3, 23) in cells_with(page, 'Ground', 12)


def test_a_browser_that_keeps_nothing():
    """The page says so, once, and works."""
    with Life(PAGE.as_uri()) as life:
        page = life.begin()
        code = 'IDBFactory.prototype.open = () => { throw new Error("not in this window"); };'
        page.driver.execute_cdp_cmd('Page.addScriptToEvaluateOnNewDocument', {'source': code})
        page.reload()
        [told] = page.notices()
        # (what the browser threw is none of a designer's words)
        assert 'keeps nothing' in told and 'not in this window' not in told, told
        page.answer('OK')
        page.choose_files(*FILES)
        draw(page, 20)
        assert standing(page) == (1, 1) and page.texts('#steps li .name')[-1] == 'Stamp · Ground'
        page.ctrl('s')
        page.reload()
        assert page.notices() == [] and page.editor.state()['active'] is None


def test_closed_documents():
    """What is closed is kept no more."""
    with Life(PAGE.as_uri()) as life:
        page = opened(life)
        draw(page, 20)
        page.find('.tab .close').click()
        page.fill_in('Discard')
        page.wait(
            lambda: page.js(
                'return roskevad.editor.journal.database.rows().then(rows => rows.map(row => row.count))'
            )
            == [0],
            'the journal is gone',
        )
        life.kill()
        assert life.begin().notices() == []


def test_no_other_host():
    """From a disk the page asks for nothing but itself: what it shows it has in itself, or from files
    that were chosen."""
    with Life(PAGE.as_uri()) as life:
        page = opened(life, '--enable-logging')
        draw(page, 20)
        page.ctrl('s')
        asked = {
            event['params']['request']['url']
            for each in page.driver.get_log('performance')
            for event in [json.loads(each['message'])['message']]
            if event['method'] == 'Network.requestWillBeSent'
            and event['params']['documentURL'] == PAGE.as_uri()
        }
        others = {url for url in asked if not url.startswith(('blob:', 'data:'))}
        assert others == {PAGE.as_uri()}, others
        policy = page.js('return document.querySelector("meta[http-equiv]").content')
        assert "default-src 'none'" in policy and 'unsafe-inline' not in policy
        assert page.log() == []
