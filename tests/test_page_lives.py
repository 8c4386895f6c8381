# SPDX-License-Identifier: MIT OR Apache-2.0
"""What waits for a file or for an answer is about one document, from its opening until it is closed, and
never about its name: maps that are loaded anew when their files were broken outside, saves that are
slow while their documents are closed and others get their names, questions that destroy something, and
the browser's own question."""
import shutil

from lib.maps import compact
from lib.places import EXAMPLE_MAPS
from page.bench import Bench, cells_with, draw, focus, spelled, standing
from page.browser import Keys, browser
from page.own_folder import bytes_in, folder_page, put

NEEDS_BROWSER = True
IS_LONG = True
TOWN = (EXAMPLE_MAPS / 'town.tmj').read_bytes()
OTHER = (EXAMPLE_MAPS / 'layers.tmj').read_bytes()
# What a file may become outside, and what the page says of it.
BROKEN = {
    b'<<<<<<< HEAD\n' + TOWN + b'=======\n' + TOWN + b'>>>>>>> other\n': 'is refused',
    b'<?xml version="1.0"?><map/>': 'is refused',
    b'': 'is refused',
    None: 'The file is gone',
}


def files_of(page):
    """The file of each document that has one."""
    code = 'return [...roskevad.editor.openDocuments.byName.values()].filter(each => each.file).map(each => [each.name, each.file.path])'
    return dict(page.js(code))


def tabs(page):
    return page.js('return [...document.querySelectorAll(".tab")].map(each => each.dataset.document)')


def become(path, data):
    if data is None:
        path.unlink(missing_ok=True)
    else:
        path.write_bytes(data)


# ---- loading anew


def test_a_reload_of_a_broken_file():
    """The document stays, with all its steps, saved or not, and the page says why."""
    bench = Bench(served=True)
    with bench as page:
        town = bench.folder / 'town.tmj'
        for row in (20, 21, 22):
            draw(page, row)
        page.ctrl('s')
        saved = town.read_bytes()
        for steps in (3, 4):
            for data, words in BROKEN.items():
                become(town, data)
                focus(page)
                page.answer('Reload')
                [told] = page.notices()
                assert 'town.tmj has changed outside' in told and words in told, told
                assert standing(page) == (steps, steps) and tabs(page) == ['town']
            town.write_bytes(saved)
            focus(page)
            assert page.notices() == []
            draw(page, steps + 20)
        page.driver.get_log('browser')  # It has logged that a file is gone.
        page.reload()
        assert standing(page) == (5, 5)


def test_a_reload_keeps_the_tab_and_the_view():
    """The new document has the old one's place among the tabs, its zoom and its place on the map."""
    bench = Bench('town.tmj', 'house.tmj', served=True)
    view = 'return [roskevad.view.scale, roskevad.view.originX, roskevad.view.originY]'
    with bench as page:
        page.click('.tab[data-document="town"]')
        page.js('roskevad.view.zoom(1, 200, 200)')
        before = page.js(view)
        (bench.folder / 'town.tmj').write_bytes(OTHER)
        focus(page)
        page.answer('Reload')
        assert page.js(view) == before
        assert sorted(files_of(page).values()) == ['house.tmj', 'town.tmj']
        assert page.texts('.tab') == ['town.tmj', 'house.tmj'], page.texts('.tab')
        page.reload()
        assert page.texts('.tab') == ['town.tmj', 'house.tmj'] and page.notices() == []


def test_a_reload_says_which_steps_end():
    """It is asked before steps end, and the old state may stay as a document of its own."""
    bench = Bench(served=True)
    with bench as page:
        for row in (20, 21):
            draw(page, row)
        page.ctrl('s')
        (bench.folder / 'town.tmj').write_bytes(OTHER)
        focus(page)
        page.answer('Reload')
        assert '2 steps end' in page.find('dialog').text
        page.fill_in('Keep both')
        assert page.notices() == [] and len(tabs(page)) == 2
        assert page.editor.shown() != b'' and standing(page) == (0, 0)
        assert list(files_of(page).values()) == ['town.tmj']
        page.click('.tab[data-document="town"]')
        assert standing(page) == (2, 2) and cells_with(page, 'Ground', 12) >= {(3, 20), (6, 21)}
        assert page.texts('.tab.unsaved'), 'no file has it any more'
        page.ctrl('s')
        page.fill_in(file='town.tmj')
        assert 'is there already' in page.find('dialog').text
        page.fill_in('Cancel')
        assert (bench.folder / 'town.tmj').read_bytes() == OTHER
        page.driver.get_log('browser')


def test_a_reload_reads_once():
    """What is shown is what was found: not what the file became while the question stood there."""
    bench = Bench(served=True)
    with bench as page:
        draw(page)
        (bench.folder / 'town.tmj').write_bytes(OTHER)
        focus(page)
        page.answer('Reload')
        (bench.folder / 'town.tmj').write_bytes(b'{')
        page.fill_in('Discard and reload')
        assert standing(page) == (0, 0) and len(page.editor.map()['layers']) != 0
        focus(page)
        [told] = page.notices()
        assert 'has changed outside' in told


def test_a_reload_while_the_page_looks():
    """The page looks at a file whose document is loaded anew meanwhile, and goes on to look at files."""
    bench = Bench(served=True)
    with bench as page:
        draw(page)
        page.js(
            'const {place} = roskevad.editor, look = place.look.bind(place);'
            'place.look = async path => { await new Promise(done => { roskevad.goOn = done; }); return look(path); };'
        )
        page.js('dispatchEvent(new Event("focus"))')
        page.wait(lambda: page.js('return "goOn" in roskevad'), 'the page looks')
        (bench.folder / 'town.tmj').write_bytes(OTHER)
        page.js('roskevad.documents.outside.reload(roskevad.editor.openDocuments.document)')
        page.fill_in('Keep both')
        page.js('roskevad.goOn()')
        page.wait(lambda: not page.js('return roskevad.documents.outside.isLooking'), 'it has looked')
        assert page.notices() == [] and len(tabs(page)) == 2


def test_a_notice_ends_with_its_map():
    """Also where a session closes the map, and gives its name to another one."""
    bench = Bench(served=True)
    with bench as page:
        (bench.folder / 'town.tmj').write_bytes(OTHER)
        focus(page)
        assert len(page.notices()) == 1
        page.js('roskevad.bench.act(["discard town", "new town 4 3 16 16 tiles.tsx"])')
        page.wait(lambda: standing(page) == (0, 0), 'another map has the name')
        focus(page)
        assert page.notices() == [], page.notices()


# ---- slow saves

SLOW = '''
const {place} = roskevad.editor, write = place.write.bind(place);
place.write = async (...words) => {
  await new Promise(done => { roskevad.goOn = done; });
  return write(...words);
};'''


def begin_save(page):
    """A save begins, and ends once the page is told to go on."""
    page.js(SLOW)
    page.find('body').send_keys(Keys.CONTROL, 's')
    page.wait(lambda: page.js('return "goOn" in roskevad'), 'the save has begun')


def end_save(page):
    page.js('roskevad.goOn()')
    page.settle()


def click_close(page, name):
    page.js(f'document.querySelector(\'.tab[data-document="{name}"] .close\').click()')
    page.wait(lambda: page.texts('dialog[open]'), 'the page asks')


def answer_now(page, text):
    """Answers a question while something is still under way."""
    page.js(
        '[...document.querySelectorAll("dialog button")].find(each => each.textContent === arguments[0]).click()',
        text,
    )


def test_a_save_belongs_to_its_document():
    """A map is closed while its save is slow, and another one gets its name: that keeps its own file, also
    behind a new start of the page."""
    bench = Bench(served=True)
    with bench as page:
        (bench.folder / 'sub').mkdir()
        shutil.copy(EXAMPLE_MAPS / 'house.tmj', bench.folder / 'sub' / 'town.tmj')
        draw(page)
        town = page.editor.shown()
        begin_save(page)
        click_close(page, 'town')
        assert 'is being saved' in page.find('dialog').text
        answer_now(page, 'Leave it')
        page.wait(lambda: tabs(page) == [], 'the town is closed')
        page.js('roskevad.documents.openPath("sub/town.tmj")')
        page.wait(lambda: files_of(page) == {'town': 'sub/town.tmj'}, 'the other one is open')
        end_save(page)
        assert files_of(page) == {'town': 'sub/town.tmj'}
        assert compact((bench.folder / 'town.tmj').read_bytes()) == town
        page.reload()
        assert files_of(page) == {'town': 'sub/town.tmj'} and page.notices()[1:] == []
        page.editor.lines('stamp 1 1 1 1 2')
        page.ctrl('s')
        assert compact((bench.folder / 'town.tmj').read_bytes()) == town
        assert compact((bench.folder / 'sub' / 'town.tmj').read_bytes()) == page.editor.shown()
        page.driver.get_log('browser')  # The tilesets lie elsewhere.


def test_a_close_that_waits():
    """The map is closed once it is saved; where the save fails it is asked as ever."""
    bench = Bench('town.tmj', 'house.tmj', served=True)
    with bench as page:
        page.click('.tab[data-document="town"]')
        draw(page)
        begin_save(page)
        page.wait(lambda: 'saved' not in page.texts('#steps .clean'), 'the step is being saved')
        click_close(page, 'town')
        answer_now(page, 'Wait, then close')
        end_save(page)
        page.wait(lambda: tabs(page) == ['house'], 'the town is closed')
        assert (bench.folder / 'town.tmj').read_bytes() != TOWN


def test_a_close_that_waits_is_of_one_map():
    """While it waits its map is left, and another one gets its name: that stays open."""
    bench = Bench(served=True)
    with bench as page:
        (bench.folder / 'sub').mkdir()
        shutil.copy(EXAMPLE_MAPS / 'house.tmj', bench.folder / 'sub' / 'town.tmj')
        draw(page)
        begin_save(page)
        click_close(page, 'town')
        answer_now(page, 'Wait, then close')
        page.js('roskevad.editor.doLines(["discard town"])')
        page.js('roskevad.documents.openPath("sub/town.tmj")')
        page.wait(lambda: files_of(page) == {'town': 'sub/town.tmj'}, 'the other one is open')
        end_save(page)
        assert files_of(page) == {'town': 'sub/town.tmj'} and tabs(page) == ['town']
        page.driver.get_log('browser')  # The tilesets lie elsewhere.


def test_a_save_as_of_the_map_that_was_shown():
    """Another tab is chosen while the page still looks for names: the map is saved that was asked for."""
    bench = Bench('town.tmj', 'house.tmj', served=True)
    with bench as page:
        page.click('.tab[data-document="town"]')
        draw(page)
        town = page.editor.shown()
        page.js(
            'const {place} = roskevad.editor, maps = place.maps.bind(place);'
            'place.maps = async () => { await new Promise(done => { roskevad.goOn = done; }); return maps(); };'
        )
        page.ctrl('s', Keys.SHIFT)
        page.find('dialog [name=file]').clear()
        page.find('dialog [name=file]').send_keys('new town.tmj', Keys.ENTER)
        page.wait(lambda: page.js('return "goOn" in roskevad'), 'the page looks for names')
        page.js('document.querySelector(\'.tab[data-document="house"]\').click()')
        end_save(page)
        assert compact((bench.folder / 'new town.tmj').read_bytes()) == town
        assert files_of(page) == {'town': 'new town.tmj', 'house': 'house.tmj'}
        assert page.editor.state()['active'] == 'house'


# ---- its own save is no change outside


def test_a_new_start_behind_a_save():
    """The page ends when the file is written, and before it has heard so: what it wrote is its own. And
    where the file is not written yet, the map is not saved."""
    bench = Bench(served=True)
    with bench as page:
        for row, is_written in ((20, True), (21, False), (22, True)):
            draw(page, row)
            shown = page.editor.shown()
            page.js(
                'const {place} = roskevad.editor, write = place.write.bind(place);'
                'place.write = async (...words) => {'
                '  if (arguments[0]) await write(...words);'
                '  roskevad.isHeld = true;'
                '  return new Promise(() => {}); };',
                is_written,
            )
            page.find('body').send_keys(Keys.CONTROL, 's')
            page.wait(lambda: page.js('return roskevad.isHeld === true'), 'the save has come to the file')
            page.reload()
            assert page.editor.shown() == shown and page.notices() == []
            assert (compact((bench.folder / 'town.tmj').read_bytes()) == shown) == is_written
            assert (page.texts('.tab.unsaved') == []) == is_written
            focus(page)
            assert page.notices() == []
            page.ctrl('s')
            assert compact((bench.folder / 'town.tmj').read_bytes()) == shown and not page.texts('.tab.unsaved')
        page.driver.get_log('browser')


# ---- questions


def focused(page):
    return page.js('return document.activeElement.textContent')


def enter(page):
    browser().switch_to.active_element.send_keys(Keys.ENTER)
    page.settle()


def test_the_safe_answer_has_the_focus():
    """Enter replaces no file, closes no map that is not saved, and forgets nothing."""
    bench = Bench(served=True)
    with bench as page:
        draw(page)
        (bench.folder / 'town.tmj').write_bytes(OTHER)
        focus(page)
        page.ctrl('s')
        assert focused(page) == 'Save as'
        enter(page)
        page.fill_in('OK', file='house.tmj')
        assert 'is there already' in page.find('dialog').text and focused(page) == 'Cancel'
        enter(page)
        assert (bench.folder / 'town.tmj').read_bytes() == OTHER
        assert (bench.folder / 'house.tmj').read_bytes() == (EXAMPLE_MAPS / 'house.tmj').read_bytes()
        page.click('.tab .close')
        assert focused(page) == 'Save and close'
        page.fill_in('Cancel')
        page.answer('Reload')
        assert focused(page) == 'Keep both'
        page.fill_in('Cancel')
        assert standing(page) == (1, 1)
        page.driver.get_log('browser')


def test_a_new_map_whose_name_a_file_has():
    bench = Bench(served=True)
    with bench as page:
        page.click('#new')
        page.fill_in(name='house')
        page.wait(lambda: 'house.tmj is there already' in page.find('dialog').text, 'it is told')
        page.fill_in(name='shed')
        page.wait(lambda: not page.texts('dialog[open]'), 'the map is made')
        assert tabs(page) == ['town', 'shed'] and spelled(page) == []


# ---- a folder of the browser

HOLD = '''
const {folder} = roskevad.editor.place;
folder.queryPermission = async () => roskevad.allowed ?? "prompt";
folder.requestPermission = () => new Promise(done => { roskevad.answer = words => { roskevad.allowed = words; done(words); }; });'''
FULL = '''
FileSystemFileHandle.prototype.createWritable = async () => { throw new DOMException("No space.", "QuotaExceededError"); };'''


def test_a_save_waits_for_the_browser():
    """It asks whether the page may write. Until it is answered the page says so, calls nothing saved, and
    goes on with this map and others."""
    with folder_page('house.tmj') as page:
        draw(page)
        drawn = page.editor.shown()
        for answer in ('denied', 'granted'):
            page.js(HOLD)
            page.js('delete roskevad.answer; delete roskevad.allowed')
            page.find('body').send_keys(Keys.CONTROL, 's')
            page.wait(lambda: page.js('return "answer" in roskevad'), 'the browser asks')
            [told] = page.notices()
            assert 'The browser asks whether this page may write' in told
            assert 'is being saved' in page.find('#standing').text
            page.wait(lambda: 'saved' not in page.texts('#steps .clean'), 'the step is being saved')
            page.js('roskevad.editor.doLines(["stamp 1 0 0 1 5"])')
            assert standing(page) == (2, 2)
            page.js('roskevad.documents.openPath("house.tmj")')
            page.wait(lambda: tabs(page) == ['town', 'house'], 'another map is open')
            page.js('roskevad.editor.doLines(["stamp 1 0 0 1 5", "undo", "discard house", "use town", "undo"])')
            page.js('roskevad.answer(arguments[0])', answer)
            page.settle()
            assert page.notices() == [] and tabs(page) == ['town']
            is_saved = answer == 'granted'
            assert compact(bytes_in(page, 'town.tmj')) == (drawn if is_saved else compact(TOWN))
            assert (page.texts('.tab.unsaved') == []) == is_saved


def test_a_file_that_changes_while_the_browser_asks():
    """It is looked at behind the answer, and not replaced without a question."""
    with folder_page() as page:
        draw(page)
        page.js(HOLD)
        page.find('body').send_keys(Keys.CONTROL, 's')
        page.wait(lambda: page.js('return "answer" in roskevad'), 'the browser asks')
        put(page, {'town.tmj': OTHER})
        page.js('roskevad.answer("granted")')
        page.wait(lambda: page.texts('dialog[open]'), 'the page asks')
        assert 'has changed since it was opened' in page.find('dialog').text
        page.fill_in('Cancel')
        assert bytes_in(page, 'town.tmj') == OTHER and page.texts('.tab.unsaved')


def test_a_save_that_fails_leaves_no_file():
    """A new file whose bytes have no room is taken away again; one that was there keeps its bytes."""
    with folder_page() as page:
        draw(page)
        page.js(FULL)
        page.ctrl('s')
        assert 'the disk is full' in page.bubble()
        page.ctrl('s', Keys.SHIFT)
        page.fill_in(file='fresh.tmj')
        assert 'the disk is full' in page.find('dialog').text
        page.fill_in('Cancel')
        assert bytes_in(page, 'town.tmj') == TOWN and bytes_in(page, 'fresh.tmj') is None
        assert page.texts('.tab.unsaved')
