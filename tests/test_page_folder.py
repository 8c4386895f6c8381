# SPDX-License-Identifier: MIT OR Apache-2.0
"""Works on a folder that `./tile_page` serves, in Chromium: files that change outside, saves that are
slow, refused or over another file, files of any name and in sub-folders, tilesets beside the maps, and
a server that ends. And on a folder that the browser gives, which is one of its own here, since its
chooser takes no answer from a test."""
import json
import shutil

from lib.map_layouts import lines_changed, map_for_edits, printers
from lib.maps import compact
from lib.places import EXAMPLE_MAPS
from page.bench import Bench, cells_with, draw, focus, spelled, standing
from page.browser import Keys, Page, Server, browser, started
from page.own_folder import bytes_in, put, site, take_folder

NEEDS_BROWSER = True
IS_LONG = True
# What a file has that another program has written.
OTHER = (EXAMPLE_MAPS / 'layers.tmj').read_bytes()


def answer(page, text):
    """Answers the question that stands there."""
    page.fill_in(text)


def test_a_file_that_changes_outside():
    """The page says so when it gets the focus; a reload shows what the file has, and its steps end."""
    bench = Bench(served=True)
    with bench as page:
        focus(page)
        assert page.notices() == []
        (bench.folder / 'town.tmj').write_bytes(OTHER)
        focus(page)
        [told] = page.notices()
        assert 'town.tmj has changed outside' in told
        draw(page)
        page.answer('Reload')
        answer(page, 'Cancel')
        assert standing(page) == (1, 1), 'what is not saved is not reloaded without a question'
        page.answer('Reload')
        answer(page, 'Discard and reload')
        assert page.editor.map()['layers'] == json.loads(OTHER)['layers']
        assert standing(page) == (0, 0)
        assert page.notices() == []
        focus(page)
        assert page.notices() == []


def test_a_save_over_a_file_that_has_changed():
    """It asks, and writes nothing until it is answered: to replace the file, to save as another one,
    or nothing."""
    bench = Bench(served=True)
    with bench as page:
        draw(page)
        (bench.folder / 'town.tmj').write_bytes(OTHER)
        page.ctrl('s')
        assert 'has changed since it was opened' in page.find('dialog').text
        answer(page, 'Cancel')
        assert (bench.folder / 'town.tmj').read_bytes() == OTHER and page.texts('.tab.unsaved')
        assert 'save town.tmj' not in spelled(page), 'nothing was saved, so the session has no save'
        page.ctrl('s')
        answer(page, 'Save as')
        page.fill_in(file='my town.tmj')
        assert compact((bench.folder / 'my town.tmj').read_bytes()) == page.editor.shown()
        assert (bench.folder / 'town.tmj').read_bytes() == OTHER and not page.texts('.tab.unsaved')
        page.driver.get_log('browser')  # It has logged that saves were refused.


def test_replace_and_save_as():
    """'Save as' over a file that is there asks first; and so does a line that is typed."""
    bench = Bench(served=True)
    with bench as page:
        draw(page)
        (bench.folder / 'town.tmj').write_bytes(OTHER)
        page.ctrl('s')
        answer(page, 'Replace it')
        assert compact((bench.folder / 'town.tmj').read_bytes()) == page.editor.shown()
        assert not page.texts('.tab.unsaved')
        page.ctrl('s', Keys.SHIFT)
        page.fill_in(file='house.tmj')
        assert 'house.tmj is there already' in page.find('dialog').text
        answer(page, 'Cancel')
        house = (EXAMPLE_MAPS / 'house.tmj').read_bytes()
        assert (bench.folder / 'house.tmj').read_bytes() == house
        page.say('save house.tmj')
        answer(page, 'Replace it')
        assert compact((bench.folder / 'house.tmj').read_bytes()) == page.editor.shown()
        page.driver.get_log('browser')


def test_an_unchanged_map():
    """Nothing is written where nothing has changed: the file keeps its bytes and its time."""
    bench = Bench(served=True)
    with bench as page:
        before = (bench.folder / 'town.tmj').stat()
        page.ctrl('s')
        assert (bench.folder / 'town.tmj').stat() == before and spelled(page) == []
        draw(page)
        page.ctrl('z')
        page.ctrl('s')
        assert (bench.folder / 'town.tmj').stat() == before


def test_layouts():
    """A save keeps the layout of its map: one that is not edited is not written, with a stamp one line changes, and undone it has
    the bytes of before."""
    bench = Bench(served=True)
    with bench as page:
        for at, (layout, printer) in enumerate(printers().items()):
            file, source = bench.folder / f'laid_{at}.tmj', printer(map_for_edits())
            file.write_bytes(source)
            page.ctrl('o')
            page.fill_in(file=file.name)
            before = file.stat()
            page.ctrl('s')
            assert file.stat() == before, layout
            page.say('stamp 6 0 0 1 9')
            page.ctrl('s')
            assert lines_changed(source, file.read_bytes()) == (1, 1), layout
            page.ctrl('z')
            page.ctrl('s')
            assert file.read_bytes() == source, layout


def test_layout_of_a_download():
    """A download keeps the layout of the file that was chosen."""
    bench, source = Bench(), (EXAMPLE_MAPS / 'town.tmj').read_bytes()
    with bench as page:
        page.say('stamp 1 0 0 1 9')
        page.ctrl('s')
        assert lines_changed(source, bench.saved('town.tmj')) == (1, 1)
        page.ctrl('z')
        page.ctrl('s')
        assert bench.saved('town.tmj') == source


DELAY = '''
const {place} = roskevad.editor, write = place.write.bind(place);
place.write = async (...words) => {
  await new Promise(done => setTimeout(done, 2000));
  if (arguments[0]) throw new DOMException("No space.", "QuotaExceededError");
  return write(...words);
};'''


def test_a_save_that_takes_time():
    """A stroke while a save is written is not called saved: the mark is at the step that was written."""
    bench = Bench(served=True)
    with bench as page:
        draw(page)
        written = page.editor.shown()
        page.js(DELAY, False)
        page.find('body').send_keys(Keys.CONTROL, 's')
        page.wait(lambda: 'is being saved' in page.find('#standing').text, 'the save has begun')
        assert page.texts('.tab.unsaved'), 'what is being written is not saved yet'
        page.stroke([(3, 22), (6, 22)])
        assert compact((bench.folder / 'town.tmj').read_bytes()) == written
        state = page.editor.state()
        assert (state['cleanIndex'], state['index'], state['isClean']) == (1, 2, False)
        assert page.texts('.tab.unsaved')
        page.ctrl('z')
        assert not page.texts('.tab.unsaved')


def test_a_save_that_fails():
    """Its step is not called saved, and the page says why. A tab cannot be closed meanwhile."""
    bench = Bench(served=True)
    with bench as page:
        draw(page)
        page.js(DELAY, True)
        page.find('body').send_keys(Keys.CONTROL, 's')
        page.wait(lambda: 'is being saved' in page.find('#standing').text, 'the save has begun')
        assert page.editor.lines('close town') == ['no 13 unsaved changes']
        page.settle()
        assert 'the disk is full' in page.bubble() and page.texts('.tab.unsaved')
        assert page.editor.state()['cleanIndex'] is None and standing(page) == (1, 1)


# ---- names


def test_names_and_folders():
    """Files of any name open as documents whose names differ, and are saved under their own names;
    tilesets and images lie anywhere below the root."""
    bench = Bench(empty=True)
    project = bench.folder.parent / 'project'
    maps, tilesets, art = (project / name for name in ('maps', 'tilesets', 'art'))
    for folder in (maps / 'north east', tilesets, art):
        folder.mkdir(parents=True)
    shutil.copy(EXAMPLE_MAPS / 'tiles.png', art)
    tileset = (EXAMPLE_MAPS / 'tiles.tsx').read_text().replace('"tiles.png"', '"../art/tiles.png"')
    (tilesets / 'tiles.tsx').write_text(tileset)
    text = (EXAMPLE_MAPS / 'town.tmj').read_text()
    names = ('my town.tmj', 'my_town.tmj', 'Übergang.tmj', 'north east/my town.tmj')
    for name in names:
        depth = '../' * name.count('/') + '../tilesets/tiles.tsx'
        (maps / name).write_text(text.replace('"tiles.tsx"', json.dumps(depth)))
    with bench as page:
        server = Server(maps, '--root', project)
        try:
            page.open(server.address)
            for name in names:
                page.ctrl('o')
                page.fill_in(file=name)
            told = [each['name'] for each in page.editor.state()['documents']]
            assert told == ['my_town', 'my_town-2', '_bergang', 'my_town-3'], told
            assert page.notices() == []
            assert page.js('return roskevad.tilesets.all.map(set => set.image !== null)') == [True]
            for name, document in zip(names, told):
                page.click(f'.tab[data-document="{document}"]')
                draw(page, 22)
                page.ctrl('s')
                assert compact((maps / name).read_bytes()) == page.editor.shown(), name
            assert sorted(path.name for path in maps.rglob('*.tmj')) == sorted(
                name.rpartition('/')[2] for name in names
            )
            session = page.editor.session().decode().splitlines()
            assert session[0].startswith('# ') and session[0].endswith('north east/my town.tmj')
            page.driver.get('about:blank')
        finally:
            server.end()


def test_a_tileset_that_is_not_there():
    """It is named, with what to do."""
    bench = Bench(empty=True)
    maps = bench.folder.parent / 'project' / 'maps'
    maps.mkdir(parents=True)
    text = (EXAMPLE_MAPS / 'town.tmj').read_text()
    (maps / 'town.tmj').write_text(text.replace('"tiles.tsx"', '"../tilesets/tiles.tsx"'))
    with bench as page:
        server = Server(maps, str(maps / 'town.tmj'))
        try:
            page.open(server.address)
            [told] = page.notices()
            assert '../tilesets/tiles.tsx' in told and f'--root {maps.parent.resolve()}' in told, told
            page.answer('OK')
            page.driver.get('about:blank')
        finally:
            server.end()


# ---- the server


def test_a_server_that_ends():
    """All but saving goes on, and the page says so; behind a new start with its key it saves."""
    bench = Bench(served=True)
    with bench as page:
        key = bench.folder / 'key'
        bench.server.end()
        port = str(bench.server.parts.port)
        bench.server = bench.serve('--port', port, '--key-file', str(key))
        page.open(bench.server.address)
        draw(page)
        assert bench.server.end() == 0
        draw(page, 21)
        page.ctrl('z')
        page.ctrl('s')
        [told] = page.notices()
        assert 'Saving has to wait' in told and standing(page) == (1, 2)
        assert 'saving has to wait' in page.bubble() and page.texts('.tab.unsaved')
        bench.server = bench.serve('--port', port, '--key-file', str(key))
        page.answer('Try again')
        page.wait(lambda: page.notices() == [], 'the server is there again')
        page.ctrl('s')
        assert compact((bench.folder / 'town.tmj').read_bytes()) == page.editor.shown()
        page.driver.get_log('browser')


def test_a_server_with_another_key():
    """Its new address, opened in the tab, has what the tab had."""
    bench = Bench(served=True)
    with bench as page:
        draw(page)
        page.ctrl('s')
        draw(page, 21)
        bench.server.end()
        bench.server = bench.serve('--port', str(bench.server.parts.port))
        draw(page, 22)
        page.ctrl('s')
        assert 'was started anew' in page.notices()[0]
        page.driver.get_log('browser')
        page.address = bench.server.address
        page.open()
        assert standing(page) == (3, 3) and cells_with(page, 'Ground', 12) >= {(3, 21), (6, 22)}
        page.ctrl('s')
        assert compact((bench.folder / 'town.tmj').read_bytes()) == page.editor.shown()


def test_two_windows_of_a_folder():
    """Each has an editor of its own, and the one that saves later is asked."""
    bench = Bench(served=True)
    with bench as page:
        draw(page)
        first = page.driver.current_window_handle
        page.driver.switch_to.new_window('tab')
        other = Page(browser(), bench.server.address)
        other.open()
        draw(other, 21)
        other.ctrl('s')
        saved = (bench.folder / 'town.tmj').read_bytes()
        other.driver.close()
        page.driver.switch_to.window(first)
        page.ctrl('s')
        assert 'has changed since' in page.find('dialog').text
        answer(page, 'Cancel')
        assert (bench.folder / 'town.tmj').read_bytes() == saved
        page.driver.get_log('browser')


# ---- a folder that the browser gives


def test_a_folder_of_the_browser():
    """Maps of the folder and of those in it are opened and saved in their places; a file that has changed
    or come is not replaced without a question; and a page that is loaded anew has the folder."""
    names = ('tiles.tsx', 'tiles.png', 'town.tmj', 'layers.tmj')
    with site() as address:
        page = Page(browser(), f'{address}/roskevad.html')
        page.clear(f'{address}/blank.html')
        files = {name: (EXAMPLE_MAPS / name).read_bytes() for name in names}
        town = files['town.tmj'].replace(b'"tiles.tsx"', b'"../tiles.tsx"')
        page.open()
        given = {**files, 'deep/my town.tmj': town}
        put(page, given)
        take_folder(page)
        page.fill_in(file='deep/my town.tmj')
        assert page.js('return roskevad.tilesets.all.map(set => set.image !== null)') == [True]
        draw(page)
        page.ctrl('s')
        assert compact(bytes_in(page, 'deep/my town.tmj')) == page.editor.shown()
        assert not page.texts('.tab.unsaved') and page.find('#save-hint').text == ''
        page.ctrl('s', Keys.SHIFT)
        page.fill_in(file='layers.tmj')
        assert 'is there already' in page.find('dialog').text
        answer(page, 'Cancel')
        assert bytes_in(page, 'layers.tmj') == files['layers.tmj']
        page.editor.lines('stamp 1 0 0 1 5')
        page.reload()
        assert page.notices() == [] and standing(page) == (2, 2)
        assert page.js('return roskevad.editor.place.kind') == 'folder'
        put(page, {'deep/my town.tmj': OTHER})
        focus(page)
        assert 'deep/my town.tmj has changed outside' in page.notices()[0]
        page.ctrl('s')
        answer(page, 'Replace it')
        assert compact(bytes_in(page, 'deep/my town.tmj')) == page.editor.shown()
        page.driver.get('about:blank')


def test_an_address_that_is_not_safe():
    """From another host without https the page says what is missing, and does nothing."""
    with site() as address:
        driver = started('--host-resolver-rules=MAP example.test 127.0.0.1')
        try:
            page = Page(driver, f'{address.replace("127.0.0.1", "example.test")}/roskevad.html')
            driver.get(page.address)
            page.wait(page.notices, 'the page says something')
            [told] = page.notices()
            assert 'cannot work here' in told and 'https' in told, told
            assert page.js('return document.body.dataset.isReady ?? null') is None
        finally:
            driver.quit()
