# SPDX-License-Identifier: MIT OR Apache-2.0
"""Works on the page where a journal comes from elsewhere: of another folder at the same port of `./tile_page`, of the
same folder by another start of it, and of another folder of the browser. Names of files say nothing of another source."""
import json
import shutil
import tempfile
from pathlib import Path

from lib.maps import compact
from lib.places import EXAMPLE_MAPS
from page.bench import standing
from page.browser import Page, Server, browser
from page.own_folder import bytes_in, put, site, take_folder

NEEDS_BROWSER = True
IS_LONG = True


class Folders:
    """Two folders with maps of the same names, of which the second one has another town, and one page at one port."""

    def __enter__(self):
        self.top = tempfile.TemporaryDirectory()
        self.one, self.two = (Path(self.top.name) / name for name in ('one', 'two'))
        for folder in (self.one, self.two):
            shutil.copytree(EXAMPLE_MAPS, folder)
        town = json.loads((self.two / 'town.tmj').read_text())
        town['layers'] = town['layers'][:1]
        (self.two / 'town.tmj').write_text(json.dumps(town))
        self.port, self.server = '0', None
        page = self.serve(self.one, Page(browser(), None))
        page.has_log = False
        page.clear(f'{self.server.address.split("?")[0]}files')
        page.open()
        self.page = page
        return self

    def serve(self, folder, page, *words):
        """Serves a folder at the same port as before, and gives the page its address."""
        if self.server is not None:
            self.server.end()
        self.server = Server(folder, '--port', self.port, *words, str(folder / 'town.tmj'))
        self.port = str(self.server.parts.port)
        page.address = self.server.address
        return page

    def __exit__(self, *_):
        self.page.driver.get('about:blank')
        self.server.end()
        self.top.cleanup()
        browser().get_log('browser')


def layers(page):
    return [each['name'] for each in page.editor.map()['layers']]


def test_another_folder():
    """The file of the command line opens. What was left of the other folder is offered, and said to be of that; it comes
    back without files, so that a save asks where, and asks again before it replaces anything."""
    with Folders() as folders:
        page = folders.page
        page.editor.lines('stamp 1 3 20 1 12')
        page.ctrl('s')
        page.editor.lines('stamp 1 4 20 1 12')
        mine, other = page.editor.shown(), (folders.two / 'town.tmj').read_bytes()
        folders.serve(folders.two, page).open()
        assert standing(page) == (0, 0) and len(layers(page)) == 1, 'the town of the second folder'
        [told] = page.notices()
        assert f'another folder, {folders.one.resolve()}' in told and 'town.tmj (2 steps, not saved)' in told, told
        page.answer('Restore')
        page.wait(lambda: standing(page) == (2, 2), 'it is restored')
        for _ in range(2):
            assert page.editor.shown() == mine
            assert [each['path'] for each in page.editor.state()['documents']] == [None]
            page.reload()
        assert page.notices() == []
        page.ctrl('s')
        page.fill_in(file='town.tmj')
        assert 'town.tmj is there already' in page.find('dialog').text
        page.fill_in('Cancel')
        assert (folders.two / 'town.tmj').read_bytes() == other
        page.ctrl('s')
        page.fill_in(file='old town.tmj')
        assert compact((folders.two / 'old town.tmj').read_bytes()) == mine and page.editor.state()['isClean']
        page.reload()
        assert [each['path'] for each in page.editor.state()['documents']] == ['old town.tmj']


def test_another_root():
    """The same folder with a root above it is another source: the tilesets may be others."""
    with Folders() as folders:
        page = folders.page
        page.editor.lines('stamp 1 3 20 1 12')
        folders.serve(folders.one, page, '--root', str(folders.one.parent)).open()
        assert standing(page) == (0, 0) and 'another folder' in page.notices()[0]
        folders.serve(folders.one, page).open()
        page.answer('Restore')
        page.wait(lambda: standing(page) == (1, 1), 'it is restored')
        assert [each['path'] for each in page.editor.state()['documents']] == ['town.tmj']


def test_another_folder_under_an_open_page():
    """A page that stays open saves nothing into another folder that is served at its address, with its key, by then."""
    with Folders() as folders:
        page, key = folders.page, ('--key-file', str(folders.one.parent / 'key'))
        # A file that is the same in both.
        shutil.copy(folders.one / 'town.tmj', folders.two / 'town.tmj')
        folders.serve(folders.one, page, *key).open()
        page.editor.lines('stamp 1 3 20 1 12')
        before = (folders.two / 'town.tmj').read_bytes()
        folders.serve(folders.two, page, *key)
        page.ctrl('s')
        assert 'another folder is served here' in page.bubble(), page.bubble()
        assert (folders.two / 'town.tmj').read_bytes() == before and not page.editor.state()['isClean']
        folders.serve(folders.one, page, *key)
        page.ctrl('s')
        assert compact((folders.one / 'town.tmj').read_bytes()) == page.editor.shown() != before


def test_another_folder_of_the_browser():
    """Where another folder is chosen, the open maps have no files there; the same one, chosen once more, has them."""
    with site() as address:
        page = Page(browser(), f'{address}/roskevad.html')
        page.has_log = False
        page.clear(f'{address}/blank.html')
        page.open()
        put(page, {'one/town.tmj': (EXAMPLE_MAPS / 'town.tmj').read_bytes(), 'two/town.tmj': b'other'})
        take_folder(page, 'one')
        page.fill_in(file='town.tmj')
        page.editor.lines('stamp 1 3 20 1 12')
        take_folder(page, 'one')
        page.settle()
        assert [each['path'] for each in page.editor.state()['documents']] == ['town.tmj']
        take_folder(page, 'two')
        page.settle()
        assert any('another folder, one' in each for each in page.notices()), page.notices()
        for _ in range(2):
            assert [each['path'] for each in page.editor.state()['documents']] == [None]
            assert standing(page) == (1, 1) and page.js('return roskevad.editor.place.title') == 'two'
            page.reload()
        page.ctrl('s')
        page.fill_in(file='town.tmj')
        assert 'town.tmj is there already' in page.find('dialog').text
        page.fill_in('Cancel')
        assert bytes_in(page, 'town.tmj') == b'other'
        page.driver.get('about:blank')
