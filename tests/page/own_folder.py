# SPDX-License-Identifier: MIT OR Apache-2.0
"""The page with a folder that the browser gives: one of its own, since its chooser takes no answer from a
test."""
import contextlib
import functools
import http.server
import shutil
import tempfile
import threading
from pathlib import Path

from lib.places import EXAMPLE_MAPS
from page.bench import PAGE
from page.browser import Page, browser


@contextlib.contextmanager
def site():
    """The page's one file at an address of this machine, from a server that gives nothing else."""
    with tempfile.TemporaryDirectory() as top:
        shutil.copy(PAGE, top)
        (Path(top) / 'blank.html').write_text('<!doctype html>')

        class Quiet(http.server.SimpleHTTPRequestHandler):
            def log_message(self, *_):
                """Tells nothing."""

        served = functools.partial(Quiet, directory=top)
        with http.server.ThreadingHTTPServer(('127.0.0.1', 0), served) as server:
            threading.Thread(target=server.serve_forever, daemon=True).start()
            yield f'http://127.0.0.1:{server.server_address[1]}'
            server.shutdown()


PUT = '''
const [files, done] = arguments;
(async () => {
  const top = await navigator.storage.getDirectory();
  for (const [path, bytes] of Object.entries(files)) {
    let folder = top;
    for (const part of path.split("/").slice(0, -1)) folder = await folder.getDirectoryHandle(part, {create: true});
    const to = await (await folder.getFileHandle(path.split("/").pop(), {create: true})).createWritable();
    await to.write(new Uint8Array(bytes));
    await to.close();
  }
})().then(() => done(""), fault => done(String(fault)));'''
READ = '''
const [path, done] = arguments;
roskevad.editor.place.read(path).then(found => done(found && [...found.bytes]), fault => done(String(fault)));'''
TAKE = '''
const [name, done] = arguments;
navigator.storage.getDirectory()
  .then(top => (name ? top.getDirectoryHandle(name) : top))
  .then(folder => roskevad.panel.takeFolder(folder));
setTimeout(done, 500);'''


def put(page, files):
    """Writes files of these bytes into the browser's own folder."""
    given = {path: list(data) for path, data in files.items()}
    assert page.driver.execute_async_script(PUT, given) == ''


def take_folder(page, name=''):
    """The page has the browser's own folder from now on, or one in it. Where no map is open, it asks for one."""
    page.driver.execute_async_script(TAKE, name)


@contextlib.contextmanager
def folder_page(*names):
    """The page over a folder of the browser with some of the example maps, the town of which is open."""
    with site() as address:
        page = Page(browser(), f'{address}/roskevad.html')
        page.clear(f'{address}/blank.html')
        page.open()
        put(page, {name: (EXAMPLE_MAPS / name).read_bytes() for name in ('tiles.tsx', 'tiles.png', 'town.tmj', *names)})
        take_folder(page)
        page.fill_in(file='town.tmj')
        yield page
        page.driver.get('about:blank')


def bytes_in(page, path):
    """The bytes of a file of the page's folder; None where there is none."""
    found = page.driver.execute_async_script(READ, path)
    return found if found is None else bytes(found)
