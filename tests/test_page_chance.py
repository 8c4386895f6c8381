# SPDX-License-Identifier: MIT OR Apache-2.0
"""Works by chance in browsers that are killed: draws, undoes, saves slowly, closes maps whose saves go
on and opens others of the same name, loads maps anew that changed outside, and has the browser's disk
full for a moment. Behind each kill no listed step is missing, no file has another map, and nothing is
called saved that is not in its file."""
import json
import os
import random
import subprocess
import tempfile
import time
from pathlib import Path

from lib.cases import passed
from lib.maps import compact
from lib.places import EXAMPLE_MAPS, TILE_EDITOR
from page.browser import Server
from page.lives import Life
from page.slow_syncs import slow_syncs

NEEDS_BROWSER = True
IS_LONG = True
# So many kills in the gate; by hand 300 once, by ROSKEVAD_KILLS.
KILLS = int(os.environ.get('ROSKEVAD_KILLS', '10'))
SEED = int(os.environ.get('ROSKEVAD_SEED', '20261128'))
# The maps and their widths, by which each is known wherever it stands.
WIDTHS = {'town.tmj': 24, 'a/town.tmj': 20, 'b/town.tmj': 16, 'house.tmj': 12}
HEIGHT = 10
# Each document: where it stands among its steps, its bytes, its file, and whether it is called saved.
SNAP = '''
const {editor: page} = roskevad, {editor, openDocuments} = page;
const active = openDocuments.active;
const told = Object.fromEntries(openDocuments.order.map(name => {
  editor.step(`use ${name}`);
  const {index, count, isClean} = page.stand();
  const path = openDocuments.fileOf(name)?.path ?? null;
  return [name, {index, count, isClean: isClean && !page.isWriting(name), path, shown: editor.step("show").slice(4)}];
}));
editor.step(`use ${active ?? "-"}`);
return told;'''
# The bytes of a document at another place among its steps.
AT = '''
const {editor, openDocuments} = roskevad.editor, [name, index] = arguments;
editor.step(`use ${name}`);
editor.step(`goto ${index}`);
const shown = editor.step("show").slice(4);
editor.step(`use ${openDocuments.active ?? "-"}`);
return shown;'''
STROKES = '''
let number = Math.floor(Math.random() * 1e6);
globalThis.drawing = setInterval(() => {
  number++;
  const lines = [`stamp 1 ${number % 12} ${number % 10} 1 ${1 + number % 30}`];
  if (number % 7 === 0) lines.splice(0, 0, "begin Two");
  if (number % 7 === 0) lines.push(`stamp 1 ${number % 11} ${number % 9} 1 ${1 + number % 29}`, "end");
  roskevad.editor.doLines(lines);
}, 3);'''
WALK = '''
globalThis.walking = setInterval(() => {
  const {count} = roskevad.editor.stand();
  roskevad.editor.doLines([`goto ${Math.floor(Math.random() * (count + 1))}`]);
}, 3);'''
# The browser's disk is full for a moment.
FILL = '''
globalThis.put ??= IDBObjectStore.prototype.put;
IDBObjectStore.prototype.put = () => { throw new DOMException("It has no room.", "QuotaExceededError"); };
clearTimeout(globalThis.filled);
globalThis.filled = setTimeout(() => { IDBObjectStore.prototype.put = globalThis.put; }, arguments[0]);'''


def new_map(width):
    lines = f'new m {width} {HEIGHT} 16 16 tiles.tsx\nshow\n'.encode()
    told = subprocess.run([TILE_EDITOR], input=lines, capture_output=True, check=True).stdout
    return told.split(b'\n')[1][len(b'map ') :]


def width_of(data):
    return json.loads(data)['width']


QUIET = '''
const {editor} = roskevad;
return editor.isQuiet && editor.journal.isKept && !document.querySelector("dialog[open]")'''


class Chance:
    """A folder of maps, its server, and a browser that is killed over and over."""

    def __init__(self, top, numbers):
        self.top, self.numbers = Path(top), numbers
        self.folder = self.top / 'maps'
        for name, width in WIDTHS.items():
            (self.folder / name).parent.mkdir(parents=True, exist_ok=True)
            (self.folder / name).write_bytes(new_map(width))
        for name in ('tiles.tsx', 'tiles.png'):
            for folder in (self.folder, self.folder / 'a', self.folder / 'b'):
                (folder / name).write_bytes((EXAMPLE_MAPS / name).read_bytes())
        with slow_syncs(top, 0.7) as self.flag:
            self.server = Server(self.folder)
        # What another program has written last, by the paths.
        self.outside = {}
        self.did = []

    def say(self, what):
        self.did.append(what)

    # ---- what is done
    def open_some(self):
        path = self.numbers.choice(list(WIDTHS))
        self.say(f'open {path}')
        self.page.js('return roskevad.documents.openPath(arguments[0]).then(() => null)', path)

    def draw_some(self):
        self.say('draw')
        lines = [
            f'stamp 1 {self.numbers.randrange(12)} {self.numbers.randrange(HEIGHT)} 1 {self.numbers.randrange(1, 30)}'
            for _ in range(self.numbers.randrange(1, 20))
        ]
        self.page.js('roskevad.editor.doLines(arguments[0])', lines)

    def undo_some(self):
        self.say('undo')
        self.page.js('roskevad.editor.doLines(Array(arguments[0]).fill("undo"), {isFree: true})', self.numbers.randrange(1, 6))

    def save_now(self):
        self.say('save')
        self.page.js('roskevad.documents.save()')
        time.sleep(self.numbers.uniform(0, 0.2))

    def save_slowly(self):
        self.say('save slowly')
        self.flag.touch()
        self.page.js('roskevad.documents.save()')
        time.sleep(self.numbers.uniform(0, 0.3))

    def fill_disk(self):
        self.say('fill the disk')
        self.page.js(FILL, self.numbers.randrange(1, 800))
        self.draw_some()

    def turn(self):
        names = list(self.page.js(SNAP))
        if names:
            self.say('use another')
            self.page.js('roskevad.editor.doLines([arguments[0]])', f'use {self.numbers.choice(names)}')

    def close_some(self):
        """Closes a map, whether it is saved or being saved, and opens one that gets its name."""
        names = list(self.page.js(SNAP))
        if not names:
            return
        name = self.numbers.choice(names)
        self.say(f'close {name}')
        self.page.js('roskevad.documents.close(arguments[0])', name)
        time.sleep(0.1)
        self.answer('Discard', 'Leave it', 'Wait, then close')
        self.open_some()

    def change_outside(self):
        """Another program writes a file; the page looks, and what it asks is answered somehow."""
        name = self.numbers.choice(list(WIDTHS))
        path = self.folder / name
        self.say(f'change {name} outside')
        self.flag.unlink(missing_ok=True)
        session = f'open m {path.name}\nstamp 1 0 0 1 {self.numbers.randrange(1, 30)}\nsave {path.name}\n'
        subprocess.run(
            [TILE_EDITOR, '--folder', path.parent], input=session.encode(), capture_output=True, check=True
        )
        self.outside[name] = path.read_bytes()
        self.page.js('dispatchEvent(new Event("focus"))')
        time.sleep(0.3)
        if self.numbers.random() < 0.7:
            self.page.js(
                '[...document.querySelectorAll("#notice-bars button")]'
                '.find(each => ["Reload", "Not now"].includes(each.textContent))?.click()'
            )
        time.sleep(0.2)
        self.answer('Discard and reload', 'Reload', 'Keep both', 'Cancel')

    def answer(self, *texts):
        """Answers a question that stands there, by one of these answers."""
        wanted = list(texts)
        self.numbers.shuffle(wanted)
        self.page.js(
            'const all = [...document.querySelectorAll("dialog[open] button")];'
            'for (const text of arguments[0]) {'
            '  const found = all.find(each => each.textContent === text);'
            '  if (found) return found.click();'
            '}'
            'all.find(each => each.textContent === "Cancel")?.click();',
            wanted,
        )
        time.sleep(0.05)

    def rest(self):
        """Waits until nothing is under way, and answers what is asked."""
        self.flag.unlink(missing_ok=True)
        end = time.monotonic() + 60
        while time.monotonic() < end:
            self.answer('Cancel')
            if self.page.js(QUIET):
                return
            time.sleep(0.05)
        raise AssertionError(f'the page does not come to rest: {self.did}')

    # ---- a life
    def work(self):
        does = [self.open_some, self.draw_some, self.draw_some, self.undo_some, self.save_now]
        does += [self.save_slowly, self.turn, self.close_some, self.change_outside, self.fill_disk]
        if not self.page.js(SNAP):
            self.open_some()
        for _ in range(self.numbers.randrange(2, 9)):
            self.numbers.choice(does)()
            if self.numbers.random() < 0.6:
                self.rest()

    def kill(self):
        """The last things are under way when the browser is killed. What was there before them."""
        self.rest()
        before, last = self.page.js(SNAP), self.numbers.choice(['strokes', 'walk', 'save', 'slow save', 'close', 'reload'])
        active = self.page.js('return roskevad.editor.openDocuments.active')
        self.say(f'kill in {last}')
        gone = set()
        if last == 'strokes':
            self.page.js(STROKES)
        elif last == 'walk':
            self.page.js(WALK)
        elif last == 'close':
            name = self.numbers.choice(list(before) or ['none'])
            gone.add(name)
            self.page.js('roskevad.editor.doLines([`discard ${arguments[0]}`])', name)
        elif last == 'reload':
            self.change_outside()
            gone |= set(before)
        else:
            if last == 'slow save':
                self.flag.touch()
            self.page.js('roskevad.documents.save()')
        time.sleep(self.numbers.uniform(0, 0.5))
        listed = self.page.js('return roskevad.editor.state.count')
        self.life.kill()
        self.flag.unlink(missing_ok=True)
        return before, gone, active if last == 'strokes' else None, listed

    def see(self, before, gone, drawn, listed):
        """Looks at what a new browser shows, and at the files."""
        now = self.page.js(SNAP)
        by_path = {each['path'] for each in now.values()}
        for name, was in before.items():
            if name not in now:
                assert name in gone, f'{name} is missing: {self.did}'
                continue
            found = now[name]
            if name == drawn:
                assert found['count'] >= max(was['index'], listed), (found['count'], was, listed, self.did)
            elif name not in gone:
                assert found['count'] == was['count'], (name, found['count'], was['count'], self.did)
            if found['count'] >= was['index'] and (name != drawn or was['index'] == was['count']):
                assert self.page.js(AT, name, was['index']) == was['shown'], f'{name}: {self.did}'
                self.page.js(AT, name, found['index'])
            assert found['path'] == was['path'] or name in gone or was['path'] is None, (name, self.did)
        for name, found in now.items():
            path = found['path']
            assert path is None or width_of(found['shown']) == WIDTHS[path], f'{name} has {path}: {self.did}'
            # Of a file that another program has written the page tells, and leaves the document as it was saved.
            if path is not None and found['isClean'] and (data := (self.folder / path).read_bytes()) != self.outside.get(path):
                assert compact(data) == found['shown'].encode(), f'{name} is not in {path}, and is called saved: {self.did}'
        assert len(by_path - {None}) == len([1 for each in now.values() if each['path']]), 'two documents of one file'

    def see_files(self):
        for path, width in WIDTHS.items():
            assert width_of((self.folder / path).read_bytes()) == width, f'{path} has another map: {self.did}'

    def live(self, life, kills):
        self.life = life
        self.page = life.begin()
        for _ in range(kills):
            self.did.append('--')
            self.work()
            told = self.kill()
            self.see_files()
            self.page = life.begin()
            offered = [each for each in self.page.notices() if 'Restore' in each]
            if offered:
                self.page.answer('Restore')
                self.rest()
                self.see(*told)
            else:
                left = {name: {**each, 'shown': ''} for name, each in told[0].items() if name not in told[1]}
                assert all(each['path'] and not each['count'] for each in left.values()), (left, self.did[-20:])
            passed()


def test_chance():
    numbers = random.Random(SEED)
    with tempfile.TemporaryDirectory() as top:
        chance = Chance(top, numbers)
        try:
            with Life(chance.server.address) as life:
                chance.live(life, KILLS)
        finally:
            assert chance.server.end() == 0
