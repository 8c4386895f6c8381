# SPDX-License-Identifier: MIT OR Apache-2.0
"""Tries what docs/packages.md says of tasks and threads: which edits of other tasks come into a macro, that a map is opened and saved
in another thread while the loop goes on, what falls between the call of `open` or `saveBytes` and the end of its promise, and that a
worker makes its own editor."""
import json
import subprocess
import sys
import tempfile

from lib.cases import Case, check_each, unlike
from lib.places import TOP

PACKAGES = ('nodejs',)
MAPS = TOP / 'examples' / 'maps'
# Scripts of Python: each prints what came, by way of JSON.
HEAD = """
import asyncio, json, sys
sys.path.insert(0, PACKAGE)
from roskevad import Editor
editor = Editor()
town = editor.open(TOWN)
async def other(done):
    await asyncio.sleep(0)
    town.stamp('Ground', 5, 5, [[9]])
    done.set()
"""
PYTHON = {
    'a macro around an await takes in the edits of other tasks': ("""
async def main():
    done = asyncio.Event()
    task = asyncio.create_task(other(done))
    with town.macro('A'), editor.lock:
        town.stamp('Ground', 2, 2, [[9]])
        await done.wait()
    await task
    print(json.dumps([town.status.count, town.steps[0].text]))
asyncio.run(main())
""", [1, 'A']),
    'one that awaits before does not': ("""
async def main():
    done = asyncio.Event()
    task = asyncio.create_task(other(done))
    await done.wait()
    with town.macro('A'):
        town.stamp('Ground', 2, 2, [[9]])
    await task
    print(json.dumps([step.text for step in town.steps]))
asyncio.run(main())
""", ['Stamp', 'A']),
    'a map is opened and saved in another thread': ("""
async def main():
    turns = 0
    async def count():
        nonlocal turns
        while True:
            turns += 1
            await asyncio.sleep(0)
    counting = asyncio.create_task(count())
    house = await asyncio.to_thread(editor.open, HOUSE)
    house.stamp(1, 0, 0, [[1]])
    await asyncio.to_thread(house.save, COPY)
    counting.cancel()
    print(json.dumps([turns > 1, house.status.clean, sorted(editor.documents)]))
asyncio.run(main())
""", [True, True, ['house', 'town']]),
}
SETUP = """
import { readFileSync } from "node:fs";
import { Worker } from "node:worker_threads";
import { Editor } from "./js/roskevad.js";
const editor = await Editor.create();
const [town, zlib] = [await editor.open(readFileSync(TOWN), "town"), readFileSync(ZLIB)];
const told = (value) => console.log(JSON.stringify(value));
"""
JAVASCRIPT = {
    'a map is open before its promise is kept': ("""
const opening = editor.open(zlib, "zlib");
town.stamp("Ground", 2, 2, [[9]]);
const [between, opened] = [editor.active.name, await opening];
told([between, editor.active === opened, town.status.count, opened.status.count]);
""", ['town', False, 1, 0]),
    'a save has the map of its call': ("""
const packed = await editor.open(zlib, "zlib");
packed.stamp(1, 0, 0, [[5]]);
const saving = packed.saveBytes();
packed.stamp(1, 0, 0, [[6]]);
const saved = await editor.open(await saving, "saved");
told([saved.layers.get(1).cells()[0], packed.layers.get(1).cells()[0], packed.status.clean, packed.cleanIndex]);
""", [5, 6, False, 1]),
    'a worker makes its own editor': ("""
const module = await WebAssembly.compile(readFileSync("js/roskevad.wasm"));
const code = `import("${new URL("./js/roskevad.js", `file://${process.cwd()}/`)}").then(async ({ Editor }) => {
  const { parentPort, workerData } = await import("node:worker_threads");
  const own = await Editor.create({ module: workerData.module });
  const document = await own.open(workerData.bytes, "sent");
  document.stamp(1, 0, 0, [[7]]);
  parentPort.postMessage(await document.saveBytes());
})`;
const worker = new Worker(code, { eval: true, workerData: { module, bytes: zlib } });
const bytes = await new Promise((keep, fail) => { worker.on("message", keep); worker.on("error", fail); });
const back = await editor.open(bytes, "back");
told([back.layers.get(1).cells()[0], [...editor.documents.keys()]]);
""", [7, ['town', 'back']]),
}


def told_by(words):
    done = subprocess.run(words, capture_output=True, text=True, cwd=TOP, timeout=120)
    assert done.returncode == 0, done.stderr[-2000:]
    return json.loads(done.stdout)


def filled(script, folder=''):
    places = {'PACKAGE': TOP / 'python', 'TOWN': MAPS / 'town.tmj', 'HOUSE': MAPS / 'house.tmj', 'ZLIB': MAPS / 'zlib.tmj', 'COPY': f'{folder}/a.tmj'}
    for name, path in places.items():
        script = script.replace(f'({name}', f'({json.dumps(str(path))}').replace(f', {name})', f', {json.dumps(str(path))})')
    return script


def test_python():
    def fault_of(case):
        with tempfile.TemporaryDirectory() as folder:
            return unlike(case.wanted, told_by([sys.executable, '-c', filled(HEAD + case.given, folder)]))

    check_each([Case(name, *row) for name, row in PYTHON.items()], fault_of)


def test_javascript():
    check_each(
        [Case(name, *row) for name, row in JAVASCRIPT.items()],
        lambda case: unlike(case.wanted, told_by(['node', '--input-type=module', '--eval', filled(SETUP + case.given)])),
    )


def test_what_the_page_says():
    """It says it of threads, tasks and workers, and of what stays."""
    text = (TOP / 'docs' / 'packages.md').read_text()
    missing = [each for each in ('## Threads, tasks and workers', '`asyncio`', 'A worker', '## What stays') if each not in text]
    assert not missing, f'docs/packages.md has no {missing}'
