# SPDX-License-Identifier: MIT OR Apache-2.0
"""Sees that the package for JavaScript in `js/` is whole: its files, its licences, its version, and
the forms of lines, which are those of the Python package; by the compiler of TypeScript, that its
declarations are those of its code; and that a project takes it as npm packs it: its links lead to
files in it, its examples run, and bundles of esbuild that are modules, and that are none, draw a map in Node, and in
Chromium from a disk."""
import json
import os
import re
import shutil
import subprocess
import sys
import tempfile
from contextlib import contextmanager
from pathlib import Path

from lib.cases import Case, check_each, fail_with, unlike
from lib.places import EXAMPLES, EXAMPLE_MAPS, TESTS, TOP
from module.browsers import WAIT, chromium, opened
from module.server import Server

sys.path.insert(0, str(TOP / 'python'))
from roskevad.forms import FORMS, forms_of  # noqa: E402

PACKAGES = ('nodejs', 'node-typescript', 'esbuild', 'chromium')
JS = TOP / 'js'
DECLARED = ''.join((JS / name).read_text() for name in ('roskevad.d.ts', 'document.d.ts'))
# The libraries of types that a page's program and one of Node alone may have.
HOSTS = ('es2022,dom', 'es2022')
LINES = [*FORMS, *(f'{word} x' for word in FORMS), '', ' ', 'x', 'STAMP', 'stamp++ 1', 'üü', '+', 'c']


def in_node(script):
    """What a script over the package gives, by way of JSON."""
    code = f'import * as roskevad from "./js/roskevad.js"; console.log(JSON.stringify({script}));'
    done = subprocess.run(
        ['node', '--input-type=module', '--eval', code], cwd=TOP, capture_output=True, text=True
    )
    assert done.returncode == 0, done.stderr[-2000:]
    return json.loads(done.stdout)


def test_files():
    """Each that the package needs stands there, and is no link: npm leaves links out."""
    package = json.loads((JS / 'package.json').read_text())
    named = {f'./{name}' for pattern in package['files'] for name in names_of(pattern)}
    wanted = {'./roskevad.js', './roskevad.d.ts', './document.d.ts', './roskevad.wasm', './NOTICES.txt'}
    imported = {
        name for path in JS.glob('*.js') for name in re.findall(r'from "(\./[^"]+)"', path.read_text())
    }
    missing = (wanted | imported) - named
    links = [name for name in named if (JS / name).is_symlink()]
    assert not missing and not links, f'package.json leaves out {missing}; {links} are links'
    assert (package['type'], package['license']) == ('module', 'MIT OR Apache-2.0')
    assert 'dependencies' not in package and 'scripts' not in package


def names_of(pattern):
    names = [path.relative_to(JS).as_posix() for path in JS.glob(pattern)]
    assert names, f'package.json names {pattern}, and js/ has no such file'
    return names


def test_files_that_stand_elsewhere_too():
    pairs = [(TOP / name, JS / name) for name in ('LICENSE-MIT', 'LICENSE-APACHE')]
    cases = [Case(f'js/{copy.name}', copy, first) for first, copy in pairs]
    check_each(
        cases,
        lambda case: None
        if case.given.read_bytes() == case.wanted.read_bytes()
        else f'it is not {case.wanted.relative_to(TOP)}',
    )


def test_forms():
    """They are those of the Python package, and so those of the program's help."""
    fault = unlike({word: list(forms) for word, forms in FORMS.items()}, in_node(
        'Object.fromEntries(roskevad.FORMS)'
    ))
    assert not fault, fault
    given = in_node(f'{json.dumps(LINES)}.map(roskevad.formsOf)')
    cases = [Case(repr(line), line, forms) for line, forms in zip(LINES, given)]
    check_each(cases, lambda case: unlike(list(forms_of(case.given)), case.wanted))


def declared_in(kind):
    """The names of the members of a class that are declared."""
    body = re.search(rf'^export class {kind} .*?\{{\n(.*?)^\}}', DECLARED, re.MULTILINE | re.DOTALL)
    return set(re.findall(r'^  (?:static |readonly )*(\w+)[(:?]', body[1], re.MULTILINE))


def test_names_that_are_declared():
    """Those of the code: of the package, and of an editor."""
    names = set(re.findall(r'^export (?:const|function|class) (\w+)', DECLARED, re.MULTILINE))
    fault = unlike(sorted(in_node('Object.keys(roskevad)')), sorted(names))
    assert not fault, fault
    members = in_node('[...Object.getOwnPropertyNames(roskevad.Editor.prototype), "create"]')
    outer = [name for name in members if not name.startswith('_')]
    fault = unlike(sorted(outer), sorted(declared_in('Editor')))
    assert not fault, fault


def fault_of_types(case):
    words = ['tsc', '--project', TESTS / 'module', '--lib', case.given]
    done = subprocess.run(words, cwd=TOP, capture_output=True, text=True)
    return None if done.returncode == 0 else f'{done.stdout[-2000:]}{done.stderr[-500:]}'


def test_types():
    check_each([Case(f'with {host}', host, None) for host in HOSTS], fault_of_types)


# ---- in a project

# What npm packs beside what `files` names.
ALWAYS = ('package.json', 'README.md')
DRAWN = 'Document town, 4 by 3, 1/1 dirty 0'
# A program of a project; TOLD stands for what is done with what it tells.
MAIN = '''import { Editor } from "roskevad";
import module from "roskevad/roskevad.wasm";

async function drawn() {
  const editor = await Editor.create({ module });
  const town = editor.new("town", 4, 3, 16, 16, "town.tsj");
  town.stamp(1, 0, 0, [[5]]);
  return String(town);
}

drawn().then((given) => [given, null], (fault) => [null, `${fault}`]).then((came) => TOLD);
'''
LOADER = '--loader:.wasm=binary'
# A program that names no module.
NAMELESS = 'import { Editor } from "roskevad";\nEditor.create().then(() => console.log("made"), (fault) => console.log(`${fault}`));\n'


def files_that_are_packed():
    package = json.loads((JS / 'package.json').read_text())
    return sorted({name for pattern in package['files'] for name in names_of(pattern)} | {*ALWAYS})


@contextmanager
def project(**files):
    """A folder of a project that has the packed package, and these files."""
    with tempfile.TemporaryDirectory(prefix='roskevad_project_') as folder:
        package = Path(folder) / 'node_modules' / 'roskevad'
        package.mkdir(parents=True)
        for name in files_that_are_packed():
            (package / name).parent.mkdir(exist_ok=True)
            shutil.copy(JS / name, package / name)
        for name, text in files.items():
            (Path(folder) / name.replace('_', '.')).write_text(text)
        yield Path(folder)


def told_by(folder, *words):
    """What a command prints in a folder. It must end well."""
    done = subprocess.run(words, cwd=folder, capture_output=True, text=True, timeout=120)
    assert done.returncode == 0, f'{words}: {done.stdout[-1000:]}{done.stderr[-2000:]}'
    return done.stdout.strip()


def bundle(folder, entry, out, *options):
    told_by(folder, 'esbuild', entry, '--bundle', f'--outfile={out}', '--log-level=error', *options)


def test_links_of_the_packed_package():
    packed = files_that_are_packed()
    fail_with(
        f'{name}: {link} leads to no file of the package'
        for name in packed
        if name.endswith('.md')
        for link in re.findall(r'\]\(([^)]+)\)', (JS / name).read_text())
        if '://' not in link and not link.startswith('#') and os.path.normpath(link.partition('#')[0]) not in packed
    )


def test_examples_of_the_packed_package():
    """Each draws the same map as the example for Python does."""
    with project() as folder:
        words = [sys.executable, EXAMPLES / 'fence.py', EXAMPLE_MAPS / 'layers.tmj', folder / 'wanted.tmj']
        subprocess.run(words, check=True, capture_output=True)
        for example in sorted((folder / 'node_modules' / 'roskevad' / 'examples').iterdir()):
            told_by(folder, 'node', example, EXAMPLE_MAPS / 'layers.tmj', 'came.tmj')
            came, wanted = ((folder / name).read_bytes() for name in ('came.tmj', 'wanted.tmj'))
            assert came == wanted, example.name


def test_bundles_in_node():
    """Of each form, with the module in it."""

    def fault_of(case):
        form, end = case.given
        with project(main_js=MAIN.replace('TOLD', 'console.log(came[0] ?? came[1])')) as folder:
            bundle(folder, 'main.js', f'out.{end}', f'--format={form}', '--platform=node', LOADER)
            return unlike(case.wanted, told_by(folder, 'node', f'out.{end}'))

    rows = [('iife', 'js'), ('cjs', 'cjs'), ('esm', 'mjs')]
    check_each([Case(form, (form, end), DRAWN) for form, end in rows], fault_of)


def test_bundles_without_a_module():
    """One that is a module finds it beside it. One that is none says what to name, and only when it is asked."""
    with project(main_js=NAMELESS) as folder:
        bundle(folder, 'main.js', 'out.mjs', '--format=esm', '--platform=node')
        bundle(folder, 'main.js', 'out.cjs', '--format=cjs', '--platform=node')
        shutil.copy(JS / 'roskevad.wasm', folder)
        fault = unlike('made', told_by(folder, 'node', 'out.mjs'))
        assert not fault, fault
        told = told_by(folder, 'node', 'out.cjs')
        assert told.startswith('TypeError: ') and 'Editor.create({ module })' in told, told


def test_a_bundle_on_a_disk():
    """Chromium opens a page from a disk, whose one script is a bundle that is no module."""
    with Server() as server:
        tell = f'const tell = (came) => fetch("{server.address}/came", {{ method: "POST", mode: "no-cors", body: JSON.stringify(came) }});'
        first = f'<script>{tell} onerror = (fault) => tell([null, fault]);</script>'
        page = f'<!doctype html><meta charset="utf-8"><title>Roskevad</title>{first}<script src="out.js"></script>'
        with project(main_js=MAIN.replace('TOLD', 'tell(came)'), index_html=page) as folder:
            bundle(folder, 'main.js', 'out.js', '--format=iife', LOADER)
            with opened(chromium, (folder / 'index.html').as_uri()) as process:
                came = server.wait(WAIT, lambda: process.poll() is None)
    fault = unlike((DRAWN, None), tuple(came))
    assert not fault, fault


def test_types_in_a_project():
    """The compiler of TypeScript finds the declarations of the package, and of its module of WebAssembly."""
    options = {'noEmit': True, 'strict': True, 'target': 'es2022', 'module': 'node16', 'moduleResolution': 'node16', 'types': []}
    config = json.dumps({'compilerOptions': options, 'files': ['main.mts']})
    with project(main_mts=MAIN.replace('TOLD', 'void came'), tsconfig_json=config) as folder:
        told_by(folder, 'tsc', '--project', '.', '--lib', 'es2022')
