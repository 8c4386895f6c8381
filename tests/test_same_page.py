# SPDX-License-Identifier: MIT OR Apache-2.0
"""Compares the page's one file with what `tools/build_page` makes of its modules, byte for byte; and sees
that the script stops at a module that it cannot put there."""
import importlib.machinery
import importlib.util
import subprocess
import sys
import tempfile
from pathlib import Path

from lib.cases import Case, check_each
from lib.places import TOP

SCRIPT = TOP / 'tools' / 'build_page'
PAGE = TOP / 'python' / 'roskevad' / 'page' / 'roskevad.html'


def test_the_same_bytes():
    with tempfile.TemporaryDirectory() as folder:
        built = Path(folder) / 'roskevad.html'
        subprocess.run([sys.executable, SCRIPT, built], check=True)
        assert built.read_bytes() == PAGE.read_bytes(), 'run tools/build_page'


def builder():
    """The script as a module, which leaves no bytes of its own beside it."""
    loader = importlib.machinery.SourceFileLoader('build_page', str(SCRIPT))
    module = importlib.util.module_from_spec(importlib.util.spec_from_loader('build_page', loader))
    sys.dont_write_bytecode = True
    loader.exec_module(module)
    return module


def test_what_cannot_be_built():
    build = builder()

    def fault_of(case):
        with tempfile.TemporaryDirectory() as folder:
            build.TOP = Path(folder).resolve()
            for name, text in case.given.items():
                (build.TOP / name).write_text(text)
            try:
                build.Modules().bound(build.TOP / 'main.js', is_last=True)
            except SystemExit as said:
                return None if case.wanted in str(said) else str(said)
            return 'it was built'

    cases = [
        Case('all names', {'main.js': 'export * from "./a.js";\n'}, 'export *'),
        Case('a default', {'main.js': 'export default 5;\n'}, 'export default'),
        Case('another place', {'main.js': 'import { a } from "a";\n'}, 'import { a }'),
        Case(
            'a ring',
            {
                'main.js': 'import { a } from "./a.js";\n',
                'a.js': 'import { b } from "./b.js";\nexport const a = 1;\n',
                'b.js': 'import { a } from "./a.js";\nexport const b = 1;\n',
            },
            'imports itself',
        ),
    ]
    check_each(cases, fault_of)
