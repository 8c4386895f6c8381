# SPDX-License-Identifier: MIT OR Apache-2.0
"""Compares the library in `lib/` and its WebAssembly module in `js/` with those that
`tools/build_library` builds over what `rt ci` has proved, byte for byte. The bytes of the archive and
of the shared library depend on the binutils: those in `lib/` are of 2.40, of Debian 12. Those of the
module depend on binaryen: they are of its version 108, of Debian 12, too. Besides, it sees which
glibc the library needs, that it gives out no names but its own, and that the module has the calls
of the header. If the library has changed, look at the change and run `tools/build_library lib`."""
import re
import subprocess
import sys
import tempfile
from pathlib import Path

from lib.cases import Case, check_each, unlike
from lib.kit import need_built, need_kit, tool
from lib.places import LIB, TOP

sys.path.insert(0, str(TOP / 'tools'))
from wasm import lower  # noqa: E402

IS_LONG = True
PACKAGES = ('binaryen',)
SHARED = LIB / 'libroskevad.so'
# The C library that it needs, as docs/library.md says.
GLIBC = re.search(r'glibc ([0-9.]+) or later', (TOP / 'docs' / 'library.md').read_text())[1]


def printed(*words):
    return subprocess.run(
        [str(word) for word in words], capture_output=True, text=True, check=True
    ).stdout


def test_library_that_was_proved():
    need_kit()
    need_built('roskevad_c')
    with tempfile.TemporaryDirectory() as folder:
        done = subprocess.run(
            [TOP / 'tools' / 'build_library', folder],
            stdout=subprocess.PIPE,
            stderr=subprocess.STDOUT,
            text=True,
        )
        assert (
            done.returncode == 0
        ), f'tools/build_library: status {done.returncode}:\n{done.stdout[-3000:]}'

        def fault_of(case):
            is_same = case.given.read_bytes() == case.wanted.read_bytes()
            return (
                None
                if is_same
                else 'it is not the library that was proved: tools/build_library lib'
            )

        check_each(
            [
                Case(f'{path.parent.name}/{path.name}', path, Path(folder) / path.name)
                for path in tool('build_library').FILES
            ],
            fault_of,
        )


def test_glibc_that_it_needs():
    versions = re.findall(r'GLIBC_([0-9.]+)', printed('objdump', '-T', SHARED))
    newest = max(versions, key=lambda version: [int(number) for number in version.split('.')])
    assert newest == GLIBC, f'it needs glibc {newest}, and docs/library.md says {GLIBC}'


def test_names_that_it_gives_out():
    names = [
        line.split()[-1] for line in printed('nm', '-D', '--defined-only', SHARED).splitlines()
    ]
    others = [name for name in names if not name.startswith(('roskevad_', 'ROSKEVAD_'))]
    assert names and not others, f'it gives out {others}'


def test_calls_that_the_module_has():
    """Those of the header, with what the host takes memory by, and no more; and it imports nothing."""
    sections = lower.Lowering((TOP / 'js' / 'roskevad.wasm').read_bytes())
    library = tool('build_library')
    calls = library.declared(library.HEADER.read_text())
    fault = unlike(sorted([*calls, 'alloc', 'free']), sorted(sections.exports))
    assert not fault, fault
    assert lower.Lowering.IMPORTS not in sections.sections, 'the module has imports'
