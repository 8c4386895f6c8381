# SPDX-License-Identifier: MIT OR Apache-2.0
"""Compares the names of the library and their releases, in `tools/library_names.txt`, with the header
and with what the shared library gives out. Tries what `tools/build_library` makes of such a table:
the version script on a library of three functions, and what it says of a name without a row."""
import re
import subprocess
import tempfile
from pathlib import Path

from lib.cases import Case, check_each, unlike
from lib.kit import tool
from lib.places import LIB, TOP

LIBRARY = tool('build_library')
GIVEN = {'roskevad_first': '0.2', 'roskevad_second': '0.10', 'roskevad_third': '0.9'}


def printed(*words):
    return subprocess.run(
        [str(word) for word in words], capture_output=True, text=True, check=True
    ).stdout


def given_out(shared):
    """The names that a shared library gives out, with the release of each."""
    told = printed('nm', '-D', '--defined-only', '--with-symbol-versions', shared)
    return dict(re.findall(r' T (\w+)@@ROSKEVAD_(\S+)', told))


def test_rows():
    """Each name has one row, and there is one soname."""
    names = [name for release, name in LIBRARY.rows() if release != 'soname']
    fault = unlike(sorted({*names}), sorted(names))
    assert names and not fault, fault
    assert len(LIBRARY.rows()) == len(names) + 1, 'there is not one soname'


def test_names_of_the_header():
    """It has each name of the table, and no other."""
    names = LIBRARY.declared(LIBRARY.HEADER.read_text())
    faults = LIBRARY.faults_of_names(names, 'include/roskevad.h', LIBRARY.releases())
    assert names and not faults, '\n'.join(faults)


def test_names_that_the_library_gives_out():
    fault = unlike(LIBRARY.releases(), given_out(LIB / 'libroskevad.so'))
    assert not fault, fault


def test_soname():
    """It is what the shared library has, and what the header and its page say."""
    soname = re.search(r'SONAME +(\S+)', printed('objdump', '-p', LIB / 'libroskevad.so'))[1]
    said = [
        re.search(pattern, (TOP / name).read_text())[1]
        for name, pattern in (
            ('include/roskevad.h', r"The shared library's soname is (\S+)\. "),
            ('docs/library.md', r'`(\S+)`, which is its soname'),
        )
    ]
    fault = unlike([LIBRARY.soname()] * 3, [soname, *said])
    assert not fault, fault


def test_a_library_of_three_releases():
    """A name has the release of its row, each release has the one before it in itself, and a name
    without a row is not given out."""
    with tempfile.TemporaryDirectory() as top:
        folder = Path(top)
        names = [*GIVEN, 'roskevad_other']
        (folder / 'three.c').write_text(
            ''.join(f'void {name}(void) {{ }}\n' for name in names),
        )
        (folder / 'versions').write_text(LIBRARY.version_script(GIVEN))
        words = ['cc', '-shared', '-fPIC', '-nostdlib', f'-Wl,--version-script={folder}/versions']
        printed(*words, folder / 'three.c', '-o', folder / 'three.so')
        fault = unlike(GIVEN, given_out(folder / 'three.so'))
        assert not fault, fault
        told = printed('readelf', '-VW', folder / 'three.so').partition('Version definition')[2]
        nodes = re.findall(r'Name: (ROSKEVAD_\S+)|Parent 1: (ROSKEVAD_\S+)', told)
        wanted = [('ROSKEVAD_0.2', ''), ('ROSKEVAD_0.9', ''), ('', 'ROSKEVAD_0.2')]
        wanted += [('ROSKEVAD_0.10', ''), ('', 'ROSKEVAD_0.9')]
        fault = unlike(wanted, nodes)
        assert not fault, fault


def test_what_is_said_of_a_fault():
    names, table = [*GIVEN], 'tools/library_names.txt'
    more = [*names, 'roskevad_fourth']
    said = f'roskevad_fourth stands in a.h, and has no row in {table}: add one with its release'
    fewer = f'roskevad_third has a row in {table}, and does not stand in a.h'
    later = f'roskevad_second has the release 0.10 in {table}, and VERSION is 0.9.7'
    cases = [
        Case('all names', (names, '1.0.0'), []),
        Case('a name in no row', (more, '1.0.0'), [said]),
        Case('a row of no name', (names[:2], '1.0.0'), [fewer]),
        Case('a release to come', (names, '0.9.7'), [later]),
    ]
    check_each(
        cases,
        lambda case: unlike(
            case.wanted, LIBRARY.faults_of_names(case.given[0], 'a.h', GIVEN, case.given[1])
        ),
    )


def test_names_that_are_declared():
    """Those of each type, on one line or on two; functions with a body are not the library's own."""
    header = (
        'size_t roskevad_a(void *b, size_t c);\nvoid roskevad_b(void);\nconst uint8_t *roskevad_c(int d,\n'
        '    int e);\nstatic inline size_t roskevad_editor_d(void *b)\n{\n    return roskevad_a(b, 0);\n}\n'
    )
    fault = unlike(['roskevad_a', 'roskevad_b', 'roskevad_c'], LIBRARY.declared(header))
    assert not fault, fault
