# SPDX-License-Identifier: MIT OR Apache-2.0
"""Installs into an empty folder by the Makefile, and uses what is there: programs, library, header,
pkg-config file, man pages, pages of docs and the page to draw on. `uninstall` takes out exactly
that. The man pages have the options that the programs' help has, and those that are pages of docs
are as `tools/man_pages` makes them. The example of a Makefile that builds maps is run as it stands
on its page."""
import os
import re
import shutil
import stat
import subprocess
import sys
import tempfile
import time
from pathlib import Path

from lib.cases import Case, check_each, fail_with, unlike
from lib.commands import came_of
from lib.kit import tool
from lib.places import BIN, EXAMPLES, EXAMPLE_MAPS, MAP_REPORT, TILE_EDITOR, TOP

PACKAGES = ('lowdown',)

VERSION = (TOP / 'VERSION').read_text().strip()
SHARED, SONAME = f'libroskevad.so.{VERSION}', tool('build_library').soname()
DOCS = TOP / 'docs'
MAN = DOCS / 'man'
PROGRAMS = ('tile_editor', 'map_report', 'tile_page')
LINES = DOCS / 'session-lines.md'
# What is installed besides, below these.
OTHERS = (
    'share/roskevad/python/roskevad/',
    *(f'share/doc/roskevad/docs/{name}/' for name in ('pictures', 'plots', 'tutorials')),
)


def made_man_pages():
    """The man pages that are pages of docs, too."""
    return sorted(path for path in MAN.iterdir() if path.suffix != '.1')


def make(*words, folder=TOP):
    """Runs make, with a mask that keeps others out: what is installed is for all."""
    done = subprocess.run(['make', *words], cwd=folder, capture_output=True, text=True, umask=0o077)
    assert done.returncode == 0, f'make {words}: {done.stderr[-1500:]}'
    return done.stdout


def files_in(top):
    """The files and links below a folder, by their paths from there."""
    paths = (path for path in Path(top).rglob('*') if path.is_symlink() or not path.is_dir())
    return sorted(str(path.relative_to(top)) for path in paths)


class Place:
    """A folder that is installed into."""

    def __enter__(self):
        self.folder = tempfile.TemporaryDirectory()
        self.top = Path(self.folder.name) / 'local'
        make('install', f'PREFIX={self.top}')
        self.env = {
            'PATH': f'{self.top}/bin:{os.environ["PATH"]}',
            'PKG_CONFIG_PATH': f'{self.top}/lib/pkgconfig',
            'LD_LIBRARY_PATH': f'{self.top}/lib',
            'MANPATH': f'{self.top}/share/man',
            'PYTHONDONTWRITEBYTECODE': '1',
            'LC_ALL': 'C.UTF-8',
        }
        return self

    def __exit__(self, *_):
        self.folder.cleanup()

    def run(self, *words, **more):
        return came_of(words, self.top, env=self.env, **more)


def test_what_is_installed():
    with Place() as place:
        names = files_in(place.top)
        wanted = [
            *(f'bin/{name}' for name in PROGRAMS),
            'lib/libroskevad.a',
            *(f'lib/{name}' for name in (SHARED, SONAME, 'libroskevad.so')),
            'lib/pkgconfig/roskevad.pc',
            'include/roskevad.h',
            *(f'share/man/man1/{name}.1' for name in PROGRAMS),
            *(f'share/man/man{path.suffix[1:]}/{path.name}' for path in made_man_pages()),
            *(f'share/doc/roskevad/docs/{path.name}' for path in DOCS.glob('*.md')),
            *(
                f'share/doc/roskevad/{name}'
                for name in ('LICENSE-APACHE', 'LICENSE-MIT', 'NOTICES.txt')
            ),
        ]
        fail_with(name for name in wanted if name not in names)
        others = [
            name
            for name in names
            if name not in wanted and not name.startswith(OTHERS)
        ]
        assert others == [], others
        modes = {name: (place.top / name).lstat().st_mode for name in names}
        fail_with(
            f'{name} has the mode {mode & 0o777:o}'
            for name, mode in modes.items()
            if stat.S_ISREG(mode)
            and mode & 0o777 != (0o755 if name.startswith('bin/') or '.so' in name else 0o644)
        )
        cases = [
            *(
                Case(name, (name, '--version'), (0, f'{name} {VERSION}\n', ''))
                for name in PROGRAMS[:2]
            ),
            Case('tile_page', ('tile_page', '--version'), (0, f'roskevad {VERSION}\n', '')),
            Case('pkg-config', ('pkg-config', '--modversion', 'roskevad'), (0, f'{VERSION}\n', '')),
        ]
        check_each(cases, lambda case: unlike(case.wanted, place.run(*case.given)))


def test_a_program_in_c():
    """It is compiled by what pkg-config tells, and runs with the shared library."""
    with Place() as place:
        script = 'cc "$0" $(pkg-config --cflags --libs roskevad) -o fence'
        done = place.run('sh', '-c', script, EXAMPLES / 'fence.c')
        assert done[0] == 0, done
        map_path, fenced = EXAMPLE_MAPS / 'layers.tmj', place.top / 'fenced.tmj'
        status, _, errors = place.run('./fence', map_path, fenced)
        assert status == 0 and fenced.exists(), errors
        loaded = place.run('ldd', './fence')[1]
        assert f'{SONAME} => {place.top}/lib/{SONAME} ' in loaded, loaded


def test_links_to_the_library():
    """Programs look for the soname, and the linker for the name without a number: both lead to the
    file that has the version's."""
    with Place() as place:
        links = [place.top / 'lib' / name for name in (SONAME, 'libroskevad.so')]
        fault = unlike([SHARED, SHARED], [os.readlink(link) for link in links])
        assert not fault and not (place.top / 'lib' / SHARED).is_symlink(), fault


def test_uninstall():
    """It takes out what was installed and what Python keeps beside the package, and no more."""
    with tempfile.TemporaryDirectory() as folder:
        prefix, stage = '/opt/roskevad', f'{folder}/stage'
        top = Path(f'{stage}{prefix}')
        others = [
            'bin/other',
            'lib/libroskevad.so.0.0.1',
            'share/roskevad/mine',
            'share/man/man1/a.1',
        ]
        for name in others:
            (top / name).parent.mkdir(parents=True, exist_ok=True)
            (top / name).write_text('mine')
        make('install', f'PREFIX={prefix}', f'DESTDIR={stage}')
        fail_with(
            f'{name} names {stage}'
            for name in files_in(top)
            if name not in others and stage.encode() in (top / name).read_bytes()
        )
        env = {**os.environ, 'PYTHONPATH': f'{top}/share/roskevad/python'}
        came_of([sys.executable, '-m', 'roskevad.page', '--version'], env=env)
        make('uninstall', f'PREFIX={prefix}', f'DESTDIR={stage}')
        assert files_in(top) == sorted(others), files_in(top)
        for name in others:
            (top / name).unlink()
        make('install', f'PREFIX={prefix}', f'DESTDIR={stage}')
        make('uninstall', f'PREFIX={prefix}', f'DESTDIR={stage}')
        assert (
            not (top / 'share' / 'roskevad').exists()
            and not (top / 'share' / 'doc' / 'roskevad').exists()
        )


def test_a_prefix_that_is_no_path():
    done = subprocess.run(
        ['make', 'install', 'PREFIX=usr'], cwd=TOP, capture_output=True, text=True
    )
    assert done.returncode != 0 and 'absolute' in done.stderr and not (TOP / 'usr').exists()


# ---- man pages


def options_in(text):
    """The long options in a text, with the short ones that stand beside them."""
    return sorted({*re.findall(r'(?<![\w-])--[a-z][a-z-]*', text)})


def rendered(path):
    """A man page as plain text."""
    for words in (['mandoc', '-T', 'utf8'], ['groff', '-t', '-man', '-T', 'utf8', '-P', '-cbou']):
        if shutil.which(words[0]):
            done = subprocess.run([*words, path], capture_output=True, text=True, check=True)
            return re.sub('.\b', '', done.stdout).replace('\u2010', '-').replace('\u2212', '-')
    return re.sub(r'\\(.)', r'\1', path.read_text())


def fault_of_options(case):
    program = TOP / case.name if case.name == 'tile_page' else BIN / case.name
    help_text = (
        came_of([program, '--help'])[1].partition('Session lines:')[0].partition('Exit status:')[0]
    )
    return unlike(options_in(help_text), options_in(rendered(MAN / f'{case.name}.1')))


def test_options_of_the_man_pages():
    check_each([Case(name, f'{name}.1', None) for name in PROGRAMS], fault_of_options)


def fault_of_made_page(case):
    with tempfile.TemporaryDirectory() as folder:
        tool('man_pages').write_into(Path(folder))
        return unlike((Path(folder) / case.given.name).read_text(), case.given.read_text())


def test_made_man_pages():
    """They are as the script makes them, and each formatter finds a name and a description."""
    check_each([Case(path.name, path, None) for path in made_man_pages()], fault_of_made_page)
    for path in made_man_pages():
        assert re.findall(r'^ *(NAME|DESCRIPTION|SEE ALSO)$', rendered(path), re.MULTILINE), path.name


def test_pages_of_the_help():
    """Each page of docs that a program's help names is installed."""
    with Place() as place:
        for name in PROGRAMS:
            pages = re.findall(r'docs/[\w-]+\.md', place.run(name, '--help')[1])
            fail_with(
                f'{name}: {page}'
                for page in pages
                if not (place.top / 'share' / 'doc' / 'roskevad' / page).exists()
            )


def test_man_pages():
    """They have the usual sections, and no fault that a formatter finds."""
    sections = ['NAME', 'SYNOPSIS', 'DESCRIPTION', 'OPTIONS', 'EXIT STATUS', 'EXAMPLE', 'SEE ALSO']
    for name in PROGRAMS:
        text = (MAN / f'{name}.1').read_text()
        found = re.findall(r'^\.SH (.+)$', text, re.MULTILINE)
        assert [each for each in found if each not in ('FILES', 'JSON')] == sections, name
        if shutil.which('mandoc'):
            done = subprocess.run(
                ['mandoc', '-T', 'lint', '-W', 'warning', MAN / f'{name}.1'],
                capture_output=True,
                text=True,
            )
            assert done.returncode == 0, done.stdout


# ---- a Makefile that builds maps


def makefile_of_the_page():
    blocks = re.findall(r'^```makefile\n(.*?)^```$', LINES.read_text(), re.MULTILINE | re.DOTALL)
    assert len(blocks) == 1, f'{LINES.name} has {len(blocks)} blocks of makefile'
    return blocks[0]


class Work:
    """A folder with the Makefile of the page, and what it builds from, all of one time."""

    def __init__(self, folder):
        self.top = Path(folder)
        (self.top / 'Makefile').write_text(makefile_of_the_page())
        shutil.copytree(EXAMPLE_MAPS, self.top / 'maps')
        shutil.copy(EXAMPLES / 'town.session', self.top / 'orchard.session')
        (self.top / 'bin').mkdir()
        for program in (TILE_EDITOR, MAP_REPORT):
            (self.top / 'bin' / program.name).symlink_to(program)
        for path in self.top.rglob('*'):
            os.utime(path, (1_000_000_000, 1_000_000_000), follow_symlinks=False)
        self.env = {**os.environ, 'PATH': f'{self.top}/bin:{os.environ["PATH"]}'}

    def make(self):
        """The programs that it runs."""
        done = subprocess.run(['make'], cwd=self.top, env=self.env, capture_output=True, text=True)
        assert done.returncode == 0, done.stderr
        return [line.split()[0] for line in done.stdout.splitlines() if not line.startswith('make')]

    def change(self, old, new):
        """Changes the session, behind all that was built."""
        session = self.top / 'orchard.session'
        session.write_text(session.read_text().replace(old, new, 1))
        newest = max(path.stat().st_mtime for path in self.top.rglob('*'))
        os.utime(session, (newest + 1, newest + 1))
        time.sleep(max(0, newest + 1.01 - time.time()))

    def keeps_times(self):
        """Whether the program leaves a file alone that has the bytes of the map already."""
        words = [TILE_EDITOR, '--folder', self.top]
        times = []
        for _ in range(2):
            lines = b'new m 1 1 1 1 m\nsave same.tmj\n'
            subprocess.run(words, input=lines, stdout=subprocess.DEVNULL, check=True)
            times.append((self.top / 'same.tmj').stat().st_ino)
        return times[0] == times[1]


def test_the_makefile_of_the_page():
    """It builds all once, and nothing then. Where a source is newer and the map comes out the same,
    the session is run and no more; where the map is another one, all is."""
    with tempfile.TemporaryDirectory() as folder:
        work = Work(folder)
        session, all_of_it = ['tile_editor', 'touch'], ['tile_editor', 'touch', 'map_report']
        runs = [work.make(), work.make()]
        assert 'orchard' in (work.top / 'maps' / 'orchard.txt').read_text()
        work.change('# Opens', '# It opens')
        again = [work.make(), work.make()]
        work.change('stamp 1 21 3 2 4,4', 'stamp 1 21 3 2 5,5')
        changed = [work.make(), work.make()]
        wanted = session if work.keeps_times() else all_of_it
        fault = unlike([[all_of_it, []], [wanted, []], [all_of_it, []]], [runs, again, changed])
        assert not fault, fault
