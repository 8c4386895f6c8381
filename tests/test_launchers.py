# SPDX-License-Identifier: MIT OR Apache-2.0
"""Tries the launchers `tile_editor`, `map_report` and `tile_page`: they are scripts for any
`/bin/sh`, start nothing beside the program where `bin/` runs, take at most twice the time of a
shell that becomes the program, and find their way where it does not run."""
import os
import resource
import shutil
import statistics
import subprocess
import sys
import tempfile
import time
from pathlib import Path

from lib.cases import Case, check_each, skip, unlike
from lib.commands import came_of
from lib.places import BIN, EXAMPLE_MAPS, TOP
from lib.rights import NOBODY, can_lose_rights

ALONE = True
SAVES = b'new t 40 30 16 16 t.tsj\nsave t.tmj\nstatus\n'
PROGRAMS = ('tile_editor', 'map_report')
ROUNDS = 150
LOADER = '/lib64/ld-linux-x86-64.so.2'


def version(name):
    return came_of([BIN / name, '--version'])


def shells():
    """The shells of this machine that a launcher may be run by."""
    found = [
        [path] for path in map(shutil.which, ('dash', 'bash', 'busybox', 'ksh', 'zsh')) if path
    ]
    return [[*words, 'sh'] if words[0].endswith('busybox') else words for words in found]


def test_any_shell():
    cases = [
        Case(f'{" ".join(shell)} {name}', [*shell, name], version(name))
        for shell in shells()
        for name in PROGRAMS
    ]
    check_each(cases, lambda case: unlike(case.wanted, came_of([*case.given, '--version'])))
    for name in (*PROGRAMS, 'tile_page'):
        assert (TOP / name).read_text().startswith('#!/bin/sh\n'), name


def test_no_other_program():
    """They run where no program can be found: what they ask the system, the shell asks itself."""
    cases = [Case(name, name, version(name)) for name in PROGRAMS]
    check_each(
        cases,
        lambda case: unlike(
            case.wanted, came_of([f'./{case.given}', '--version'], env={'PATH': '/nowhere'})
        ),
    )


def no_more_processes():
    resource.setrlimit(resource.RLIMIT_NPROC, (1, 1))


def test_no_other_process():
    """They run where no process can be started, as a user who has one already."""
    if not can_lose_rights():
        skip('this is root, and can be no other user')
    user = {'user': NOBODY, 'group': NOBODY} if os.getuid() == 0 else {}
    with tempfile.TemporaryDirectory() as top:
        # A copy that this user can reach.
        os.chmod(top, 0o755)
        for name in ('tile_editor', 'crates.txt'):
            shutil.copy(TOP / name, top)
        shutil.copytree(BIN, f'{top}/bin')
        os.symlink('tile_editor', f'{top}/map_report')
        more = {**user, 'preexec_fn': no_more_processes}
        forks = came_of(['/bin/sh', '-c', 'true & wait'], top, **more)
        assert forks[0] != 0 or forks[2], 'a process can be started all the same'
        cases = [Case(name, name, version(name)) for name in PROGRAMS]
        check_each(
            cases,
            lambda case: unlike(
                case.wanted, came_of([f'./{case.given}', '--version'], top, **more)
            ),
        )


def seconds_of(words):
    began = time.perf_counter()
    subprocess.run(words, cwd=TOP, stdin=subprocess.DEVNULL, stdout=subprocess.DEVNULL, check=True)
    return time.perf_counter() - began


def no_long_files():
    resource.setrlimit(resource.RLIMIT_FSIZE, (1024, 1024))


def test_a_bound_on_the_length_of_files():
    """A save that would go past it is refused, and the session goes on."""
    with tempfile.TemporaryDirectory() as folder:
        done = subprocess.run(
            [TOP / 'tile_editor', '--folder', folder], input=SAVES, capture_output=True, preexec_fn=no_long_files
        )
        replies = done.stdout.decode().splitlines()
        assert done.returncode == 0 and replies[1:] == ['no 51 store failed', 'ok 0/0 clean 0'], (
            done.returncode,
            replies,
        )
        assert b'File too large' in done.stderr and os.listdir(folder) == []


def test_their_time():
    """At most twice that of a shell that becomes the program: the medians of runs in turns."""
    file = EXAMPLE_MAPS / 'house.tmj'
    pairs = [
        (['./tile_editor'], ['sh', '-c', 'exec bin/tile_editor']),
        (['./map_report', file], ['sh', '-c', f'exec bin/map_report {file}']),
    ]
    for pair in pairs:
        rounds = [[seconds_of(words) for words in pair] for _ in range(ROUNDS)]
        launcher, shell = (statistics.median(each) for each in zip(*rounds))
        assert launcher <= 2 * shell, f'{pair[0]}: {launcher / shell:.2f} of the time'


# ---- where bin/ does not run


class Clone:
    """A copy of the launchers with programs of its own in `bin/`. The launcher looks for a loader
    that is not there, as on a system of another kind, where it is told so."""

    def __init__(self, folder, has_loader):
        self.top = Path(folder)
        text = (TOP / 'tile_editor').read_text()
        assert LOADER in text
        (self.top / 'tile_editor').write_text(
            text if has_loader else text.replace(LOADER, '/no/loader')
        )
        (self.top / 'tile_editor').chmod(0o755)
        (self.top / 'map_report').symlink_to('tile_editor')
        (self.top / 'crates.txt').touch()
        (self.top / 'bin').mkdir()

    def program(self, path, text):
        (self.top / path).parent.mkdir(parents=True, exist_ok=True)
        (self.top / path).write_text(text)
        (self.top / path).chmod(0o755)

    def run(self, *words, path=''):
        env = {**os.environ, 'PATH': f'{path}{":" * bool(path)}/usr/bin:/bin'}
        return came_of(words, self.top, env=env)


RUNS = '#!/bin/sh\necho "${0##*/}: $*"\n'
FAILS = '#!/bin/sh\nexit 127\n'


def test_other_systems():
    """A program that runs all the same is run. One that does not is built, and run from then on;
    and without `rt` it is said what is missing."""
    for name in PROGRAMS:
        with tempfile.TemporaryDirectory() as folder:
            clone = Clone(folder, False)
            clone.program(f'bin/{name}', RUNS)
            fault = unlike((0, f'{name}: a b\n', ''), clone.run(f'./{name}', 'a', 'b'))
            assert not fault, fault
            clone.program(f'bin/{name}', FAILS)
            status, output, errors = clone.run(f'./{name}', 'a')
            assert (status, output) == (1, '') and 'glibc 2.34 or later' in errors, errors
            built = f'{folder}/crates/{name}/out/{name}'
            (clone.top / 'crates' / name).mkdir(parents=True)
            rt = f'mkdir -p out; cp {folder}/made {built}; echo "fn a: proved" >&2'
            clone.program('made', RUNS)
            clone.program('kit/rt', f'#!/bin/sh\n{rt}\n')
            status, output, errors = clone.run(f'./{name}', 'a', path=f'{folder}/kit')
            assert (status, output) == (0, f'{name}: a\n') and 'fn a: proved' in errors, errors
            fault = unlike((0, f'{name}: c\n', ''), clone.run(f'{folder}/{name}', 'c'))
            assert not fault, fault


def test_a_bin_that_runs_is_not_asked_first():
    """The program is run once, on the words that are given."""
    with tempfile.TemporaryDirectory() as folder:
        clone = Clone(folder, True)
        clone.program('bin/map_report', f'#!/bin/sh\necho "$*" >>{folder}/runs\n')
        clone.run('./map_report', 'a b', 'c')
        assert (clone.top / 'runs').read_text() == 'a b c\n'


def test_the_page():
    """By a link to a link, from elsewhere, and with a path of Python's of one's own."""
    with tempfile.TemporaryDirectory() as folder:
        (Path(folder) / 'page').symlink_to(TOP / 'tile_page')
        (Path(folder) / 'again').symlink_to('page')
        wanted = came_of(
            [sys.executable, '-m', 'roskevad.page', '--version'],
            env={**os.environ, 'PYTHONPATH': 'python'},
        )
        assert wanted[0] == 0, wanted
        cases = [Case(name, name, wanted) for name in ('./page', './again', f'{folder}/again')]
        env = {**os.environ, 'PYTHONPATH': folder}
        check_each(
            cases,
            lambda case: unlike(case.wanted, came_of([case.given, '--version'], folder, env=env)),
        )
