# SPDX-License-Identifier: MIT OR Apache-2.0
"""Tries the prompt of the Python package: command lines, files of any name, the end of the input
while work is not saved, an output that is closed; and at a terminal Ctrl+C, Ctrl-D and Tab."""
import json
import os
import pty
import select
import signal
import subprocess
import sys
import tempfile
import time
from pathlib import Path

from lib.cases import Case, check_each, unlike
from lib.forms import OF_MEMBERS
from lib.map_layouts import printed
from lib.places import BIN, EXAMPLE_MAPS, TOP

WORDS = [sys.executable, '-m', 'roskevad']
ENV = {**os.environ, 'PYTHONPATH': str(TOP / 'python'), 'TERM': 'dumb', 'LC_ALL': 'C.UTF-8'}
NEW = 'new a 4 3 16 16 a.tsj'
EDITED = f'{NEW}\nstamp 1 0 0 1 5\n'


def came_of(words, lines='', folder=TOP, **more):
    """The exit status of the prompt, and what it writes on both outputs."""
    options = {'capture_output': True, 'timeout': 60, 'env': ENV, **more}
    done = subprocess.run(
        [*WORDS, *words], input=lines.encode('utf-8', 'surrogateescape'), cwd=folder, **options
    )
    return done.returncode, (done.stdout or b'').decode(), (done.stderr or b'').decode()


def replies(lines, folder):
    """The replies to lines. Into a pipe nothing else is written."""
    _, output, _ = came_of(['--folder', folder], ''.join(f'{line}\n' for line in lines))
    return output.splitlines()


def size_of_new():
    """How many bytes the new map has in Tiled's layout."""
    done = subprocess.run([BIN / 'tile_editor'], input=f'{NEW}\nshow\n'.encode(), capture_output=True, check=True)
    return len(printed(json.loads(done.stdout.split(b'\n')[1].removeprefix(b'map '))))


# ---- command lines, and how it ends


def fault_of_words(case):
    status, told = case.wanted
    got, _, errors = came_of(*case.given)
    if 'Traceback' in errors or told not in errors:
        return f'wanted {told!r}, came {errors[-500:]!r}'
    return unlike(status, got)


def test_command_lines():
    check_each(
        [
            Case('nothing to do', ([], ''), (0, '')),
            Case('a limit below 0', (['--limit', '-1'],), (2, 'a limit is from 0 to 1000000: -1')),
            Case('a limit that is too large', (['--limit', '1000001'],), (2, 'a limit is')),
            Case('a missing folder', (['--folder', 'no/maps'],), (2, 'no such folder: no/maps')),
            Case(
                'a file for a folder',
                (['--folder', 'README.md'],),
                (2, 'no such folder: README.md'),
            ),
            Case('work that is not saved', ([], EDITED), (1, 'not saved: a\n')),
            Case('an open macro', ([], f'{NEW}\nbegin M\n'), (1, 'not saved: a\n')),
            Case(
                'two of three',
                ([], f'{EDITED}{NEW[:4]}b{NEW[5:]}\nbegin M\n{NEW[:4]}c{NEW[5:]}\n'),
                (1, 'not saved: a, b\n'),
            ),
            Case('all is clean', ([], f'{EDITED}clean\n'), (0, '')),
            Case('a line that is not UTF-8', ([], '\udcff\nstatus\n'), (0, '')),
        ],
        fault_of_words,
    )


def test_unsaved_work_is_named_once():
    assert came_of([], EDITED)[2] == 'roskevad: not saved: a\n'


def fault_of_output(case):
    """What is wrong where the output is closed or full, or None."""
    done = subprocess.run(
        ['sh', '-c', f'exec "$@" {case.given}', 'sh', *WORDS],
        input=EDITED.encode() * 2000,
        capture_output=True,
        env=ENV,
        timeout=60,
    )
    errors = done.stderr.decode()
    return unlike(
        (1, True, False), (done.returncode, case.wanted in errors, 'Traceback' in errors)
    )


def test_outputs_that_take_nothing():
    cases = [('>&-', 'write failed'), ('>/dev/full', 'write failed: No space left on device')]
    check_each([Case(to, to, wanted) for to, wanted in cases], fault_of_output)


def test_a_pipe_that_is_closed():
    """It ends at the first reply that has nowhere to go, and names the work that is not saved."""
    program = subprocess.Popen(
        WORDS, stdin=subprocess.PIPE, stdout=subprocess.PIPE, stderr=subprocess.PIPE, env=ENV
    )
    program.stdin.write(EDITED.encode())
    program.stdin.flush()
    while b'dirty' not in program.stdout.readline():
        pass
    program.stdout.close()
    program.stdin.write(b'status\nstatus\n')
    program.stdin.close()
    errors = program.stderr.read().decode()
    assert program.wait(20) == 1 and 'Traceback' not in errors and 'Exception' not in errors, errors
    assert 'write failed: Broken pipe' in errors and 'not saved: a' in errors, errors


def test_inputs_that_are_closed():
    done = subprocess.run(
        ['sh', '-c', 'exec "$@" <&-', 'sh', *WORDS], capture_output=True, env=ENV, timeout=60
    )
    assert (done.returncode, b'Traceback' in done.stderr) == (1, False), done.stderr


# ---- files


def test_files_of_any_name():
    with tempfile.TemporaryDirectory() as folder:
        data = (EXAMPLE_MAPS / 'house.tmj').read_bytes()
        for name in ('my town.tmj', 'Größe.tmj', 'a.b.tmj', 'b.tmj'):
            (Path(folder) / name).write_bytes(data)
        (Path(folder) / 'deep').mkdir()
        (Path(folder) / 'deep' / 'c.tmj').write_bytes(data)
        opened = 'ok 0/0 clean 0'
        rows = [
            (['open my town.tmj'], [opened, '  document my_town']),
            (['open Größe.tmj'], [opened, '  document Gr__e']),
            (['open a.b.tmj'], [opened, '  document a.b']),
            (['open x my town.tmj'], [opened]),
            # As a line it names a document and a file.
            (['open my b.tmj', 'list'], [opened, 'docs *my']),
            (['open no.tmj'], ['no 50 no such file']),
            (['open my no.tmj'], ['no 50 no such file']),
            (['open no such.tmj x'], ['no 4 bad word', '  open DOC FILE']),
            (['open deep/c.tmj'], ['no 4 bad word', '  open DOC FILE']),
            (['open ../x.tmj'], ['no 4 bad word', '  open DOC FILE']),
            (['open deep'], ['no 51 store failed']),
            (
                [NEW, 'save my a.tmj', 'open my a.tmj'],
                [opened, f'saved my a.tmj {size_of_new()}', opened, '  document my_a'],
            ),
            ([NEW, 'save ../a.tmj'], [opened, 'no 4 bad word', '  save FILE']),
            ([NEW, 'save .a.tmj'], [opened, 'no 4 bad word', '  save FILE']),
            ([NEW, 'save a.tmj '], [opened, 'no 4 bad word', '  save FILE']),
        ]

        def fault_of(case):
            came = replies(case.given, folder)
            return unlike(case.wanted, came[: len(case.wanted)])

        check_each([Case(row[0][-1], *row) for row in rows], fault_of)


def test_all_maps():
    """A map with fractions is opened and saved as it was, but for what an edit names; a refusal says
    why."""
    with tempfile.TemporaryDirectory() as folder:
        data = (EXAMPLE_MAPS / 'opacity_half.tmj').read_bytes()
        (Path(folder) / 'half.tmj').write_bytes(data)
        (Path(folder) / 'taken.tmj').write_bytes(data.replace(b'"opacity"', b'"roskevad"'))
        (Path(folder) / 'zlib.tmj').write_bytes((EXAMPLE_MAPS / 'zlib.tmj').read_bytes())
        lines = ['open half.tmj', 'layer rename 1 Hall', 'save saved.tmj', 'open taken.tmj', 'open zlib.tmj']
        came = replies(lines, folder)
        saved = json.loads((Path(folder) / 'saved.tmj').read_bytes())
        size = (Path(folder) / 'saved.tmj').stat().st_size
        wanted = ['ok 0/0 clean 0', '  document half', 'ok 1/1 dirty 0', f'saved saved.tmj {size}']
        wanted += ['no 51 store failed', '  a member has a reserved name, "roskevad" or "roskevad_packed"']
        wanted += ['ok 0/0 clean 0', '  document zlib']
        fault = unlike(wanted, came[: len(wanted)]) or unlike(
            [0.5, 'Hall'], [saved['layers'][0][name] for name in ('opacity', 'name')]
        )
        assert not fault, fault


def test_lines_of_own_members():
    """The prompt reads them, and lists their forms."""
    forms = [f'  {form}' for form in OF_MEMBERS]
    rows = [
        (NEW, ['ok 0/0 clean 0']), ('layer add object Things', ['ok 1/1 dirty 0']), ('object add 2 0 0 8 8 door', ['ok 2/2 dirty 0']),
        ('member set object:1 rotation 45', ['ok 3/3 dirty 0']), ('member set object:1', ['no 4 bad word', *forms]),
        ('member set object:1 id 5', ['no 41 member of other lines']), ('? member', OF_MEMBERS),
    ]
    with tempfile.TemporaryDirectory() as folder:
        fault = unlike([reply for _, told in rows for reply in told], replies([line for line, _ in rows], folder))
    assert not fault, fault


# ---- at a terminal


class Terminal:
    """The prompt at a terminal."""

    def __init__(self, *words):
        self.process, self.shown = pty.fork()
        if self.process == 0:
            # A run in the background may have its signals ignored.
            for each in (signal.SIGINT, signal.SIGHUP):
                signal.signal(each, signal.SIG_DFL)
            os.execve(sys.executable, [*WORDS, *words], ENV)
        self.text = ''

    def type(self, keys):
        os.write(self.shown, keys.encode())

    def await_text(self, wanted, seconds=20):
        """Reads on until this text has come, and takes what came up to its end."""
        end = time.monotonic() + seconds
        while wanted not in self.text:
            left = end - time.monotonic()
            assert left > 0, f'{wanted!r} has not come: {self.text!r}'
            if select.select([self.shown], [], [], left)[0]:
                self.text += self.read()
        before, _, self.text = self.text.partition(wanted)
        return before + wanted

    def interrupt(self, wanted):
        """Ctrl+C until this text comes: where it falls outside of its wait for a key, `readline`
        hears of it at the next one."""
        for _ in range(10):
            self.type('\x03')
            try:
                return self.await_text(wanted, 2)
            except AssertionError:
                continue
        raise AssertionError(f'{wanted!r} has not come: {self.text!r}')

    def read(self):
        try:
            return os.read(self.shown, 4096).decode()
        except OSError:
            raise AssertionError(f'it has ended: {self.text!r}') from None

    def status(self):
        """The exit status, when it has ended."""
        end = time.monotonic() + 20
        while time.monotonic() < end:
            process, status = os.waitpid(self.process, os.WNOHANG)
            if process:
                os.close(self.shown)
                return os.waitstatus_to_exitcode(status)
            if select.select([self.shown], [], [], 0.05)[0]:
                try:
                    self.text += os.read(self.shown, 4096).decode()
                except OSError:
                    pass
        raise AssertionError('it has not ended')


def test_ctrl_d():
    """With unsaved work it names the documents, and a second one ends it; not where a line came in
    between."""
    terminal = Terminal()
    terminal.await_text('> ')
    terminal.type(f'{NEW}\r')
    terminal.await_text('clean 0')
    terminal.type('stamp 1 0 0 1 5\r')
    terminal.await_text('dirty 0')
    terminal.await_text('> ')
    terminal.type('\x04')
    terminal.await_text('not saved: a (Ctrl-D once more')
    terminal.await_text('> ')
    terminal.type('list\r')
    terminal.await_text('docs *a')
    terminal.await_text('> ')
    terminal.type('\x04')
    terminal.await_text('not saved: a')
    terminal.await_text('> ')
    terminal.type('\x04')
    assert terminal.status() == 1


def test_ctrl_d_where_all_is_saved():
    terminal = Terminal()
    terminal.await_text('> ')
    terminal.type('\x04')
    assert terminal.status() == 0


def test_ctrl_c():
    """While a line runs it says so and goes on; at the prompt it drops what was typed."""
    terminal = Terminal()
    terminal.await_text('> ')
    terminal.type('new a 4096 256 16 16 a.tsj\r')
    terminal.await_text('ok 0/0 clean 0')
    terminal.await_text('> ')
    terminal.type('undo und')
    terminal.await_text('undo und')
    terminal.interrupt('> ')
    terminal.type('stamp 1 0 0 1 5\r')
    terminal.await_text('dirty 0')
    terminal.await_text('> ')
    # The terminal has no room for the whole map, so the line goes on until it is read.
    terminal.type('show\r')
    terminal.await_text('map {')
    terminal.interrupt('interrupted; now ok 1/1 dirty 0')
    terminal.await_text('> ')
    terminal.type('status\r')
    terminal.await_text('ok 1/1 dirty 0')
    terminal.type('clean\r')
    terminal.await_text('clean 0')
    terminal.await_text('> ')
    terminal.type('\x04')
    assert terminal.status() == 0


def test_tab():
    """It completes words, files with spaces and documents."""
    with tempfile.TemporaryDirectory() as folder:
        (Path(folder) / 'my town.tmj').write_bytes((EXAMPLE_MAPS / 'house.tmj').read_bytes())
        terminal = Terminal('--folder', folder)
        terminal.await_text('> ')
        for keys, wanted in (('ope\t my\t\r', 'document my_town'), ('use m\t\r', 'ok 0/0 clean 0')):
            terminal.type(keys)
            terminal.await_text(wanted)
            terminal.await_text('> ')
        terminal.type('\x04')
        assert terminal.status() == 0


def test_signals_that_end_it():
    """It does not outlive a hang-up."""
    terminal = Terminal()
    terminal.await_text('> ')
    os.kill(terminal.process, signal.SIGHUP)
    assert terminal.status() == -signal.SIGHUP
