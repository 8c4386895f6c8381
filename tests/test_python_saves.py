# SPDX-License-Identifier: MIT OR Apache-2.0
"""Cuts saves of the Python package short, by an alarm at random points and by an exception in place
of each of its calls on files. However a save ends, the exception is passed on, the file is the old
or the new one, the clean mark agrees with it, and nothing is left beside it. Besides: saves that
change nothing, what is left by saves that were killed, names up to what the system takes, and which
document a file opens as."""
import errno
import fcntl
import json
import os
import random
import signal
import statistics
import subprocess
import sys
import tempfile
import time
from pathlib import Path
from unittest import mock

from lib.cases import Case, check_each, fail_with, passed, unlike
from lib.map_layouts import printed
from lib.maps import compact
from lib.places import EXAMPLE_MAPS, IN_MEMORY, TILE_EDITOR, TOP
from lib.readers import Reader

sys.path.insert(0, str(TOP / 'python'))
from roskevad import Editor, Refused, document_name, saving  # noqa: E402
from roskevad.names import is_document_name  # noqa: E402

NAME = 'm.tmj'
# So many saves are cut short in the gate; by hand 10,000 once, and more by ROSKEVAD_ALARMS.
ALARMS = int(os.environ.get('ROSKEVAD_ALARMS', '500'))


class Cut(Exception):
    """What cuts a save short."""


class Saver:
    """An editor with a map that is saved, and that is another one before each save."""

    def __init__(self, folder):
        self.folder, self.file = Path(folder), Path(folder) / NAME
        self.editor = Editor(folder=folder)
        self.editor.step('new m 40 30 16 16 m.tsj')
        self.editor.save_file(NAME)
        self.mask = os.umask(0)
        os.umask(self.mask)
        self.handles = handles()
        self.saves = 0

    def change(self):
        """Edits the map; the bytes of its file, and those that a save writes: a new map gets Tiled's layout."""
        self.saves += 1
        self.editor.step(f'stamp 1 0 0 2 {self.saves % 60000 + 1},{self.saves // 60000 + 1}')
        return self.file.read_bytes(), printed(json.loads(self.editor.step('show')[len('map ') :])).encode()

    def fault(self, old, new, is_cut):
        """What is wrong behind a save, or None."""
        mask = os.umask(self.mask)
        names, data = sorted(os.listdir(self.folder)), self.file.read_bytes()
        is_clean = self.editor.step('status').split(' ')[2] == 'clean'
        for name in {*names} - {NAME}:
            (self.folder / name).unlink()
        faults = [
            (names != [NAME], f'left beside it: {names}'),
            (data not in (old, new), f'the file has {data[:80]!r}'),
            (not is_cut and data != new, 'nothing was raised, and the file is the old one'),
            (is_clean != (data == new), f'clean is {is_clean}, and the file is new {data == new}'),
            (mask != self.mask, f'the mask is {mask:o}'),
            (self.editor.files() != [], f'in the store: {self.editor.files()}'),
            (handles() != self.handles, 'a handle is left open'),
        ]
        return '; '.join(words for is_so, words in faults if is_so) or None


def handles():
    return len(os.listdir('/proc/self/fd'))


def ring(*_):
    raise Cut


def cut_by_alarm(saver, seconds):
    """Saves with an alarm after so long. Whether it has cut the save short."""
    try:
        signal.setitimer(signal.ITIMER_REAL, seconds)
        saver.editor.save_file(NAME)
        signal.setitimer(signal.ITIMER_REAL, 0)
    except Cut:
        return True
    return False


def length_of_a_save(saver):
    lengths = []
    for _ in range(21):
        saver.change()
        began = time.perf_counter()
        saver.editor.save_file(NAME)
        lengths.append(time.perf_counter() - began)
    return statistics.median(lengths)


def test_alarms_at_random_points():
    before = signal.signal(signal.SIGALRM, ring)
    numbers, faults, cuts = random.Random(20261126), [], 0
    try:
        with tempfile.TemporaryDirectory(dir=IN_MEMORY) as folder:
            saver = Saver(folder)
            longest = length_of_a_save(saver)
            for at in range(ALARMS):
                old, new = saver.change()
                is_cut = cut_by_alarm(saver, numbers.uniform(1e-6, longest))
                cuts += is_cut
                fault = saver.fault(old, new, is_cut)
                faults += [f'alarm {at}: {fault}'] if fault else []
    finally:
        signal.signal(signal.SIGALRM, before)
    passed(ALARMS - len(faults))
    fail_with(faults)
    assert cuts > ALARMS // 10, f'only {cuts} saves were cut short'


# ---- an exception in place of a call, or behind it

CALLS = ('stat', 'fstat', 'fchmod', 'write', 'fsync', 'rename', 'unlink', 'listdir')


class Failing:
    """Stands for the calls on files: the one with this number raises, and is made before or not."""

    def __init__(self, at, fault, is_made):
        self.at, self.fault, self.is_made = at, fault, is_made
        self.count, self.name = 0, None

    def standing_for(self, name):
        real = getattr(os, name)

        def call(*words, **more):
            self.count += 1
            if self.count != self.at:
                return real(*words, **more)
            self.name = name
            if self.is_made:
                real(*words, **more)
            raise self.fault

        return call

    def save(self, editor):
        """Saves, and gives what was raised, or None."""
        calls = {name: self.standing_for(name) for name in CALLS}
        with mock.patch.multiple(saving.os, **calls):
            try:
                editor.save_file(NAME)
            except BaseException as fault:
                return fault
        return None


def faults_of_calls(saver, fault, is_made):
    """What is wrong where each call in turn raises."""
    for at in range(1, 100):
        old, new = saver.change()
        failing = Failing(at, fault, is_made)
        raised = failing.save(saver.editor)
        if failing.name is None:
            assert at > 8, f'only {at} calls'
            return
        words = saver.fault(old, new, raised is not None)
        if raised is not fault:
            words = f'{words}; raised was {raised!r}'
        if words:
            yield f'{"behind" if is_made else "in place of"} call {at}, {failing.name}: {words}'
        passed()


def test_exceptions_at_each_call():
    with tempfile.TemporaryDirectory(dir=IN_MEMORY) as folder:
        saver = Saver(folder)
        for is_made in (False, True):
            for fault in (KeyboardInterrupt(), MemoryError()):
                fail_with(faults_of_calls(saver, fault, is_made))


def test_calls_that_fail():
    """A call that fails is a refusal, 51, or loses nothing. The file is the old one then, but for
    the calls behind the rename, which see to it that it is kept."""
    with tempfile.TemporaryDirectory(dir=IN_MEMORY) as folder:
        saver = Saver(folder)
        refused = []
        for at in range(1, 100):
            old, new = saver.change()
            failing = Failing(at, OSError(errno.EIO, 'a fault'), False)
            raised = failing.save(saver.editor)
            if failing.name is None:
                break
            now, state = saver.file.read_bytes(), saver.editor.step('status').split(' ')[2]
            if raised is None:
                assert (now, state) == (new, 'clean'), failing.name
                continue
            assert isinstance(raised, Refused) and raised.code == 51, raised
            assert raised.line == f"save_file('{NAME}')" and raised.__cause__.errno == errno.EIO
            assert state == 'dirty' and os.listdir(folder) == [NAME], (failing.name, state)
            assert now == (new if 'rename' in refused else old), failing.name
            refused.append(failing.name)
        assert {'stat', 'write', 'fsync', 'rename'} <= {*refused}, refused
        assert saver.editor.save_file(NAME).startswith('saved ')


def test_closes_that_fail():
    """What was written is synced by then, so nothing is lost; and no handle is left open."""
    real = os.close

    def close(handle):
        real(handle)
        raise OSError(errno.EIO, 'a fault')

    with tempfile.TemporaryDirectory(dir=IN_MEMORY) as folder:
        saver = Saver(folder)
        for _ in range(3):
            old, new = saver.change()
            with mock.patch.object(saving.os, 'close', close):
                saver.editor.save_file(NAME)
            fault = saver.fault(old, new, False)
            assert not fault, fault


# ---- files as they are


def test_saves_that_change_nothing():
    """They leave a regular file as it is, and replace a link and a file of other bytes."""
    with tempfile.TemporaryDirectory() as folder, Editor(folder=folder) as editor:
        file, far = Path(folder) / NAME, Path(folder) / 'far.tmj'
        editor.step('new m 4 3 16 16 m.tsj')
        editor.save_file(NAME)
        os.utime(file, ns=(1, 1))
        before = file.stat()
        editor.step('stamp 1 0 0 1 5')
        editor.step('undo')
        editor.step('dirty')
        assert editor.save_file(NAME) == f'saved {NAME} {before.st_size}'
        after = file.stat()
        assert (before.st_ino, before.st_mtime_ns) == (after.st_ino, after.st_mtime_ns)
        assert editor.step('status') == 'ok 0/1 clean 0'
        data = file.read_bytes()
        for other in (data[:-1], data + b' ', data[:-1] + b' '):
            file.write_bytes(other)
            editor.save_file(NAME)
            assert file.read_bytes() == data
        file.rename(far)
        file.symlink_to(far)
        editor.save_file(NAME)
        assert not file.is_symlink() and file.read_bytes() == far.read_bytes() == data


def test_what_killed_saves_left():
    """It is taken away, but for what another save has locked, and what is no file of this name."""
    with tempfile.TemporaryDirectory() as folder, Editor(folder=folder) as editor:
        editor.step('new m 4 3 16 16 m.tsj')
        others = [
            '.other.tmj.0.new',
            f'.{NAME}.new',
            f'.{NAME}.x.new',
            f'.{NAME}.03.new',
            f'.{NAME}.3.new',
        ]
        others.append(f'.{NAME}.{2**64}.new')
        for name in [*others, f'.{NAME}.0.new', f'.{NAME}.17.new', f'.{NAME}.{2**64 - 1}.new']:
            (Path(folder) / name).write_text('left')
        with open(Path(folder) / f'.{NAME}.3.new') as locked:
            fcntl.flock(locked, fcntl.LOCK_EX)
            editor.save_file(NAME)
        assert sorted(os.listdir(folder)) == sorted([*others, NAME])
        editor.save_file(NAME)
        assert f'.{NAME}.3.new' not in os.listdir(folder)


# A process that saves one name over and over, and prints each reply.
WRITER = '''
import sys
from roskevad import Editor
with Editor(folder=sys.argv[1]) as editor:
    editor.step('new m 200 200 16 16 m.tsj')
    for at in range(int(sys.argv[3])):
        editor.step(f'stamp 1 {sys.argv[2]} 0 1 {at % 9 + 1}')
        print(editor.save_file('m.tmj'), flush=True)
'''


def writer(folder, number, saves):
    env = {**os.environ, 'PYTHONPATH': str(TOP / 'python')}
    words = [sys.executable, '-c', WRITER, folder, str(number), str(saves)]
    # Without a buffer, so that what is not read of a line is there later.
    pipes = {'stdout': subprocess.PIPE, 'stderr': subprocess.PIPE, 'bufsize': 0}
    return subprocess.Popen(words, env=env, **pipes)


def program(folder, saves):
    """The program saves the same name."""
    lines = ['new m 200 200 16 16 m.tsj']
    for at in range(saves):
        lines += [f'stamp 1 0 1 1 {at % 9 + 1}', f'save {NAME}']
    run = subprocess.Popen(
        [TILE_EDITOR, '--folder', folder], stdin=subprocess.PIPE, stdout=subprocess.PIPE
    )
    # They are few enough for the pipe.
    run.stdin.write('\n'.join(lines).encode())
    run.stdin.close()
    return run


def is_whole(data):
    """Whether bytes are a map that a writer saves."""
    tree = json.loads(data)
    return {*tree['layers'][0]['data']} <= {*range(10)} and tree['width'] == 200


def test_many_who_save_one_name():
    """With the package and with the program, at once. None is refused, also where some are killed;
    who reads meanwhile finds a whole map. What those that were killed have left the next save takes
    away."""
    numbers, saves = random.Random(3), 60
    with tempfile.TemporaryDirectory(dir=IN_MEMORY) as folder:
        first = program(folder, 1)
        assert first.stdout.read().count(b'saved ') == 1 and first.wait() == 0
        with Reader(Path(folder) / NAME, is_whole) as reader:
            writers = [writer(folder, number, saves) for number in range(6)]
            # Each has saved once.
            replies = [each.stdout.readline() for each in writers]
            other = program(folder, saves)
            for killed in writers[:2]:
                time.sleep(numbers.uniform(0, 0.05))
                killed.kill()
            for each in writers[2:]:
                output, errors = each.communicate()
                assert each.returncode == 0, errors.decode()
                assert output.count(b'saved ') == saves - 1
            for each in writers[:2]:
                each.communicate()
            assert other.stdout.read().count(b'saved ') == saves and other.wait() == 0
        assert reader.count and not reader.faults, (reader.count, reader.faults[:1])
        assert all(reply.startswith(b'saved ') for reply in replies)
        left = {*os.listdir(folder)} - {NAME}
        assert len(left) <= 2, left
        with Editor(folder=folder) as editor:
            editor.open_file(NAME)
            editor.save_file(NAME)
        assert os.listdir(folder) == [NAME]


def test_names_of_new_files():
    """A second save at the same time takes the next name; none is longer than the system takes."""
    with tempfile.TemporaryDirectory() as folder, Editor(folder=folder) as editor:
        editor.step('new m 4 3 16 16 m.tsj')
        made = []
        real = os.rename

        def rename(new, name, **more):
            made.append(new)
            return real(new, name, **more)

        with mock.patch.object(saving.os, 'rename', rename):
            for name in (NAME, 'ü' * 127 + '.', 'x' * 255):
                with open(Path(folder) / f'.{name[:120]}.0.new', 'w') as locked:
                    fcntl.flock(locked, fcntl.LOCK_EX)
                    assert editor.save_file(name).startswith(f'saved {name} ')
        assert made[0] == f'.{NAME}.1.new', made
        assert all(len(os.fsencode(name)) <= 255 for name in made), made


# ---- which document a file opens as


def test_names_of_documents():
    rows = [
        ('town.tmj', 'town'),
        ('maps/town.tmj', 'town'),
        ('my town.tmj', 'my_town'),
        ('Größe 1.v2.tmj', 'Gr__e_1.v2'),
        ('.town.tmj', 'town'),
        ('-town.tmj', 'town'),
        ('x' * 250 + '.tmj', 'x' * 64),
        ('...', 'map'),
        ('', 'map'),
        ('a\udcffb.tmj', 'a_b'),
    ]
    cases = [Case(repr(given[:30]), given, wanted) for given, wanted in rows]
    check_each(cases, lambda case: unlike(case.wanted, document_name(case.given)))
    assert all(is_document_name(document_name(given)) for given, _ in rows)


def fault_of_name(case):
    """What is wrong where a file of a name is opened, edited and saved, or None."""
    with tempfile.TemporaryDirectory() as folder, Editor(folder=folder) as editor:
        file = Path(folder) / case.given
        file.write_bytes((EXAMPLE_MAPS / 'house.tmj').read_bytes())
        editor.open_file(case.given)
        documents = editor.step('list')
        editor.step('stamp 1 0 0 1 1')
        editor.save_file(case.given)
        is_saved = editor.step('show')[len('map ') :].encode() == compact(file.read_bytes())
        return unlike((f'docs *{document_name(case.given)}', True), (documents, is_saved))


def test_files_of_any_name():
    names = ['a b.tmj', 'Größe.tmj', 'a.b.c.tmj', '-x', '.x', '世界', 'x' * 255, 'a\udcff', "a'\"$"]
    check_each([Case(repr(name[:30]), name, None) for name in names], fault_of_name)
