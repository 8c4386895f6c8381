# SPDX-License-Identifier: MIT OR Apache-2.0
"""Tries how calls of the Python package go wrong: refusals that go to another process or are
copied, forks while a thread is in a call, signal handlers in the midst of a call, threads that take
turns, and values of other types. A call that could hang is made in a process of its own, with a
bound on its time."""
import array
import copy
import os
import pickle
import subprocess
import sys
import threading

from lib.cases import Case, check_each, passed, raised, unlike
from lib.places import EXAMPLE_MAPS, TOP

sys.path.insert(0, str(TOP / 'python'))
from roskevad import Editor, Refused  # noqa: E402
from roskevad.forms import FORMS  # noqa: E402

ALONE = True
HEAD = '''
import os, signal, sys, threading, time
from roskevad import Closed, Editor, Refused
'''


def fault_of_program(code, seconds=20):
    """What is wrong with a program in Python, or None; it may hang."""
    env = {**os.environ, 'PYTHONPATH': str(TOP / 'python')}
    try:
        done = subprocess.run(
            [sys.executable, '-c', HEAD + code], env=env, capture_output=True, timeout=seconds
        )
    except subprocess.TimeoutExpired:
        return f'it hangs: it has not ended after {seconds} seconds'
    return None if done.returncode == 0 else done.stderr.decode()[-1500:]


def see(code):
    fault = fault_of_program(code)
    assert not fault, fault


# ---- refusals


def told(refusal):
    return type(refusal), refusal.args, vars(refusal), str(refusal)


def test_refusals_are_copied_and_pickled():
    with Editor() as editor:
        refusals = [
            raised(Refused, editor.step, 'stamp'),
            raised(Refused, editor.step, 'undo'),
            raised(Refused, editor.open_map, 'a', b'{'),
            raised(Refused, editor.save_file, 'a.tmj'),
        ]
    refusals.append(Refused(30, 'no such layer', 'undo'))
    for refusal in refusals:
        copies = [copy.copy(refusal), copy.deepcopy(refusal)]
        copies += [pickle.loads(pickle.dumps(refusal, each)) for each in range(6)]
        for each in copies:
            fault = unlike(told(refusal), told(each))
            assert not fault, fault
            passed()


def test_what_was_refused():
    """It is the line or the call as the caller wrote it. Only a line has forms."""
    with Editor() as editor:
        rows = [
            ((editor.step, 'stamp'), 4, 'stamp', FORMS['stamp']),
            ((editor.step, 'undo'), 10, 'undo', ()),
            ((editor.open_map, 'a b', b'{'), 4, "open_map('a b')", ()),
            ((editor.open_map, 'a', b'{'), 60, "open_map('a')", ()),
            ((editor.open_file, 'no.tmj'), 50, "open_file('no.tmj')", ()),
            ((editor.open_file, 'no.tmj', 'a b'), 4, "open_file('no.tmj', 'a b')", ()),
            ((editor.save_file, 'no.tmj'), 10, "save_file('no.tmj')", ()),
            ((editor.save_map,), 10, 'save_map()', ()),
            ((editor.map,), 10, 'map()', ()),
            ((editor.run_lines, ['list', 'undo']), 10, 'undo', ()),
            ((editor.run_lines, ['stamp']), 4, 'stamp', FORMS['stamp']),
            ((editor.outline,), 10, 'outline()', ()),
            ((editor.layer_id, 'a'), 10, "layer_id('a')", ()),
            ((editor.last_layer_id,), 10, 'last_layer_id()', ()),
        ]

        def fault_of(case):
            refusal = raised(Refused, *case.given)
            return unlike(case.wanted, (refusal.code, refusal.line, refusal.forms))

        check_each([Case(row[2], row[0], row[1:]) for row in rows], fault_of)


def test_refusals_in_other_processes():
    """They are raised through a pool of either kind, which goes on."""
    for pool in ('multiprocessing.Pool(2)', 'concurrent.futures.ProcessPoolExecutor(2)'):
        see(
            f'''
import concurrent.futures, multiprocessing
def work(line):
    with Editor() as editor:
        return editor.step(line)
if __name__ == '__main__':
    with {pool} as pool:
        try:
            list(pool.map(work, ['list', 'undo', 'list']))
            raise SystemExit('nothing was raised')
        except Refused as refusal:
            assert (refusal.code, refusal.line) == (10, 'undo'), refusal
        assert list(pool.map(work, ['list'])) == ['docs']
'''
        )
        passed()


# ---- forks

BUSY = '''
editor = Editor()
editor.step('new a 200 200 16 16 a.tsj')
# A thread is in a call at the fork: it holds the lock.
held, free = threading.Event(), threading.Event()
def hold():
    with editor._lock:
        held.set()
        free.wait()
thread = threading.Thread(target=hold)
thread.start()
held.wait()
child = os.fork()
if child == 0:
    try:
        for call in CALLS:
            try:
                call()
            except Closed:
                continue
            os._exit(1)
        editor.close()
        editor.__exit__()
        editor.__del__()
        os._exit(0)
    except BaseException as fault:
        print(fault, file=sys.stderr, flush=True)
        os._exit(2)
status = os.waitpid(child, 0)[1]
free.set()
thread.join()
assert status == 0, status
assert editor.step('status') == 'ok 0/0 clean 0'
'''
CALLS = '''[
    lambda: editor.step('status'), lambda: editor.step_bytes(b'status'), editor.files,
    lambda: editor.put_file('a', b''), lambda: editor.file('a'), lambda: editor.remove_file('a'),
    lambda: editor.open_map('b', b'{'), lambda: editor.open_file('a'), editor.unsaved,
    editor.save_map, lambda: editor.save_file('a'), editor.map, editor.selection,
    editor.clean_index, lambda: editor.is_macro(0), lambda: editor.layer_id('a'),
    editor.last_layer_id, editor.last_object_id, lambda: editor.run_lines(['list']),
    editor.outline, lambda: editor.cells(1, 0, 0, 1, 1), lambda: editor.action_text(0),
]'''


def test_forks_while_a_thread_is_in_a_call():
    see(BUSY.replace('CALLS', CALLS))


def test_forks_in_the_midst_of_a_call():
    see(
        '''
editor = Editor()
editor.step('new a 1000 1000 16 16 a.tsj')
ends = threading.Event()
def work():
    while not ends.is_set():
        editor.step('show')
threads = [threading.Thread(target=work) for _ in range(3)]
for thread in threads:
    thread.start()
for _ in range(20):
    child = os.fork()
    if child == 0:
        try:
            editor.step('status')
        except Closed:
            editor.close()
            os._exit(0)
        os._exit(1)
    assert os.waitpid(child, 0)[1] == 0
ends.set()
for thread in threads:
    thread.join()
'''
    )


# ---- signal handlers


def test_calls_from_a_signal_handler():
    """While the editor is in a call each raises and changes nothing; between calls it is done."""
    see(
        '''
editor = Editor()
editor.step('new a 1000 1000 16 16 a.tsj')
line = 'stamp 1 0 0 1 5'
calls = [
    lambda: editor.step(line), lambda: editor.step_bytes(line.encode()), editor.close,
    lambda: editor.put_file('a.tmj', b'a'), lambda: editor.open_map('b', b'{'), editor.__exit__,
]
heard = []
def handler(*_):
    for call in calls:
        try:
            call()
            heard.append('done')
        except RuntimeError:
            heard.append('refused')
        except BaseException as fault:
            heard.append(repr(fault))
signal.signal(signal.SIGALRM, handler)
import roskevad.editor
library_step, shown = roskevad.editor._STEP, editor.step('show')
def interrupted(*words):
    # The signal comes in the call of the library, so the handler runs before `step` has ended.
    size = library_step(*words)
    signal.raise_signal(signal.SIGALRM)
    return size
roskevad.editor._STEP = interrupted
assert editor.step('show') == shown
assert editor.step_bytes(b'show') == shown.encode()
assert heard == ['refused'] * 2 * len(calls), heard
roskevad.editor._STEP = library_step
heard.clear()
assert editor.files() == [] and editor.step('status') == 'ok 0/0 clean 0'
calls[:] = calls[:1]
signal.raise_signal(signal.SIGALRM)
assert heard == ['done'] and editor.step('status') == 'ok 1/1 dirty 0', heard
'''
    )


def test_interrupts_at_random_points():
    """Whatever they fall into, the editor goes on, and nothing stays in the store."""
    see(
        '''
import random
class Cut(Exception): pass
def ring(*_): raise Cut
signal.signal(signal.SIGALRM, ring)
data = open(%r, 'rb').read()
numbers, cuts = random.Random(5), 0
with Editor() as editor:
    editor.step('new a 100 100 16 16 a.tsj')
    for at in range(2000):
        try:
            signal.setitimer(signal.ITIMER_REAL, numbers.uniform(1e-6, 6e-4))
            editor.step('show')
            editor.open_map('b', data)
            editor.unsaved()
            editor.step_bytes(b'status')
            signal.setitimer(signal.ITIMER_REAL, 0)
        except Cut:
            cuts += 1
        assert editor.files() == []
        assert editor.step('list') in ('docs *a', 'docs a *b')
        if editor.step('list') != 'docs *a':
            editor.step('discard b')
            editor.step('use a')
assert cuts > 200, cuts
'''
        % str(EXAMPLE_MAPS / 'house.tmj')
    )


# ---- threads


def test_threads_that_take_turns():
    """Each call behind the one before, each in another thread: the replies are those of one."""
    lines = [
        b'new a 40 30 16 16 a.tsj',
        b'stamp 1 0 0 2 5,6',
        b'undo',
        b'redo',
        b'show',
        b'begin M',
    ]
    lines += [b'stamp 1 %d 1 1 7' % x for x in range(40)] + [b'end', b'goto 0', b'show']
    with Editor() as one, Editor() as other:
        wanted, came = [one.step_bytes(line) for line in lines], []
        for line in lines:
            thread = threading.Thread(target=lambda: came.append(other.step_bytes(line)))
            thread.start()
            thread.join()
    assert wanted == came


def test_two_editors_in_two_threads():
    """They know nothing of each other, and are called at the same time."""
    wanted, came = [], {}

    def work(number):
        with Editor() as editor:
            editor.step('new a 40 30 16 16 a.tsj')
            for at in range(200):
                editor.step(f'stamp 1 {at % 40} {at // 40} 1 {at + 1}')
                editor.step('show')
            came[number] = editor.step('show')

    threads = [threading.Thread(target=work, args=(number,)) for number in range(4)]
    for thread in threads:
        thread.start()
    for thread in threads:
        thread.join()
    work(4)
    wanted = [came[4]] * 5
    assert [came[number] for number in range(5)] == wanted


def test_what_is_said_of_threads():
    """The header, the package and its page say it in the same words."""
    words = (
        'Several threads may use it in turn, if each call begins after the end of the one before, '
        'as under a lock. Two things may be used at the same time. Both are tested, and not proved.'
    )
    header = ' '.join((TOP / 'include' / 'roskevad.h').read_text().replace('\n *', '\n').split())
    page = ' '.join((TOP / 'docs' / 'library.md').read_text().split())
    package = ' '.join((Editor.__doc__ or '').split())
    for name, text, thing in (
        ('the header', header, 'editors'),
        ('the page', page, 'editors'),
        ('the package', package, 'editors'),
    ):
        assert words.replace('things', thing) in text, name


def test_the_library_keeps_nothing_of_its_own():
    """It has no data that it writes, and none of a thread; so editors are apart."""
    told = subprocess.run(
        ['readelf', '-SW', TOP / 'lib' / 'libroskevad.so'],
        capture_output=True,
        text=True,
        check=True,
    ).stdout
    rows = [line.split('] ')[1].split() for line in told.splitlines() if '] .' in line]
    sizes = {row[0]: int(row[4], 16) for row in rows}
    assert not {'.tdata', '.tbss', '.data'} & {*sizes}, sizes
    # One address that stands for nothing.
    assert sizes.get('.bss', 0) <= 8, sizes


# ---- types


def test_bytes_of_any_kind():
    """`put_file` and `open_map` take them from any object that has bytes."""
    data = (EXAMPLE_MAPS / 'house.tmj').read_bytes()
    even = data + b' ' * (len(data) % 2)
    kinds = [
        ('bytes', data, data),
        ('a bytearray', bytearray(data), data),
        ('a memoryview', memoryview(data), data),
        ('an array of 16 bits', array.array('H', even), even),
        ('every other byte', memoryview(b''.join(bytes([each, 32]) for each in data))[::2], data),
        ('no bytes', b'', b''),
    ]

    def fault_of(case):
        with Editor() as editor:
            editor.put_file('a.tmj', case.given)
            stands = editor.file('a.tmj')
            if case.wanted:
                editor.open_map('a', case.given)
            return unlike(case.wanted, stands)

    check_each([Case(*row) for row in kinds], fault_of)


def test_values_of_other_types():
    with Editor() as editor:
        rows = [
            ((editor.put_file, 'a', 5), TypeError, 'bytes'),
            ((editor.put_file, 'a', 'text'), TypeError, 'bytes'),
            ((editor.open_map, 'a', 5), TypeError, 'bytes'),
            ((editor.open_map, 'a', 'text'), TypeError, 'bytes'),
            ((editor.step, b'undo'), TypeError, 'str'),
            ((editor.step, None), TypeError, 'str'),
            ((editor.step_bytes, 'undo'), TypeError, 'bytes'),
            ((editor.step_bytes, 5), TypeError, 'bytes'),
            ((editor.run_lines, 'undo'), TypeError, 'lines'),
            ((editor.run_lines, [b'undo']), TypeError, 'str'),
            ((editor.run_lines, ['list', 'new a 1 1 1 1 a\n']), ValueError, 'newline'),
            ((editor.step, 'new a 1 1 1 1 a\n'), ValueError, 'newline'),
            ((editor.step, '# a\nundo'), ValueError, 'newline'),
        ]

        def fault_of(case):
            kind, word = case.wanted
            fault = raised(kind, *case.given)
            return None if word in str(fault) else f'{fault!r} does not say {word}'

        check_each([Case(f'{row[0]}', row[0], row[1:]) for row in rows], fault_of)
        assert editor.step('list') == 'docs' and editor.files() == []


def test_newlines_in_bytes():
    """There a byte 10 is one like any other, as the header says."""
    with Editor() as editor:
        rows = [
            (b'list\n', b'no 3 unknown command'),
            (b'use -\n', b'no 4 bad word'),
            (b'# a\nlist', None),
        ]
        check_each(
            [Case(repr(line), line, reply) for line, reply in rows],
            lambda case: unlike(case.wanted, editor.step_bytes(case.given)),
        )
