# SPDX-License-Identifier: MIT OR Apache-2.0
"""Has several programs save one map: two servers, a server beside the program and beside the package.
From its look at the old file to its end a save has the name locked, so no accepted save goes over one
that its sender has not seen. Who waits too long is told who saves, or saves all the same."""
import contextlib
import fcntl
import json
import os
import subprocess
import sys
import tempfile
import threading
import time
from collections import Counter
from pathlib import Path

from lib.cases import passed
from lib.places import SESSION_MAPS, TILE_EDITOR, TOP
from page.door import Door, read_answer
from page.slow_syncs import slow_syncs

IS_LONG = True
NAME = 'm.tmj'
TOWN = (SESSION_MAPS / 'town.tmj').read_bytes()
# How long a save waits for another, in seconds.
LONGEST_WAIT = 10
SESSION = b'new m 4 3 16 16 town.tsj\nstamp 1 0 0 1 5\nsave m.tmj\nstatus\n'
HOLDING = '''
import fcntl, sys
file = open(sys.argv[1])
fcntl.flock(file, fcntl.LOCK_EX)
print(flush=True)
sys.stdin.read()
'''
IN_PYTHON = '''
import sys
from roskevad import Editor
editor = Editor(folder=sys.argv[1])
editor.step('new m 4 3 16 16 town.tsj')
editor.step('stamp 1 0 0 1 5')
print(editor.save_file('m.tmj'))
'''


@contextlib.contextmanager
def folder_with(data=TOWN):
    with tempfile.TemporaryDirectory() as top:
        maps = Path(top) / 'maps'
        maps.mkdir()
        if data is not None:
            (maps / NAME).write_bytes(data)
        yield maps


@contextlib.contextmanager
def served(maps, count=1):
    """Servers of one folder. Each but the first one is told of that."""
    doors = [Door('--folder', str(maps), '--port', '0') for _ in range(count)]
    try:
        yield doors
    finally:
        for door in doors:
            assert door.end() == 0


def saved_by_program(maps):
    done = subprocess.run([TILE_EDITOR, '--folder', maps], input=SESSION, capture_output=True, timeout=120)
    return done.stdout.decode().splitlines()[2:3], done.stderr.decode()


def saved_by_package(maps):
    env = {**os.environ, 'PYTHONPATH': str(TOP / 'python')}
    done = subprocess.run(
        [sys.executable, '-c', IN_PYTHON, maps], capture_output=True, timeout=120, env=env
    )
    return done.stdout.decode().splitlines(), done.stderr.decode()


class Holder:
    """A process that has a file locked, until it ends."""

    def __init__(self, path):
        self.program = subprocess.Popen(
            [sys.executable, '-c', HOLDING, path], stdin=subprocess.PIPE, stdout=subprocess.PIPE
        )
        self.program.stdout.readline()

    def kill(self):
        self.program.kill()
        self.program.communicate()


# ---- servers


def chain(door, saves, came):
    """Saves one after another, each of which has a number more than the map that it replaces."""
    for _ in range(saves):
        was = door.ask('GET', door.file(NAME))[2]
        text = json.dumps({'chain': json.loads(was)['chain'] + 1}).encode()
        came[door.save(NAME, text, was)] += 1


def test_two_servers():
    """Each accepted save builds on the one before it, whichever server has taken that."""
    with folder_with(b'{"chain":0}') as maps, served(maps, 2) as doors:
        came = Counter()
        work = [
            threading.Thread(target=chain, args=(door, 60, came)) for door in doors for _ in range(2)
        ]
        for each in work:
            each.start()
        for each in work:
            each.join()
        assert set(came) <= {200, 412} and sum(came.values()) == 240, came
        assert json.loads((maps / NAME).read_text())['chain'] == came[200], came
        assert os.listdir(maps) == [NAME]
    passed()


def test_the_second_server_is_told():
    with folder_with() as maps, served(maps, 2) as (first, second):
        second.faults.seek(0)
        told = second.faults.read().decode()
        assert f'http://127.0.0.1:{first.port}/' in told and str(first.program.pid) in told, told
        first.faults.seek(0)
        assert first.faults.read() == b''
    passed()


def test_a_file_that_is_new():
    """Of servers that make one name at once, one does, and the others are told."""
    with folder_with(None) as maps, served(maps, 2) as doors:
        for turn in range(10):
            came = []
            name = f'{turn}.tmj'
            work = [
                threading.Thread(
                    target=lambda door=door, number=number: came.append(
                        door.save(name, f'{{"by":{number}}}'.encode())
                    )
                )
                for number, door in enumerate(doors * 3)
            ]
            for each in work:
                each.start()
            for each in work:
                each.join()
            assert sorted(came) == [200] + [412] * 5, came
        assert sorted(os.listdir(maps)) == sorted(f'{turn}.tmj' for turn in range(10))
    passed()


# ---- other programs beside a server


def test_the_program_beside_a_server():
    """The server looks at the file and is slow to replace it. The program and the package wait for it, and
    then put their bytes there: none of the two is lost without a word."""
    for save in (saved_by_program, saved_by_package):
        with folder_with() as maps:
            with slow_syncs(maps.parent, 1) as flag:
                flag.touch()
                door = Door('--folder', str(maps), '--port', '0')
            came = []
            other = TOWN.replace(b'"data":[0', b'"data":[7')
            work = threading.Thread(target=lambda: came.append(door.save(NAME, other, TOWN)))
            work.start()
            while not (maps / f'.{NAME}.0.new').exists():
                time.sleep(0.01)
            flag.unlink()
            replies, errors = save(maps)
            work.join()
            assert came == [200] and replies and replies[0].startswith(f'saved {NAME} '), (came, errors)
            cells = json.loads((maps / NAME).read_text())['layers'][0]['data']
            assert cells[0] == 5, f'{save.__name__} came later, and has its bytes there'
            assert door.end() == 0
    passed()


def test_a_server_beside_another_saver():
    """Who has the name locked replaces the file: a server that has waited sees that it is another one."""
    with folder_with() as maps, served(maps) as [door]:
        held = open(maps / NAME, 'rb')
        fcntl.flock(held, fcntl.LOCK_EX)
        came = []
        work = threading.Thread(target=lambda: came.append(door.save(NAME, b'{"by":"page"}', TOWN)))
        work.start()
        time.sleep(0.5)
        assert came == []
        (maps / 'new').write_bytes(b'{"by":"other"}')
        os.rename(maps / 'new', maps / NAME)
        held.close()
        work.join()
        assert came == [412] and (maps / NAME).read_bytes() == b'{"by":"other"}', came
    passed()


def test_a_program_that_hangs():
    """The server says after some seconds who saves; the program and the package save all the same. A
    holder that is killed leaves no lock."""
    with folder_with() as maps, served(maps) as [door]:
        holder = Holder(maps / NAME)
        begun = time.monotonic()
        match = f'if-match: "{"0" * 64}"\r\n'
        replaced = door.request('PUT', door.file(NAME), b'{"by":"page"}', extra=match)
        with door.connect() as link:
            link.sendall(replaced)
            status, _, words, _ = read_answer(link)
        waited = time.monotonic() - begun
        assert status == 423 and f'process {holder.program.pid}' in words.decode(), (status, words)
        assert LONGEST_WAIT - 1 < waited < 2 * LONGEST_WAIT, waited
        assert (maps / NAME).read_bytes() == TOWN
        holder.kill()
        assert door.save(NAME, b'{"by":"page"}', TOWN) == 200
        for save in (saved_by_program, saved_by_package):
            holder = Holder(maps / NAME)
            begun = time.monotonic()
            replies, errors = save(maps)
            assert replies and replies[0].startswith(f'saved {NAME} '), errors
            assert LONGEST_WAIT - 1 < time.monotonic() - begun < 4 * LONGEST_WAIT
            holder.kill()
    passed()


# ---- names


def test_names_that_can_be_told():
    """A map is listed, read and saved, or none of these."""
    names = {
        'plain.tmj': True, 'wide\u3000space.tmj': True, 'r\u202eight.tmj': True, 'man\u200d.tmj': True,
        'two\nlines.tmj': False, 'tab\t.tmj': False, 'line\u2028end.tmj': False, 'dele\x7fted.tmj': False,
    }
    with folder_with(None) as maps, served(maps) as [door]:
        for name in names:
            (maps / name).write_bytes(TOWN)
        listed = {each['path'] for each in door.listed()['maps']}
        for name, is_told in names.items():
            spelled = ''.join(f'%{each:02x}' for each in name.encode())
            assert (name in listed) == is_told, name
            assert door.status('GET', door.file(spelled)) == (200 if is_told else 404), name
            assert door.save(spelled, b'{}', TOWN) == (200 if is_told else 404), name
        for name in ('plain.tmj/', 'plain.tmj//', 'plain.tmj/.', './plain.tmj', 'new.tmj/'):
            assert door.save(name, b'[]', b'{}') == 404 and door.save(name, b'[]') == 404, name
        assert (maps / 'plain.tmj').read_bytes() == b'{}' and not (maps / 'new.tmj').exists()
    passed()
