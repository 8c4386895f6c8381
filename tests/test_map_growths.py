# SPDX-License-Identifier: MIT OR Apache-2.0
"""Refuses each growth of memory in turn while `map_report --table` reads a map and writes it, and
while `map_report` reports a file. Whichever growth is refused, the answer is either that there is
no memory or the ordinary one; or the program ends with status 1, where the memory that it wants for
itself is refused, and what it has written by then is right. The line of a map that is refused may
lack the place; one of JSON is whole, or it says that there is no memory. native/interpose.c refuses
the growths."""
import json
import subprocess

from lib.cases import CORES, Case, check_each, passed
from lib.growths import count_of, refusing
from lib.places import MAP_REPORT, TOP
from lib.refusals import refusal

MAPS = TOP / 'crates' / 'map_report' / 'data' / 'maps'
READ = [
    'layers',
    'base64',
    'flips',
    'objects',
    'properties',
    'image_layer',
    'two_tilesets',
    'groups',
    'house',
]
REPORTED = ['layers', 'groups', 'properties', 'infinite', 'opacity_half', 'zlib']


def told(word, lines, growth=0, options=()):
    """What the program does with a word and some lines, with one growth refused, or none for 0."""
    return subprocess.run(
        [MAP_REPORT, *options, word],
        input=lines,
        capture_output=True,
        timeout=60,
        env=refusing(growth),
        cwd=MAPS,
    )


def fault_with(growth, done):
    return f'with growth {growth} refused: status {done.returncode}, {done.stdout[:200]!r}'


def fault_of_table(case):
    """What is wrong where each growth of the reading and the writing of a map is refused, or
    None."""
    rows = b'load %s %s.tmj\nread %s\n' % ((case.given.encode(),) * 3)
    done = told('--table', rows)
    front, arrow, text = done.stdout.partition(b' => ')
    if done.returncode != 0 or not text.startswith(b'{'):
        return f'the map is not read: status {done.returncode}, {done.stdout[:200]!r}'
    growths = count_of(b'growths', done)
    without = front + arrow + case.wanted
    counts = {without: 0, done.stdout: 0}
    for growth in range(1, growths + 1):
        came = told('--table', rows, growth)
        if came.returncode == 0 and came.stdout in counts:
            counts[came.stdout] += 1
        elif came.returncode != 1 or not without.startswith(came.stdout):
            return fault_with(growth, came)
    if counts[without] < growths / 2:
        return f'{counts[without]} of {growths} growths answered by want of memory'
    passed(growths)
    return None


def fault_of_report(case):
    """What is wrong where each growth of a file's report is refused, or None."""
    file = case.given
    done = told(file, b'')
    line = done.stdout.partition(b'\n')[0]
    answers = [done.stdout, f'{file}: {case.wanted}\n'.encode()]
    if done.returncode == 1:
        # Without memory for the place of a fault, the lines behind it may still be told.
        bare = b': '.join(line.split(b': ')[:2]) + b'\n'
        answers.append(bare + done.stdout.partition(b'\n')[2])
    growths = count_of(b'growths', done)
    for growth in range(1, growths + 1):
        came = told(file, b'', growth)
        is_full = (came.returncode, came.stdout) == (done.returncode, done.stdout)
        is_told = any(answer.startswith(came.stdout) for answer in answers)
        if not is_full and (came.returncode != 1 or not is_told):
            return fault_with(growth, came)
    passed(growths)
    return None


def fault_of_json(case):
    """What is wrong where each growth of a file's report in JSON is refused, or None."""
    file = case.given
    done = told(file, b'', options=['--json'])
    refused = {'code': 90, 'words': 'no memory', 'places': []}
    lines = [{'file': file, 'refused': {**refused, **more}} for more in ({}, case.wanted)]
    without = [json.dumps(line, separators=(',', ':')).encode() + b'\n' for line in lines]
    growths = count_of(b'growths', done)
    answered = 0
    for growth in range(1, growths + 1):
        came = told(file, b'', growth, ['--json'])
        is_full = (came.returncode, came.stdout) == (done.returncode, done.stdout)
        answered += came.stdout in without
        if not is_full and (came.returncode != 1 or came.stdout not in [b'', *without]):
            return fault_with(growth, came)
    if not answered:
        return f'none of {growths} growths is answered by want of memory'
    passed(growths)
    return None


def test_maps_that_are_read_and_written():
    check_each([Case(name, name, b'no memory\n') for name in READ], fault_of_table, CORES)


def test_maps_that_are_reported():
    check_each(
        [Case(name, f'{name}.tmj', refusal(90)) for name in REPORTED], fault_of_report, CORES
    )


def test_maps_that_are_reported_in_json():
    reason = {'reason': 'out of memory'}
    check_each([Case(name, f'{name}.tmj', reason) for name in REPORTED], fault_of_json, CORES)
