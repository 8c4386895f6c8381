# SPDX-License-Identifier: MIT OR Apache-2.0
"""Counts the instructions of loops of calls in Python on a map of 1,000 objects: 1,000 moves and 1,000
properties that are set take at most 60 times as many as the same lines by `run_lines`, and 1,000 stamps by
the name of a layer at most 5 times as many as by its id. What is read of one object takes at most 1.2
times as many on a map of 4,000 objects as on one of 500. `step_bytes` takes no more than `step`.

valgrind counts: the same script takes the same instructions each time, whatever else the machine does.
What it takes without a loop is taken off."""
import functools
import os
import re
import subprocess
import sys
import tempfile

from lib.cases import in_processes, passed
from lib.places import TOP

PACKAGES = ('valgrind',)
COUNT, FEW, MANY = 1000, 500, 4000
MOST_OF_LINES, MOST_OF_IDS, MOST_OF_FEW, MOST_OF_STEP = 60, 5, 1.2, 1
# A script with a document of so many objects, and a loop behind it.
SCRIPT = """
from roskevad import Editor
with Editor() as editor:
    document = editor.new('a', 100, 100, 16, 16, 'a.tsj')
    things = document.layers.add('object', 'Things')
    editor.run_lines([f'object add {things.id} {at} 0 8 8 thing' for at in range(COUNT)])
    walls = document.layers.add('tile', 'Walls')
"""
NOTHING, LOOK_UPS = 'no loop', 'look-ups'
# What the loops do, in lines of Python.
LOOPS = {
    NOTHING: [],
    'lines': [
        "lines = [f'object move {at + 1} {at + 1} 0' for at in range(COUNT)]",
        "lines += [f'prop set object:{at + 1} team int 1' for at in range(COUNT)]",
        'editor.run_lines(lines)',
    ],
    'calls': [
        'for each in document.objects: each.move(int(each.x) + 1, int(each.y))',
        "for each in document.objects: each.properties['team'] = 1",
    ],
    LOOK_UPS: [
        'for at in range(500):',
        "    each = document.objects[at * 7 + 1 if at * 7 < COUNT else at + 1]",
        "    each.x, each.layer.name, 'team' in each.properties",
    ],
    'stamps by id': ['for at in range(COUNT): document.stamp(walls.id, at % 100, at // 100, [[5]])'],
    'step': ["for at in range(COUNT): editor.step('status')"],
    'step_bytes': ["for at in range(COUNT): editor.step_bytes(b'status')"],
    'stamps by name': ["for at in range(COUNT): document.stamp('Walls', at % 100, at // 100, [[5]])"],
}


def instructions(case):
    """How many instructions the script takes with a loop, on a map of so many objects."""
    name, count = case
    loop = '\n'.join(f'    {line}' for line in LOOPS[name])
    env = {**os.environ, 'PYTHONPATH': str(TOP / 'python'), 'PYTHONHASHSEED': '0', 'PYTHONDONTWRITEBYTECODE': '1'}
    with tempfile.TemporaryDirectory() as folder:
        words = ['valgrind', '--tool=callgrind', f'--callgrind-out-file={folder}/profile', sys.executable, '-c']
        words.append(f'{SCRIPT}{loop}\n'.replace('COUNT', str(count)))
        done = subprocess.run(words, capture_output=True, text=True, env=env, cwd=folder)
    assert done.returncode == 0, f'{name}: status {done.returncode}: {done.stderr[-500:]}'
    return int(re.search(r'Collected : (\d+)', done.stderr)[1])


@functools.cache
def costs():
    """How many instructions each loop takes, by its name and how many objects there are."""
    cases = [(name, COUNT) for name in LOOPS if name != LOOK_UPS]
    cases += [(name, count) for name in (NOTHING, LOOK_UPS) for count in (FEW, MANY)]
    taken = dict(zip(cases, in_processes(instructions, cases)))
    return {(name, count): each - taken[NOTHING, count] for (name, count), each in taken.items()}


def see(more, less, most):
    """That a loop takes at most so many times as many as another one."""
    ratio = costs()[more] / costs()[less]
    names = ['{} with {:,} objects'.format(*case) for case in (more, less)]
    told = f'{names[0]}: {costs()[more] / 1e6:.1f} million instructions, {ratio:.2f} times those of {names[1]}'
    print(told)
    assert 0 < ratio <= most, f'{told}: at most {most} were wanted'
    passed()


def test_edits():
    see(('calls', COUNT), ('lines', COUNT), MOST_OF_LINES)


def test_stamps_by_name():
    see(('stamps by name', COUNT), ('stamps by id', COUNT), MOST_OF_IDS)


def test_look_ups():
    see((LOOK_UPS, MANY), (LOOK_UPS, FEW), MOST_OF_FEW)


def test_bytes():
    see(('step_bytes', COUNT), ('step', COUNT), MOST_OF_STEP)
