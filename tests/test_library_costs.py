# SPDX-License-Identifier: MIT OR Apache-2.0
"""Counts the instructions that calls of the library take which tell of one thing: one look-up after
another takes at most 1.2 times as many in a map of 4,000 objects as in one of 500, where ids rise
along the layer. What is a search and nothing else takes at most 1.3 times as many. What goes through all
objects must take more, so that a walk would be seen.

valgrind counts: the same program on the same map takes the same instructions each time, whatever else
the machine does."""
import functools
import re
import subprocess
import tempfile
from pathlib import Path

from lib.cases import Case, check_each
from lib.maps import map_of, property_of, text_of, thing, things, tiles
from lib.native import c_program
from lib.places import NATIVE

PACKAGES = ('valgrind',)
FEW, MANY = 500, 4000
MOST_RATIO = 1.2
TURNS = 400
LOOK_UPS = ['object', 'properties', 'property', 'layer', 'layer_property', 'map_head', 'tileset']
LOOK_UPS += ['tilesets', 'sizes_of_map', 'layers', 'status_of', 'document_name', 'active']
# A search in a tree of 4,000, which is deeper by three than one of 500, and a number as the answer.
SEARCHES, MOST_OF_SEARCH = ['object_layer'], 1.3
# What goes through all objects takes at least so many times as many.
WALKS, LEAST_RATIO = ['object_ids', 'find'], 4
OBJECTS_LAYER = 2


def map_with(objects):
    """A map whose object layer has so many objects, with ids that rise: all of one length."""
    kind = [property_of('kind', 'string', 'a'), property_of('open', 'bool', True)]
    items = [
        thing(number, name='door', x=number % 10, properties=kind) for number in range(1, objects + 1)
    ]
    layer = things(OBJECTS_LAYER, *items, properties=kind)
    return text_of(map_of(tiles(1), layer, tiles(3)))


def costs_in(profile):
    """How many instructions a call of each function `ask_NAME` takes, with all that it calls, by what
    callgrind has written: behind the line of a function that is called come how often it is called
    from there, and what that takes."""
    names, asked, callee = {}, {}, None
    lines = iter(profile.splitlines())
    for line in lines:
        named = re.match(r'(c?fn)=\((\d+)\)(?: (.*))?', line)
        if named:
            names.setdefault(named[2], named[3])
            callee = names[named[2]] if named[1] == 'cfn' else None
        elif line.startswith('calls=') and callee and callee.startswith('ask_'):
            count, taken = int(line[len('calls=') :].split()[0]), int(next(lines).split()[-1])
            asked.setdefault(callee[len('ask_') :], []).append((count, taken))
    return {
        name: sum(taken for _, taken in rows) / sum(count for count, _ in rows)
        for name, rows in asked.items()
    }


@functools.cache
def costs(objects):
    """How many instructions each call takes on a map with so many objects."""
    program = c_program(NATIVE / 'library_costs.c')
    with tempfile.TemporaryDirectory() as top:
        path, profile = Path(top) / 'm.tmj', Path(top) / 'profile'
        path.write_bytes(map_with(objects))
        words = ['valgrind', '--tool=callgrind', f'--callgrind-out-file={profile}', program]
        words += [str(TURNS), path, str(OBJECTS_LAYER), str(objects)]
        done = subprocess.run(words, capture_output=True, text=True)
        assert done.returncode == 0, f'status {done.returncode}: {done.stderr[-500:]}'
        return costs_in(profile.read_text())


def compared(name):
    """What a call takes on both maps, in words, and how many times as much on the larger one."""
    few, many = costs(FEW)[name], costs(MANY)[name]
    return f'{name}: {few:.0f} instructions with {FEW} objects, {many:.0f} with {MANY}', many / few


def fault_of_look_up(case):
    told, ratio = compared(case.name)
    print(told)
    return told if ratio > case.wanted else None


def fault_of_walk(case):
    told, ratio = compared(case.name)
    return told if ratio < LEAST_RATIO else None


def test_look_ups():
    check_each([Case(call, None, MOST_RATIO) for call in LOOK_UPS], fault_of_look_up)


def test_searches():
    check_each([Case(call, None, MOST_OF_SEARCH) for call in SEARCHES], fault_of_look_up)


def test_walks():
    check_each([Case(call, None, None) for call in WALKS], fault_of_walk)
