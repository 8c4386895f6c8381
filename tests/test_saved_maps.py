# SPDX-License-Identifier: MIT OR Apache-2.0
"""Opens each example map, stamps a cell, turns it back, and saves; then makes the stamp again, and
saves that. In a second run each object of the map is moved, all moves are turned back, and then
made again. What `show` gives, and what stands in each file, must be the text that the map has by
the rules of writing: all of its members, with the version 1.10, in byte order of their names,
without white space. A map that can't be read is refused."""
from lib.cases import CORES, check_each
from lib.maps import objects_in
from lib.model import Play
from lib.places import example_maps
from lib.refusals import refusal
from lib.sessions import Run, fault_of_run

# The maps that can't be read, with their refusals.
REFUSED = {'infinite.tmj': 64, 'opacity_half.tmj': 61, 'zlib.tmj': 65}
# A layer with cells, a cell of it, and a value that every map has a tileset for and none has in
# that cell.
STAMP = 'stamp 1 6 4 1 29'


def refused_run(name, maps):
    run = Run(name, maps)
    run.say_all([(f'open m {name}', refusal(REFUSED[name])), ('list', 'docs')])
    return run


def saving_run(name, maps):
    """Saves a map before a stamp and behind it, and opens both again."""
    run = Play(name, maps)
    run.hear(
        f'open m {name}',
        STAMP,
        'undo',
        'show',
        'save first.tmj',
        'redo',
        'show',
        'save second.tmj',
        'status',
        'open again first.tmj',
        'show',
        'open third second.tmj',
        'show',
    )
    return run


def moving_run(name, maps):
    """Moves each object of a map, and turns all moves back."""
    run = Play(name, maps)
    run.hear(f'open m {name}')
    objects = objects_in(run.document.tree)
    for item in objects:
        # A number that it does not have counts as 0.
        run.hear(f'object move {item["id"]} {item.get("x", 0) + 3} {item.get("y", 0) - 5}')
    run.hear('goto 0', 'show', f'goto {len(objects)}', 'show')
    return run


def test_maps_that_are_saved():
    check_each(
        [saving_run(name, example_maps()) for name in example_maps() if name not in REFUSED],
        fault_of_run,
        CORES,
    )


def test_objects_that_are_moved():
    check_each(
        [moving_run(name, example_maps()) for name in example_maps() if name not in REFUSED],
        fault_of_run,
        CORES,
    )


def test_maps_that_are_refused():
    check_each([refused_run(name, example_maps()) for name in REFUSED], fault_of_run)
