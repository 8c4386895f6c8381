# SPDX-License-Identifier: MIT OR Apache-2.0
"""Refuses each growth of memory of some tests in turn, those of stacks in crates/library_tests,
which `rt ci` has built. Whichever it is, the test must end well: it looks at what a refused call
leaves, and ends early where what it makes for itself is refused. native/interpose.c refuses the
growths."""
import os
import subprocess

from lib.cases import CORES, Case, check_each, passed, skip
from lib.growths import count_of, refusing
from lib.places import TOP

TESTS = TOP / 'crates' / 'library_tests' / 'out' / 'library_tests_tests'
# Each test, and how many growths it has at least.
REFUSED = [
    # The document, the command in its box, and the stack's room.
    Case('a refused push leaves a new stack', 'stacks::refused_push_leaves_a_new_stack', 5),
    Case('a refused push leaves the step above', 'stacks::refused_push_leaves_the_step_above', 8),
    # The document, both commands in their boxes, the stack's room, the macro's two texts, its box
    # and its place, and at last that of the command in it.
    Case('a refused push leaves a macro', 'stacks::refused_push_leaves_a_macro', 9),
    # The document, the command in its box, and for each of three macros its two texts, its box and
    # its places.
    Case(
        'a refused growth leaves macros that end',
        'stacks::refused_growth_leaves_macros_that_end',
        15,
    ),
    # The document, both stamps, the stack's room, and the merge.
    Case(
        'a refused merge turns the newer paint back',
        'counted_paints::refused_merge_turns_the_newer_paint_back',
        8,
    ),
]


def run(test, growth):
    """Runs a test with a growth refused, or none for 0."""
    env = {**os.environ, **refusing(growth)}
    return subprocess.run(
        [TESTS, test], env=env, stdout=subprocess.DEVNULL, stderr=subprocess.PIPE, timeout=60
    )


def fault_of(case):
    whole = run(case.given, 0)
    growths = count_of(b'growths', whole) if whole.returncode == 0 else 0
    if growths < case.wanted:
        told = whole.stderr.decode()[-300:]
        return f'it has only {growths} growths, status {whole.returncode}: {told}'
    for growth in range(1, growths + 1):
        done = run(case.given, growth)
        if done.returncode != 0:
            return (
                f'it does not end well with growth {growth} refused: {done.stderr.decode()[-300:]}'
            )
    passed(growths)
    return None


def test_each_growth_of_tests():
    if not os.access(TESTS, os.X_OK):
        skip('no build of the tests of library_tests: `rt ci` makes it')
    check_each(REFUSED, fault_of, CORES)
