# SPDX-License-Identifier: MIT OR Apache-2.0
"""Refuses memory to the library at each growth in turn, while a program in C calls it: nothing is
lost, nothing leaks, and at last all is as where none is refused. native/library_calls.c makes the
calls, and makes one again for which there was no memory; native/interpose.c refuses."""
import subprocess

from lib.cases import CORES, Case, check_each, unlike
from lib.growths import count_of, refusing
from lib.native import c_program
from lib.places import NATIVE


def told(growth):
    """What the program does with a growth refused, or none for 0. Without a cache of a thread's
    own, a block that was freed counts as free."""
    env = {**refusing(growth), 'GLIBC_TUNABLES': 'glibc.malloc.tcache_count=0'}
    return subprocess.run(
        [c_program(NATIVE / 'library_calls.c'), 'script'], env=env, capture_output=True
    )


def fault_of(case):
    done = told(case.given)
    fault = unlike(case.wanted, (done.returncode, done.stdout))
    return fault and f'{fault}\n    {done.stderr[-300:]}'


def test_each_growth():
    whole = told(0)
    assert whole.returncode == 0, whole.stderr
    growths = range(1, count_of(b'growths', whole) + 1)
    check_each(
        [Case(f'growth {growth}', growth, (0, whole.stdout)) for growth in growths], fault_of, CORES
    )
