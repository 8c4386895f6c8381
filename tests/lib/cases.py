# SPDX-License-Identifier: MIT OR Apache-2.0
"""How a test writes its cases, looks at each, and tells all that are at fault.

A case has a name, what is given to the program, and what must come of it. A test passes its cases
to `check_each` with a function that gives what is wrong in one, as text, or None, or raises it:

    def fault_of(case):
        return unlike(case.wanted, program(case.given))

    def test_words():
        check_each([Case('undo', 'undo', 'no 10 no active document')], fault_of)
"""
import os
import threading
import traceback
import unittest
from concurrent.futures import ProcessPoolExecutor, ThreadPoolExecutor
from dataclasses import dataclass
from multiprocessing import get_context
from typing import Any

CORES = len(os.sched_getaffinity(0))
# So many faults of a test are told, and so many characters of what is given.
MOST_FAULTS, MOST_SHOWN = 20, 400

_passed = 0
_counts = threading.Lock()
# What `check_in_processes` hands on to its processes.
_shared = None


@dataclass(frozen=True)
class Case:
    """A name, what is given, and what must come."""

    name: str
    given: Any
    wanted: Any


def passed(count=1):
    """Counts checks that have passed, for the runner to tell."""
    global _passed
    with _counts:
        _passed += count


def passed_so_far():
    return _passed


def skip(reason):
    """Leaves a test out; in the gate that is a failure."""
    raise unittest.SkipTest(reason)


def shown(value):
    """A value in a message, cut where it is long."""
    text = value if isinstance(value, str) else repr(value)
    return text if len(text) <= MOST_SHOWN else f'{text[:MOST_SHOWN]}.. ({len(text)} characters)'


def unlike(wanted, came):
    """How what came differs from what was wanted, or None."""
    return None if wanted == came else f'wanted {shown(wanted)}\n    came {shown(came)}'


def see(wanted, came):
    """That what came is what was wanted."""
    fault = unlike(wanted, came)
    assert not fault, fault


def told(case, fault):
    """A case at fault: its name, what was given, and the fault."""
    given = f'\n    given {shown(case.given)}' if isinstance(case, Case) else ''
    return f'{case.name}{given}\n    {fault}'


def in_processes(function, items, chunk=1):
    """What a function of a module gives for each item, in processes side by side. They know what
    this one knew before."""
    with ProcessPoolExecutor(CORES, mp_context=get_context('fork')) as pool:
        return list(pool.map(function, items, chunksize=chunk))


def fault_in(case, fault_of):
    """What is wrong in a case, or None. What it raises is wrong with it, too."""
    try:
        return fault_of(case)
    except AssertionError as fault:
        return str(fault) or traceback.format_exc()
    except Exception as fault:
        return f'{fault}\n{traceback.format_exc()}'


def check_each(cases, fault_of, workers=1):
    """Looks at each case, several at once where there are workers, counts them, and fails with all
    that are at fault."""
    cases = list(cases)
    if workers == 1:
        faults = [fault_in(case, fault_of) for case in cases]
    else:
        with ThreadPoolExecutor(workers) as pool:
            faults = list(pool.map(lambda case: fault_in(case, fault_of), cases))
    see_faults(cases, faults)


def check_in_processes(cases, fault_of):
    """The same in processes, for what takes this process's time. The function counts no checks of
    its own there."""
    global _shared
    _shared = list(cases), fault_of
    see_faults(_shared[0], in_processes(fault_at, range(len(_shared[0]))))


def fault_at(place):
    cases, fault_of = _shared
    return fault_in(cases[place], fault_of)


def see_faults(cases, faults):
    """Counts the cases that have no fault, and fails with the others."""
    assert cases, 'there are no cases'
    wrong = [told(case, fault) for case, fault in zip(cases, faults) if fault]
    passed(len(cases) - len(wrong))
    fail_with(wrong)


def fail_with(faults):
    """Fails with these faults, if there are any."""
    faults = list(faults)
    more = [f'and {len(faults) - MOST_FAULTS} more'] if len(faults) > MOST_FAULTS else []
    if faults:
        raise AssertionError('\n'.join([f'{len(faults)} at fault:', *faults[:MOST_FAULTS], *more]))


def raised(kind, call, *words):
    """The exception of a kind that a call raises."""
    try:
        call(*words)
    except kind as fault:
        return fault
    raise AssertionError(f'{call} has not raised {kind}')
