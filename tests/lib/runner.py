# SPDX-License-Identifier: MIT OR Apache-2.0
"""Finds the steps of the tests and runs them, side by side where they may.

A step is a file `tests/test_NAME.py`. Each of its functions `test_..`, and each such method of its
classes `Test..`, is a test: it passes if it raises nothing, and is left out if it raises
`unittest.SkipTest`. A step's docstring says in its first sentence what it tests. Its file may also
say

    ALONE = True            it times something or bounds memory, so no other step runs beside it
    IS_LONG = True          it is among the first that start
    NEEDS_BROWSER = True    it needs Chromium, its driver and selenium
    PACKAGES = (..)         it needs these packages of Debian, beside Python

Each step runs in a process of its own, in which `run_step` writes what came of it. What a step has
started and left, as a browser, is ended with it; and so is each step where the run is stopped, by
Ctrl+C or by a signal."""
import argparse
import ast
import contextlib
import importlib
import inspect
import json
import os
import signal
import subprocess
import sys
import tempfile
import threading
import time
import traceback
import unittest
from concurrent.futures import ThreadPoolExecutor
from dataclasses import asdict, dataclass, field
from pathlib import Path

from lib import cases, native, packages
from lib.places import GATE, TESTS, TOP

RUN = TESTS / 'run'


@dataclass(frozen=True)
class Step:
    """A file of tests, as it stands: it is not loaded."""

    name: str
    about: str
    is_alone: bool
    is_long: bool
    packages: tuple


@dataclass
class Outcome:
    """What came of a step: how many tests passed and failed, those that were left out with the
    reasons, how many checks passed in them all, and what was told."""

    passed: int = 0
    failed: int = 0
    skipped: list = field(default_factory=list)
    checks: int = 0
    told: str = ''


# ---- which steps there are


def read_step(path):
    """What a step's file says of it."""
    tree = ast.parse(path.read_text())
    said = {
        each.targets[0].id: each.value
        for each in tree.body
        if isinstance(each, ast.Assign) and isinstance(each.targets[0], ast.Name)
    }

    def is_set(name):
        return name in said and ast.literal_eval(said[name]) is True

    needed = ast.literal_eval(said['PACKAGES']) if 'PACKAGES' in said else ()
    about = ' '.join((ast.get_docstring(tree) or '').partition('\n\n')[0].split())
    first = about.partition('. ')[0].rstrip('.:') + '.'
    return Step(
        path.stem[len('test_') :],
        first,
        is_set('ALONE'),
        is_set('IS_LONG'),
        (*(packages.BROWSER if is_set('NEEDS_BROWSER') else ()), *needed),
    )


def all_steps():
    return [read_step(path) for path in sorted(TESTS.glob('test_*.py'))]


# ---- one step, in its own process


def tests_of(module):
    """The tests of a module by name, in the order of the file."""
    for name, value in list(vars(module).items()):
        if name.startswith('test_') and inspect.isfunction(value):
            yield name, value
        elif name.startswith('Test') and inspect.isclass(value):
            for method in (each for each in vars(value) if each.startswith('test_')):
                yield f'{name}.{method}', getattr(value(), method)


def last_line_of_test(fault):
    """The line of a step's file from which a fault came."""
    lines = traceback.extract_tb(fault.__traceback__)
    return [line for line in lines if Path(line.filename).name.startswith('test_')][-1]


def run_test(name, test, outcome):
    """Runs one test and notes what came of it. A test that counts no checks of its own is one."""
    before = cases.passed_so_far()
    try:
        test()
        outcome.passed += 1
        cases.passed(1 if cases.passed_so_far() == before else 0)
    except unittest.SkipTest as reason:
        outcome.skipped.append(f'{name}: {reason}')
    except AssertionError as fault:
        outcome.failed += 1
        where = last_line_of_test(fault)
        print(f'{name} ({Path(where.filename).name}, line {where.lineno}): {fault or where.line}')
    except Exception:
        outcome.failed += 1
        print(f'{name}: {traceback.format_exc()}')


def run_step(name, file):
    """Runs the tests of a step, prints their faults, and writes what came of it into a file."""
    outcome = Outcome()
    module = importlib.import_module(f'test_{name}')
    for each, test in tests_of(module):
        run_test(each, test, outcome)
    outcome.checks = cases.passed_so_far()
    if not outcome.passed + outcome.failed + len(outcome.skipped):
        outcome.failed = 1
        print('it has no tests')
    Path(file).write_text(json.dumps(asdict(outcome)))


# ---- all steps

# How many seconds a step has to end, where the run is stopped.
GRACE = 10


def send_to_all(process, number):
    """Sends a signal to a step and to all that it has started."""
    with contextlib.suppress(ProcessLookupError):
        os.killpg(process.pid, number)


def interrupt(number, frame):
    raise KeyboardInterrupt


class Runner:
    """Runs steps, tells what came of each as it ends, and adds it up."""

    def __init__(self, folder, is_gate):
        self.folder, self.is_gate = Path(folder), is_gate
        self.tells = threading.Lock()
        self.outcomes, self.running = {}, set()
        self.env = {
            **os.environ,
            native.FOLDER: folder,
            GATE: '1' if is_gate else '0',
            'PYTHONDONTWRITEBYTECODE': '1',
        }

    def run_all(self, steps):
        """Runs the steps, those that may in as many workers as there are cores, and then the others
        one by one."""
        beside = sorted(
            (step for step in steps if not step.is_alone), key=lambda step: not step.is_long
        )
        pool = ThreadPoolExecutor(cases.CORES)
        try:
            list(pool.map(self.run, beside))
            for step in steps:
                if step.is_alone:
                    self.run(step)
        except KeyboardInterrupt:
            pool.shutdown(wait=False, cancel_futures=True)
            self.stop()
            raise
        pool.shutdown()

    def stop(self):
        """Ends the steps that run, and what they have started: they may put things in order before."""
        running = list(self.running)
        for process in running:
            send_to_all(process, signal.SIGINT)
        until = time.monotonic() + GRACE
        while time.monotonic() < until and any(process.poll() is None for process in running):
            time.sleep(0.1)
        for process in running:
            send_to_all(process, signal.SIGKILL)

    def run(self, step):
        """Runs a step in a process of its own."""
        began = time.monotonic()
        outcome = self.came_of(step)
        if self.is_gate and outcome.skipped:
            outcome.failed += len(outcome.skipped)
            outcome.told += ''.join(
                f'left out, which the gate does not allow: {each}\n' for each in outcome.skipped
            )
            outcome.skipped = []
        self.outcomes[step.name] = outcome
        self.tell(step, outcome, time.monotonic() - began)

    def came_of(self, step):
        missing = packages.missing(step.packages)
        if missing:
            told = f'missing are of Debian\'s packages: {", ".join(missing)}\n'
            return Outcome(failed=1, told=told)
        file = self.folder / f'{step.name}.json'
        process = subprocess.Popen(
            [packages.python(step.packages), RUN, '--step', step.name, '--outcome', file],
            env=self.env,
            cwd=TOP,
            text=True,
            stdin=subprocess.DEVNULL,
            stdout=subprocess.PIPE,
            stderr=subprocess.STDOUT,
            errors='replace',
            start_new_session=True,
        )
        self.running.add(process)
        told, _ = process.communicate()
        self.running.discard(process)
        send_to_all(process, signal.SIGKILL)
        if not file.exists():
            return Outcome(
                failed=1, told=f'{told}the step ended with status {process.returncode}\n'
            )
        outcome = Outcome(**json.loads(file.read_text()))
        outcome.told = told
        return outcome

    def tell(self, step, outcome, seconds):
        word = 'FAILED' if outcome.failed else 'skipped' if not outcome.passed else 'passed'
        tests = outcome.passed + outcome.failed + len(outcome.skipped)
        counts = f'{outcome.passed} of {tests} tests, {outcome.checks} checks'
        left_out = [f'left out: {each}' for each in outcome.skipped]
        with self.tells:
            print(f'{step.name}: {word} in {seconds:.1f} s ({counts})')
            for line in outcome.told.splitlines() + left_out:
                print(f'    {line}')
            sys.stdout.flush()

    def end(self):
        """Prints how many tests passed, failed and were left out, and gives the exit status."""
        failing = sorted(name for name, outcome in self.outcomes.items() if outcome.failed)
        if failing:
            print(f'failed: {" ".join(failing)}')
        passed = sum(outcome.passed for outcome in self.outcomes.values())
        failed = sum(outcome.failed for outcome in self.outcomes.values())
        skipped = sum(len(outcome.skipped) for outcome in self.outcomes.values())
        print(f'{passed} passed, {failed} failed' + (f', {skipped} skipped' if skipped else ''))
        return 0 if passed and not failed else 1


def chosen(steps, names):
    """The steps of these names, or all; an unknown name ends the run."""
    unknown = sorted(set(names) - {step.name for step in steps})
    if unknown:
        there = ' '.join(step.name for step in steps)
        print(f'tests/run: no such step: {" ".join(unknown)}; there are {there}', file=sys.stderr)
        raise SystemExit(2)
    return [step for step in steps if not names or step.name in names]


def main(words):
    parser = argparse.ArgumentParser(
        prog='tests/run',
        description='Runs the tests of the repository, or those steps that are named.',
    )
    parser.add_argument('names', metavar='NAME', nargs='*', help='a step: tests/test_NAME.py')
    parser.add_argument('--list', action='store_true', help='lists the steps and what they test')
    parser.add_argument(
        '--gate',
        action='store_true',
        help='tries what `rt ci` has built, and fails where a test is left out',
    )
    parser.add_argument('--step', help=argparse.SUPPRESS)
    parser.add_argument('--outcome', help=argparse.SUPPRESS)
    said = parser.parse_args(words)
    # A shell has what it runs in the background ignore it, and what the tests start would too.
    signal.signal(signal.SIGINT, signal.default_int_handler)
    if said.step:
        run_step(said.step, said.outcome)
        return 0
    steps = chosen(all_steps(), said.names)
    if said.list:
        print(*(f'{step.name}: {step.about}' for step in steps), sep='\n')
        return 0
    for number in (signal.SIGTERM, signal.SIGHUP):
        signal.signal(number, interrupt)
    packages.install(package for step in steps for package in step.packages)
    with tempfile.TemporaryDirectory(prefix='roskevad_tests_') as folder:
        runner = Runner(folder, said.gate)
        try:
            runner.run_all(steps)
        except KeyboardInterrupt:
            print('tests/run: interrupted', file=sys.stderr)
            return 130
    return runner.end()
