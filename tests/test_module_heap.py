# SPDX-License-Identifier: MIT OR Apache-2.0
"""Tries the heap of the module, `crates/roskevad_c/module_heap/heap.c`, by random calls in this
machine's own code, also where memory ends. Each block keeps its bytes; and when all is freed, the
whole memory is one free block."""
import subprocess

from lib.cases import Case, check_each
from lib.native import compiled
from lib.places import NATIVE

SANITIZED = ['-fsanitize=undefined', '-fno-sanitize-recover=all', '-g']
# The module's memory lies below 4 GiB, and that of the program must, too.
PLACED = ['-no-pie', '-Wl,--defsym=__heap_base=0x60000123']
# A seed, how many calls, and how many pages there are.
RUNS = [('1', '200000', '32768'), ('2', '200000', '1000'), ('3', '200000', '200'), ('4', '9', '1')]


def fault_of(case):
    words = ['-O1', '-Wall', '-Wextra', '-Wno-attributes', *SANITIZED, *PLACED]
    program = compiled(words, NATIVE / 'heap_calls.c')
    done = subprocess.run([program, *case.given], capture_output=True, text=True)
    return None if done.returncode == 0 else f'status {done.returncode}: {done.stderr[-2000:]}'


def test_random_calls():
    check_each([Case(f'seed {run[0]}', run, None) for run in RUNS], fault_of)
