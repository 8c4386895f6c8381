# SPDX-License-Identifier: MIT OR Apache-2.0
"""Builds the C files of tests/native, each once in a run of the tests."""
import atexit
import hashlib
import os
import shutil
import subprocess
import tempfile
from pathlib import Path

from lib.places import NATIVE, TOP

# The folder of what is built, which the runner makes for all steps.
FOLDER = 'ROSKEVAD_TESTS_BUILT'


def folder():
    """The folder of what is built; one of this process alone where no runner has made one."""
    if FOLDER not in os.environ:
        os.environ[FOLDER] = tempfile.mkdtemp(prefix='roskevad_tests_')
        atexit.register(shutil.rmtree, os.environ[FOLDER], ignore_errors=True)
    return Path(os.environ[FOLDER])


def compiled(words, source, *behind):
    """What the C compiler makes of a source: a file named by the words and the source's bytes."""
    said = ' '.join(map(str, [*words, source, *behind])).encode()
    goal = folder() / f'{source.stem}_{hashlib.sha256(said + source.read_bytes()).hexdigest()[:16]}'
    if not goal.exists():
        # Two steps may build it at once: each builds its own, and the last one stays.
        with tempfile.TemporaryDirectory(dir=folder()) as own:
            subprocess.run(
                ['cc', *words, source, *behind, '-o', f'{own}/made'], check=True, cwd=TOP
            )
            os.replace(f'{own}/made', goal)
    return goal


def interposed(name='interpose.c'):
    """A library that stands between a program and the C library, for LD_PRELOAD."""
    return str(compiled(['-O2', '-Wall', '-shared', '-fPIC'], NATIVE / name))


def c_program(source, *words):
    """A program in C over the library of the repository."""
    return compiled(['-O1', '-Wall', '-Wextra', '-Iinclude', *words], source, 'lib/libroskevad.a')
