# SPDX-License-Identifier: MIT OR Apache-2.0
"""Runs a command, and tells what came of it."""
import subprocess

from lib.places import TOP


def came_of(words, folder=TOP, **more):
    """The exit status of a command in a folder, and the texts that it writes on both outputs."""
    options = {'stdin': subprocess.DEVNULL, 'capture_output': True, 'timeout': 300, **more}
    done = subprocess.run(words, cwd=folder, **options)
    return done.returncode, done.stdout.decode(), done.stderr.decode()


def first_lines(words, folder=TOP, **more):
    """The exit status of a command in a folder, and the first line on each output."""
    status, output, errors = came_of(words, folder, **more)
    return status, output.partition('\n')[0], errors.partition('\n')[0]
