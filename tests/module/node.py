# SPDX-License-Identifier: MIT OR Apache-2.0
"""Runs scripts in Node."""
import json
import shutil
import subprocess

from lib.places import TESTS, TOP


def ran(script, *words, options=(), timeout=600):
    """What a script of tests/module prints. It must end well."""
    done = subprocess.run(
        [shutil.which('node'), *options, TESTS / 'module' / script, *words],
        cwd=TOP,
        capture_output=True,
        text=True,
        timeout=timeout,
    )
    assert done.returncode == 0, f'{script}: status {done.returncode}: {done.stderr[-3000:]}'
    return done.stdout


def checked(address, *options):
    """What came of each check of checks.mjs."""
    return json.loads(ran('checks.mjs', address, options=options))
