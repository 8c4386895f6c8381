# SPDX-License-Identifier: MIT OR Apache-2.0
"""Sees that pyflakes3 finds nothing in the Python files, and shellcheck nothing in the shell scripts,
both as Debian has them: no import that nothing uses, no name that is not there, no word that the
shell takes apart. Each source outside `crates/` that takes comments names its licence, as
`tools/spdx` writes it."""
import re
import subprocess

from lib.cases import Case, check_each, fail_with
from lib.kit import tool
from lib.places import TOP, tracked

PACKAGES = ('pyflakes3', 'shellcheck')
SHELL = re.compile(rb'#!.*\b(?:ba)?sh\b')


def is_shell_script(path):
    return path.is_file() and not path.is_symlink() and SHELL.match(path.read_bytes()[:64])


def fault_of_linter(case):
    words = [case.given, *case.wanted]
    return subprocess.run(words, cwd=TOP, capture_output=True, text=True).stdout or None


def test_linters():
    scripts = [path for path in tracked('*') if is_shell_script(path)]
    check_each(
        [
            Case('pyflakes3', 'pyflakes3', tracked('*.py')),
            Case('shellcheck', 'shellcheck', scripts),
        ],
        fault_of_linter,
    )


def test_each_source_names_its_licence():
    fail_with(f'{path.relative_to(TOP)}: run tools/spdx' for path, _ in tool('spdx').missing())
