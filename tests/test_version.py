# SPDX-License-Identifier: MIT OR Apache-2.0
"""Compares the version in the file VERSION with every place that names it: what the programs and
the Python package print, the header, the metadata of both packages, the page of the library, and
the newest heading of CHANGELOG.md, where that is there."""
import os
import re
import sys

from lib.cases import Case, check_each, unlike
from lib.commands import came_of
from lib.places import BIN, MAP_REPORT, TILE_EDITOR, TOP

VERSION = (TOP / 'VERSION').read_text().removesuffix('\n')
# A place in a file: what stands before the version there, and what behind.
IN_FILES = [
    Case('the header', 'include/roskevad.h', r'ROSKEVAD_VERSION "(.*)"'),
    Case('the page of the library', 'docs/library.md', r'libroskevad\.so\.(\d[\d.]*\d)'),
    Case('the Python project', 'python/pyproject.toml', r'(?m)^version = "(.*)"'),
    Case('the package for JavaScript', 'js/package.json', r'(?m)^  "version": "(.*)"'),
    Case('its code', 'js/module.js', r'VERSION = "(.*)"'),
]


def printed(*words):
    return came_of(words, env={**os.environ, 'PYTHONPATH': str(TOP / 'python')})


def fault_of_file(case):
    found = re.findall(case.wanted, (TOP / case.given).read_text())
    return unlike([VERSION], sorted(set(found)))


def test_the_file():
    assert re.fullmatch(r'\d+\.\d+\.\d+', VERSION), f'VERSION has {VERSION!r}'


def test_what_is_printed():
    """By the programs that are tried, those in `bin/`, and the page's server."""
    programs = sorted({TILE_EDITOR, MAP_REPORT, BIN / 'tile_editor', BIN / 'map_report'})
    cases = [
        Case(f'{path.relative_to(TOP)} --version', [path], (0, f'{path.name} {VERSION}\n', ''))
        for path in programs
    ]
    page = Case(
        'roskevad.page --version',
        [sys.executable, '-m', 'roskevad.page'],
        (0, f'roskevad {VERSION}\n', ''),
    )
    check_each([*cases, page], lambda case: unlike(case.wanted, printed(*case.given, '--version')))


def test_files_that_name_it():
    check_each(IN_FILES, fault_of_file)


def test_the_python_package():
    code = 'import roskevad; print(roskevad.__version__)'
    fault = unlike((0, f'{VERSION}\n', ''), printed(sys.executable, '-c', code))
    assert not fault, f'roskevad.__version__: {fault}'


def test_the_newest_heading_of_the_changes():
    page = TOP / 'CHANGELOG.md'
    if page.exists():
        headings = re.findall(r'(?m)^## .*?(\d+\.\d+\.\d+)', page.read_text())
        assert headings[:1] == [VERSION], f'CHANGELOG.md: wanted {VERSION}, came {headings[:1]}'
