# SPDX-License-Identifier: MIT OR Apache-2.0
"""Sees how the pages are laid out: each line of a page has at most 100 characters, but for rows of
tables, lines of blocks of code, and lines that are one link or one address; and each row of a table
has as many cells as its head. A line of a definition, a proof or a Python file has at most 164
characters."""
import re

from lib.cases import check_each
from lib.pages import ROW, Page
from lib.places import tracked

MOST = 100
MOST_OF_CODE = 164
# One link or one address, perhaps as an entry of a list.
ONE_LINK = re.compile(r'\s*(?:[-*] |\d+\. )?(?:!?\[[^\]]*\]\([^)]*\)|<?https?://\S+>?)[.,;:]?')


def pages():
    return [Page(path) for path in tracked('*.md')]


def text_lines(page):
    """The lines of a page that are in no block of code, fenced or indented, with their numbers."""
    is_fenced = False
    for number, line in enumerate(page.text.split('\n'), 1):
        if re.match(r'\s*(```|~~~)', line):
            is_fenced = not is_fenced
        elif not is_fenced and not line.startswith('    '):
            yield number, line


def is_row(line):
    return line.lstrip().startswith('|')


def fault_of_widths(page):
    wide = [
        f'line {number}: {len(line)} characters: {line[:60]}..'
        for number, line in text_lines(page)
        if len(line) > MOST and not is_row(line) and not ONE_LINK.fullmatch(line)
    ]
    return '\n    '.join(wide) or None


def fault_of_rows(page):
    """The rows of tables that have more or fewer cells than their heads, or None."""
    head, wrong = None, []
    for number, line in text_lines(page):
        cells = len(ROW.split(line.strip())) - 2 if is_row(line) else None
        head = None if cells is None else head or cells
        if cells != head:
            wrong.append(f'line {number}: {cells} cells, and {head} in the head: {line[:60]}')
    return '\n    '.join(wrong) or None


def fault_of_code(path):
    lines = path.read_text(encoding='utf-8').split('\n')
    wide = [
        f'line {number}: {len(line)} characters: {line.strip()[:60]}..'
        for number, line in enumerate(lines, 1)
        if len(line) > MOST_OF_CODE
    ]
    return '\n    '.join(wide) or None


def test_widths_of_lines():
    check_each(pages(), fault_of_widths)


def test_cells_of_tables():
    check_each(pages(), fault_of_rows)


def test_widths_of_proofs():
    check_each(tracked('*.antt'), fault_of_code)


def test_widths_of_scripts():
    check_each(tracked('*.py'), fault_of_code)
