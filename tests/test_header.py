# SPDX-License-Identifier: MIT OR Apache-2.0
"""Compiles a use of each name of `include/roskevad.h` in each standard of C and C++ that the
compilers here have, with the warnings that strict projects turn on: there are none."""
import re
import shutil
import subprocess

from lib.cases import Case, check_each
from lib.places import NATIVE, TOP

HEADER = (TOP / 'include' / 'roskevad.h').read_text()
USE = NATIVE / 'header_use.c'
# The structs of whose fields the use reads each.
READ = {'roskevad_sizes', 'roskevad_layer_row', 'roskevad_status', 'roskevad_faulty_word', 'roskevad_told', 'roskevad_step_row'}
BOTH = [
    '-Wall',
    '-Wextra',
    '-Wcast-qual',
    '-Wconversion',
    '-pedantic',
    '-Werror',
    '-Iinclude',
    '-fsyntax-only',
]
OF_CXX = ['-xc++', '-Wold-style-cast', '-Wzero-as-null-pointer-constant']
STANDARDS = {
    ('cc', 'clang'): ('c99', 'c11', 'c17', 'c2x'),
    ('c++', 'clang++'): ('c++98', 'c++03', 'c++11', 'c++14', 'c++17', 'c++20', 'c++2b'),
}


def knows(compiler, standard):
    language = 'c++' if '++' in standard else 'c'
    words = [compiler, f'-std={standard}', f'-x{language}', '-fsyntax-only', '-']
    return subprocess.run(words, input=b'', capture_output=True).returncode == 0


def compilers():
    """Each compiler here, with each standard that it knows."""
    return [
        (compiler, standard)
        for names, standards in STANDARDS.items()
        for compiler in filter(shutil.which, names)
        for standard in standards
        if knows(compiler, standard)
    ]


def fault_of_use(case):
    compiler, standard = case.given
    words = [compiler, f'-std={standard}', *BOTH, *(OF_CXX if '++' in standard else []), USE]
    done = subprocess.run(words, cwd=TOP, capture_output=True, text=True)
    return done.stderr[:1500] or None


def test_warnings():
    cases = [
        Case(f'{compiler} -std={standard}', (compiler, standard), None)
        for compiler, standard in compilers()
    ]
    assert {case.given[1] for case in cases} >= {'c99', 'c++98', 'c++20'}, cases
    check_each(cases, fault_of_use)


def test_each_name_is_used():
    """By the file that is compiled."""
    use = USE.read_text()
    names = re.findall(
        r'^static inline size_t (roskevad_editor_\w+)|^#define (ROSKEVAD_\w+) ',
        HEADER,
        re.MULTILINE,
    )
    left = [name for pair in names for name in pair if name and not is_used(name, use)]
    assert names and left == [], f'{USE.name} does not use {left}'


def is_used(name, use):
    return re.search(rf'\b{name}\b', use) is not None


def test_each_struct_is_used():
    """With all of its fields, where they are the caller's to read."""
    use = USE.read_text()
    structs = re.findall(
        r'^typedef struct (\w+) \{\n(.*?)^\} \1;', HEADER, re.MULTILINE | re.DOTALL
    )
    left = [name for name, _ in structs if not is_used(name, use)]
    left += [
        f'{name}.{field}'
        for name, fields in structs
        for field in re.findall(r'^    \w+ (\w+);', fields, re.MULTILINE)
        if name in READ and not re.search(rf'\.{field}\b', use)
    ]
    assert {name for name, _ in structs} >= READ and left == [], f'{USE.name} does not use {left}'
