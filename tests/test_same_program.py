# SPDX-License-Identifier: MIT OR Apache-2.0
"""Compares the programs in `bin/`, which `./tile_editor` and `./map_report` run, with those that
`rt ci` has proved and built, byte for byte. If a program has changed, look at the change and copy
it: `cp crates/NAME/out/NAME bin/NAME`."""
from lib.cases import Case, check_each, skip
from lib.places import BIN, TOP, built

PROGRAMS = ('tile_editor', 'map_report')


def fault_of(case):
    is_same = case.given.read_bytes() == case.wanted.read_bytes()
    return (
        None
        if is_same
        else f'not the program that was proved: cp {case.wanted.relative_to(TOP)} bin/{case.name}'
    )


def test_programs():
    missing = [name for name in PROGRAMS if not built(name).exists()]
    if missing:
        skip(f'no build of {", ".join(missing)}: `rt ci` makes it')
    check_each([Case(name, BIN / name, built(name)) for name in PROGRAMS], fault_of)
