# SPDX-License-Identifier: MIT OR Apache-2.0
"""Sees that an edit asks for memory for what it changes, however many layers stand beside that. Two
maps, one of 2 layers and one of 255, are alike in all else. Each is opened, once with the lines of
an edit behind that and once without: with them the session must ask for as many growths of memory
more, and as many bytes more, on the one map as on the other. A stack or a command that kept a copy
of the whole document, or of all its layers, must fail this. That `show` asks for more on the larger
map shows that a copy would be seen."""
from lib.cases import Case, check_each, passed, unlike
from lib.growths import Refuser
from lib.maps import map_of, text_of, thing, things, tiles

SIDE = 8
FEW, MANY = 2, 255
OPEN = [b'open m m.tmj']
# Each ends with one step that is made.
EDITS = [
    [b'stamp 1 0 0 2 5,6'],
    [b'erase 1 0 0 4 4'],
    [b'fill 1 0 0 7'],
    [b'select replace 0 0 2 2'],
    [b'layer add tile Top'],
    [b'layer rename 1 Base'],
    [b'object add 2 1 1 8 8 key'],
    [b'prop set map goal int 5'],
    [b'tileset add 100 x.tsj'],
    [b'stamp 1 0 0 2 5,6', b'stamp+ 1 1 0 2 7,8'],
    [b'stamp 1 0 0 2 5,6', b'undo', b'redo'],
    [b'begin M', b'stamp 1 0 0 2 5,6', b'end'],
]


def layer(number):
    return tiles(number, SIDE, SIDE, data=[number % 100 + 1] * (SIDE * SIDE))


def map_with(layers):
    """The file of a map with so many layers, the second of which holds an object."""
    others = [layer(number) for number in range(3, layers + 1)]
    return text_of(
        map_of(
            layer(1),
            things(2, thing(1, name='door')),
            *others,
            width=SIDE,
            height=SIDE,
            nextlayerid=MANY + 1,
            nextobjectid=MANY + 1,
        )
    )


REFUSERS = [Refuser({'m.tmj': map_with(layers)}) for layers in (FEW, MANY)]


def asked(refuser, lines):
    """How many growths and bytes some lines ask for behind the opening of the map."""
    return tuple(refuser.more(what, OPEN, lines) for what in (b'growths', b'bytes'))


def fault_of(case):
    for refuser in REFUSERS:
        replies = refuser.heard(OPEN + case.given)[0].stdout.split(b'\n')[:-1]
        fault = unlike((len(case.given) + 1, case.wanted), (len(replies), replies[-1]))
        if fault:
            return fault
    few, many = (asked(refuser, case.given) for refuser in REFUSERS)
    return (
        None
        if few == many
        else f'{few} growths and bytes with {FEW} layers, and {many} with {MANY}'
    )


def test_an_edit_asks_for_what_it_changes():
    check_each(
        [Case(b'; '.join(lines).decode(), lines, b'ok 1/1 dirty 0') for lines in EDITS], fault_of
    )


def test_show_asks_for_the_whole_map():
    few, many = (asked(refuser, [b'show']) for refuser in REFUSERS)
    assert (
        few < many
    ), f'`show` asks for {few} growths and bytes with {FEW} layers, and for {many} with {MANY}'
    passed()
