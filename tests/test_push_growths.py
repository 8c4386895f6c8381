# SPDX-License-Identifier: MIT OR Apache-2.0
"""Refuses the growths of memory in the middle of a push one by one, and counts what lines ask for.
The growths of a push are told apart by counting those of a line:

The box: an edit whose command takes no memory when it is made, in a list with room, grows memory
once. The place: behind some numbers of steps, the same for each edit, the list has no room, and the
line grows memory once more; a push takes its place last. The merge: a line with a plus takes no
place, and still grows memory more often than the same line without the plus, which finds room; the
merge is last there, if its list has no room. A merge of moves grows none.

10,000 stamps must ask for as many bytes on a large map as on a small one, and their replies take
few writes; neither the end of a macro nor a refused beginning may grow memory."""
from lib.cases import CORES, Case, check_each, passed
from lib.growths import Refuser, Session

REFUSER = Refuser({})


def stamp_of(word, column, row, side):
    """A stamp of so many columns and rows."""
    tiles = b','.join([b'5'] * (side * side))
    return b'%s 1 %d %d %d %s' % (word, column, row, side, tiles)


# A document with something of each kind to edit.
BEGUN = [
    b'new town 4 3 16 16 town.tsj',
    b'stamp 1 0 0 4 1,2,3,4',
    b'layer add object Things',
    b'object add 2 0 0 8 8 door',
    b'prop set map kind string wall',
    b'tileset add 100 x.tsj',
]
# Edits whose commands take no memory when they are made, and all others.
LEAN = [
    b'layer remove 2',
    b'layer move 2 0',
    b'layer show 2 no',
    b'object move 1 5 5',
    b'object resize 1 9 9',
    b'object remove 1',
    b'prop remove map kind',
    b'tileset remove 100',
]
OTHERS = [
    b'stamp 1 0 0 2 5,6',
    b'erase 1 0 0 2 2',
    b'fill 1 0 0 7',
    b'select replace 0 0 2 2',
    b'layer add tile Top',
    b'layer rename 1 Base',
    b'resize 5 4 1 1',
    b'object add 2 1 1 1 1 key',
    b'prop set map kind string door',
    b'tileset add 200 y.tsj',
]
# An edit that merges with the one in front of it, and how many growths its merge may take. A list
# of several cells has room for nine.
MERGES = [
    (b'stamp 1 0 0 3 5,5,5,5,5,5,5,5,5', b'stamp+ 1 3 0 1 6,7', {1}),
    (b'stamp 1 0 0 4 5,5,5,5', b'stamp+ 1 1 0 2 0,6', {0}),
    (b'erase 1 0 0 1 1', b'erase+ 1 1 0 1 1', {1}),
    (b'prop set map kind string door', b'prop set+ map kind string gate', {1, 2}),
]
# A stroke of 4,096 cells, and lines that merge into it in turn: a list of more has room for whole
# 4,096, so the third of them finds some.
LARGE = [b'new town 128 128 16 16 town.tsj', stamp_of(b'stamp', 0, 0, 64)]
LARGE_MERGES = [
    (stamp_of(b'stamp+', 64, 0, 64), {1}),
    (stamp_of(b'stamp+', 0, 64, 1), {1}),
    (stamp_of(b'stamp+', 1, 64, 1), {0}),
]
# Steps that fill a list, one that waits to be made again, two levels, and what is looked at behind
# a push.
STEPS = [b'layer show 1 no', b'layer show 1 yes'] * 4
UNDONE = [b'layer show 1 no', b'undo']
LEVELS = [b'begin M', b'begin N']
BEHIND = [b'end', b'end', b'redo', b'show', b'undo', b'undo', b'show']


def growths(lines):
    """How many growths a session of these lines has."""
    return REFUSER.count(b'growths', lines)


def see_push(before, line, last=1):
    """Sees that where the last growths of a line are refused in turn, that line has no memory, and
    the session goes on without it."""
    count = growths(before + [line])
    session = Session('a push', REFUSER, before + [line] + BEHIND)
    for growth in range(count - last + 1, count + 1):
        is_of_line = session.refused_at(growth) == len(before)
        session.see(is_of_line, growth, f'it is none of {line!r}')
        passed()


def cases_of(befores, lines, wanted=None):
    return [
        Case(f'{line.decode()} behind {before[-1].decode()}', (before, line), wanted)
        for before in befores
        for line in lines
    ]


def test_the_box_of_each_lean_edit():
    """Below a step that waits to be made again, and in a level."""

    def see_box(case):
        before, line = case.given
        count = REFUSER.more(b'growths', before, [line])
        assert count == case.wanted, f'it grows memory {count} times, and not once'
        see_push(before, line)

    check_each(cases_of((BEGUN + UNDONE, BEGUN + LEVELS + STEPS[:1]), LEAN, 1), see_box, CORES)


def test_the_growths_of_merges():
    """Below a step that waits to be made again, and in a level."""

    def see_merge(case):
        before, line = case.given
        count = growths(before + [line]) - growths(before + [line.replace(b'+', b'')])
        assert count in case.wanted, f'the merge takes {count} growths'
        see_push(before, line, count)

    cases = []
    for first, line, counts in MERGES:
        befores = (BEGUN + [first] + UNDONE, BEGUN + LEVELS + [first])
        cases += cases_of(befores, [line], counts)
    before = LARGE
    for line, counts in LARGE_MERGES:
        cases += cases_of([before], [line], counts)
        before = before + [line]
    check_each(cases, see_merge, CORES)


def test_the_growths_of_a_merge_of_moves():
    """It takes none beside the box."""
    for before in (BEGUN, BEGUN + LEVELS):
        lines = before + [b'object move 1 5 5']
        count = REFUSER.more(b'growths', lines, [b'object move+ 1 6 6'])
        assert count == 1, f'it grows memory {count} times, and not once'
        passed()


def check_places(before):
    """Refuses the place of each edit wherever the list has no room, before some steps or none."""
    numbers = range(len(STEPS) + 1)
    plain = [growths(before + STEPS[:n]) for n in numbers]
    without_room = set()

    def see_place(case):
        line = case.given
        asked = [growths(before + STEPS[:n] + [line]) - plain[n] for n in numbers]
        full = [n for n in numbers if asked[n] == min(asked) + 1]
        is_right = full and all(asked[n] == min(asked) for n in numbers if n not in full)
        assert is_right, f'{asked} growths behind 0, 1 .. steps'
        without_room.add(tuple(full))
        for n in full:
            see_push(before + STEPS[:n], line)

    check_each([Case(line.decode(), line, None) for line in LEAN + OTHERS], see_place, CORES)
    assert len(without_room) == 1, f'there is no room behind {without_room} steps'


def test_the_place_in_the_list_of_steps():
    check_places(BEGUN)


def test_the_place_in_the_innermost_level():
    check_places(BEGUN + LEVELS)


def test_the_memory_of_stamps():
    """10,000 stamps of one cell ask for no more bytes on a large map than on a small one, and their
    replies for few writes: each takes many replies with it where the program need not wait for
    input."""
    stamps = [b'stamp 1 %d %d 1 %d' % (i % 4, i // 4 % 4, i % 9 + 1) for i in range(10000)]
    small, large = ([b'new town %d %d 16 16 town.tsj' % (side, side)] for side in (4, 1024))
    asked, asked_large = (REFUSER.more(b'bytes', new, stamps) for new in (small, large))
    assert (
        asked == asked_large
    ), f'they ask for {asked} bytes on 4 by 4 cells, and for {asked_large} on 1,024 by 1,024'
    passed()
    writes = REFUSER.more(b'writes', small, stamps)
    assert 0 < writes < 100, f'the replies take {writes} writes'
    passed()


def test_macros_that_end():
    """Neither an `end` grows memory, nor a `begin` that is too deep."""
    begun = [b'new a 4 4 1 1 s'] + [b'begin x', b'stamp 1 0 0 1 5', b'stamp 1 0 0 1 6'] * 64
    for lines in ([b'end'] * 64, [b'begin x'] * 100):
        more = REFUSER.more(b'growths', begun, lines)
        assert more == 0, f'{lines[0]!r} grows memory {more} times'
        passed()
