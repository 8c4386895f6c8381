# SPDX-License-Identifier: MIT OR Apache-2.0
"""Counts the blocks of memory behind each line, and sees that what a stack lets go of gives back
all that it owned, each once. That is a box, texts, layers, objects, properties, tilesets and cells:
each kind of edit is let go of in each way, and at once. native/blocks.c counts, and has a program
crash that uses what it gave back. Pushes that are refused for want of memory are in
`library_growths`.

A step that sets a member of a tileset holds that member, and not the tileset: bytes are counted
behind steps on one of half a million."""
import functools

from lib.cases import CORES, Case, check_each, passed, unlike
from lib.maps import map_of, text_of, tiles
from lib.native import interposed
from lib.sessions import heard

# A document with something of each kind to edit, no steps, and room for steps and macros.
BEGUN = [
    'new town 4 3 16 16 town.tsj',
    'stamp 1 0 0 4 1,2,3,4',
    'layer add object Things',
    'object add 2 0 0 8 8 door',
    'prop set object:1 key string of brass',
    'prop set layer:2 lit bool true',
    'prop set map kind string wall',
    'tileset add 100 x.tsj',
    *['begin M', 'begin M', 'begin M', 'end', 'end', 'end'],
    'clear',
]
EDITS = [
    'stamp 1 0 0 4 5,6,7,8',
    'erase 1 0 0 4 3',
    'fill 1 3 2 7',
    'select replace 0 0 2 2',
    'resize 5 4 1 1',
    'layer add tile Top',
    'layer add object More',
    'layer remove 1',
    'layer remove 2',
    'layer rename 1 Base',
    'layer show 2 no',
    'layer move 2 0',
    'object add 2 1 1 1 1 key',
    'object move 1 5 5',
    'object resize 1 9 9',
    'object remove 1',
    'prop set map kind string door',
    'prop set layer:2 other file door.png',
    'prop remove map kind',
    'prop remove object:1 key',
    'tileset add 200 y.tsj',
    'tileset remove 100',
]
# Another edit, which fits whatever was done.
PUSHED = 'prop set map more int 5'
CLOSED = 'discard town'
# Each way by which a stack lets go of the step that an edit is, `{}`. Behind it stand other lines
# that lead to the same map and the same steps: there must be as many blocks behind both.
WAYS = {
    'above a push': (['{}', 'undo', PUSHED], [PUSHED]),
    'above a macro': (['{}', 'undo', 'begin M', 'end'], ['begin M', 'end']),
    'beyond the limit': (['limit 1', '{}', PUSHED], ['{}', 'clear', PUSHED]),
    'undone and cleared': (['{}', 'undo', 'clear'], ['clear']),
    'cleared in open macros': (['begin A', 'begin B', '{}', 'clear'], ['{}', 'clear']),
    'cleared in three macros': (
        ['begin A', 'begin B', 'begin C', '{}', 'end', 'end', 'end', 'clear'],
        ['{}', 'clear'],
    ),
    'in macros above a push': (
        ['begin A', 'begin B', '{}', 'end', 'end', 'undo', PUSHED],
        [PUSHED],
    ),
    'closed': (['{}', CLOSED], [CLOSED]),
    'cleared and closed': (['{}', 'clear', CLOSED], [CLOSED]),
    'undone and closed': (['{}', 'undo', CLOSED], [CLOSED]),
    'closed in a macro': (['begin A', '{}', 'end', CLOSED], [CLOSED]),
    'closed in open macros': (['begin A', 'begin B', '{}', CLOSED], [CLOSED]),
}
# An edit that goes into the step before it, and the edit that both are.
MERGED = [
    ('stamp 1 0 0 2 5,6', 'stamp+ 1 1 0 3 7,8,9', 'stamp 1 0 0 4 5,7,8,9'),
    ('erase 1 0 0 2 1', 'erase+ 1 0 0 4 3', 'erase 1 0 0 4 3'),
    ('object move 1 5 5', 'object move+ 1 6 6', 'object move 1 6 6'),
    (
        'prop set map kind string door',
        'prop set+ map kind string gate',
        'prop set map kind string gate',
    ),
    (
        'prop set map more string door',
        'prop set+ map more string gate',
        'prop set map more string gate',
    ),
]
# An edit and one that goes into it, which come to nothing together, and so are no step.
TURNED = [
    ('object move 1 5 5', 'object move+ 1 0 0'),
    ('prop set map kind string door', 'prop set+ map kind string wall'),
]
VANISHED = [
    'stamp 1 0 0 4 1,2,3,4',
    'erase 1 0 1 4 2',
    'fill 1 0 0 1',
    'select none',
    'layer rename 2 Things',
    'layer show 2 yes',
    'object move 1 0 0',
    'object resize 1 8 8',
    'prop set map kind string wall',
]


# A tileset that stands in its map with half a million bytes of tiles, and has a name and no class.
LARGE = {
    'columns': 8,
    'firstgid': 1,
    'name': 'art',
    'tilecount': 8192,
    'tiles': [{'id': at, 'type': f'tile {at:050}'} for at in range(7000)],
}
# Steps on a member that the tileset has; and on one that it has not, or on several, whose steps hold all of it.
LEAN = [
    ['member set tileset:1 name "Walls"'],
    ['member set tileset:1 name "Walls"', 'member set+ tileset:1 name "Doors"'],
    ['member set tileset:1 name "Walls"', 'undo', 'redo', 'undo'],
    ['member set tileset:1 name {"of":[1,2]}', 'member set tileset:1 tilecount 9000'],
    ['begin M', 'member set tileset:1 columns 9', 'end', 'goto 0'],
]
WHOLE = [
    ['member set tileset:1 class "stone"'],
    ['member remove tileset:1 name'],
    ['member put tileset:1 {"name":"Walls"}'],
]


@functools.cache
def counted(*lines):
    """How many blocks there are behind lines on the document, none of which may be refused. What
    the editor keeps for itself, as room for names, is there from the first document on."""
    session = ''.join(f'{line}\n' for line in [*BEGUN, CLOSED, *BEGUN, *lines])
    done, _ = heard(session.encode(), env={'LD_PRELOAD': interposed('blocks.c')})
    refused = [reply for reply in done.stdout.splitlines() if reply.startswith(b'no ')]
    fault = unlike((0, []), (done.returncode, refused))
    assert not fault, f'{lines}: {fault}'
    return int(done.stderr.split()[-2])


def fault_of(case):
    return unlike(counted(*case.wanted), counted(*case.given))


def test_each_way():
    cases = [
        Case(f'{edit}, {way}', *([line.format(edit) for line in lines] for lines in pair))
        for way, pair in WAYS.items()
        for edit in EDITS
    ]
    check_each(cases, fault_of, CORES)


def test_what_merges():
    cases = [
        Case(f'{older}, {newer}, {way}', [*before, older, newer, *behind], [*before, both, *behind])
        for older, newer, both in MERGED
        for way, before, behind in [
            ('a step', [], []),
            ('cleared', [], ['clear']),
            ('in a macro', ['begin M'], ['end']),
            ('closed', [], [CLOSED]),
        ]
    ]
    check_each(cases, fault_of, CORES)


def test_what_vanishes():
    cases = [Case(edit, [edit], ['status']) for edit in VANISHED]
    cases += [
        Case(f'{edit} in a macro', ['begin M', edit, 'end'], ['begin M', 'end'])
        for edit in VANISHED
    ]
    cases += [Case(f'{older}, {newer}', [older, newer], ['dirty']) for older, newer in TURNED]
    check_each(cases, fault_of, CORES)


def test_that_steps_are_seen():
    """A step of each kind takes blocks while it stands: at least its box."""

    def fault_of_step(case):
        standing, cleared = counted(case.given), counted(case.given, 'clear')
        told = f'{standing} blocks, and {cleared} once it is cleared'
        return None if standing > cleared else told

    check_each([Case(edit, edit, None) for edit in EDITS], fault_of_step, CORES)


@functools.cache
def held(*lines):
    """How many bytes there are behind lines for all edits on a map with the large tileset."""
    session = ''.join(f'{line}\n' for line in ['open m m.tmj', *lines])
    before = {'m.tmj': text_of(map_of(tiles(1), tilesets=[LARGE]))}
    env = {'LD_PRELOAD': interposed('blocks.c')}
    done, _ = heard(session.encode(), before, ['--all-edits'], env)
    refused = [reply for reply in done.stdout.splitlines() if reply.startswith(b'no ')]
    fault = unlike((0, []), (done.returncode, refused))
    assert not fault, f'{lines}: {fault}'
    return int(done.stderr.split()[-1])


def test_that_a_tilesets_member_is_held_alone():
    large = len(text_of(LARGE))
    assert large > 500_000, large
    for lines in LEAN:
        more = held(*lines) - held()
        assert more < 2_000, f'{lines}: {more} bytes more'
        passed()
    # A head that is held whole is seen.
    for lines in WHOLE:
        more = held(*lines) - held()
        assert more > large / 2, f'{lines}: {more} bytes more'
        passed()
