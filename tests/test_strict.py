# SPDX-License-Identifier: MIT OR Apache-2.0
"""Runs the program with `--strict`, and without it, on sessions whose end the rules give. A strict
run ends at the first refused line: the replies up to and with its own are written, no later line is
carried out, nothing is saved behind it, and standard error names it. At the end of the input it
names each document that is not clean.

Behind a 3 or 4 it says which word of the line is at fault, and the forms that the words before it
have. For that, lines are made of the forms by chance, and one word of each is changed into one that
can't stand there, or the line ends before it, or goes on behind its last word. With `--all-edits` the
forms of the lines for all edits are among them."""
import random
import subprocess
import unicodedata

from lib.cases import CORES, Case, check_each, passed, unlike
from lib.lines_at_fault import FOR_ALL_EDITS, PLAIN
from lib.places import TILE_EDITOR
from lib.refusals import refusal
from lib.sessions import ALL_EDITS, heard, joined

NEW = b'new town 4 3 16 16 town.tsj'
STAMP = b'stamp 1 0 0 1 5'

# The lines of a session, how many of them are carried out, and what standard error says behind
# `tile_editor: `. The exit status is 3 where it says something, and else 0.
SESSIONS = [
    ([], 0, []),
    ([b'status', b'', b'# nothing', b'list'], 4, []),
    ([NEW, b'undo'], 2, [f'line 2: undo: {refusal(21)}']),
    (
        [NEW, b'# a comment', b'', b'stamp 9 0 0 1 5', b'save town.tmj'],
        4,
        [f'line 4: stamp 9 0 0 1 5: {refusal(30)}'],
    ),
    (
        [NEW, STAMP, b'save town.tmj', b'undo', b'undo', b'stamp 1 1 1 1 6', b'save town.tmj'],
        5,
        [f'line 5: undo: {refusal(21)}'],
    ),
    ([b'status\r'], 1, [f'line 1: status\\u{{d}}: {refusal(3)}: word 1 is not a command\n  status']),
    ([b'undo \x1b[2J'], 1, [f'line 1: undo \\u{{1b}}[2J: {refusal(4)}: word 2 is one too many\n  undo']),
    (
        [b'caf\xc3\xa9'],
        1,
        [f'line 1: café: {refusal(3)}: word 1 is not a command\n  close DOC\n  clean\n  clear'],
    ),
    ([b'status', b'\xff\xfe'], 2, [f'line 2: {refusal(2)}']),
    ([b'status', b'x' * 65537, b'status'], 2, [f'line 2: {refusal(1)}']),
    ([b'status', b'x' * 1_000_000], 2, [f'line 2: {refusal(1)}']),
    ([b'begin ' + b'x' * 194], 1, ['line 1: begin ' + 'x' * 194 + f': {refusal(10)}']),
    ([b'begin ' + b'x' * 195], 1, ['line 1: begin ' + 'x' * 194 + f'...: {refusal(10)}']),
    ([b'begin ' + 'é'.encode() * 100], 1, ['line 1: begin ' + 'é' * 100 + f': {refusal(10)}']),
    (
        [b'# ' + b'x' * 300, b'undo ' + b'\x01' * 65_530],
        2,
        ['line 2: undo ' + '\\u{1}' * 195 + f'...: {refusal(4)}: word 2 is one too many\n  undo'],
    ),
    ([NEW], 1, []),
    ([NEW, STAMP], 2, ['end of input: town: unsaved changes']),
    ([NEW, STAMP, b'clean'], 3, []),
    ([NEW, STAMP, b'save town.tmj'], 3, []),
    ([NEW, STAMP, b'discard town'], 3, []),
    ([NEW, b'begin A'], 2, ['end of input: town: macro open']),
    ([NEW, b'dirty'], 2, ['end of input: town: unsaved changes']),
    (
        [
            NEW,
            STAMP,
            b'begin A',
            b'new b 1 1 8 8 b.tsj',
            b'new c 1 1 8 8 c.tsj',
            b'dirty',
            b'use -',
        ],
        7,
        ['end of input: town: macro open', 'end of input: c: unsaved changes'],
    ),
    (
        [b'open x x.tmj', b'status'],
        1,
        ['maps/x.tmj: No such file or directory', f'line 1: open x x.tmj: {refusal(50)}'],
    ),
    (
        [NEW] + [STAMP, b'undo'] * 35_000 + [b'redo', b'redo'],
        70_003,
        [f'line 70003: redo: {refusal(22)}'],
    ),
]


def cases():
    for lines, handled, errors in SESSIONS:
        name = f'{len(lines)} lines, the last of which are {lines[-3:]}'
        yield Case(
            name[:200], (joined(lines), joined(lines[:handled])), (3 if errors else 0, errors)
        )


def fault_of(case):
    """What is wrong in a strict run. It must be the run without `--strict` of the lines that are
    carried out."""
    lines, handled = case.given
    strict, files = heard(lines, options=['--strict'])
    other, other_files = heard(handled)
    status, errors = case.wanted
    wanted = (
        status,
        0,
        other.stdout,
        other_files,
        ''.join(f'tile_editor: {line}\n' for line in errors),
    )
    return unlike(
        wanted, (strict.returncode, other.returncode, strict.stdout, files, strict.stderr.decode())
    )


def test_where_a_strict_run_ends():
    check_each(cases(), fault_of, CORES)


# ---- the word at fault

# Forms as standard error has them, of one command each.
LAYERS = [
    'layer add tile NAME', 'layer add object NAME', 'layer remove LAYER', 'layer rename LAYER NAME',
    'layer show LAYER yes', 'layer show LAYER no', 'layer move LAYER PLACE',
]
PROPERTIES = ['prop set OWNER KEY TYPE VALUE', 'prop set+ OWNER KEY TYPE VALUE', 'prop remove OWNER KEY']
# Those that stand there with `--all-edits` alone.
ERASE = ['erase LAYER X Y WIDTH HEIGHT', 'erase+ LAYER X Y WIDTH HEIGHT']
MORE_LAYERS = ['layer add group NAME', 'layer add image NAME', 'layer into LAYER GROUP PLACE', 'layer put GROUP PLACE JSON']
MEMBERS = [
    'member set OWNER KEY JSON', 'member set+ OWNER KEY JSON', 'member put OWNER JSON', 'member put+ OWNER JSON',
    'member remove OWNER KEY',
]

def shown(line):
    """A line as a message has it: at most 200 characters, and control characters as their codes."""
    front = ''.join(
        f'\\u{{{ord(sign):x}}}' if unicodedata.category(sign) == 'Cc' else sign
        for sign in line[:200]
    )
    return front + ('...' if len(line) > 200 else '')


# The lines that an editor reads, and the option with which the program does so.
DIALECTS = [(PLAIN, []), (FOR_ALL_EDITS, [ALL_EDITS])]


def refused_at(line, options, code, told, forms):
    """A line, the options that it is given with, and what is said of it."""
    first = f'tile_editor: line 1: {shown(line)}: {refusal(code)}: {told}'
    name = ' '.join([*options, line])
    return Case(name[:200], (line, options), '\n'.join([first, *(f'  {form}' for form in forms), '']))


def lines_refused():
    """Lines with one word at fault. Their forms are those that begin as the one that was taken."""
    for dialect, options in DIALECTS:
        for words, fault, form in dialect.lines_at_fault(random.Random(63)):
            told, forms = dialect.told_of(form, fault, words), dialect.forms_behind(form, fault)
            yield refused_at(' '.join(words), options, 4, told, forms)


def fault_of_line(case):
    line, options = case.given
    done = subprocess.run(
        [TILE_EDITOR, '--strict', *options], input=line.encode(), capture_output=True, timeout=60
    )
    return unlike((3, case.wanted), (done.returncode, done.stderr.decode()))


def test_the_word_at_fault():
    check_each(lines_refused(), fault_of_line, CORES)


def test_lines_of_no_command():
    """The forms are those of the command that is written so but for spaces around it and signs `+`
    behind it, or else of all commands with the same first letter."""
    plain = {
        'Undo': ['use DOC', 'use -', 'undotext', 'undo'],
        'undone': ['use DOC', 'use -', 'undotext', 'undo'],
        ' undo': ['undo'],
        'undo\r': ['undo'],
        'fill+ 1 0 0 5': ['fill LAYER X Y TILE'],
        'stamp++': ['stamp LAYER X Y WIDTH TILES', 'stamp+ LAYER X Y WIDTH TILES'],
        'frob': ['fill LAYER X Y TILE'],
        'xyz': [],
        '\t': [],
        '\ufeff# a comment': [],
        '+': [],
        'Member': [],
        'layers': ['list', *LAYERS, 'limit NUMBER'],
        ' layer add group A': LAYERS,
        'prop+ set map a int 1': PROPERTIES,
        'text+ 0': ['text PLACE'],
        'extends 1': [*ERASE, 'end'],
        'extend+ 1 0 0 0': [*ERASE, 'end'],
        'open+ a b.tmj': ['open DOC FILE'],
    }
    for_all_edits = {
        **plain,
        'Member': MEMBERS,
        ' member': MEMBERS,
        'member+ set object:1 a 1': MEMBERS,
        'layers': ['list', *LAYERS, 'limit NUMBER', *MORE_LAYERS],
        ' layer add group A': [*LAYERS, *MORE_LAYERS],
        'prop+ set map a int 1': [*PROPERTIES, 'prop put OWNER JSON', 'prop take OWNER JSON'],
        'extends 1': [*ERASE, 'end', 'extend LEFT TOP RIGHT BOTTOM'],
        'extend+ 1 0 0 0': ['extend LEFT TOP RIGHT BOTTOM'],
    }
    cases = [
        refused_at(line, options, 3, 'word 1 is not a command', wanted)
        for options, forms in (([], plain), ([ALL_EDITS], for_all_edits))
        for line, wanted in forms.items()
    ]
    check_each(cases, fault_of_line, CORES)


# ---- nowhere to go


def test_no_room_for_the_reply():
    """Where the reply to a refused line can't be written, that is a failed write, and the line is
    not named."""
    with open('/dev/full', 'wb') as full:
        done = subprocess.run(
            [TILE_EDITOR, '--strict'],
            input=b'undo\n',
            stdout=full,
            stderr=subprocess.PIPE,
            timeout=60,
        )
    fault = unlike((1, b'tile_editor: write failed: No space left on device\n'), (done.returncode, done.stderr))
    assert not fault, fault
    passed()
