# SPDX-License-Identifier: MIT OR Apache-2.0
"""Compares what both packages tell of the word at which a line is refused with what is wrong with it. Lines are made of each form: each of its
words is changed into ones that can't stand there, or the line ends before it, or goes on behind its last word. So are the forms of the
lines for all edits, which both packages read. In C it compares the calls for the plain lines with those for all edits."""
import ctypes
import json
import random
import subprocess
import sys

from lib.cases import Case, check_each, unlike
from lib.lines_at_fault import FOR_ALL_EDITS, PLAIN
from lib.places import TOP
from lib.refusals import refusal

sys.path.insert(0, str(TOP / 'python'))
from roskevad import Editor, Refused  # noqa: E402
from roskevad.library import LIBRARY, FaultyWord  # noqa: E402

PACKAGES = ('nodejs',)
# Lines that are refused as a whole, or for another reason than one of their words, and lines that are read.
WHOLE = [
    'x' * 65_536, 'undo', 'stamp 9 0 0 1 5', 'use none', 'member set object:1 rotation {', 'object put 1 {', 'prop take map 1', 'tileset put {}',
    'layer add group A', 'layer into 9 9 0', 'object into 9 9 0', 'prop put map {}', 'extend 4294967295 0 0 0',
]
# Which lines are asked about: what the C library's call is given, and the dialect.
PLAIN_LINES, ALL_EDITS, ALL_EDITS_WITH_FRACTIONS = 0, 1, 2
DIALECTS = [(PLAIN_LINES, PLAIN), (ALL_EDITS, FOR_ALL_EDITS), (ALL_EDITS_WITH_FRACTIONS, FOR_ALL_EDITS)]
# What the library answers.
NONE, TOO_GREAT = 2**64 - 1, 2**64 - 4
NO_COMMANDS = ['Undo', ' undo', 'frob 1', 'undone', 'members set object:1 rotation 45', 'member+ set object:1 rotation 45', 'Member', 'extend+ 1 0 0 0']


def lines_refused(dialect):
    """Lines, and of each the code, and the place, the word and the words for what is wrong with it."""
    for words, fault, form in dialect.lines_at_fault(random.Random(64)):
        word = words[fault] if fault < len(words) else None
        yield ' '.join(words), [4, fault + 1, word, dialect.told_of(form, fault, words)]
    for line in NO_COMMANDS:
        yield line, [3, 1, line.split(' ')[0], 'word 1 is not a command']


def cases_of(dialect):
    return [Case(line[:200], line, wanted) for line, wanted in lines_refused(dialect)]


CASES = cases_of(FOR_ALL_EDITS)


def refused(line):
    with Editor() as editor:
        try:
            editor.step(line)
        except Refused as refusal:
            return refusal
    return None


def told_by_python(line):
    fault = refused(line)
    return fault and [fault.code, *(fault.word_at_fault or [])]


def told_by_node(lines):
    done = subprocess.run(
        ['node', 'tests/module/word_faults.mjs'], input=json.dumps(lines).encode(), capture_output=True, cwd=TOP, check=True, timeout=120
    )
    return json.loads(done.stdout)


def fault_of(told):
    """What differs of a case. Behind a word that is to be a text stands all that is left of the line."""

    def fault(case):
        code, place, word, words = told[case.given] if len(told[case.given] or []) == 4 else [None] * 4
        wanted = case.wanted[2]
        is_text = any(kind in case.wanted[3] for kind in ('is not a text', 'is not a JSON text')) and word is not None
        return unlike(case.wanted, [code, place, wanted if is_text and word.startswith(wanted) else word, words])

    return fault


def test_python():
    check_each(CASES, fault_of({case.given: told_by_python(case.given) for case in CASES}))


def test_javascript():
    lines = [case.given for case in CASES]
    check_each(CASES, fault_of(dict(zip(lines, told_by_node(lines)))))


def test_lines_without_a_word_at_fault():
    told = [told_by_python(line) for line in WHOLE]
    assert [len(each) for each in told] == [1] * len(WHOLE) and told == told_by_node(WHOLE), told


# ---- in C


def told_by_c(line, edits=None):
    """What a call of the library tells of the word at which a line is refused: that for these edits, or else that of the plain lines."""
    data, word, room = line.encode(), FaultyWord(9, 9, 9, 9), ctypes.create_string_buffer(b'x' * 256, 256)
    given = [ctypes.c_char_p(data), ctypes.c_size_t(len(data)), ctypes.byref(word), room, ctypes.c_size_t(256)]
    call = getattr(ctypes.CDLL(LIBRARY._name), 'roskevad_word_fault' if edits is None else 'roskevad_word_fault_for')
    call.restype = ctypes.c_size_t
    size = call(*([] if edits is None else [ctypes.c_size_t(edits)]), *given)
    fields = [word.place, word.at, word.length, word.is_missing]
    if size > 256:
        assert fields == [9] * 4 and room.raw == b'x' * 256, (line, fields)
        return size
    found = None if word.is_missing else data[word.at : word.at + word.length].decode()
    return [3 if room.raw[:size] == b'word 1 is not a command' else 4, word.place, found, room.raw[:size].decode()]


def test_for_each_dialect_in_c():
    """The call for the plain lines tells what `roskevad_word_fault` tells."""
    for edits, dialect in DIALECTS:
        cases = cases_of(dialect)
        check_each(cases, fault_of({case.given: told_by_c(case.given, edits) for case in cases}))
    cases = cases_of(PLAIN)
    check_each(cases, fault_of({case.given: told_by_c(case.given) for case in cases}))


def test_lines_of_the_other_dialect_in_c():
    """A line for all edits is at fault where the plain lines are asked about: at its first word, or at the one that no plain line has there."""
    told = {
        'member set object:1 rotation 45': [3, 1, 'member', 'word 1 is not a command'],
        'object put 2 {}': [4, 2, 'put', 'word 2 is not a word that a form has there'],
        'prop take map "a"': [4, 2, 'take', 'word 2 is not a word that a form has there'],
        'prop put map {}': [4, 2, 'put', 'word 2 is not a word that a form has there'],
        'object into 1 2 0': [4, 2, 'into', 'word 2 is not a word that a form has there'],
        'layer into 1 0 0': [4, 2, 'into', 'word 2 is not a word that a form has there'],
        'extend 1 0 0 0': [3, 1, 'extend', 'word 1 is not a command'],
        'tileset put {}': [4, 2, 'put', 'word 2 is not a word that a form has there'],
        'layer add group A': [4, 3, 'group', 'word 3 is not tile or object'],
    }
    for line, wanted in told.items():
        fault = unlike((wanted, wanted, NONE), (told_by_c(line), told_by_c(line, PLAIN_LINES), told_by_c(line, ALL_EDITS)))
        assert not fault, f'{line}: {fault}'


def test_other_answers_in_c():
    """There is none where a line is read or is too long. No lines have another number, and then nothing is given out."""
    for line in ('', 'undo', '# a', 'stamp 1 0 0 1 5', 'x' * 65_536):
        assert [told_by_c(line), told_by_c(line, PLAIN_LINES), told_by_c(line, ALL_EDITS)] == [NONE] * 3, line[:40]
    for edits in (3, 4, 2**32, 2**64 - 1):
        assert [told_by_c(line, edits) for line in ('undo x', 'undo', 'frob')] == [TOO_GREAT] * 3, edits


def test_what_people_see():
    """The words stand in the message, between the line and its forms."""
    first = f"{refusal(4).removeprefix('no ')}: stamp 1 0 0 2 5,6,7"
    second = 'word 6 is not whole numbers joined by commas, which fill rows of 2'
    assert str(refused('stamp 1 0 0 2 5,6,7')).split('\n  ')[:3] == [first, second, 'stamp LAYER X Y WIDTH TILES']
    first, second = f"{refusal(4).removeprefix('no ')}: member set map a", 'word 5 is missing: a JSON text'
    assert str(refused('member set map a')).split('\n  ')[:3] == [first, second, 'member set OWNER KEY JSON']
