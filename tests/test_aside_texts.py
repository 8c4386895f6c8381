# SPDX-License-Identifier: MIT OR Apache-2.0
"""Sets aside and puts back 20,000 texts of maps that are changed by chance, by `map_report --table`,
and compares the trees of what comes with the plain model of tests/lib/asides.py. Each text is a map
of `examples/maps` or `sessions/maps`, into which stand-ins, notes, fractions, chunks and the reserved
name are put, some of them damaged, and which has one more change of tests/lib/broken.py; all from a
fixed seed. Of an infinite map a text of a finite one must come, or one of the faults that it can
have. A text that was set aside is put back: that is the tree of the source again.

native/heap_peaks.c measures the heap that an opening of some of these texts takes with `--all-maps`:
less than 320 bytes for a byte of the file, since a short fraction becomes an object, for an infinite
map less than 200 for each cell of the finite one, and for a packed one 300,000 more. Each growth is refused in turn while a map
is set aside and put back."""
import json
import random
import subprocess
import tempfile
from dataclasses import dataclass
from pathlib import Path

from lib.asides import (
    INFINITE_FAULTS,
    NAME_TAKEN,
    NOT_JSON,
    OPTION,
    TOO_DEEP,
    UNLIKE,
    aside,
    exact,
    exact_text,
    has_fraction,
    has_name,
    is_too_deep,
    put_back,
    set_aside,
)
from lib.broken import WAYS, Text, originals
from lib.cases import CORES, Case, check_each, fail_with, in_processes, passed, unlike
from lib.growths import count_of, refusing
from lib.infinite import cells_in_all, is_infinite
from lib.json_texts import tree_of
from lib.maps import text_of
from lib.native import interposed
from lib.packed_layers import MOST_IN_ALL, has_note, has_packed, packed_cells, unpacked
from lib.places import EXAMPLE_MAPS, IN_MEMORY, MAP_REPORT, TILE_EDITOR

IS_LONG = True
SEED, TEXTS, TEXTS_OF_RUN, SECONDS = 20261126, 20_000, 100, 60
# The longest map that is changed; the bytes of heap that a byte of a file may take, and the bytes that
# a shorter file counts as.
LONGEST, HEAP, SHORTEST = 12_000, 320, 128
# The bytes of heap that a cell of a finite map may take which was infinite; and those that unpacking takes.
CELL, UNPACKING = 200, 300_000
# Of so many texts the heap is measured in one.
ONE_OF = 10
AS_IT_IS = 'as it is'
PARTS = [
    b'0.5',
    b'-0',
    b'1e20',
    b'413.333',
    b'5e-324',
    b'1.7976931348623157e308',
    b'-1.7976931348623157e308',
    b'18446744073709551616',
    b'-9223372036854775809',
    b'9007199254740993.0',
    b'{"x":1.5,"y":-0.25,"width":3,"height":1e300,"rotation":0.1}',
    b'[{"x":0.5},{"x":-0,"objects":[{"y":2.5}]}]',
    b'{"layers":[{"objects":[{"x":-1e300}]}],"version":0.5}',
    b'{"roskevad":[1071644672,0]}',
    b'{"roskevad":[1071644672,0,0]}',
    b'{"roskevad":[1071644672]}',
    b'{"roskevad":[2146435072,0]}',
    b'{"roskevad":[4294967296,0]}',
    b'{"roskevad":[-1,0]}',
    b'{"roskevad":[0.5,0]}',
    b'{"roskevad":[1071644672,0],"a":1}',
    b'{"roskevad":{"x":{"roskevad":[1073217536,0]}},"x":1}',
    b'{"roskevad":{"x":{"roskevad":[1073217536,0]}},"x":2}',
    b'{"roskevad":{"x":{"roskevad":[1073217536,0]}},"x":{"roskevad":[1072693248,0]}}',
    b'{"roskevad":{"x":1.5,"y":2.5,"z":0.5},"x":1,"y":2.0,"z":0}',
    b'{"roskevad":{"roskevad":{"x":1.5}},"x":1}',
    b'{"roskevad":null}',
    b'{"roskevad":0.5,"roskevad":1}',
    b'{"roskeva\\u0064":1}',
    b'"roskevad"',
    b'{"chunks":[],"type":"tilelayer"}',
    b'[{"data":[1,0],"height":1,"width":2,"x":-16,"y":3}]',
    b'[{"data":[1,0.5],"height":1,"width":2,"x":-16,"y":3}]',
    b'[{"data":"AQAAAA==","height":1,"width":1,"x":3,"y":3},{"data":"?","height":1,"width":1,"x":3,"y":3}]',
    b'2147483648',
    b'[' * 60 + b'0.5' + b']' * 60,
    b'[' * 123 + b'0.5' + b']' * 123,
    b'{"a":' * 122 + b'{"roskevad":[1071644672,0]}' + b'}' * 122,
]


@dataclass(frozen=True)
class Answer:
    """What must be answered for a text: words, a tree with each float as its bits, or for an infinite
    map any finite one without fractions, or why there is none."""

    words: str = ''
    tree: object = None
    is_finite: bool = False

    def fault(self, came):
        """How what came differs, or None."""
        if self.is_finite:
            return fault_of_finite(came)
        if self.words:
            return unlike(self.words, came)
        return unlike(self.tree, exact_text(came.encode()))


def fault_of_finite(came):
    if came in (*INFINITE_FAULTS.values(), UNLIKE, TOO_DEEP):
        return None
    found = tree_of(came.encode())
    is_right = found and found[0].get('infinite') is False and not has_fraction(found[0])
    return None if is_right else f'came {came[:400]!r}'


def answers_of(data):
    """What must be answered where a text is set aside, and where it is put back."""
    found = tree_of(data)
    if not found:
        return Answer(NOT_JSON), Answer(NOT_JSON)
    (given,) = found
    put = Answer(tree=exact(put_back(given))) if has_name(given) or has_note(given) else Answer(AS_IT_IS)
    if has_note(given):
        return Answer(NAME_TAKEN), put
    if has_packed(given) and packed_cells(given) > MOST_IN_ALL:
        return Answer(INFINITE_FAULTS['TooLarge']), put
    tree = unpacked(given)
    return answer_of_plain(tree, has_packed(given)), put


def answer_of_plain(tree, was_packed):
    """What must be answered where a text without packed layers is set aside; where some were packed, there is a text at least."""
    if has_name(tree):
        return Answer(NAME_TAKEN)
    as_it_is = Answer(tree=exact(tree)) if was_packed else Answer(AS_IT_IS)
    if is_infinite(tree) and not is_too_deep(aside(tree)):
        return Answer(is_finite=True)
    if not has_fraction(tree):
        return as_it_is
    new = aside(tree)
    return Answer(TOO_DEEP) if is_too_deep(new) else Answer(tree=exact(new))


# ---- the texts


def changed_text(number):
    """The text of a number, which is the same each time."""
    chosen = random.Random(SEED * TEXTS + number)
    text = chosen.choice(MAPS)
    data = text.data
    for _ in range(chosen.randint(0, 2)):
        spans = [value for _, value in text.members] + text.entries or [(0, len(data))]
        data = text.with_part(chosen.choice(spans), chosen.choice(PARTS))
        text = Text(text.name, data)
    ways = [way for way in WAYS if getattr(text, way[1])]
    if ways and chosen.random() < 0.5:
        data = chosen.choice(ways)[0](chosen, text)
    return Case(f'text {number}: {text.name}', data, answers_of(data))


MAPS = [text for folder in originals() for text in folder if len(text.data) < LONGEST]


# ---- what the program does


def told(lines, folder, growth=None):
    """What the program answers to the lines of a table, or None where it is too slow."""
    env = refusing(growth) if growth is not None else None
    try:
        return subprocess.run(
            [MAP_REPORT, '--table'],
            input=lines,
            capture_output=True,
            timeout=SECONDS,
            cwd=folder,
            env=env,
        )
    except subprocess.TimeoutExpired:
        return None


def answered(lines, folder):
    """The answers to the lines of a table."""
    done = told(lines, folder)
    assert done is not None, f'not done in {SECONDS} seconds'
    assert done.returncode == 0, f'status {done.returncode}, {done.stderr[:300]!r}'
    return [
        row.partition(' => ')[2]
        for row in done.stdout.decode().split('\n')[:-1]
        if row.startswith(('aside ', 'back '))
    ]


def open_tree(data):
    """The tree of a text with its packed layers unpacked: one that is damaged has no cells to be put back."""
    (tree,) = tree_of(data)
    return exact(unpacked(tree))


def faults_of_again(cases, asides, folder):
    """The texts that are another tree once what was set aside of them is put back."""
    pairs = [(case, text) for case, text in zip(cases, asides) if text.startswith(('{', '['))]
    lines = ''.join(f'let a{at} {text}\nback a{at}\n' for at, (_, text) in enumerate(pairs))
    backs = answered(lines.encode(), folder) if pairs else []
    for (case, text), came in zip(pairs, backs):
        again = text if came == AS_IT_IS else came
        if open_tree(again.encode()) != open_tree(case.given):
            yield f'{case.name}: put back again {came[:400]!r}'


def faults_of_texts(cases, folder):
    lines = ''.join(f'load m{at} m{at}\naside m{at}\nback m{at}\n' for at in range(len(cases)))
    answers = answered(lines.encode(), folder)
    if len(answers) != 2 * len(cases):
        yield f'{cases[0].name} and those behind it: {len(answers)} answers'
        return
    for at, case in enumerate(cases):
        for word, wanted, came in zip(('aside', 'back'), case.wanted, answers[2 * at : 2 * at + 2]):
            fault = wanted.fault(came)
            if fault:
                yield f'{case.name}: {word}: {fault}\n    given {case.given[:400]!r}'
    yield from faults_of_again(cases, answers[::2], folder)


def faults_of_heap(cases, folder):
    """The texts whose opening takes too much heap."""
    numbers = range(0, len(cases), ONE_OF)
    lines = ''.join(f'open m m{number}\ndiscard m\n' for number in numbers)
    done = subprocess.run(
        [TILE_EDITOR, OPTION, '--folder', folder],
        input=lines.encode(),
        capture_output=True,
        timeout=SECONDS,
        env={'LD_PRELOAD': interposed('heap_peaks.c')},
    )
    heaps = [int(row) for row in done.stderr.split(b'\n') if row.isdigit()]
    if len(heaps) != len(numbers):
        yield f'{cases[0].name} and those behind it: the heap of {len(heaps)} openings was measured'
        return
    for number, heap in zip(numbers, heaps):
        length = max(len(cases[number].given), SHORTEST)
        found = tree_of(cases[number].given)
        is_packed = found and has_packed(*found)
        if heap >= HEAP * length + CELL * (cells_in_all(aside(*found)) if found else 0) + UNPACKING * bool(is_packed):
            yield f'{cases[number].name}: {heap} bytes of heap for a file of {length}'


def faults_from(first):
    """What is wrong with the texts of one run, the first of which has this number."""
    cases = [changed_text(number) for number in range(first, first + TEXTS_OF_RUN)]
    with tempfile.TemporaryDirectory(dir=IN_MEMORY) as folder:
        for at, case in enumerate(cases):
            (Path(folder) / f'm{at}').write_bytes(case.given)
        try:
            return [*faults_of_texts(cases, folder), *faults_of_heap(cases, folder)]
        except AssertionError as fault:
            return [f'{cases[0].name} and those behind it: {fault}']


def test_texts_changed_by_chance():
    # It is built before there are processes that need it.
    interposed('heap_peaks.c')
    fail_with(fault for some in in_processes(faults_from, range(0, TEXTS, TEXTS_OF_RUN)) for fault in some)
    passed(TEXTS)


# ---- growths

SOURCE = b'{"layers":[{"objects":[{"text":"a","x":1.5,"y":2}],"opacity":0.5}],"version":1.5}'
ASIDE = (
    b'{"layers":[{"objects":[{"roskevad":{"x":{"roskevad":[1073217536,0]}},"text":"a","x":1,"y":2}],'
    b'"opacity":{"roskevad":[1071644672,0]}}],"version":1.5}'
)


def fault_of_growths(case):
    """What is wrong where each growth of a call is refused, or None: the answer is the ordinary one,
    or that there is no memory; or the program itself lacks it."""
    lines = b'let m %s\n%s m\n' % (case.given, case.name.encode())
    front = lines[:-1] + b' => '
    done = told(lines, None, 0)
    fault = unlike(front + case.wanted + b'\n', done.stdout)
    if fault:
        return fault
    growths, refused = count_of(b'growths', done), 0
    for growth in range(1, growths + 1):
        came = told(lines, None, growth)
        refused += came.stdout == front + b'out of memory\n'
        is_right = came.stdout in (done.stdout, front + b'out of memory\n')
        if not is_right and (came.returncode != 1 or not done.stdout.startswith(came.stdout)):
            return f'with growth {growth} refused: status {came.returncode}, {came.stdout[:200]!r}'
    passed(growths)
    return None if refused > growths / 2 else f'{refused} of {growths} growths are told'


def test_each_growth_of_a_call():
    infinite = json.loads((EXAMPLE_MAPS / 'infinite.tmj').read_bytes())
    source, text = text_of(infinite), text_of(set_aside(infinite))
    pairs = [(SOURCE, ASIDE), (source, text)]
    cases = [Case('aside', *pair) for pair in pairs] + [Case('back', *pair[::-1]) for pair in pairs]
    check_each(cases, fault_of_growths, CORES)
