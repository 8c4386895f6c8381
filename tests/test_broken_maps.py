# SPDX-License-Identifier: MIT OR Apache-2.0
"""Opens and saves 20,000 maps that are broken by chance: each is a map of `examples/maps` or
`sessions/maps` with one change, from a fixed seed. Each is answered within seconds, by `ok` or by a
refusal of docs/refusals.md; what is opened is saved, and what is saved opens again and is saved as
the same bytes. So is each map of those folders as it stands, and each proper prefix of `town.tmj`,
which is no JSON.

Python's json module reads each text too. It tells which are no JSON (60), have a fraction (61) or
are no map (69), and what must be written for a map that was opened. Which of the other refusals a
map gets is not compared.

native/heap_peaks.c measures the heap that each opening takes: less than 40 bytes for a byte of the
file. It counts what the program asks for, so other programs do not change it. Texts that are made
to take the most have bounds of their own."""
import json
import random
import subprocess
import tempfile
from dataclasses import dataclass
from pathlib import Path
from typing import Optional

from lib.broken import HEAVY_TEXTS, WAYS, originals, with_kept
from lib.cases import MOST_FAULTS, Case, fail_with, in_processes, passed, told, unlike
from lib.json_texts import code_of, text_behind, tree_of
from lib.maps import text_of
from lib.native import interposed
from lib.places import IN_MEMORY, SESSION_MAPS, TILE_EDITOR
from lib.refusals import OF_MAPS, refusal
from lib.sessions import fault_of_reasons

IS_LONG = True
SEED, MAPS = 20261125, 20_000
# A map of so many bytes or more is chosen as often as one of so many.
LONG = 6_000
# The maps that are heard in one run of the program, and the seconds that a run may take.
MAPS_OF_RUN, SECONDS = 100, 60
NOT_SAVED = [refusal(10), refusal(12)]
NOT_THERE = [refusal(50), *NOT_SAVED]
# The bytes of heap that a byte of a file may take. A file that is shorter than so many bytes counts
# as one of so many: one object takes some 860 bytes.
HEAP, SHORTEST = 40, 128
# Of so many broken maps one is opened in a run of its own, too.
ONE_OF = 50
TOWN = (SESSION_MAPS / 'town.tmj').read_bytes()


@dataclass(frozen=True)
class Wanted:
    """The reply to the `open` of a map, where that is known beforehand, and the bytes of heap that
    it may take for a byte."""

    reply: Optional[str] = None
    heap: int = HEAP


# ---- the maps


def broken_map(folders, number):
    """The map of a number, which is the same each time. The longer maps of a folder are changed
    more often, up to a length."""
    chosen = random.Random(SEED * MAPS + number)
    texts = chosen.choice(folders)
    (text,) = chosen.choices(texts, [min(len(text.data), LONG) for text in texts])
    change, _ = chosen.choice([way for way in WAYS if getattr(text, way[1])])
    return Case(f'map {number}: {text.name}, {change.__name__}', change(chosen, text), Wanted())


def whole_cases(folders):
    """The maps as they stand, and the proper prefixes of one."""
    prefixes = [
        Case(f'the first {length} bytes of town.tmj', TOWN[:length], Wanted(refusal(60)))
        for length in range(len(TOWN))
    ]
    return [
        Case(text.name, text.data, Wanted()) for folder in folders for text in folder
    ] + prefixes


def empty_cells(width, height):
    """A map of empty cells, each of which is two bytes of the file."""
    tree = json.loads(TOWN)
    tree.update(width=width, height=height)
    tree['layers'][0].update(width=width, height=height, data=[0] * (width * height))
    return text_of(tree)


def heavy_cases():
    """A map whose room for cells was doubled just before the last ones; and texts that are made to
    take much memory, alone and as a kept member of a map."""
    yield Case('a map of empty cells', empty_cells(363, 362), Wanted('ok 0/0 clean 0'))
    for name, text, heap in HEAVY_TEXTS:
        yield Case(f'a list of {name}', text, Wanted(refusal(69), heap))
        yield Case(
            f'a map with a list of {name}', with_kept(TOWN, text), Wanted('ok 0/0 clean 0', heap)
        )


# ---- what the program does


def rows_of(number):
    """The lines that open and save a map, and what was saved."""
    opened = f'open m m{number}\nsave s{number}\ndiscard m\n'
    return f'{opened}open s s{number}\nsave t{number}\ndiscard s\n'


def said(folder, lines, env=None):
    """What the program does with some lines over a folder; None stands for a run that is too
    slow."""
    words = [TILE_EDITOR, '--folder', folder]
    try:
        return subprocess.run(
            words, input=lines.encode(), capture_output=True, timeout=SECONDS, env=env
        )
    except subprocess.TimeoutExpired:
        return None


def fault_of_refused(code, replies):
    """What is wrong with the replies to a map that is not opened, or None. Where no code is wanted,
    any but those that Python tells will do."""
    codes = [code] if code else OF_MAPS.keys() - {60, 61, 69}
    if replies[0] not in map(refusal, codes):
        return f'wanted a refusal of {sorted(codes)}, came {replies[0]!r}'
    return unlike([*NOT_SAVED, *NOT_THERE], replies[1:])


def file_in(folder, name):
    """The bytes of a file, or None."""
    path = Path(folder) / name
    return path.read_bytes() if path.exists() else None


def fault_of_opened(tree, number, replies, folder):
    """What is wrong with a map that is opened, or None."""
    text = text_behind(tree)
    wanted = [
        'ok 0/0 clean 0',
        f'saved s{number} {len(text)}',
        'ok none clean',
        'ok 0/0 clean 0',
        f'saved t{number} {len(text)}',
        'ok none clean',
    ]
    return unlike(wanted, replies) or unlike(
        [text, text], [file_in(folder, f'{letter}{number}') for letter in 'st']
    )


def fault_of_case(case, number, replies, folder):
    """What is wrong with the replies to a map and with its files, or None."""
    found = tree_of(case.given)
    code = code_of(found[0]) if found else 60
    if case.wanted.reply and replies[0] != case.wanted.reply:
        return unlike(case.wanted.reply, replies[0])
    if code is None and replies[0].startswith('ok'):
        return fault_of_opened(found[0], number, replies, folder)
    return fault_of_refused(code, replies)


def fault_of_run(done, count):
    """What is wrong with a run over so many maps, or None."""
    if done is None:
        return f'not done in {SECONDS} seconds'
    lines = done.stdout.count(b'\n')
    if (done.returncode, lines) != (0, 6 * count):
        return f'exit status {done.returncode}, {lines} replies, {done.stderr[:300]!r}'
    return fault_of_reasons(done.stdout, done.stderr)


def kept(case, fault):
    """A fault in words. The map is kept, since it can't be read off them."""
    with tempfile.NamedTemporaryFile(suffix='.tmj', prefix='broken_map_', delete=False) as file:
        file.write(case.given)
    return f'{told(case, fault)}\n    kept as {file.name}'


def see_no(faults):
    """Fails if there are faults, and keeps the maps of those that are told."""
    first, others = faults[:MOST_FAULTS], faults[MOST_FAULTS:]
    fail_with([*(kept(*each) for each in first), *(told(*each) for each in others)])


def faults_of_replies(cases, folder):
    """The maps, with what is wrong in the replies to them, in one run, and in their files. Where
    the run stops, each is heard alone."""
    done = said(folder, ''.join(map(rows_of, range(len(cases)))))
    fault = fault_of_run(done, len(cases))
    if fault and len(cases) > 1:
        alone = [fault for case in cases for fault in faults_of_maps([case], 1)]
        return alone or [(cases[0], f'with those behind it: {fault}')]
    if fault:
        return [(cases[0], fault)]
    replies = done.stdout.decode().split('\n')
    faults = [
        fault_of_case(case, at, replies[6 * at : 6 * at + 6], folder)
        for at, case in enumerate(cases)
    ]
    return [(case, fault) for case, fault in zip(cases, faults) if fault]


def heaps_of(folder, numbers):
    """The bytes of heap that the opening of each map takes."""
    lines = ''.join(f'open m m{number}\ndiscard m\n' for number in numbers)
    done = said(folder, lines, {'LD_PRELOAD': interposed('heap_peaks.c')})
    return [int(number) for number in done.stderr.split()] if done else []


def faults_of_heap(cases, folder, numbers):
    """The maps of these numbers whose opening takes too much memory, where they are opened in one
    run."""
    heaps = heaps_of(folder, numbers)
    if len(heaps) != len(numbers):
        told_of = f'the heap of {len(heaps)} openings of {len(numbers)} was measured'
        return [(cases[numbers[0]], f'from here on {told_of}')]
    pairs = [(cases[number], heap) for number, heap in zip(numbers, heaps)]
    return [
        (case, f'{heap} bytes of heap for a file of {len(case.given)}')
        for case, heap in pairs
        if heap >= case.wanted.heap * max(len(case.given), SHORTEST)
    ]


def faults_of_maps(cases, one_of):
    """Hears some maps in one run, and looks at each; then measures the heap of each opening in one
    run, and for one of so many in a run of its own, where nothing is left of others."""
    with tempfile.TemporaryDirectory(dir=IN_MEMORY) as folder:
        for number, case in enumerate(cases):
            (Path(folder) / f'm{number}').write_bytes(case.given)
        faults = faults_of_replies(cases, folder) + faults_of_heap(cases, folder, range(len(cases)))
        for number in range(0, len(cases), one_of):
            faults += faults_of_heap(cases, folder, [number])
    return faults


def faults_from(first):
    """The faults of the broken maps of one run, the first of which has this number."""
    return faults_of_maps(
        [broken_map(FOLDERS, number) for number in range(first, first + MAPS_OF_RUN)], ONE_OF
    )


FOLDERS = originals()


def test_maps_as_they_stand_and_prefixes():
    cases = whole_cases(FOLDERS)
    see_no(faults_of_maps(cases, 1))
    passed(len(cases))


def test_texts_that_take_much_memory():
    cases = list(heavy_cases())
    see_no(faults_of_maps(cases, 1))
    passed(len(cases))


def test_maps_broken_by_chance():
    # It is built before there are processes that need it.
    interposed('heap_peaks.c')
    faults = in_processes(faults_from, range(0, MAPS, MAPS_OF_RUN))
    see_no([fault for some in faults for fault in some])
    passed(MAPS)
