# SPDX-License-Identifier: MIT OR Apache-2.0
"""Brings two sides of one map together, also as the merge driver and the mergetool of git.

    roskevad merge BASE OURS THEIRS -o OUT
    roskevad merge --resolve FILE
    roskevad merge --check BASE OURS THEIRS RESULT
"""
import argparse
import contextlib
import os
import re
import sys
from pathlib import Path
from typing import Callable, NamedTuple, Optional, Sequence, cast

from .choices import Choices, Side, said_side
from .class_types import project_of, types_of
from .conflict_marks import mark
from .difference_command import opened, write
from .document import Document
from .editor import Editor
from .faults import Error, Refused
from .folder_files import replace, save_as_opened
from .git_stages import NotInConflict
from .limits import MAX_SIDE
from .merging import Conflict, Merge, do_merge, merge, merged
from .resolving import Resolving
from .settling import is_merged_as_text, not_as_merged

_MERGED, _IN_CONFLICT, _TROUBLE = 0, 1, 2
_USAGE = '''roskevad merge BASE OURS THEIRS -o OUT [--take SIDE[:KEY]].. [--ask] [--marks] [--offset SIDE:X,Y].. [--project FILE] [--name NAME]
       roskevad merge --resolve FILE [--take SIDE[:KEY]].. [--ask] [--marks] [--offset SIDE:X,Y].. [--project FILE]
       roskevad merge --check BASE OURS THEIRS RESULT [--offset SIDE:X,Y].. [--project FILE]'''
_WAYS = 'wanted are BASE OURS THEIRS -o OUT, or --resolve FILE, or --check BASE OURS THEIRS RESULT'
_BOTH_ADDED = 'both sides have added this map, and there is none that both began with; it is as {} has it'
_KEY_OF_BOTH, _KEY_OF_SIZE = 'map/added', 'map/size'
_OFFSET = re.compile('(ours|theirs):(-?[0-9]{1,9}),(-?[0-9]{1,9})')


class _Trouble(Exception):
    """Why nothing is done."""


def main(given: list[str]) -> int:
    """Merges, and tells on standard output what is in conflict, and what else is to be known. Gives the exit status: 0 where all is merged, 1 where
    there are conflicts, 2 for trouble; then nothing is written."""
    parser = _parser()
    chosen = parser.parse_args(given)
    if sys.stdout is None:
        return _trouble('write failed')
    try:
        with contextlib.closing(Editor()) as editor:
            told = _way(parser, chosen)(editor, chosen)
            front = '' if chosen.name is None else f'{chosen.name}: '
            write(''.join(f'{front}{each}\n' for each in told.lines))
            # What could not be told is not written either.
            told.finish()
        return told.status
    except (Error, OSError, MemoryError, ValueError, NotInConflict, _Trouble) as fault:
        return _trouble(str(fault) or 'no memory is left')


def _parser() -> argparse.ArgumentParser:
    parser = argparse.ArgumentParser(prog='roskevad merge', usage=_USAGE, description='Brings two sides of one map together.')
    parser.add_argument('maps', metavar='MAP', type=Path, nargs='*', help='the map that both began with, that of ours, which theirs is brought into, '
                        'and that of theirs; with --check also one that was made of them')
    parser.add_argument('-o', metavar='OUT', dest='out', type=Path, help='the file to write')
    parser.add_argument('--resolve', metavar='FILE', type=Path, help='a map that is in conflict in git: tells what is left, and settles what is said')
    parser.add_argument('--check', action='store_true', help='writes nothing, and tells where RESULT is not what a merge gives')
    parser.add_argument('--take', metavar='SIDE[:KEY]', type=_taken, action='append', default=[],
                        help='takes ours or theirs in all conflicts, or in one by its key, which is told in brackets')
    parser.add_argument('--ask', action='store_true', help='asks at the terminal which side to take in each conflict')
    parser.add_argument('--marks', action='store_true', help='puts a layer of rectangles on the map, one for each conflict that is left')
    parser.add_argument('--offset', metavar='SIDE:X,Y', type=_offset, action='append', default=[],
                        help='by how many columns and rows ours or theirs has moved all in the map, where that is guessed otherwise')
    parser.add_argument('--project', metavar='FILE', type=Path, help='the .tiled-project that says what classes have; else the nearest one above the map')
    parser.add_argument('--name', metavar='NAME', help='how the map is called in what is told')
    return parser


def _taken(word: str) -> tuple[str, Side]:
    """A key with its side. Raises ArgumentTypeError."""
    try:
        return said_side(word)
    except ValueError as fault:
        raise argparse.ArgumentTypeError(str(fault)) from None


def _offset(word: str) -> tuple[Side, tuple[int, int]]:
    """A side with columns and rows. Raises ArgumentTypeError."""
    found = _OFFSET.fullmatch(word)
    x, y = map(int, found.groups()[1:]) if found else (MAX_SIDE + 1, 0)
    if found is None or max(abs(x), abs(y)) > MAX_SIDE:
        raise argparse.ArgumentTypeError(f'ours or theirs, columns to the right and rows down, as theirs:2,-1, and none past {MAX_SIDE}: {word!r}')
    return cast(Side, found[1]), (x, y)


class _Told(NamedTuple):
    """The status, what is told, and what is done behind that."""

    status: int
    lines: list[str]
    finish: Callable[[], object] = lambda: None


_Way = Callable[[Editor, argparse.Namespace], _Told]
_Attempt = Callable[[dict[str, Side]], Merge]


def _way(parser: argparse.ArgumentParser, chosen: argparse.Namespace) -> _Way:
    """What is to be done."""
    count = len(chosen.maps)
    settles = chosen.take or chosen.ask or chosen.marks
    if chosen.check and count == 4 and not (chosen.out or chosen.resolve or settles):
        return _checked
    if chosen.resolve and count == 0 and not (chosen.out or chosen.check):
        return _resolved
    if count == 3 and chosen.out and not (chosen.check or chosen.resolve):
        return _merged
    parser.error(_WAYS)


# ---- a merge of three maps


def _sides(editor: Editor, maps: Sequence[Path]) -> tuple[Optional[Document], Document, Document]:
    """The maps. One of no bytes, which git gives where both sides have added a map, is none."""
    base = opened(editor, maps[0], 'base') if os.path.getsize(maps[0]) else None
    return base, opened(editor, maps[1], 'ours'), opened(editor, maps[2], 'theirs')


def _merged(editor: Editor, chosen: argparse.Namespace) -> _Told:
    """Merges into the file to write."""
    first, ours, theirs = _sides(editor, chosen.maps)
    take = dict(chosen.take)
    if first is None:
        return _of_both_added(chosen, ours, theirs, take)
    base = first
    notes, project = _project(chosen, Path(chosen.name or chosen.out))
    corner = ours.origin

    def attempt(take: dict[str, Side]) -> Merge:
        return merged(base, ours, theirs, Choices(take), dict(chosen.offset), project)

    found = attempt(take)
    _see_keys(take, found)
    found = _asked(found, take, attempt) if chosen.ask else found
    do_merge(ours, found)
    is_marked = chosen.marks and bool(found.conflicts)
    if is_marked:
        mark(ours, found.conflicts, corner)

    def finish() -> None:
        if found.lines or is_marked:
            _save(ours, chosen.out)
        else:
            _keep(chosen.maps[1], chosen.out)

    return _Told(_IN_CONFLICT if found.conflicts else _MERGED, [*notes, *told_of(found, chosen.name is None)], finish)


def _save(ours: Document, out: Path) -> None:
    try:
        save_as_opened(ours, out.absolute())
    except Refused as refusal:
        raise refusal._of(str(out)) from None


def _asked(found: Merge, take: dict[str, Side], attempt: _Attempt) -> Merge:
    """What comes of it once each conflict was asked for. What is answered is not asked again where other conflicts come of an answer."""
    from .asking import Stopped, asked

    known = {*take}
    while True:
        left = [each for each in found.conflicts if each.key not in known]
        if not left:
            return found
        known |= {each.key for each in left}
        try:
            take.update(asked(left))
        except Stopped as stopped:
            take.update(stopped.sides)
            return attempt(take)
        found = attempt(take)


def _see_keys(take: dict[str, Side], found: Merge) -> None:
    """Raises _Trouble where a key is of no conflict."""
    there = {each.key for each in found.conflicts} | {each.key for each, _ in found.settled}
    missing = next((key for key in take if key and key not in there), None)
    if missing is not None:
        raise _Trouble(f'no conflict has this key: {missing}')


def _of_both_added(chosen: argparse.Namespace, ours: Document, theirs: Document, take: dict[str, Side]) -> _Told:
    """Of a map that both sides have added the one or the other, whole."""
    return _told_of_both(chosen, take, not ours.difference(theirs), lambda side: _keep(chosen.maps[2 if side == 'theirs' else 1], chosen.out))


def _told_of_both(chosen: argparse.Namespace, take: dict[str, Side], are_alike: bool, keep: Callable[[Optional[Side]], object]) -> _Told:
    """The same, by a function that keeps the map of a side, that of ours where none is taken."""
    missing = next((key for key in take if key not in ('', _KEY_OF_BOTH)), None)
    if missing is not None:
        raise _Trouble(f'no conflict has this key: {missing}')
    side = take.get(_KEY_OF_BOTH, take.get(''))
    side = _asked_of_both() if side is None and chosen.ask and not are_alike else side

    def finish() -> None:
        keep(side)

    if are_alike:
        return _Told(_MERGED, [], finish)
    words = f'map: {_BOTH_ADDED.format(side or "ours")}'
    key = '' if chosen.name is not None else f' [{_KEY_OF_BOTH}]'
    return _Told(_IN_CONFLICT, [f'conflict: {words}{key}'], finish) if side is None else _Told(_MERGED, [f'{side}: {words}'], finish)


def _asked_of_both() -> Optional[Side]:
    from .asking import Stopped, asked
    from .difference import MAP

    try:
        return asked([Conflict(MAP, '', 'added', None, None, None, _BOTH_ADDED.format('ours'))]).get(_KEY_OF_BOTH)
    except Stopped:
        return None


def _project(chosen: argparse.Namespace, path: Path) -> tuple[list[str], Optional[Path]]:
    """The project's file, which is looked for where none is said; with a note where one is found that can't be read."""
    if chosen.project is not None:
        return [], chosen.project
    folder = path.absolute().parent
    found = project_of(folder, _top(folder))
    try:
        types_of(found)
    except (ValueError, OSError) as fault:
        return [f'note: what {found} says of classes is not known: {fault}'], None
    return [], found


def _top(folder: Path) -> Path:
    """The folder above which no project is looked for: that of the repository."""
    return next((each for each in (folder, *folder.parents) if (each / '.git').exists()), folder)


def told_of(found: Merge, has_keys: bool) -> list[str]:
    """What is told of a merge, each in a line."""
    return [*(f'note: {each}' for each in found.notices), *(f'{side}: {each}' for each, side in found.settled),
            *(f'conflict: {each}' + (f' [{each.key}]' if has_keys else '') for each in found.conflicts)]


def _keep(ours: Path, out: Path) -> None:
    """Has the file to write have the bytes of another one."""
    if not (out.exists() and os.path.samefile(ours, out)):
        replace(out.absolute(), ours.read_bytes())


# ---- a map that is in conflict in git


def _resolved(editor: Editor, chosen: argparse.Namespace) -> _Told:
    """Settles in the file what is said, and tells what is left."""
    job = Resolving(editor, chosen.resolve)
    take = dict(chosen.take)
    if job.base is None:
        return _told_of_both(chosen, take, job.are_alike(), job.write)
    notes, project = _project(chosen, chosen.resolve)

    def attempt(take: dict[str, Side]) -> Merge:
        return job.attempt(take, dict(chosen.offset), project)

    found = attempt(take)
    _see_keys(take, found)
    found = _asked(found, take, attempt) if chosen.ask else found
    done = [] if found.conflicts else [f'note: all is settled; git add {chosen.resolve} tells git so']
    return _Told(_IN_CONFLICT if found.conflicts else _MERGED, [*notes, *told_of(found, True), *done], lambda: job.settle(found, chosen.marks))


# ---- a look at what was merged elsewhere


def _checked(editor: Editor, chosen: argparse.Namespace) -> _Told:
    """Where a result is not as a merge gives it, but for what is in conflict."""
    base, ours, theirs = _sides(editor, chosen.maps)
    result = opened(editor, chosen.maps[3], 'result')
    if base is None:
        return _Told(_MERGED, [])
    _, project = _project(chosen, Path(chosen.name or chosen.maps[3]))
    found = merge(base, ours, theirs, offset=dict(chosen.offset), project=project)
    conflicts = found.conflicts
    if (ours.width, ours.height) != (result.width, result.height) and any(each.key == _KEY_OF_SIZE for each in conflicts):
        # Somebody has taken the size of theirs, with what lies outside that of ours.
        if found.lines:
            ours.undo()
        found = merge(base, ours, theirs, {_KEY_OF_SIZE: 'theirs'}, dict(chosen.offset), project)
        conflicts = (*found.conflicts, *(each for each, _ in found.settled))
    unseen = conflicts if conflicts and is_merged_as_text(*chosen.maps) else ()
    told = [*(f'not as merged: {each}' for each in not_as_merged(base, ours, result, conflicts)),
            *(f'in conflict, and merged as text, untold: {each}' for each in unseen)]
    return _Told(_IN_CONFLICT if told else _MERGED, told)


def _trouble(text: str) -> int:
    with contextlib.suppress(OSError):
        if sys.stderr is not None:
            print(f'roskevad merge: {text}', file=sys.stderr, flush=True)
    return _TROUBLE
