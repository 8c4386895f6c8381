# SPDX-License-Identifier: MIT OR Apache-2.0
"""Tells what differs between two maps, with the statuses of diff(1).

    roskevad diff [--json | --lines] [--png FILE] A B
    roskevad diff --text MAP

As git calls it for two versions of a file, it is `roskevad diff --git` and seven words more: the name of the file, and of each version where it
stands, its hash and its mode. As git's textconv it is `roskevad diff --text`, which writes a file that is no map as it is.
"""
import argparse
import contextlib
import os
import sys
from pathlib import Path
from typing import Sequence

from .difference import Difference, told_as_json
from .document import Document
from .editor import Editor
from .faults import Error, Refused

_SAME, _DIFFERS, _TROUBLE = 0, 1, 2
# How many words git gives, with the first.
_WORDS_OF_GIT = 8
_NOWHERE = Path(os.devnull)
#: What stands before the lines: which options an editor needs for them.
_HEAD = '# all edits, all maps'


def main(given: list[str]) -> int:
    """Tells it on standard output, and gives the exit status: 0 where the maps are the same, 1 where they differ, 2 for trouble."""
    if given[:1] == ['--git'] and len(given) > 1:
        return _tell_git(given[1], [Path(each) for each in given[2:_WORDS_OF_GIT:3]])
    parser = argparse.ArgumentParser(prog='roskevad diff', description='Tells what differs between two maps.')
    parser.add_argument('before', metavar='A', type=Path, help='a map that Tiled saves, in JSON or XML')
    parser.add_argument('after', metavar='B', type=Path, nargs='?', help='another one')
    ways = parser.add_mutually_exclusive_group()
    ways.add_argument('--json', action='store_true', help='writes the changes as JSON')
    ways.add_argument('--lines', action='store_true', help='writes lines that lead from A to B, which were tried on a copy')
    ways.add_argument('--text', action='store_true', help='writes one map as a text, a line for each fact')
    parser.add_argument('--png', metavar='FILE', type=Path, help='writes a picture of B, too: cells as squares, what differs in colours')
    chosen = parser.parse_args(given)
    if (chosen.after is None) != chosen.text or chosen.text and chosen.png:
        parser.error('wanted are two maps; with --text one, and no picture')
    if sys.stdout is None:
        return _trouble('write failed')
    try:
        if chosen.text:
            return _write_text(chosen.before)
        with contextlib.closing(Editor()) as editor:
            found = opened(editor, chosen.before, 'before').difference(opened(editor, chosen.after, 'after'))
        if chosen.png:
            chosen.png.write_bytes(found.picture())
        return _tell(found, chosen.json, chosen.lines)
    except (Error, OSError, MemoryError) as fault:
        return _trouble(str(fault) or 'no memory is left')


def _write_text(path: Path) -> int:
    """Writes a map as a text, and a file that is no map as it is, since git goes on with no status but 0."""
    from .map_texts import text_of_map

    try:
        with contextlib.closing(Editor()) as editor:
            text = ''.join(f'{each}\n' for each in text_of_map(opened(editor, path, 'map')))
    except Refused:
        text = path.read_bytes().decode('utf-8', 'surrogateescape')
    write(text, 'surrogateescape')
    return _SAME


def _tell_git(name: str, versions: Sequence[Path]) -> int:
    """Tells git what differs between two versions of a file; of one that is in conflict it names none. It goes on with its next file, whatever
    becomes of this one."""
    told = [f'map {name}']
    try:
        told += [f'  {each}' for each in _told_of(versions)]
    except (Error, OSError, MemoryError) as fault:
        told.append(f'  what differs is not told: {fault}')
    try:
        write('\n'.join([*told, '']))
    except OSError as fault:
        return _trouble(str(fault))
    return _SAME


def _told_of(versions: Sequence[Path]) -> list[str]:
    """What is told of two versions."""
    if len(versions) < 2:
        return ['in conflict']
    before, after = versions
    if _NOWHERE in versions:
        return ['added' if before == _NOWHERE else 'removed']
    with contextlib.closing(Editor()) as editor:
        return [str(each) for each in opened(editor, before, 'before').difference(opened(editor, after, 'after'))]


def opened(editor: Editor, path: Path, name: str) -> Document:
    """The map of a file. Raises Refused of the path alone."""
    try:
        return editor.open(path, name)
    except Refused as refusal:
        raise refusal._of(str(path)) from None


def _tell(found: Difference, as_json: bool, as_lines: bool) -> int:
    lines = found.lines if as_lines else ()
    if lines is None:
        return _trouble('\n  '.join(['no lines can say all of this:', *map(str, found.left)]))
    text = told_as_json(found) if as_json else '\n'.join([_HEAD, *lines]) if lines else '' if as_lines else str(found)
    write(f'{text}\n' if text else '')
    return _DIFFERS if found else _SAME


def write(text: str, errors: str = 'backslashreplace') -> None:
    """Writes on standard output, in UTF-8 as the maps are. Where that takes nothing any more, what Python still has to write at its end has
    nowhere to go."""
    try:
        sys.stdout.buffer.write(text.encode('utf-8', errors))
        sys.stdout.flush()
    except OSError:
        os.dup2(os.open(os.devnull, os.O_WRONLY), sys.stdout.fileno())
        raise


def _trouble(text: str) -> int:
    with contextlib.suppress(OSError):
        if sys.stderr is not None:
            print(f'roskevad diff: {text}', file=sys.stderr, flush=True)
    return _TROUBLE
