# SPDX-License-Identifier: MIT OR Apache-2.0
"""Asks at a terminal which side is taken of each conflict."""
import sys
from typing import Iterable, Optional

from .choices import Side
from .difference_command import write
from .merged_maps import Conflict

_QUESTION = '  o ours, t theirs,{} O or T the same for all that are left, s skip it, q stop asking: '
_EACH = ' e each cell for itself,'
_ONE: dict[str, Side] = {'o': 'ours', 't': 'theirs'}


def asked(conflicts: Iterable[Conflict]) -> dict[str, Side]:
    """The sides that are answered, by keys: what has one key is asked once, and what is skipped has no side. Raises Stopped."""
    by_key: dict[str, list[Conflict]] = {}
    for conflict in conflicts:
        by_key.setdefault(conflict.key, []).append(conflict)
    found: dict[str, Side] = {}
    rest: Optional[Side] = None
    for key, each in by_key.items():
        if rest is None:
            write(''.join(f'{one}\n' for one in each))
            cells = _cells_of(each)
            answer = _answer(bool(cells))
            if answer == 'q':
                raise Stopped(found)
            if answer == 'e':
                _ask_each(cells, found)
                continue
            rest = _ONE[answer.lower()] if answer in ('O', 'T') else None
            side = _ONE.get(answer.lower())
        else:
            side = rest
        if side is not None:
            found[key] = side
    return found


class Stopped(Exception):
    """No more is to be asked; `sides` has what was answered."""

    def __init__(self, sides: dict[str, Side]):
        super().__init__()
        self.sides = sides


def _cells_of(conflicts: list[Conflict]) -> list[tuple[str, str]]:
    """The keys and the words of the cells of a conflict of more than one."""
    one = conflicts[0]
    if one.what != 'cells' or len(one.ours['cells']) < 2:
        return []
    sides = zip(one.ours['cells'], one.ours['tiles'], one.theirs['tiles'])
    return [(f'layer:{one.subject.id}/cell/{x},{y}', f'  cell {x},{y}: {ours} (ours), {theirs} (theirs)') for (x, y, _), ours, theirs in sides]


def _ask_each(cells: list[tuple[str, str]], found: dict[str, Side]) -> None:
    """Asks for each cell of a conflict. Raises Stopped."""
    rest: Optional[Side] = None
    for key, words in cells:
        side = rest
        if side is None:
            write(f'{words}\n')
            answer = _answer(False)
            if answer == 'q':
                raise Stopped(found)
            side = _ONE.get(answer.lower())
            rest = side if answer in ('O', 'T') else None
        if side is not None:
            found[key] = side


def _answer(has_cells: bool) -> str:
    """A letter that is asked for, again until it is one; at the end of what can be read it is to stop."""
    letters = 'otOTsqe' if has_cells else 'otOTsq'
    while True:
        write(_QUESTION.format(_EACH if has_cells else ''))
        answer = sys.stdin.readline() if sys.stdin is not None else ''
        if not answer or not sys.stdin.isatty():
            write('\n')
        if not answer:
            return 'q'
        letter = answer.strip()[:1]
        if letter and letter in letters:
            return letter
