# SPDX-License-Identifier: MIT OR Apache-2.0
"""Which side is taken of what both sides of a map have changed otherwise."""
from typing import Literal, Mapping, Optional, Union, cast

Side = Literal['ours', 'theirs']
#: The sides, in the order in which they are told.
SIDES: tuple[Side, Side] = ('ours', 'theirs')
#: A side for all conflicts, or for each by its key; the key '' stands for all others.
Take = Union[Side, Mapping[str, Side]]


class Choices:
    """The sides that are taken, by the keys of conflicts. It notes which keys there were."""

    __slots__ = '_sides', '_met'

    def __init__(self, take: Optional[Take] = None):
        """Raises TypeError, and ValueError where something is no side."""
        if take is not None and not isinstance(take, (str, Mapping)):
            raise TypeError(f'what is taken is a side, or a dict of sides: {type(take).__name__}')
        sides: Mapping[str, Side] = {} if take is None else {'': take} if isinstance(take, str) else take
        for side in sides.values():
            if side not in SIDES:
                raise ValueError(f'a side is ours or theirs: {side!r}')
        self._sides = dict(sides)
        self._met: set[str] = set()

    def side(self, key: str) -> Optional[Side]:
        """The one that is taken of a conflict, if one is."""
        self._met.add(key)
        return self._sides.get(key, self._sides.get(''))

    def said(self, key: str) -> Optional[Side]:
        """The side that is taken of this conflict alone, if one is."""
        if key in self._sides:
            self._met.add(key)
        return self._sides.get(key)

    def unmet(self) -> list[str]:
        """The keys that are of no conflict."""
        return [key for key in self._sides if key and key not in self._met]


def said_side(word: str) -> tuple[str, Side]:
    """A key with its side, as `theirs:object:2/x` says them; `theirs` alone has no key. Raises ValueError."""
    side, _, key = word.partition(':')
    if side not in SIDES:
        raise ValueError(f'a side is ours or theirs: {side!r}')
    return key, cast(Side, side)
