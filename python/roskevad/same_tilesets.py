# SPDX-License-Identifier: MIT OR Apache-2.0
"""Which tilesets of two maps are the same."""
from typing import Iterator, Optional

from .tiled_maps import Members

#: A tileset in two maps, or in one of them.
Pair = tuple[Optional[Members], Optional[Members]]


def first_id(tileset: Members) -> int:
    return int(tileset['firstgid'])


def tileset_name(tileset: Members) -> str:
    return str(tileset.get('source') or tileset.get('name', ''))


def tileset_key(tileset: Members) -> tuple[str, str]:
    """What tells a tileset from others: its file, or its name and its picture."""
    return tileset_name(tileset), str(tileset.get('image', ''))


def paired_tilesets(before: list[Members], behind: list[Members]) -> Iterator[Pair]:
    """Tilesets that are the same in two maps: by their file, or by name and picture, or by name, and those that are left by their first ids."""
    old, new = [*before], [*behind]
    for key in (lambda each: (tileset_key(each), first_id(each)), tileset_key, tileset_name, first_id):
        for one in [*old]:
            after = next((each for each in new if key(each) == key(one)), None)
            if after is not None:
                old.remove(one)
                new.remove(after)
                yield one, after
    yield from ((each, None) for each in old)
    yield from ((None, each) for each in new)


def in_turn(pairs: list[tuple[int, int]]) -> Iterator[tuple[int, int]]:
    """First ids with new ones, both from the lowest on, in an order in which none goes past another."""
    yield from ((old, new) for old, new in reversed(pairs) if new > old)
    yield from ((old, new) for old, new in pairs if new < old)
