# SPDX-License-Identifier: MIT OR Apache-2.0
"""What a JSON text of a line says, or its first fault, by the rules of docs/session-lines.md. A number that is not whole is refused, or
set aside as `--all-maps` does it."""
import json

from lib.asides import ELSEWHERE, aside, has_name
from lib.edits import Refused, see
from lib.json_texts import depth_of, has_fraction
from lib.json_texts import tree_of as tree_of_bytes

# How deep a text may nest to be read as JSON at all, and how deep that of a line.
MOST_READ, MOST_DEEP = 127, 88

_sets_aside = False


def set_fractions_aside(sets_aside=True):
    """From now on the model sets aside what is not whole in a line, as the program does with `--all-maps`; or refuses it."""
    global _sets_aside
    _sets_aside = sets_aside


def sets_fractions_aside():
    return _sets_aside


def is_whole(number):
    return isinstance(number, int) and not isinstance(number, bool)


def tree_of(text):
    """The tree of a JSON text, in which each number that is not whole is a float."""
    found = tree_of_bytes(text.encode())
    if not found:
        raise Refused(60)
    return found[0]


def seen(tree, place, is_right):
    """What a tree says at a place of a map, with its fractions set aside, where that is right before they are."""
    see(_sets_aside or not has_fraction(tree), 61)
    said = aside(tree, place)
    see(depth_of(json.dumps(said)) <= MOST_DEEP, 60)
    see(not has_name(tree) and is_right(tree), 63)
    return said


def json_word(text, place=ELSEWHERE, is_right=lambda tree: True):
    """What a JSON text of a line says."""
    return seen(tree_of(text), place, is_right)


def object_word(text, place=ELSEWHERE):
    """The object that a JSON text of a line says."""
    return json_word(text, place, lambda tree: isinstance(tree, dict))
