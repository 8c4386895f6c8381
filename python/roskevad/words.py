# SPDX-License-Identifier: MIT OR Apache-2.0
"""Checks words before they become a line: what no line can say is told with the caller's own words, and nothing is sent."""
import operator
import re
from typing import Any, Callable, Mapping, Optional

from .file_kinds import KINDS
from .layouts import LAYOUTS
from .limits import MAX_COORDINATE, MAX_NUMBER, MAX_TEXT
from .names import is_document_name

#: What stands between the two texts of a macro.
DIVIDER = ' || '
#: What a MapObject has its id under, so that it can be the value of a property.
OBJECT = '_object_id'
_COLOUR = re.compile('#([0-9a-fA-F]{6}|[0-9a-fA-F]{8})')
_SHOWN = 60
# How many ids are listed.
_MOST_LISTED = 12


def _shown(word: str) -> str:
    return repr(word) if len(word) <= _SHOWN else f'{word[:_SHOWN]!r}..'


def listed(ids: list[int]) -> str:
    """Ids in a message, the first ones where they are many."""
    return ', '.join(map(str, ids[:_MOST_LISTED])) + (f' and {len(ids) - _MOST_LISTED} more' if len(ids) > _MOST_LISTED else '')


def text(word: object, what: str) -> str:
    """A text that a line can have. Raises TypeError where it is no text, and ValueError where no line can say it."""
    if not isinstance(word, str):
        raise TypeError(f'{what} is a str: {type(word).__name__}')
    if not word:
        raise ValueError(f'{what} is empty: give it one character or more')
    if any(ord(each) < 32 or ord(each) == 127 for each in word):
        raise ValueError(f'{what} has a newline, a tab or another control character in it: {_shown(word)}')
    size = len(whole_text(word, what).encode())
    if size > MAX_TEXT:
        raise ValueError(f'{what} has {size} bytes in UTF-8, and may have {MAX_TEXT}: {_shown(word)}')
    return word


def whole_text(word: str, what: str) -> str:
    """A text of whole characters. Raises ValueError where it has half of one."""
    try:
        word.encode()
    except UnicodeEncodeError:
        raise ValueError(f'{what} has half of a character in it: {_shown(word)}') from None
    return word


def key(word: object, what: str = 'the name of a property') -> str:
    """The name of a property, or of what is spelled as one. Raises as `text` does, and ValueError for a space."""
    said = text(word, what)
    if ' ' in said:
        raise ValueError(f'{what} has a space in it, which it may not have: {_shown(said)}')
    return said


def is_text(word: str) -> bool:
    """Whether a line can have a text as its rest."""
    return _takes(text, word)


def is_key(word: str) -> bool:
    """Whether a line can have a text as one of its words."""
    return _takes(key, word)


def _takes(check: Callable[[object, str], str], word: str) -> bool:
    try:
        check(word, '')
    except ValueError:
        return False
    return True


def looked_up(name: object) -> bytes:
    """The bytes of a name that something is looked up by: those of no name, where it is no text."""
    return name.encode('utf-8', 'surrogatepass') if isinstance(name, str) else b'\xff'


def macro(words: object, action: Optional[object]) -> str:
    """Both texts of a macro, as the line `begin` has them. Raises as `text` does, and ValueError where they would be divided at
    another place."""
    said = text(words, 'the text of a macro')
    whole = said if action is None else said + DIVIDER + text(action, 'the action text of a macro')
    found = whole.find(DIVIDER)
    if found != (-1 if action is None else len(said)):
        raise ValueError(f'the text of a macro has {DIVIDER!r} in it, which divides it from its action text: {_shown(said)}')
    return whole


def document(name: object) -> str:
    """The name of a document. Raises TypeError where it is no text, and ValueError where no line can say it."""
    if not isinstance(name, str):
        raise TypeError(f'the name of a document is a str: {type(name).__name__}')
    if not is_document_name(name):
        raise ValueError(f'the name of a document is 1 to 64 of A-Z a-z 0-9 _ . -, and begins with neither . nor -: {_shown(name)}')
    return name


def taken(name: str) -> str:
    """Why a map is not opened under the name of its file."""
    return f'a document {name!r} is open: open(path, name) gives this one another name'


def _whole(value: Any, what: str) -> int:
    try:
        return operator.index(value)
    except TypeError:
        raise TypeError(f'{what} is a whole number: {value!r}') from None


def coordinate(value: object, what: str) -> int:
    """A coordinate. Raises TypeError where it is no whole number, and ValueError where it is out of range."""
    number = _whole(value, what)
    if abs(number) > MAX_COORDINATE:
        raise ValueError(f'{what} is from -1,000,000,000 to 1,000,000,000: {number}')
    return number


def number(value: object, what: str) -> int:
    """A number from 0. Raises as `coordinate` does."""
    whole = _whole(value, what)
    if not 0 <= whole <= MAX_NUMBER:
        raise ValueError(f'{what} is from 0 to 4,294,967,295: {whole}')
    return whole


def one_of(word: object, words: tuple[str, ...], what: str) -> str:
    """A word of a few. Raises ValueError for any other."""
    if word not in words:
        raise ValueError(f'{what} is one of {", ".join(words)}: {word!r}')
    return str(word)


def layout(word: object) -> Optional[str]:
    """The name of a layout; `None` where none is named. Raises ValueError for any other word."""
    return None if word is None else one_of(word, LAYOUTS, 'the layout of a map')


def file_kind(word: object) -> Optional[str]:
    """The kind of a file; `None` where none is named. Raises ValueError for any other word."""
    return None if word is None else one_of(word, tuple(KINDS), 'the kind of a file')


# ---- properties

#: The types of properties that the line `prop set` says, and all that are set.
PLAIN_TYPES = ('string', 'file', 'int', 'bool', 'color', 'object')
TYPES = (*PLAIN_TYPES, 'float', 'class', 'list')
_TAKES: dict[str, Any] = {
    'string': str, 'file': str, 'int': int, 'bool': bool, 'color': str, 'float': (int, float), 'class': Mapping, 'list': (list, tuple),
}
_NUMBERS = ('int', 'float')


def setting(name: str, value: Any, kind: str) -> Any:
    """The value of a property of a type, as a file has it. Raises TypeError where the type takes no such value, and ValueError where it is
    no id or no colour."""
    what = f'the property {name!r}'
    if kind == 'object':
        return number(getattr(value, OBJECT, value), what)
    whole = _as_whole(value) if kind in _NUMBERS else value
    if not isinstance(whole, _TAKES[kind]) or kind in _NUMBERS and isinstance(whole, bool):
        raise TypeError(f'{what} has the type {kind}, which takes no {type(value).__name__}: {value!r}')
    if kind == 'color' and whole and not _COLOUR.fullmatch(whole):
        raise ValueError(f'{what} is a color: # and 6 or 8 digits of 0-9a-f, or nothing, and not {_shown(whole)}')
    return whole


def plain_setting(value: Any, kind: str) -> Optional[str]:
    """The type and the value of a property, as the line `prop set` has them; None where that can't say them."""
    if kind == 'bool':
        return f'bool {"true" if value else "false"}'
    if kind == 'int':
        return f'int {value}' if abs(value) <= MAX_COORDINATE else None
    if kind == 'object':
        return f'object {value}'
    is_said = kind in PLAIN_TYPES and is_text(value) and (kind != 'color' or value == value.lower())
    return f'{kind} {value}' if is_said else None


def is_whole(value: object) -> bool:
    """Whether a value is a whole number, also of another library."""
    if isinstance(value, int):
        return True
    from numbers import Integral

    return isinstance(value, Integral)


def _as_whole(value: Any) -> Any:
    """A number of another library as an int, and anything else as it is."""
    return operator.index(value) if is_whole(value) and not isinstance(value, bool) else value


def type_of(name: str, value: Any) -> str:
    """The type of a property that is set for the first time. Raises TypeError where there is none for the value."""
    if isinstance(value, bool):
        return 'bool'
    if is_whole(value):
        return 'int'
    if hasattr(value, OBJECT):
        return 'object'
    kinds: tuple[tuple[str, Any], ...] = ('string', str), ('float', float), ('class', Mapping), ('list', (list, tuple))
    kind = next((kind for kind, takes in kinds if isinstance(value, takes)), None)
    if kind is None:
        raise TypeError(f'the property {name!r} is a str, a bool, a number, a MapObject, a dict or a list: {type(value).__name__}')
    return kind
