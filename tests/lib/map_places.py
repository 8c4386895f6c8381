# SPDX-License-Identifier: MIT OR Apache-2.0
"""What Python's json module tells of the place at which a map is refused, for
test_map_faults.py."""
import json
import math
import re

from lib.asides import has_fraction, has_name
from lib.cases import unlike
from lib.infinite import is_infinite
from lib.json_texts import number_of, tree_of

ABSENT = object()
SHOWN = 40
DECODER = json.JSONDecoder(parse_int=number_of, parse_float=number_of)
NUMBER = re.compile(rb'-?[0-9][-+.0-9eE]*')
STRINGS = re.compile(r'"(?:[^"\\]|\\.)*("|$)|[][{}]', re.DOTALL)
# What may follow the midst of a text, of a number or a word, or what stands between tokens.
ENDS_OF_TEXT = ['"', *('\\udc00"'[at:] for at in range(7)), *('0' * count + '"' for count in range(1, 5)), 'n"']
MIDDLES = [
    *('', '0', '0.0', ':0', '"":0', 'rue', 'ue', 'e', 'alse', 'lse', 'se', 'ull', 'll', 'l'),
    *ENDS_OF_TEXT,
    *(f'{end}:0' for end in ENDS_OF_TEXT),
]


def offset_of(data, line, column):
    """The offset of the byte at a line and a column."""
    start = 0
    for _ in range(line - 1):
        start = data.index(b'\n', start) + 1
    return start + column - 1


# ---- where a text is no JSON


def closers_of(text):
    """What closes the arrays and objects of a text that are open at its end."""
    opened = []
    for found in STRINGS.finditer(text):
        bracket = found[0]
        if bracket in '[{':
            opened.append({'[': ']', '{': '}'}[bracket])
        elif bracket in ']}' and opened:
            opened.pop()
    return ''.join(reversed(opened))


def is_json(text):
    """Whether a text is JSON. Most that is none is told quickly."""
    try:
        json.loads(text)
    except (ValueError, RecursionError):
        return False
    return tree_of(text.encode()) is not None


def may_go_on(data):
    """Whether bytes can be the front of some JSON."""
    text = data.decode(errors='ignore')
    closers = closers_of(text)
    return any(is_json(text + middle + closers) for middle in MIDDLES)


def is_great(data, at):
    """Whether a number begins there that is too great for a float."""
    found = NUMBER.match(data, at)
    try:
        return found is not None and math.isinf(float(found[0]))
    except ValueError:
        return False


def fault_of_byte(data, told):
    at = offset_of(data, told['line'], told['column'])
    if told['text'] != f'line {told["line"]}, column {told["column"]}' or told['shown'] is not None:
        return f'told {told}'
    try:
        data.decode()
    except UnicodeDecodeError as fault:
        return unlike(fault.start, at)
    if is_great(data, at):
        return None
    if may_go_on(data):
        return unlike(max(len(data) - 1, 0), at)
    if not may_go_on(data[:at]):
        return f'byte {at} is behind the fault'
    return f'byte {at} is before the fault' if may_go_on(data[: at + 1]) else None


# ---- places in a tree


def value_at(tree, path):
    """What stands at a path, or that it is absent."""
    for step in path:
        is_there = step in tree if isinstance(tree, dict) else isinstance(tree, list) and isinstance(step, int) and step < len(tree)
        if not is_there:
            return ABSENT
        tree = tree[step]
    return tree


def quoted(text):
    return json.dumps(text[:SHOWN], ensure_ascii=False) + ('...' if len(text) > SHOWN else '')


def fault_of_shown(value, shown):
    """What is wrong with how a value is shown, or None."""
    if isinstance(value, float):
        return unlike(value, float(shown))
    if isinstance(value, str):
        return unlike(quoted(value), shown) if value.isprintable() else None
    kinds = {dict: 'an object', list: f'an array of length {len(value) if isinstance(value, list) else 0}'}
    wanted = 'absent' if value is ABSENT else kinds.get(type(value), json.dumps(value))
    return unlike(wanted, shown)


def words_of(path):
    words = ''
    for step in path:
        if isinstance(step, int):
            words += f'[{step}]'
        elif re.fullmatch('[A-Za-z0-9_-]{1,40}', step):
            words += f'.{step}' if words else step
        else:
            words += f'[{quoted(step)}]'
    return words or 'the root'


def value_in_text(data, at):
    """The value that begins at an offset."""
    return DECODER.raw_decode(data[at:].decode())[0]


def fault_of_place(data, told):
    """What is wrong with the place that is told of a map, or None."""
    if told is None:
        return None
    if told['code'] == 51:
        places = [told[name] for name in ('path', 'shown', 'text', 'line', 'column')]
        return unlike([None] * 5, places) or (None if told['why'] else 'no reason')
    if told['path'] is None:
        return fault_of_byte(data, told)
    tree, path = tree_of(data)[0], told['path']
    value = value_at(tree, path)
    holder = value_at(tree, path[:-1]) if value is ABSENT else value
    words = f'{words_of(path)} is {told["shown"]}' if told['exact'] else f'in {words_of(path)}'
    came = value_in_text(data, offset_of(data, told['line'], told['column']))
    return (
        fault_of_shown(value, told['shown'])
        or (unlike(words, told['text']) if all(str(step).isprintable() for step in path) else None)
        or unlike(json.dumps(holder), json.dumps(came))
    )


# ---- reports


def needs_aside(data):
    """Whether a map has to be set aside: it is infinite, or has a fraction or the reserved name."""
    found = tree_of(data)
    return found is not None and (is_infinite(found[0]) or has_fraction(found[0]) or has_name(found[0]))


def told_of_report(data, told, report):
    """What the library tells of a map, and what `map_report --json` does, as far as both tell it."""
    refused = report['refused']
    is_aside = refused is not None and 'allmaps' in refused
    if is_aside:
        refused = None if refused['allmaps']['opens'] else refused['allmaps']['refused']
    if needs_aside(data) and not is_aside:
        # Without `--all-maps` it has another fault, or none.
        return None, None
    if told is None or refused is None:
        return told, refused
    pairs = [(told['code'], refused['code']), (told['words'], refused['words'])]
    if told['code'] == 51:
        pairs.append((told['why'], refused['reason']))
    elif told['path'] is None:
        pairs += [(told[name], refused['places'][0][name]) for name in ('line', 'column', 'text')]
    else:
        path = refused['places'][0]['path']
        pairs.append((told['path'], path if told['exact'] else path[: len(told['path'])]))
        pairs.append((told['text'], told['text'] if is_aside else refused['places'][0]['text']))
    return [pair[0] for pair in pairs], [pair[1] for pair in pairs]
