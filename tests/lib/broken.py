# SPDX-License-Identifier: MIT OR Apache-2.0
"""Texts of maps that are changed by chance, for test_broken_maps.py: a byte, a token, a member, an
entry or a number is put in, taken out, doubled or replaced, or the text ends early."""
import re

from lib.places import EXAMPLE_MAPS, SESSION_MAPS, TOP

TOKEN = re.compile(rb'"(?:[^"\\]|\\.)*"|-?[0-9][-+.0-9eE]*|[a-z]+|[^\s]', re.DOTALL)
NUMBERS = [
    b'0',
    b'-0',
    b'-1',
    b'1',
    b'2',
    b'0.5',
    b'1.0',
    b'1e0',
    b'-1.5',
    b'1E-7',
    b'4096',
    b'4097',
    b'65536',
    b'268435456',
    b'1000000001',
    b'-1000000001',
    b'2147483646',
    b'2147483647',
    b'2147483648',
    b'4294967295',
    b'4294967296',
    b'9007199254740993',
    b'9223372036854775807',
    b'9223372036854775808',
    b'18446744073709551615',
    b'18446744073709551616',
    b'-9223372036854775808',
    b'-9223372036854775809',
    b'1e400',
    b'-1e400',
    b'1e-400',
    b'9' * 400,
    b'01',
    b'-',
    b'1.',
    b'.5',
    b'+1',
    b'1e',
    b'0x10',
    b'NaN',
]
VALUES = [
    b'null',
    b'true',
    b'false',
    b'0',
    b'-1',
    b'0.5',
    b'5',
    b'""',
    b'"0"',
    b'"map"',
    b'"tilelayer"',
    b'"objectgroup"',
    b'"imagelayer"',
    b'"group"',
    b'{"id":18,"layers":[],"type":"group"}',
    b'"base64"',
    b'"csv"',
    b'"zlib"',
    b'"AAAA"',
    b'[]',
    b'{}',
    b'[[]]',
    b'[0]',
    b'[{}]',
    b'{"":0}',
    b'{"a":[null]}',
    b'"\\ud800"',
    b'"\\ud83d\\ude00"',
    b'"\\u0000"',
    b'"\x01"',
    b'"\xff"',
    b"''",
    b'nul',
    '"\u00e9 \u2028 \U0001f600"'.encode(),
    b'//',
    b'[0,]',
    b'{"a":1,}',
    b'{"a":1,"a":0.5}',
    b'{"a":0.5,"a":1}',
]
NAMES = [
    b'"width"',
    b'"height"',
    b'"type"',
    b'"id"',
    b'"name"',
    b'"data"',
    b'"objects"',
    b'"layers"',
    b'"tilesets"',
    b'"firstgid"',
    b'"source"',
    b'"properties"',
    b'"value"',
    b'"encoding"',
    b'"compression"',
    b'"version"',
    b'"gid"',
    b'"x"',
    b'"visible"',
    b'"infinite"',
    b'""',
    b'"x\\u0000"',
    b'"wid\\u0074h"',
    b'"Width"',
    b'kept',
    b'0',
]


OPENING, CLOSING = (b'[', b'{'), (b']', b'}')
# What an entry of an array stands behind, and what is none.
ENTRY_AFTER, NO_ENTRY = (b'[', b','), (b']', b',')


def ends_of_values(tokens):
    """Behind which token each value ends, by the token that it begins at; the last one for a value
    that is not closed."""
    ends, opened = list(range(1, len(tokens) + 1)), []
    for at, token in enumerate(tokens):
        if token in OPENING:
            opened.append(at)
            ends[at] = len(tokens)
        elif token in CLOSING and opened:
            ends[opened.pop()] = at + 1
    return ends


class Text:
    """A map's text, with the places of its tokens and of its members and entries, which may be
    broken off."""

    def __init__(self, name, data):
        self.name, self.data = name, data
        self.tokens = [found.span() for found in TOKEN.finditer(data)]
        self.numbers = [span for span in self.tokens if data[span[0]] in b'-0123456789']
        self.members, self.entries = [], []
        self.find_parts([data[first:behind] for first, behind in self.tokens])

    def span(self, first, behind):
        return self.tokens[first][0], self.tokens[behind - 1][1]

    def find_parts(self, tokens):
        """Members are spans of a name and a value, entries are those of a value in an array."""
        ends, opened = ends_of_values(tokens), []
        for at, (token, before, after) in enumerate(zip(tokens, [b'', *tokens], [*tokens[1:], b''])):
            if after == b':' and at + 2 < len(tokens):
                self.members.append((self.span(at, at + 1), self.span(at + 2, ends[at + 2])))
            elif before in ENTRY_AFTER and token not in NO_ENTRY and opened and opened[-1] == b'[':
                self.entries.append(self.span(at, ends[at]))
            if token in OPENING:
                opened.append(token)
            elif token in CLOSING and opened:
                opened.pop()

    def at(self, span):
        return self.data[slice(*span)]

    def with_part(self, span, part):
        """The text with other bytes in place of some."""
        return self.data[: span[0]] + part + self.data[span[1] :]

    def without_part(self, span):
        """The text without a member or an entry and a comma beside it."""
        front, back = self.data[: span[0]].rstrip(), self.data[span[1] :].lstrip()
        if back.startswith(b','):
            return front + back[1:]
        return (front[:-1] if front.endswith(b',') else front) + back


def changed_byte(chosen, text):
    """A byte is put in, taken out, or replaced."""
    data, at = text.data, chosen.randrange(len(text.data))
    byte = bytes(
        [chosen.choice([chosen.randrange(256), chosen.choice(b'{}[]:,"\\-+.eE0159 \n\ttrufalsn')])]
    )
    return chosen.choice(
        [
            data[:at] + byte + data[at:],
            data[:at] + data[at + 1 :],
            data[:at] + byte + data[at + 1 :],
        ]
    )


def changed_token(chosen, text):
    """A token is taken out, doubled, or replaced by another."""
    span, other = chosen.choice(text.tokens), chosen.choice(text.tokens)
    token = text.at(span)
    return text.with_part(
        span, chosen.choice([b'', token + token, text.at(other), chosen.choice(VALUES)])
    )


def changed_member(chosen, text):
    """A member is taken out, doubled, renamed, or gets another value."""
    (name, value), (other_name, other_value) = chosen.choice(text.members), chosen.choice(
        text.members
    )
    whole = name[0], value[1]
    new_value = chosen.choice([text.at(value), text.at(other_value), chosen.choice(VALUES)])
    new_name = chosen.choice(
        [text.at(other_name), chosen.choice(NAMES), text.at(name)[:-1] + b'x"']
    )
    way = chosen.choice(['out', 'doubled', 'renamed', 'value'])
    if way == 'out':
        return text.without_part(whole)
    if way == 'doubled':
        return text.with_part(whole, text.at(whole) + b',' + text.at(name) + b':' + new_value)
    return text.with_part(name, new_name) if way == 'renamed' else text.with_part(value, new_value)


def changed_entry(chosen, text):
    """An entry of an array is taken out, doubled, put in many times, or replaced."""
    span, other = chosen.choice(text.entries), chosen.choice(text.entries)
    entry = text.at(span)
    way = chosen.choice(['out', 'doubled', 'many', 'value'])
    if way == 'out':
        return text.without_part(span)
    if way == 'doubled':
        return text.with_part(span, entry + b',' + entry)
    if way == 'many':
        many = [chosen.choice([b'0', b'{}', b'[]', b'""'])] * chosen.choice([2, 256, 257, 300])
        return text.with_part(span, b','.join([entry, *many]))
    return text.with_part(span, chosen.choice([text.at(other), chosen.choice(VALUES)]))


def changed_number(chosen, text):
    """A number becomes another one, negative, huge or a fraction."""
    span = chosen.choice(text.numbers)
    number = text.at(span)
    return text.with_part(
        span,
        chosen.choice(
            [
                b'-' + number,
                number + b'0' * chosen.randrange(1, 25),
                number + b'.5',
                number + b'e1',
                *(chosen.choice(NUMBERS) for _ in range(4)),
            ]
        ),
    )


def cut(chosen, text):
    """The text ends early."""
    return text.data[: chosen.randrange(len(text.data))]


# Each way to change a text, and what must be in it.
WAYS = [
    (changed_byte, 'data'),
    (changed_token, 'tokens'),
    (changed_member, 'members'),
    (changed_member, 'members'),
    (changed_entry, 'entries'),
    (changed_number, 'numbers'),
    (cut, 'data'),
]


def originals():
    """The maps of each folder."""
    return [
        [
            Text(str(path.relative_to(TOP)), path.read_bytes())
            for path in sorted(folder.glob('*.tmj'))
        ]
        for folder in (EXAMPLE_MAPS, SESSION_MAPS)
    ]


# ---- texts that take much memory


def many(text):
    """A list of so many entries that its room was doubled just before the last one."""
    return b'[' + b','.join([text] * 131_073) + b']'


def nested(opening, closing):
    """A list of values that stand 120 deep in one another."""
    return b'[' + b','.join([opening * 120 + b'0' + closing * 120] * 1000) + b']'


# Each by its name, with the bytes of heap that a byte of it may take.
HEAVY_TEXTS = [
    ('empty arrays', many(b'[]'), 24),
    ('empty objects', many(b'{}'), 24),
    ('numbers', many(b'0'), 35),
    ('arrays of one number', many(b'[0]'), 53),
    ('objects of one number', many(b'{"":0}'), 134),
    ('arrays in one another', nested(b'[', b']'), 70),
    ('objects in one another', nested(b'{"":', b'}'), 174),
]


def with_kept(text, value):
    """The text of a map with one more member, which the editor keeps."""
    return text[:-1] + b',"kept":' + value + b'}'
