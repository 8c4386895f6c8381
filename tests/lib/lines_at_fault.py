# SPDX-License-Identifier: MIT OR Apache-2.0
"""Lines of session with one word at fault, and what is said of that word. They are made of the table of forms, crates/session/forms.txt: what may
stand for a word is read off what people are told that it is to be."""
import functools
import re
import sys

from lib.places import TOP

sys.path.insert(0, str(TOP / 'tools'))
import forms as table  # noqa: E402

KINDS, TYPES = table.kinds(), table.types()
# What no kind says: of the first word, and of a word that differs from form to form.
A_COMMAND, AN_ACTION, A_DOCUMENT = 'a command', 'a word that a form has there', "a document's name, or -"


def either(words):
    return f'{", ".join(words[:-1])} or {words[-1]}'


# ---- what may stand for a word, and what may not


def numbers(low, high):
    low, high = int(low), int(high)
    wrong = ['', '-', '-0', '01', '+1', '1.5', 'x', '--1', '7\r', '²', str(low - 1), str(high + 1)]
    return [str(low), str(high), '7', '1'], wrong


def names(most):
    wrong = ['', '.a', '-a', '-x', '../a', 'a/b', 'ä', 'a\r', 'A' * (int(most) + 1)]
    return ['a', '_x.y-1', 'A' * int(most)], wrong


def keys(most):
    most = int(most)
    return ['a', 'é', '"', '||', 'k' * most], ['', 'k' * (most + 1), 'a\x7f', '\x01', 'a\tb']


def texts(most):
    most = int(most)
    right = ['a', ' a', 'a b  c', 'yes', '|| a', 'ä' * (most // 2), 'x' * most]
    return right, ['', 'x' * (most + 1), 'a \x1f b', '\x7f', 'a\tb', '\r', 'ä' * (most // 2 + 1)]


def owners(more=None):
    wrong = ['', 'Map', 'map:1', 'layer', 'layer:', 'layer:01', 'object:x', 'object:4294967296', 'tile:1', 'layer:1:1']
    right = ['map', 'layer:1', 'object:4294967295']
    if more:
        return [*right, 'tileset:1', 'tileset:4294967295'], [*wrong, 'tileset', 'tileset:', 'tileset:01', 'tileset:1:1', 'Tileset:1']
    return right, [*wrong, 'tileset:1']


def json_texts():
    """Any text of one byte or more is read as a JSON word. Whether it is JSON is asked later."""
    return ['1', ' ', '{"a": [1, 2]}', 'x', '||', '\x7f', '[' * 200], ['']


def colours():
    return ['#012def', '#ff00ff00'], ['', 'ff0000', '#FF0000', '#12345', '#1234567', 'red']


def tiles(width):
    row = ','.join(['4294967295'] + ['0'] * (int(width) - 1))
    short = [] if width == '1' else ['5', f'{row},5']
    return [row, f'{row},{row}'], ['', f'{row},', f',{row}', f'{row},01', 'x', '1.5', *short]


def choices(words):
    """One of some words. A word with a letter more, in capitals or with a carriage return is another one."""
    words = re.split(', | or ', words)
    wrong = ['', *(other for word in words for other in (word.upper(), f'{word}s', f'{word}\r'))]
    return words, [word for word in wrong if word not in words]


# By what people are told, from the first one on that fits.
MADE = [
    (r'a whole number from (-?\d+) to (\d+).*', numbers),
    (r'a name of 1 to (\d+) of A-Z a-z 0-9 _ \. - that begins with neither \. nor -', names),
    (r'a name of 1 to (\d+) bytes, with no space and no control character', keys),
    (r'a text of 1 to (\d+) bytes, with no control character', texts),
    (r'map, or layer: or object:( or tileset:)? and an id', owners),
    (r'a JSON text', json_texts),
    (r'# and 6 or 8 of the digits 0-9 and a-f', colours),
    (r'whole numbers joined by commas, which fill rows of (\d+)', tiles),
    (r'(\w+(?:, \w+)* or \w+)', choices),
]


@functools.cache
def samples(wanted):
    """What may stand for a word that is to be this, and what may not."""
    for pattern, made in MADE:
        if found := re.fullmatch(pattern, wanted):
            return made(*found.groups())
    raise AssertionError(f'crates/session/forms.txt: no test makes lines for {wanted!r}')


# ---- the lines of a dialect


class Dialect:
    """The lines that an editor reads, by the parts of the table that have their forms."""

    def __init__(self, *parts):
        self.forms = [form.split(' ') for form in table.help_forms(parts)]
        self.choices = {}
        for row in [form.shown().split(' ') for part in parts for form in table.forms(part)]:
            for at, word in enumerate(row):
                if '|' in word and word != '||':
                    self.choices.setdefault(tuple(row[:at]), []).extend(word.split('|'))

    # ---- what a word of a form is to be

    def words_at(self, front):
        """The words that the forms have behind some words of forms, each once."""
        at = len(front)
        return list(dict.fromkeys(form[at] for form in self.forms if form[:at] == front and len(form) > at))

    def wanted_of(self, form, at, front):
        """What people are told that a word of a form is to be behind some words."""
        word, others = form[at], self.words_at(form[:at])
        if at == 0:
            return A_COMMAND
        if '-' in others:
            return A_DOCUMENT
        if word.isupper():
            return kind_of(form, at, front)
        return either(others) if self.choices.get(tuple(form[:at])) == others else AN_ACTION

    def right_of(self, form, at, front):
        """What may stand as a word of a form behind some words."""
        word = form[at]
        if word == 'TEXT' and '||' in form:
            return ['a', 'a b', '||', 'x' * 200]
        return samples(kind_of(form, at, front))[0] if word.isupper() else [word]

    def wrong_of(self, form, at, front):
        """What may not stand as a word of a form behind some words."""
        word, others = form[at], self.words_at(form[:at])
        wrong = samples(kind_of(form, at, front))[1] if word.isupper() else choices(word)[1]
        return [each for each in wrong if each not in others]

    def told_of(self, form, place, words):
        """What is said of the word of a line at which it leaves a form, by the words of both."""
        if place == len(form):
            return f'word {place + 1} is one too many'
        wanted = self.wanted_of(form, place, words[:place])
        return f'word {place + 1} {"is not" if place < len(words) else "is missing:"} {wanted}'

    # ---- lines

    def faults_of(self, form, at, front):
        """What stands from a word of a form on that is wrong, each as its words: a wrong word, alone and with others behind it, and none."""
        if at == len(form):
            return [] if takes_all(form, at - 1, front[:-1]) else [[''], ['x'], ['7']]
        if form[at] == '||':
            # The text in front of bars takes all that is left.
            return []
        # Without the space behind them, bars are part of a text.
        missing = [] if front[-1] == '||' else [[]]
        is_open = takes_all(form, at, front)
        wrong = [
            [word, *rest] for word in self.wrong_of(form, at, front) for rest in ([], ['1', 'b']) if not (rest and word == '' and is_open)
        ]
        return missing + wrong

    def lines_at_fault(self, chance):
        """Lines that are refused as 4: each form, left at each of its words in each way, behind words that chance takes. Each is its words,
        the place of the one at fault, from 0, and the form."""
        for form in self.forms:
            for fault in range(1, len(form) + 1):
                front = []
                for at in range(fault):
                    front.append(chance.choice(self.right_of(form, at, front)))
                for rest in self.faults_of(form, fault, front):
                    yield front + rest, fault, form

    def forms_behind(self, form, fault):
        """The forms that begin with so many words of one, as they are shown."""
        return [' '.join(other) for other in self.forms if other[:fault] == form[:fault]]


PLAIN = Dialect(*table.PARTS)
FOR_ALL_EDITS = Dialect(*table.PARTS, table.ALL_EDITS)


def kind_of(form, at, front):
    """What people are told that a word in capitals of a form is to be behind some words."""
    word = form[at]
    if word == 'VALUE':
        value, told = TYPES[front[-1]]
        return told or (either(value.split('|')) if '|' in value else KINDS.get(value, KINDS['*']))
    # What a kind says of a word beside another one, as of WIDTH in front of TILES.
    for pair in (f'{word} {"".join(form[at + 1 : at + 2])}', f'{form[0]} {word}'):
        if pair in KINDS:
            return KINDS[pair]
    told = KINDS.get(word, KINDS['*'])
    return told.replace('WIDTH', front[-1]) if word == 'TILES' else told


def takes_all(form, at, front):
    """Whether a word of a form behind some words is a text, or a JSON text, which takes all that is left."""
    return form[at].isupper() and kind_of(form, at, front).startswith(('a text ', 'a JSON '))
