# SPDX-License-Identifier: MIT OR Apache-2.0
"""The forms of session lines, the limits of the editor and the words of refusals, as crates/session/forms.txt, the files `limits.rt`
and crates/refusals have them."""
import itertools
import re
from dataclasses import dataclass
from pathlib import Path

TOP = Path(__file__).resolve().parent.parent
TABLE = TOP / 'crates' / 'session' / 'forms.txt'
#: The parts of the table that have forms, in their order.
PARTS = ('files', 'edits', 'history')
#: That of the lines for all edits, which an editor for all edits reads, too.
ALL_EDITS = 'all edits'
#: The limits that the languages share: the crate's file, and the names of its constants.
LIMITS_OF = {
    'session/src/limits.rt': ('MAX_LINE', 'MAX_DOCUMENT_NAME', 'MAX_FILE_NAME', 'MAX_TEXT', 'MAX_KEY', 'MAX_COORDINATE'),
    'map_model/src/limits.rt': (
        'MAX_SIDE', 'MAX_CELLS', 'MAX_TILE_SIDE', 'MAX_LAYERS', 'MAX_GROUPS', 'MAX_OBJECTS', 'MAX_PROPERTIES', 'MAX_TILESETS',
        'MAX_NEXT_ID', 'MAX_FIRST_ID', 'MAX_PIXELS',
    ),
    'undo_stack/src/limits.rt': ('MAX_LIMIT', 'MAX_DEPTH'),
    'tiled_maps/src/text.rt': ('LONGEST',),
}
#: Limits whose names would say too little outside of their crate.
RENAMED = {'MAX_DEPTH': 'MAX_OPEN_MACROS', 'LONGEST': 'MAX_FILE_BYTES'}


@dataclass(frozen=True)
class Form:
    """A form of the table, the refusals of its line, and what the line does."""

    form: str
    refusals: str
    does: str

    def shown(self):
        """The form without a `+`."""
        return self.form.replace('[+]', '')

    def all(self):
        """The forms without alternatives that it stands for, those without a `+` first."""
        fronts = [self.shown()] + ([self.form.replace('[+]', '+')] if '[+]' in self.form else [])
        return [each for front in fronts for each in spread(front)]


def spread(form):
    """The forms that a form with alternatives, as `yes|no`, stands for."""
    choices = [[word] if word == '||' else word.split('|') for word in form.split(' ')]
    return [' '.join(words) for words in itertools.product(*choices)]


def parts():
    """The rows of each part of the table, each divided."""
    found, rows = {}, []
    for line in TABLE.read_text().splitlines():
        if line.startswith('['):
            rows = found.setdefault(line.strip('[]'), [])
        elif line and not line.startswith('#'):
            rows.append([each.strip() for each in re.split(r' ;(?= |$)', line)])
    return found


def limits():
    """The limits by their names."""
    found = {}
    for path, names in LIMITS_OF.items():
        text = (TOP / 'crates' / path).read_text()
        for name in names:
            number = re.search(rf'^pub const {name}: \w+ = ([\d_]+);', text, re.MULTILINE)[1]
            found[RENAMED.get(name, name)] = int(number.replace('_', ''))
    return {**found, 'MAX_NUMBER': 2**32 - 1}


def refusals():
    """The words of refusals by their numbers, as they stand in replies."""
    sources = sorted((TOP / 'crates' / 'refusals' / 'src').glob('*.rt'))
    found = [each for path in sources for each in re.findall(r'"(\d+) (\w[^"]*)"', path.read_text())]
    return {int(number): words for number, words in sorted(found, key=lambda each: int(each[0]))}


def filled(text):
    """A text with its limits."""
    return re.sub(r'\{(\w+)\}', lambda name: f'{limits()[name[1]]:,}', text)


def wanted(text):
    """What people are told that a word is to be, with its limits as they are told."""
    return re.sub(r'\{(\w+)\}', lambda name: str(limits()[name[1]]), text)


def kinds():
    """What people are told that a word of a form is to be, by that word; of others by `*`."""
    return {word: wanted(told) for words, _, told in parts()['kinds'] for word in words.split(', ')}


def types():
    """The word of a form that a value of each type is, and what people are told where no kind says it."""
    return {name: (value, wanted(*told) if told else None) for name, value, *told in parts()['types']}


def forms(part):
    """The forms of a part."""
    return [Form(form, refusals, does) for form, refusals, does in ([*row, '', ''][:3] for row in parts()[part])]


def help_forms(listed=PARTS):
    """The forms of some parts as `--help` lists them."""
    return [each for part in listed for form in forms(part) for each in form.all()]


def typed(form):
    """The forms of the packages for one: the types of a property's value have forms of their own."""
    if not form.endswith(' TYPE VALUE') or '+ ' in form:
        return [form]
    values = {}
    for name, value, *_ in parts()['types']:
        values.setdefault(value, []).append(name)
    return [form.replace('TYPE VALUE', f'{"|".join(names)} {value}') for value, names in values.items()]


def forms_by_command():
    """The forms of the packages by their first words, without a `+`."""
    found = {}
    for part in (*PARTS, ALL_EDITS):
        for form in forms(part):
            fronts = [form.shown()] + ([form.form.replace('[+]', '+')] if '[+]' in form.form else [])
            found.setdefault(form.shown().split(' ')[0], []).extend(each for front in fronts for each in typed(front))
    return found
