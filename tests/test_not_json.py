# SPDX-License-Identifier: MIT OR Apache-2.0
"""Reports texts that are no JSON by the program `map_report`, and compares the line and the column.
They must be those of the first byte that no JSON could have there; where the file ends too early,
those of its last byte; at a number that is too great, those of its first byte."""
from lib.cases import CORES, check_each
from lib.refusals import refusal
from test_reports import fault_of, report

# What no JSON has, by the count of bytes before the first one that is wrong.
TEXTS = {
    b'"a\nb"': 2,
    b'"\0"': 1,
    b'"\x1f"': 1,
    b'"tab\t"': 4,
    b'"\\x"': 2,
    b'"ab\\u12g4"': 7,
    b'"\\u\\"': 3,
    b'"\\\n"': 2,
    '"é\n"'.encode(): 3,
}
# Halves of a pair of surrogates that stand alone.
SURROGATES = {
    b'"\\ud800"': 7,
    b'"\\ud800x"': 7,
    b'"\\uDBFF\\n"': 8,
    b'"\\ud83d\\u0041"': 9,
    b'"\\ud83d\\ud83d"': 10,
    b'"\\udc00"': 4,
    b'"\\uDFFF"': 4,
    b'"\\u00e9\\ud83d\\ude00\\q"': 20,
}
NUMBERS = {
    b'01': 1,
    b'-01': 2,
    b'00': 1,
    b'1.': 2,
    b'-': 1,
    b'--1': 1,
    b'1e+': 3,
    b'1e': 2,
    b'1.e3': 2,
    b'0x10': 1,
    b'1.2.3': 3,
    b'1e5.0': 3,
    b'12a': 2,
    b'+1': 0,
    b'.5': 0,
    b'-Infinity': 1,
}
TOO_GREAT = dict.fromkeys([b'1e400', b'-1e400', b'1' * 400, b'1.5e+309'], 0)
WORDS = {
    b'trux': 3,
    b'tru': 3,
    b'truee': 4,
    b'fals e': 4,
    b'nul': 3,
    b'nil': 1,
    b'True': 0,
    b'None': 0,
    b'NaN': 0,
    b"'a'": 0,
}
# What is right as far as it goes.
BEGINNINGS = [
    b'"a',
    b'"',
    b'"\\',
    b'"\\u00',
    b'"\\ud83d',
    b'"\\ud83d\\u',
    b'-',
    b'1.',
    b'1e',
    b'1e-',
    b't',
    b'nul',
    b'12',
    b'"a"',
    b'0',
    b'1.5',
]
# Whole files, each with its place.
FILES = [
    (b'{\n  "height": ]\n}', (2, 13)),
    (b'{"a":1', (1, 6)),
    (b'', (1, 1)),
    (b' ', (1, 1)),
    (b'\n\n', (2, 1)),
    (b'[1,\n2,\n\n]', (4, 1)),
    (b'["\xff"]', (1, 3)),
    (b'["ab\xc3"]', (1, 5)),
    (b'[01,"\xff"]', (1, 6)),
    (b'["\xed\xa0\x80"]', (1, 3)),
    (b'\xff', (1, 1)),
    (b'[' * 200, (1, 128)),
    (b'\xef\xbb\xbf{}', (1, 1)),
    (b'[1 2]', (1, 4)),
    (b'{"a":1}\n{}', (2, 1)),
    (b'["a" "b\n"]', (1, 6)),
    (b'[1\n01]', (2, 1)),
    (b'{1:2}', (1, 2)),
    (b'{01:2}', (1, 2)),
    (b'{a:2}', (1, 2)),
    (b'{"a"}', (1, 5)),
    (b'{"a":1,}', (1, 8)),
    (b'{"a":1\n', (1, 7)),
    (b'[1,\n', (1, 4)),
    (b'[1e400', (1, 2)),
    (b'[1e400,2', (1, 2)),
    (b'[1,\n 1e400 , 2]', (2, 2)),
    (b'{"a":[1,2],"b":1e999}', (1, 16)),
    ('["ä", "ö", 01]'.encode(), (1, 15)),
    (b'{"a\n', (1, 4)),
    (b'{"a\r\n', (1, 4)),
    (b'{"a":[1,2},\n"b":3}', (1, 10)),
    (b'{"a":{"b":1],\n\n"c":2}', (1, 12)),
    (b'[[1,2],{"a":[}]', (1, 14)),
    (b'{"a" 1,\n"b":2}', (1, 6)),
    (b'{"a":1,,\n"b":2}', (1, 8)),
    (b'{"a":1 "b":2}', (1, 8)),
    (b'[1}', (1, 3)),
    (b'[1]]', (1, 4)),
    (b'}', (1, 1)),
    (b'[1,]', (1, 4)),
    (b'{"a":1e400}]', (1, 6)),
]


def not_json(data, *places):
    """Bytes that are no JSON, refused at one of these places, each a line and a column."""
    told = [f'{refusal(60)}: line {line}, column {column}' for line, column in places]
    return report(f'60 in {data[:40]}', data, *told)


def in_files(part, before):
    """What no JSON has, as the root, in an array, and in an object."""
    # Behind a number at the root comes the end of the file, whose place is that of its last byte.
    yield not_json(part, (1, min(before, len(part) - 1) + 1))
    yield not_json(b'[1,\n ' + part + b' ,2]', (2, before + 2))
    yield not_json(b'{"a":' + part + b',"b":[3]}', (1, before + 6))
    yield not_json(b'[' + part + b']\n', (1, before + 2))


def see(parts):
    check_each([case for each in parts.items() for case in in_files(*each)], fault_of, CORES)


def test_texts():
    see(TEXTS)


def test_surrogates():
    see(SURROGATES)


def test_numbers():
    see(NUMBERS)


def test_numbers_that_are_too_great():
    see(TOO_GREAT)


def test_words():
    see(WORDS)


def test_files_that_end_too_early():
    cases = [not_json(b'[' + part, (1, len(part) + 1)) for part in BEGINNINGS]
    check_each(cases, fault_of, CORES)


def test_files():
    check_each([not_json(*row) for row in FILES], fault_of, CORES)


def test_xml():
    """A map in XML also gets what `--all-maps` makes of it, and that its name doesn't fit."""
    lines = [
        f'{refusal(60)}: line 1, column 1',
        'with --all-maps: its orientation is none that Tiled knows',
        'its name says JSON, and it is XML',
    ]
    case = report('XML', b'<?xml version="1.0"?>\n<map/>', '\n  '.join(lines))
    check_each([case], fault_of, CORES)
