# SPDX-License-Identifier: MIT OR Apache-2.0
"""The codes and words of refusals, as docs/refusals.md has them."""
import re

from lib.places import TOP

PAGE = TOP / 'docs' / 'refusals.md'
ROWS = [
    (int(code), words)
    for code, words in re.findall(r'^\| (\d+) \| (.+?) \|', PAGE.read_text(), re.MULTILINE)
]
WORDS = dict(ROWS)
# The refusals of a map's file.
OF_MAPS = {code: words for code, words in ROWS if 60 <= code <= 69}


def refusal(code):
    """The reply that refuses a line by this code."""
    return f'no {code} {WORDS[code]}'
