# SPDX-License-Identifier: MIT OR Apache-2.0
"""The forms of lines, as the program's help has them."""
import itertools
import re
import subprocess

from lib.places import BIN


def spread(form):
    """The forms that a form with alternatives, as `yes|no`, stands for."""
    choices = [[word] if word == '||' else word.split('|') for word in form.split(' ')]
    return [' '.join(words) for words in itertools.product(*choices)]


def forms_in(help_text, heading='Session lines:'):
    """Those below a heading."""
    listed = help_text.partition(f'{heading}\n')[2].partition('\n\n')[0]
    return re.findall(r'^  (.+)$', listed, re.MULTILINE)


TEXT = subprocess.run(
    [BIN / 'tile_editor', '--help'], capture_output=True, text=True, check=True
).stdout
HELP = forms_in(TEXT)
# Those of the lines for all edits, and of the lines of own members among them.
FURTHER = forms_in(TEXT, 'Further lines, with --all-edits:')
OF_MEMBERS = [form for form in FURTHER if form.startswith('member ')]
