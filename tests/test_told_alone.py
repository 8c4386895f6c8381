# SPDX-License-Identifier: MIT OR Apache-2.0
"""Looks in the packages and in the page for sources that take lines or replies apart: by a regular
expression, a split, a slice or a prefix. What a line did the library tells, with its refusal and the
word at fault. So only those do that are listed here, each with why; a file that no longer does is
taken out of the list."""
import re

from lib.cases import Case, check_each, unlike
from lib.places import TOP, tracked

FOLDERS = ('js/', 'python/roskevad/', 'page/')
# What variables are called that hold a line, a session or a reply.
HELD = r'(?:\w+\.)?(?:\w*[lL]ines?|\w*[rR]epl(?:y|ies)|session|refusal)(?:\[[^\]]*\]|\.(?:text|line|reply|decode\(\)))?'
CUTS = 'split|slice|substring|startsWith|endsWith|match|matchAll|replace|replaceAll|indexOf|lastIndexOf|search|charAt|trim|trimEnd'
CUTS += '|partition|rpartition|startswith|endswith|removeprefix|removesuffix|lstrip|rstrip|strip|find|rfind|splitlines'
WAYS = [
    # A text is cut, or asked how it begins.
    re.compile(rf'\b{HELD}\??\.(?:{CUTS})\('),
    re.compile(rf'\b{HELD}\??\.includes\((?!"\\n")'),
    # An expression is tried on it.
    re.compile(rf'\.(?:test|exec|fullmatch|finditer)\({HELD}\b'),
    re.compile(rf'\bre\.\w+\([^,()]*, *{HELD}\b'),
    # A part of it is taken, or looked for.
    re.compile(r'\b(?:line|reply)\[[^\]]*:[^\]]*\]'),
    re.compile(r"""(?:'[^']*'|"[^"]*") (?:not )?in (?:line|reply|whole)\b"""),
    # An expression or a word of replies and lines.
    re.compile(r"""/\^\(?(?:\?:)?(?:ok|no|map|docs|tile|text|stamp|undo|use|select|layer|object|prop)\b"""),
    # What stands behind the first word of a reply; replies one behind the other.
    re.compile(r"""\[len\(b?['"](?:ok|map|text) ['"]\):\]|textOf\(\w+\)\.split\("""),
    re.compile(r"""\.(?:slice|startsWith|startswith|removeprefix)\((?:b?['"](?:ok|no|map|docs|tile|text|use|begin|undo) ?['"]|MAP\.|TEXT\.)"""),
]
# Words of a comment are no code.
COMMENT = re.compile(r'^\s*(?:#|//|\*|/\*).*$|\s(?:#|//) .*$', re.MULTILINE)

# The files that may, and why.
LISTED = {
    # The packages.
    'js/caller_lines.js': 'a line that a caller has written himself: whether macros begin with it, and whether it may close a document',
    'python/roskevad/line_bytes.py': 'the same',
    'js/forms.js': 'the forms to write a line in that a caller has written wrong: by its first word',
    'python/roskevad/forms.py': 'the same',
    'js/faults.js': 'a message shows a long line shortened',
    'python/roskevad/faults.py': 'the same',
    'js/roskevad.js': 'many replies come as one text, each before a newline; the map stands behind the first word of the reply to `show`',
    'python/roskevad/editor.py': 'the same; and a line has no newline',
    'python/roskevad/__main__.py': 'the prompt reads what a person has typed: `?`, and the names of files',
    # The page.
    'page/core/document_steps.js': 'the lines of some steps are part of a list: none is taken apart',
    'page/core/line_kinds.js': 'what a line is about, before it is done',
    'page/core/log_words.js': 'the log words a line',
    'page/core/macros.js': 'lines of an open macro are taken back, and those of steps are grouped: by their first words',
    'page/core/map_shifts.js': 'by how much a line moves all that is in a map, which no step has',
    'page/core/open_document.js': 'the journal: which of the lines that were kept is that of a save that failed',
    'page/core/open_documents.js': 'lines that were played name documents and files',
    'page/core/page_editor.js': 'lines that a person has typed or plays: those of files are done otherwise',
    'page/core/player.js': 'a session that is played: lines of files are done otherwise, and a line is shown shortened',
    'page/core/recovery.js': 'the journal: which file a line has opened',
    'page/core/refusals.js': 'words for a refused line that a person has typed',
    'page/core/replay.js': 'the journal: lines that were kept are done anew',
    'page/core/step_ways.js': 'the way in which a step was made, which no step has',
    'page/panels/line_panel.js': 'lines and replies that were listed, as they are shown and copied',
    # Other lines than those of a session.
    'page/view/layouts.js': 'the keys of a cache',
    'page/view/thing_painter.js': 'a line of a text that is drawn',
    'python/roskevad/page/server.py': 'a line of a request',
    'python/roskevad/saving.py': 'a line of /proc/locks',
}


def taken_apart(path):
    """Where a source takes lines or replies apart."""
    code = COMMENT.sub('', path.read_text())
    return [each.strip() for each in code.split('\n') if any(way.search(each) for way in WAYS)]


def sources():
    """The sources of the packages and of the page, by their names."""
    named = {str(path.relative_to(TOP)): path for pattern in ('*.js', '*.py') for path in tracked(pattern)}
    return {name: path for name, path in named.items() if name.startswith(FOLDERS)}


def test_ways_are_found():
    """Each way to take a line or a reply apart is found, and what is none is not."""
    taken = [
        'line.split(" ")', 'const word = this.line.slice(3);', "reply.startswith('ok ')", 'lines[0].partition(b" ")', 'STATUS.exec(reply)',
        "re.fullmatch(r'no', reply.decode())", 'reply?.startsWith("no ")', "'discard ' in line", 'reply[4:]', 'const FORM = /^ok (\\d+)/;',
        'textOf(bytes).split("\\n")', 'shown.slice(MAP.length)', "self._say('text 1')[len('text '):]", 'said.removeprefix("map ")',
    ]
    left = ['lines.push(line)', 'text.split(",")', 'replies.map((reply) => reply.length)', 'path.split("/")', 'line.length']
    check_each([Case(each, each, True) for each in taken] + [Case(each, each, False) for each in left],
               lambda case: unlike(case.wanted, any(way.search(case.given) for way in WAYS)))


def test_files_that_take_lines_apart():
    """They are those that are listed, and no others."""

    def fault_of(case):
        found = taken_apart(case.given)
        if case.wanted and not found:
            return 'it takes no line or reply apart any more: take it out of the list'
        return None if case.wanted or not found else f'it is not listed, and has {found[:3]}'

    there = sources()
    assert not {*LISTED} - {*there}, f'listed, and not there: {sorted({*LISTED} - {*there})}'
    check_each([Case(name, path, name in LISTED) for name, path in there.items()], fault_of)
