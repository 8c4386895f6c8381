# SPDX-License-Identifier: MIT OR Apache-2.0
"""Runs the program on command lines, and compares its exit status and the first line that it writes
on each output. The launchers at the top are tried too: by their names and by links to them they run
what is in `bin/`. Besides, the program is run where its replies, its help and its version have
nowhere to go."""
import os
import subprocess
import tempfile
from pathlib import Path

from lib.cases import CORES, Case, check_each, unlike
from lib.commands import first_lines
from lib.maps import map_of, text_of, tiles
from lib.places import BIN, EXAMPLES, TILE_EDITOR, TOP, files_in

ABOUT = (
    'Edits tile maps by session lines: '
    'reads lines from standard input, and answers each with a line on'
)
NO_FOLDER = "error: a value is required for '--folder <DIR>' but none was supplied"
NO_NUMBER = "error: a value is required for '--limit <N>' but none was supplied"
BAD_NUMBER = "error: invalid value 'x' for '--limit <N>': invalid digit found in string"
TOO_LARGE = "error: invalid value '1000001' for '--limit <N>': 1000001 is not in 0..=1000000"
UNKNOWN = "error: unexpected argument '--frob' found"


def twice(option):
    return f"error: the argument '{option}' cannot be used multiple times"


# The words of a command line in a folder, the exit status, and the first lines on standard output
# and standard error.
COMMAND_LINES = [
    Case('no words', [], (0, '', '')),
    Case('a folder', ['--folder', '.'], (0, '', '')),
    Case('a folder behind an equals sign', ['--folder=.'], (0, '', '')),
    Case('a limit', ['--limit', '1000000'], (0, '', '')),
    Case('a limit and a folder', ['--limit', '3', '--folder', '.'], (0, '', '')),
    Case(
        'a folder that is not there',
        ['--folder', 'no/maps'],
        (0, '', 'tile_editor: no/maps: No such file or directory'),
    ),
    Case('a strict run', ['--strict'], (0, '', '')),
    Case('strict twice', ['--strict', '--strict'], (2, '', twice('--strict'))),
    Case('all maps', ['--all-maps'], (0, '', '')),
    Case('all maps, strict', ['--strict', '--all-maps', '--folder', '.'], (0, '', '')),
    Case(
        'all maps of a folder that is not there',
        ['--all-maps', '--folder', 'no/maps'],
        (0, '', 'tile_editor: no/maps: No such file or directory'),
    ),
    Case('all maps twice', ['--all-maps', '--all-maps'], (2, '', twice('--all-maps'))),
    Case('all edits', ['--all-edits'], (0, '', '')),
    Case(
        'all edits, all maps, strict',
        ['--all-edits', '--strict', '--all-maps', '--limit', '3', '--folder', '.'],
        (0, '', ''),
    ),
    Case('all edits twice', ['--all-edits', '--all-edits'], (2, '', twice('--all-edits'))),
    Case('help', ['--help'], (0, ABOUT, '')),
    Case('no folder', ['--folder'], (2, '', NO_FOLDER)),
    Case('an empty folder', ['--folder', ''], (2, '', NO_FOLDER)),
    Case('an empty folder behind an equals sign', ['--folder='], (2, '', NO_FOLDER)),
    Case('no limit', ['--limit'], (2, '', NO_NUMBER)),
    Case('a limit that is too large', ['--limit', '1000001'], (2, '', TOO_LARGE)),
    Case('a limit below 0', ['--limit', '-1'], (2, '', "error: unexpected argument '-1' found")),
    Case('a limit that is no number', ['--limit', 'x'], (2, '', BAD_NUMBER)),
    Case('an unknown option', ['--frob'], (2, '', UNKNOWN)),
    Case('a stray word', ['maps'], (2, '', "error: unexpected argument 'maps' found")),
    Case('a folder twice', ['--folder', 'a', '--folder', 'b'], (2, '', twice('--folder <DIR>'))),
    Case(
        'no UTF-8',
        [b'--folder=\xff'],
        (2, '', 'tile_editor: a word of the command line is not UTF-8'),
    ),
]


def fault_of_words(case):
    with tempfile.TemporaryDirectory() as folder:
        return unlike(case.wanted, first_lines([TILE_EDITOR, *case.given], folder))


def test_words():
    check_each(COMMAND_LINES, fault_of_words, CORES)


def test_what_a_limit_and_a_folder_say():
    """A document keeps so many steps, and a map is saved into that folder."""
    row = tiles(1, 4, 3, name='Tile Layer 1', data=[5] * 4 + [0] * 8)
    text = text_of(map_of(row, width=4, height=3, nextlayerid=2, nextobjectid=1))
    rows = [
        ('new town 4 3 16 16 t.tsj', 'ok 0/0 clean 0'),
        ('stamp 1 0 0 1 5', 'ok 1/1 dirty 0'),
        ('stamp 1 1 0 1 5', 'ok 2/2 dirty 0'),
        ('stamp 1 2 0 1 5', 'ok 3/3 dirty 0'),
        ('stamp 1 3 0 1 5', 'ok 3/3 dirty 0'),
        ('save a.tmj', f'saved a.tmj {len(text)}'),
    ]
    with tempfile.TemporaryDirectory() as folder:
        (Path(folder) / 'maps').mkdir()
        done = subprocess.run(
            [TILE_EDITOR, '--limit', '3', '--folder', 'maps'],
            input=''.join(f'{line}\n' for line, _ in rows),
            capture_output=True,
            text=True,
            cwd=folder,
            timeout=60,
        )
        came = (done.returncode, done.stderr, done.stdout.split('\n')[:-1])
        files = (os.listdir(folder), files_in(Path(folder) / 'maps'))
    fault = unlike((0, '', [reply for _, reply in rows]), came) or unlike(
        (['maps'], {'a.tmj': text}), files
    )
    assert not fault, fault


def test_input_that_is_a_folder():
    """A folder in the place of the input can be opened and not read."""
    with tempfile.TemporaryDirectory() as folder:
        place = os.open(folder, os.O_RDONLY)
        fault = unlike(
            (1, '', 'tile_editor: read failed: Is a directory'), first_lines([TILE_EDITOR], folder, stdin=place)
        )
        os.close(place)
    assert not fault, fault


# ---- the launchers


def make_links(folder):
    """Links of other names, to other links, and in other folders."""
    (folder / 'deep').mkdir()
    for name, goal in [
        ('editor', TOP / 'tile_editor'),
        ('deep/again', '../editor'),
        ('map_report', TOP / 'map_report'),
        ('report', 'map_report'),
        ('page', TOP / 'tile_page'),
        ('build', EXAMPLES / 'build.sh'),
    ]:
        (folder / name).symlink_to(goal)


def launchers(links):
    """Commands that are run at the top, with the command that they must lead to."""
    editor, report = BIN / 'tile_editor', BIN / 'map_report'
    return [
        Case('the launcher', ['./tile_editor'], [editor]),
        Case('the launcher of the report', ['./map_report'], [report]),
        Case('the launcher by its absolute path', [TOP / 'tile_editor'], [editor]),
        Case('the launcher in the shell', ['bash', 'tile_editor'], [editor]),
        Case('the launcher of the report in the shell', ['bash', 'map_report'], [report]),
        Case(
            'the launcher with a CDPATH',
            ['env', f'CDPATH={links}:{EXAMPLES}', 'crates/../tile_editor'],
            [editor],
        ),
        Case('a link', [links / 'editor'], [editor]),
        Case('a link to a link', [links / 'deep' / 'again'], [editor]),
        Case(
            'a link in the PATH', ['env', f'PATH={links}:{os.environ["PATH"]}', 'editor'], [editor]
        ),
        Case('a link to the report', [links / 'map_report'], [report]),
        Case('a link to a link to the report', [links / 'report'], [report]),
        Case(
            'a link to the page',
            [links / 'page'],
            ['env', 'PYTHONPATH=python', 'python3', '-m', 'roskevad.page'],
        ),
    ]


def fault_of_launcher(case):
    wanted = first_lines([*case.wanted, '--version'], TOP)
    return (
        unlike(wanted, first_lines([*case.given, '--version'], TOP))
        if wanted[::2] == (0, '') and wanted[1]
        else f'{wanted}'
    )


def test_launchers():
    """Each prints the version of the program that it leads to."""
    with tempfile.TemporaryDirectory() as folder:
        make_links(Path(folder))
        check_each(launchers(Path(folder)), fault_of_launcher)


def test_the_build_script():
    """By a link and in the shell, over a session without lines."""
    with tempfile.TemporaryDirectory() as folder:
        make_links(Path(folder))
        check_each(
            [
                Case('a link to the build script', ([f'{folder}/build'], TOP), (0, '', '')),
                Case(
                    'the build script in the shell', (['bash', 'build.sh'], EXAMPLES), (0, '', '')
                ),
            ],
            lambda case: unlike(
                case.wanted, first_lines([*case.given[0], '/dev/null', folder], case.given[1])
            ),
        )


# ---- nowhere to go


def fault_without_room(case):
    words, sink = case.given
    command = f'printf "status\\n" | "$0" {words} >{sink}'
    return unlike(case.wanted, first_lines(['bash', '-c', command, TILE_EDITOR], TOP))


def test_output_that_has_nowhere_to_go():
    """Replies, help and the version to a full device, and to an output that is closed: the reason is
    the system's."""
    check_each(
        [
            Case(
                f'{words or "replies"} to {sink}',
                (words, sink),
                (1, '', f'tile_editor: write failed: {reason}'),
            )
            for sink, reason in (
                ('/dev/full', 'No space left on device'),
                ('&-', 'Bad file descriptor'),
            )
            for words in ('', '--help', '--version')
        ],
        fault_without_room,
    )
