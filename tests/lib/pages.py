# SPDX-License-Identifier: MIT OR Apache-2.0
"""Reads the pages of the repository: their links, the files that they name, their commands, and
their transcripts, of which each is run as it stands on the page.

A table whose first two columns are Line and Reply is a transcript. It is run over a copy of the
example maps, in a new map of 4 by 3 cells where it opens none. Where it needs more, a comment in
front of it says so, with a line for each:

  <!-- transcript
  file city.tmj examples/maps/town.tmj     a file of its folder, and where its bytes stand here
  say layer add object Things              a line that is said before those of the table
  with --all-edits                         an option of the program
  go on                                    it goes on where the one before it on this page ends
  -->

A block of `console` has commands behind `$ `, each with what it prints. Commands stand in indented
blocks too. They are run in a copy of the repository, where `/tmp` is a folder of the run."""
import os
import re
import shutil
import subprocess
import sys
import tempfile
from pathlib import Path

from lib.places import EXAMPLE_MAPS, TOP, files_in

ROW = re.compile(r'(?<!\\)\|')
CODE = re.compile(r'`([^`]+)`')
COMMENT = re.compile(r'<!-- transcript\n(.*?)-->', re.DOTALL)
LINK = re.compile(r'\]\(([^)\s]+)\)')
# A path of the repository, in text or as code.
NAMED = re.compile(
    r'(?<![\w./-])'
    r'((?:docs|crates|examples|sessions|include|lib|bin|js|page|python|tests|tools|\.ci)/'
    r'[\w./*-]*[\w/*])'
)
# A file of a crate, on that crate's page.
OF_CRATE = re.compile(r'`((?:src|specs|proofs|must-fail)/[\w./]+)`')
# What stands in parentheses, with code in it or not.
ASIDE = re.compile(r'\((?:[^()`]|`[^`]*`)*\)')
# The first words of commands that are run.
COMMANDS = (
    'cc',
    'cp',
    'make',
    'mkdir',
    'rm',
    'pip',
    'python3',
    'PYTHONPATH=python',
    './tile_editor',
    'bin/tile_editor',
    './map_report',
    'bin/map_report',
    'examples/build.sh',
    'tests/run',
    '/tmp/maps/fence',
)
# The words of the commands that run a program of a page, which follows them.
IN_PYTHON = (sys.executable, '-c')
IN_NODE = ('node', '--input-type=module', '--eval')
# The function of a program that another block of the page may have a body for, and where it ends.
EDIT = {IN_PYTHON: r'^def edit\(.*?\n(?=\S)', IN_NODE: r'^function edit\(.*?^}\n'}
NEW_MAP = 'new town 4 3 16 16 town.tsj'


class Page:
    """A page, by its path from the top of the repository."""

    def __init__(self, path):
        self.path = path
        self.name = str(path.relative_to(TOP))
        self.text = path.read_text()

    def links(self):
        """The files that links lead to, from the folder of the page, and those that the text names,
        from the top. Commands may name files that they make, and NAME stands for any name."""
        for link in LINK.findall(self.text):
            if '://' not in link and not link.startswith('#'):
                yield self.path.parent / link.split('#')[0]
        for name in NAMED.findall(re.sub(r'^    .*$', '', self.text, flags=re.MULTILINE)):
            if '/out/' not in name and 'NAME' not in name:
                yield TOP / name

    def places(self):
        """The pages that links lead into, each with the name of a heading there."""
        for link in LINK.findall(self.text):
            file, mark, heading = link.partition('#')
            if mark and '://' not in link and (not file or file.endswith('.md')):
                yield self.path.parent / file if file else self.path, heading

    def headings(self):
        """The names by which links find the headings: in small letters, without signs, a hyphen for each
        space."""
        text = re.sub(r'^```.*?^```$', '', self.text, flags=re.MULTILINE | re.DOTALL)
        for heading in re.findall(r'^#+ (.*)$', text, re.MULTILINE):
            plain = re.sub(r'\[([^\]]*)\]\([^)]*\)', r'\1', heading)
            yield re.sub(r'[^\w\- ]', '', plain.lower()).replace(' ', '-')

    def files_of_crate(self):
        """The files of its crate that the page names."""
        return OF_CRATE.findall(self.text)

    def refused_lines(self):
        """Of tables of lines and of what they are read as, those that are refused, each with its
        code."""
        for line, read in self.rows_of('Line', 'Read as'):
            code = re.match(r'\d+', read)
            if code and line.startswith('`'):
                yield from ((each, code[0]) for each in CODE.findall(ASIDE.sub('', line)))

    def rows_of(self, first, second):
        """The first two cells of each row of the tables that have these heads."""
        inside = False
        for line in self.text.split('\n'):
            cells = [cell.strip().replace('\\|', '|') for cell in ROW.split(line)[1:-1]]
            if cells[:2] == [first, second]:
                inside = True
            elif not cells:
                inside = False
            elif inside and not cells[0].startswith('---'):
                yield tuple(cells[:2])

    def blocks(self):
        """The lines of each block of `console`."""
        return [
            block.split('\n')
            for block in re.findall(
                r'^```console\n(.*?)\n```$', self.text, re.DOTALL | re.MULTILINE
            )
        ]

    def consoles(self):
        """Of each block of `console` its commands, each with what it prints."""
        for block in self.blocks():
            commands = []
            for line in block:
                if line.startswith('$ '):
                    commands.append((line[2:], []))
                else:
                    commands[-1][1].append(line)
            yield [(command, '\n'.join(told)) for command, told in commands]

    def commands(self):
        """The commands in indented blocks and in code within the text; one with a word in capitals
        is a form, and no command."""
        indented = re.findall(
            r'^    (\S.*)$',
            re.sub(r'^```.*?^```$', '', self.text, flags=re.DOTALL | re.MULTILINE),
            re.MULTILINE,
        )
        for command in indented + CODE.findall(self.text):
            words = command.split()
            if (
                words
                and words[0] in COMMANDS
                and len(words) > 1
                and not any(re.fullmatch('[A-Z]+', word) for word in words)
            ):
                yield command

    def programs(self):
        """The indented blocks that are programs in Python or in JavaScript, each behind the words of
        the command that runs it. A block that is a function `edit` stands for the last program that
        has one, with this function in its place."""
        whole = {}
        for block in re.findall(r'(?:^    .*\n|^\n)+', self.text, re.MULTILINE):
            lines = [line[4:] for line in block.strip('\n').split('\n')]
            program = '\n'.join(lines)
            if lines[0].startswith(('def edit(', 'function edit(')):
                command = IN_PYTHON if lines[0].startswith('def ') else IN_NODE
                found = re.search(EDIT[command], whole[command], re.DOTALL | re.MULTILINE)
                front, back = whole[command][: found.start()], whole[command][found.end() :]
                yield command, f'{front}{program}\n\n{back}'
            elif lines[0].startswith(('from ', 'import ')):
                command = IN_NODE if lines[0].startswith('import {') else IN_PYTHON
                if re.search(EDIT[command], program, re.DOTALL | re.MULTILINE):
                    whole[command] = program
                yield command, program

    def transcripts(self):
        """The transcripts of the page."""
        before, rows, at = '', None, 0
        for at, line in enumerate([*self.text.split('\n'), ''], 1):
            cells = [cell.strip() for cell in ROW.split(line)[1:-1]]
            if cells[:2] and cells[0] == 'Line' and cells[1].startswith('Reply'):
                rows, start = [], at
            elif rows is not None and cells and not cells[0].startswith('---'):
                rows.append(tuple(cell.replace('\\|', '|') for cell in cells[:2]))
            elif rows is not None and not cells:
                front = '\n'.join(self.text.split('\n')[: start - 1]).rstrip()
                comment = (
                    COMMENT.search(front[front.rfind('<!--') :]) if front.endswith('-->') else None
                )
                yield Transcript(self, start, comment[1] if comment else before, rows)
                rows = None

    def runs(self):
        """The transcripts of the page, with those that go on in one."""
        runs = []
        for transcript in self.transcripts():
            if transcript.goes_on:
                runs[-1].rows += transcript.rows
            else:
                runs.append(transcript)
        return runs


class Transcript:
    """The rows of a table: lines and their replies, and what is there before them."""

    def __init__(self, page, at, comment, rows):
        self.name = f'{page.name}:{at}'
        self.rows = [(code_of(line), code_of(reply)) for line, reply in rows]
        told = [line.strip() for line in comment.split('\n') if line.strip()]
        self.goes_on = 'go on' in told
        self.files = {
            word.split(' ')[1]: TOP / word.split(' ')[2]
            for word in told
            if word.startswith('file ')
        }
        self.before = [word[4:] for word in told if word.startswith('say ')]
        self.options = [word[5:] for word in told if word.startswith('with ')]
        if not any(
            line.split(' ')[0] in ('new', 'open') for line in (*self.before, self.rows[0][0])
        ):
            self.before.insert(0, NEW_MAP)

    def lines(self):
        return [line for line, _ in self.rows]

    def fault(self, program):
        """How the program's replies differ from those of the page, or None."""
        with tempfile.TemporaryDirectory() as top:
            folder = Path(top) / 'maps'
            shutil.copytree(EXAMPLE_MAPS, folder)
            for name, path in self.files.items():
                shutil.copy(path, folder / name)
            return self.fault_in(program, folder)[0]

    def fault_in(self, program, folder):
        """The same in a folder, and the files that stand there behind it."""
        session = ''.join(line + '\n' for line in (*self.before, *self.lines()))
        words = [program, '--folder', folder, *self.options]
        done = subprocess.run(words, input=session.encode(), capture_output=True, timeout=120)
        replies = done.stdout.decode().split('\n')[len(self.before) : -1]
        if done.returncode != 0 or len(replies) != len(self.rows):
            return (
                f'{self.name}: exit status {done.returncode}, {len(replies)} replies to {len(self.rows)} lines',
                {},
            )
        for (line, wanted), given in zip(self.rows, replies):
            if wanted != given:
                return (
                    f'{self.name}: {line}: the page has {wanted!r}, the program {given[:200]!r}',
                    {},
                )
        return None, files_in(folder)


def code_of(cell):
    """The code of a cell: what stands between its first two marks."""
    code = CODE.match(cell)
    assert code, cell
    return code[1]


def pages():
    """All pages of the repository."""
    folders = (
        'docs/**/*.md',
        'examples/**/*.md',
        'js/*.md',
        'sessions/*.md',
        'tests/**/*.md',
        'crates/*/README.md',
    )
    paths = [*TOP.glob('*.md'), *(path for folder in folders for path in TOP.glob(folder))]
    return [Page(path) for path in sorted(paths)]


class Clone:
    """A copy of the repository in which commands are run, with a folder that stands for `/tmp`."""

    def __enter__(self):
        self.top = tempfile.TemporaryDirectory()
        self.maps = Path(self.top.name) / 'maps'
        self.folder = Path(self.top.name) / 'clone'
        ignored = shutil.ignore_patterns('.git', 'crates', 'out', '__pycache__')
        shutil.copytree(TOP, self.folder, ignore=ignored, symlinks=True)
        # The crates are only read.
        (self.folder / 'crates').symlink_to(TOP / 'crates')
        return self

    def __exit__(self, *_):
        self.top.cleanup()

    def clear(self):
        """Takes the maps away that a command has put into their folder."""
        shutil.rmtree(self.maps, ignore_errors=True)

    def run(self, commands):
        """What each of some commands prints, on both outputs, and the exit status of the last."""
        mark = '<end of a command>'
        script = ''.join(
            f'{command}\nstatus=$?; echo "{mark}"; (exit $status)\n' for command in commands
        )
        script = script.replace('/tmp', self.top.name) + 'exit $status\n'
        words = ['bash', '-c', script]
        env = {
            **os.environ,
            'PYTHONDONTWRITEBYTECODE': '1',
            'PIP_TARGET': self.top.name + '/installed',
            'PIP_NO_INDEX': '1',
        }
        done = subprocess.run(
            words,
            stdin=subprocess.DEVNULL,
            stdout=subprocess.PIPE,
            stderr=subprocess.STDOUT,
            cwd=self.folder,
            timeout=120,
            env=env,
        )
        told = done.stdout.decode().replace(self.top.name, '/tmp').split(mark + '\n')
        return [text.rstrip('\n') for text in told[:-1]], done.returncode

    def fault_of_console(self, console):
        """How a block of commands prints something else than the page has, or None."""
        told, _ = self.run([command for command, _ in console])
        for (command, wanted), given in zip(console, told):
            if wanted != given:
                return f'{command}: the page has {wanted!r}, and it prints {given[:500]!r}'
