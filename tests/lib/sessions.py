# SPDX-License-Identifier: MIT OR Apache-2.0
"""Runs of the program: what it hears, what it must answer, and which files it must leave; and those
that the folders of `sessions/` have, as sessions/README.md describes them."""
import functools
import itertools
import re
import subprocess
import tempfile
from pathlib import Path

from lib.cases import check_each
from lib.places import SESSIONS, TILE_EDITOR, TOP, files_in

VALUE = re.compile(rb'\{=([^{}]*)\}')
VALUES = re.compile(rb'\{values (\d+) ([^{}]*)\}')
TIMES = re.compile(rb'\{([^{}]*)\*(\d+)\}')
ESCAPE = re.compile(rb'\\(x[0-9a-f]{2}|\\)')
ALL_EDITS, ALL_MAPS = '--all-edits', '--all-maps'


class Run:
    """One run of the program: the words of its command line beside the folder, the bytes that it
    hears and those that it replies, and the files of its folder by their names, as they are before
    it and after it."""

    def __init__(self, name, before=(), session=b''):
        self.name = name
        self._session, self._replies = bytearray(session), bytearray()
        self.before, self.after = dict(before), dict(before)
        self.has_last_newline = True
        self.refuses_growths = False
        self.options = []

    @property
    def session(self):
        return bytes(self._session)

    @property
    def replies(self):
        return bytes(self._replies)

    def add(self, rows, count=1):
        """Adds rows of a session file, pairs of a line and its reply or None, so many times."""
        self._session += times([spelled(line) for line, _ in rows], count)
        self._replies += times([spelled(reply) for _, reply in rows if reply is not None], count)

    def cut_last_newline(self):
        del self._session[len(self._session.rstrip(b'\n')) :]

    def put(self, name, data):
        """A file of the folder before the run."""
        self.before[name] = self.after[name] = data

    def say(self, line, reply):
        """A line and its reply, or None for a quiet one."""
        self.say_all([(line, reply)])

    def say_all(self, rows):
        """Many lines at once, as pairs of a line and its reply."""
        lines, replies = zip(*rows)
        self._session += '\n'.join((*lines, '')).encode()
        self._replies += ''.join(f'{reply}\n' for reply in replies if reply is not None).encode()

    def save(self, name, text):
        """A save of the active document, whose map has this text."""
        self.say(f'save {name}', f'saved {name} {len(text)}')
        self.after[name] = text


# ---- session files


def function_of(expression, **known):
    """An expression over `i`, and over what is known."""
    return eval(b'lambda i: ' + expression, {'__builtins__': {}, **known})


def values_of(count, expression):
    """So many numbers, joined by commas."""
    value = function_of(expression)
    return b','.join(b'%d' % value(i) for i in range(count))


def spelled(text):
    """A function of `i` that spells out each piece in braces and each escaped byte; the text
    itself, where it has no `i`."""
    text = ESCAPE.sub(lambda e: b'\\' if e[1] == b'\\' else bytes.fromhex(e[1][1:].decode()), text)
    text = VALUES.sub(lambda v: values_of(int(v[1]), v[2]), text)
    text = TIMES.sub(lambda t: t[1] * int(t[2]), text)
    values = VALUE.findall(text)
    if not values:
        return text
    layout = VALUE.sub(b'%d', text.replace(b'%', b'%%'))
    return function_of(b'layout % (' + b','.join(values) + b',)', layout=layout)


def times(rows, count):
    """The bytes of these rows, each with its newline, for each `i` from 1 to a count."""
    pairs = [(row, callable(row)) for row in rows]
    if not any(is_made for _, is_made in pairs):
        return b''.join(row + b'\n' for row in rows) * count
    made = [row(i) if is_made else row for i in range(1, count + 1) for row, is_made in pairs]
    return b'\n'.join([*made, b''])


def file_of(text):
    """A file's name in the folder of a run, and its bytes, which are those of a file of the
    repository."""
    name, path = text.decode().split(' ')
    return name, (TOP / path).read_bytes()


def row_of(text):
    """A line of a file as a session line and its reply."""
    line, arrow, reply = text.partition(b' => ')
    return line, reply if arrow else None


class Reader:
    """Reads the runs of a session file, each named by the file's folder and name and by its
    title."""

    def __init__(self, file):
        self.file = file.relative_to(SESSIONS).with_suffix('')
        self.runs, self.repeated, self.count = [], None, 0
        for row in file.read_bytes().split(b'\n')[:-1]:
            self.read(row)
        for run in self.runs:
            if not run.has_last_newline:
                run.cut_last_newline()

    def read(self, row):
        if row.startswith(b'=== '):
            self.runs.append(Run(f'{self.file}: {row[4:].decode()}'))
        elif row.startswith(b'@'):
            word, _, rest = row.partition(b' ')
            self.direct(word, row, rest)
        elif self.repeated is not None:
            self.repeated.append(row_of(row))
        elif self.runs:
            self.runs[-1].add([row_of(row)])

    def direct(self, word, row, rest):
        """A row that tells something of the run."""
        run = self.runs[-1]
        if word == b'@repeat':
            self.repeated, self.count = [], int(rest)
        elif word == b'@end':
            run.add(self.repeated, self.count)
            self.repeated = None
        elif row == b'@no last newline':
            run.has_last_newline = False
        elif word == b'@limit':
            run.options += ['--limit', rest.decode()]
        elif row == b'@all edits':
            run.options.append(ALL_EDITS)
        elif row == b'@all maps':
            run.options.append(ALL_MAPS)
        elif word == b'@growths':
            run.refuses_growths = True
        elif word == b'@before':
            run.put(*file_of(rest))
        elif word == b'@after':
            name, data = file_of(rest)
            run.after[name] = data
        else:
            raise ValueError(f'{self.file}: {row.decode()}')


@functools.cache
def runs_of_files():
    """The runs of all session files."""
    return [run for file in sorted(SESSIONS.rglob('*.session')) for run in Reader(file).runs]


def all_runs():
    """Those of the plain lines and of maps that each editor reads."""
    return [run for run in runs_of_files() if not {ALL_EDITS, ALL_MAPS} & {*run.options}]


def has_xml(run):
    """Whether a file of a run is in XML."""
    return any(data.lstrip().startswith(b'<') for data in [*run.before.values(), *run.after.values()] if data)


def runs_for_all_edits():
    """Those that want an editor for all edits."""
    return [run for run in runs_of_files() if ALL_EDITS in run.options]


# ---- what the program does


def joined(lines):
    """Lines or replies as bytes, each with its newline."""
    return b''.join(line + b'\n' for line in lines)


def heard(session, before=(), options=(), env=None, where=None):
    """What the program does with a session over a folder of these files, which is made in another
    one, and the files that stand there behind it."""
    with tempfile.TemporaryDirectory(dir=where) as top:
        folder = Path(top) / 'maps'
        folder.mkdir()
        for name, data in dict(before).items():
            (folder / name).write_bytes(data)
        words = [TILE_EDITOR, '--folder', 'maps', *options]
        done = subprocess.run(
            words, input=session, capture_output=True, timeout=120, env=env, cwd=top
        )
        return done, files_in(folder)


def answered(session):
    """The lines of a session that are answered."""
    return [line for line in session.split(b'\n') if line.strip(b' ') and not line.startswith(b'#')]


def fault_of_replies(session, wanted, given):
    """How the replies to a session differ from those that are wanted, and to which line, or
    None."""
    if wanted == given:
        return None
    rows = itertools.zip_longest(
        answered(session), wanted.split(b'\n'), given.split(b'\n'), fillvalue=b'nothing'
    )
    return next(
        f'reply {at}, to {line[:200]!r}: wanted {reply[:200]!r}, came {came[:200]!r}'
        for at, (line, reply, came) in enumerate(rows, 1)
        if reply != came
    )


def fault_of_files(wanted, given):
    """How the files of a folder differ from those that are wanted, or None."""
    for name in sorted(wanted.keys() | given.keys()):
        if wanted.get(name) != given.get(name):
            pair = (files.get(name, b'nothing')[:200] for files in (wanted, given))
            return 'file {}: wanted {!r}, came {!r}'.format(name, *pair)
    return None


def fault_of_reasons(replies, errors):
    """What is wrong with standard error, or None: each load and each save that failed is told in a
    line of its own."""
    failed = sum((b'\n' + replies).count(front) for front in (b'\nno 50 ', b'\nno 51 '))
    told = errors.split(b'\n')[:-1]
    is_right = len(told) == failed and all(line.startswith(b'tile_editor: ') for line in told)
    return (
        None
        if is_right
        else f'{failed} loads and saves failed, and standard error has {errors.decode()!r}'
    )


def fault_of_run(run, env=None):
    """How the program differs from a run, with the line before the reply at fault, or None."""
    done, files = heard(run.session, run.before, run.options, env)
    if done.returncode != 0:
        return f'exit status {done.returncode}, {done.stderr.decode()[:300]}'
    return (
        fault_of_reasons(run.replies, done.stderr)
        or fault_of_replies(run.session, run.replies, done.stdout)
        or fault_of_files(run.after, files)
    )


def replies_together(runs, options, before):
    """The replies to each of some runs that the program hears as one session. It leaves the files as they were before."""
    done, files = heard(b''.join(run.session for run in runs), before, options)
    came = (done.returncode, done.stderr[:300], sorted(files))
    assert came == (0, b'', sorted(before)), f'wanted status 0, no errors and the files {sorted(before)}, came {came}'
    fault = fault_of_files(dict(before), files)
    assert not fault, fault
    replies = iter(done.stdout.splitlines(keepends=True))
    for run in runs:
        yield b''.join(next(replies, b'') for _ in range(run.replies.count(b'\n')))


def check_together(runs, at_once=None, options=(), before=()):
    """The program, made with these options, hears some runs as one session over these files, or so many at
    once; each of them is a case."""
    step = at_once or len(runs)
    parts = [runs[first : first + step] for first in range(0, len(runs), step)]
    came = iter([replies for part in parts for replies in replies_together(part, options, before)])
    check_each(runs, lambda run: fault_of_replies(run.session, run.replies, next(came)))
