# SPDX-License-Identifier: MIT OR Apache-2.0
"""Runs the program with its growths of memory counted, or with one of them refused, and says what
is wrong where one was. native/interpose.c, which stands before the program's C library, counts and
refuses."""
import functools
import re

from lib.native import interposed
from lib.places import IN_MEMORY
from lib.refusals import refusal
from lib.sessions import fault_of_files, heard, joined

REFUSED = refusal(90).encode()
TAKES_NONE = re.compile(
    rb'(undo|redo|goto|end|limit|clean|dirty|clear|status|use|close|discard|tile)( |$)'
)


def refusing(growth):
    """The environment in which a growth is refused, or none for 0."""
    return {'LD_PRELOAD': interposed(), 'REFUSED_GROWTH': str(growth)}


def count_of(what, done):
    """What the library has counted: growths, bytes or writes."""
    return int(re.search(rb'%s: (\d+)' % what, done.stderr)[1])


class Refuser:
    """The program with the library before it, the files that a session finds, and the words of its
    command line beside the folder."""

    def __init__(self, before, options=()):
        self.before, self.options = before, options

    def heard(self, lines, growth=0):
        """What the program does with lines and the files that it leaves, with one growth refused,
        or none for 0."""
        return heard(joined(lines), self.before, self.options, refusing(growth), IN_MEMORY)

    def count(self, what, lines):
        """How many growths, bytes or writes a session of these lines asks for."""
        return count_of(what, self.heard(lines)[0])

    def more(self, what, before, lines):
        """How many more a session asks for where these lines follow the others."""
        return self.count(what, before + lines) - self.count(what, before)


class Session:
    """A session whose growths are refused: its lines, which of them are answered, the replies to
    these, and how many growths it has. Quiet lines are given to the program and get no reply."""

    def __init__(self, name, refuser, lines):
        self.name, self.refuser, self.lines = name, refuser, lines
        self.answered = [
            at for at, line in enumerate(lines) if line.strip(b' ') and not line.startswith(b'#')
        ]
        done, self.files = refuser.heard(lines)
        self.replies, self.growths = done.stdout.split(b'\n')[:-1], count_of(b'growths', done)
        is_right = len(self.replies) == len(self.answered) and REFUSED not in self.replies
        assert is_right, f'{name}: not each line has a reply of its own'

    @functools.cache
    def without(self, at):
        """The replies and the files of the session without a line."""
        done, files = self.refuser.heard(self.lines[:at] + self.lines[at + 1 :])
        return done.stdout.split(b'\n')[:-1], files

    def refused_at(self, growth):
        """The place of the line that has no memory where a growth is refused, or None where the run
        ends, or where all is as it is with that growth, which was for speed or for less memory. All
        else must be right: the answer in either case, the other replies, and the files."""
        done, files = self.refuser.heard(self.lines, growth)
        if done.returncode == 1:
            is_right = (
                not done.stdout
                and b'tile_editor: no memory\n' in done.stderr
                and files == self.refuser.before
            )
            self.see(
                is_right,
                growth,
                f'not the end for want of memory: {done.stdout[-200:]!r}, {done.stderr[-200:]!r}',
            )
            return None
        given = done.stdout.split(b'\n')[:-1]
        if (done.returncode, given, files) == (0, self.replies, self.files):
            return None
        self.see(
            done.returncode == 0 and given.count(REFUSED) == 1,
            growth,
            f'status {done.returncode}, {given.count(REFUSED)} lines without memory',
        )
        reply = given.index(REFUSED)
        at = self.answered[reply]
        line = self.lines[at]
        self.see(not TAKES_NONE.match(line), growth, f'no memory for {line!r}, which takes none')
        replies, files_without = self.without(at)
        is_right = (
            given[:reply] == self.replies[:reply] and given[:reply] + given[reply + 1 :] == replies
        )
        self.see(is_right, growth, f'another reply beside {line!r}')
        fault = fault_of_files(files_without, files)
        self.see(not fault, growth, fault)
        return at

    def see(self, is_right, growth, fault):
        assert is_right, f'{self.name}: with growth {growth} refused: {fault}'
