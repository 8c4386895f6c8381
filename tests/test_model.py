# SPDX-License-Identifier: MIT OR Apache-2.0
"""Compares the plain model of the editor, by which other steps tell what must come, with the
session files, whose replies were written by the rules: it must give the same replies and leave the
same files. Lines that the model does not read are left out, those that are refused for how they are
spelled, and maps that are refused or can't be written; and so are maps in XML, long sessions, and
large maps, for which it is slow."""
import re

from lib.asides import TiledEditor, fault_of_tiled_files
from lib.cases import check_in_processes
from lib.json_words import set_fractions_aside
from lib.members import read_members
from lib.model import Editor
from lib.sessions import ALL_MAPS, all_runs, answered, fault_of_files, fault_of_replies, has_xml, joined, runs_for_all_edits
from lib.whole_things import read_whole_things

# The longest session that it hears, in bytes, and a line that makes a map of many columns or rows.
LONGEST = 20_000
MAKES_LARGE = re.compile(rb'^(new \S+|resize) (\d{3,} \d|\d+ \d{3,})', re.MULTILINE)
# Replies to lines that the model does not read: bad lines, bad files, and want of memory.
NOT_READ = re.compile(rb'no ([1-4]|5[01]|90) ')
BAD_FILE = re.compile(rb'no 6\d ')


def is_read(line, reply):
    """Whether the model reads a line. What JSON of a line is refused for, it tells."""
    return not NOT_READ.match(reply) and not (line.startswith(b'open ') and BAD_FILE.match(reply))


def limit_of(run):
    return int(run.options[run.options.index('--limit') + 1]) if '--limit' in run.options else 0


def fault_of(run):
    read_members()
    read_whole_things()
    sets_aside = ALL_MAPS in run.options
    set_fractions_aside(sets_aside)
    rows = list(zip(answered(run.session), run.replies.split(b'\n')))
    rows = [row for row in rows if is_read(*row)]
    editor = (TiledEditor if sets_aside else Editor)(run.before, limit_of(run))
    lines, wanted = (joined(column) for column in (zip(*rows) if rows else ((), ())))
    came = joined(editor.step(line.decode()).encode() for line, _ in rows)
    # A float has more than one text, and a file more than one layout.
    fault_of_saved = fault_of_tiled_files if sets_aside else fault_of_files
    return fault_of_replies(lines, wanted, came) or fault_of_saved(run.after, editor.files)


def test_replies_of_sessions():
    runs = [*all_runs(), *runs_for_all_edits()]
    check_in_processes(
        [
            run
            for run in runs
            if len(run.session) <= LONGEST and not MAKES_LARGE.search(run.session) and not has_xml(run)
        ],
        fault_of,
    )
