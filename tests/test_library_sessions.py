# SPDX-License-Identifier: MIT OR Apache-2.0
"""Runs the session files of `sessions/`, those without a limit, through the Python package and the
library in `lib/`, line by line and many lines in a call: they must give the replies and the files
that stand there. In a session with fractions what was set aside is put back in the files first."""
import ctypes
import sys

from lib.asides import exact_text
from lib.cases import check_in_processes, see, unlike
from lib.places import TOP
from lib.sessions import ALL_MAPS, fault_of_files, fault_of_replies, runs_of_files

sys.path.insert(0, str(TOP / 'python'))
from roskevad import Editor  # noqa: E402
from roskevad.library import ALL_EDITS, DONE, LIBRARY, LinesDone  # noqa: E402
from roskevad.tiled_maps import put_back  # noqa: E402

IS_LONG = True


def lines_of(session):
    """The lines of a session's bytes."""
    lines = session.split(b'\n')
    return lines if lines[-1] else lines[:-1]


def replies_by_line(editor, session):
    """The replies to the lines of a session, each by a call."""
    replies = [editor.step_bytes(line) for line in lines_of(session)]
    return b''.join(reply + b'\n' for reply in replies if reply is not None)


def replies_by_many(editor, session):
    """The replies to the lines of a session, by calls with room for some of them, which end at a
    refused line or go on behind it, in turn."""
    room, done = ctypes.create_string_buffer(1000), LinesDone()
    place, calls, replies = 0, 0, []
    bytes_of_session = ctypes.create_string_buffer(session, len(session) + 1)
    while place < len(session):
        calls += 1
        lines = LIBRARY.roskevad_run_lines(
            editor._c_editor,
            ctypes.cast(ctypes.addressof(bytes_of_session) + place, ctypes.c_char_p),
            len(session) - place,
            calls % 2,
            room,
            1000,
            done,
        )
        assert lines == len(lines_of(session[place : place + done.bytes]))
        place += done.bytes
        replies.append(room[: done.replies])
        if not done.has_room:
            replies.append(editor._copy_bytes('reply') + b'\n')
        assert place == len(session) or not done.has_room or calls % 2 and done.is_refused
    return b''.join(replies)


def fault_of_put_back(wanted, given):
    """How the trees of files with all put back differ from those that are wanted, or None."""
    trees = {name: exact_text(put_back(data, b'', name)) for name, data in given.items()}
    return unlike({name: exact_text(data) for name, data in wanted.items()}, trees)


def fault_of(run, replies_of):
    """How a run of a session file through the library differs from its file, or None."""
    sets_aside = ALL_MAPS in run.options
    with Editor() as editor:
        # The package's own editor sets fractions aside.
        if not sets_aside:
            see(DONE, LIBRARY.roskevad_open_for(editor._c_editor, 0, ALL_EDITS))
        for name, data in run.before.items():
            editor.put_file(name, data)
        given = replies_of(editor, run.session)
        files = {name: editor.file(name) for name in editor.files()}
    fault_of_saved = fault_of_put_back if sets_aside else fault_of_files
    return fault_of_replies(run.session, run.replies, given) or fault_of_saved(run.after, files)


def fault_by_line(run):
    return fault_of(run, replies_by_line)


def fault_by_many(run):
    return fault_of(run, replies_by_many)


def sorted_runs():
    """The longest come first, so that none is left at the end."""
    runs = (run for run in runs_of_files() if '--limit' not in run.options and not (ALL_MAPS in run.options and run.before))
    return sorted(runs, key=lambda run: -len(run.session))


def test_sessions():
    check_in_processes(sorted_runs(), fault_by_line)


def test_sessions_in_few_calls():
    check_in_processes(sorted_runs(), fault_by_many)
