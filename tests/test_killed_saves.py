# SPDX-License-Identifier: MIT OR Apache-2.0
"""Kills the program at each step of a save, and makes each call of a save on files and their folder
fail, over files of several modes. However a save ends, the file under its name is the old one or
the new one, whole, and has the old one's mode; no file has a wider mode meanwhile, and the next
save of that name takes away what is left beside it. A save that fails is answered so, and leaves
the document as it was. The file is synced before it takes its place, and the folder behind that. A
save that changes nothing leaves the file alone, and syncs it and the folder. It runs as the user
nobody where it would otherwise run as root, whom no permission stops. native/interpose_saves.c
kills and makes calls fail."""
import errno
import os
import shutil
import signal
import stat
import subprocess
import tempfile
from dataclasses import dataclass
from pathlib import Path

from lib.cases import CORES, Case, check_each, passed, unlike
from lib.native import interposed
from lib.places import SESSION_MAPS, TILE_EDITOR, copy_program
from lib.refusals import refusal
from lib.rights import NOBODY, can_lose_rights
from lib.sessions import joined

OLD = (SESSION_MAPS / 'two_cells.tmj').read_bytes()
EMPTY = (SESSION_MAPS / 'town.tmj').read_bytes()
# The map with its first cell stamped, which is one digit for another.
NEW = EMPTY.replace(b'"data":[0,', b'"data":[5,')
NAME, BESIDE, FAR = 'm.tmj', '.m.tmj.0.new', 'far'
# The bits of a mode that a save keeps.
ACCESS = 0o777

EDITS = [b'new town 4 3 16 16 town.tsj', b'stamp 1 0 0 1 5', b'save m.tmj']
SESSION = [*EDITS, b'status', b'undo', b'redo', b'list']
EDITED = [b'ok 0/0 clean 0', b'ok 1/1 dirty 0']
SAVED = [
    *EDITED,
    b'saved m.tmj 389',
    b'ok 1/1 clean 0',
    b'ok 0/1 dirty 0',
    b'ok 1/1 clean 0',
    b'docs *town',
]
NOT_SAVED = [
    *EDITED,
    refusal(51).encode(),
    b'ok 1/1 dirty 0',
    b'ok 0/1 clean 0',
    b'ok 1/1 dirty 0',
    b'docs *town',
]
NEXT_SESSION = [b'new town 4 3 16 16 town.tsj', b'save m.tmj', b'status']
NEXT_SAVED = [b'ok 0/0 clean 0', b'saved m.tmj 389', b'ok 0/0 clean 0']

ERRORS = [errno.EIO, errno.ENOSPC, errno.EACCES]
# The calls that lock the name, where a file stands there that may be read, and where none does.
LOCKING = ['statx', 'open', 'flock', 'statx', 'fstat']
NOT_LOCKING = ['statx']
# The calls behind these over a file of another length, but for those that give it its mode.
CHANGED = [
    'statx',
    'open_folder',
    'list',
    'statx',
    'open_new',
    'flock',
    'statx_new',
    'fstat',
    'write',
    'fsync',
    'rename',
    'fsync_folder',
    'close',
    'close_folder',
    'reply',
]
# The same where there is no file, or what is there is a link.
FIRST = CHANGED[:3] + CHANGED[4:]
# The same over a file of the same bytes.
UNCHANGED = [
    'statx',
    'open_folder',
    'list',
    'statx',
    'open',
    'read',
    'read',
    'statx',
    'fstat',
    'fsync',
    'fsync_folder',
    'close',
    'close_folder',
    'reply',
]
# The calls that give a file its mode.
MODES = ['fstat', 'fchmod']
# The calls whose failure loses nothing.
HARMLESS = ['list', 'flock', 'close', 'close_folder', 'reply']
# What may fail where a file is only compared: it is then replaced.
COMPARING = ['statx', 'open', 'read', 'fstat', 'fsync', 'fsync_folder']


class Fault(Exception):
    """What is wrong in a save."""


@dataclass(frozen=True)
class Place:
    """What stands under the name before a save, and the mask of the program."""

    name: str
    mode: int = None
    mask: int = 0o022
    is_link: bool = False
    data: bytes = OLD

    def make(self, folder, user):
        """Makes a folder anew, with this in it."""
        shutil.rmtree(folder, ignore_errors=True)
        folder.mkdir()
        file = folder / (FAR if self.is_link else NAME)
        if self.mode is not None:
            file.write_bytes(self.data)
            if user is not None:
                os.chown(file, user, user)
            file.chmod(self.mode)
        if self.is_link:
            (folder / NAME).symlink_to(FAR)
        if user is not None:
            os.chown(folder, user, user)

    def before(self):
        """What stands in the folder before a save."""
        name = FAR if self.is_link else NAME
        file = {} if self.mode is None else {name: (self.mode, self.data)}
        return {**file, NAME: FAR} if self.is_link else file

    def new_mode(self):
        """The mode of the file that a save makes: the access bits of the file that stood there,
        else those of any new file."""
        return 0o666 & ~self.mask if self.mode is None or self.is_link else self.mode & ACCESS

    def after(self, data):
        """What stands in the folder after a save of these bytes."""
        return {**self.before(), NAME: (self.new_mode(), data)}

    def after_next(self, found, is_root):
        """What stands there after one more save, where this was found before it. What is left
        beside the file is taken away, but where it can't be opened, so that it can't be locked."""
        stood, rest = found.get(NAME), found.get(BESIDE)
        mode = stood[0] & ACCESS if isinstance(stood, tuple) else self.new_mode()
        stays = {BESIDE: rest} if rest and not rest[0] & 0o400 and not is_root else {}
        return {**self.before(), **stays, NAME: (mode, EMPTY)}

    def locking(self, is_root):
        """The calls of a save that lock the name."""
        if self.mode is None or self.is_link:
            return NOT_LOCKING
        return LOCKING if is_root or self.mode & 0o400 else LOCKING[:2]

    def calls(self, is_root):
        """The calls of a save, but for those that give the file its mode."""
        locking = self.locking(is_root)
        closing = ['close'] if locking == LOCKING else []
        rest = FIRST if locking == NOT_LOCKING else UNCHANGED if self.data == NEW else CHANGED
        return [*locking, *rest[:-2], *closing, *rest[-2:]]


PLACES = [
    Place('no file'),
    Place('no file, and a mask of 077', mask=0o077),
    *(
        Place(f'a file of mode {mode:o}', mode)
        for mode in (0o644, 0o600, 0o640, 0o444, 0o666, 0o755, 0o000)
    ),
    Place('a file of mode 664, and a mask of 077', 0o664, 0o077),
    Place('a file of mode 604, and no mask', 0o604, 0o000),
    Place('a file of mode 4755', 0o4755),
    Place('a link to a file of mode 600', 0o600, is_link=True),
    Place('a link to nothing', is_link=True),
    *(Place(f'the same file, of mode {mode:o}', mode, data=NEW) for mode in (0o644, 0o400)),
]


def entry(path):
    """What stands at a path: where a link leads, or a file's mode and bytes. A file that may not be
    read is opened for that long."""
    if path.is_symlink():
        return os.readlink(path)
    mode = stat.S_IMODE(path.lstat().st_mode)
    path.chmod(mode | 0o400)
    data = path.read_bytes()
    path.chmod(mode)
    return mode, data


def entries(folder):
    """What stands in a folder, by name."""
    return {path.name: entry(path) for path in folder.iterdir()}


def in_words(found):
    """What stands in a folder, to be printed."""
    words = {
        name: f'{it[0]:o} {it[1][:40]!r}.. of {len(it[1])}' if isinstance(it, tuple) else it
        for name, it in found.items()
    }
    return f'the folder has {words}'


class Saver:
    """The program with the library that stops saves before it, in a folder of its own."""

    def __init__(self, top):
        self.top, self.folder = top, top / 'maps'
        self.program, self.library = top / 'program', top / 'interpose_saves.so'
        self.user = NOBODY if os.getuid() == 0 and can_lose_rights() else None
        self.is_root = os.getuid() == 0 and self.user is None
        top.chmod(0o755)
        copy_program(TILE_EDITOR, self.program)
        shutil.copy(interposed('interpose_saves.c'), self.library)

    def heard(self, place, session, env):
        """What the program does with a session."""
        passed()
        words = [self.program, '--folder', 'maps']
        return subprocess.run(
            words,
            input=joined(session),
            capture_output=True,
            timeout=60,
            cwd=self.top,
            env=env,
            umask=place.mask,
            user=self.user,
            group=self.user,
        )

    def stopped(self, place, at=0, by='kill', stops_all=False):
        """What the program does over a place with a save that is stopped at a call, and the names
        of the calls up to its end."""
        place.make(self.folder, self.user)
        env = {
            'LD_PRELOAD': str(self.library),
            'STOP_AT': str(at),
            'STOP_BY': str(by),
            **({'STOP_ALL': '1'} if stops_all else {}),
        }
        done = self.heard(place, SESSION, env)
        calls = done.stderr.decode().rpartition('calls:')[2].split()
        return done, calls

    def save_again(self, place, found):
        """Sees that the next save of the name works, and leaves nothing beside the file."""
        done = self.heard(place, NEXT_SESSION, {})
        replies = done.stdout.split(b'\n')[:-1]
        if done.returncode != 0 or replies != NEXT_SAVED:
            raise Fault(f'the next save: {replies}')
        if entries(self.folder) != place.after_next(found, self.is_root):
            raise Fault(f'the next save: {in_words(entries(self.folder))}')


def see_folder(place, found, may_be_old, may_be_new, may_have_rest):
    """Sees that what stands in a folder is old or new, as it may be, and that the mode of what is
    beside it is no wider."""
    rest = found.pop(BESIDE, None)
    if not (may_be_old and found == place.before()) and not (
        may_be_new and found == place.after(NEW)
    ):
        raise Fault(in_words(found))
    if rest is None:
        return
    mode, data = rest
    if not may_have_rest:
        raise Fault(f'{BESIDE} is left')
    if mode & ~place.new_mode():
        raise Fault(
            f'{BESIDE} has the mode {mode:o}, and is to have no more than {place.new_mode():o}'
        )
    if not NEW.startswith(data):
        raise Fault(f'{BESIDE} has {data[:80]!r}')


def without_modes(calls):
    """The calls but for those that give a file its mode, between the looks at its name and the
    first write."""
    if 'write' not in calls:
        return calls
    named, write = calls.index('statx_new') + 2, calls.index('write')
    return calls[:named] + [name for name in calls[named:write] if name not in MODES] + calls[write:]


def see_saved(saver, place):
    """Sees that a save that nothing stops works, and gives the names of its calls."""
    done, calls = saver.stopped(place)
    if done.returncode != 0 or done.stdout.split(b'\n')[:-1] != SAVED:
        raise Fault(f'status {done.returncode}, {done.stdout}')
    see_folder(place, entries(saver.folder), False, True, False)
    wanted = place.calls(saver.is_root)
    if without_modes(calls) != wanted:
        raise Fault(f'the calls are {calls}, and are to be {wanted}')
    return calls


def see_same_file(saver, place):
    """Sees that a save of the same bytes leaves the file alone, with its times."""
    place.make(saver.folder, saver.user)
    before = (saver.folder / NAME).stat()
    done = saver.heard(place, SESSION, {})
    after = (saver.folder / NAME).stat()
    if done.stdout.split(b'\n')[:-1] != SAVED:
        raise Fault(f'{done.stdout}')
    if (before.st_ino, before.st_mtime_ns) != (after.st_ino, after.st_mtime_ns):
        raise Fault('the file was replaced or written')


def see_killed(saver, place, at, by):
    """Sees what is there after a kill at a call."""
    done, _ = saver.stopped(place, at, by)
    if done.returncode != -signal.SIGKILL:
        raise Fault(f'not killed, but status {done.returncode}')
    found = entries(saver.folder)
    see_folder(place, dict(found), True, True, True)
    saver.save_again(place, found)


def see_failed(saver, place, at, error, stops_all):
    """Sees what is there after a call has failed, or all from that one on."""
    done, calls = saver.stopped(place, at, error, stops_all)
    replies = done.stdout.split(b'\n')[:-1]
    is_saved = replies == SAVED
    if done.returncode != 0 or not (is_saved or replies == NOT_SAVED):
        raise Fault(f'status {done.returncode}, {replies}')
    locking = place.locking(saver.is_root)
    if is_saved and (stops_all or not is_harmless(place, calls, at, len(locking))):
        raise Fault('the save is said to have worked')
    found = entries(saver.folder)
    # Where only the folder could not be synced, which comes last, the new file stands.
    is_new = is_saved or calls[at - 1] == 'fsync_folder'
    see_folder(place, dict(found), not is_new, is_new, stops_all)
    saver.save_again(place, found)


def is_harmless(place, calls, at, locking):
    """Whether a save works though a call of it fails. The first calls lock the name, the look behind
    them is at the old file's mode, and further ones are for a comparison."""
    name = calls[at - 1]
    if at <= locking:
        return True
    if name == 'statx':
        return at > locking + 1
    return name in HARMLESS or (place.data == NEW and name in COMPARING and 'write' not in calls[:at])


def stops_of(calls):
    """Each way to stop a save of these calls: words for it, the call that sees it, and what that is
    passed."""
    for at, name in enumerate(calls, 1):
        yield f'killed before call {at}, {name}', see_killed, (at, 'kill')
        if name == 'write':
            yield f'killed in call {at}, {name}', see_killed, (at, 'half')
        for error in ERRORS if name != 'reply' else []:
            yield f'call {at}, {name}, gives {errno.errorcode[error]}', see_failed, (
                at,
                error,
                False,
            )
        if name not in ('close', 'close_folder', 'reply'):
            yield f'all calls from {at}, {name}, give EIO', see_failed, (at, errno.EIO, True)


def faults_in(saver, place):
    """What is wrong in saves over a place."""
    try:
        calls = see_saved(saver, place)
    except Fault as fault:
        yield str(fault)
        return
    if place.data == NEW:
        try:
            see_same_file(saver, place)
        except Fault as fault:
            yield f'nothing stops it: {fault}'
    for title, see, arguments in stops_of(calls):
        try:
            see(saver, place, *arguments)
        except Fault as fault:
            yield f'{title}: {fault}'


def fault_of(place):
    with tempfile.TemporaryDirectory() as top:
        return '\n    '.join(faults_in(Saver(Path(top)), place)) or None


def test_saves_that_are_stopped():
    """Each kind of file is a case, and each run of the program a check besides."""
    check_each(PLACES, fault_of, CORES)


def after_refused_sync(saver, sessions):
    """The replies and calls of runs over a new folder, in the first of which the folder's first
    sync fails."""
    Place('no file').make(saver.folder, saver.user)
    env = {'LD_PRELOAD': str(saver.library)}
    stops = {'STOP_NAME': 'fsync_folder', 'STOP_BY': str(errno.EIO)}
    replies, calls = [], []
    for number, session in enumerate(sessions):
        done = saver.heard(PLACES[0], session, {**env, **(stops if number == 0 else {})})
        replies += done.stdout.split(b'\n')[:-1]
        calls.append(done.stderr.decode().rpartition('calls:')[2].split())
    return replies, calls


def test_save_after_a_refused_sync():
    """A save whose folder could not be synced is refused. To save the same again is no `saved`
    without a sync of the file and the folder, in the same run and in the next one."""
    again = [b'save m.tmj']
    reopened = [b'open town m.tmj', b'save m.tmj']
    refused = [*EDITED, refusal(51).encode()]
    cases = [
        Case('in the same run', [EDITS + again], [*refused, b'saved m.tmj 389']),
        Case('in the next run', [EDITS, reopened], [*refused, b'ok 0/0 clean 0', b'saved m.tmj 389']),
    ]

    def fault_after(case):
        with tempfile.TemporaryDirectory() as top:
            replies, calls = after_refused_sync(Saver(Path(top)), case.given)
        if replies != case.wanted:
            return unlike(case.wanted, replies)
        last = calls[-1]
        if len(calls) == 1:
            last = last[last.index('fsync_folder') + 1 :]
        syncs = [name for name in last if name.startswith('fsync')]
        return unlike(['fsync', 'fsync_folder'], syncs)

    check_each(cases, fault_after)
