# SPDX-License-Identifier: MIT OR Apache-2.0
"""A save of a map into a file, which may be cut short at any point: by Ctrl+C, by any exception, by the end of the process.

A new file is written beside the one that it replaces, under a name that is not there yet, and renamed when it is whole. So the
file under the name is the old or the new one. From its first look at the old file to its end a save has that file locked, or the
new one once that is in its place: saves of one name come one behind the other. The program's saves go the same way, and those of
both know each other's locks and new files: docs/session-lines.md#files.
"""
import errno
import fcntl
import functools
import os
import re
import stat
import time
from collections import deque
from pathlib import Path
from typing import Callable, Optional, Union

# The bits of a file's mode that say who may read, write and run it.
_ACCESS_BITS = 0o777
# The mode that a new file is asked for where it replaces none. The system takes away what the process's mask says.
_NEW_FILE_MODE = 0o666
# The most bytes of a name of a file, and what the name of a new file ends with.
_LONGEST_NAME, _END = 255, '.new'
# The names that are tried for a new file.
_MOST_NAMES = 1000
# So many bytes of a file are compared at a time.
_PIECE = 1 << 20
# How often a save looks whether another one still has its name locked, and how many seconds lie between: 10 seconds in all.
_LOOKS, _PAUSE = 1000, 0.01


def _open(into: list[int], name: Union[Path, str], flags: int, mode: int = 0, folder: Optional[int] = None) -> None:
    """Opens a file, and puts its handle into a list. `extend` runs no line of Python between the two, so no exception can fall
    in between, and each handle stands in its list from the moment on that it is there."""
    opener = functools.partial(os.open, flags=flags | os.O_CLOEXEC | os.O_NOFOLLOW, mode=mode, dir_fd=folder)
    into.extend(map(opener, [name]))


def _close(handles: list[int]) -> None:
    """Closes the handles of a list, and takes each out in the same moment."""
    while handles:
        try:
            deque(map(os.close, map(handles.pop, [0])), maxlen=0)
        except OSError:
            pass  # It is closed all the same, and what was written is synced before.


def _front(name: str) -> str:
    """What the names of new files begin with beside a file of this name: `.NAME.`, as much of it as leaves room for a number."""
    longest = _LONGEST_NAME - len(f'..{_MOST_NAMES - 1}{_END}')
    return f'.{os.fsdecode(os.fsencode(name)[:longest])}.'


def holder_of(path: Path) -> str:
    """Which program has a file locked, as far as the system tells: `tile_editor, process 4711`."""
    try:
        found = os.stat(path)
        wanted = f'{os.major(found.st_dev):02x}:{os.minor(found.st_dev):02x}:{found.st_ino}'
        for line in Path('/proc/locks').read_text('ascii').splitlines():
            words = line.split()
            if words[1:2] == ['FLOCK'] and words[5] == wanted:
                return f'{Path("/proc", words[4], "comm").read_text().strip()}, process {words[4]}'
    except (OSError, ValueError, IndexError):
        pass  # Not every system tells, and the program may have ended.
    return 'another program'


class Taken(Exception):
    """Something stands under the name of a file that was to be new."""


class Saving:
    """A save under way. `write` brings it as far as the rename, and `settle` ends it, from whatever point `write` has come to:
    then the new file stands in its place or is gone, and no handle is open. To settle it twice is harmless.

    `see` is called once the name is locked, with whether it is: not where another save has had it for too long. What it raises
    ends the save. One that `is_new` replaces nothing: `write` raises Taken where something is there."""

    def __init__(self, path: Path, data: bytes, mark: Callable[[], None], compares: bool,
                 see: Callable[[bool], None] = lambda is_locked: None, is_new: bool = False):
        self.fault: Optional[OSError] = None
        self._path, self._name, self._data = path, path.name, data
        self._mark = mark
        self._compares = compares
        self._see = see
        self._is_new = is_new
        self._is_unchanged = False
        self._beside = ''
        # The handles of the folder, of the file that has the name locked, of the new file and of one that is looked at, where they
        # are open.
        self._folder: list[int] = []
        self._locked: list[int] = []
        self._new: list[int] = []
        self._other: list[int] = []

    def write(self) -> None:
        """Writes the new file and renames it, where the file that is there has not these bytes already. Raises OSError."""
        self._open_folder()
        self._see(self._lock_name())
        access = self._access()
        self._clear()
        if access is not None and self._compares and self._has_bytes():
            self._is_unchanged = True
            return
        self._make(_NEW_FILE_MODE if access is None else access)
        new = self._new[0]
        # The process's mask may have taken some bits away. Where all are there none is set, since not every file system can.
        if access is not None and os.fstat(new).st_mode & _ACCESS_BITS != access:
            os.fchmod(new, access)
        rest = memoryview(self._data)
        while rest:
            rest = rest[os.write(new, rest):]
        os.fsync(new)
        self._put_in_place()

    def _put_in_place(self) -> None:
        """Gives the new file its name. One that replaces nothing has two names for a moment: the first one goes when the save is
        settled."""
        folder = self._folder[0]
        if self._is_new:
            try:
                os.link(self._beside, self._name, src_dir_fd=folder, dst_dir_fd=folder, follow_symlinks=False)
                return
            except OSError as fault:
                # Not every file system has links.
                if fault.errno == errno.EEXIST or self._there(self._name) is not None:
                    raise Taken from fault
        os.rename(self._beside, self._name, src_dir_fd=folder, dst_dir_fd=folder)

    def settle(self) -> None:
        """Ends the save, and has the map marked as clean where the file under the name has its bytes. What goes wrong is
        `fault` then."""
        try:
            if self._is_unchanged:
                self._mark()
            elif self._new and self._leads_to(self._name, self._new[0]):
                if self._is_new and self._is_claimed():
                    os.unlink(self._beside, dir_fd=self._folder[0])
                # A folder that could not be synced is not asked once more: it would say that all is well.
                if self.fault is None:
                    self._sync_names()
                    self._mark()
            elif self._new and self._is_claimed():
                os.unlink(self._beside, dir_fd=self._folder[0])
        except OSError as fault:
            self.fault = self.fault or fault
        for handles in (self._other, self._new, self._locked, self._folder):
            _close(handles)

    # ---- the folder
    def _open_folder(self) -> None:
        # It may be a link.
        opener = functools.partial(os.open, flags=os.O_RDONLY | os.O_DIRECTORY | os.O_CLOEXEC)
        self._folder.extend(map(opener, [self._path.parent]))

    def _sync_names(self) -> None:
        """Has the system keep the names of the folder. EINVAL says that the file system has no such call."""
        try:
            os.fsync(self._folder[0])
        except OSError as fault:
            if fault.errno != errno.EINVAL:
                raise

    def _there(self, name: str) -> Optional[os.stat_result]:
        """What stands under a name of the folder, and not what a link leads to; `None` where nothing does."""
        try:
            return os.stat(name, dir_fd=self._folder[0], follow_symlinks=False)
        except FileNotFoundError:
            return None

    def _leads_to(self, name: str, handle: int) -> bool:
        """Whether an open file stands under a name of the folder."""
        there = self._there(name)
        return there is not None and os.path.samestat(there, os.fstat(handle))

    # ---- the file that is there
    def _lock_name(self) -> bool:
        """Locks the file that is there, so that other saves of the name wait. Whether no other one has it: where nothing is there,
        or it can't be locked, nobody has. Waits for who has it, but not for ever."""
        for _ in range(_LOOKS):
            try:
                handle = self._open_regular(self._name, self._locked)
                fcntl.flock(handle, fcntl.LOCK_EX | fcntl.LOCK_NB)
                if self._leads_to(self._name, handle):
                    return True
            except BlockingIOError:
                time.sleep(_PAUSE)
            except OSError:
                return True
            _close(self._locked)
        return False

    def _access(self) -> Optional[int]:
        """The access bits of the file that is replaced; none where there is none, or a link. Raises OSError where it is no file, as a
        folder or a pipe."""
        there = self._there(self._name)
        if there is None or stat.S_ISLNK(there.st_mode):
            return None
        if not stat.S_ISREG(there.st_mode):
            raise OSError(errno.EINVAL, 'not a file', self._name)
        return there.st_mode & _ACCESS_BITS

    def _open_regular(self, name: str, into: list[int]) -> int:
        """Opens a file that is there to be read, and gives its handle and no other's of the list. Raises OSError where it is no
        regular one, or a link. A pipe is not waited for."""
        _open(into, name, os.O_RDONLY | os.O_NONBLOCK, folder=self._folder[0])
        if not stat.S_ISREG(os.fstat(into[0]).st_mode):
            raise OSError(errno.EINVAL, 'not a file', name)
        return into[0]

    def _has_bytes(self) -> bool:
        """Whether the file that is there has the bytes that are saved, and no others, and the system keeps it so."""
        try:
            handle = self._open_regular(self._name, self._other)
            if os.fstat(handle).st_size != len(self._data):
                return False
            # A file that has grown since has more than the last piece.
            pieces = range(0, len(self._data) + 1, _PIECE)
            is_same = all(os.read(handle, _PIECE) == self._data[at:at + _PIECE] for at in pieces)
            if not is_same or not self._leads_to(self._name, handle):
                return False
            os.fsync(handle)
            self._sync_names()
            return True
        except OSError:
            return False
        finally:
            _close(self._other)

    # ---- new files
    def _clear(self) -> None:
        """Takes away the new files that killed saves have left, but for those that another save has locked."""
        new = re.compile(f'{re.escape(_front(self._name))}(0|[1-9][0-9]*){re.escape(_END)}')
        try:
            names = os.listdir(self._folder[0])
        except OSError:
            return
        for name in names:
            found = new.fullmatch(name)
            if found and int(found[1]) < 2**64:
                self._take_away(name)

    def _take_away(self, name: str) -> None:
        try:
            handle = self._open_regular(name, self._other)
            fcntl.flock(handle, fcntl.LOCK_EX | fcntl.LOCK_NB)
            if self._leads_to(name, handle):
                os.unlink(name, dir_fd=self._folder[0])
        except OSError:
            pass
        finally:
            _close(self._other)

    def _make(self, mode: int) -> None:
        """Makes the new file and locks it, under the first name that no other save has."""
        for number in range(_MOST_NAMES):
            self._beside = f'{_front(self._name)}{number}{_END}'
            try:
                _open(self._new, self._beside, os.O_WRONLY | os.O_CREAT | os.O_EXCL, mode, self._folder[0])
            except FileExistsError:
                continue
            if self._is_claimed():
                return
            _close(self._new)
        raise FileExistsError(errno.EEXIST, os.strerror(errno.EEXIST), self._beside)

    def _is_claimed(self) -> bool:
        """Locks the new file, so that no other save takes it away. Not where one was quicker: it has locked the file, or taken
        its name away. Where files can't be locked, nobody takes another's away."""
        try:
            fcntl.flock(self._new[0], fcntl.LOCK_EX | fcntl.LOCK_NB)
        except BlockingIOError:
            return False
        except OSError:
            pass
        return self._leads_to(self._beside, self._new[0])
