# SPDX-License-Identifier: MIT OR Apache-2.0
"""The files that the page works on: maps of a folder, and tilesets and images below a root."""
import hashlib
import os
import stat
import threading
import unicodedata
from contextlib import contextmanager
from pathlib import Path, PurePosixPath
from typing import Any, Iterator, Optional

from ..saving import Saving, Taken, holder_of

#: The longest file that is given or taken.
LONGEST_FILE = 64 * 1024 * 1024
#: What the files are that are given, by the ends of their names; those of maps are also taken.
KINDS = {
    '.tmx': 'application/xml', '.tmj': 'application/json', '.json': 'application/json', '.tsx': 'application/xml', '.tsj': 'application/json',
    '.tx': 'application/xml', '.tj': 'application/json', '.png': 'image/png',
    '.jpg': 'image/jpeg', '.jpeg': 'image/jpeg', '.gif': 'image/gif', '.bmp': 'image/bmp', '.webp': 'image/webp',
}
MAPS = ('.tmx', '.tmj', '.json')
TILESETS = ('.tsx', '.tsj')
# How many files are listed at most, how many names are looked at for them, and how deep folders are looked into.
_MOST_FILES, _MOST_NAMES, _DEEPEST = 2000, 50_000, 8
# The kinds of characters that no name may have here: a line that tells it could not be read again.
_UNTOLD = ('Cc', 'Cs', 'Zl', 'Zp')


class Unlike(Exception):
    """The file under a name is not what a save may replace."""


class Held(Exception):
    """Another program saves the file, and has for too long. The words say which one."""


def is_map(path: Path) -> bool:
    """Whether a name is one of a map."""
    return path.suffix.lower() in MAPS


def can_be_listed(name: str) -> bool:
    """Whether a name can be listed: it is UTF-8, with no control character and no end of a line. Other files are not listed, not read
    and not saved."""
    return not any(unicodedata.category(each) in _UNTOLD for each in name)


def time_of(file_stat: os.stat_result) -> int:
    """When a file was changed, in microseconds: a number that JavaScript has exactly."""
    return file_stat.st_mtime_ns // 1000


class Folder:
    """A folder of maps below a root. Paths are given from the folder in `maps`, and from the root elsewhere; links are followed, and
    what they lead to lies below the root. Saves of one file come one behind the other."""

    def __init__(self, folder: Path, root: Path):
        self.folder, self.root = folder.resolve(), root.resolve()
        self._turns = threading.Condition()
        self._saved: set[Path] = set()
        self._is_ended = False

    @property
    def prefix(self) -> str:
        """The path of the folder from the root, with a slash; nothing where it is the root."""
        return '' if self.folder == self.root else f'{self.folder.relative_to(self.root).as_posix()}/'

    @property
    def source(self) -> str:
        """A name of the folder with its root, the same at each start: the SHA-256 of both real paths, with a zero byte between them,
        which no path has."""
        return hashlib.sha256(b'\0'.join(os.fsencode(path) for path in (self.folder, self.root))).hexdigest()

    def maps(self) -> list[dict[str, Any]]:
        """The files of the folder that may be maps, with their sizes and times."""
        return self._files(self.folder, MAPS)

    def tilesets(self) -> list[dict[str, Any]]:
        """The files of tilesets below the root, with their sizes and times."""
        return self._files(self.root, TILESETS)

    def names(self) -> list[dict[str, Any]]:
        """All files of the folder, with their sizes and times."""
        return self._files(self.folder, None)

    def _files(self, top: Path, suffixes: Optional[tuple[str, ...]]) -> list[dict[str, Any]]:
        """The files below a folder with one of these ends, or all, with their paths from the folder of the maps."""
        found: list[dict[str, Any]] = []
        for path in self._names(top):
            if (suffixes is None or path.suffix.lower() in suffixes) and len(found) < _MOST_FILES:
                file_stat = self._stat_of(path)
                if file_stat is not None:
                    name = Path(os.path.relpath(path, self.folder)).as_posix()
                    found.append({'path': name, 'size': file_stat.st_size, 'time': time_of(file_stat)})
        return found

    def _names(self, folder: Path) -> Iterator[Path]:
        """The files of a folder and of those in it, but for hidden ones and names that can't be listed; links to folders are not
        followed."""
        seen = 0
        for top, folders, names in os.walk(folder):
            depth = len(Path(top).relative_to(folder).parts)
            folders[:] = sorted(name for name in folders if can_be_listed(name) and not name.startswith('.')) if depth < _DEEPEST else []
            seen += len(names)
            if seen > _MOST_NAMES:
                return
            yield from (Path(top) / name for name in sorted(names) if can_be_listed(name) and not name.startswith('.'))

    def _stat_of(self, path: Path) -> Optional[os.stat_result]:
        """What the system tells of a regular file that lies below the root, links followed; `None` where there is no such file."""
        try:
            real = path.resolve(strict=True)
            file_stat = real.stat()
        except (OSError, ValueError, RuntimeError):
            return None
        return file_stat if real.is_relative_to(self.root) and stat.S_ISREG(file_stat.st_mode) else None

    def read(self, name: str) -> Optional[tuple[bytes, int]]:
        """The bytes of a map, a tileset or an image, and its time; `None` where there is no such file, or it is too long."""
        path = self._path(name)
        file_stat = None if path is None or path.suffix.lower() not in KINDS else self._stat_of(path)
        if path is None or file_stat is None or file_stat.st_size > LONGEST_FILE:
            return None
        try:
            data = path.read_bytes()
        except OSError:
            return None
        return (data, time_of(file_stat)) if len(data) <= LONGEST_FILE else None

    def _path(self, name: str) -> Optional[Path]:
        """The path of a name from the root; `None` where it can't be listed, or is none of a file, as one that ends with a slash."""
        return self.root / name if can_be_listed(name) and PurePosixPath(name).as_posix() == name else None

    def place(self, name: str) -> Optional[Path]:
        """Where a map is saved: in the folder, or below it, in a folder that is there. `None` where it must not be."""
        path = self._path(name)
        if path is None:
            return None
        try:
            parent = path.parent.resolve(strict=True)
        except (OSError, ValueError, RuntimeError):
            return None
        is_name = is_map(path) and not path.name.startswith('.')
        return parent / path.name if is_name and parent.is_relative_to(self.folder) and parent.is_dir() else None

    def save(self, path: Path, data: bytes, wanted: Optional[str]) -> int:
        """Writes a file whole, and gives its time. Raises Unlike where the file that is there has another hash than is wanted, or where
        none is wanted and something is there; Held where another program saves it, and has for too long; OSError where it cannot be
        written."""
        with self._turn(path):
            saving = Saving(path, data, lambda: None, True, lambda is_locked: self._see(path, wanted, is_locked), wanted is None)
            try:
                saving.write()
            except Taken as taken:
                raise Unlike from taken
            except OSError as fault:
                saving.fault = fault
            finally:
                saving.settle()
            if saving.fault is not None:
                raise saving.fault
            return time_of(path.stat())

    @contextmanager
    def _turn(self, path: Path) -> Iterator[None]:
        """Keeps other saves of a file waiting. Where files can be locked their locks do so too, for other programs as well."""
        with self._turns:
            self._turns.wait_for(lambda: not self._is_ended and path not in self._saved)
            self._saved.add(path)
        try:
            yield
        finally:
            with self._turns:
                self._saved.discard(path)
                self._turns.notify_all()

    def end(self, seconds: float) -> None:
        """No save begins from now on. Waits for those that are under way, but no longer than that."""
        with self._turns:
            self._is_ended = True
            self._turns.wait_for(lambda: not self._saved, seconds)

    def _see(self, path: Path, wanted: Optional[str], is_locked: bool) -> None:
        if not is_locked:
            raise Held(holder_of(path))
        if wanted is None:
            if os.path.lexists(path):
                raise Unlike
            return
        file_stat = self._stat_of(path)
        if file_stat is None or file_stat.st_size > LONGEST_FILE or hashlib.sha256(path.read_bytes()).hexdigest() != wanted:
            raise Unlike
