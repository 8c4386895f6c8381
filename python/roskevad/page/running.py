# SPDX-License-Identifier: MIT OR Apache-2.0
"""Which server has a folder: a file for each folder, below what this user's programs keep while they run. Its server has it locked for as long
as it lives, so what a killed one leaves says nothing."""
import fcntl
import hashlib
import os
import stat
import tempfile
from pathlib import Path
from typing import Optional


def _kept() -> Path:
    """The folder of these files, which is this user's alone. Raises OSError where there can be none."""
    given = os.environ.get('XDG_RUNTIME_DIR', '')
    path = Path(given) / 'roskevad' if given else Path(tempfile.gettempdir()) / f'roskevad-{os.getuid()}'
    path.mkdir(mode=0o700, exist_ok=True)
    folder_stat = path.lstat()
    if not stat.S_ISDIR(folder_stat.st_mode) or folder_stat.st_uid != os.getuid() or folder_stat.st_mode & 0o077:
        raise PermissionError(f'{path} is not of this user alone')
    return path


def take(folder: Path, words: str) -> Optional[str]:
    """Says of a folder which server has it, for as long as this process lives; `None` then. Where another one has it already, gives what that
    one has said. Where nothing can be kept nobody is told."""
    name = hashlib.sha256(os.fsencode(folder)).hexdigest()
    try:
        handle = os.open(_kept() / name, os.O_RDWR | os.O_CREAT | os.O_CLOEXEC | os.O_NOFOLLOW, 0o600)
        try:
            fcntl.flock(handle, fcntl.LOCK_EX | fcntl.LOCK_NB)
        except BlockingIOError:
            with open(handle, encoding='utf-8') as kept:
                return kept.read() or 'another one'
        os.ftruncate(handle, 0)
        os.write(handle, words.encode())
    except OSError:
        pass
    return None
