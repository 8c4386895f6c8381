# SPDX-License-Identifier: MIT OR Apache-2.0
"""The files of a folder that maps are opened from and saved to."""
import os
import stat
from typing import TYPE_CHECKING, Optional

from .faults import refused_call
from .file_kinds import kind_of
from .limits import MAX_FILE_BYTES

if TYPE_CHECKING:
    from pathlib import Path

    from .document import Document


def read(path: 'Path') -> tuple[Optional[bytes], Optional[OSError]]:
    """The bytes of a file, if it can be read, and what went wrong where it can't: FileNotFoundError where it is not there. A pipe is not
    waited for."""
    try:
        with open(path, 'rb', opener=lambda name, flags: os.open(name, flags | os.O_NONBLOCK)) as file:
            if not stat.S_ISREG(os.fstat(file.fileno()).st_mode):
                return None, OSError(f'{path} is no regular file')
            data = file.read(MAX_FILE_BYTES + 1)
            return (data, None) if len(data) <= MAX_FILE_BYTES else (None, OSError(f'{path} is too long'))
    except OSError as fault:
        return None, fault


def replace(path: 'Path', data: bytes) -> None:
    """Writes a file as a save does: it is the old or the new one, whole, whatever falls in between. Raises OSError."""
    from .saving import Saving

    saving = Saving(path, data, lambda: None, True)
    try:
        saving.write()
    finally:
        saving.settle()
    if saving.fault is not None:
        raise saving.fault


def save_as_opened(document: 'Document', path: 'Path') -> None:
    """Saves a map to a file of the kind that it was opened from or saved to last, whatever is there. Raises Refused."""
    document._save(path, False, None, kind_of(document._source))


def refuse_unknown(document: 'Document', path: 'Path', data: bytes, call: str) -> None:
    """Refuses a save of these bytes where the file that is there has others, which the document has not read from it or saved to it last."""
    there, fault = read(path)
    is_there = not isinstance(fault, FileNotFoundError) and (there is not None or path.is_file())
    if is_there and there != data and not document._knows(path, there):
        why = f'{path.name} has other bytes than those that were read or saved last: save(.., force=True) replaces them'
        raise refused_call(51, call, why) from fault
