# SPDX-License-Identifier: MIT OR Apache-2.0
"""Of which kind the file of a map is: XML, as in `.tmx`, or JSON. The bytes of a file tell it; of a new one, its name does."""
import re
import stat
from typing import TYPE_CHECKING

if TYPE_CHECKING:
    from pathlib import Path

#: The kinds, by the numbers that the library has for them.
KINDS = {'json': 0, 'tmx': 1}
# The front of a file in XML: a byte order mark, blanks, and its first byte.
_XML = re.compile(rb'(?:\xef\xbb\xbf)?[ \t\n\x0c\r]*<')
# So many bytes tell the kind of a file.
_FRONT_BYTES = 65_536


def kind_of(data: bytes) -> str:
    """The kind of a file with these bytes."""
    return 'json' if _XML.match(data) is None else 'tmx'


def kind_at(path: 'Path') -> str:
    """The kind of a file that is saved under a path: that of the file that is there; where there is none, or one without a byte, XML for
    a name in `.tmx`, and JSON for each other one."""
    front = _front_of(path)
    return kind_of(front) if front else kind_of_name(path.name)


def kind_of_name(name: str) -> str:
    return 'tmx' if name.lower().endswith('.tmx') else 'json'


def _front_of(path: 'Path') -> bytes:
    """The first bytes of a file; none where it can't be read. A pipe is not waited for."""
    try:
        if not stat.S_ISREG(path.stat().st_mode):
            return b''
        # (no opener of its own: an exception between that and the file would leave the handle open)
        with open(path, 'rb') as file:
            return file.read(_FRONT_BYTES)
    except OSError:
        return b''
