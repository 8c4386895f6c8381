# SPDX-License-Identifier: MIT OR Apache-2.0
"""The names of documents and files that a session line can spell."""
import os
import re
from typing import Union

from .limits import MAX_DOCUMENT_NAME, MAX_FILE_NAME

#: The names of documents and of files that a line can spell, as patterns.
DOCUMENT = rf'[A-Za-z0-9_][A-Za-z0-9_.-]{{0,{MAX_DOCUMENT_NAME - 1}}}'
FILE = rf'[A-Za-z0-9_][A-Za-z0-9_.-]{{0,{MAX_FILE_NAME - 1}}}'


def is_document_name(word: str) -> bool:
    """Whether a line can name a document so."""
    return re.fullmatch(DOCUMENT, word) is not None


def is_file_name(word: str) -> bool:
    """Whether a line can name a file so."""
    return re.fullmatch(FILE, word) is not None


def document_name(path: Union[str, 'os.PathLike[str]']) -> str:
    """The name of the document under which a file opens, where none is given: that of the file, without what follows its last
    point. Each character that no line can spell becomes `_`; points and hyphens at the front are left out, and so is what
    follows 64 characters. It is `map` where nothing is left."""
    from pathlib import PurePath

    spelled = re.sub('[^A-Za-z0-9_.-]', '_', PurePath(path).stem)
    return spelled.lstrip('.-')[:MAX_DOCUMENT_NAME] or 'map'
