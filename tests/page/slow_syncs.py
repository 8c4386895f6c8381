# SPDX-License-Identifier: MIT OR Apache-2.0
"""Servers on a slow disk, as a busy one or one of the network."""
import contextlib
import os
from pathlib import Path
from unittest import mock

CODE = '''
import os, time
was = os.fsync
def fsync(handle):
    if os.path.exists({flag!r}): time.sleep({seconds})
    return was(handle)
os.fsync = fsync
'''


@contextlib.contextmanager
def slow_syncs(top, seconds):
    """Each sync of a server that is started meanwhile takes so long, while the file is there that this
    gives."""
    site, flag = Path(top) / 'site', Path(top) / 'slow'
    site.mkdir()
    (site / 'sitecustomize.py').write_text(CODE.format(flag=str(flag), seconds=seconds))
    with mock.patch.dict(os.environ, PYTHONPATH=str(site)):
        yield flag
