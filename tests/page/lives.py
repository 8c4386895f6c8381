# SPDX-License-Identifier: MIT OR Apache-2.0
"""Browsers that end: each with a profile that outlives it, so that what a page has kept can be looked
for behind a new start."""
import os
import shutil
import signal
import tempfile
import time
from pathlib import Path

from page.browser import Page, started

WAIT = 30


def children(process):
    """The processes that a process has started."""
    found = []
    for entry in Path('/proc').iterdir():
        try:
            if entry.name.isdigit() and int((entry / 'stat').read_text().rpartition(')')[2].split()[1]) == process:
                found.append(int(entry.name))
        except OSError:
            pass  # It has ended.
    return found


class Life:
    """Chromium with a profile of its own, and the page in it. `kill` ends the browser's process as a
    crash does, and `begin` starts it anew."""

    def __init__(self, address):
        self.address, self.driver = address, None
        self.profile = tempfile.mkdtemp(prefix='roskevad_profile_')

    def __enter__(self):
        return self

    def __exit__(self, *_):
        if self.driver is not None:
            self.kill()
        shutil.rmtree(self.profile, ignore_errors=True)

    def begin(self, *flags):
        """Starts the browser, and gives the page in it."""
        for name in ('SingletonLock', 'SingletonCookie', 'SingletonSocket'):
            (Path(self.profile) / name).unlink(missing_ok=True)
        self.driver = started(f'--user-data-dir={self.profile}', *flags)
        [self.browser] = [
            each for each in children(self.driver.service.process.pid) if is_browser(each)
        ]
        self.page = Page(self.driver, self.address)
        self.page.open()
        return self.page

    def kill(self):
        """Kills the browser's process, and so all that belongs to it."""
        os.kill(self.browser, signal.SIGKILL)
        end = time.monotonic() + WAIT
        while is_alive(self.browser) and time.monotonic() < end:
            time.sleep(0.02)
        self.driver.service.stop()
        self.driver = None


def is_browser(process):
    return b'--user-data-dir' in Path(f'/proc/{process}/cmdline').read_bytes()


def is_alive(process):
    try:
        return Path(f'/proc/{process}/stat').read_text().rpartition(')')[2].split()[0] != 'Z'
    except OSError:
        return False
