# SPDX-License-Identifier: MIT OR Apache-2.0
"""Browsers without a window. Each opens a page of the server, which calls a function of a script and
tells the server what came of it. So no browser needs a driver."""
import json
import os
import shutil
import signal
import subprocess
import tempfile
import urllib.parse
from contextlib import contextmanager
from pathlib import Path

# How many seconds a function may take.
WAIT = 900
CHROMIUM_FLAGS = ('--headless=new', '--disable-gpu', '--disable-dev-shm-usage', '--no-first-run')
# WebKitGTK has no sandbox for root.
ENVIRONMENT = {'WEBKIT_DISABLE_SANDBOX_THIS_IS_DANGEROUS': '1'} if os.getuid() == 0 else {}
FIREFOX_SETTINGS = {
    'browser.shell.checkDefaultBrowser': False,
    'datareporting.policy.dataSubmissionEnabled': False,
    'toolkit.telemetry.reportingpolicy.firstRun': False,
}


def chromium(folder, address):
    """The command of Chromium. It has no sandbox for root."""
    rights = ['--no-sandbox'] if os.getuid() == 0 else []
    return ['chromium', *CHROMIUM_FLAGS, *rights, f'--user-data-dir={folder}', address]


def firefox(folder, address):
    rows = [f'user_pref({json.dumps(k)}, {json.dumps(v)});\n' for k, v in FIREFOX_SETTINGS.items()]
    (Path(folder) / 'user.js').write_text(''.join(rows))
    return ['firefox-esr', '--headless', '--no-remote', '--profile', folder, address]


# The browser of WebKitGTK, which Debian's webkit2gtk-driver brings, and a screen for it, of xvfb.
MINI_BROWSER = next(Path('/usr/lib').glob('*/webkit2gtk-4.*/MiniBrowser'), None)


def has_webkit():
    return MINI_BROWSER is not None and shutil.which('xvfb-run') is not None


def webkit(_, address):
    """The command of WebKitGTK, which has the engine of Safari."""
    return ['xvfb-run', '-a', MINI_BROWSER, address]


@contextmanager
def opened(command, address):
    """A browser with a profile of its own at an address, which is ended behind that."""
    folder = tempfile.mkdtemp(prefix='roskevad_browser_')
    process = subprocess.Popen(
        command(folder, address),
        env={**os.environ, **ENVIRONMENT, 'HOME': folder, 'TMPDIR': folder},
        stdout=subprocess.DEVNULL,
        stderr=subprocess.DEVNULL,
        start_new_session=True,
    )
    try:
        yield process
    finally:
        os.killpg(process.pid, signal.SIGKILL)
        process.wait()
        shutil.rmtree(folder, ignore_errors=True)


def told(command, server, file, name, *words):
    """What a function of a script gives in a browser's page."""
    asked = urllib.parse.quote(json.dumps([file, name, *words]))
    with opened(command, f'{server.address}/#{asked}') as process:
        given, fault = server.wait(WAIT, lambda: process.poll() is None)
    assert not fault, f'{file}: {fault}'
    return given
