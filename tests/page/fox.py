# SPDX-License-Identifier: MIT OR Apache-2.0
"""Firefox without a window, by its Marionette port: Debian has no geckodriver."""
import json
import os
import shutil
import socket
import subprocess
import tempfile
import time
from pathlib import Path

WAIT = 300
SETTINGS = {
    'browser.shell.checkDefaultBrowser': False,
    'datareporting.policy.dataSubmissionEnabled': False,
    'browser.download.folderList': 2,
    'browser.download.useDownloadDir': True,
    'browser.download.always_ask_before_handling_new_types': False,
    'browser.download.alwaysOpenPanel': False,
    'browser.helperApps.neverAsk.saveToDisk': 'application/json',
}
ELEMENT = 'element-6066-11e4-a52e-4f735466cecf'


def free_port():
    with socket.create_server(('127.0.0.1', 0)) as link:
        return link.getsockname()[1]


class Fox:
    """Firefox with a profile and a folder of downloads of its own."""

    def __enter__(self):
        self.top = tempfile.mkdtemp(prefix='roskevad_firefox_')
        self.downloads = Path(self.top) / 'downloads'
        profile = Path(self.top) / 'profile'
        self.downloads.mkdir()
        profile.mkdir()
        port = free_port()
        settings = {**SETTINGS, 'marionette.port': port, 'browser.download.dir': str(self.downloads)}
        rows = [f'user_pref({json.dumps(k)}, {json.dumps(v)});\n' for k, v in settings.items()]
        (profile / 'user.js').write_text(''.join(rows))
        size = {'MOZ_HEADLESS_WIDTH': '1320', 'MOZ_HEADLESS_HEIGHT': '1040'}
        self.process = subprocess.Popen(
            ['firefox-esr', '--headless', '--marionette', '--no-remote', '--profile', profile],
            env={**os.environ, 'HOME': self.top, 'TMPDIR': self.top, **size},
            stdout=subprocess.DEVNULL,
            stderr=subprocess.DEVNULL,
        )
        self.link = self.connected(port)
        self.data, self.number = b'', 0
        self.read()
        self.call('WebDriver:NewSession', capabilities={})
        return self

    def __exit__(self, *_):
        self.link.close()
        self.process.terminate()
        self.process.wait(WAIT)
        shutil.rmtree(self.top, ignore_errors=True)

    def connected(self, port):
        end = time.monotonic() + WAIT
        while True:
            try:
                return socket.create_connection(('127.0.0.1', port), timeout=WAIT)
            except OSError:
                assert time.monotonic() < end and self.process.poll() is None, 'no Firefox'
                time.sleep(0.1)

    def read(self):
        while b':' not in self.data:
            self.data += self.link.recv(65536)
        size, _, rest = self.data.partition(b':')
        while len(rest) < int(size):
            rest += self.link.recv(65536)
        self.data = rest[int(size) :]
        return json.loads(rest[: int(size)])

    def call(self, name, **words):
        self.number += 1
        body = json.dumps([0, self.number, name, words]).encode()
        self.link.sendall(str(len(body)).encode() + b':' + body)
        _, _, fault, result = self.read()
        assert not fault, f'{name}: {fault}'
        return result

    def js(self, code, *words):
        return self.call('WebDriver:ExecuteScript', script=code, args=list(words), sandbox=None)['value']

    def wait(self, code, *words):
        end = time.monotonic() + WAIT
        while not self.js(f'return !!({code})', *words):
            assert time.monotonic() < end, f'not seen: {code}'
            time.sleep(0.05)

    def open(self, address):
        self.call('WebDriver:Navigate', url=address)
        self.wait('document.body.dataset.isReady')

    def reload(self):
        self.call('WebDriver:Refresh')
        self.wait('document.body.dataset.isReady')

    def settle(self):
        self.wait('window.roskevad.editor.isQuiet')

    def send_keys(self, css, text):
        found = self.call('WebDriver:FindElement', using='css selector', value=css)['value'][ELEMENT]
        self.call('WebDriver:ElementSendKeys', id=found, text=text)

    def press(self, *keys):
        """Presses keys, all but the last of which are held."""
        down = [{'type': 'keyDown', 'value': key} for key in keys]
        up = [{'type': 'keyUp', 'value': key} for key in reversed(keys)]
        self.act({'type': 'key', 'id': 'keys', 'actions': down + up})

    def drag(self, points):
        """Presses at the first point, goes over the others, and lets go."""
        moves = [{'type': 'pointerMove', 'x': x, 'y': y, 'duration': 30} for x, y in points]
        way = [moves[0], {'type': 'pointerDown', 'button': 0}, *moves[1:], {'type': 'pointerUp', 'button': 0}]
        self.act({'type': 'pointer', 'id': 'hand', 'parameters': {'pointerType': 'mouse'}, 'actions': way})

    def act(self, actions):
        self.call('WebDriver:PerformActions', actions=[actions])
        self.settle()
