# SPDX-License-Identifier: MIT OR Apache-2.0
"""The server of the page, and requests to it over raw sockets."""
import contextlib
import hashlib
import json
import socket
import subprocess
import tempfile
import urllib.parse
from pathlib import Path

from lib.cases import passed
from lib.places import TOP


class Door:
    """`./tile_page`, and requests to it."""

    def __init__(self, *words):
        self.faults = tempfile.TemporaryFile()
        self.program = subprocess.Popen(
            [TOP / 'tile_page', *words], stdout=subprocess.PIPE, stderr=self.faults, text=True
        )
        self.told = [self.program.stdout.readline() for _ in range(3)]
        self.address = self.told[1]
        parts = urllib.parse.urlsplit(self.address.strip())
        self.port, self.query = parts.port, parts.query
        self.files = f'/files?{self.query}'

    def want(self, what, is_so, seen=''):
        """Sees that something is so; else what was seen is told."""
        assert is_so, f'{what}: {seen}'
        passed()

    def connect(self):
        link = socket.create_connection(('127.0.0.1', self.port), timeout=60)
        link.setsockopt(socket.IPPROTO_TCP, socket.TCP_NODELAY, 1)
        return link

    def request(self, method, target, body=b'', host=None, extra=''):
        host = f'127.0.0.1:{self.port}' if host is None else host
        length = f'content-length: {len(body)}\r\n' if body else ''
        return f'{method} {target} HTTP/1.1\r\nhost: {host}\r\n{extra}{length}\r\n'.encode() + body

    def ask(self, *given, **named):
        with self.connect() as link:
            link.sendall(self.request(*given, **named))
            return read_answer(link)

    def status(self, *given, **named):
        try:
            return self.ask(*given, **named)[0]
        except ConnectionError as fault:
            return fault

    def file(self, path):
        """The address of a file."""
        return f'/files/{path}?{self.query}'

    def listed(self):
        return json.loads(self.ask('GET', self.files)[2])

    def save(self, path, data, replaced=None):
        """The status of a save, which replaces a file of these bytes, or none."""
        sum_ = replaced is not None and hashlib.sha256(replaced).hexdigest()
        extra = 'if-none-match: *\r\n' if replaced is None else f'if-match: "{sum_}"\r\n'
        return self.status('PUT', self.file(path), data, extra=extra)

    def see_end(self):
        """Sees that the program still runs, and has said nothing on standard error."""
        self.want('the program still runs', self.program.poll() is None)
        self.faults.seek(0)
        told = self.faults.read()
        self.want('nothing is said on standard error', told == b'', told)

    def end(self):
        self.program.terminate()
        status = self.program.wait(10)
        self.program.stdout.close()
        return status


def read_answer(link, left=b''):
    """An answer's status, head and body, and what came behind it."""
    while b'\r\n\r\n' not in left:
        more = link.recv(65536)
        if not more:
            return 0, left, b'', b''
        left += more
    head, _, left = left.partition(b'\r\n\r\n')
    size = 0
    for line in head.split(b'\r\n')[1:]:
        name, _, value = line.partition(b':')
        if name.lower() == b'content-length':
            size = int(value)
    got = bytearray(left)
    while len(got) < size:
        more = link.recv(65536)
        if not more:
            break
        got += more
    return int(head.split()[1]), head, bytes(got[:size]), bytes(got[size:])


@contextlib.contextmanager
def opened():
    """A server on a folder of its own, and that folder. Connections that say nothing, or half a
    head, stay open beside all that is asked. At the end it must still run, and have said nothing on
    standard error."""
    with tempfile.TemporaryDirectory() as top:
        folder = Path(top) / 'maps'
        folder.mkdir()
        door = Door('--folder', folder)
        door.silent = [door.connect() for _ in range(20)]
        for link in door.silent[:10]:
            link.sendall(b'GET /files HTTP/1.1\r\nhost: 127')
        try:
            yield door, folder
            door.see_end()
        finally:
            for link in door.silent:
                link.close()
            door.end()
