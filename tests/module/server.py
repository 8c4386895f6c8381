# SPDX-License-Identifier: MIT OR Apache-2.0
"""Serves the package for JavaScript and runs of sessions, and takes what came of them. So Node and the
browsers do them by the same script, run_sessions.mjs. Its page calls a function of a script."""
import json
import queue
import threading
import time
from http.server import BaseHTTPRequestHandler, ThreadingHTTPServer

from lib.places import TOP
from lib.sessions import fault_of_files, fault_of_replies

TYPES = {
    '.js': 'text/javascript',
    '.mjs': 'text/javascript',
    '.wasm': 'application/wasm',
    '.tmj': 'application/json',
}
FOLDERS = ('js', 'tests/module', 'examples/maps')
# It is asked for behind a `#` with the script, the function's name and what the function gets, as JSON,
# and tells what the function gives, or how it failed.
PAGE = b'''<!doctype html>
<meta charset="utf-8">
<title>Roskevad</title>
<script type="module">
  const [file, name, ...words] = JSON.parse(decodeURIComponent(location.hash.slice(1)));
  let came;
  try {
    came = [(await (await import(file))[name](...words)) ?? null, null];
  } catch (fault) {
    came = [null, `${fault}\\n${fault?.stack}`];
  }
  await fetch("/came", { method: "POST", body: JSON.stringify(came) });
</script>
'''


def packed(parts):
    """Parts by their names as bytes: the size of a head, the head, which has the names and sizes,
    and the parts."""
    head = json.dumps([[name, len(data)] for name, data in parts.items()]).encode()
    return len(head).to_bytes(4, 'little') + head + b''.join(parts.values())


def unpacked(data):
    """The parts that were packed."""
    start = 4 + int.from_bytes(data[:4], 'little')
    parts = {}
    for name, size in json.loads(data[4:start]):
        parts[name] = data[start : start + size]
        start += size
    return parts


def asked(run):
    """What a run is made from: its limit, its session and its files, by their names behind a
    slash."""
    limit = run.options[1] if run.options else '0'
    files = {f'/{name}': data for name, data in run.before.items()}
    return packed({'limit': limit.encode(), 'session': run.session, **files})


class Quiet(ThreadingHTTPServer):
    """A server that tells nothing of a browser that has ended."""

    daemon_threads = True

    def handle_error(self, *_):
        """Tells nothing."""


class Server:
    """A server of runs on this machine, which keeps what came of each: its replies and its files. Other
    texts are served by their paths."""

    def __init__(self, runs=()):
        self.runs, self.came, self.texts = list(runs), {}, {}
        self.told = queue.Queue()
        outer = self

        class Handler(BaseHTTPRequestHandler):
            protocol_version = 'HTTP/1.1'

            def do_GET(self):
                found = outer.found(self.path)
                self.answer(200 if found else 404, *(found or (b'', 'text/plain')))

            def do_POST(self):
                outer.take(self.path, self.rfile.read(int(self.headers['Content-Length'])))
                self.answer(200, b'', 'text/plain')

            def answer(self, status, data, kind):
                self.send_response(status)
                self.send_header('Content-Type', kind)
                self.send_header('Content-Length', str(len(data)))
                self.end_headers()
                self.wfile.write(data)

            def log_message(self, *_):
                """Tells nothing."""

        self.server = Quiet(('127.0.0.1', 0), Handler)
        self.address = f'http://127.0.0.1:{self.server.server_address[1]}'

    def __enter__(self):
        threading.Thread(target=self.server.serve_forever, daemon=True).start()
        return self

    def __exit__(self, *_):
        self.server.shutdown()
        self.server.server_close()

    def found(self, path):
        """The bytes and the type of what stands at a path, or None."""
        if path == '/':
            return PAGE, 'text/html'
        if path in self.texts:
            return self.texts[path], 'text/plain'
        if path == '/runs':
            return str(len(self.runs)).encode(), 'application/json'
        if path.startswith('/runs/'):
            return asked(self.runs[int(path[len('/runs/') :])]), 'application/octet-stream'
        file = (TOP / path[1:]).resolve()
        is_open = any((TOP / folder) in file.parents for folder in (*FOLDERS, 'lib'))
        if not is_open or not file.is_file():
            return None
        return file.read_bytes(), TYPES.get(file.suffix, 'application/octet-stream')

    def take(self, path, data):
        """Keeps what came of a run, or of the page's function."""
        if path == '/came':
            self.told.put(json.loads(data))
        else:
            self.came[int(path.rpartition('/')[2])] = unpacked(data)

    def wait(self, seconds, is_going):
        """What came of the page's function, for which there are so many seconds."""
        end = time.monotonic() + seconds
        while time.monotonic() < end:
            try:
                return self.told.get(timeout=1)
            except queue.Empty:
                assert is_going(), 'the browser has ended'
        raise AssertionError(f'nothing came within {seconds} seconds')

    def fault_of(self, number):
        """How what came of a run differs from what it must give, or None."""
        run = self.runs[number]
        if number not in self.came:
            return 'nothing came of it'
        came = dict(self.came[number])
        replies = came.pop('replies')
        files = {name[1:]: data for name, data in came.items()}
        return fault_of_replies(run.session, run.replies, replies) or fault_of_files(
            run.after, files
        )
