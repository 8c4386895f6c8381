# SPDX-License-Identifier: MIT OR Apache-2.0
"""The server of the page: requests of the page, and of nobody else, over HTTP on this machine. There is no editor in it.

It is bound to 127.0.0.1. Its key is new at each start, but for one of a file, and stands in the address that it prints. Each request
has the key as `?key=`. Whoever has the key can read and replace the maps of the folder; the browser's history has it.

    GET /               the page, which is one file
    GET /files          the folder, its place below the root, a name of both, the maps to open, the undo limit, and the files that may be
                        maps
    GET /tilesets       the files of tilesets below the root
    GET /names          the names of all files of the folder, for properties that name one
    GET /files/PATH     a map, a tileset or an image below the root; `Roskevad-Time` is when it was changed
    PUT /files/PATH     saves a map of the folder, whole. `If-Match: "HASH"` says which SHA-256 the file has that it replaces,
                        `If-None-Match: *` that there is none

    403   a wrong key, or none; another Host; the Origin of another site
    404   another path; a file that is no map, tileset or image below the root, links followed
    405   another method
    412   the file is another one than the request says
    413   a body above 64 MiB, or above 1 MiB where nothing is saved, at once; what still comes is read and dropped for two seconds
    423   another program saves the file, and has for 10 seconds; the answer says which one
    428   a save that does not say what it replaces
    431   a head of more than 16 KiB, or of more than 64 fields

A connection has 20 seconds in all for a request, and for its answer. At most 64 connections wait; one more ends the one that has waited
longest. Each answer has `Referrer-Policy: no-referrer` and `Cache-Control: no-store`.
"""
import hmac
import io
import json
import re
import socket
import threading
import time
import traceback
from http.server import BaseHTTPRequestHandler, ThreadingHTTPServer
from pathlib import Path
from typing import Any, Optional
from urllib.parse import parse_qs, unquote, urlsplit

from .folder import KINDS, LONGEST_FILE, Folder, Held, Unlike

#: The longest body of a request that saves nothing.
LONGEST_BODY = 1024 * 1024
# How many seconds a connection has for a request, and for its answer, and how long what comes behind a refusal is read and dropped.
_IN_ALL, _DROPPING = 20.0, 2.0
# How many bytes and fields a head may have, and how many connections wait at most.
_LONGEST_HEAD, _MOST_FIELDS, _MOST_WAITING = 16 * 1024, 64, 64
# How many bytes of an answer are written at once.
_PIECE = 256 * 1024
_PAGE = Path(__file__).resolve().parent / 'roskevad.html'
_POLICY = "frame-ancestors 'none'; base-uri 'none'; form-action 'none'"
_TOKEN = re.compile(r"[A-Za-z0-9!#$%&'*+.^_`|~-]+")
_HASH = re.compile('"([0-9a-f]{64})"')


class Refusal(Exception):
    """A request that is refused, with the status of the answer and what it says."""

    def __init__(self, status: int, words: str):
        super().__init__(words)
        self.status = status
        self.words = words


class Server(ThreadingHTTPServer):
    """Serves the page and a folder on 127.0.0.1. `settings` is what the page gets at its start."""

    daemon_threads = True
    block_on_close = False
    request_queue_size = 128

    def __init__(self, folder: Folder, port: int, key: str, settings: dict[str, Any]):
        super().__init__(('127.0.0.1', port), Door)
        self.folder, self.key, self.settings = folder, key, settings
        self._waiting: dict[socket.socket, None] = {}
        self._waits = threading.Lock()
        port = self.server_address[1]
        self.hosts = {f'127.0.0.1:{port}', f'localhost:{port}'} | ({'127.0.0.1', 'localhost'} if port == 80 else set())

    @property
    def address(self) -> str:
        """The address of the page, key and all."""
        return f'http://127.0.0.1:{self.server_address[1]}/?key={self.key}'

    def begin_wait(self, link: socket.socket) -> None:
        """A connection waits from now on. Where too many do, the one that has waited longest is ended."""
        with self._waits:
            self._waiting[link] = None
            oldest = next(iter(self._waiting)) if len(self._waiting) > _MOST_WAITING else None
            if oldest is not None:
                del self._waiting[oldest]
        if oldest is not None:
            try:
                oldest.shutdown(socket.SHUT_RDWR)
            except OSError:
                pass  # It has ended already.

    def end_wait(self, link: socket.socket) -> None:
        """A connection has shown the key, or has ended."""
        with self._waits:
            self._waiting.pop(link, None)

    def end(self) -> None:
        """Ends it once a save that is under way has ended."""
        self.folder.end(_IN_ALL)
        self.server_close()


class _Timed(io.RawIOBase):
    """What comes over a connection, until a moment."""

    def __init__(self, link: socket.socket):
        self._link = link
        self.end = time.monotonic() + _IN_ALL

    def readable(self) -> bool:
        return True

    def readinto(self, room: Any) -> int:
        left = self.end - time.monotonic()
        if left <= 0:
            raise socket.timeout
        self._link.settimeout(left)
        return self._link.recv_into(room)


class Door(BaseHTTPRequestHandler):
    """One connection."""

    protocol_version = 'HTTP/1.1'
    disable_nagle_algorithm = True
    server: Server

    def setup(self) -> None:
        """Reads from the connection for a time that is bounded as a whole."""
        super().setup()
        self._timed = _Timed(self.connection)
        self._body_file = self.rfile = io.BufferedReader(self._timed)
        self._is_first = True

    def finish(self) -> None:
        """The connection ends."""
        self.server.end_wait(self.connection)
        super().finish()

    # ---- requests
    def handle_one_request(self) -> None:
        """Reads a request and answers it. A connection that is too slow ends."""
        self.close_connection = True
        self.requestline, self.request_version, self.command = '', 'HTTP/1.1', ''
        self.server.begin_wait(self.connection)
        try:
            if self._read_head():
                self._answer()
        except Refusal as refusal:
            self._refuse(refusal)
        except (socket.timeout, OSError):
            self.close_connection = True

    def _read_head(self) -> bool:
        """Reads the head of a request. Whether there is one that can be read; what is wrong with it is answered else."""
        if not self._is_first:
            # Between two requests a connection may be silent for as long as one may take.
            self._timed.end = time.monotonic() + _IN_ALL
            if not self._body_file.peek(1):
                return False
            self._timed.end = time.monotonic() + _IN_ALL
        self._is_first = False
        head = self._lines_of_head()
        if not head:
            return False
        self.raw_requestline = head[0]
        self.rfile = io.BytesIO(b''.join(head[1:]))
        try:
            return self.parse_request()
        finally:
            self.rfile = self._body_file

    def _lines_of_head(self) -> list[bytes]:
        """The lines of a head; none where the connection ends in it. Refuses one that is too long."""
        lines: list[bytes] = []
        size = 0
        while not lines or lines[-1] not in (b'\r\n', b'\n'):
            line = self._body_file.readline(_LONGEST_HEAD + 1 - size)
            size += len(line)
            if size > _LONGEST_HEAD or len(lines) > _MOST_FIELDS + 1:
                raise Refusal(431, f'a head of more than {_LONGEST_HEAD} bytes, or of more than {_MOST_FIELDS} fields')
            if not line.endswith(b'\n'):
                return []
            lines.append(line)
        return lines

    def handle_expect_100(self) -> bool:
        """Asks for no body yet: whether it is wanted is seen later."""
        return True

    def _answer(self) -> None:
        try:
            routes, _ = self._let_in()
            self.server.end_wait(self.connection)
            routes[self.command](self, self._body())
        except Refusal as refusal:
            self._refuse(refusal)
        except (socket.timeout, ConnectionError):
            raise
        except Exception:
            traceback.print_exc()
            self._refuse(Refusal(500, 'a fault of the server'))

    def _let_in(self) -> tuple[dict[str, Any], dict[str, list[str]]]:
        """The methods of the path that is asked for, and the query. Refuses who has not the key, or comes from another site."""
        if not _TOKEN.fullmatch(self.command) or not self.path.startswith('/'):
            raise Refusal(400, 'not a request')
        hosts: list[str] = self.headers.get_all('Host', [])
        origins: list[str] = self.headers.get_all('Origin', [])
        if len(hosts) != 1 or hosts[0].strip().lower() not in self.server.hosts:
            raise Refusal(403, 'another host')
        if any(origin.strip() not in {f'http://{host}' for host in self.server.hosts} for origin in origins):
            raise Refusal(403, 'another site')
        url = urlsplit(self.path)
        query = parse_qs(url.query, keep_blank_values=True, max_num_fields=_MOST_FIELDS)
        keys = query.get('key', [])
        if len(keys) != 1 or not hmac.compare_digest(keys[0].encode('utf-8', 'replace'), self.server.key.encode()):
            raise Refusal(403, 'a wrong key, or none')
        self.name = unquote(url.path.split('/', 2)[2], errors='surrogateescape') if url.path.count('/') > 1 else ''
        routes = _ROUTES.get(url.path) or _ROUTES.get(url.path.split('/')[1] + '/')
        if routes is None:
            raise Refusal(404, 'no such path')
        if self.command not in routes:
            raise Refusal(405, 'another method')
        return routes, query

    def _body(self) -> bytes:
        """The body of the request. Refuses one that is too long, or whose length is not told."""
        if self.headers.get_all('Transfer-Encoding'):
            raise Refusal(411, 'the length of the body must be told')
        lengths = set(self.headers.get_all('Content-Length', ['0']))
        length = lengths.pop().strip()
        if lengths or not re.fullmatch('[0-9]{1,18}', length):
            raise Refusal(400, 'not a length')
        longest = LONGEST_FILE if self.command == 'PUT' else LONGEST_BODY
        if int(length) > longest:
            raise Refusal(413, f'a body of more than {longest} bytes')
        if self.headers.get('Expect', '').lower() == '100-continue':
            self.send_response_only(100)
            self.end_headers()
        body = self._body_file.read(int(length))
        if len(body) < int(length):
            raise ConnectionError
        return body

    # ---- answers
    def _give(self, body: bytes, kind: str, status: int = 200, **more: str) -> None:
        self.send_response_only(status)
        headers = {
            'Content-Type': kind, 'Content-Length': str(len(body)), 'Referrer-Policy': 'no-referrer', 'Cache-Control': 'no-store',
            'X-Content-Type-Options': 'nosniff', **{name.replace('_', '-'): value for name, value in more.items()},
        }
        if self.close_connection:
            headers['Connection'] = 'close'
        for name, value in headers.items():
            self.send_header(name, value)
        end = time.monotonic() + _IN_ALL
        self.connection.settimeout(_IN_ALL)
        self.end_headers()
        for at in range(0, len(body) if self.command != 'HEAD' else 0, _PIECE):
            self.connection.settimeout(max(0.001, end - time.monotonic()))
            self.wfile.write(body[at:at + _PIECE])

    def _refuse(self, refusal: Refusal) -> None:
        """Answers a refusal. What still comes of a body is read and dropped for a short time: were the connection closed at once,
        the system could reset it, and the answer would be lost."""
        headers = getattr(self, 'headers', None)
        has_body = headers is not None and (headers.get('Transfer-Encoding') or headers.get('Content-Length', '0').strip() != '0')
        is_unread = refusal.status not in (404, 412, 423, 428, 500) or self.command != 'PUT'
        self.close_connection = self.close_connection or (bool(has_body) and is_unread) or headers is None or self.command == 'HEAD'
        self._give(f'{refusal.words}\n'.encode(), 'text/plain; charset=utf-8', refusal.status)
        if self.close_connection:
            self._drop_the_rest()

    def _drop_the_rest(self) -> None:
        try:
            self.connection.shutdown(socket.SHUT_WR)
            self._timed.end = time.monotonic() + _DROPPING
            while self._body_file.read1(65536):
                pass
        except OSError:
            pass  # The other side has gone already, or the time is over.

    def send_error(self, code: int, message: Optional[str] = None, explain: Optional[str] = None) -> None:
        """What the standard module calls for a request that it cannot read."""
        self.close_connection = True
        self._refuse(Refusal(400 if code >= 500 else int(code), message or 'not a request'))

    def log_message(self, format: str, *words: Any) -> None:
        """Nothing is logged: standard error is for faults."""

    # ---- routes
    def _give_page(self, body: bytes) -> None:
        self._give(_PAGE.read_bytes(), 'text/html; charset=utf-8', Content_Security_Policy=_POLICY)

    def _give_files(self, body: bytes) -> None:
        folder = self.server.folder
        where = {'folder': str(folder.folder), 'prefix': folder.prefix, 'source': folder.source}
        answer: dict[str, Any] = {**self.server.settings, **where, 'maps': folder.maps()}
        self._give(json.dumps(answer, separators=(',', ':')).encode(), 'application/json')

    def _give_names(self, body: bytes) -> None:
        self._give(json.dumps(self.server.folder.names(), separators=(',', ':')).encode(), 'application/json')

    def _give_tilesets(self, body: bytes) -> None:
        self._give(json.dumps(self.server.folder.tilesets(), separators=(',', ':')).encode(), 'application/json')

    def _give_file(self, body: bytes) -> None:
        found = self.server.folder.read(self.name)
        if found is None:
            raise Refusal(404, 'no such map, tileset or image')
        data, changed = found
        self._give(data, KINDS[Path(self.name).suffix.lower()], Roskevad_Time=str(changed))

    def _take_file(self, body: bytes) -> None:
        place = self.server.folder.place(self.name)
        if place is None:
            raise Refusal(404, 'no map of the folder has that name')
        try:
            changed = self.server.folder.save(place, body, self._wanted())
        except Unlike:
            raise Refusal(412, 'the file is another one') from None
        except Held as held:
            raise Refusal(423, f'it is being saved by {held}') from None
        except OSError as fault:
            raise Refusal(500, f'it cannot be written: {fault.strerror or fault}') from None
        self._give(b'', 'text/plain; charset=utf-8', Roskevad_Time=str(changed))

    def _wanted(self) -> Optional[str]:
        """The hash of the file that a save replaces; `None` where it replaces none."""
        match: list[str] = self.headers.get_all('If-Match', [])
        none: list[str] = self.headers.get_all('If-None-Match', [])
        found = _HASH.fullmatch(match[0]) if len(match) == 1 else None
        if found is not None and not none:
            return found[1]
        if match or none != ['*']:
            raise Refusal(428, 'a save says which file it replaces: If-Match with its SHA-256, or If-None-Match: *')
        return None


_ROUTES: dict[str, dict[str, Any]] = {
    '/': {'GET': Door._give_page},
    '/files': {'GET': Door._give_files},
    '/tilesets': {'GET': Door._give_tilesets},
    '/names': {'GET': Door._give_names},
    'files/': {'GET': Door._give_file, 'PUT': Door._take_file},
}
