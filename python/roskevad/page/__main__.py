# SPDX-License-Identifier: MIT OR Apache-2.0
"""A page to draw on, over a folder of this machine.

    python3 -m roskevad.page [--folder DIR] [--root DIR] [--limit N] [--port N] [--key-file FILE] [FILE ..]
"""
import argparse
import hashlib
import os
import re
import secrets
import signal
import sys
from pathlib import Path
from types import FrameType
from typing import Any, Optional

from .. import __version__
from . import running
from .folder import Folder, is_map
from .server import Server

# The ports that are taken where none is named: the first one is made from the folder's path, so that the browser, which keeps a page's
# journal for its address, finds it again.
_FIRST_PORT, _PORTS, _TRIES = 20_000, 10_000, 20


def options() -> argparse.Namespace:
    """The options of the command line; a folder, a limit or a FILE that cannot be is refused with status 2."""
    parser = argparse.ArgumentParser(
        prog='tile_page', description='Serves a page to draw tile maps on, on this machine alone, and prints its address.')
    parser.add_argument('--folder', type=Path, help='the folder of the maps; without it that of the first FILE, or else this one')
    parser.add_argument('--root', type=Path, help='a folder above, below which tilesets and images may lie; without it the folder itself')
    parser.add_argument('--limit', type=int, default=0, help='the most steps that a document keeps; 0 is no limit')
    parser.add_argument('--port', type=int, help='the port; without it one that is made from the path of the folder; 0 is a free one')
    parser.add_argument('--key-file', type=Path, metavar='FILE', help='keeps the key in this file, so that a restart has the same address')
    parser.add_argument('--version', action='version', version=f'roskevad {__version__}')
    parser.add_argument('files', metavar='FILE', nargs='*', type=Path, help='a map of the folder that is opened')
    chosen = parser.parse_args()
    if not 0 <= chosen.limit <= 1_000_000:
        parser.error(f'a limit is from 0 to 1000000: {chosen.limit}')
    if chosen.port is not None and not 0 <= chosen.port <= 65535:
        parser.error(f'a port is from 0 to 65535: {chosen.port}')
    if chosen.folder is None:
        chosen.folder = chosen.files[0].parent if chosen.files else Path('.')
    chosen.root = chosen.root or chosen.folder
    for folder in (chosen.folder, chosen.root):
        if not folder.is_dir():
            parser.error(f'no such folder: {folder}')
    if not chosen.folder.resolve().is_relative_to(chosen.root.resolve()):
        parser.error(f'the folder {chosen.folder} is not below {chosen.root}')
    chosen.files = [path_in(parser, chosen.folder, file) for file in chosen.files]
    return chosen


def path_in(parser: argparse.ArgumentParser, folder: Path, file: Path) -> str:
    """The path of a FILE from the folder."""
    place = file.parent.resolve() / file.name
    if not place.is_relative_to(folder.resolve()):
        parser.error(f'{file} is not in the folder {folder}')
    if not is_map(file):
        parser.error(f'{file} is no map by its name, which ends in .tmj or .json')
    if not place.is_file():
        sys.exit(f'tile_page: {file}: no such file')
    return place.relative_to(folder.resolve()).as_posix()


def key_of(file: Optional[Path]) -> str:
    """The key: a new one, or that of a file, which is made where it is not there."""
    key = secrets.token_hex(16)
    if file is None:
        return key
    try:
        with open(os.open(file, os.O_WRONLY | os.O_CREAT | os.O_EXCL, 0o600), 'w') as made:
            made.write(f'{key}\n')
        return key
    except FileExistsError:
        pass
    except OSError as fault:
        sys.exit(f'tile_page: {file}: {fault.strerror}')
    try:
        kept = file.read_text('ascii', 'replace').strip()
    except OSError as fault:
        sys.exit(f'tile_page: {file}: {fault.strerror}')
    if not re.fullmatch('[0-9a-f]{32}', kept):
        sys.exit(f'tile_page: {file}: no key is in it')
    if file.stat().st_mode & 0o077:
        sys.exit(f'tile_page: {file}: others may read it; chmod 600 it')
    return kept


def server_of(chosen: argparse.Namespace) -> Server:
    """The server, at the port that is named, or else at the first free one of those that are tried. Ends with status 1 where none is."""
    folder = Folder(chosen.folder, chosen.root)
    first = int.from_bytes(hashlib.sha256(os.fsencode(folder.folder)).digest()[:4], 'big') % _PORTS
    tried = [_FIRST_PORT + (first + at) % _PORTS for at in range(_TRIES)] + [0] if chosen.port is None else [chosen.port]
    settings: dict[str, Any] = {'files': chosen.files, 'limit': chosen.limit, 'version': __version__}
    key = key_of(chosen.key_file)
    for port in tried:
        try:
            return Server(folder, port, key, settings)
        except OSError as fault:
            reason = fault.strerror
    sys.exit(f'tile_page: port {tried[0]}: {reason}')


def say_who_runs(server: Server) -> None:
    """Says on standard error where another server has the folder already."""
    port = server.server_address[1]
    other = running.take(server.folder.folder, f'http://127.0.0.1:{port}/, process {os.getpid()}')
    if other is not None:
        print(f'tile_page: another one serves this folder already: {other}', file=sys.stderr, flush=True)


def _stop(number: int, frame: Optional[FrameType]) -> None:
    raise KeyboardInterrupt


def main() -> None:
    """Prints the address of the page, and serves it until Ctrl+C, SIGTERM or SIGHUP."""
    server = server_of(options())
    say_who_runs(server)
    for number in (signal.SIGTERM, signal.SIGHUP):
        signal.signal(number, _stop)
    try:
        print('Open this in a browser of this machine:', server.address,
              'Ctrl+C ends it. What the page has goes on, and is kept in the browser; saving waits for the next start.', sep='\n', flush=True)
        server.serve_forever()
    except KeyboardInterrupt:
        server.end()


if __name__ == '__main__':
    main()
