# SPDX-License-Identifier: MIT OR Apache-2.0
"""Asks the server of the page, `./tile_page`, over raw sockets for what it must give and what it
must refuse: addresses, keys, hosts, methods, heads, bodies, files below the root, saves, many and
slow connections; its ends; the wheel of the package, which serves the page from elsewhere; and
command lines."""
import hashlib
import json
import os
import re
import signal
import socket
import subprocess
import sys
import tempfile
import threading
import time
import urllib.request
import zipfile
from pathlib import Path

from lib.cases import Case, check_each, passed, unlike
from lib.places import EXAMPLE_MAPS, TOP
from page.door import Door, opened, read_answer

IS_LONG = True
LONGEST, LONGEST_FILE = 1024 * 1024, 64 * 1024 * 1024
# After how many seconds a connection ends that does not bring its request to an end.
IN_ALL = 20
PAGE = TOP / 'python' / 'roskevad' / 'page' / 'roskevad.html'
MAP = b'{"width":1}'


def test_address():
    """The address stands alone on the second line, between what to do with it and how the server
    ends; and the server answers at no other address of the machine."""
    with opened() as (door, _):
        door.want(
            'the address',
            re.fullmatch(r'http://127\.0\.0\.1:[0-9]+/\?key=[0-9a-f]{32}\n', door.address),
            door.address,
        )
        door.want('what to do', 'Open this in a browser' in door.told[0], door.told)
        door.want('how it ends', 'Ctrl+C ends it' in door.told[2], door.told)
        try:
            socket.create_connection(('127.0.0.2', door.port), timeout=10).close()
            is_refused = False
        except ConnectionRefusedError:
            is_refused = True
        door.want('127.0.0.1 alone', is_refused)


def test_page_and_headers():
    with opened() as (door, _):
        got = door.ask('GET', f'/?{door.query}')
        door.want('the page', got[0] == 200 and got[2] == PAGE.read_bytes(), got[:2])
        for answer in (got, door.ask('GET', '/'), door.ask('GET', door.files)):
            head = answer[1].lower()
            door.want(
                'the headers',
                b'referrer-policy: no-referrer' in head and b'cache-control: no-store' in head,
                head,
            )


def test_what_is_listed():
    """The maps of the folder and of those in it, each with its size and its time, and no others."""
    with opened() as (door, folder):
        (folder / 'a.tmj').write_bytes(MAP)
        (folder / 'in').mkdir()
        (folder / 'in' / 'my map.tmj').write_bytes(MAP + b' ')
        (folder / '.hidden.tmj').write_bytes(MAP)
        (folder / 'tiles.tsx').write_bytes(b'<tileset/>')
        os.mkfifo(folder / 'pipe.tmj')
        os.symlink('/etc/hostname', folder / 'link.tmj')
        told = door.listed()
        found = [(each['path'], each['size']) for each in told['maps']]
        door.want('the maps', found == [('a.tmj', 11), ('in/my map.tmj', 12)], found)
        when = (folder / 'a.tmj').stat().st_mtime_ns // 1000
        door.want('the time', told['maps'][0]['time'] == when, told)
        (folder / 'in' / 'wind.ogg').write_bytes(b'wind')
        names = [each['path'] for each in json.loads(door.ask('GET', f'/names?{door.query}')[2])]
        wanted = ['a.tmj', 'in/my map.tmj', 'in/wind.ogg', 'tiles.tsx']
        door.want('all files', sorted(names) == wanted, names)
        door.want('the key', door.status('GET', '/names?key=none') == 403)
        rest = {name: told[name] for name in ('files', 'limit', 'prefix', 'folder')}
        wanted = {'files': [], 'limit': 0, 'prefix': '', 'folder': str(folder.resolve())}
        door.want('the folder', rest == wanted, rest)


def test_the_name_of_the_source():
    """A folder with its root has one name: at each start, with each key, and by a link. Another
    folder, or another root, has another name."""
    with tempfile.TemporaryDirectory() as top:
        top = Path(top).resolve()
        for path in ('one/maps', 'two/maps'):
            (top / path).mkdir(parents=True)
        os.symlink(top / 'one', top / 'link')
        starts = {
            'one': ('--folder', top / 'one' / 'maps'),
            'one again': ('--folder', top / 'one' / 'maps'),
            'one by a link': ('--folder', top / 'link' / 'maps'),
            'two': ('--folder', top / 'two' / 'maps'),
            'another root': ('--folder', top / 'one' / 'maps', '--root', top / 'one'),
        }
        wanted = {
            name: hashlib.sha256(b'\0'.join(os.fsencode(path) for path in paths)).hexdigest()
            for name, paths in {
                **dict.fromkeys(('one', 'one again', 'one by a link'), [top / 'one' / 'maps'] * 2),
                'two': [top / 'two' / 'maps'] * 2,
                'another root': [top / 'one' / 'maps', top / 'one'],
            }.items()
        }
        for name, words in starts.items():
            door = Door(*words, '--port', '0')
            try:
                told = door.listed().get('source')
                assert told == wanted[name], f'{name}: {told}'
                passed()
            finally:
                door.end()


def see_nothing_done(door, folder):
    names = sorted(path.name for path in folder.iterdir())
    door.want('what was refused did nothing', names == ['a.tmj'], names)
    door.want('and the map is as it was', (folder / 'a.tmj').read_bytes() == MAP)


def test_requests_of_others():
    """Wrong keys, hosts, ports and sites."""
    with opened() as (door, folder):
        (folder / 'a.tmj').write_bytes(MAP)
        new = 'if-none-match: *\r\n'
        put = door.file('b.tmj')
        refusals = {
            'a wrong key': door.status('PUT', '/files/b.tmj?key=00', MAP, extra=new),
            'no key': door.status('PUT', '/files/b.tmj', MAP, extra=new),
            'two keys': door.status('PUT', f'{put}&key=00', MAP, extra=new),
            'the page with no key': door.status('GET', '/'),
            'a map with no key': door.status('GET', '/files/a.tmj'),
            'another host': door.status('PUT', put, MAP, host=f'evil.example:{door.port}', extra=new),
            'another port': door.status('PUT', put, MAP, host='127.0.0.1:1', extra=new),
            'two hosts': door.status('PUT', put, MAP, extra=f'host: evil.example\r\n{new}'),
            'another site': door.status('PUT', put, MAP, extra=f'origin: http://evil.example\r\n{new}'),
            'a site that is hidden': door.status('PUT', put, MAP, extra=f'origin: null\r\n{new}'),
        }
        door.want('403', set(refusals.values()) == {403}, refusals)
        with door.connect() as link:
            link.sendall(f'GET {door.files} HTTP/1.1\r\n\r\n'.encode())
            door.want('403 with no host', read_answer(link)[0] == 403)
        see_nothing_done(door, folder)
        own = door.status('PUT', put, MAP, extra=f'origin: http://127.0.0.1:{door.port}\r\n{new}')
        door.want('this site', own == 200, own)
        local = door.status('GET', door.files, host=f'localhost:{door.port}')
        door.want('localhost', local == 200, local)


def test_requests_that_are_wrong():
    """Paths, methods, targets, heads and lengths."""
    with opened() as (door, folder):
        (folder / 'a.tmj').write_bytes(MAP)
        for path in ('/other', '/lines', '/state', '/map', '/session', '/static/main.js', '/tiles/a.png', '/page/'):
            got = door.status('GET', f'{path}?{door.query}')
            door.want('404', got == 404, (path, got))
        for method, path in (
            ('POST', '/'),
            ('PUT', '/'),
            ('PUT', '/files'),
            ('DELETE', '/files/a.tmj'),
            ('POST', '/files/a.tmj'),
            ('HEAD', '/'),
        ):
            got = door.status(method, f'{path}?{door.query}', MAP if method == 'POST' else b'')
            door.want('405', got == 405, (method, path, got))
        door.want('400 for what is no HTTP', door.status('\x01', door.files) == 400)
        target = f'http://127.0.0.1:{door.port}/?{door.query}'
        door.want('400 for a target that is no path', door.status('GET', target) == 400)
        for extra, status in (
            ('content-length: -1\r\n', 400),
            ('transfer-encoding: chunked\r\n', 411),
            ('x: y\r\n' * 70, 431),
            (f'x: {"y" * 17_000}\r\n', 431),
            ('x: y\r\n' * 60, 200),
        ):
            got = door.status('GET', door.files, extra=extra)
            door.want(str(status), got == status, (extra[:40], got))
        got = door.status('GET', '/files', extra='x: y\r\n' * 70)
        door.want('a long head is refused before the key is looked at', got == 431, got)
        see_nothing_done(door, folder)


def test_bodies():
    with opened() as (door, _):
        long = b'#' * (LONGEST + 1)
        got = [door.status('GET', door.files, long) for _ in range(20)]
        door.want('413 above 1 MiB, 20 times', got == [413] * 20, got)
        began = time.monotonic()
        extra = f'content-length: {LONGEST_FILE + 1}\r\nif-none-match: *\r\n'
        got = door.ask('PUT', door.file('b.tmj'), extra=extra)[0]
        door.want(
            '413 for a map that is only said to be so long, and no wait for it',
            got == 413 and time.monotonic() - began < IN_ALL / 2,
        )
        got = door.ask('PUT', door.file('b.tmj'), extra=f'expect: 100-continue\r\n{extra}')[0]
        door.want('413 and not 100 for a body that is announced', got == 413, got)
        got = door.save('b.tmj', b' ' * LONGEST_FILE)
        door.want('64 MiB are saved', got == 200, got)
        with door.connect() as link:
            link.sendall(door.request('GET', door.file('b.tmj')) + door.request('GET', door.files))
            first = read_answer(link)
            second = read_answer(link, first[3])
            door.want('two requests in one piece', (first[0], second[0]) == (200, 200))
            door.want('64 MiB are given', len(first[2]) == LONGEST_FILE)
        with door.connect() as link:
            for byte in door.request('GET', door.files):
                link.sendall(bytes([byte]))
            door.want('a request byte by byte', read_answer(link)[0] == 200)


# ---- many connections, and slow ones


def test_many_and_slow_connections():
    """At most 64 connections wait; one that brings a byte now and then ends after 20 seconds in all;
    who has the key is answered meanwhile."""
    with opened() as (door, _):
        many = [door.connect() for _ in range(50)]
        for link in many:
            link.sendall(door.request('GET', door.files))
        door.want('50 connections at once', {read_answer(link)[0] for link in many} == {200})
        for link in many:
            link.close()
        began = time.monotonic()
        slow = [door.connect() for _ in range(100)]
        ended = {}

        def drip():
            while len(ended) < len(slow) and time.monotonic() - began < 2 * IN_ALL:
                for at, link in enumerate(slow):
                    try:
                        link.sendall(b'G')
                        link.setblocking(False)
                        if at not in ended and link.recv(1) == b'':
                            ended[at] = time.monotonic() - began
                    except BlockingIOError:
                        pass
                    except OSError:
                        ended.setdefault(at, time.monotonic() - began)
                time.sleep(0.25)

        dripping = threading.Thread(target=drip)
        dripping.start()
        answers = {door.status('GET', door.files) for _ in range(40)}
        door.want('others are answered', answers == {200}, answers)
        dripping.join()
        early = sum(each < IN_ALL / 2 for each in ended.values())
        door.want('36 of 100 end at once', 36 <= early <= 40, early)
        last = max(ended.values())
        door.want('the others after 20 seconds', len(ended) == 100 and last < IN_ALL + 12, last)
        for link in slow:
            link.close()
        told = [link.recv(1) for link in door.silent]
        door.want('silent connections end', told == [b''] * len(door.silent), told)


# ---- files


def test_files_below_the_root():
    """Maps, tilesets and images below the root, and nothing else of the machine."""
    with tempfile.TemporaryDirectory() as top:
        root = Path(top) / 'project'
        folder = root / 'maps'
        for path in (folder, root / 'art', root / 'tilesets'):
            path.mkdir(parents=True)
        (folder / 'a.tmj').write_bytes(MAP)
        (folder / 'notes.txt').write_bytes(b'notes')
        (root / 'tilesets' / 'walls.tsx').write_bytes(b'<tileset/>')
        (root / 'art' / 'tiles.png').write_bytes(b'image')
        (root.parent / 'secret.png').write_bytes(b'secret')
        os.symlink(root.parent / 'secret.png', folder / 'link.png')
        os.symlink(root / 'none.png', folder / 'nowhere.png')
        os.symlink('loop.png', folder / 'loop.png')
        os.symlink(root / 'art' / 'tiles.png', folder / 'good.png')
        os.mkfifo(folder / 'pipe.png')
        door = Door('--root', root, folder / 'a.tmj')
        try:
            told = door.listed()
            door.want('the folder', (told['prefix'], told['files']) == ('maps/', ['a.tmj']), told)
            got = json.loads(door.ask('GET', f'/tilesets?{door.query}')[2])
            found = [(each['path'], each['size']) for each in got]
            door.want('the tilesets', found == [('../tilesets/walls.tsx', 10)], got)
            given = {
                'maps/a.tmj': MAP,
                'tilesets/walls.tsx': b'<tileset/>',
                'art/tiles.png': b'image',
                'maps/good.png': b'image',
            }
            for name, data in given.items():
                got = door.ask('GET', door.file(name))[::2]
                door.want('a file below the root', got == (200, data), (name, got))
            for name in (
                '../secret.png',
                '..%2fsecret.png',
                'maps/../../secret.png',
                '%2fetc/passwd',
                str(root.parent / 'secret.png'),
                'maps/link.png',
                'maps/nowhere.png',
                'maps/loop.png',
                'maps/pipe.png',
                'maps/notes.txt',
                'maps',
                'none.png',
                'a%00.png',
                '.',
                '',
            ):
                got = door.ask('GET', door.file(name))
                door.want('404', got[0] == 404, (name, got))
            door.see_end()
        finally:
            door.end()


def test_saves():
    """A map is written whole where the file is the one that it replaces, and else not at all."""
    with opened() as (door, folder):
        door.want('a new map', door.save('a.tmj', MAP) == 200)
        door.want('its bytes', (folder / 'a.tmj').read_bytes() == MAP)
        door.want('412 where a file has come', door.save('a.tmj', b'x') == 412)
        door.want('412 where it is another one', door.save('a.tmj', b'x', b'other') == 412)
        door.want('412 where it is gone', door.save('b.tmj', b'x', b'other') == 412)
        os.symlink('nowhere.tmj', folder / 'link.tmj')
        door.want('412 where a link leads nowhere', door.save('link.tmj', b'x') == 412)
        door.want('428', door.status('PUT', door.file('a.tmj'), b'x') == 428)
        both = f'if-none-match: *\r\nif-match: "{hashlib.sha256(MAP).hexdigest()}"\r\n'
        door.want('428 for both', door.status('PUT', door.file('a.tmj'), b'x', extra=both) == 428)
        door.want('nothing is written', (folder / 'a.tmj').read_bytes() == MAP)
        (folder / 'a.tmj').chmod(0o640)
        door.want('another map', door.save('a.tmj', MAP + b' ', MAP) == 200)
        mode = (folder / 'a.tmj').stat().st_mode & 0o777
        door.want('its bytes and its mode', ((folder / 'a.tmj').read_bytes(), mode) == (MAP + b' ', 0o640))
        (folder / 'in').mkdir()
        door.want('in a folder', door.save('in/my%20map.tmj', MAP) == 200)
        door.want('its name', (folder / 'in' / 'my map.tmj').read_bytes() == MAP)
        os.symlink(folder.parent, folder / 'out')
        for name in ('../b.tmj', 'none/b.tmj', 'out/b.tmj', 'b.png', 'b.txt', '.b.tmj', 'in', 'a%0a.tmj', 'a%00.tmj'):
            got = door.save(name, MAP)
            door.want('404 for no map of the folder', got == 404, (name, got))
        (folder / 'full').mkdir(mode=0o500)
        names = sorted(path.name for path in folder.iterdir())
        door.want('nothing else is there', names == ['a.tmj', 'full', 'in', 'link.tmj', 'out'], names)
        door.want('nothing was written elsewhere', not (folder.parent / 'b.tmj').exists())


def test_two_that_save():
    """Of eight that save over one file at once, one does, and the others are told."""
    with opened() as (door, folder):
        for turn in range(5):
            before = f'{{"turn":{turn}}}'.encode()
            (folder / 'a.tmj').write_bytes(before)
            came = []

            def save(number, before=before, came=came):
                came.append(door.save('a.tmj', f'{{"by":{number}}}'.encode(), before))

            work = [threading.Thread(target=save, args=(number,)) for number in range(8)]
            for each in work:
                each.start()
            for each in work:
                each.join()
            door.want('one of eight', sorted(came) == [200] + [412] * 7, came)


def test_a_disk_that_is_full():
    """A save that cannot be written is told, and the old file stays."""
    with opened() as (door, folder):
        (folder / 'a.tmj').write_bytes(MAP)
        (folder / 'b.tmj').mkdir()
        got = door.ask('PUT', door.file('b.tmj'), MAP, extra='if-none-match: *\r\n')
        door.want('412 where a folder has the name', got[0] == 412, got)
        before = b'x' * 5
        (folder / 'c.tmj').write_bytes(before)
        limit = 'ulimit -f 64; exec "$0" "$@"'
        limited = subprocess.Popen(
            ['bash', '-c', limit, TOP / 'tile_page', '--folder', folder, '--port', '0'],
            stdout=subprocess.PIPE,
            text=True,
        )
        try:
            limited.stdout.readline()
            other = Door.__new__(Door)
            address = limited.stdout.readline().strip()
            other.port = int(re.search(':([0-9]+)/', address)[1])
            other.query = address.split('?')[1]
            got = other.save('c.tmj', b'y' * 1_000_000, before)
            door.want('500 where it cannot be written', got == 500, got)
            door.want('the old file stays', (folder / 'c.tmj').read_bytes() == before)
            left = [path.name for path in folder.iterdir() if path.name.endswith('.new')]
            door.want('no new file is left', left == [], left)
        finally:
            limited.terminate()
            limited.wait(10)
            limited.stdout.close()


# ---- its life


def test_ends():
    """Ctrl+C, SIGTERM and SIGHUP end it, with status 0 and no word."""

    def fault_of(case):
        with tempfile.TemporaryDirectory() as folder:
            door = Door('--folder', folder)
            door.ask('GET', door.files)
            door.program.send_signal(case.given)
            status = door.program.wait(10)
            door.faults.seek(0)
            return unlike((0, b''), (status, door.faults.read()))

    signals = (signal.SIGINT, signal.SIGTERM, signal.SIGHUP)
    check_each([Case(each.name, each, None) for each in signals], fault_of)


def test_the_key_and_the_port():
    """A file keeps the key over a restart, and is made for its owner alone; without one each start has
    a key of its own. A folder has the same port each time, where that is free."""
    with tempfile.TemporaryDirectory() as top:
        file, folder = Path(top) / 'key', Path(top) / 'maps'
        folder.mkdir()
        words, queries, ports = ('--folder', folder), [], []
        for more in (('--key-file', file), ('--key-file', file), (), ()):
            door = Door(*words, *more)
            queries.append(door.query)
            ports.append(door.port)
            if len(queries) == 1:
                other = Door(*words)
                ports.append(other.port)
                other.end()
            door.end()
        assert queries[0] == queries[1] and len(set(queries)) == 3, queries
        assert file.stat().st_mode & 0o777 == 0o600
        assert ports[1] != ports[0] and set(ports) == {ports[0], ports[1]}, ports


def wheel_in(folder):
    """The wheel of the package, built into a folder."""
    build = f'import sys; sys.path.insert(0, {str(TOP / "python")!r}); import build_backend; print(build_backend.build_wheel({str(folder)!r}))'
    done = subprocess.run([sys.executable, '-c', build], capture_output=True, text=True, check=True)
    return folder / done.stdout.strip()


def test_the_wheel_has_the_page():
    """It serves the page from elsewhere, and has none of the modules that the page is built from."""
    with tempfile.TemporaryDirectory() as top:
        with zipfile.ZipFile(wheel_in(Path(top))) as archive:
            archive.extractall(f'{top}/installed')
            assert not [name for name in archive.namelist() if name.endswith('.js')]
        words = [sys.executable, '-m', 'roskevad.page']
        program = subprocess.Popen(words, cwd=f'{top}/installed', stdout=subprocess.PIPE, text=True)
        try:
            program.stdout.readline()
            with urllib.request.urlopen(program.stdout.readline().strip(), timeout=10) as answer:
                assert answer.read() == PAGE.read_bytes()
        finally:
            program.terminate()
            program.wait(10)
            program.stdout.close()


# ---- command lines


def fault_of_words(case):
    done = subprocess.run([TOP / 'tile_page', *case.given], capture_output=True, timeout=20)
    status, told = case.wanted
    return unlike((status, b''), (done.returncode, done.stdout)) or (
        None if told in done.stderr else unlike(told, done.stderr)
    )


def test_command_lines_that_are_refused():
    with tempfile.TemporaryDirectory() as top, socket.create_server(('127.0.0.1', 0)) as taken:
        folder, outside, bad, open_key = (
            Path(top) / name for name in ('maps', 'outside.tmj', 'bad', 'open')
        )
        folder.mkdir()
        outside.write_bytes(b'{')
        bad.write_text('no key')
        open_key.write_text('0' * 32)
        bad.chmod(0o600)
        open_key.chmod(0o644)
        port = str(taken.getsockname()[1])
        rows = [
            (['--folder', folder, outside], 2, b'is not in the folder'),
            (['--folder', folder / 'none'], 2, b'no such folder'),
            (['--folder', folder, '--root', folder / 'none'], 2, b'no such folder'),
            (['--folder', top, '--root', folder], 2, b'is not below'),
            (['--limit', '-1'], 2, b'a limit is'),
            (['--port', '70000'], 2, b'a port is'),
            ([folder / 'a.png'], 2, b'is no map by its name'),
            ([folder / 'none.tmj'], 1, b'no such file'),
            (['--folder', folder, '--port', port], 1, b'port ' + port.encode()),
            (['--folder', folder, '--key-file', bad], 1, b'no key is in it'),
            (['--folder', folder, '--key-file', open_key], 1, b'others may read it'),
            (['--folder', folder, '--key-file', folder / 'none' / 'key'], 1, b'No such file'),
        ]
        check_each(
            [
                Case(' '.join(map(str, words)), words, (status, told))
                for words, status, told in rows
            ],
            fault_of_words,
        )


def test_which_folder_and_files():
    """By the words of the command line."""

    def fault_of(case):
        door = Door(*case.given)
        try:
            told = door.listed()
        finally:
            door.end()
        return unlike(case.wanted, (Path(told['folder']), told['files'], told['limit']))

    town, layers = EXAMPLE_MAPS / 'town.tmj', EXAMPLE_MAPS / 'layers.tmj'
    with tempfile.TemporaryDirectory() as folder:
        named = Path(folder) / 'in' / 'my map.tmj'
        named.parent.mkdir()
        named.write_bytes(MAP)
        check_each(
            [
                Case('no words', [], (Path.cwd(), [], 0)),
                Case('two maps', [town, layers], (EXAMPLE_MAPS, ['town.tmj', 'layers.tmj'], 0)),
                Case(
                    'a folder and a map',
                    ['--folder', EXAMPLE_MAPS, layers],
                    (EXAMPLE_MAPS, ['layers.tmj'], 0),
                ),
                Case(
                    'a map below the folder, and a limit',
                    ['--folder', folder, '--limit', '5', named],
                    (Path(folder).resolve(), ['in/my map.tmj'], 5),
                ),
            ],
            fault_of,
        )
