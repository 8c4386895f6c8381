# SPDX-License-Identifier: MIT OR Apache-2.0
"""Runs the program on folders that are not as they should be, or have more in them than maps:
missing ones, pipes, links, files that are too long, full disks, and permissions. Each case is a
function that prepares a folder, and gives rows of a session with its replies, and what must stand
in the folder then. A case on permissions runs as the user nobody where it would otherwise run as
root, whom no permission stops."""
import errno
import fcntl
import os
import resource
import stat
import subprocess
import tempfile
from pathlib import Path

from lib.cases import Case, check_each, skip, unlike
from lib.native import interposed
from lib.places import SESSION_MAPS, TILE_EDITOR, copy_program
from lib.refusals import refusal
from lib.rights import NOBODY, can_lose_rights
from lib.sessions import fault_of_reasons, fault_of_replies, heard, joined, row_of

MAP = (SESSION_MAPS / 'two_cells.tmj').read_bytes()
NEW = (SESSION_MAPS / 'town.tmj').read_bytes()
LONGEST = 67_108_864

OPEN_AND_SAVE = [
    'open m m.tmj => ok 0/0 clean 0',
    'save m.tmj => saved m.tmj 384',
    'status => ok 0/0 clean 0',
]
NEW_AND_SAVE = [
    'new town 4 3 16 16 town.tsj => ok 0/0 clean 0',
    'save m.tmj => saved m.tmj 389',
    'open m m.tmj => ok 0/0 clean 0',
]
NOT_SAVED = [
    'new town 4 3 16 16 town.tsj => ok 0/0 clean 0',
    'stamp 1 0 0 1 5 => ok 1/1 dirty 0',
    f'save m.tmj => {refusal(51)}',
    'status => ok 1/1 dirty 0',
    'undo => ok 0/1 clean 0',
    'list => docs *town',
]
NOT_OPENED = [f'open m m.tmj => {refusal(51)}', 'list => docs', 'status => ok none clean']


def missing(folder):
    """A folder that is not there, and is not made."""
    folder.rmdir()
    return [f'open m m.tmj => {refusal(50)}', 'list => docs', *NOT_SAVED], None


def file_for_folder(folder):
    """A file where the folder should be."""
    folder.rmdir()
    folder.write_bytes(MAP)
    return NOT_OPENED + NOT_SAVED, MAP


def folder_for_file(folder):
    """A folder where the map should be."""
    (folder / 'm.tmj').mkdir()
    return NOT_OPENED + NOT_SAVED, {'m.tmj': {}}


def full_folder_for_file(folder):
    """A folder with a file in it where the map should be."""
    (folder / 'm.tmj').mkdir()
    (folder / 'm.tmj' / 'a').write_bytes(MAP)
    return NOT_OPENED + NOT_SAVED, {'m.tmj': {'a': MAP}}


def pipe(folder):
    """A pipe where the map should be: no one writes into it, so to open it would wait. It is not
    replaced."""
    os.mkfifo(folder / 'm.tmj')
    return NOT_OPENED + NOT_SAVED, {'m.tmj': 'pipe'}


def too_long(folder):
    """A file of a byte more than is loaded."""
    with open(folder / 'm.tmj', 'wb') as file:
        file.truncate(LONGEST + 1)
    return NOT_OPENED + NEW_AND_SAVE, {'m.tmj': NEW}


def longest(folder):
    """The longest file that is loaded. It has no text of JSON."""
    with open(folder / 'm.tmj', 'wb') as file:
        file.truncate(LONGEST)
    return [f'open m m.tmj => {refusal(60)}', 'list => docs', *NEW_AND_SAVE], {'m.tmj': NEW}


def longest_map(folder):
    """A map whose file has the greatest length that is loaded, by white space."""
    (folder / 'm.tmj').write_bytes(MAP + b' ' * (LONGEST - len(MAP)))
    return OPEN_AND_SAVE, {'m.tmj': MAP}


def empty(folder):
    """An empty file."""
    (folder / 'm.tmj').write_bytes(b'')
    return [f'open m m.tmj => {refusal(60)}', 'list => docs', *NEW_AND_SAVE], {'m.tmj': NEW}


def left_behind(folder):
    """Files that runs left behind when they were killed in a save of this map, and one of another
    map."""
    (folder / 'm.tmj').write_bytes(MAP)
    for name in ['.m.tmj.0.new', '.m.tmj.7.new', '.m.tmj.18446744073709551615.new']:
        (folder / name).write_bytes(NEW[:100])
    (folder / '.n.tmj.0.new').write_bytes(NEW[:100])
    return OPEN_AND_SAVE, {'m.tmj': MAP, '.n.tmj.0.new': NEW[:100]}


def not_left_behind(folder):
    """Files whose names are like those that a killed run leaves, and are none of them."""
    names = ['.m.tmj.new', '.m.tmj..new', '.m.tmj.a.new', '.m.tmj.0.new.new', '.m.tmj.0.0.new']
    names += ['.m.tmj.18446744073709551616.new', '.m.tmj.0.old', 'm.tmj.0.new', '.m.tmj.']
    files = {name: name.encode() for name in names}
    for name, data in files.items():
        (folder / name).write_bytes(data)
    return NEW_AND_SAVE, {**files, 'm.tmj': NEW}


def left_behind_and_opened(folder):
    """A file that a killed run left behind, where nothing is saved."""
    (folder / '.m.tmj.0.new').write_bytes(MAP)
    return [f'open m m.tmj => {refusal(50)}', 'list => docs'], {'.m.tmj.0.new': MAP}


def locked(folder):
    """A new file that another run has locked: it stays, and the save takes the next name."""
    (folder / '.m.tmj.0.new').write_bytes(MAP)
    HELD.append(open(folder / '.m.tmj.0.new', 'rb'))
    fcntl.flock(HELD[-1], fcntl.LOCK_EX)
    return NEW_AND_SAVE, {'.m.tmj.0.new': MAP, 'm.tmj': NEW}


def folder_left_behind(folder):
    """A folder where a save makes its new file: it stays, and the save takes the next name."""
    (folder / '.m.tmj.0.new').mkdir()
    return NEW_AND_SAVE, {'.m.tmj.0.new': {}, 'm.tmj': NEW}


def pipe_left_behind(folder):
    """A pipe where a save makes its new file: it stays, and is not written into."""
    os.mkfifo(folder / '.m.tmj.0.new')
    return NEW_AND_SAVE, {'.m.tmj.0.new': 'pipe', 'm.tmj': NEW}


def link_left_behind(folder):
    """A symbolic link where a save makes its new file: it stays, and so does what it leads to."""
    (folder / 'far').write_bytes(MAP)
    (folder / '.m.tmj.0.new').symlink_to('far')
    return NEW_AND_SAVE, {'far': MAP, '.m.tmj.0.new': 'link', 'm.tmj': NEW}


def longest_name(folder):
    """A map whose name has as many bytes as one may have, and a file that was left behind."""
    name = 'm' * 96 + '.tmj'
    (folder / f'.{name}.18446744073709551615.new').write_bytes(MAP)
    rows = ['new town 4 3 16 16 town.tsj => ok 0/0 clean 0', f'save {name} => saved {name} 389']
    return rows, {name: NEW}


def device(folder):
    """A symbolic link to a device that gives bytes for ever."""
    (folder / 'm.tmj').symlink_to('/dev/zero')
    return NOT_OPENED + NEW_AND_SAVE, {'m.tmj': NEW}


def full(folder):
    """No room for a whole file: a save that fails in the middle leaves the old file, and a shorter
    one is saved."""
    (folder / 'm.tmj').write_bytes(MAP)
    rows = [
        'open m m.tmj => ok 0/0 clean 0',
        'stamp 1 0 0 1 3 => ok 1/1 dirty 0',
        'undo => ok 0/1 clean 0',
        'save n.tmj => saved n.tmj 384',
        'use town => ok 0/1 clean 0',
        f'save n.tmj => {refusal(51)}',
    ]
    return NOT_SAVED + rows, {'m.tmj': MAP, 'n.tmj': MAP}


def link(folder):
    """A symbolic link to a map: a save puts a file in its place."""
    (folder / 'far').write_bytes(MAP)
    (folder / 'm.tmj').symlink_to('far')
    rows = [
        'open m m.tmj => ok 0/0 clean 0',
        'tile 1 0 0 => tile 1 ---- 1 0',
        'stamp 1 0 0 1 3 => ok 1/1 dirty 0',
        'undo => ok 0/1 clean 0',
    ]
    return [*rows, 'save m.tmj => saved m.tmj 384', 'open far far => ok 0/0 clean 0'], {
        'far': MAP,
        'm.tmj': MAP,
    }


def hard_link(folder):
    """A map of two names: a save puts a new file under the one, and the other keeps the old map."""
    (folder / 'm.tmj').write_bytes(MAP)
    os.link(folder / 'm.tmj', folder / 'far')
    return NEW_AND_SAVE, {'far': MAP, 'm.tmj': NEW}


def link_to_nothing(folder):
    """A symbolic link that leads nowhere: a save puts a file in its place, and makes none at its
    end."""
    (folder / 'm.tmj').symlink_to('far')
    return [f'open m m.tmj => {refusal(50)}', *NEW_AND_SAVE], {'m.tmj': NEW}


def link_to_itself(folder):
    """A symbolic link to itself."""
    (folder / 'm.tmj').symlink_to('m.tmj')
    return NOT_OPENED + NEW_AND_SAVE, {'m.tmj': NEW}


def unreadable(folder):
    """A map that may not be read: it is replaced, since the folder may be written, and stays one
    that may not be read."""
    (folder / 'm.tmj').write_bytes(MAP)
    (folder / 'm.tmj').chmod(0)
    return NOT_OPENED + NEW_AND_SAVE[:-1] + [f'open m m.tmj => {refusal(51)}'], {'m.tmj': NEW}


def unwritable(folder):
    """A folder that may not be written: its maps are opened."""
    (folder / 'm.tmj').write_bytes(MAP)
    folder.chmod(0o555)
    return ['open m m.tmj => ok 0/0 clean 0', 'discard m => ok none clean', *NOT_SAVED], {
        'm.tmj': MAP
    }


def unlisted(folder):
    """A folder whose names may not be read, so that it can't be synced: its maps are opened."""
    (folder / 'm.tmj').write_bytes(MAP)
    folder.chmod(0o300)
    return ['open m m.tmj => ok 0/0 clean 0', 'discard m => ok none clean', *NOT_SAVED], {
        'm.tmj': MAP
    }


def unsearchable(folder):
    """A folder in which nothing may be looked for."""
    (folder / 'm.tmj').write_bytes(MAP)
    folder.chmod(0o600)
    return NOT_OPENED + NOT_SAVED, {'m.tmj': MAP}


FOLDERS = [
    missing,
    file_for_folder,
    folder_for_file,
    full_folder_for_file,
    pipe,
    device,
    full,
    too_long,
    longest,
    longest_map,
    empty,
    left_behind,
    not_left_behind,
    left_behind_and_opened,
    locked,
    folder_left_behind,
    pipe_left_behind,
    link_left_behind,
    longest_name,
    link,
    hard_link,
    link_to_nothing,
    link_to_itself,
]
ON_PERMISSIONS = [unreadable, unwritable, unlisted, unsearchable]
# Files that the cases keep locked.
HELD = []
# What standard error says at the start.
MISSING_FOLDERS = {missing: b'No such file or directory', file_for_folder: b'Not a directory'}
# What it says of the map.
REASONS = {
    missing: b'/m.tmj: No such file or directory\n',
    file_for_folder: b'/m.tmj: Not a directory\n',
    folder_for_file: b'/m.tmj: not a file\n',
    pipe: b'/m.tmj: not a file\n',
    device: b'/m.tmj: not a file\n',
    too_long: b'/m.tmj: longer than 67,108,864 bytes\n',
    full: b'/m.tmj: File too large\n',
    link_to_itself: b'/m.tmj: Too many levels of symbolic links\n',
    unreadable: b'/m.tmj: Permission denied\n',
    unwritable: b'/m.tmj: Permission denied\n',
    unlisted: b'/m.tmj: Permission denied\n',
    unsearchable: b'/m.tmj: Permission denied\n',
}
# A file of the program may have no more bytes than this in the case `full`: MAP has fewer, and NEW
# has more.
ROOM = 386


def access(path):
    """Who may read and write a file, where one stands at a path, no link is followed, and it may be
    looked for there."""
    try:
        mode = path.lstat().st_mode
    except OSError:
        return None
    return stat.S_IMODE(mode) if stat.S_ISREG(mode) else None


def found(path):
    """What stands at a path: a file's bytes, what stands in a folder by its names, what else it is,
    or None."""
    if path.is_symlink():
        return 'link'
    if path.is_dir():
        return {below.name: found(below) for below in path.iterdir()}
    if path.is_file():
        return path.read_bytes()
    return 'pipe' if path.exists() else None


def reasons_of(errors):
    """Standard error but what it says of the folder at the start, and that, if there is such a
    line."""
    first, _, rest = errors.partition(b'\n')
    if not first.startswith(b'tile_editor: ') or b'/maps: ' not in first:
        return errors, None
    return rest, first.partition(b'/maps: ')[2]


def cases_of(prepares):
    return [Case(prepare.__doc__, prepare, None) for prepare in prepares]


def ran(prepare, top, lines, user):
    """What the program does with a session in a folder. A write past the limit is to be refused,
    and not to end the program, so the signal for it stays as this program has it."""
    limit = (
        (lambda: resource.setrlimit(resource.RLIMIT_FSIZE, (ROOM, ROOM)))
        if prepare is full
        else None
    )
    return subprocess.run(
        [top / 'program', '--folder', top / 'maps'],
        input=joined(lines),
        capture_output=True,
        timeout=60,
        cwd=top,
        user=user,
        group=user,
        preexec_fn=limit,
        restore_signals=False,
    )


def fault_of_errors(prepare, replies, errors):
    """What is wrong with standard error, or None."""
    reasons, missing_folder = reasons_of(errors)
    if missing_folder != MISSING_FOLDERS.get(prepare):
        return f'of the folder: {unlike(MISSING_FOLDERS.get(prepare), missing_folder)}'
    if fault := fault_of_reasons(replies, reasons):
        return fault
    is_told = prepare not in REASONS or REASONS[prepare] in reasons
    return None if is_told else f'standard error: wanted {REASONS[prepare]!r}, came {reasons!r}'


def fault_in(case, top, user=None):
    """What is wrong in a case whose folder is made in another one, or None."""
    prepare, folder = case.given, top / 'maps'
    folder.mkdir()
    copy_program(TILE_EDITOR, top / 'program')
    rows, wanted = prepare(folder)
    for path in [top, folder, folder / 'm.tmj'] if user else []:
        os.chown(path, user, user)
    access_before = access(folder / 'm.tmj')
    lines, replies = zip(*(row_of(row.encode()) for row in rows))
    done = ran(prepare, top, lines, user)
    if done.returncode != 0:
        return f'exit status {done.returncode}, {done.stderr.decode()}'
    if fault := fault_of_errors(prepare, joined(replies), done.stderr):
        return fault
    if folder.is_dir():
        folder.chmod(0o755)
    access_after = access(folder / 'm.tmj')
    if None not in (access_before, access_after):
        if access_before != access_after:
            return f'the mode is {access_after:o} in place of {access_before:o}'
        (folder / 'm.tmj').chmod(0o644)
    return fault_of_replies(joined(lines), joined(replies), done.stdout) or unlike(
        wanted, found(folder)
    )


def fault_of(case, user=None):
    with tempfile.TemporaryDirectory() as top:
        return fault_in(case, Path(top), user)


def test_folders():
    check_each(cases_of(FOLDERS), fault_of)


def test_permissions():
    if not can_lose_rights():
        skip('root can be no other user here')
    user = NOBODY if os.getuid() == 0 else None
    check_each(cases_of(ON_PERMISSIONS), lambda case: fault_of(case, user))


OPENED = [b'open m m.tmj', b'tile 1 0 0']


def fault_of_read(case):
    """What is wrong where a read of the file fails, or None."""
    number, error = case.given
    env = {'LD_PRELOAD': interposed(), 'READ_STEP': '65536', 'FAULTY_READ': number, 'READ_ERROR': str(error)}
    done, _ = heard(joined(OPENED), {'m.tmj': MAP}, env=env)
    reason = f'tile_editor: maps/m.tmj: {os.strerror(error)}\n' if error == errno.EIO else ''
    return unlike(joined(case.wanted), done.stdout) or unlike(reason, done.stderr.decode())


def test_reads():
    """A read of a file that fails is told; one that was interrupted is made again."""
    opened = [b'ok 0/0 clean 0', b'tile 1 ---- 1 0']
    refused = [refusal(51).encode(), refusal(10).encode()]
    check_each(
        [
            Case(f'read {number}, {os.strerror(error)}', (number, error), wanted)
            for number in '12'
            for error, wanted in ((errno.EIO, refused), (errno.EINTR, opened))
        ],
        fault_of_read,
    )


# Mounts a disk of so many blocks in memory, which only the command after it sees.
WITH_DISK = 'mount -t tmpfs -o size={size} none "$0" && exec "$@"'
SAVES = [b'new town 4 3 16 16 town.tsj', b'save m.tmj', b'stamp 1 0 0 1 5', b'save m.tmj', b'status']


def saves_on_disk(top, size, before):
    """The replies to saves into a folder that is a disk of its own, and what stands there then,
    after a command has run in it."""
    maps = top / 'maps'
    maps.mkdir()
    program = f'{before}; {TILE_EDITOR} --folder maps; ls -A maps; cat maps/m.tmj'
    words = ['sh', '-c', WITH_DISK.format(size=size), maps, 'sh', '-c', program]
    apart = ['--mount'] if os.getuid() == 0 else ['--user', '--map-root-user', '--mount']
    done = subprocess.run(
        ['unshare', *apart, *words], input=joined(SAVES), capture_output=True, timeout=60, cwd=top
    )
    return done.stdout, done.stderr.decode()


def test_full_disk():
    """On a disk that is full a save is refused and leaves the old file, with nothing beside it."""
    page = os.sysconf('SC_PAGE_SIZE')
    first = [b'ok 0/0 clean 0', b'saved m.tmj 389', b'ok 1/1 dirty 0']
    stamped = NEW.replace(b'"data":[0,', b'"data":[5,')
    cases = [
        Case('room for two files', 2, [*first, b'saved m.tmj 389', b'ok 1/1 clean 0', stamped]),
        Case('room for one file', 1, [*first, refusal(51).encode(), b'ok 1/1 dirty 0', NEW]),
    ]

    def fault_of_disk(case):
        with tempfile.TemporaryDirectory() as top:
            output, errors = saves_on_disk(Path(top), (case.given + 1) * page, 'head -c 1 /dev/zero >maps/n')
        if 'unshare' in errors or 'mount' in errors:
            skip(f'no disk can be mounted here: {errors}')
        *replies, file = case.wanted
        wanted = joined([*replies, b'm.tmj', b'n']) + file
        reason = os.strerror(errno.ENOSPC)
        if (reason in errors) != (case.given == 1):
            return errors
        return unlike(wanted, output)

    check_each(cases, fault_of_disk)
