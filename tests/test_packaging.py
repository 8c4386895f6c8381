# SPDX-License-Identifier: MIT OR Apache-2.0
"""Builds the wheels and the source archive of the Python package, each twice: they are the same
bytes, have the licences and the summary, and install the program `roskevad`; also as a package that
leads to the clone (`-e`). `mypy --strict` finds nothing in the package, in a script that uses it,
nor in the examples."""
import configparser
import email
import os
import shutil
import subprocess
import sys
import tarfile
import tempfile
import time
import zipfile
from pathlib import Path

from lib.cases import Case, check_each, unlike
from lib.places import TOP

PACKAGES = ('mypy', 'python3-venv')

VERSION = (TOP / 'VERSION').read_text().strip()
INFO = f'roskevad-{VERSION}.dist-info'
LICENCES = {
    'LICENSE-APACHE': TOP / 'LICENSE-APACHE',
    'LICENSE-MIT': TOP / 'LICENSE-MIT',
    'NOTICES.txt': TOP / 'js' / 'NOTICES.txt',
}
KINDS = ('build_wheel', 'build_editable', 'build_sdist')
# A script that uses each call by its types.
SCRIPT = '''
from pathlib import Path
from typing import Any, Optional
from roskevad import Closed, Document, Editor, Layer, LayerKind, MapObject, Refused, Rows, Run, SelectionMode, Status, Tile, TilesetTile
from roskevad import Change, Conflict, Merge, merge
from roskevad import BadTileset, Corners, Error, NotFound, OtherType, OwnMembers, PropertyType, Tileset, document_name, report, turned_right
def run(path: Path) -> Optional[int]:
    with Editor(limit=5, folder='.') as editor:
        reply: str = editor.open_file(path)
        told: Optional[bytes] = editor.step_bytes(bytearray(b'undo'))
        editor.put_file('a', memoryview(b'a'))
        editor.open_map('a', b'{')
        tree: dict[str, Any] = editor.map()
        names: list[str] = editor.unsaved()
        try:
            editor.save_file('a.tmj')
        except (Refused, Closed) as fault:
            print(fault, reply, told, tree, names, document_name(path))
        faults: list[Error] = [NotFound('a'), OtherType('a'), BadTileset('a'), Refused(21, 'nothing to undo', 'undo')]
        told_of_map: dict[str, Any] = report(path) or report('a.tmj') or report(b'{}')
        print(faults, told_of_map['refused'])
        return editor.clean_index()
def drawn(editor: Editor, path: Path) -> Status:
    document: Document = editor.open(path)
    other: Document = editor.open(bytearray(b'{}'), name='other')
    made = editor.new('a', 4, 3, 16, 16, 'a.tsj')
    layer: Layer = document.layers['Ground']
    document.stamp(layer, 0, 0, [[1, 2], (3, 4)])
    document.stamp(1, 0, 0, memoryview(bytes(4)).cast('B', (2, 2)), merge=True)
    with document.macro('A', action='a'), document.stroke():
        document.erase('Ground', 0, 0, 1, 1)
    document.properties['author'] = 'me'
    key: MapObject = layer.objects.add('key', 0, 0)
    corners: Corners = [(0, 0), [8.0, 8], {'x': 16, 'y': -8}]
    lake: MapObject = layer.objects.add('', 0, 0.5, 8, 8, polygon=corners, class_name='Lake', rotation=45, visible=False, properties={'deep': True})
    copies: list[MapObject] = [layer.objects.put(lake.members.copy()), layer.objects.add('a', key.x + 16, key.y, text={'text': 'a'}, tile=key.tile)]
    houses: Layer = document.layers.add('group', 'Houses')
    art: Tileset = document.tilesets.put({'firstgid': 100, 'source': 'art.tsj'}, renumbers=True)
    art = document.tilesets.add_from_image(200, 'art', 'art.png', 128, 128, 16, 16, margin=1, spacing=1)
    print(copies, houses, art)
    layer.move_into(houses)
    layer.move_into('Houses', place=0)
    layer.move_into(None)
    key.move_into(layer, 1)
    document.extend(left=1, bottom=2)
    document.properties.set('shop', {'open': True}, property_type='Shop', merge=True)
    document.properties['many'] = [1, 'b']
    document.properties.put({'name': 'two words', 'value': key.id})
    shop: PropertyType = document.properties.type_of('shop')
    print(shop)
    number: int = int(key) + int(document.objects[key]) + document.layers[layer].id
    tile: Optional[Tile] = layer.tile(0, 0)
    runs: tuple[Run, ...] = document.selection.runs
    values: list[int] = layer.cells().tolist()
    kind: LayerKind = layer.kind
    mode: SelectionMode = 'add'
    document.select(0, 0, 1, 1, mode)
    block: Rows = turned_right(layer.rows())
    layer.write(0, 0, block)
    parent: Optional[Layer] = layer.parent
    walls: Optional[Layer] = document.layers.get('Walls') or document.layers.find('Walls', kind)
    tiles: Optional[list[TilesetTile]] = document.tilesets[1].tiles
    print(parent, walls, tiles, document.layers.get('Walls', 'none'))
    layer.name = 'Grass'
    layer.class_name, layer.opacity, layer.tint, layer.locked = 'ground', 1, layer.tint or None, not layer.locked
    document.class_name, document.background = document.class_name, document.background or '#102030'
    layer.members['parallaxx'] = 2
    members: OwnMembers = document.members
    members.update(renderorder='left-up')
    shared: OwnMembers = key.members
    print(members.pop('compressionlevel', None), shared.setdefault('rotation', 0), layer.members.copy())
    with editor.lock:
        editor.active = made
    document.save()
    with other:
        other.save(Path('a.tmj'))
    print(key, number, tile, runs, values, (0, 0) in document.selection, editor.documents['a'], path in document.layers)
    return document.status
def joined(base: Document, ours: Document, theirs: Document) -> tuple[Conflict, ...]:
    found: Merge = merge(base, ours, theirs)
    changes: tuple[Change, ...] = found.changes
    lines: Optional[tuple[str, ...]] = base.difference(ours).lines
    print(found.document.undo_text, found.notices, found.lines, [each.subject.id for each in changes], lines)
    return found.conflicts
'''


def built(kind, folder, source=TOP / 'python'):
    """A wheel or an archive of the package in a folder."""
    code = f'import build_backend; print(build_backend.{kind}({str(folder)!r}))'
    env = {**os.environ, 'PYTHONPATH': str(source), 'PYTHONDONTWRITEBYTECODE': '1'}
    done = subprocess.run(
        [sys.executable, '-c', code], capture_output=True, text=True, env=env, cwd=folder
    )
    assert done.returncode == 0, done.stderr
    return Path(folder) / done.stdout.strip()


def copy_of_the_clone(folder):
    """What the package is built from, elsewhere, with other dates, modes and order of its files."""
    clone = Path(folder) / 'clone'
    ignored = shutil.ignore_patterns('__pycache__')
    for name in ('examples', 'js', 'lib', 'python'):
        shutil.copytree(TOP / name, clone / name, ignore=ignored, copy_function=shutil.copyfile)
    for name in ('LICENSE-APACHE', 'LICENSE-MIT'):
        shutil.copyfile(TOP / name, clone / name)
    for path in sorted(clone.rglob('*'), reverse=True):
        path.chmod(0o700)
        os.utime(path, (time.time() - 10_000_000, time.time() - 10_000_000))
    return clone / 'python'


def fault_of_twice(case):
    with tempfile.TemporaryDirectory() as first, tempfile.TemporaryDirectory() as second:
        one, other = built(case.given, first), built(case.given, second, copy_of_the_clone(second))
        if case.given == 'build_editable':
            # It has the place of its folder.
            return unlike(one.name, other.name)
        return unlike((one.name, True), (other.name, one.read_bytes() == other.read_bytes()))


def test_the_same_bytes_twice():
    check_each([Case(kind, kind, None) for kind in KINDS], fault_of_twice)


def fault_of_wheel(case):
    """What is wrong with what a wheel says of itself, or None."""
    with tempfile.TemporaryDirectory() as folder, zipfile.ZipFile(
        built(case.given, folder)
    ) as wheel:
        read = {name: wheel.read(name) for name in wheel.namelist()}
    said = email.message_from_bytes(read[f'{INFO}/METADATA'])
    programs = configparser.ConfigParser()
    programs.read_string(read[f'{INFO}/entry_points.txt'].decode())
    came = (
        said['Name'],
        said['Version'],
        said['License-Expression'],
        sorted(said.get_all('License-File')),
        bool(said['Summary']),
        said.get_payload() == (TOP / 'python' / 'README.md').read_text(),
        dict(programs['console_scripts']),
        {
            name: read[f'{INFO}/licenses/{name}'] == path.read_bytes()
            for name, path in LICENCES.items()
        },
    )
    wanted = (
        'roskevad',
        VERSION,
        'MIT OR Apache-2.0',
        sorted(LICENCES),
        True,
        True,
        {'roskevad': 'roskevad.__main__:main'},
        {name: True for name in LICENCES},
    )
    return unlike(wanted, came)


def test_what_wheels_say():
    check_each([Case(kind, kind, None) for kind in KINDS[:2]], fault_of_wheel)


def test_the_source_archive():
    """A wheel that is built of it is the clone's."""
    with tempfile.TemporaryDirectory() as folder:
        with tarfile.open(built('build_sdist', folder)) as archive:
            archive.extractall(folder)
        top = Path(folder) / f'roskevad-{VERSION}'
        assert (top / 'PKG-INFO').exists() and all((top / name).exists() for name in LICENCES)
        (Path(folder) / 'own').mkdir()
        own, clones = built('build_wheel', f'{folder}/own', top), built('build_wheel', folder)
        assert own.read_bytes() == clones.read_bytes()


# ---- with pip


def pip(*words, folder):
    env = {
        **os.environ,
        'PIP_NO_INDEX': '1',
        'PIP_DISABLE_PIP_VERSION_CHECK': '1',
        'PIP_ROOT_USER_ACTION': 'ignore',
    }
    done = subprocess.run(
        [f'{folder}/bin/python', '-m', 'pip', *words],
        capture_output=True,
        text=True,
        env=env,
        timeout=120,
    )
    assert done.returncode == 0, f'pip {words}: {done.stderr[-1500:]}'


def example_of(folder, env):
    """What the example tells first of its last line, run as it is installed; `None` where it is not."""
    example = Path(folder) / 'share' / 'doc' / 'roskevad' / 'examples' / 'fence.py'
    if not example.exists():
        return None
    words = [f'{folder}/bin/python', example, example.parent / 'maps' / 'layers.tmj', Path(folder) / 'fenced.tmj']
    done = subprocess.run(words, capture_output=True, text=True, env=env, cwd='/')
    return done.stdout.splitlines()[-1].partition(':')[0] if done.returncode == 0 else done.stderr


def test_pip():
    """It installs the package, and leads to the clone with `-e`; and takes all out again."""
    env = {name: value for name, value in os.environ.items() if name != 'PYTHONPATH'}
    with tempfile.TemporaryDirectory() as folder:
        subprocess.run([sys.executable, '-m', 'venv', folder], check=True)

        def fault_of(case):
            pip('install', *case.given, TOP / 'python', folder=folder)
            program, module = [f'{folder}/bin/roskevad'], [f'{folder}/bin/python', '-m', 'roskevad']
            versions = [
                subprocess.run([*words, '--version'], capture_output=True, env=env, cwd='/').stdout
                for words in (program, module)
            ]
            where = f'{folder}/bin/python', '-c', 'import roskevad; print(roskevad.__file__)'
            place = subprocess.run(where, capture_output=True, text=True, env=env, cwd='/').stdout
            told = example_of(folder, env)
            pip('uninstall', '-y', 'roskevad', folder=folder)
            # pip leaves the folders of examples, which are empty then.
            left = [str(path) for path in Path(folder).rglob('*') if 'roskevad' in str(path) and not path.is_dir()]
            wanted = [f'roskevad {VERSION}\n'.encode()] * 2, *case.wanted, []
            return unlike(wanted, (versions, place.startswith(str(TOP)), told, left))

        check_each([Case('a wheel', [], (False, 'saved')), Case('the clone', ['-e'], (True, None))], fault_of)


# ---- types


def test_types():
    """The package, what builds it, a script that uses it, and all examples."""
    with tempfile.TemporaryDirectory() as folder:
        script = Path(folder) / 'script.py'
        script.write_text(SCRIPT)
        env = {**os.environ, 'MYPYPATH': str(TOP / 'python'), 'MYPY_CACHE_DIR': f'{folder}/cache'}
        done = subprocess.run(
            [
                'mypy',
                '--strict',
                TOP / 'python' / 'roskevad',
                TOP / 'python' / 'build_backend.py',
                script,
                *sorted((TOP / 'examples').glob('*.py')),
            ],
            capture_output=True,
            text=True,
            env=env,
            cwd=folder,
        )
    assert done.returncode == 0, done.stdout
