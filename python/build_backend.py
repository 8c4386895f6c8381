# SPDX-License-Identifier: MIT OR Apache-2.0
"""Builds the wheel of this folder: the package, and the library of the clone beside its files. Needs nothing but Python.

The same files make the same bytes: what is written has neither the dates nor the modes nor the order of the files here."""
import base64
import gzip
import hashlib
import io
import re
import stat
import tarfile
import zipfile
from pathlib import Path
from typing import IO, Dict, List, Optional, cast

HERE = Path(__file__).resolve().parent
PROJECT = (HERE / 'pyproject.toml').read_text()
SUFFIXES = {'.py', '.html'}
TAG = 'py3-none-manylinux2014_x86_64'
EDITABLE_TAG = 'py3-none-any'
# What an installation has beside the package, and where: scripts, and a map that they work on.
EXAMPLES, SHARED = ('examples/fence.py', 'examples/spawn_points.py', 'examples/maps/layers.tmj', 'examples/maps/tiles.tsx'), 'share/doc/roskevad'
# What the package needs besides: a source archive has it among its files, and a clone elsewhere.
LIBRARY, LICENCES = 'roskevad/libroskevad.so', ('LICENSE-APACHE', 'LICENSE-MIT', 'NOTICES.txt')
OF_CLONE = {LIBRARY: 'lib/libroskevad.so', 'NOTICES.txt': 'js/NOTICES.txt'}
# The first moment that a zip archive can name.
DATE = (1980, 1, 1, 0, 0, 0)
PROGRAM, PLAIN = 0o755, 0o644


def project_field(name: str) -> str:
    """What the project's file says of a name."""
    found = re.search(rf'^{name} = "(.*)"$', PROJECT, re.MULTILINE)
    assert found, name
    return found[1]


NAME, VERSION, README = project_field('name'), project_field('version'), project_field('readme')
INFO = f'{NAME}-{VERSION}.dist-info'


def metadata() -> bytes:
    """What is said of the package."""
    rows = [
        'Metadata-Version: 2.4', f'Name: {NAME}', f'Version: {VERSION}', f'Summary: {project_field("description")}',
        f'License-Expression: {project_field("license")}', *(f'License-File: {name}' for name in LICENCES),
        f'Requires-Python: {project_field("requires-python")}', 'Description-Content-Type: text/markdown; charset=UTF-8; variant=GFM',
    ]
    return ('\n'.join(rows) + '\n\n').encode() + (HERE / README).read_bytes()


def entry_points() -> bytes:
    """The programs that are installed with the package."""
    rows = re.findall(r'^(\w+) = "(\w[\w.]*:\w+)"$', PROJECT.partition('[project.scripts]')[2], re.MULTILINE)
    return ('[console_scripts]\n' + ''.join(f'{name} = {place}\n' for name, place in rows)).encode()


def beside(name: str) -> bytes:
    """A file that the package needs besides its own."""
    places = [HERE / name, HERE.parent / OF_CLONE.get(name, name)]
    found = next((path for path in places if path.exists()), None)
    if found is None:
        raise FileNotFoundError(f'{places[1]} is not there: build in a clone, with pip 21.3 or later, or from a source archive')
    return found.read_bytes()


def sources() -> Dict[str, bytes]:
    """The files of the package, with the page."""
    paths = sorted(path for path in (HERE / NAME).rglob('*') if path.suffix in SUFFIXES or path.name == 'py.typed')
    return {path.relative_to(HERE).as_posix(): path.read_bytes() for path in paths}


def mode_of(name: str) -> int:
    return PROGRAM if name.endswith('.so') else PLAIN


def record_of(name: str, data: bytes) -> str:
    """The row of a file in the list of a wheel."""
    digest = base64.urlsafe_b64encode(hashlib.sha256(data).digest()).rstrip(b'=').decode()
    return f'{name},sha256={digest},{len(data)}\n'


def write_wheel(folder: str, tag: str, files: Dict[str, bytes]) -> str:
    """Writes a wheel of these files and of what is said of them, and gives its name."""
    files = {
        **files,
        f'{INFO}/METADATA': metadata(),
        f'{INFO}/WHEEL': f'Wheel-Version: 1.0\nGenerator: {NAME}\nRoot-Is-Purelib: false\nTag: {tag}\n'.encode(),
        f'{INFO}/entry_points.txt': entry_points(),
        **{f'{INFO}/licenses/{name}': beside(name) for name in LICENCES},
    }
    rows = ''.join(record_of(name, data) for name, data in files.items())
    files[f'{INFO}/RECORD'] = f'{rows}{INFO}/RECORD,,\n'.encode()
    wheel = f'{NAME}-{VERSION}-{tag}.whl'
    with zipfile.ZipFile(Path(folder) / wheel, 'w') as archive:
        for name, data in files.items():
            entry = zipfile.ZipInfo(name, DATE)
            entry.create_system = 3
            entry.external_attr = (stat.S_IFREG | mode_of(name)) << 16
            archive.writestr(entry, data, zipfile.ZIP_DEFLATED)
    return wheel


def build_wheel(wheel_directory: str, config_settings: Optional[object] = None, metadata_directory: Optional[str] = None) -> str:
    """Writes the wheel, and gives its name."""
    examples = {f'{NAME}-{VERSION}.data/data/{SHARED}/{name}': beside(name) for name in EXAMPLES}
    return write_wheel(wheel_directory, TAG, {**sources(), LIBRARY: beside(LIBRARY), **examples})


def build_editable(wheel_directory: str, config_settings: Optional[object] = None, metadata_directory: Optional[str] = None) -> str:
    """Writes a wheel that leads to the package in this folder, and gives its name."""
    return write_wheel(wheel_directory, EDITABLE_TAG, {f'{NAME}.pth': f'{HERE}\n'.encode()})


def get_requires_for_build_editable(config_settings: Optional[object] = None) -> List[str]:
    """Nothing."""
    return []


def build_sdist(sdist_directory: str, config_settings: Optional[object] = None) -> str:
    """Writes the archive of the sources, and gives its name."""
    top = f'{NAME}-{VERSION}'
    own = {name: (HERE / name).read_bytes() for name in ('pyproject.toml', 'build_backend.py', README)}
    files = {**own, 'PKG-INFO': metadata(), **{name: beside(name) for name in (*LICENCES, LIBRARY, *EXAMPLES)}, **sources()}
    with open(Path(sdist_directory) / f'{top}.tar.gz', 'wb') as file, gzip.GzipFile('', 'wb', fileobj=file, mtime=0) as packed:
        with tarfile.open(mode='w', fileobj=cast(IO[bytes], packed), format=tarfile.PAX_FORMAT) as archive:
            for name, data in files.items():
                entry = tarfile.TarInfo(f'{top}/{name}')
                entry.size, entry.mode = len(data), mode_of(name)
                archive.addfile(entry, io.BytesIO(data))
    return f'{top}.tar.gz'
