# SPDX-License-Identifier: MIT OR Apache-2.0
"""Has Tiled export maps. A step that needs it names its package."""
import gzip
import os
import shutil
import subprocess
from pathlib import Path

from lib.asides import exact_text
from lib.cases import unlike

EXAMPLES = Path('/usr/share/doc/tiled/examples')


def exported(source, folder, name):
    """The bytes of a map as Tiled exports it to JSON into a folder, or None where Tiled does not load
    it. Paths of tilesets are those from there."""
    goal = Path(folder) / name
    export('json', source, goal)
    return goal.read_bytes() if goal.exists() else None


def export(form, source, goal, what='--export-map'):
    """Has Tiled export a map, or what that option says, in a form of its own. Paths of tilesets are those from there."""
    env = {**os.environ, 'QT_QPA_PLATFORM': 'offscreen', 'HOME': str(goal.parent)}
    words = ['tiled', what, form, source, goal]
    return subprocess.run(words, env=env, capture_output=True, timeout=120)


def as_exported(value):
    """A number, or another value that is no list and no dict, as Tiled writes it: numbers that are long have 15 digits."""
    is_long = isinstance(value, float) or isinstance(value, int) and abs(value) >= 10**15
    return float(f'{value:.15g}') if is_long else value


def unlike_exports(source, saved):
    """How what Tiled exports of a saved map differs from what it exports of the source, or None. Most
    sources are exports themselves, so it need not export those again."""
    came = exact_text(exported(saved, saved.parent, f'again_{saved.name}'))
    if came is not None and came == exact_text(source.read_bytes()):
        return None
    return unlike(exact_text(exported(source, source.parent, f'again_{source.name}')), came)


def unpacked(folder):
    """The maps of Tiled's own examples, with their tilesets, in a folder: Debian packs some files."""
    shutil.copytree(EXAMPLES, folder, dirs_exist_ok=True)
    for path in sorted(Path(folder).rglob('*.gz')):
        path.with_suffix('').write_bytes(gzip.decompress(path.read_bytes()))
        path.unlink()
    return sorted(Path(folder).rglob('*.tmx'))
