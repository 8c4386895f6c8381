# SPDX-License-Identifier: MIT OR Apache-2.0
"""Sees what the program does where the system gives it no more memory, and that the library gives
back what it takes: a map that takes more memory than there is is refused, and the program goes on;
1,000 maps that one editor opens and saves take no more memory than 300."""
import resource
import subprocess
import sys
import tempfile
from pathlib import Path

from lib.broken import HEAVY_TEXTS, with_kept
from lib.cases import unlike
from lib.places import EXAMPLE_MAPS, SESSION_MAPS, TILE_EDITOR, TOP
from lib.refusals import refusal

sys.path.insert(0, str(TOP / 'python'))
from roskevad import Editor  # noqa: E402

ALONE = True
# The bytes that a run of the program may have.
SHORT = 64_000_000


def test_a_map_that_takes_too_much():
    town = (SESSION_MAPS / 'town.tmj').read_bytes()
    _, heavy, _ = HEAVY_TEXTS[-1]
    rows = [
        ('new town 4 3 16 16 town.tsj', 'ok 0/0 clean 0'),
        ('open m heavy.tmj', refusal(90)),
        ('list', 'docs *town'),
        ('open t town.tmj', 'ok 0/0 clean 0'),
    ]
    with tempfile.TemporaryDirectory() as folder:
        (Path(folder) / 'heavy.tmj').write_bytes(with_kept(town, heavy))
        (Path(folder) / 'town.tmj').write_bytes(town)
        done = subprocess.run(
            [TILE_EDITOR, '--folder', folder],
            input=''.join(f'{line}\n' for line, _ in rows),
            text=True,
            capture_output=True,
            timeout=60,
            preexec_fn=lambda: resource.setrlimit(resource.RLIMIT_AS, (SHORT, SHORT)),
        )
    fault = unlike(
        (0, [reply for _, reply in rows]), (done.returncode, done.stdout.split('\n')[:-1])
    )
    assert not fault, f'with {SHORT} bytes of memory: {fault}'


def memory():
    """The bytes that this process has in memory."""
    return int(Path('/proc/self/statm').read_text().split(' ')[1]) * 4096


def test_many_maps_in_one_editor():
    data = (EXAMPLE_MAPS / 'layers.tmj').read_bytes()
    with Editor() as editor:
        for at in range(1000):
            editor.open_map('m', data)
            saved = editor.save_map()
            editor.step('close m')
            if at == 300:
                before = memory()
        more = memory() - before
    assert saved and more < 1_000_000, f'{more} bytes more behind 1,000 maps than behind 300'
