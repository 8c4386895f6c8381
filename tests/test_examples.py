# SPDX-License-Identifier: MIT OR Apache-2.0
"""Runs the script `examples/build.sh` over a copy of the example maps: with lines that are all
accepted; with a line that is refused, behind which nothing may be saved; and with an option, which
it must hand on."""
import shutil
import subprocess
import tempfile
from contextlib import contextmanager
from pathlib import Path

from lib.cases import unlike
from lib.places import EXAMPLES, EXAMPLE_MAPS, files_in
from lib.refusals import refusal

LIMITED = 'new town 4 3 16 16 town.tsj\nstamp 1 0 0 1 5\nstamp 1 1 0 1 5\nsave town.tmj\ntext 1\n'


@contextmanager
def maps():
    """A copy of the example maps, and a place for a session."""
    with tempfile.TemporaryDirectory() as top:
        shutil.copytree(EXAMPLE_MAPS, Path(top) / 'maps')
        yield Path(top) / 'maps', Path(top) / 'own.session'


def built(session, folder, *options):
    """The status of the script, and what it tells."""
    done = subprocess.run(
        [EXAMPLES / 'build.sh', session, folder, *options],
        stdout=subprocess.PIPE,
        stderr=subprocess.STDOUT,
        text=True,
    )
    return done.returncode, done.stdout


def see(wanted, came):
    fault = unlike(wanted, came)
    assert not fault, f'examples/build.sh: {fault}'


def test_lines_that_are_accepted():
    with maps() as (folder, _):
        see((0, ''), built(EXAMPLES / 'walls.session', folder))
        see(True, (folder / 'walls.tmj').exists())


def test_a_line_that_is_refused():
    with maps() as (folder, session):
        lines = (
            (EXAMPLES / 'walls.session').read_text().replace('\nstamp 1 7 1', '\nstamp 9 7 1', 1)
        )
        session.write_text(lines)
        see(
            (3, f'tile_editor: line 8: stamp 9 7 1 1 10,10,10,10,10: {refusal(30)}\n'),
            built(session, folder),
        )
        see(files_in(EXAMPLE_MAPS), files_in(folder))


def test_an_option_is_handed_on():
    """With a limit of 1 there is one step, and else a second one."""
    with maps() as (folder, session):
        session.write_text(LIMITED)
        see(0, built(session, folder)[0])
        see(3, built(session, folder, '--limit', '1')[0])
