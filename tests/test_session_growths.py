# SPDX-License-Identifier: MIT OR Apache-2.0
"""Refuses each growth of memory of some sessions in turn: the session that `rt ci` runs, the
examples, and the sessions that are marked for it. Whichever growth is refused, either the run ends
with status 1, `tile_editor: no memory` on standard error, nothing on standard output and no file
changed; or it ends with status 0, and `no 90 no memory` stands in place of the reply to one line,
which is none of those that take no memory: the replies before it are the ordinary ones, and those
behind it and the files are the program's on the session without that line."""
import functools
from concurrent.futures import ThreadPoolExecutor

from lib.cases import CORES, fail_with, in_processes, passed
from lib.growths import Refuser, Session
from lib.places import EXAMPLES, TOP, example_maps
from lib.sessions import Run, runs_of_files

IS_LONG = True


def runs_to_refuse():
    """The session of `rt ci`, the examples over the maps beside them, and the marked sessions."""
    for file in [TOP / 'crates' / 'tile_editor' / 'stdin', *sorted(EXAMPLES.glob('*.session'))]:
        yield Run(file.name, example_maps(), file.read_bytes())
    yield from (run for run in runs_of_files() if run.refuses_growths)


def begun(run):
    """A run with none of its growths refused."""
    return Session(
        run.name, Refuser(run.before, run.options), run.session.removesuffix(b'\n').split(b'\n')
    )


@functools.cache
def sessions():
    with ThreadPoolExecutor(CORES) as pool:
        return list(pool.map(begun, runs_to_refuse()))


def refused(each):
    """The place of the line that a growth of a session took the memory of, and what is wrong, or
    None."""
    at, growth = each
    try:
        return sessions()[at].refused_at(growth), None
    except AssertionError as fault:
        return None, str(fault)


def test_each_growth_of_sessions():
    """Each growth is a case; besides, growths of a session must be those of more than one line."""
    growths = [
        (at, growth)
        for at, session in enumerate(sessions())
        for growth in range(1, session.growths + 1)
    ]
    came = in_processes(refused, growths, 20)
    fail_with(fault for _, fault in came if fault)
    met = [
        {place for (of, _), (place, _) in zip(growths, came) if of == at}
        for at in range(len(sessions()))
    ]
    fail_with(
        f'{session.name}: no line takes memory'
        for session, places in zip(sessions(), met)
        if len(places) < 2
    )
    passed(len(growths) + len(met))
