# SPDX-License-Identifier: MIT OR Apache-2.0
"""Runs the program on the session files of `sessions/`: its replies must be those that stand beside
the lines, and the files that it leaves those that are named. Each session is run a second time with
its bytes given one at a time, or 997 where it is large, which native/interpose.c does; it also
tells of a save that is not synced before it takes the old file's place."""
from lib.cases import CORES, check_each
from lib.native import interposed
from lib.sessions import fault_of_run, runs_of_files

# The bytes of the longest session that is given a byte at a time.
SMALL = 200_000


def fault_in_pieces(run):
    step = '1' if len(run.session) <= SMALL else '997'
    return fault_of_run(run, {'LD_PRELOAD': interposed(), 'READ_STEP': step})


def test_replies_and_files():
    check_each(runs_of_files(), fault_of_run, CORES)


def test_bytes_in_pieces():
    check_each(runs_of_files(), fault_in_pieces, CORES)
