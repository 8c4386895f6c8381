# SPDX-License-Identifier: MIT OR Apache-2.0
"""Compares `js/NOTICES.txt` with the notices of the licences of all crates of the Rattle kit that are
linked into what is in `bin/`, `lib/` and `js/`, as `tools/notices` makes them from the kit's own
files. If crates were added, or the kit has changed, run `tools/notices`."""
from lib.cases import unlike
from lib.kit import need_kit, tool


def test_notices_of_linked_crates():
    need_kit()
    notices = tool('notices')
    fault = unlike(notices.notices(), notices.FILE.read_text())
    assert not fault, f'run tools/notices: {fault}'
