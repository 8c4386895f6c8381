# SPDX-License-Identifier: MIT OR Apache-2.0
"""Runs a program as a user without rights: permissions stop nothing that runs as root."""
import os
import subprocess
import tempfile

NOBODY = 65534


def can_lose_rights():
    """Whether permissions can be tried: they can but where root may be no other user."""
    if os.getuid() != 0:
        return True
    try:
        with tempfile.TemporaryDirectory() as top:
            os.chown(top, NOBODY, NOBODY)
            return subprocess.run(['true'], user=NOBODY, group=NOBODY).returncode == 0
    except (OSError, subprocess.SubprocessError):
        return False
