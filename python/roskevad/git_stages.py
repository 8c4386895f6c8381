# SPDX-License-Identifier: MIT OR Apache-2.0
"""The versions of a file that git keeps while a merge of it is in conflict."""
import subprocess
from pathlib import Path
from typing import NamedTuple, Optional

_BASE, _OURS, _THEIRS = '1', '2', '3'


class Stages(NamedTuple):
    """The bytes of each version, None where there is none, and the folder of the repository."""

    base: Optional[bytes]
    ours: Optional[bytes]
    theirs: Optional[bytes]
    top: Path


class NotInConflict(Exception):
    """Git keeps no versions of a file, and why."""


def stages_of(path: Path) -> Stages:
    """The versions of a file, as git would write them. Raises NotInConflict; OSError where git can't be run."""
    folder, name = path.absolute().parent, path.name
    top = _git(folder, 'rev-parse', '--show-toplevel')
    if top.returncode != 0:
        raise NotInConflict(f'in no repository of git: {path}')
    listed = _git(folder, 'ls-files', '-u', '-z', '--', f':(literal){name}').stdout.split(b'\0')
    # Of each version its mode, its hash and its number.
    rows = [each.partition(b'\t')[0].decode().split(' ') for each in listed if each]
    if not rows:
        raise NotInConflict(f'git has no conflict in {path}')
    found = {stage: _git(folder, 'cat-file', '--filters', f'--path={name}', hash).stdout for _, hash, stage in rows}
    return Stages(found.get(_BASE), found.get(_OURS), found.get(_THEIRS), Path(top.stdout.decode().rstrip('\n')))


def _git(folder: Path, *words: str) -> 'subprocess.CompletedProcess[bytes]':
    return subprocess.run(['git', '-C', str(folder), *words], capture_output=True)
