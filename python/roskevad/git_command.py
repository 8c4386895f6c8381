# SPDX-License-Identifier: MIT OR Apache-2.0
"""Has git merge maps, tell what differs between them, and ask for conflicts, by meaning.

    roskevad git [--enable | --disable] [--global | --folder DIR]
"""
import argparse
import shlex
import subprocess
import sys
from pathlib import Path
from typing import Iterable, Iterator

_TROUBLE = 2
# The files that are maps, and what a repository says of them.
_MAPS, _ATTRIBUTE = ('*.tmj', '*.tmx'), 'merge=roskevad diff=roskevad'
# The sections that git has of a driver for merges, of one for differences, and of a tool for conflicts.
_SECTIONS = 'merge.roskevad', 'diff.roskevad', 'mergetool.roskevad'


class _Trouble(Exception):
    """What git says where it does not do something."""


def main(given: list[str]) -> int:
    """Sets what git is to do with maps, or takes it away, and tells how it is set. Gives the exit status: 0, or 2 for trouble."""
    parser = argparse.ArgumentParser(prog='roskevad git', description='Has git merge maps, tell what differs between them, and '
                                     'ask for conflicts by git mergetool --tool=roskevad; all by meaning.')
    ways = parser.add_mutually_exclusive_group()
    ways.add_argument('--enable', action='store_true', help='sets the programs that git is to run for maps')
    ways.add_argument('--disable', action='store_true', help='takes them away')
    parser.add_argument('--global', dest='is_global', action='store_true', help='for all repositories of this user, and not only for this one')
    parser.add_argument('--folder', type=Path, default=Path('.'), help='a folder of the repository')
    chosen = parser.parse_args(given)
    git = _Git(chosen.folder)
    scope = '--global' if chosen.is_global else '--local'
    try:
        if not chosen.is_global and not git.is_repository():
            raise _Trouble('no repository of git is here; --global is for all repositories of this user')
        if chosen.enable:
            _enable(git, scope)
        elif chosen.disable:
            _disable(git, scope)
        print('\n'.join(_told(git, scope)), flush=True)
        return 0
    except (_Trouble, OSError) as fault:
        print(f'roskevad git: {fault}', file=sys.stderr)
        return _TROUBLE


def program() -> str:
    """How a shell runs this package by this Python, wherever it is."""
    folder = Path(__file__).resolve().parent.parent
    return f'PYTHONPATH={shlex.quote(str(folder))} {shlex.quote(sys.executable)} -m roskevad'


def settings() -> dict[str, str]:
    """What git is told: names of settings, and their values."""
    return {
        'merge.roskevad.name': 'Tiled maps, by meaning',
        'merge.roskevad.driver': f'{program()} merge %O %A %B -o %A --name %P',
        'diff.roskevad.command': f'{program()} diff --git',
        'diff.roskevad.textconv': f'{program()} diff --text',
        'mergetool.roskevad.cmd': f'{program()} merge --ask --resolve "$MERGED"',
        'mergetool.roskevad.trustExitCode': 'true',
    }


class _Git:
    """Git, in a folder."""

    def __init__(self, folder: Path):
        self._folder = folder

    def does(self, *words: str) -> str:
        """What it answers. Raises _Trouble where it refuses."""
        done = self._done(words)
        if done.returncode != 0:
            raise _Trouble(done.stderr.strip() or f'git {words[0]} ends with {done.returncode}')
        return done.stdout.strip()

    def tells(self, *words: str) -> str:
        """The same; nothing where it refuses, as what is not set."""
        return self._done(words).stdout.strip()

    def _done(self, words: tuple[str, ...]) -> 'subprocess.CompletedProcess[str]':
        return subprocess.run(['git', '-C', str(self._folder), *words], capture_output=True, text=True)

    def is_repository(self) -> bool:
        return self.tells('rev-parse', '--git-dir') != ''


def _enable(git: _Git, scope: str) -> None:
    for name, value in settings().items():
        git.does('config', scope, name, value)


def _disable(git: _Git, scope: str) -> None:
    for section in _SECTIONS:
        if git.tells('config', scope, '--get-regexp', f'^{section}[.]'):
            git.does('config', scope, '--remove-section', section)


def _told(git: _Git, scope: str) -> list[str]:
    """How it is set, and what is missing."""
    wanted, where = settings(), 'this user' if scope == '--global' else 'this repository'
    set_now = {name: git.tells('config', scope, '--get', name) for name in wanted}
    if not any(set_now.values()):
        return [f'off for {where}']
    told = [f'on for {where}: merges, differences, texts in logs, and mergetool --tool=roskevad']
    told += [f'set otherwise: {name} = {value}' if value else f'not set: {name}' for name, value in set_now.items() if value != wanted[name]]
    if not git.is_repository():
        return [*told, 'each repository needs a file .gitattributes with', *_lines_of(_MAPS)]
    missing = [each for each in _MAPS if git.tells('check-attr', 'merge', 'diff', '--', each.replace('*', 'a')).count(': roskevad') < 2]
    if not missing:
        return [*told, 'its .gitattributes says so of maps']
    of = 'any map' if len(missing) == len(_MAPS) else ' and '.join(missing)
    return [*told, f'not yet of {of}: .gitattributes needs', *_lines_of(missing)]


def _lines_of(maps: Iterable[str]) -> Iterator[str]:
    """The lines that say it of maps."""
    return (f'  {each} {_ATTRIBUTE}' for each in maps)
