# SPDX-License-Identifier: MIT OR Apache-2.0
"""A repository of git with a map, in which git merges by the Python package, and the commands that tests run there."""
import os
import shutil
import subprocess
import sys
from pathlib import Path

from lib.cases import see
from lib.places import TOP

sys.path.insert(0, str(TOP / 'python'))
from roskevad import Editor  # noqa: E402

MAPS = TOP / 'examples' / 'maps'
ATTRIBUTES = ''.join(f'*.{end} merge=roskevad diff=roskevad\n' for end in ('tmj', 'tmx'))


def command(*words, given=None, cwd=TOP / 'python'):
    """The status of a command of the package, and what it tells on standard output and on standard error."""
    done = subprocess.run([sys.executable, '-m', 'roskevad', *map(str, words)], cwd=cwd, input=given, capture_output=True, text=True)
    return done.returncode, done.stdout, done.stderr


def saved(folder, name, script, file='town.tmj'):
    """A file of a map, with edits."""
    path = Path(folder, name)
    with Editor() as editor:
        document = editor.open(MAPS / file)
        exec(script, {'map': document})
        document.save(path)
    return path


class Repository:
    """A repository with a map, in which git merges by the package where that is enabled. `name` is that of its file: in `.tmx` it is in XML."""

    def __init__(self, folder, name='town.tmj'):
        self.name = name
        self.folder = Path(folder, 'repository')
        self.folder.mkdir()
        self.env = {**os.environ, 'HOME': str(folder), 'GIT_CONFIG_NOSYSTEM': '1', 'PYTHONPATH': str(TOP / 'python'),
                    **{f'GIT_{who}_{what}': value for who in ('AUTHOR', 'COMMITTER') for what, value in (('NAME', 'a'), ('EMAIL', 'a@b'))}}
        self.git('init', '-q', '-b', 'main')
        for each in ('tiles.tsx', 'tiles.png'):
            shutil.copy(MAPS / each, self.folder)
        if name.endswith('.tmj'):
            shutil.copy(MAPS / 'town.tmj', self.folder / name)
        else:
            saved(self.folder, name, 'pass')
        self.commit('The map')

    def git(self, *words, given=None):
        """The status, and what git tells."""
        done = subprocess.run(['git', *words], cwd=self.folder, env=self.env, input=given, capture_output=True, text=True)
        return done.returncode, done.stdout + done.stderr

    def roskevad(self, *words, given=None):
        done = subprocess.run([sys.executable, '-m', 'roskevad', *words], cwd=self.folder, env=self.env, input=given, capture_output=True, text=True)
        return done.returncode, done.stdout, done.stderr

    def commit(self, text):
        self.git('add', '.')
        return self.git('commit', '-q', '-m', text)

    def edit(self, branch, script):
        """A commit on a branch, which begins at main where it is not there."""
        if self.git('checkout', '-q', branch)[0] != 0:
            self.git('checkout', '-q', '-b', branch, 'main')
        with Editor(folder=self.folder) as editor:
            document = editor.open(self.name)
            exec(script, {'map': document})
            document.save()
        self.commit(script)

    def told(self, script):
        with Editor(folder=self.folder) as editor:
            return eval(script, {'map': editor.open(self.name)})


def enabled(folder, name='town.tmj'):
    found = Repository(folder, name)
    see(0, found.roskevad('git', '--enable')[0])
    Path(found.folder, '.gitattributes').write_text(ATTRIBUTES)
    found.commit('Attributes')
    return found
