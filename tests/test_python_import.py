# SPDX-License-Identifier: MIT OR Apache-2.0
"""Lists the modules that `import roskevad` brings: of Python's own those alone that each call needs, and of the package none that
only packed maps, saves or the prompt need. So the import stays short, whatever else the machine does. Each of the others comes
with the first call that needs it."""
import json
import subprocess
import sys
import tempfile

from lib.cases import Case, check_each, unlike
from lib.places import TOP

# What the import may bring, with all that these bring themselves.
NEEDED = (
    'array', 'bisect', 'collections', 'contextlib', 'ctypes', 'functools', 'itertools', 'json', 'math', 'operator', 'os', 're', 'struct',
    'threading', 'typing', 'warnings',
)
# The modules of the package that come later.
LATER = ('__main__', 'asking', 'choices', 'class_types', 'compared_maps', 'compressed_layers', 'conflict_marks', 'difference', 'difference_command',
         'difference_lines', 'difference_pictures', 'framed_maps', 'git_command', 'git_stages', 'json_scanner', 'map_texts',
         'merge_command', 'merged_maps', 'merged_tilesets', 'merging', 'page', 'renamed_maps', 'resolving', 'saving', 'settling', 'three_ways')
# What is told of the modules behind a script: those of the package, and the others that were not there before.
SCRIPT = """
import json, sys
{needed}
before = set(sys.modules)
sys.path.insert(0, {path!r})
import roskevad
{script}
print(json.dumps(sorted(set(sys.modules) - before)))
"""
OPENED = 'editor = roskevad.Editor(); editor.open({map!r})'
# What a script does behind the import, and some modules that it brings.
USES = {
    'an editor': ('roskevad.Editor()', {'pathlib'}),
    'a map that is opened': (OPENED, {'pathlib', 'hashlib', 'roskevad.compressed_layers', 'roskevad.json_scanner'}),
    'a difference': ('editor = roskevad.Editor(); one = editor.new("a", 1, 1, 1, 1, "a.tsj"); one.difference(one)', {
        'pathlib', 'roskevad.compared_maps', 'roskevad.difference', 'roskevad.difference_lines'}),
    'a merge': ('roskevad.merge', {'roskevad.difference', 'roskevad.merging', 'roskevad.three_ways'}),
    'a save': (OPENED + '; editor.active.save({copy!r})', {'roskevad.saving'}),
    'a listener': ('import logging; logging.getLogger("roskevad")', {'logging'}),
}


def brought(script=''):
    """The modules that the import and a script bring."""
    path = str(TOP / 'python')
    words = SCRIPT.format(needed=f'import {", ".join(NEEDED)}', path=path, script=script)
    done = subprocess.run([sys.executable, '-I', '-S', '-c', words], capture_output=True, text=True)
    assert done.returncode == 0, done.stderr
    return set(json.loads(done.stdout))


def own(modules):
    return {name for name in modules if name.split('.')[0] == 'roskevad'}


def test_modules_of_the_import():
    came = brought()
    assert not came - own(came), f'import roskevad brings {sorted(came - own(came))}'
    later = own(came) & {f'roskevad.{name}' for name in LATER}
    assert not later, f'import roskevad brings {sorted(later)}'


def test_modules_that_come_later():
    """What a call needs comes with it."""
    with tempfile.TemporaryDirectory() as folder:
        source = TOP / 'examples' / 'maps' / 'town.tmj'
        places = {'map': str(source), 'copy': f'{folder}/a.tmj'}

        def fault_of(case):
            return unlike(case.wanted, case.wanted & brought(case.given.format(**places)))

        check_each([Case(name, script, wanted) for name, (script, wanted) in USES.items()], fault_of)
