# SPDX-License-Identifier: MIT OR Apache-2.0
"""Plants ten wrong merges, each by a change of the package's source, and looks whether the random pairs of `merge` notice each."""
import subprocess
import sys

from lib.cases import Case, check_in_processes
from lib.places import TOP

#: A name, the module, what stands there, and what is put in its place.
WRONG = [
    ('cells: theirs always', 'merged_maps', 'if mine == old and other >= 0:', 'if other >= 0:'),
    ('what refers to a new id is not renumbered', 'class_types', "typed.type == 'object' and type(value) is int:", "typed.type == 'object' and value is None:"),
    ('first ids clash', 'merged_tilesets', 'found[first_id(each.theirs)] = first_id(each.theirs) + by', 'found[first_id(each.theirs)] = first_id(each.theirs)'),
    ('a conflict of members is not told', 'three_ways', '        return choose(Clash(name, base, ours, theirs))\n', '        return ours\n'),
    ('groups: ours always', 'merged_maps', 'if theirs in (ours, base):', 'if theirs in (ours, base) or ours == base:'),
    ('what is removed wins', 'merged_maps', 'if is_removed and not (self._is_changed(subject, 1) and', 'if is_removed and not (False and'),
    ('ids that both have added are not seen', 'merging', 'if subject in mine or subject.kind', "if subject.kind == 'layer' and subject in mine or subject.kind"),
    ('one conflict of cells too few', 'merged_maps', '*regions([cell for cell in both if cell not in apart])]:', '*[*regions(both)][1:]]:'),
    ('the size: ours always', 'framed_maps', "    return theirs if words is None or", "    return theirs if words is not None and"),
    ('a property of theirs is lost', 'merged_maps', 'theirs if is_same(base, ours) else self._property(', 'ours if is_same(base, ours) else self._property('),
]
SCRIPT = '''
import sys, types
sys.path[:0] = [{tests!r}, {python!r}]
import roskevad
from pathlib import Path
path = Path({python!r}, 'roskevad', {module!r} + '.py')
source = path.read_text()
assert source.count({old!r}) == 1, source.count({old!r})
planted = types.ModuleType('roskevad.' + {module!r})
planted.__package__, planted.__file__ = 'roskevad', str(path)
sys.modules[planted.__name__] = planted
exec(compile(source.replace({old!r}, {new!r}), str(path), 'exec'), planted.__dict__)
import test_merge
for seed in range(test_merge.SEED, test_merge.SEED + test_merge.PAIRS):
    try:
        fault = test_merge.fault_at(seed)
    except Exception as raised:
        fault = repr(raised)
    if fault:
        print(seed - test_merge.SEED + 1, fault)
        break
'''


def fault_of_wrong(case):
    """That a wrong merge is not noticed, or None."""
    module, old, new = case.given
    script = SCRIPT.format(tests=str(TOP / 'tests'), python=str(TOP / 'python'), module=module, old=old, new=new)
    done = subprocess.run([sys.executable, '-c', script], capture_output=True, text=True)
    if done.returncode != 0:
        return done.stderr
    return None if done.stdout else 'no pair notices it'


def test_wrong_merges():
    check_in_processes([Case(name, given, None) for name, *given in WRONG], fault_of_wrong)
