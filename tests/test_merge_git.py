# SPDX-License-Identifier: MIT OR Apache-2.0
"""Has git merge, rebase, pick and revert maps by the Python package, in repositories: with conflicts, a broken map, a map that both sides have
added, and lines that end as on Windows. Settles conflicts from the versions that git keeps, by words, by git's mergetool and by hand; and looks
at what git tells of differences, and how it is told to run the package."""
import os
import random
import shutil
import sys
import tempfile
from pathlib import Path

from lib import tiled_package
from lib.cases import see
from lib.histories import history
from lib.places import TOP
from lib.repositories import ATTRIBUTES, MAPS, Repository, enabled

sys.path.insert(0, str(TOP / 'python'))
from roskevad import Editor  # noqa: E402

PACKAGES = ('tiled',)
INN = 'map.objects["Inn"]'
WHERE = 'map.objects["Inn"].x, map.objects["Inn"].y, map.layers["Ground"].cells(0, 0, 1, 1)[0]'


def test_git():
    """It merges, rebases, picks and reverts maps by the package, and stops where both have changed one thing."""
    with tempfile.TemporaryDirectory() as folder:
        found = enabled(folder)
        found.edit('left', f'{INN}.x = 96')
        found.edit('right', f'{INN}.y = 96\nmap.stamp("Ground", 0, 0, [[7]])')
        found.edit('other', f'{INN}.x = 32')
        found.git('checkout', '-q', 'left')
        see(0, found.git('merge', '-q', '--no-edit', 'right')[0])
        see((96, 96, 7), found.told(WHERE))
        status, told = found.git('merge', '--no-edit', 'other')
        see((1, True), (status, 'town.tmj: conflict: object 2 "Inn": x 128 -> 96 (ours), 32 (theirs)' in told))
        see(True, 'UU town.tmj' in found.git('status', '--short')[1])
        see((0, 'map town.tmj\n  in conflict\n'), found.git('diff', '--cached'))
        see((0, 'map town.tmj\n  in conflict\nmap town.tmj\n  layer 1 "Ground": 1 cell in 0,0 to 0,0: tiles.tsx:0 -> tiles.tsx:6\n'
             '  object 2 "Inn": x 32 -> 96\n  object 2 "Inn": y 160 -> 96\n'), found.git('diff', '--theirs'))
        see((96, 96, 7), found.told(WHERE))
        found.git('merge', '--abort')
        found.git('checkout', '-q', '-B', 'moved', 'right')
        see(0, found.git('rebase', '-q', 'other')[0])
        see((32, 96, 7), found.told(WHERE))
        see(0, found.git('revert', '--no-edit', 'other')[0])
        see((128, 96, 7), found.told(WHERE))
        see(0, found.git('cherry-pick', 'left~1' if found.git('rev-parse', 'left^2')[0] != 0 else 'left^1')[0])
        see((96, 96, 7), found.told(WHERE))


def test_git_with_a_broken_map():
    """Ours stays, and git tells a conflict."""
    with tempfile.TemporaryDirectory() as folder:
        found = enabled(folder)
        found.edit('left', f'{INN}.x = 96')
        found.git('checkout', '-q', '-b', 'broken', 'main')
        Path(found.folder, 'town.tmj').write_text('{"layers":')
        found.commit('Broken')
        found.git('checkout', '-q', 'left')
        status, told = found.git('merge', '--no-edit', 'broken')
        see((1, True, 96), (status, '60 not JSON' in told, found.told(f'{INN}.x')))


def test_git_tells_what_differs():
    with tempfile.TemporaryDirectory() as folder:
        found = enabled(folder)
        found.edit('left', f'{INN}.x = 96')
        see((0, 'map town.tmj\n  object 2 "Inn": x 128 -> 96\n'), found.git('diff', 'main', 'left'))
        Path(found.folder, 'town.tmj').write_text('{')
        Path(found.folder, 'new.tmj').write_bytes((MAPS / 'house.tmj').read_bytes())
        found.git('add', '-N', 'new.tmj')
        status, told = found.git('diff')
        see((0, True), (status, told.startswith('map new.tmj\n  added\nmap town.tmj\n  what differs is not told: 60 not JSON')))


ON = 'on for this repository: merges, differences, texts in logs, and mergetool --tool=roskevad'


def test_what_git_is_told():
    with tempfile.TemporaryDirectory() as folder:
        found = Repository(folder)
        see((0, 'off for this repository\n', ''), found.roskevad('git'))
        lines = [f'*.{end} merge=roskevad diff=roskevad\n' for end in ('tmj', 'tmx')]
        see((0, f'{ON}\nnot yet of any map: .gitattributes needs\n  {"  ".join(lines)}', ''), found.roskevad('git', '--enable'))
        for name in ('merge.roskevad.driver', 'diff.roskevad.command', 'diff.roskevad.textconv', 'mergetool.roskevad.cmd'):
            see((name, True), (name, sys.executable in found.git('config', name)[1]))
        Path(found.folder, '.gitattributes').write_text(lines[0])
        see((0, f'{ON}\nnot yet of *.tmx: .gitattributes needs\n  {lines[1]}', ''), found.roskevad('git'))
        Path(found.folder, '.gitattributes').write_text(''.join(lines))
        see((0, f'{ON}\nits .gitattributes says so of maps\n', ''), found.roskevad('git'))
        found.git('config', 'merge.roskevad.driver', 'false')
        found.git('config', '--unset', 'mergetool.roskevad.cmd')
        told = found.roskevad('git')[1].splitlines()
        see([True, True], ['set otherwise: merge.roskevad.driver = false' in told, 'not set: mergetool.roskevad.cmd' in told])
        see((0, 'off for this repository\n', ''), found.roskevad('git', '--disable'))
        see((1, ''), found.git('config', '--local', '--get-regexp', 'roskevad'))
        see((0, 'off for this user\n', ''), found.roskevad('git', '--global'))
        see(0, found.roskevad('git', '--enable', '--global')[0])
        see(True, 'roskevad' in Path(folder, '.gitconfig').read_text())
        see((0, 'off for this user\n', ''), found.roskevad('git', '--disable', '--global'))
        shutil.rmtree(found.folder / '.git')
        see((2, '', True), (lambda status, told, words: (status, told, 'no repository of git is here' in words))(*found.roskevad('git', '--enable')))


# ---- settled in git

TOLD = ['conflict: object 2 "Inn": x 128 -> 96 (ours), 32 (theirs) [object:2/x]',
        'conflict: layer 1 "Ground": 1 cell in 0,0 to 0,0: tiles.tsx:6 (ours), tiles.tsx:8 (theirs) [layer:1/cells/0,0]']
LEFT = 'map.objects["Inn"].x, map.layers["Ground"].cells(0, 0, 1, 1)[0]'


def in_conflict(folder):
    """A repository in which a merge has stopped at two conflicts."""
    found = enabled(folder)
    found.edit('left', f'{INN}.x = 96\nmap.stamp("Ground", 0, 0, [[7]])')
    found.edit('right', f'{INN}.x = 32\nmap.stamp("Ground", 0, 0, [[9]])\nmap.stamp("Ground", 5, 5, [[9]])')
    found.git('checkout', '-q', 'left')
    see(1, found.git('merge', '--no-edit', 'right')[0])
    return found


def resolved(found, *words, given=None):
    status, told, fault = found.roskevad('merge', '--resolve', 'town.tmj', *words, given=given)
    assert not fault, fault
    return status, told.splitlines()


DONE = 'note: all is settled; git add town.tmj tells git so'


def test_resolve():
    """What is left is told; what is settled, in one call behind the other, stays."""
    with tempfile.TemporaryDirectory() as folder:
        found = in_conflict(folder)
        before = Path(found.folder, 'town.tmj').read_bytes()
        see((1, TOLD), resolved(found))
        see(before, Path(found.folder, 'town.tmj').read_bytes())
        see((1, [TOLD[0].replace('conflict', 'theirs', 1).rpartition(' ')[0], TOLD[1]]), resolved(found, '--take', 'theirs:object:2/x'))
        see((32, 7), found.told(LEFT))
        see((0, [TOLD[1].replace('conflict', 'theirs', 1).rpartition(' ')[0], DONE]), resolved(found, '--take', 'theirs:layer:1/cells/0,0'))
        see((32, 9), found.told(LEFT))
        see(0, found.git('add', 'town.tmj')[0])
        see((2, '', True), (lambda status, told, fault: (status, told, 'git has no conflict in town.tmj' in fault))(
            *found.roskevad('merge', '--resolve', 'town.tmj')))


def test_resolve_by_hand():
    """What somebody has settled in the map is not told to be left, and stays where more is settled."""
    with tempfile.TemporaryDirectory() as folder:
        found = in_conflict(folder)
        with Editor(folder=found.folder) as editor:
            document = editor.open('town.tmj')
            document.objects['Inn'].x = 50
            document.objects['Lake'].y = 8
            document.save()
        see((1, TOLD[1:]), resolved(found))
        see(0, resolved(found, '--take', 'theirs')[0])
        see((50, 9, 8), found.told(f'{LEFT}, map.objects["Lake"].y'))


UNMERGED = 'note: the file had nothing of what theirs has changed, as where git could not run this program; that is merged now'


def test_resolve_where_the_driver_was_killed():
    """The file is that of ours then: what theirs has changed is merged into it, and what was done by hand stays."""
    for script in ('pass', f'{INN}.x = 50\nmap.objects["Lake"].y = 8'):
        with tempfile.TemporaryDirectory() as folder:
            found = enabled(folder)
            found.git('config', 'merge.roskevad.driver', 'kill -9 $$')
            found.edit('left', f'{INN}.x = 96\nmap.stamp("Ground", 0, 0, [[7]])')
            found.edit('right', f'{INN}.x = 32\nmap.stamp("Ground", 0, 0, [[9]])\nmap.stamp("Ground", 5, 5, [[9]])\nmap.objects["key"].remove()')
            found.git('checkout', '-q', 'left')
            before = Path(found.folder, 'town.tmj').read_bytes()
            see((1, True), (found.git('merge', '--no-edit', 'right')[0], before == Path(found.folder, 'town.tmj').read_bytes()))
            with Editor(folder=found.folder) as editor:
                document = editor.open('town.tmj')
                exec(script, {'map': document})
                document.save()
            left = TOLD if script == 'pass' else TOLD[1:]
            see((1, [UNMERGED, *left]), resolved(found))
            see((1, left), resolved(found))
            see(0, resolved(found, '--take', 'theirs')[0])
            wanted = (32, 9, 9, False) if script == 'pass' else (50, 9, 9, False, 8)
            more = '' if script == 'pass' else ', map.objects["Lake"].y'
            see(wanted, found.told(f'{LEFT}, map.layers["Ground"].cells(5, 5, 1, 1)[0], "key" in map.objects{more}'))


def test_resolve_by_marks():
    """Rectangles mark what is left, in a layer above all others; who has settled a conflict removes its mark, and with the last the layer goes."""
    with tempfile.TemporaryDirectory() as folder:
        found = in_conflict(folder)
        see((1, TOLD), resolved(found, '--marks'))
        marks = '[(each.name, each.x, each.y, each.width, each.height) for each in map.layers["Conflicts"].objects]'
        inn = found.told(f'{INN}.y, {INN}.width, {INN}.height')
        names = [line.partition(': ')[2].rpartition(' ')[0] for line in TOLD]
        see([(names[0], 96, *inn), (names[1], 0, 0, 16, 16)], found.told(marks))
        see('Conflicts', found.told('[*map.layers][-1].name'))
        with Editor(folder=found.folder) as editor:
            document = editor.open('town.tmj')
            [*document.layers['Conflicts'].objects][0].remove()
            document.save()
        see((1, TOLD[1:]), resolved(found))
        see([names[1]], found.told('[each.name for each in map.layers["Conflicts"].objects]'))
        see(0, resolved(found, '--take', 'theirs')[0])
        see((96, 9, False), found.told(f'{LEFT}, "Conflicts" in map.layers'))


def test_resolve_by_answers():
    """Each conflict is asked for until it is answered; what is skipped is left."""
    with tempfile.TemporaryDirectory() as folder:
        found = in_conflict(folder)
        status, told = resolved(found, '--ask', given='s\nx\nt\n')
        see((1, TOLD[:1], (96, 9)), (status, told[-1:], found.told(LEFT)))
        see(3, '\n'.join(told).count('o ours, t theirs'))
        status, told = resolved(found, '--ask', given='')
        see((1, TOLD[:1]), (status, told[-1:]))
        see((0, [DONE]), (lambda status, told: (status, told[-1:]))(*resolved(found, '--ask', given='T\n')))
        see((32, 9), found.told(LEFT))


def test_mergetool():
    """Git takes what is settled as resolved, and what is not as it was."""
    with tempfile.TemporaryDirectory() as folder:
        found = in_conflict(folder)
        see(1, found.git('mergetool', '--no-prompt', '--tool=roskevad', 'town.tmj', given='t\nq\n')[0])
        see((True, (96, 7)), ('UU town.tmj' in found.git('status', '--short')[1], found.told(LEFT)))
        see(0, found.git('mergetool', '--no-prompt', '--tool=roskevad', 'town.tmj', given='t\no\n')[0])
        see(((32, 7), True), (found.told(LEFT), 'M  town.tmj' in found.git('status', '--short')[1]))


def test_a_map_that_both_branches_added():
    """There is none that both began with: the one or the other is taken, whole."""
    with tempfile.TemporaryDirectory() as folder:
        found = enabled(folder)
        for branch, people in (('left', 13), ('right', 14)):
            found.git('checkout', '-q', '-b', branch, 'main')
            with Editor() as editor:
                document = editor.open(MAPS / 'town.tmj')
                document.properties['people'] = people
                document.save(found.folder / 'new.tmj')
            found.commit(branch)
        status, told = found.git('merge', '--no-edit', 'left')
        see((1, True, 14), (status, 'new.tmj: conflict: map: both sides have added this map' in told, people_of(found)))
        see((1, 14), (found.roskevad('merge', '--resolve', 'new.tmj')[0], people_of(found)))
        see((0, 13), (found.roskevad('merge', '--resolve', 'new.tmj', '--take', 'theirs:map/added')[0], people_of(found)))


def people_of(found):
    with Editor(folder=found.folder) as editor:
        return editor.open('new.tmj').properties['people']


def test_lines_that_end_as_on_windows():
    """A map keeps the ends of its lines, which are no difference; git may change them where it writes a file."""
    with tempfile.TemporaryDirectory() as folder:
        found = Repository(folder)
        found.roskevad('git', '--enable')
        path = found.folder / 'town.tmj'
        path.write_bytes(path.read_bytes().replace(b'\n', b'\r\n'))
        Path(found.folder, '.gitattributes').write_text(f'{ATTRIBUTES}*.tmj -text\n')
        found.commit('Ends of lines')
        found.edit('left', f'{INN}.x = 96')
        found.edit('right', f'{INN}.y = 96')
        see((0, 'map town.tmj\n  object 2 "Inn": y 160 -> 96\n'), found.git('diff', 'main', 'right'))
        see(0, found.git('merge', '-q', '--no-edit', 'left')[0])
        data = path.read_bytes()
        see(((96, 96), True), (found.told(f'{INN}.x, {INN}.y'), data.count(b'\r\n') == data.count(b'\n') > 9))
        found.git('checkout', '-q', 'main')
        Path(found.folder, '.gitattributes').write_text(f'{ATTRIBUTES}*.tmj text eol=crlf\n')
        found.git('add', '--renormalize', '.')
        found.commit('Ends of lines by git')
        found.edit('north', f'{INN}.x = 32')
        found.edit('south', f'{INN}.y = 32')
        see(0, found.git('merge', '-q', '--no-edit', 'north')[0])
        data = path.read_bytes()
        see(((32, 32), True, ''), (found.told(f'{INN}.x, {INN}.y'), data.count(b'\r\n') == data.count(b'\n') > 9, found.git('status', '--short')[1]))


def test_git_shows_maps_as_texts():
    """Where git compares texts, as in a log, it has those of maps; of a broken map the file as it is."""
    with tempfile.TemporaryDirectory() as folder:
        found = enabled(folder)
        found.edit('left', f'{INN}.x = 96')
        _, told = found.git('log', '-p', '-1')
        see(['-  x 128', '+  x 96'], [line for line in told.splitlines() if line.startswith(('+ ', '- '))])
        see(True, 'object 2 "Inn"' in found.git('grep', '--textconv', 'object 2 ', '--', 'town.tmj')[1])
        Path(found.folder, 'town.tmj').write_text('{"broken": \n')
        found.commit('Broken')
        see(True, '+{"broken": ' in found.git('log', '-p', '-1')[1])


# ---- branches

# So many branches in the gate; by hand 300 once, of each kind of file, by ROSKEVAD_BRANCHES, which Tiled opened all.
BRANCHES = int(os.environ.get('ROSKEVAD_BRANCHES', 4))


def branches(folder, count, seed, opened, name='town.tmj'):
    """A repository in which so many branches with random edits are merged, rebased, picked and reverted, each in one of these ways in turn; what is
    in conflict is taken of theirs. `opened` is called with the map behind each. Gives how many there were without a conflict."""
    found, chosen, clean = enabled(folder, name), random.Random(seed), 0
    path = found.folder / name
    for number in range(count):
        found.git('checkout', '-q', '-b', f'branch{number}', f'main~{chosen.randint(0, 3)}' if number > 4 else 'main')
        with Editor() as editor:
            document = editor.open(path)
            history(chosen, document, 5, (), name[-3:])
            document.save(path)
        found.git('commit', '-q', '-a', '--allow-empty', '-m', f'Branch {number}')
        way = ('merge', 'rebase', 'pick', 'revert')[number % 4]
        if way == 'rebase':
            status, told = found.git('rebase', 'main')
            clean += settled(found, status, told, ('-c', 'core.editor=true', 'rebase', '--continue'))
            found.git('checkout', '-q', 'main')
            status, told = found.git('merge', '-q', '--ff-only', f'branch{number}')
            see(0, status)
        else:
            found.git('checkout', '-q', 'main')
            words = ('merge', '--no-edit') if way == 'merge' else ('cherry-pick', '--allow-empty', '--keep-redundant-commits')
            status, told = found.git(*words, f'branch{number}')
            clean += settled(found, status, told, ('commit', '-q', '--allow-empty', '--no-edit'))
        if way == 'revert':
            status, told = found.git('revert', '--no-edit', 'HEAD')
            clean += settled(found, status, told, ('commit', '-q', '--allow-empty', '-m', 'Reverted'))
        see('', found.git('status', '--short')[1])
        with Editor() as editor:
            editor.open(path)
        opened(path)
    return clean


def settled(found, status, told, then):
    """Whether git has stopped at no conflict; where it has, theirs is taken."""
    if status == 0:
        return 1
    if f'{found.name}: conflict: ' not in told:
        assert 'nothing to commit' in told or 'is now empty' in told or 'nothing added' in told, told
        found.git('commit', '-q', '--allow-empty', '--no-edit')
        return 1
    status, told, fault = found.roskevad('merge', '--resolve', found.name, '--take', 'theirs')
    assert status in (0, 1) and not fault, fault
    found.git('add', found.name)
    status, told = found.git(*then)
    see(0, status)
    return 0


def see_in_tiled(path):
    """That Tiled opens a map."""
    goal = path.parent.parent / 'opened.json'
    tiled_package.export('json', path, goal)
    assert goal.exists(), f'Tiled does not open {path}'
    goal.unlink()


def test_branches():
    with tempfile.TemporaryDirectory() as folder:
        branches(folder, BRANCHES, 20261201, opened=see_in_tiled)
