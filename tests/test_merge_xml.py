# SPDX-License-Identifier: MIT OR Apache-2.0
"""Tells what differs between maps in XML, and brings two sides of one together: 40 random pairs by the checker of `merge`, of which real Tiled
exports what the editor saves as JSON. A line of the file that no change touches stays byte for byte; the members of classes keep their types;
and git merges, compares and settles `.tmx` files by the package."""
import difflib
import json
import sys
import tempfile
from pathlib import Path

from lib import tiled_package
from lib.cases import Case, check_in_processes, see, unlike
from lib.merges import Table
from lib.places import TOP
from lib.repositories import MAPS, command, enabled, saved
from test_merge import SEED, done, fault_of, merged_files, pair, tree_of, without_notes
from test_merge_git import BRANCHES, branches, see_in_tiled

sys.path.insert(0, str(TOP / 'python'))
from roskevad import Editor  # noqa: E402

PACKAGES = ('tiled',)
PAIRS, OF_TILED, MOST = 40, 10, 10
INN = 'map.objects["Inn"]'


def town(script='pass', file='town.tmj'):
    """A map of the examples in XML, with edits."""
    with Editor() as editor:
        document = editor.open(MAPS / file, 'map')
        exec(script, {'map': document})
        data = document.save_bytes(kind='tmx')
        done(editor)
        return data


def changed_lines(one, other):
    """The lines of two files that differ, each behind `-` or `+`."""
    lines = ([line.strip() for line in data.decode().splitlines()] for data in (one, other))
    return [line for line in difflib.unified_diff(*lines, n=0, lineterm='') if line[:2] not in ('--', '++', '@@')]


# ---- the file


def test_lines_of_the_file():
    """Lines that no change touches are those of ours, however they are spelled: with comments, tabs, other quotes and ends of lines."""
    base = town()
    ours = base.replace(b'\n', b'\r\n').replace(b' <layer id="1"', b'\t<!-- The ground -->\r\n\t<layer  id=\'1\'')
    theirs = town('map.stamp("Ground", 0, 0, [[7]])\nmap.objects["Inn"].x = 96')
    with Editor() as editor:
        documents = [editor.open(data, name) for name, data in (('base', base), ('ours', ours), ('theirs', theirs))]
        see([], [*documents[0].difference(documents[1])])
    found, result, _, after = merged_files(base, ours, theirs)
    see(((), ours), (found.conflicts, after))
    old, new = ours.split(b'\r\n'), result.split(b'\r\n')
    see((len(old), 2), (len(new), sum(one != other for one, other in zip(old, new))))
    see([True, True], [any(part in line for line in new) for part in (b'<!-- The ground -->', b"<layer  id='1'")])


def test_kinds():
    """What is written is of ours' kind, whatever the names are; a map in JSON is the same as one in XML."""
    with tempfile.TemporaryDirectory() as folder:
        (Path(folder) / 'base.tmj').write_bytes((MAPS / 'town.tmj').read_bytes())
        (Path(folder) / 'ours.xml').write_bytes(town(f'{INN}.x = 96'))
        saved(folder, 'theirs.tmj', f'{INN}.y = 96')
        names = [Path(folder) / name for name in ('base.tmj', 'ours.xml', 'theirs.tmj')]
        see((0, '', ''), command('merge', *names, '-o', Path(folder) / 'out.tmj'))
        see(town(f'{INN}.x = 96\n{INN}.y = 96'), (Path(folder) / 'out.tmj').read_bytes())
        see((0, '', ''), command('merge', names[0], names[2], names[1], '-o', Path(folder) / 'out.tmx'))
        see(json.loads((MAPS / 'town.tmj').read_bytes())['layers'][0], json.loads((Path(folder) / 'out.tmx').read_bytes())['layers'][0])
        see((1, 'object 2 "Inn": x 128 -> 96\n', ''), command('diff', *names[:2]))
        see((0, '', ''), command('diff', Path(folder) / 'out.tmj', Path(folder) / 'out.tmx'))
        status, lines, _ = command('diff', '--lines', *names[1:])
        see((1, '# all edits, all maps\nmember put object:2 {"x":128,"y":96}\n'), (status, lines))
        text = command('diff', '--text', names[1])[1]
        see(True, 'object 2 "Inn"\n' in text and '  x 96\n' in text)


def test_what_xml_cannot_say():
    """A merge that has it is refused, and no file changes."""
    with tempfile.TemporaryDirectory() as folder:
        names = [Path(folder) / f'{name}.tmx' for name in ('base', 'ours', 'theirs')]
        for path in names[:2]:
            path.write_bytes(town())
        names[2].write_bytes(saved(folder, 'theirs.tmj', 'map.members["own"] = 5').read_bytes())
        status, told, fault = command('merge', *names, '-o', names[1])
        see((2, '', True, town()), (status, told, "it has what XML can't say" in fault, names[1].read_bytes()))
        names[2].write_bytes(b'<map')
        status, told, fault = command('merge', *names, '-o', names[1])
        see((2, '', True, town()), (status, told, 'theirs.tmx' in fault, names[1].read_bytes()))


# ---- classes

LINK = '''<properties>
  <property name="link" type="class" propertytype="Link">
   <properties>
    <property name="at" type="object" value="{}"/>
    <property name="by" type="int" value="{}"/>
    <property name="far" type="float" value="{}"/>
    <property name="in" type="class" propertytype="Inner">
     <properties>
      <property name="tint" type="color" value="#ff00ff00"/>
      <property name="to" type="object" value="{}"/>
     </properties>
    </property>
    <property name="tint" {}value="#ff00ff00"/>
   </properties>
  </property>
'''
OF_OURS, OF_THEIRS = ('{} = map.layers["Things"].objects.add("{}", 8, 8)'.format(*each) for each in (('a', 'mine'), ('a', 'other')))


def linked(at=1, by=2, far=3, to=0, tint='type="color" ', script='pass'):
    """The town in XML, with a property of a class."""
    return town(script).replace(b'<properties>\n', LINK.format(at, by, far, to, tint).encode(), 1)


def test_types_of_members():
    """A member of a class keeps its type where another one is changed, on either side, and in lines."""
    base, ours, theirs = linked(), linked(by=5), linked(far=2.5, to=1)
    found, result, _, _ = merged_files(base, ours, theirs)
    see(((), linked(by=5, far=2.5, to=1)), (found.conflicts, result))
    see(linked(far=2.5), merged_files(base, base, linked(far=2.5))[1])
    found = merged_files(base, linked(by=5), linked(by=6))[0]
    see(['map: property link: by 2 -> 5 (ours), 6 (theirs)'], list(map(str, found.conflicts)))
    with Editor() as editor:
        one, other = editor.open(base, 'one'), editor.open(theirs, 'other')
        lines = one.difference(other).lines
        editor.active = one
        editor.run_lines(lines)
        see(theirs, one.save_bytes())


def test_types_of_the_same_values():
    """That a member has another type alone is no change; and a map in JSON, which has none, takes none away."""
    base = linked()
    found, result, _, _ = merged_files(base, linked(by=5), linked(tint=''))
    see(((), linked(by=5)), (found.conflicts, result))
    with Editor() as editor:
        document = editor.open(linked(by=5, to=1))
        theirs = json.dumps(without_notes(json.loads(document.save_bytes(kind='json')))).encode()
    found, result, _, _ = merged_files(base, linked(far=2.5), theirs)
    see(((), linked(by=5, far=2.5, to=1)), (found.conflicts, result))


def test_references_of_classes():
    """Members that mean objects are known by their types: they get the new id of what theirs has added, and numbers do not."""
    ours, theirs = linked(script=OF_OURS), linked(at=7, by=7, to=7, script=OF_THEIRS)
    found, result, _, _ = merged_files(linked(), ours, theirs)
    see(((), ('object 7 "other" of theirs has the id 8 now',)), (found.conflicts, found.notices))
    see(linked(at=8, by=7, to=8).split(b'</properties>')[1], result.split(b'</properties>')[1])


# ---- random histories


def fault_of_pair(case):
    return fault_of(case.given, MOST, kind='tmx')


def test_pairs_of_histories():
    check_in_processes([Case(f'pair {seed}', seed, None) for seed in range(SEED, SEED + PAIRS)], fault_of_pair)


def fault_of_lines(case):
    """Lines lead from a map to one with random edits: its file has what the other one has, with all types of members."""
    data, sides, _ = pair(case.given, MOST, 'tmx')
    with Editor() as editor:
        one, other = editor.open(data, 'one'), editor.open(sides[0], 'other')
        found = one.difference(other)
        if found.lines is None:
            return None if found.left else 'no lines, and nothing is left'
        editor.active = one
        editor.run_lines(found.lines)
        trees = [json.loads(editor.open(document.save_bytes()).save_bytes(kind='json')) for document in (one, other)]
        return unlike(*(json.dumps(tree, sort_keys=True) for tree in trees))


def test_lines():
    check_in_processes([Case(f'pair {seed}', seed, None) for seed in range(SEED, SEED + PAIRS)], fault_of_lines)


def fault_of_export(case):
    """What Tiled exports of a merged map is what the editor saves of it as JSON. Tiled without a window knows no classes, and drops their members."""
    data, sides, _ = pair(case.given, MOST, 'tmx')
    result = merged_files(*map(without_classes, (data, *sides)))[1]
    with tempfile.TemporaryDirectory() as folder:
        for path in (*MAPS.glob('*.ts?'), *MAPS.glob('*.png')):
            (Path(folder) / path.name).write_bytes(path.read_bytes())
        path = Path(folder) / 'merged.tmx'
        path.write_bytes(result)
        came = tiled_package.exported(path, Path(folder), 'merged.tmj')
    return 'Tiled does not load it' if came is None else unlike(facts(tree_of(result)), facts(json.loads(came)))


def facts(tree):
    """What a map has, with its tiles by their tilesets, since Tiled counts first ids anew. Older Tiled knows no class of a map."""
    table = Table(tree)
    table.rows['map'].pop('class', None)
    return sorted(map(repr, table.rows.items())), sorted(map(repr, table.cells.items())), dict(table.children), sorted(table.named)


def without_classes(data):
    with Editor() as editor:
        document = editor.open(data, 'side')
        for owner in (document, *document.layers.walk(), *document.objects):
            for name in [name for name in owner.properties if name == 'link' or owner.properties.type_of(name) == 'class']:
                del owner.properties[name]
        found = document.save_bytes()
        done(editor)
        return found


def test_tiled_opens_what_is_merged():
    check_in_processes([Case(f'pair {seed}', seed, None) for seed in range(SEED, SEED + OF_TILED)], fault_of_export)


# ---- in git

WHERE = f'{INN}.x, {INN}.y, map.layers["Ground"].cells(0, 0, 1, 1)[0]'
CONFLICT = 'object 2 "Inn": x 128 -> 96 (ours), 32 (theirs)'


def test_git():
    """It merges, rebases and reverts them, tells what differs, and stops where both have changed one thing."""
    with tempfile.TemporaryDirectory() as folder:
        found = enabled(folder, 'town.tmx')
        found.edit('left', f'{INN}.x = 96')
        found.edit('right', f'{INN}.y = 96\nmap.stamp("Ground", 0, 0, [[7]])')
        found.edit('other', f'{INN}.x = 32')
        see((0, 'map town.tmx\n  object 2 "Inn": x 128 -> 96\n'), found.git('diff', 'main', 'left'))
        _, told = found.git('log', '-p', '-1', 'left')
        see(['-  x 128', '+  x 96'], [line for line in told.splitlines() if line.startswith(('+ ', '- '))])
        found.git('checkout', '-q', 'left')
        see(0, found.git('merge', '-q', '--no-edit', 'right')[0])
        see((96, 96, 7), found.told(WHERE))
        see(True, found.git('show', 'HEAD:town.tmx')[1].startswith('<?xml '))
        status, told = found.git('merge', '--no-edit', 'other')
        see((1, True), (status, f'town.tmx: conflict: {CONFLICT}' in told))
        see((1, f'conflict: {CONFLICT} [object:2/x]\n', ''), found.roskevad('merge', '--resolve', 'town.tmx'))
        see(0, found.roskevad('merge', '--resolve', 'town.tmx', '--take', 'theirs:object:2/x')[0])
        see(((32, 96, 7), True), (found.told(WHERE), (found.folder / 'town.tmx').read_bytes().startswith(b'<?xml ')))
        found.git('add', 'town.tmx')
        see(0, found.git('commit', '-q', '--no-edit')[0])
        found.git('checkout', '-q', '-B', 'moved', 'right')
        see(0, found.git('rebase', '-q', 'other')[0])
        see((32, 96, 7), found.told(WHERE))
        see(0, found.git('revert', '--no-edit', 'other')[0])
        see((128, 96, 7), found.told(WHERE))


def test_branches():
    with tempfile.TemporaryDirectory() as folder:
        branches(folder, BRANCHES, SEED, see_in_tiled, 'town.tmx')


def test_git_where_texts_were_merged():
    """A file in which git has marked a conflict, since it was not told to run the package, is settled as a map all the same; and a check tells
    what is in no result."""
    with tempfile.TemporaryDirectory() as folder:
        found = enabled(folder, 'town.tmx')
        found.git('config', '--remove-section', 'merge.roskevad')
        found.edit('left', f'{INN}.x = 96')
        found.edit('other', f'{INN}.x = 32\nmap.stamp("Ground", 0, 0, [[7]])')
        found.git('checkout', '-q', 'left')
        see(1, found.git('merge', '--no-edit', 'other')[0])
        see(True, b'<<<<<<<' in (found.folder / 'town.tmx').read_bytes())
        see(1, found.roskevad('merge', '--resolve', 'town.tmx')[0])
        see((96, 160, 7), found.told(WHERE))
        found.git('add', 'town.tmx')
        found.git('commit', '-q', '--no-edit')
        for name, version in (('base', 'main'), ('ours', 'left~1'), ('theirs', 'other')):
            (found.folder / f'{name}.tmx').write_text(found.git('show', f'{version}:town.tmx')[1])
        words = 'merge', '--check', 'base.tmx', 'ours.tmx', 'theirs.tmx'
        see((0, '', ''), found.roskevad(*words, 'town.tmx'))
        see((1, 'not as merged: layer 1 "Ground": 1 cell in 0,0 to 0,0: tiles.tsx:6 -> tiles.tsx:0\n', ''), found.roskevad(*words, 'ours.tmx'))
