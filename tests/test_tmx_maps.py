# SPDX-License-Identifier: MIT OR Apache-2.0
"""Opens, edits, undoes and saves maps in XML: Tiled's own examples, the example maps, and 100 maps by chance, all as Tiled writes them. They come
back byte for byte through `tile_editor --all-maps`, the Python package and the one for JavaScript. After an edit of each kind Tiled exports of
the saved map what the editor saves as JSON, and the map without its edit has the bytes of before.

Then the traps of the format, spellings that no program of ours writes, 2,000 damaged files, each answered within bounds of time and memory, and
which kind a file is saved as. All is from a fixed seed."""
import json
import random
import re
import resource
import subprocess
import sys
import tempfile
from pathlib import Path

from lib import tiled_package
from lib.asides import OPTION
from lib.cases import CORES, Case, check_each, fail_with, in_processes, passed, see, unlike
from lib.compressions import with_cells
from lib.places import EXAMPLE_MAPS, IN_MEMORY, MAP_REPORT, TILE_EDITOR, TOP
from lib.random_tmx import some_map
from lib.xml_edits import ALL as EDITS
from module.node import ran

sys.path.insert(0, str(TOP / 'python'))
from roskevad import Editor, Refused  # noqa: E402

IS_LONG = True
PACKAGES = ('nodejs', 'tiled')
SEED, RANDOM_MAPS, EDITS_OF_MAP, DAMAGED, DAMAGED_OF_RUN, SECONDS = 20261201, 100, 4, 2000, 50, 120
# The bytes of memory that an opening of a damaged map may take.
MEMORY = 512 * 2**20
NOTE = 'roskevad_tmx'
# Where the chunks of a layer lie, which Tiled counts by blocks of its own.
BOUNDS = ('startx', 'starty', 'width', 'height')
# Tiled without a window knows no classes, and drops their members.
CLASSES = b'type="class"'
NO_TMX = "it has what XML can't say: save it as JSON, or undo that"


# ---- maps


def as_tiled_writes(source, goal):
    """Whether Tiled writes a map anew, in XML."""
    tiled_package.export('tmx', source, goal)
    return goal.exists()


def sources(folder):
    """The files of maps as Tiled writes them in XML, each beside its tilesets."""
    top = Path(folder)
    found = []
    for path in tiled_package.unpacked(top / 'examples'):
        goal = path.with_name(f'{path.stem}_again.tmx')
        found += [goal] if as_tiled_writes(path, goal) else []
    for name in ('maps', 'chance'):
        (top / name).mkdir()
        for path in EXAMPLE_MAPS.iterdir():
            (top / name / path.name).write_bytes(path.read_bytes())
    for path in sorted((top / 'maps').glob('*.tmj')):
        goal = path.with_suffix('.tmx')
        found += [goal] if as_tiled_writes(path, goal) else []
    for number in range(RANDOM_MAPS):
        path = top / 'chance' / f'given_{number}.tmx'
        path.write_bytes(some_map(random.Random(f'{SEED} {number}')))
        goal = top / 'chance' / f'{number}.tmx'
        assert as_tiled_writes(path, goal), f'Tiled does not write map {number}'
        found.append(goal)
    # What Zstandard packs is refused.
    found = [path for path in found if b'"zstd"' not in path.read_bytes()]
    assert len(found) > RANDOM_MAPS + 30, f'{len(found)} maps'
    return found


def cases_of(paths):
    return [Case(f'{path.parent.name}/{path.name}', path, None) for path in paths]


def played(folder, *lines, **more):
    """The replies to lines, and what is said on standard error."""
    text = ''.join(f'{line}\n' for line in lines).encode()
    words = [TILE_EDITOR, OPTION, '--all-edits', '--folder', folder]
    done = subprocess.run(words, input=text, capture_output=True, timeout=SECONDS, **more)
    return done.stdout.decode().split('\n')[:-1], done.stderr.decode()


# ---- bytes


def fault_of_bytes(case):
    """Saved as it is, and behind an undo, a file has the bytes that it had; by the program and by Python."""
    path, data = case.given, case.given.read_bytes()
    lines = f'open m {path.name}', f'save {path.name}', 'prop set map a int 1', 'undo', f'save {path.name}'
    replies, errors = played(path.parent, *lines)
    if any(reply.startswith('no ') for reply in replies) or len(replies) != len(lines):
        return f'came {replies} {errors}'
    fault = unlike(data, path.read_bytes())
    if fault:
        return f'by the program: {fault}'
    with Editor() as editor:
        document = editor.open(data)
        document.properties['a'] = 1
        document.undo()
        return unlike(data, document.save_bytes())


def test_bytes():
    with tempfile.TemporaryDirectory() as folder:
        paths = sources(folder)
        check_each(cases_of(paths), fault_of_bytes, CORES)
        for each in sorted({path.parent for path in paths}):
            names = [path.name for path in paths if path.parent == each]
            ran('save_maps.mjs', each, *names)
            for name in names:
                see((each / name).read_bytes(), (each / f'saved_{name}').read_bytes())
                passed()


# ---- edits


def without_notes(value):
    """A tree as Tiled's export has it: no notes of ours, and cells by their places, since Tiled cuts chunks anew."""
    if isinstance(value, list):
        return [without_notes(each) for each in value]
    if not isinstance(value, dict):
        return tiled_package.as_exported(value)
    told = {name: without_notes(each) for name, each in value.items() if name not in (NOTE, 'tiledversion', 'version')}
    if 'chunks' in told:
        told = {name: each for name, each in told.items() if name not in BOUNDS}
        told['chunks'] = {
            (chunk['x'] + at % chunk['width'], chunk['y'] + at // chunk['width']): cell
            for chunk in told['chunks'] for at, cell in enumerate(chunk['data']) if cell
        }
    if 'properties' in told:
        told['properties'] = sorted(told['properties'], key=lambda each: each['name'])
    return told


def fault_of_edits(case):
    """What Tiled exports of an edited map that was saved as XML is what the editor saves of it as JSON."""
    path, chosen = case.given, random.Random(f'{SEED} {case.name}')
    data = path.read_bytes()
    if CLASSES in data:
        return None
    for edit in chosen.sample(EDITS, EDITS_OF_MAP):
        with Editor() as editor:
            document = editor.open(data)
            if not edit(document, chosen):
                continue
            edited = path.with_name(f'edited_{path.name}')
            edited.write_bytes(document.save_bytes())
            wanted = json.loads(document.save_bytes(kind='json'))
        came = tiled_package.exported(edited, path.parent, f'edited_{path.stem}.tmj')
        if came is None:
            return f'{edit.__name__}: Tiled does not load it'
        fault = unlike(without_notes(with_cells(wanted)), without_notes(with_cells(json.loads(came))))
        if fault:
            return f'{edit.__name__}: {fault}'
    return None


def test_edits():
    with tempfile.TemporaryDirectory() as folder:
        check_each(cases_of(sources(folder)), fault_of_edits, CORES)


# ---- kinds

HEAD = '<map version="1.8" orientation="orthogonal" renderorder="right-down" width="2" height="1" tilewidth="16" tileheight="16" infinite="0"'
GROUND = '<layer id="1" name="Ground" width="2" height="1"><data encoding="csv">{}</data></layer>'
TILES = '<tileset firstgid="1" source="tiles.tsx"/>'


def text(inside, head=HEAD):
    return f'<?xml version="1.0" encoding="UTF-8"?>\n{head} nextlayerid="9" nextobjectid="9">{inside}</map>\n'.encode()


SMALL = text(TILES + GROUND.format('1,2'))
OBJECT = '<objectgroup id="2"><object id="1" {}</objectgroup>'
THING = OBJECT.format('x="8" y="0.5"/>').replace('id="2"', 'id="2" name="Things"')


def kept(files, *lines):
    """The replies, what is said on standard error, and the files of a folder behind them."""
    with tempfile.TemporaryDirectory(dir=IN_MEMORY) as folder:
        for name, data in files.items():
            (Path(folder) / name).write_bytes(data)
        replies, errors = played(folder, *lines)
        return replies, errors.replace(folder, ''), {path.name: path.read_bytes() for path in Path(folder).iterdir()}


def test_kinds():
    """A save keeps the kind of the file that it replaces. Under a new name `.tmx` is XML, and each other one JSON."""
    stamped = SMALL.replace(b'>1,2<', b'>3,2<')
    lines = 'open m a.tmx', 'stamp 1 0 0 1 3', 'save a.tmx', 'save b.tmj', 'save c.TMX', 'save d', 'save e.tmj'
    replies, errors, files = kept({'a.tmx': SMALL, 'e.tmj': SMALL}, *lines)
    see('', errors)
    see(True, all(reply.startswith('saved') for reply in replies[2:]))
    see(stamped, files['a.tmx'])
    see([True, False, True, False, True], [files[name].startswith(b'<') for name in ('a.tmx', 'b.tmj', 'c.TMX', 'd', 'e.tmj')])
    see([3, 2], json.loads(files['b.tmj'])['layers'][0]['data'])
    see({'format': 'csv', 'version': '1.8'}, json.loads(files['b.tmj'])[NOTE])
    # And back: what JSON has is the map, with what it could not say.
    replies, errors, again = kept({'b.tmj': files['b.tmj']}, 'open m b.tmj', 'save b.tmx', 'open n b.tmx', 'save c.tmj')
    see('', errors)
    see(True, b'version="1.8"' in again['b.tmx'])
    see(json.loads(files['b.tmj']), json.loads(again['c.tmj']))


def test_unsaid():
    """What XML can't say is refused by its name, and no file changes."""
    line = 'member set map own 5'
    replies, errors, files = kept({'a.tmx': SMALL}, 'open m a.tmx', line, 'save a.tmx', 'save b.tmx', 'save b.tmj', 'undo', 'save c.tmx')
    see(['no 51 store failed'] * 2, replies[2:4])
    see(f'tile_editor: /a.tmx: in own {NO_TMX}\ntile_editor: /b.tmx: in own {NO_TMX}\n', errors)
    see({'a.tmx', 'b.tmj', 'c.tmx'}, set(files))
    see(SMALL, files['a.tmx'])
    for data, owner, place in ((SMALL, lambda document: document, 'own'), (text(GROUND.format('1,2') + THING), thing_of, 'layers[1].objects[0].own')):
        with Editor() as editor:
            document = editor.open(data)
            owner(document).members['own'] = 5
            try:
                document.save_bytes()
            except Refused as refusal:
                see((51, f'in {place} {NO_TMX}'), (refusal.code, refusal.why))
            else:
                raise AssertionError('it was saved')


def thing_of(document):
    return document.objects[1]


# ---- faults

# What a file is, what is said of it, and where it ceases to be XML.
FAULTS = {
    'no end': (b'<map>\n <layer', 'a tag is spelled wrong', '2:7'),
    'two of a name': (b'<map a="1" a="2"/>', 'an element has an attribute twice', None),
    'an entity': (b'<!DOCTYPE map [<!ENTITY a "b">]><map/>', 'a DOCTYPE with a subset or a public name, or one that is spelled wrong', None),
    'another encoding': (b'<?xml version="1.0" encoding="latin1"?><map/>', 'its encoding is not UTF-8', None),
    'behind the map': (SMALL + b'<map/>', 'something stands behind its root', None),
    'no UTF-8': (b'<a>\xff</a>', 'no XML in UTF-8', '1:4'),
    'a control character': (b'<a>\x01</a>', 'a character that XML forbids', '1:4'),
    'U+FFFF': ('<a>\uffff</a>'.encode(), 'a character that XML forbids', '1:4'),
    'XML 1.1': (b'<?xml version="1.1"?><a/>', 'its XML declaration is not of version 1.0, or is spelled wrong', '1:6'),
    'two dashes': (b'<!-- a -- b --><a/>', 'a comment with "--" in it, or with no end', '1:10'),
    'an instruction': (b'<a><?XML b?></a>', 'a processing instruction named "xml", or with no end', '1:6'),
    'no name': (b'<1/>', 'a name is missing', '1:2'),
    'no blank': (b'<a b="c"d="e"/>', 'a tag is spelled wrong', '1:9'),
    'an opened value': (b'<a b="<"/>', 'an attribute is spelled wrong', '1:4'),
    'an entity of HTML': (b'<a>&nbsp;</a>', 'an entity that is none of the five, or no character', '1:5'),
    'half a character': (b'<a>&#xD800;</a>', 'an entity that is none of the five, or no character', '1:5'),
    'an open section': (b'<a><![CDATA[b</a>', 'a CDATA section with no end', '1:13'),
    'the end of a section': (b'<a>b]]></a>', '"]]>" in a text', '1:4'),
    'another end': (b'<a><b></a></b>', 'the end tag of another element', '1:9'),
    'no end tag': (b'<a>b', 'an element with no end', '1:4'),
    'no root': (b'<!-- a -->', 'there is no element, or something stands before it', None),
    'before the root': (b'<!-- a -->b<a/>', 'there is no element, or something stands before it', '1:11'),
    '64 deep': (b'<a>' * 64 + b'</a>' * 64, 'its root is no map', ''),
    '65 deep': (b'<a>' * 65 + b'</a>' * 65, 'elements nest deeper than 64', '1:194'),
    'a tileset': (b'<tileset/>', 'its root is no map', ''),
    'another orientation': (SMALL.replace(b'orthogonal', b'round'), 'its orientation is none that Tiled knows', ''),
    'a cell less': (SMALL.replace(b'1,2', b'1'), 'the data of a layer are not a number for each cell, or are more than 16,777,216', ''),
}


def test_faults():
    """A file that is none is refused as 51, by what is wrong with it, and where."""
    for name, (data, words, place) in FAULTS.items():
        replies, errors, _ = kept({'a.tmx': data}, 'open m a.tmx')
        see(['no 51 store failed'], replies)
        said = re.fullmatch(r'tile_editor: /a\.tmx: (.*?)(?:: line (\d+), column (\d+))?\n', errors)
        assert said and said[1] == words, f'{name}: {errors}'
        at = f'{said[2]}:{said[3]}' if said[2] else ''
        assert place is None and at or place == at, f'{name}: {at}'
        told = json.loads(report('--json', '--all-maps', data=data))['refused']
        see((51, words, bool(at)), (told['code'], told['reason'], bool(told['places'])))
        passed()


def report(*words, data=None, name='-'):
    done = subprocess.run([MAP_REPORT, *words, name], input=data, capture_output=True, timeout=SECONDS)
    return done.stdout.decode()


def test_report():
    """It opens XML with its option, and without says that it would; and it tells where a name and its file disagree."""
    see('-: no 60 not JSON: line 1, column 1\n  with --all-maps the editor opens this map\n', report(data=SMALL))
    see('-: 2 by 1 cells of 16 by 16 pixels, next layer 9, next object 9', report('--all-maps', data=SMALL).split('\n')[0])
    with tempfile.TemporaryDirectory(dir=IN_MEMORY) as folder:
        for name, data, words in (
            ('a.tmx', b'{}', 'its name ends in .tmx, and it is no XML'), ('a.tmj', SMALL, 'its name says JSON, and it is XML'), ('b.tmx', SMALL, None),
        ):
            path = Path(folder) / name
            path.write_bytes(data)
            see(words is not None, report('--all-maps', name=path).endswith(f'\n  {words}\n'))
            see(words, json.loads(report('--all-maps', '--json', name=path)).get('differs'))


# ---- traps

# The attribute of an object or a property, and the member of its JSON.
TRAPS = {
    'six digits': (OBJECT.format('x="123456789" y="0.1"/>'), ('layers', 0, 'objects', 0, 'x'), 123456789),
    'an exponent': (OBJECT.format('x="1.5e+2" y="0"/>'), ('layers', 0, 'objects', 0, 'x'), 150),
    'minus zero': (OBJECT.format('x="-0" y="0"/>'), ('layers', 0, 'objects', 0, 'x'), 0),
    'lines in a value': (
        '<properties><property name="a">one\n two</property></properties>', ('properties', 0, 'value'), 'one\n two',
    ),
    'entities': ('<properties><property name="a" value="&lt;&#x41;&amp;&quot;"/></properties>', ('properties', 0, 'value'), '<A&"'),
    'a CDATA section': ('<properties><property name="a">1\n<!-- b --><![CDATA[<&]]></property></properties>', ('properties', 0, 'value'), '1\n<&'),
    'a tab in a value': ('<properties><property name="a" value="1\t2&#9;3&#x1F600;"/></properties>', ('properties', 0, 'value'), '1 2\t3\U0001f600'),
    'ends of lines': ('<properties><property name="a">x\r\ny\rz&quot;</property></properties>', ('properties', 0, 'value'), 'x\ny\nz"'),
    'ends of lines in a value': ("<properties><property name='a' value='1\r\n2\r3'/></properties>", ('properties', 0, 'value'), '1 2 3'),
    'a short color': (
        '<properties><property name="a" type="color" value="#336699"/></properties>', ('properties', 0, 'value'), '#ff336699',
    ),
    'a class': (
        '<properties><property name="a" type="class" propertytype="Door"><properties><property name="open" type="bool" value="true"/></properties>'
        '</property></properties>', ('properties', 0, 'value'), {'open': True},
    ),
    'no id': ('<layer name="a" width="2" height="1"><data encoding="csv">0,0</data></layer>', ('layers', 0, 'id'), 9),
    'a DOCTYPE': ('', ('width',), 2),
    'a byte order mark': ('', ('width',), 2),
}


def test_traps():
    """What was read, and the very bytes behind an undo; and with another property the rest of them."""
    for name, (inside, path, wanted) in TRAPS.items():
        data = text(inside)
        if name == 'a DOCTYPE':
            data = data.replace(b'?>\n', b'?>\r\n<!DOCTYPE map SYSTEM "http://mapeditor.org/dtd/1.0/map.dtd">\r\n')
        if name == 'a byte order mark':
            data = '\ufeff'.encode() + data.replace(b'"UTF-8"', b"'utf-8' standalone='yes' ")
        with Editor() as editor:
            document = editor.open(data)
            document.properties['zzz'] = 1
            document.undo()
            see(data, document.save_bytes())
            came = json.loads(document.save_bytes(kind='json'))
            for step in path:
                came = came[step]
            assert came == wanted, f'{name}: {came!r}'
        passed()


# An edit, the bytes that it changes, and what they are then.
CHANGES = {
    'a cell': (lambda document: document.stamp('Ground', 1, 0, [[7]]), '1,2', '1,7'),
    'a place': (lambda document: setattr(document.objects[1], 'x', 123456.5), 'x="8"', 'x="123456.5"'),
    'a name': (lambda document: setattr(document.layers['Things'], 'name', 'A & "B"'), '"Things"', '"A &amp; &quot;B&quot;"'),
}


def test_changes():
    """A save over a file changes the bytes of what changed, and no others."""
    given = text(TILES + GROUND.format('1,2') + THING)
    for name, (edit, old, new) in CHANGES.items():
        with Editor() as editor:
            document = editor.open(given)
            edit(document)
            see((name, given.replace(old.encode(), new.encode())), (name, document.save_bytes()))


def test_types_of_members():
    """Members of a class keep their types where another one is set, unless a value is of another type."""
    members = '<property name="at" type="object" value="{}"/><property name="far" type="float" value="{}"/>{}'
    link = '<properties><property name="link" type="class" propertytype="Link"><properties>{}</properties></property></properties>'
    inner = '<property name="in" type="class" propertytype="In"><properties><property name="tint" type="color" value="{}"/></properties></property>'
    data = text(link.format(members.format(1, 2, inner.format('#ff00ff00'))))
    for value, wanted in (
        ({'at': 3, 'far': 2, 'in': {'tint': '#ff00ff00'}}, members.format(3, 2, inner.format('#ff00ff00'))),
        ({'at': 1, 'far': 2.5, 'in': {'tint': '#ffff0000'}}, members.format(1, 2.5, inner.format('#ffff0000'))),
        ({'at': 'one', 'far': 2}, members.format(1, 2, '').replace('type="object" value="1"', 'value="one"')),
    ):
        with Editor() as editor:
            document = editor.open(data)
            document.properties['link'] = value
            see(without_blanks(text(link.format(wanted))), without_blanks(document.save_bytes()))


def without_blanks(data):
    return re.sub(rb'>\s+<', b'><', data)


# ---- damaged files


def damaged(chosen, data):
    """A file with a change: other bytes, parts that are gone, come again or are put in, or another end."""
    given, way, at = bytearray(data), chosen.randrange(6), chosen.randrange(len(data))
    if way == 0:
        for _ in range(chosen.randint(1, 3)):
            given[chosen.randrange(len(given))] = chosen.choice(b'<>&"\'/=0 \nax\xff\x00')
    elif way == 1:
        del given[at:]
    elif way == 2:
        del given[at:at + chosen.randint(1, 40)]
    elif way == 3:
        given[at:at] = given[at:at + chosen.randint(1, 200)]
    elif way == 4:
        given[at:at] = chosen.choice((b'<a>', b'</layer>', b'&amp;', b'&x;', b'<![CDATA[', b'<!--', b'99999999999', b'-1'))
    else:
        given += chosen.choice((b'<map/>', b'x', b'\n<!-- a -->', b'\x00'))
    return bytes(given)


def bounded():
    resource.setrlimit(resource.RLIMIT_AS, (MEMORY, MEMORY))


def faults_of_damaged(first):
    """Each file is answered within its bounds; where it is opened, it is saved with the very bytes."""
    faults = []
    with tempfile.TemporaryDirectory(dir=IN_MEMORY) as folder:
        for number in range(first, first + DAMAGED_OF_RUN):
            chosen = random.Random(f'{SEED} damaged {number}')
            data = damaged(chosen, some_map(chosen))
            path = Path(folder) / 'm.tmx'
            path.write_bytes(data)
            replies, _ = played(folder, 'open m m.tmx', 'save m.tmx', preexec_fn=bounded)
            if not replies or replies[0].startswith('no 9'):
                faults.append(f'damaged map {number}: came {replies}')
            elif path.read_bytes() != data:
                faults.append(f'damaged map {number} is saved with other bytes')
    return faults


def test_damaged():
    fail_with(fault for some in in_processes(faults_of_damaged, range(0, DAMAGED, DAMAGED_OF_RUN)) for fault in some)
    passed(DAMAGED)
