# SPDX-License-Identifier: MIT OR Apache-2.0
"""Reads tilesets in XML by the library, as both packages do: Tiled's own examples, the example maps' tilesets, some that have all that Tiled
knows, and 100 by chance, as Tiled writes them, are what Tiled itself exports of them to JSON, but for what docs/map-files.md says.

Then files that are cut at each of their bytes or have a byte changed, and what each that is none is refused for, in both packages alike."""
import base64
import json
import random
import re
import sys
import tempfile
from pathlib import Path

from lib import tiled_package
from lib.cases import Case, check_each, see
from lib.places import EXAMPLE_MAPS, TOP
from lib.random_tmx import RandomMap
from module.node import ran

sys.path.insert(0, str(TOP / 'python'))
from roskevad import BadTileset, Editor  # noqa: E402
from roskevad.tilesets import members_in  # noqa: E402

PACKAGES = ('nodejs', 'tiled')
SEED, RANDOM_TILESETS, DAMAGED, SECONDS = 20261201, 100, 2000, 120
# What Tiled says of itself, where a file says of what it is.
OWN = 'version', 'tiledversion'
# What Tiled finds in the picture, where the file does not say it.
OF_PICTURE = 'tilecount', 'columns', 'imagewidth', 'imageheight'

FULL = '''<?xml version="1.0" encoding="UTF-8"?>
<tileset version="1.8" tiledversion="1.8.2" name="full &lt;1&gt;" tilewidth="16" tileheight="16" spacing="1" margin="2" tilecount="21" columns="7"
 objectalignment="top" backgroundcolor="#102030">
 <!-- all -->
 <tileoffset x="-3" y="4"/>
 <grid orientation="isometric" width="32" height="16"/>
 <transformations hflip="1" vflip="0" rotate="1" preferuntransformed="0"/>
 <properties>
  <property name="lines">one
two</property>
  <property name="many" type="int" value="-7"/>
  <property name="part" type="float" value="0.25"/>
  <property name="red" type="color" value="#ffff0000"/>
  <property name="wet" type="bool" value="true"/>
 </properties>
 <image source="tiles.png" trans="ff00ff" width="128" height="64"/>
 <tile id="0"/>
 <tile id="1" type="Door" probability="0.5">
  <properties>
   <property name="door" value="é"/>
  </properties>
  <objectgroup draworder="index" id="2">
   <object id="1" x="1" y="2.5" width="3" height="4"/>
   <object id="2" x="0" y="0"><polygon points="0,0 4,0 4,-4.5"/></object>
   <object id="3" name="round" type="T" x="2" y="2" width="1" height="1" rotation="45"><ellipse/></object>
   <object id="4" x="5" y="5"><point/></object>
  </objectgroup>
  <animation>
   <frame tileid="1" duration="100"/>
   <frame tileid="2" duration="250"/>
  </animation>
 </tile>
 <wangsets>
  <wangset name="Paths" type="mixed" tile="3">
   <wangcolor name="Sand" color="#ff0000" tile="-1" probability="1"/>
   <wangcolor name="Grass" color="#00ff00" tile="4" probability="0.5"/>
   <wangtile tileid="3" wangid="0,1,0,2,0,1,0,0"/>
   <wangtile tileid="9" wangid="1,1,1,1,1,1,1,1"/>
  </wangset>
 </wangsets>
</tileset>
'''
PICTURES = '''<tileset name="pictures" tilewidth="128" tileheight="64" tilecount="2" columns="0">
 <grid orientation="orthogonal" width="1" height="1"/>
 <tile id="0"><image width="128" height="64" source="tiles.png"/></tile>
 <tile id="7" type="far"><image width="128" height="64" source="tiles.png"/></tile>
</tileset>'''
UNCOUNTED = '<tileset name="uncounted" tilewidth="16" tileheight="16"><image source="tiles.png" width="128" height="64"/></tileset>'
UNSIZED = '<tileset name="unsized" tilewidth="16" tileheight="16"><image source="tiles.png"/><tile id="3" type="T"/></tileset>'
BY_HAND = {'full.tsx': FULL, 'pictures.tsx': PICTURES, 'uncounted.tsx': UNCOUNTED, 'unsized.tsx': UNSIZED}
# As before Tiled 1.5: what is left out, and is read besides.
OLD = '''<tileset name="old" tilewidth="16" tileheight="16" tilecount="2" columns="2"><image source="tiles.png" width="128" height="64"/>
 <terraintypes><terrain name="Grass" tile="0"/></terraintypes>
 <tile id="0" terrain="0,0,0,0"/><tile id="1" terrain="0,,,0" type="edge"/>
 <wangsets><wangset name="W" tile="-1"><wangcornercolor name="a" color="#ff0000" tile="-1" probability="1"/>
 <wangtile tileid="0" wangid="0x10101010"/></wangset></wangsets></tileset>'''


# ---- what Tiled exports


def random_tileset(number):
    """A tileset by chance, as a file of its own."""
    for attempt in range(100):
        text = RandomMap(random.Random(f'{SEED} {number} {attempt}')).tileset(1)
        if 'source="tiles.tsx"' not in text:
            return text.replace(' firstgid="1"', ' version="1.8"', 1)
    raise AssertionError('no tileset came')


def sources(folder):
    """The files of tilesets in XML."""
    top = Path(folder)
    tiled_package.unpacked(top / 'examples')
    maps = top / 'maps'
    maps.mkdir()
    for path in [*EXAMPLE_MAPS.glob('*.tsx'), *EXAMPLE_MAPS.glob('*.png')]:
        (maps / path.name).write_bytes(path.read_bytes())
    for name, text in BY_HAND.items():
        (maps / name).write_text(text)
    for number in range(RANDOM_TILESETS):
        path, given = maps / f'chance_{number}.tsx', maps / f'given_{number}.xml'
        given.write_text(random_tileset(number))
        # Tiled itself writes it.
        exported(given, path, 'tsx')
    found = sorted(top.rglob('*.tsx'))
    assert len(found) >= RANDOM_TILESETS + len(BY_HAND) + 5, f'{len(found)} tilesets'
    return found


def exported(path, goal, form='json'):
    """What Tiled exports of a tileset."""
    done = tiled_package.export(form, path, goal, '--export-tileset')
    assert goal.exists(), f'{path}: Tiled does not load it: {done.stderr.decode()[-400:]}'
    return goal.read_text()


def plain(value):
    """A tree in which only what Tiled exports otherwise is other."""
    if isinstance(value, list):
        return [plain(each) for each in value]
    if not isinstance(value, dict):
        return tiled_package.as_exported(value)
    told = {name: plain(each) for name, each in value.items() if name not in OWN}
    for name, key in (('properties', 'name'), ('wangtiles', 'tileid')):
        if name in told:
            told[name] = sorted(told[name], key=lambda each: each[key])
    return told


def fault_of_tree(case):
    """What the library reads of a tileset is what Tiled exports of it."""
    goal = case.given.with_name(f'exported_{case.given.stem}.tsj')
    came, wanted = members_in_file(case.given), json.loads(exported(case.given, goal))
    if 'tilecount' not in came:
        wanted = {name: each for name, each in wanted.items() if name not in OF_PICTURE}
    names = sorted(name for name in {*came, *wanted} if plain(came).get(name) != plain(wanted).get(name))
    return ', '.join(f'{name}: wanted {wanted.get(name)!r}, came {came.get(name)!r}' for name in names)[:2000] or None


def members_in_file(path):
    """The members of a tileset, also of one that does not say how many tiles it has."""
    return told_by_javascript([path.read_bytes()])[0]['members']


def test_trees():
    with tempfile.TemporaryDirectory() as folder:
        check_each([Case(f'{path.parent.name}/{path.name}', path, None) for path in sources(folder)], fault_of_tree)


# ---- both packages


def told_by_javascript(texts):
    """What the package for JavaScript tells of the bytes of files."""
    with tempfile.TemporaryDirectory() as folder:
        path = Path(folder) / 'texts.json'
        path.write_text(json.dumps([base64.b64encode(data).decode() for data in texts]))
        return json.loads(ran('tilesets.mjs', path, timeout=SECONDS))


class Python:
    """The same of the package for Python."""

    def __init__(self, editor):
        self.tileset = editor.new('m', 1, 1, 16, 16, 'a.tsx').tilesets[1]

    def told(self, data):
        try:
            tiles = self.tileset.tiles_in(data)
        except BadTileset as fault:
            return {'why': str(fault).partition(' is no tileset: ')[2] or str(fault)}
        listed = [{'localId': each.local_id, 'type': each.type, 'properties': each.properties, 'shapes': each.shapes} for each in tiles]
        return {'members': members_in(data, 'a'), 'tiles': listed}


def without_name(told):
    """What JavaScript tells, without the name of the tileset, which the packages spell apart."""
    if 'why' in told:
        return {'why': told['why'].partition(' is no tileset: ')[2] or told['why']}
    return told


def see_alike(texts):
    """What both packages tell of each file, which must be the same."""
    with Editor() as editor:
        python = Python(editor)
        told = [python.told(data) for data in texts]
    for data, one, other in zip(texts, told, map(without_name, told_by_javascript(texts))):
        if 'why' not in one or 'one says' not in one['why']:
            assert one == other, f'{data[:300]!r}\n    Python {str(one)[:600]}\n    JavaScript {str(other)[:600]}'
    return told


def test_packages():
    """Both packages have the same tiles and members of each, and read what they read of its JSON."""
    with tempfile.TemporaryDirectory() as folder:
        texts = [path.read_bytes() for path in sources(folder)]
    told = see_alike(texts)
    whys = [each['why'] for each in told if 'why' in each]
    see({'it does not say how many tiles there are'}, set(whys))
    read = [each for each in told if 'why' not in each]
    again = see_alike([json.dumps(each['members']).encode() for each in read])
    see(read, again)


def test_old():
    """Terrains and wang sets of before Tiled 1.5 are left out, and all else of such a file is read."""
    members = members_in(OLD.encode(), 'old')
    see(([{'id': 1, 'type': 'edge'}], False, 2), (members['tiles'], 'wangsets' in members, members['tilecount']))


def test_files():
    """`tiles` of the Python package reads the file beside the map, in XML or in JSON, by what is in it."""
    with tempfile.TemporaryDirectory() as folder, Editor(folder=folder) as editor:
        path = Path(folder) / 'a.tmj'
        document = editor.new('m', 1, 1, 16, 16, 'a.tsx')
        document.save(path)
        tileset = document.tilesets[1]
        see(None, tileset.tiles)
        (Path(folder) / 'a.tsx').write_text(FULL)
        see((21, 'Door', {'door': 'é'}, [1, 2, 3, 4]), (
            len(tileset.tiles), tileset.tiles[1].type, tileset.tiles[1].properties, [each['id'] for each in tileset.tiles[1].shapes]))
        (Path(folder) / 'a.tsx').write_text(json.dumps(members_in(FULL.encode(), 'a')))
        see('Door', tileset.tiles[1].type)
        (Path(folder) / 'a.tsx').write_text('<tileset>\n <tile')
        try:
            tileset.tiles
        except BadTileset as fault:
            see(f'{folder}/a.tsx is no tileset: a tag is spelled wrong (line 2, column 6)', str(fault))
        else:
            raise AssertionError('it was read')


# ---- damaged files

# What a file is, what is said of it, and at which line and column.
FAULTS = {
    'no byte': ('', 'no JSON in UTF-8', (1, 1)),
    'a list': ('[]', 'its root is no object', None),
    'no JSON': ('{"a":1,}', 'no JSON in UTF-8', (1, 8)),
    'a map': ('<map/>', 'its root is no tileset', None),
    'no end': ('<tileset>', 'an element with no end', (1, 9)),
    'another end': ('<tileset>\n</map>', 'the end tag of another element', None),
    'two roots': ('<tileset/>\n<tileset/>', 'something stands behind its root', None),
    'an entity': ('<!DOCTYPE tileset [<!ENTITY a "b">]><tileset/>', 'a DOCTYPE with a subset or a public name, or one that is spelled wrong', None),
    'another encoding': ('<?xml version="1.0" encoding="latin1"?><tileset/>', 'its encoding is not UTF-8', None),
    'a number': ('<tileset tilecount="1" columns="1"><tile id="0" probability="1e999"/></tileset>', 'a number is infinite, or none', None),
    'a type': ('<tileset><properties><property name="a" type="b" value="c"/></properties></tileset>',
               'a property has a type that Tiled does not know', None),
    'corners': ('<tileset><tile id="0"><objectgroup><object id="1"><polygon points="a"/></object></objectgroup></tile></tileset>',
                'the corners of an object are no pairs of numbers', None),
    'an order': ('<tileset><tile id="0"><objectgroup draworder="a"/></tile></tileset>', 'an object layer has a draw order that Tiled does not know', None),
    'seven colors': ('<tileset><wangsets><wangset><wangtile tileid="0" wangid="1,1,1,1,1,1,1"/></wangset></wangsets></tileset>',
                     'a tile of a wang set has not eight colors', None),
    'no count': ('<tileset/>', 'it does not say how many tiles there are', None),
}


def test_faults():
    """A file that is none is refused, by what is wrong with it, and where."""
    told = see_alike([text.encode() for text, _, _ in FAULTS.values()])
    for (name, (_, words, place)), each in zip(FAULTS.items(), told):
        assert 'why' in each, f'{name} was read'
        said = re.fullmatch(r'(.*?)(?: \(line (\d+), column (\d+)\))?', each['why'])
        see((name, words), (name, said[1]))
        if place is not None:
            see((name, *map(str, place)), (name, said[2], said[3]))


def test_damaged():
    """A file that is cut short is refused, at whichever byte. With a byte changed it is read or refused, in both packages alike."""
    whole = FULL.encode().rstrip()
    told = see_alike([whole[:at] for at in range(len(whole))])
    read = [at for at, each in enumerate(told) if 'why' not in each]
    see([], read)
    chosen = random.Random(SEED)
    texts = []
    for _ in range(DAMAGED):
        text = bytearray(whole)
        for _ in range(chosen.randrange(1, 4)):
            text[chosen.randrange(len(text))] = chosen.choice(b'<>&"\'=/ \n\x00\xff09ax')
        texts.append(bytes(text))
    told = see_alike(texts)
    refused = sum('why' in each for each in told)
    assert DAMAGED / 10 < refused < DAMAGED, refused
