# SPDX-License-Identifier: MIT OR Apache-2.0
"""Tries what both packages raise for what depends on a file or on the map in it: each is an `Error` of the package, with words that
say what to do, and with the system's fault behind it. What is wrong whatever the map is, is none. What is raised can be copied and
pickled. No text of a fault speaks of lines, which a caller need not know."""
import json
import pickle
import re
import subprocess
import sys
import tempfile
from pathlib import Path

from lib.cases import Case, check_each, unlike
from lib.places import TOP

sys.path.insert(0, str(TOP / 'python'))
import roskevad  # noqa: E402

PACKAGES = ('nodejs',)
# A map whose properties have all kinds of types, and which has a tileset that does not say how many tiles it has.
PROPERTIES = [
    {'name': 'people', 'type': 'int', 'value': 12}, {'name': 'speed', 'type': 'float', 'value': 1.5},
    {'name': 'sky', 'type': 'color', 'value': '#88ccff'}, {'name': 'odd', 'type': 'matrix', 'value': []},
]
TREE = {
    'type': 'map', 'version': '1.10', 'orientation': 'orthogonal', 'infinite': False, 'width': 1, 'height': 1, 'tilewidth': 16, 'tileheight': 16,
    'nextlayerid': 2, 'nextobjectid': 1, 'properties': PROPERTIES, 'tilesets': [{'firstgid': 1, 'name': 'a', 'tilecount': -1}],
    'layers': [{'type': 'tilelayer', 'id': 1, 'name': 'Ground', 'width': 1, 'height': 1, 'data': [0], 'visible': True}],
}
# What is tried in Python and in JavaScript, with the names of the classes of what comes, and some words of it.
OTHER = 'has the type {}'
TYPES = ['OtherType', 'Error', 'TypeError', 'ValueError']
NONE = ['NotFound', 'Error', 'KeyError']
TRIALS = [
    ('document.layers["Roof"]', 'document.layers.get("Roof")', NONE, 'here: the ids are 1'),
    ('document.objects[7]', 'document.objects.get(7)', NONE, 'there is no object 7 here, nor any other one'),
    ('document.tilesets[9]', 'document.tilesets.get(9)', NONE, 'there is no tileset 9 here: the ids are 1'),
    ('document.stamp("Roof", 0, 0, [[1]])', 'document.stamp("Roof", 0, 0, [[1]])', NONE, 'here: the ids are 1'),
    ('document.properties.type_of("a")', 'document.properties.typeOf("a")', NONE, 'map has no property'),
    ('editor.layer_id("Roof")', 'editor.layerId("Roof")', NONE, 'the map has no layer'),
    ('document.properties.set("people", "many")', 'document.properties.set("people", "many")', TYPES, OTHER.format('int')),
    ('document.properties.set("speed", "fast")', 'document.properties.set("speed", "fast")', TYPES, OTHER.format('float')),
    ('document.properties.set("odd", [])', 'document.properties.set("odd", [])', TYPES, OTHER.format('matrix')),
    ('document.properties.put({"name": "a"})', 'document.properties.put({ name: "a" })', ['Refused', 'Error'], '62 member missing'),
    ('document.properties.set("sky", "blue")', 'document.properties.set("sky", "blue")', TYPES, 'is a color'),
    ('document.tilesets[1].tiles', 'document.tilesets.get(1).tiles', ['BadTileset', 'Error', 'ValueError'], 'and this one says: -1'),
    ('document.tilesets[1].tiles_in(b"<map/>")', 'document.tilesets.get(1).tilesIn("<map/>")', ['BadTileset', 'Error', 'ValueError'],
     'is no tileset: its root is no tileset'),
    ('document.tilesets[1].tiles_in(b"<tileset>")', 'document.tilesets.get(1).tilesIn("<tileset>")', ['BadTileset', 'Error', 'ValueError'],
     'an element with no end (line 1, column 9)'),
    ('document.tilesets[1].tiles_in(b"{1}")', 'document.tilesets.get(1).tilesIn("{1}")', ['BadTileset', 'Error', 'ValueError'],
     'no JSON in UTF-8 (line 1, column 2)'),
    ('document.stamp(9, 0, 0, [[1]])', 'document.stamp(9, 0, 0, [[1]])', ['Refused', 'Error'], '30 no such layer'),
    ('editor.open(b"{")', 'await editor.open("{")', ['Refused', 'Error'], '60 not JSON'),
    # What is wrong whatever the map is.
    ('document.properties.set("\\ud800", 1)', 'document.properties.set("\\ud800", 1)', ['ValueError'], 'has half of a character in it'),
    ('document.properties.set("a", "\\ud800")', 'document.properties.set("a", "\\ud800")', ['ValueError'], 'has half of a character in it'),
    ('document.properties.set("a", "blue", type="color")', 'document.properties.set("a", "blue", { type: "color" })', ['ValueError'], 'is a color'),
    ('document.properties.set("a", 1, type="matrix")', 'document.properties.set("a", 1, { type: "matrix" })', ['ValueError'], 'is one of string'),
    ('document.properties.set("a", None)', 'document.properties.set("a", null)', ['TypeError'], 'a MapObject'),
    ('document.layers[1].members.set("a b", 1)', 'document.layers.get(1).setMember("a b", 1)', ['ValueError'], 'has a space in it, which it may not'),
    ('document.layers[1].members.set("", 1)', 'document.layers.get(1).setMember("", 1)', ['ValueError'], 'is empty: give it one character or more'),
    ('setattr(document.layers[1], "name", "b\\n")', 'Reflect.set(document.layers.get(1), "name", "b\\n")', ['ValueError'], 'has a newline, a tab or another'),
    ('setattr(document.layers[1], "name", "b" * 201)', 'Reflect.set(document.layers.get(1), "name", "b".repeat(201))', ['ValueError'],
     '201 bytes in UTF-8, and may have 200'),
    ('document.layers[1].move_into(0)', 'document.layers.get(1).moveInto(0)', ['ValueError'], 'is the id of no layer'),
    ('document.properties.set("a", "b", type="int")', 'document.properties.set("a", "b", { type: "int" })', ['TypeError'], OTHER.format('int')),
    ('editor.put_file("a b", b"")', 'editor.putFile("a b", "")', ['ValueError'], 'the name of a file is 1 to 100 of'),
]
# The classes of faults of Python that JavaScript's stand for.
CLASSES = {'RangeError': 'ValueError'}
# Words that only those know who know lines.
OF_LINES = re.compile(r'\b(a|no) line\b')
SCRIPT = """
import * as roskevad from "./js/roskevad.js";
const editor = await roskevad.Editor.create();
const document = await editor.open(JSON.stringify(TREE));
const Work = (async () => 0).constructor;
const came = [];
for (const trial of TRIALS) {
  try {
    await new Work("editor", "document", `return ${trial}`)(editor, document);
    came.push([[], "it has thrown nothing"]);
  } catch (fault) {
    const names = [fault.name, ...(fault instanceof roskevad.Error ? ["Error"] : [])];
    came.push([names, fault.message, fault instanceof Error]);
  }
}
console.log(JSON.stringify(came));
"""


def in_node(code):
    done = subprocess.run(['node', '--input-type=module', '--eval', code], cwd=TOP, capture_output=True, text=True)
    assert done.returncode == 0, done.stderr[-2000:]
    return json.loads(done.stdout)


def fault_of(case):
    """How what was raised is another thing than it should be, or None."""
    came, text = case.given
    names, words = case.wanted
    if words not in text or OF_LINES.search(text):
        return f'its words are {text!r}, without {words!r}'
    return unlike(names, came)


def test_python():
    def raised(trial):
        with roskevad.Editor() as editor:
            document = editor.open(json.dumps(TREE).encode())
            try:
                eval(trial, {'editor': editor, 'document': document})
            except Exception as fault:
                again = pickle.loads(pickle.dumps(fault))
                assert (type(again), str(again)) == (type(fault), str(fault)), f'{fault!r} is pickled as {again!r}'
                bases = [each.__name__ for each in (roskevad.Error, KeyError, TypeError, ValueError) if isinstance(fault, each)]
                return list(dict.fromkeys([type(fault).__name__, *bases])), str(fault)
        return [], 'it has raised nothing'

    check_each([Case(trial, raised(trial), (names, words)) for trial, _, names, words in TRIALS], fault_of)


def test_javascript():
    trials = [trial for _, trial, _, _ in TRIALS]
    came = in_node(SCRIPT.replace('TREE', json.dumps(TREE)).replace('TRIALS', json.dumps(trials)))
    told = [([CLASSES.get(name, name) for name in names], text) for names, text, is_fault in came if is_fault]
    wanted = [([name for name in names if len(names) == 1 or name not in ('KeyError', 'TypeError', 'ValueError')], words) for _, _, names, words in TRIALS]
    check_each([Case(*each) for each in zip(trials, told, wanted)], fault_of)


# ---- what stands behind a fault


def cause_of(work):
    try:
        work()
    except roskevad.Error as fault:
        return fault.code, type(fault.__cause__).__name__
    return None


def test_causes_in_python():
    """The fault of the system, of a file that is read or written."""
    with tempfile.TemporaryDirectory() as top, roskevad.Editor(folder=top) as editor:
        Path(top, 'file').write_text('{')
        town = editor.new('town', 1, 1, 16, 16, 'a.tsj')
        rows = [
            ('no file', lambda: editor.open('no.tmj'), (50, 'FileNotFoundError')),
            ('no folder', lambda: editor.open('no/a.tmj'), (50, 'FileNotFoundError')),
            ('by its line call', lambda: editor.open_file('no.tmj'), (50, 'FileNotFoundError')),
            ('a folder', lambda: editor.open('.', 'a'), (51, 'IsADirectoryError')),
            ('a file as a folder', lambda: editor.open('file/a.tmj'), (51, 'NotADirectoryError')),
            ('a save in no folder', lambda: town.save('no/a.tmj'), (51, 'FileNotFoundError')),
            ('no JSON', lambda: editor.open('file', 'a'), (60, 'NoneType')),
            ('a name that is taken', lambda: editor.open('no.tmj', 'town'), (11, 'NoneType')),
        ]
        check_each([Case(*row) for row in rows], lambda case: unlike(case.wanted, cause_of(case.given)))


def test_a_loop_goes_on():
    """A script over a folder that handles the one class goes on behind each fault of a map."""
    with tempfile.TemporaryDirectory() as top, roskevad.Editor() as editor:
        for name, properties in (('a', []), ('b', PROPERTIES), ('c', [])):
            Path(top, f'{name}.tmj').write_text(json.dumps({**TREE, 'properties': properties}))
        Path(top, 'd.tmj').write_text('{')
        told = []
        for path in sorted(Path(top).glob('*.tmj')):
            try:
                with editor.open(path) as document:
                    document.properties['people'] = 'many'
                    document.save()
                told.append('saved')
            except roskevad.Error as fault:
                told.append(type(fault).__name__)
        fault = unlike(['saved', 'OtherType', 'saved', 'Refused'], told)
        assert not fault, fault
