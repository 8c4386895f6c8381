# SPDX-License-Identifier: MIT OR Apache-2.0
"""Tries calls of both packages as one writes them first: a layer that is added to a group, corners as pairs, names the other way round.
Where such a call is wrong, its words say what to write instead, and nothing is done: an option of another name, a path for a map, a
member that another call sets, a file that can't be read."""
import json
import subprocess
import sys
import tempfile
from pathlib import Path

from lib.cases import Case, check_each, see, unlike
from lib.places import TOP
from lib.scenarios import Scenario, check_in_javascript, check_in_python

sys.path.insert(0, str(TOP / 'python'))
sys.path.insert(0, str(TOP / 'tools'))
import roskevad  # noqa: E402
from calls import LINES  # noqa: E402

PACKAGES = ('nodejs',)
PARENTS = ('[[each.id, each.parent.id if each.parent else 0] for each in document.layers.walk()]',
           '[...document.layers.walk()].map((each) => [each.id, each.parent?.id ?? 0])')
SCENARIOS = [
    Scenario('a layer in a group', 'houses = document.layers.add("group", "Houses")\nroof = houses.layers.add("tile", "Roof")\n'
             'inn = houses.layers.add("group", "Inn")\ninn.layers.add("object", "Doors")\nassert roof.parent == houses',
             'const houses = document.layers.add("group", "Houses"); const roof = houses.layers.add("tile", "Roof");'
             'houses.layers.add("group", "Inn").layers.add("object", "Doors"); if (roof.parent.id !== houses.id) throw new Error("no parent")',
             ['layer add group Houses', 'begin Add Layer || add layer', 'layer add tile Roof', 'layer into 5 4 0', 'end',
              'begin Add Layer || add layer', 'layer add group Inn', 'layer into 6 4 1', 'end',
              'begin Add Layer || add layer', 'layer add object Doors', 'layer into 7 6 0', 'end'],
             [(*PARENTS, [[1, 0], [2, 0], [3, 0], [4, 0], [5, 4], [6, 4], [7, 6]])]),
    Scenario('one undo takes it back', 'document.layers.add("group", "Houses").layers.add("tile", "Roof")\ndocument.undo()',
             'document.layers.add("group", "Houses").layers.add("tile", "Roof"); document.undo()',
             ['layer add group Houses', 'begin Add Layer || add layer', 'layer add tile Roof', 'layer into 5 4 0', 'end', 'undo'],
             [(*PARENTS, [[1, 0], [2, 0], [3, 0], [4, 0]])]),
    Scenario('in a macro', 'with document.macro("Village"):\n  document.layers.add("group", "Houses").layers.add("tile", "Roof")',
             'document.macro("Village", () => document.layers.add("group", "Houses").layers.add("tile", "Roof"))',
             ['begin Village', 'layer add group Houses', 'layer add tile Roof', 'layer into 5 4 0', 'end']),
    Scenario('what is refused leaves the steps', 'document.layers.add("group", "Houses").remove()\ndocument.undo()\ndocument.undo()\n'
             'try:\n  document.layers[1].layers.add("tile", "Roof")\nexcept roskevad.Refused as refusal:\n  assert refusal.code == 31, refusal',
             'document.layers.add("group", "Houses").remove(); document.undo(); document.undo();'
             'try { document.layers.get(1).layers.add("tile", "Roof"); } catch (fault) { if (fault.code !== 31) throw fault; }',
             ['layer add group Houses', 'layer remove 4', 'undo', 'undo']),
    Scenario('corners and a text as they are added', 'door = document.objects["door"]\ndoor.members["polygon"] = [(0, 0), [8.5, 0], (8, 8)]\n'
             'door.members.update(polyline=[{"x": 1, "y": 2, "kept": 3}], text="two\\nlines")\ndoor.members.set("polygon", [], merge=True)\n'
             'door.members["polygon"] = [[1, 2, 3]]\ndocument.layers[1].members["polygon"] = [(0, 0)]',
             'const door = document.objects.get("door"); door.setMember("polygon", [[0, 0], [8.5, 0], [8, 8]]);'
             'door.setMembers({ polyline: [{ x: 1, y: 2, kept: 3 }], text: "two\\nlines" }); door.setMember("polygon", [], { merge: true });'
             'door.setMember("polygon", [[1, 2, 3]]); document.layers.get(1).setMember("polygon", [[0, 0]])',
             ['member set object:1 polygon [{"x":0,"y":0},{"x":8.5,"y":0},{"x":8,"y":8}]',
              'member put object:1 {"polyline":[{"x":1,"y":2,"kept":3}],"text":{"text":"two\\nlines"}}', 'member set+ object:1 polygon []',
              'member set object:1 polygon [[1,2,3]]', 'member set layer:1 polygon [[0,0]]']),
    Scenario('an option that is not given', 'document.stamp(1, 0, 0, [[5]], merge=False)\ndocument.select(0, 0, 1, 1, mode="replace")',
             'document.stamp(1, 0, 0, [[5]], {}); document.select(0, 0, 1, 1, { mode: undefined })', ['stamp 1 0 0 1 5', 'select replace 0 0 1 1']),
]
# Calls that are wrong, in each language, with what their words have; an empty one is not tried there.
THINGS = 'document.layers["Things"].objects', 'document.layers.get("Things").objects'
DOOR = 'document.objects["door"]', 'document.objects.get("door")'
WRONG = [
    (f'setattr({DOOR[0]}, "x", "left")', f'Reflect.set({DOOR[1]}, "x", "left")', 'x is a {}number: '),
    (f'{DOOR[0]}.resize(None, 2)', f'{DOOR[1]}.resize(null, 2)', 'a width is a {}number: '),
    (f'{THINGS[0]}.add("key", 0, "5")', f'{THINGS[1]}.add("key", 0, "5")', 'y is a {}number: '),
    (f'{THINGS[0]}.add("way", 0, 0, polygon=[1, 2])', f'{THINGS[1]}.add("way", 0, 0, 0, 0, {{ polygon: [1, 2] }})', 'a corner of an object is a pair of numbers'),
    ('document.members.set("width", 5)', 'document.setMember("width", 5)', 'the size of a map is set by document.resize(..)'),
    ('document.members.put({"class": "Town", "tilesets": []})', 'document.setMembers({ class: "Town", tilesets: [] })',
     'tilesets are added by document.tilesets.add(..)'),
    ('document.layers[1].members.set("data", [])', 'document.layers.get(1).setMember("data", [])',
     'cells are set by document.stamp(..) and layer.write(..)'),
    (f'{DOOR[0]}.members.pop("id")', f'{DOOR[1]}.removeMember("id")', 'stays as it is'),
    (f'{DOOR[0]}.members.pop("properties")', f'{DOOR[1]}.removeMember("properties")', 'one by one, in `properties`'),
    ('', f'{THINGS[1]}.add("key", 0, 0, {{ point: true }})', 'options stand behind a width and a height'),
    ('', f'{THINGS[1]}.add("key", 0, 0, 0, 0, {{ class_name: "Door" }})', 'an option here is one of point, ellipse, polygon, '),
    ('', f'{DOOR[1]}.properties.set("speed", 1, "float")', 'options stand in braces, as { type: .. }: "float"'),
    ('', 'document.select(0, 0, 1, 1, "add")', 'options stand in braces, as { mode: .. }: "add"'),
    ('', 'document.stamp(1, 0, 0, [[5]], true)', 'options stand in braces, as { merge: .. }: true'),
    ('', 'document.erase(1, 0, 0, 1, 1, { merges: true })', 'an option here is one of merge: "merges"'),
    ('', 'document.macro("a", () => 0, { keep_empty: true })', 'an option here is one of action, keepEmpty: "keep_empty"'),
    ('', 'document.tilesets.add(900, "a.tsx", { renumber: true })', 'an option here is one of renumbers: "renumber"'),
    ('', 'await document.saveBytes("rows")', 'options stand in braces, as { layout: .. }: "rows"'),
    ('', 'await roskevad.Editor.create({ folder: "." })', 'an option here is one of limit, module: "folder"'),
    ('', 'await editor.open("maps/town.tmj", "a")', 'a text is a map itself, and no path of a file: give the bytes of the file'),
]
SCRIPT = """
import * as roskevad from "./js/roskevad.js";
const editor = await roskevad.Editor.create();
editor.runLines(LINES);
const document = editor.active;
const Work = (async () => 0).constructor;
const came = [];
for (const trial of TRIALS) {
  const before = JSON.stringify([document.status, document.map()]);
  const words = await new Work("roskevad", "editor", "document", `return ${trial}`)(roskevad, editor, document).then(() => "", (fault) => fault.message);
  came.push([words, JSON.stringify([document.status, document.map()]) === before]);
}
console.log(JSON.stringify(came));
"""


def test_python():
    check_in_python(SCENARIOS)


def test_javascript():
    check_in_javascript(SCENARIOS)


def fault_of(case):
    """How a wrong call says something else than is wanted, or None."""
    words, is_as_it_was = case.given
    if case.wanted not in words:
        return f'its words are {words!r}, without {case.wanted!r}'
    return None if is_as_it_was else 'it has done something'


def test_wrong_calls_in_python():
    def raised(trial):
        with roskevad.Editor() as editor:
            editor.run_lines(LINES)
            document = editor.active
            before = document.status, document.map()
            try:
                eval(trial, {'editor': editor, 'document': document})
            except Exception as fault:
                return str(fault), (document.status, document.map()) == before
        return 'nothing is raised', True

    check_each([Case(trial, raised(trial), words.format('')) for trial, _, words in WRONG if trial], fault_of)


def test_wrong_calls_in_javascript():
    trials = [(trial, words.replace('{}', 'finite ')) for _, trial, words in WRONG]
    script = SCRIPT.replace('LINES', json.dumps(LINES)).replace('TRIALS', json.dumps([trial for trial, _ in trials]))
    done = subprocess.run(['node', '--input-type=module', '--eval', script], cwd=TOP, capture_output=True, text=True)
    assert done.returncode == 0, done.stderr[-2000:]
    check_each([Case(trial, came, words) for (trial, words), came in zip(trials, json.loads(done.stdout))], fault_of)


def test_names_the_other_way_round():
    """In Python, as those of a dict."""
    with roskevad.Editor() as editor:
        editor.run_lines(LINES)
        document = editor.active
        see(['people', 'author'], list(reversed(document.properties)))
        see([], list(reversed(document.layers[1].properties)))


def test_files_in_python():
    """Why a file is not opened or written, as the system says it; and which name is taken."""
    with tempfile.TemporaryDirectory() as top, roskevad.Editor(folder=top) as editor:
        town = editor.new('town', 1, 1, 16, 16, 'a.tsj')
        town.save('town.tmj')
        Path(top, 'folder').mkdir()

        def why(work):
            try:
                work()
            except roskevad.Refused as refusal:
                return refusal.code, refusal.why, str(refusal).endswith(f'\n  {refusal.why}') == (refusal.why is not None)
            return None

        rows = [
            ('a folder', lambda: editor.open('folder'), (51, 'Is a directory', True)),
            ('a save in no folder', lambda: town.save('no/a.tmj'), (51, 'No such file or directory', True)),
            ('no file', lambda: editor.open('no.tmj'), (50, None, True)),
            ('a second file of a name', lambda: editor.open('town.tmj'),
             (11, "a document 'town' is open: open(path, name) gives this one another name", True)),
        ]
        check_each([Case(*row) for row in rows], lambda case: unlike(case.wanted, why(case.given)))
        see('again', editor.open('town.tmj', 'again').name)
