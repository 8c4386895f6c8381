# SPDX-License-Identifier: MIT OR Apache-2.0
"""Tries what both packages tell of changes: what comes behind each line of a document that is watched,
by calls and by lines, in macros and strokes; what a callback may do, and what becomes of its faults;
what the steps are about. Beside random lines a copy is kept of a document, in which only what is told
to differ is read anew: it stays the same as the document."""
import json
import logging
import random
import subprocess
import sys
import threading
from dataclasses import dataclass

from lib.cases import Case, check_each, raised, see, unlike
from lib.places import EXAMPLE_MAPS, TESTS, TOP

sys.path.insert(0, str(TOP / 'python'))
sys.path.insert(0, str(TOP / 'tools'))
from calls import LINES  # noqa: E402
from roskevad import Closed, Editor, InCallback, Refused  # noqa: E402

PACKAGES = ('nodejs',)
TOWN = EXAMPLE_MAPS / 'town.tmj'


@dataclass
class Scenario:
    """Calls in each language, and what is told of them: what became, whether more of the map than cells and the selection differ, the
    cells, what it is about, the index, the count, the depth, and whether the document is clean."""

    name: str
    python: str
    javascript: str
    wanted: list


def plain(name, calls, *wanted):
    """A scenario whose calls are the same in both."""
    return Scenario(name, calls.replace('; ', '\n'), calls, list(wanted))


def row(became, standing, outline=False, selection=False, cells=None, about=None):
    index, count, depth, *is_clean = standing
    return [became, outline, selection, cells, about, index, count, depth, bool(is_clean)]


# The document has seven steps, a cell with the value 1 in layer 1, and object 1.
WALLS = [1, 1, 0, 2, 1]
SCENARIOS = [
    plain('a stamp', 'document.stamp(1, 1, 0, [[5, 6]])', row('added', (8, 8, 0), cells=WALLS, about=['layer', 1])),
    plain('a stamp past the edge', 'document.stamp(3, 3, 2, [[5, 6], [7, 8]])', row('added', (8, 8, 0), cells=[3, 3, 2, 1, 1], about=['layer', 3])),
    plain('a stamp of what is there', 'document.stamp(1, 0, 0, [[1]])'),
    plain('an undo', 'document.undo()', row('turned', (6, 7, 0), cells=[1, 0, 0, 1, 1], about=['layer', 1])),
    plain('a turn to another index', 'document.goto(4)',
          row('turned', (4, 7, 0), outline=True, cells=[1, 0, 0, 1, 1])),
    plain('a selection', 'document.select(0, 0, 2, 2)', row('added', (8, 8, 0), selection=True)),
    Scenario('an object', 'document.objects["door"].move(3, 4)', 'document.objects.get("door").move(3, 4)',
             [row('added', (8, 8, 0), outline=True, about=['object', 1])]),
    Scenario('own members of an object', 'door = document.objects["door"]\ndoor.rotation = 90\ndoor.rotation = 90\ndoor.members.update(x=3, point=True)\n'
             'del door.members["point"]\neditor.step(\'member set+ object:1 name "gate"\')',
             'const door = document.objects.get("door"); door.rotation = 90; door.rotation = 90; door.setMembers({ x: 3, point: true });'
             'door.removeMember("point"); editor.step(\'member set+ object:1 name "gate"\')',
             [row('added', (count, count, 0), outline=True, about=['object', 1]) for count in (8, 9, 10, 11)]),
    Scenario('own members of a layer', 'walls = document.layers["Walls"]\nwalls.opacity = 0\nwalls.opacity = 0\nwalls.members.update(parallaxx=2, class_="a")\n'
             'walls.tint = None\ndel walls.members["parallaxx"]\neditor.step(\'member set+ layer:3 name "Fences"\')',
             'const walls = document.layers.get("Walls"); walls.opacity = 0; walls.opacity = 0; walls.setMembers({ parallaxx: 2, class_: "a" });'
             'walls.tint = null; walls.removeMember("parallaxx"); editor.step(\'member set+ layer:3 name "Fences"\')',
             [row('added', (count, count, 0), outline=True, about=['layer', 3]) for count in (8, 9, 10, 11)]),
    Scenario('own members that merge', 'for opacity in (0, 2, 1): document.layers["Walls"].members.set("opacity", opacity, merge=True)',
             'for (const opacity of [0, 2, 1]) { document.layers.get("Walls").setMember("opacity", opacity, { merge: true }); }',
             [row(became, (count, count, 0), outline=True, about=['layer', 3]) for became, count in (('added', 8), ('merged', 8), ('gone', 7))]),
    Scenario('own members of the map', 'document.class_name = "level"\ndocument.class_name = "level"\ndocument.members.put({"orientation": "isometric"})\n'
             'document.undo()',
             'document.className = "level"; document.className = "level"; document.setMembers({ orientation: "isometric" }); document.undo()',
             [row('added', (8, 8, 0), outline=True, about=['map', 0]), row('added', (9, 9, 0), outline=True, about=['map', 0]),
              row('turned', (8, 9, 0), outline=True, about=['map', 0])]),
    Scenario('a property of the map', 'document.properties["people"] = 4', 'document.properties.set("people", 4)',
             [row('added', (8, 8, 0), outline=True, about=['map', 0])]),
    plain('a property as a file has it', 'document.properties.put({"name": "two words", "value": 4}); document.properties.put({"name": "two words", "value": 4})',
          row('added', (8, 8, 0), outline=True, about=['map', 0])),
    Scenario('an object in another place', 'door = document.objects["door"]\ndoor.move_into("Things")\ndocument.undo()',
             'const door = document.objects.get("door"); door.moveInto("Things"); document.undo()',
             [row('added', (8, 8, 0), outline=True, about=['object', 1]), row('turned', (7, 8, 0), outline=True, about=['object', 1])]),
    Scenario('a layer in a group', 'houses = document.layers.add("group", "Houses")\ndocument.layers["Walls"].move_into(houses)\ndocument.undo()',
             'const houses = document.layers.add("group", "Houses"); document.layers.get("Walls").moveInto(houses); document.undo()',
             [row('added', (8, 8, 0), outline=True, cells='all', about=['layer', 4]), row('added', (9, 9, 0), outline=True, cells='all', about=['layer', 3]),
              row('turned', (8, 9, 0), outline=True, cells='all', about=['layer', 3])]),
    plain('room around the map', 'document.extend(1, 0, 0, 2)', row('added', (8, 8, 0), outline=True, selection=True, cells='all', about=['map', 0])),
    plain('a tileset', 'document.tilesets.add(33, "b.tsj")', row('added', (8, 8, 0), outline=True, about=['tileset', 33])),
    plain('marks', 'document.clear(); document.limit(2)', row('nothing', (0, 0, 0, True))),
    plain('steps that are dropped', 'document.clear(); document.limit(1); document.fill(1, 3, 2, 4); document.erase(1, 0, 0, 1, 1)',
          row('nothing', (0, 0, 0, True)), row('added', (1, 1, 0), cells=[1, 0, 0, 4, 3], about=['layer', 1]),
          row('added and dropped', (1, 1, 0), cells=[1, 0, 0, 1, 1], about=['layer', 1])),
    Scenario('a macro', 'with document.macro("A"):\n  document.stamp(1, 1, 0, [[5, 6]])', 'document.macro("A", () => document.stamp(1, 1, 0, [[5, 6]]))',
             [row('nothing', (7, 8, 1)), row('added', (7, 8, 1), cells=WALLS, about=['layer', 1]), row('added', (8, 8, 0), about=['layer', 1])]),
    Scenario('a macro without an edit', 'with document.macro("A"):\n  document.width', 'document.macro("A", () => document.width)', []),
    Scenario('a macro that fails',
             'try:\n  with document.macro("A"):\n    document.stamp(1, 1, 0, [[5, 6]])\n    document.undo()\nexcept roskevad.Refused:\n  pass',
             'try { document.macro("A", () => { document.stamp(1, 1, 0, [[5, 6]]); document.undo(); }); } catch {}',
             [row('nothing', (7, 8, 1)), row('added', (7, 8, 1), cells=WALLS, about=['layer', 1]), row('added', (8, 8, 0), about=['layer', 1]),
              row('turned', (7, 8, 0), cells=WALLS, about=['layer', 1])]),
    Scenario('a stroke', 'with document.stroke():\n  document.stamp(1, 1, 0, [[5]])\n  document.stamp(1, 2, 0, [[5]])\n  document.stamp(1, 2, 0, [[5]])',
             'document.stroke(() => { for (const x of [1, 2, 2]) document.stamp(1, x, 0, [[5]]); })',
             [row('added', (8, 8, 0), cells=[1, 1, 0, 1, 1], about=['layer', 1]), row('merged', (8, 8, 0), cells=[1, 2, 0, 1, 1], about=['layer', 1])]),
    Scenario('a stroke that is taken back', 'with document.stroke():\n  for value in (5, 1, 6): document.stamp(1, 0, 0, [[value]])',
             'document.stroke(() => { for (const value of [5, 1, 6]) document.stamp(1, 0, 0, [[value]]); })',
             [row('added', (8, 8, 0), cells=[1, 0, 0, 1, 1], about=['layer', 1]), row('gone', (7, 7, 0), cells=[1, 0, 0, 1, 1], about=['layer', 1]),
              row('added', (8, 8, 0), cells=[1, 0, 0, 1, 1], about=['layer', 1])]),
    Scenario('rows with zeros', 'document.layers[1].write(0, 0, [[0, 5]])', 'document.layers.get(1).write(0, 0, [[0, 5]])',
             [row('nothing', (7, 8, 1)), row('added', (7, 8, 1), cells=[1, 0, 0, 1, 1], about=['layer', 1]),
              row('added', (7, 8, 1), cells=[1, 1, 0, 1, 1], about=['layer', 1]), row('added', (8, 8, 0), about=['layer', 1])]),
    Scenario('lines', 'editor.step("stamp 1 1 0 2 5,6")\neditor.step_bytes(b"undo")\neditor.run_lines(["status", "clean", "tile 1 0 0", "dirty", "dirty"])',
             'editor.step("stamp 1 1 0 2 5,6"); editor.stepBytes("undo"); editor.runLines(["status", "clean", "tile 1 0 0", "dirty", "dirty"])',
             [row('added', (8, 8, 0), cells=WALLS, about=['layer', 1]), row('turned', (7, 8, 0), cells=WALLS, about=['layer', 1]),
              row('nothing', (7, 8, 0, True)), row('nothing', (7, 8, 0))]),
    Scenario('lines up to a refused one', 'try:\n  editor.run_lines(["stamp 1 1 0 2 5,6", "stamp 9 0 0 1 1", "undo"])\nexcept roskevad.Refused:\n  pass',
             'try { editor.runLines(["stamp 1 1 0 2 5,6", "stamp 9 0 0 1 1", "undo"]); } catch {}',
             [row('added', (8, 8, 0), cells=WALLS, about=['layer', 1])]),
    Scenario('lines of two documents', 'editor.run_lines(["new b 2 2 8 8 b.tsj", "stamp 1 0 0 1 1", "use town", "stamp 1 1 0 2 5,6", "use b", "undo"])',
             'editor.runLines(["new b 2 2 8 8 b.tsj", "stamp 1 0 0 1 1", "use town", "stamp 1 1 0 2 5,6", "use b", "undo"])',
             [row('added', (8, 8, 0), cells=WALLS, about=['layer', 1])]),
    Scenario('a save', 'document.save_bytes()', 'await document.saveBytes()', [row('nothing', (7, 7, 0, True))]),
    plain('another document', 'editor.new("b", 2, 2, 8, 8, "b.tsj").stamp(1, 0, 0, [[1]])'),
    plain('a closed document', 'document.stamp(1, 1, 0, [[5, 6]]); document.discard()', row('added', (8, 8, 0), cells=WALLS, about=['layer', 1])),
]


def told_row(told):
    cells = list(told.cells) if isinstance(told.cells, tuple) else told.cells
    about = None if told.subject is None else list(told.subject)
    return [told.became, told.outline, told.selection, cells, about, told.index, told.count, told.depth, told.is_clean]


def fault_in_python(case):
    with Editor() as editor:
        editor.run_lines(LINES)
        document, seen = editor.active, []
        document.watch(lambda told: seen.append(told_row(told)))
        exec(case.given, {'roskevad': sys.modules['roskevad'], 'editor': editor, 'document': document})
        return unlike(case.wanted, seen)


def test_python():
    check_each([Case(each.name, each.python, each.wanted) for each in SCENARIOS], fault_in_python)


# What is told, as `row` has it.
SEEN = '''globalThis.seen = []; document.on("change", (told) => { const {cells, subject} = told;
  globalThis.seen.push([told.became, told.outline, told.selection, cells && cells !== "all" ? Object.values(cells) : cells,
    subject && Object.values(subject), told.index, told.count, told.depth, told.isClean]); });'''


def in_node(cases):
    """What scenarios of JavaScript give: the values behind their calls."""
    given = [{'lines': LINES, 'code': code, 'values': [value]} for code, value in cases]
    words = ['node', TESTS / 'module' / 'scenarios.mjs']
    done = subprocess.run(words, input=json.dumps(given), capture_output=True, text=True, cwd=TOP)
    assert done.returncode == 0, done.stderr[-2000:]
    return [each['told'][0] if each['told'] else each['state'] for each in json.loads(done.stdout)]


def test_javascript():
    came = in_node([(f'{SEEN} {each.javascript}', 'globalThis.seen') for each in SCENARIOS])
    check_each([Case(each.name, told, each.wanted) for each, told in zip(SCENARIOS, came)], lambda case: unlike(case.wanted, case.given))


# ---- what a callback may do

# What is refused in a callback: what edits, says a line, or changes which documents are open or active.
REFUSED = {
    'python': [
        'document.stamp(1, 0, 0, [[2]])', 'document.undo()', 'document.mark_dirty()', 'document.layers[1].write(0, 0, [[0]])', 'document.save_bytes()',
        'document.layers.add("tile", "a")', 'document.macro("A").__enter__()', 'document.discard()', 'editor.step("status")', 'editor.step_bytes(b"undo")',
        'editor.run_lines(["status"])', 'editor.new("c", 1, 1, 1, 1, "a")', 'editor.open(b"{}")', 'setattr(editor, "active", None)',
        'setattr(editor, "active", document)', 'editor.put_file("a", b"")', 'editor.remove_file("a")', 'editor.save_file("/dev/null/a")', 'editor.save_map()',
    ],
    'javascript': [
        'document.stamp(1, 0, 0, [[2]])', 'document.undo()', 'document.markDirty()', 'document.layers.get(1).write(0, 0, [[0]])',
        'document.layers.add("tile", "a")', 'document.macro("A", () => 0)', 'document.discard()', 'editor.step("status")', 'editor.stepBytes("undo")',
        'editor.runLines(["status"])', 'editor.runBytes("undo")', 'editor.new("c", 1, 1, 1, 1, "a")', 'editor.active = null', 'editor.active = document',
        'editor.putFile("a", "")', 'editor.removeFile("a")',
    ],
}


def test_what_is_refused_in_python():
    with Editor() as editor:
        editor.run_lines(LINES)
        document, names = editor.active, []

        def seen(told):
            for code in REFUSED['python']:
                try:
                    eval(code, {'editor': editor, 'document': document})
                except Exception as fault:
                    names.append((code, type(fault).__name__))

        with document.watch(seen):
            document.stamp(1, 1, 1, [[5]])
        see([(code, 'InCallback') for code in REFUSED['python']], names)
        see((8, 8, 0), (document.status.index, document.status.count, document.status.depth))
        # Nor does a macro begin that waits for its first edit.
        other = editor.new('b', 2, 2, 8, 8, 'b.tsj')
        with document.macro('A'), other.watch(lambda told: raised(InCallback, document.stamp, 1, 2, 1, [[5]])):
            other.stamp(1, 0, 0, [[1]])
        see((8, 8, 0), (document.status.index, document.status.count, document.status.depth))


def test_what_is_refused_in_javascript():
    calls = ', '.join(f'[{json.dumps(code)}, () => {{ {code}; }}]' for code in REFUSED['javascript'])
    code = f'''globalThis.names = []; document.on("change", () => {{ for (const [code, call] of [{calls}]) {{
      try {{ call(); globalThis.names.push([code, "nothing"]); }} catch (fault) {{ globalThis.names.push([code, fault.name]); }} }} }});
      document.stamp(1, 1, 1, [[5]]);'''
    came = in_node([(code, '[globalThis.names, document.status.index, document.status.count, document.status.depth]')])[0]
    see([[[code, 'InCallback'] for code in REFUSED['javascript']], 8, 8, 0], came)


def test_a_callback_reads():
    """Also other documents: behind it the same one is active, and the call goes on with its own."""
    with Editor() as editor:
        editor.run_lines(LINES)
        document, other, read = editor.active, editor.new('b', 6, 2, 8, 8, 'b.tsj'), []
        document.watch(lambda told: read.append([other.width, document.width, document.layers[1].rows(0, 0, 2, 1)]))
        document.layers[1].write(0, 0, [[0, 5]])
        see([[6, 4, [[0, 5]]]] * 4 + [document], read + [editor.active])
    code = '''const other = editor.new("b", 6, 2, 8, 8, "b.tsj"); globalThis.read = [];
      document.on("change", () => globalThis.read.push([other.width, document.width, document.layers.get(1).rows(0, 0, 2, 1)]));
      document.layers.get(1).write(0, 0, [[0, 5]]); globalThis.read.push(editor.active.name)'''
    see([[6, 4, [[0, 5]]]] * 4 + ['town'], in_node([(code, 'globalThis.read')])[0])


def test_faults_of_a_callback():
    """They are logged, and spoil neither the edit nor what others are told; what is no Exception goes on, behind the edit."""
    with Editor() as editor:
        editor.run_lines(LINES)
        document, seen, logged = editor.active, [], []
        handler = logging.Handler()
        handler.emit = lambda record: logged.append((record.levelname, record.exc_info[0]))
        logging.getLogger('roskevad').addHandler(handler)

        def fail(kind):
            def callback(told):
                raise kind

            return callback

        try:
            with document.watch(fail(ValueError)), document.watch(seen.append):
                document.layers.add('tile', 'Roof')
            see(([('ERROR', ValueError)], 1, 8), (logged, len(seen), document.status.count))
            with document.watch(fail(KeyboardInterrupt)):
                raised(KeyboardInterrupt, document.stamp, 'Roof', 0, 0, [[1]])
            see((9, [1]), (document.status.count, list(document.layers['Roof'].cells(0, 0, 1, 1))))
        finally:
            logging.getLogger('roskevad').removeHandler(handler)
    code = '''const {error} = console; globalThis.logged = []; console.error = (...words) => globalThis.logged.push(words[1].name); globalThis.seen = 0;
      const ends = [document.on("change", () => { throw new RangeError(); }), document.on("change", () => { globalThis.seen += 1; })];
      globalThis.name = document.layers.add("tile", "Roof").name; ends.forEach((end) => end()); ends[0](); document.undo(); console.error = error;'''
    see([['RangeError'], 1, 'Roof'], in_node([(code, '[globalThis.logged, globalThis.seen, globalThis.name]')])[0])


def test_ends():
    """By `end`, by a `with`, in a callback, by the end of the document, also where another one has its name then, and of the editor."""
    with Editor() as editor:
        editor.run_lines(LINES)
        document, seen = editor.active, []
        first = document.watch(lambda told: (seen.append('first'), first.end()))
        second = document.watch(lambda told: seen.append('second'))
        for at in range(2):
            document.stamp(1, at, 1, [[5]])
        first.end(), second.end(), second.end()
        document.stamp(1, 2, 1, [[5]])
        see(['first', 'second', 'second'], seen)
        document.watch(seen.append)
        editor.run_lines(['discard town', 'new town 1 1 1 1 a.tsj', 'stamp 1 0 0 1 1'])
        see((3, True, False), (len(seen), document.is_closed, editor.active.is_closed))
        raised(Closed, document.watch, print)
        editor.active.watch(lambda told: editor.close())
        editor.step('undo')
        raised(Closed, editor.step, 'status')


def test_threads():
    """A callback is called in the thread of the call, once for each line."""
    with Editor() as editor:
        document = editor.new('a', 8, 8, 16, 16, 'a.tsj')
        seen = []
        document.watch(lambda told: seen.append((threading.get_ident(), told.index)))
        started = threading.Barrier(4)

        def work(number):
            started.wait()
            for at in range(50):
                document.stamp(1, number, at % 8, [[at + 1]])

        threads = [threading.Thread(target=work, args=[number]) for number in range(4)]
        for thread in threads:
            thread.start()
        for thread in threads:
            thread.join()
        see((list(range(1, 201)), {thread.ident for thread in threads}), ([index for _, index in seen], {thread for thread, _ in seen}))


# ---- steps


def test_steps():
    """Of each kind of step, with an open macro last; from any place on."""
    with Editor() as editor:
        see(([], []), (editor.steps(), editor.steps(3)))
        editor.run_lines([*LINES, 'select replace 0 0 1 1', 'resize 5 4 0 0', 'tileset add 40 b.tsj', 'begin M', 'stamp 1 0 0 1 6', 'object move 1 2 2'])
        document = editor.active
        wanted = [
            ['Add Layer', False, ['layer', 2], True], ['Add Layer', False, ['layer', 3], True], ['Add Object', False, ['object', 1], True],
            ['Set Property', False, ['map', 0], True], ['Set Property', False, ['map', 0], True], ['Set Property', False, ['object', 1], True],
            ['Stamp', False, ['layer', 1], False], ['Select', False, None, False], ['Resize Map', False, ['map', 0], True],
            ['Add Tileset', False, ['tileset', 40], True], ['M', True, None, True],
        ]
        rows = document.steps_since(0)
        see([[text, *more] for text, *more in wanted], [[each.text, each.is_macro, each.subject and list(each.subject), each.outline] for each in rows])
        see(([1, 0, 0, 1, 1], True, 'all'), (list(rows[6].cells), rows[7].selection, rows[8].cells))
        see((list(range(11)), rows[9:], [], rows[2:5]), ([each.at for each in rows], document.steps_since(9), document.steps_since(11), editor.steps(2, 5)))
        see([each.text for each in document.steps], [each.text for each in rows])
    lines = ', '.join(f'"object move 1 {at} 3"' for at in range(2000))
    code = f'editor.runLines([{lines}]); editor.step("begin M")'
    value = '[document.stepsSince(0).map((each) => each.at), editor.steps(2005, 2009), document.stepsSince(6)[0], editor.steps(5000)]'
    ats, last, stamp, none = in_node([(code, value)])[0]
    moved = {'isMacro': False, 'subject': {'kind': 'object', 'id': 1}, 'outline': True, 'selection': False, 'cells': None}
    opened = {'at': 2007, 'text': 'M', 'isMacro': True, 'subject': None, 'outline': False, 'selection': False, 'cells': None}
    see((list(range(2008)), [*({'at': at, 'text': 'Move Object', **moved} for at in (2005, 2006)), opened], []), (ats, last, none))
    see((6, 'Stamp', {'layer': 1, 'x': 0, 'y': 0, 'width': 1, 'height': 1}), (stamp['at'], stamp['text'], stamp['cells']))


def test_refusals():
    """What is told of a refused line has its number, and nothing differs."""
    with Editor() as editor:
        editor.run_lines(LINES)
        for line, code in (('undo now', 4), ('goto 0 0', 4), ('stamp 9 0 0 1 1', 30), ('use other', 12), ('frob', 3)):
            see(code, raised(Refused, editor.step, line).code)
            told = editor.told()
            see((code, 'nothing', None, False, 7), (told.refusal, told.became, told.cells, told.documents or told.outline or told.selection, told.index))


# ---- a copy that reads what differs

# Lines by chance, and calls of them.
FORMS = """stamp 1 # # 2 5,6,7,8;stamp+ 1 # # 1 #;erase 1 # # 2 #;fill 1 # # #;select add # # 2 2;select none;layer add tile L;layer add object O
layer rename # N;layer show # no;layer move # 0;layer remove #;resize 3# 30 # 0;object add 5 1 1 2 2 o;object move # 5 #;object move+ # 6 #
object remove #;member set object:# rotation #;member put object:# {"name":"n#","x":#};member remove object:# rotation
layer add group G;layer into # # 0;layer into # 0 #;object put 5 {"x":#};object into # 5 #;object into # # 0;extend # 0 1 0
prop put map {"name":"k #","value":#};prop put object:# {"name":"k","value":{"a":#}};prop take map "k #"
prop set map k# int 1;prop remove map k#;tileset add 10#0 t.tsj;undo;undo;redo;goto #;clean;dirty;clear;begin A;end;end;status
use other;use town;limit #"""


class Copy:
    """A copy of a document, in which only what is told to differ is read anew."""

    def __init__(self, document):
        self.document = document
        self.outline, self.selection, self.cells = document.outline(), document.selection, self.all_cells()
        self.steps, self.standing, self.size = document.steps_since(0), self.standing_now(), self.size_now()
        document.watch(self.take)

    def standing_now(self):
        status = self.document.status
        return status.index, status.count, status.clean, status.depth

    def size_now(self):
        return self.document.width, self.document.height

    def all_cells(self):
        return {layer.id: layer.rows() for layer in self.document.layers.walk() if layer.kind == 'tile'}

    def take(self, told):
        assert not told.documents
        if told.outline:
            self.outline = self.document.outline()
        if told.selection:
            self.selection = self.document.selection
        if told.cells == 'all':
            self.cells = self.all_cells()
        elif told.cells is not None:
            layer, x, y, width, height = told.cells
            for at, values in enumerate(self.document.layers[layer].rows(x, y, width, height), y):
                self.cells[layer][at][x:x + width] = values
        size, self.size = self.size, self.size_now()
        # The cells of steps are told as far as they lie in the map as it is.
        place = 0 if told.dropped or size != self.size else max(min(told.before, told.index) - 1, 0)
        self.steps[place:] = self.document.steps_since(place)
        self.standing = told.index, told.count, told.is_clean, told.depth

    def fault(self):
        wanted = self.document.outline(), self.document.selection, self.all_cells(), self.document.steps_since(0), self.standing_now()
        return unlike(wanted, (self.outline, self.selection, self.cells, self.steps, self.standing))


def test_what_is_told_is_enough():
    numbers = random.Random(11)
    forms = [each.strip() for each in FORMS.replace('\n', ';').split(';')]
    with Editor() as editor:
        copies = [Copy(editor.open(TOWN)), Copy(editor.new('other', 30, 30, 16, 16, 'a.tsj'))]
        for turn in range(400):
            lines = []
            for form in numbers.choices(forms, k=numbers.choice((1, 1, 3))):
                while '#' in form:
                    form = form.replace('#', str(numbers.randrange(1, 9)), 1)
                lines.append(form)
            try:
                editor.step(lines[0]) if len(lines) == 1 else editor.run_lines(lines)
            except Refused:
                pass
            for copy in copies:
                fault = copy.fault()
                assert not fault, f'turn {turn}, {lines}: {fault}'
