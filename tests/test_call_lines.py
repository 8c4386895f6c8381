# SPDX-License-Identifier: MIT OR Apache-2.0
"""Does calls of documents in both packages, and beside them the lines that they stand for: documents,
maps, steps and selections are the same then. So it tries stamps of any size, macros that fail,
strokes, properties of each type, things that are added and moved, and what the views tell."""
import json

from lib.scenarios import Scenario, check_in_javascript, check_in_python, plain

PACKAGES = ('nodejs',)
# A map in which a stamp of all cells is longer than a line, and a stamp of its first cell.
LARGE = ['new large 200 200 16 16 town.tsj', 'stamp 1 0 0 1 1']


def grouped_map():
    """A map with groups, an embedded tileset of two tiles, and one that a file has."""
    shape = {'height': 4, 'id': 1, 'name': '', 'rotation': 0, 'type': '', 'visible': True, 'width': 4, 'x': 0, 'y': 0}
    tile = {'id': 1, 'objectgroup': {'draworder': 'index', 'name': '', 'objects': [shape]},
            'properties': [{'name': 'solid', 'type': 'bool', 'value': True}], 'type': 'Wall'}
    embedded = {'columns': 2, 'firstgid': 1, 'image': 'a.png', 'imageheight': 8, 'imagewidth': 16, 'margin': 0, 'name': 'own', 'spacing': 0,
                'tilecount': 2, 'tileheight': 8, 'tiles': [tile], 'tilewidth': 8}

    def named(id, name, **more):
        return {'id': id, 'name': name, 'opacity': 1, 'visible': True, 'x': 0, 'y': 0, **more}

    def group(id, name, *layers):
        return named(id, name, type='group', layers=list(layers))

    def tiles(id, name):
        return named(id, name, type='tilelayer', data=[0] * 4, height=2, width=2)

    layers = [group(1, 'Houses', tiles(2, 'Walls'), group(3, 'Smithy', tiles(4, 'Walls'))), tiles(5, 'a/b')]
    return json.dumps({
        'height': 2, 'infinite': False, 'layers': layers, 'nextlayerid': 6, 'nextobjectid': 1, 'orientation': 'orthogonal',
        'renderorder': 'right-down', 'tileheight': 8, 'tilesets': [embedded, {'firstgid': 3, 'source': 'b.tsx'}], 'tilewidth': 8,
        'type': 'map', 'version': '1.10', 'width': 2,
    })


GROUPED = grouped_map()


SCENARIOS = [
    plain('stamp', 'document.stamp(1, 1, 0, [[5, 6], [0, 8]]); document.stamp("Walls", -1, 2, [[7, 7, 7]])',
          ['stamp 1 1 0 2 5,6,0,8', 'stamp 3 -1 2 3 7,7,7']),
    Scenario('a stamp that merges', 'document.stamp(1, 1, 0, [[5]], merge=True)', 'document.stamp(1, 1, 0, [[5]], { merge: true })',
             ['stamp+ 1 1 0 1 5']),
    Scenario('other rows', 'import array\ndocument.stamp(1, 0, 0, (array.array("I", [5, 6]), range(7, 9)))\n'
             'document.stamp(1, 0, 2, memoryview(bytes([3, 4, 5, 6])).cast("B", (2, 2)))',
             'document.stamp(1, 0, 0, [Uint32Array.of(5, 6), new Set([7, 8])]); document.stamp(1, 0, 2, [[3, 4], [5, 6]])',
             ['stamp 1 0 0 2 5,6,7,8', 'stamp 1 0 2 2 3,4,5,6']),
    plain('erase and fill', 'document.erase(1, 0, 0, 2, 1); document.fill("Walls", 3, 2, 9)', ['erase 1 0 0 2 1', 'fill 3 3 2 9']),
    Scenario('selections', 'document.select(0, 0, 2, 2)\ndocument.select(3, 0, 1, 3, mode="add")\ndocument.select(0, 0, 1, 1, "subtract")',
             'document.select(0, 0, 2, 2); document.select(3, 0, 1, 3, { mode: "add" }); document.select(0, 0, 1, 1, { mode: "subtract" })',
             ['select replace 0 0 2 2', 'select add 3 0 1 3', 'select subtract 0 0 1 1'],
             [('[(x, y) in document.selection for x, y in ((0, 0), (1, 0), (2, 0), (3, 2), (3, 3), (-1, 0))]',
               '[[0, 0], [1, 0], [2, 0], [3, 2], [3, 3], [-1, 0]].map(([x, y]) => document.selection.has(x, y))',
               [False, True, False, True, False, False]),
              ('[list(cell) for cell in document.selection]', '[...document.selection]', [[1, 0], [3, 0], [0, 1], [1, 1], [3, 1], [3, 2]]),
              ('len(document.selection)', 'document.selection.size', 6),
              ('[[run.row, run.column, run.length] for run in document.selection.runs]',
               'document.selection.runs.map((run) => [run.row, run.column, run.length])', [[0, 1, 1], [0, 3, 1], [1, 0, 2], [1, 3, 1], [2, 3, 1]])]),
    Scenario('no selection, and sizes', 'document.select(0, 0, 2, 2)\ndocument.select_none()\ndocument.resize(5, 4, 1, -1)',
             'document.select(0, 0, 2, 2); document.selectNone(); document.resize(5, 4, 1, -1)',
             ['select replace 0 0 2 2', 'select none', 'resize 5 4 1 -1'],
             [('[document.width, document.height, document.tile_width, document.tile_height]',
               '[document.width, document.height, document.tileWidth, document.tileHeight]', [5, 4, 16, 16])]),
    plain('history', 'document.undo(); document.undo(); document.redo(); document.goto(3); document.clear(); document.limit(2)',
          ['undo', 'undo', 'redo', 'goto 3', 'clear', 'limit 2']),
    Scenario('marks', 'document.mark_dirty()\nfirst = document.clean_index\ndocument.mark_clean()',
             'document.markDirty(); document.markClean()', ['dirty', 'clean'],
             [('document.clean_index', 'document.cleanIndex', 7),
              ('[document.status.index, document.status.count, document.status.clean, document.status.depth]',
               '[document.status.index, document.status.count, document.status.clean, document.status.depth]', [7, 7, True, 0]),
              ('[document.undo_text, document.redo_text]', '[document.undoText, document.redoText]', ['stamp tiles', ''])]),
    # ---- macros
    Scenario('a macro', 'with document.macro("Fence", action="draw fence"):\n  document.stamp(1, 0, 0, [[5]])',
             'document.macro("Fence", () => document.stamp(1, 0, 0, [[5]]), { action: "draw fence" })',
             ['begin Fence || draw fence', 'stamp 1 0 0 1 5', 'end'],
             [('[[step.text, step.action, step.is_macro] for step in document.steps][-2:]',
               'document.steps.map((step) => [step.text, step.action, step.isMacro]).slice(-2)',
               [['Stamp', 'stamp tiles', False], ['Fence', 'draw fence', True]])]),
    Scenario('a macro that fails', 'try:\n  with document.macro("A"):\n    document.stamp(1, 0, 0, [[5]])\n    document.layers["none"]\n'
             'except KeyError:\n  pass',
             'try { document.macro("A", () => { document.stamp(1, 0, 0, [[5]]); document.layers.get("none"); }); } catch (fault) {'
             ' if (!(fault instanceof roskevad.NotFound)) throw fault; }',
             ['begin A', 'stamp 1 0 0 1 5', 'end', 'undo']),
    Scenario('an inner macro that fails', 'with document.macro("A"):\n  try:\n    with document.macro("B"):\n      document.stamp(1, 0, 0, [[5]])\n'
             '      document.stamp(2, 0, 0, [[5]])\n  except roskevad.Refused:\n    document.stamp(1, 1, 0, [[6]])',
             'document.macro("A", () => { try { document.macro("B", () => { document.stamp(1, 0, 0, [[5]]); document.stamp(2, 0, 0, [[5]]); });'
             ' } catch { document.stamp(1, 1, 0, [[6]]); } })',
             ['begin A', 'begin B', 'stamp 1 0 0 1 5', 'end', 'stamp 1 1 0 1 6', 'end']),
    Scenario('two macros that fail', 'try:\n  with document.macro("A"):\n    with document.macro("B"):\n      document.stamp(2, 0, 0, [[5]])\n'
             'except roskevad.Refused:\n  pass',
             'try { document.macro("A", () => document.macro("B", () => document.stamp(2, 0, 0, [[5]]))); } catch {}',
             ['begin A', 'begin B', 'end', 'end', 'undo']),
    Scenario('a macro in one of lines that fails', 'editor.step("begin A")\ntry:\n  with document.macro("B"):\n    document.stamp(2, 0, 0, [[5]])\n'
             'except roskevad.Refused:\n  pass',
             'editor.step("begin A"); try { document.macro("B", () => document.stamp(2, 0, 0, [[5]])); } catch {}',
             ['begin A', 'begin B', 'end']),
    Scenario('macros that lines end and begin', 'with document.macro("A"):\n  editor.step("end")\nwith document.macro("B"):\n  editor.step("begin C")',
             'document.macro("A", () => editor.step("end")); document.macro("B", () => editor.step("begin C"))',
             ['begin A', 'end', 'begin B', 'begin C', 'end', 'end']),
    Scenario('a document that is closed in its macro', 'try:\n  with document.macro("A"):\n    document.discard()\n    document.undo()\n'
             'except roskevad.Closed:\n  pass',
             'try { document.macro("A", () => { document.discard(); document.undo(); }); } catch (fault) {'
             ' if (!(fault instanceof roskevad.Closed)) throw fault; }',
             ['discard town']),
    Scenario('a macro without an edit', 'document.undo()\nwith document.macro("A"), document.macro("B"):\n  assert document.status.depth == 2\n'
             '  document.layers["Things"].name, document.steps, editor.step("status")\nassert document.status.depth == 0',
             'document.undo(); document.macro("A", () => document.macro("B", () => { document.layers.get("Things").name; document.steps;'
             ' if (document.status.depth !== 2) throw new Error("depth"); editor.step("status"); }))',
             ['undo'], [('document.redo_text', 'document.redoText', 'stamp tiles')]),
    Scenario('a macro without an edit that fails', 'document.undo()\ntry:\n  with document.macro("A"):\n    document.layers["none"]\n'
             'except KeyError:\n  pass',
             'document.undo(); try { document.macro("A", () => document.layers.get("none")); } catch {}', ['undo']),
    Scenario('a macro that is kept without an edit', 'with document.macro("A", action="do nothing", keep_empty=True):\n  pass',
             'document.macro("A", () => 0, { action: "do nothing", keepEmpty: true })', ['begin A || do nothing', 'end']),
    Scenario('macros that begin with an edit in one of them', 'with document.macro("A"):\n  with document.macro("B"):\n    pass\n'
             '  with document.macro("C"):\n    document.layers[1].name = "Ground"\n  with document.macro("D"):\n    pass',
             'document.macro("A", () => { document.macro("B", () => 0); document.macro("C", () => { document.layers.get(1).name = "Ground"; });'
             ' document.macro("D", () => 0); })',
             ['begin A', 'begin C', 'layer rename 1 Ground', 'end', 'end']),
    Scenario('an empty macro around one that is kept', 'with document.macro("A"):\n  with document.macro("B", keep_empty=True):\n    pass',
             'document.macro("A", () => document.macro("B", () => 0, { keepEmpty: true }))', ['begin A', 'begin B', 'end', 'end']),
    Scenario('a macro of lines', 'with document.macro("A"):\n  editor.step("stamp 1 0 0 1 5")\nwith document.macro("B"):\n'
             '  editor.step_bytes(b"stamp 1 1 0 1 5")\nwith document.macro("C"):\n  editor.run_lines(["status", "erase 1 0 0 1 1"])',
             'document.macro("A", () => editor.step("stamp 1 0 0 1 5")); document.macro("B", () => editor.stepBytes("stamp 1 1 0 1 5"));'
             'document.macro("C", () => editor.runLines(["status", "erase 1 0 0 1 1"]))',
             ['begin A', 'stamp 1 0 0 1 5', 'end', 'begin B', 'stamp 1 1 0 1 5', 'end', 'begin C', 'erase 1 0 0 1 1', 'end']),
    Scenario('a macro of paints that change nothing', 'with document.macro("A"):\n  document.stamp(1, 0, 0, [[1, 0], [0, 0]])\n'
             '  document.stamp(1, 9, 9, [[5]])\n  document.erase(1, 1, 1, 9, 9)\n  document.fill(1, 0, 0, 1)\n'
             '  document.layers[1].write(0, 0, [[1, 0], [0, 0]])',
             'document.macro("A", () => { document.stamp(1, 0, 0, [[1, 0], [0, 0]]); document.stamp(1, 9, 9, [[5]]); document.erase(1, 1, 1, 9, 9);'
             ' document.fill(1, 0, 0, 1); document.layers.get(1).write(0, 0, [[1, 0], [0, 0]]); })',
             ['stamp 1 0 0 2 1,0,0,0']),
    Scenario('paints outside the selection', 'document.select(3, 2, 1, 1)\nwith document.macro("A"):\n  document.stamp(1, 0, 0, [[5]])\n'
             '  document.erase(1, 0, 0, 1, 1)\nwith document.macro("B"):\n  document.stamp(1, 0, 0, [[5] * 4] * 3)',
             'document.select(3, 2, 1, 1); document.macro("A", () => { document.stamp(1, 0, 0, [[5]]); document.erase(1, 0, 0, 1, 1); });'
             'document.macro("B", () => document.stamp(1, 0, 0, Array(3).fill([5, 5, 5, 5])))',
             ['select replace 3 2 1 1', 'begin B', 'stamp 1 0 0 4 5,5,5,5,5,5,5,5,5,5,5,5', 'end']),
    Scenario('what is refused in a macro before its first edit', 'document.undo()\ncodes = []\nwith document.macro("A"):\n'
             '  for call in (document.undo, document.redo, document.mark_clean, document.save_bytes, lambda: document.goto(0)):\n'
             '    try:\n      call()\n    except roskevad.Refused as refusal:\n      codes.append(refusal.code)\nassert codes == [20] * 5, codes',
             'document.undo(); const codes = []; const later = [];'
             'document.macro("A", () => { for (const call of [() => document.undo(), () => document.redo(), () => document.markClean(),'
             ' () => document.goto(0)]) { try { call(); } catch (fault) { codes.push(fault.code); } }'
             ' later.push(document.saveBytes()); }); codes.push((await later[0].catch((fault) => fault)).code);'
             'if (String(codes) !== "20,20,20,20,20") throw new Error(codes)',
             ['undo']),
    Scenario('macros of two documents', 'other = editor.new("b", 2, 2, 8, 8, "b.tsj")\nwith document.macro("A"), other.macro("B"):\n'
             '  other.stamp(1, 0, 0, [[5]])\ndocument.stamp(1, 0, 0, [[5]])',
             'const other = editor.new("b", 2, 2, 8, 8, "b.tsj"); document.macro("A", () => other.macro("B", () => other.stamp(1, 0, 0, [[5]])));'
             'document.stamp(1, 0, 0, [[5]])',
             ['new b 2 2 8 8 b.tsj', 'begin B', 'stamp 1 0 0 1 5', 'end', 'use town', 'stamp 1 0 0 1 5']),
    Scenario('lines of two documents in a macro', 'editor.new("b", 2, 2, 8, 8, "b.tsj")\nwith document.macro("A"):\n'
             '  editor.run_lines(["use b", "stamp 1 0 0 1 5"])\nwith document.macro("B"):\n'
             '  editor.run_lines(["use b", "stamp 1 1 0 1 5", "use town", "erase 1 0 0 1 1"])\nwith document.macro("C"):\n  try:\n'
             '    editor.run_lines(["use b", "status", "use town", "status", "stamp 9 0 0 1 1"])\n  except roskevad.Refused as refusal:\n'
             '    assert (refusal.place, len(refusal.replies)) == (4, 4), refusal.args',
             'editor.new("b", 2, 2, 8, 8, "b.tsj"); document.macro("A", () => editor.runLines(["use b", "stamp 1 0 0 1 5"]));'
             'document.macro("B", () => editor.runLines(["use b", "stamp 1 1 0 1 5", "use town", "erase 1 0 0 1 1"]));'
             'document.macro("C", () => { try { editor.runLines(["use b", "status", "use town", "status", "stamp 9 0 0 1 1"]); } catch (fault) {'
             ' if (fault.place !== 4 || fault.replies.length !== 4) throw fault; } })',
             ['new b 2 2 8 8 b.tsj', 'stamp 1 0 0 1 5', 'stamp 1 1 0 1 5', 'use town', 'begin B', 'erase 1 0 0 1 1', 'end', 'begin C', 'end']),
    # ---- writing zeros
    Scenario('rows over empty cells', 'document.layers[1].write(0, 0, [[5, 0], [0, 6]])', 'document.layers.get(1).write(0, 0, [[5, 0], [0, 6]])',
             ['stamp 1 0 0 2 5,0,0,6']),
    Scenario('rows that empty cells', 'document.layers[1].write(-1, 0, [[7, 0, 7], [0, 6, 0]])\ndocument.undo()\ndocument.redo()',
             'document.layers.get(1).write(-1, 0, [[7, 0, 7], [0, 6, 0]]); document.undo(); document.redo()',
             ['begin Write || write tiles', 'erase 1 -1 0 3 2', 'stamp 1 -1 0 3 7,0,7,0,6,0', 'end'],
             [('document.layers[1].rows(0, 0, 2, 2)', 'document.layers.get(1).rows(0, 0, 2, 2)', [[0, 7], [6, 0]])]),
    Scenario('rows of zeros', 'document.layers[1].write(0, 0, [[0, 0]])', 'document.layers.get(1).write(0, 0, [[0, 0]])', ['erase 1 0 0 2 1']),
    Scenario('rows that are there', 'document.layers[1].write(0, 0, [[1, 0]])', 'document.layers.get(1).write(0, 0, [[1, 0]])', []),
    Scenario('rows in a macro and in a stroke', 'with document.macro("A"):\n  document.layers[1].write(0, 0, [[0, 5]])\nwith document.stroke():\n'
             '  document.stamp(1, 0, 1, [[5]])\n  document.layers[1].write(1, 1, [[6]])\n  document.stamp(1, 2, 1, [[7]])',
             'document.macro("A", () => document.layers.get(1).write(0, 0, [[0, 5]])); document.stroke(() => { document.stamp(1, 0, 1, [[5]]);'
             ' document.layers.get(1).write(1, 1, [[6]]); document.stamp(1, 2, 1, [[7]]); })',
             ['begin A', 'begin Write || write tiles', 'erase 1 0 0 2 1', 'stamp 1 0 0 2 0,5', 'end', 'end', 'stamp 1 0 1 1 5', 'stamp 1 1 1 1 6',
              'stamp 1 2 1 1 7']),
    # ---- tiles replaced, and blocks turned
    plain('a tile replaced', 'document.stamp(1, 0, 0, [[5, 2147483653, 6], [0, 6, 5]]); document.layers{1}.replace(5, 7)',
          ['stamp 1 0 0 3 5,2147483653,6,0,6,5', 'stamp 1 0 0 3 7,2147483655,6,0,6,7']),
    plain('a tile replaced in the selection', 'document.stamp(1, 0, 0, [[5, 5]]); document.select(1, 0, 1, 1); document.layers{1}.replace(5, 7)',
          ['stamp 1 0 0 2 5,5', 'select replace 1 0 1 1', 'stamp 1 0 0 2 7,7']),
    plain('a tile that goes', 'document.stamp(1, 1, 1, [[536870917, 6, 5]]); document.layers{1}.replace(5, 0)',
          ['stamp 1 1 1 3 536870917,6,5', 'begin Write || write tiles', 'erase 1 1 1 3 1', 'stamp 1 1 1 3 0,6,0', 'end']),
    plain('a tile that is nowhere', 'document.layers{1}.replace(5, 7); document.layers{1}.replace(1, 1)', []),
    plain('empty cells replaced', 'document.layers{3}.replace(0, 5)', ['stamp 3 0 0 4 5,5,5,5,5,5,5,5,5,5,5,5']),
    plain('what a replacement counts', 'document.stamp(1, 0, 0, [[5, 5]]); document.select(1, 0, 1, 1)', ['stamp 1 0 0 2 5,5', 'select replace 1 0 1 1'],
          values=[('[document.layers[3].replace(5, 7), len(document.layers[1].rows())]',
                   '[document.layers.get(3).replace(5, 7), document.layers.get(1).rows().length]', [0, 3])]),
    plain('blocks', 'document.undo()', ['undo'],
          values=[('roskevad.turned_right([[1, 0x80000002, 0], [0x40000003, 4, 5]])',
                   'roskevad.turnedRight([[1, 0x80000002, 0], [0x40000003, 4, 5]])',
                   [[0x20000003, 0xA0000001], [0xA0000004, 0xE0000002], [0xA0000005, 0]]),
                  ('roskevad.flipped_horizontally([[1, 0], [0x80000002, 3]])', 'roskevad.flippedHorizontally([[1, 0], [0x80000002, 3]])',
                   [[0, 0x80000001], [0x80000003, 2]]),
                  ('roskevad.flipped_vertically([[1, 0], [2, 3]])', 'roskevad.flippedVertically([[1, 0], [2, 3]])',
                   [[0x40000002, 0x40000003], [0x40000001, 0]])]),
    Scenario('look-ups in groups', f"""groups = editor.open({GROUPED.encode()!r})
at = groups.layers
found = [at['Houses/Smithy/Walls'].id, at['Houses/Walls'].id, at['a/b'].id, at['Houses'].layers['Smithy/Walls'].id]
gone = [at.get('Houses/Inn'), at.get('Smithy/Walls'), at.get(9), at.find('Roof')]
said = []
for look in (lambda: at[0], lambda: at['Roof'], lambda: groups.objects[1]):
    try:
        look()
    except KeyError as fault:
        said.append(fault.args[0])
assert found == [4, 2, 5, 4] and gone == [None] * 4 and at.find('Walls').id == 2, (found, gone)
assert said == [
    'there is no layer 0 here: the ids are 1, 2, 3, 4, 5', "there is no layer 'Roof' here: the ids are 1, 2, 3, 4, 5",
    'there is no object 1 here, nor any other one'], said
assert [layer.parent and layer.parent.id for layer in at.walk()] == [None, 1, 1, 3, None]
assert [layer.id for layer in reversed(at)] == [5, 1] and [each.first_id for each in reversed(groups.tilesets)] == [3, 1]
groups.stamp('Houses/Smithy/Walls', 0, 0, [[1]])
assert at[4].tile(0, 0).value == 1
groups.discard()
editor.active = document""", f"""const groups = await editor.open({json.dumps(GROUPED)});
const at = groups.layers;
const found = ['Houses/Smithy/Walls', 'Houses/Walls', 'a/b'].map((path) => at.get(path).id);
found.push(at.get('Houses').layers.get('Smithy/Walls').id);
const gone = [at.find('Houses/Inn'), at.find('Smithy/Walls'), at.find('Roof'), groups.objects.find(1), groups.tilesets.find(9)];
const said = [() => at.get(0), () => at.get('Roof'), () => groups.objects.get(1)].map((look) => {{
  try {{ return look(); }} catch (fault) {{ return fault.message; }}
}});
const wanted = ['there is no layer 0 here: the ids are 1, 2, 3, 4, 5', 'there is no layer "Roof" here: the ids are 1, 2, 3, 4, 5',
  'there is no object 1 here, nor any other one'];
const parents = [...at.walk()].map((layer) => layer.parent?.id ?? 0);
const came = JSON.stringify([found, gone, at.find('Walls').id, said, parents]);
if (came !== JSON.stringify([[4, 2, 5, 4], [null, null, null, null, null], 2, wanted, [0, 1, 1, 3, 0]])) throw new Error(came);
groups.stamp('Houses/Smithy/Walls', 0, 0, [[1]]);
if (at.get(4).tile(0, 0).value !== 1) throw new Error('not stamped');
groups.discard();
editor.active = document;""", []),
    Scenario('tiles of tilesets', f"""groups = editor.open({GROUPED.encode()!r})
own, other = groups.tilesets
tiles = own.tiles
assert len(tiles) == 2 and tiles[0] == (0, '', {{}}, []) and tiles[1][:3] == (1, 'Wall', {{'solid': True}}), tiles
assert tiles[1].shapes[0]['width'] == 4 and other.tiles is None and other.members == {{'source': 'b.tsx'}}
assert own.members['tilecount'] == 2 and 'firstgid' not in own.members
assert other.tiles_in(b'<tileset tilecount="1" columns="1"><tile id="0" type="Mud"/></tileset>') == [(0, 'Mud', {{}}, [])]
assert other.tiles_in(b'{{"tilecount":1}}') == [(0, '', {{}}, [])]
groups.discard()
editor.active = document""", f"""const groups = await editor.open({json.dumps(GROUPED)});
const [own, other] = groups.tilesets;
const [first, second] = own.tiles;
const came = JSON.stringify([own.tiles.length, first, second.type, second.properties, second.shapes[0].width, other.tiles, other.members]);
const wanted = [2, {{ localId: 0, type: '', properties: {{}}, shapes: [] }}, 'Wall', {{ solid: true }}, 4, null, {{ source: 'b.tsx' }}];
if (came !== JSON.stringify(wanted)) throw new Error(came);
if (own.members.tilecount !== 2 || 'firstgid' in own.members) throw new Error('members');
const inXml = other.tilesIn('<tileset tilecount="1" columns="1"><tile id="0" type="Mud"/></tileset>');
if (JSON.stringify(inXml) !== '[{{"localId":0,"type":"Mud","properties":{{}},"shapes":[]}}]') throw new Error(JSON.stringify(inXml));
if (other.tilesIn('{{"tilecount":1}}').length !== 1) throw new Error('in JSON');
groups.discard();
editor.active = document;""", []),
    # ---- strokes
    Scenario('a stroke', 'with document.stroke():\n  document.stamp(1, 0, 0, [[1]])\n  document.stamp(1, 1, 0, [[5]])\n  document.stamp(1, 2, 0, [[5]])',
             'document.stroke(() => { document.stamp(1, 0, 0, [[1]]); document.stamp(1, 1, 0, [[5]]); document.stamp(1, 2, 0, [[5]]); })',
             ['stamp 1 0 0 1 1', 'stamp 1 1 0 1 5', 'stamp+ 1 2 0 1 5']),
    Scenario('a stroke in a macro', 'with document.macro("A"):\n  document.stamp(1, 3, 0, [[5]])\n  with document.stroke():\n'
             '    document.stamp(1, 3, 0, [[5]])\n    document.stamp(1, 2, 0, [[5]])\n    document.stamp(1, 1, 0, [[5]])\ndocument.undo()',
             'document.macro("A", () => { document.stamp(1, 3, 0, [[5]]); document.stroke(() => { document.stamp(1, 3, 0, [[5]]);'
             ' document.stamp(1, 2, 0, [[5]]); document.stamp(1, 1, 0, [[5]]); }); }); document.undo()',
             ['begin A', 'stamp 1 3 0 1 5', 'stamp 1 3 0 1 5', 'stamp 1 2 0 1 5', 'stamp+ 1 1 0 1 5', 'end', 'undo']),
    Scenario('a stroke at the limit', 'document.clear()\ndocument.limit(1)\ndocument.stamp(1, 3, 0, [[5]])\nwith document.stroke():\n'
             '  document.stamp(1, 2, 0, [[5]])\n  document.stamp(1, 1, 0, [[5]])\ndocument.undo()',
             'document.clear(); document.limit(1); document.stamp(1, 3, 0, [[5]]); document.stroke(() => { document.stamp(1, 2, 0, [[5]]);'
             ' document.stamp(1, 1, 0, [[5]]); }); document.undo()',
             ['clear', 'limit 1', 'stamp 1 3 0 1 5', 'stamp 1 2 0 1 5', 'stamp+ 1 1 0 1 5', 'undo']),
    Scenario('a stroke that is taken back', 'with document.stroke():\n  document.stamp(1, 0, 0, [[5]])\n  document.stamp(1, 0, 0, [[1]])\n'
             '  document.stamp(1, 1, 0, [[6]])',
             'document.stroke(() => { document.stamp(1, 0, 0, [[5]]); document.stamp(1, 0, 0, [[1]]); document.stamp(1, 1, 0, [[6]]); })',
             ['stamp 1 0 0 1 5', 'stamp+ 1 0 0 1 1', 'stamp 1 1 0 1 6']),
    Scenario('a stroke of erases past the map', 'with document.stroke():\n  document.erase(1, -5, -5, 1, 1)\n  document.erase(1, 0, 0, 9, 1)\n'
             '  document.erase(1, 0, 1, 9, 1)',
             'document.stroke(() => { document.erase(1, -5, -5, 1, 1); document.erase(1, 0, 0, 9, 1); document.erase(1, 0, 1, 9, 1); })',
             ['erase 1 -5 -5 1 1', 'erase 1 0 0 9 1', 'erase+ 1 0 1 9 1']),
    # ---- stamps that are cut
    Scenario('a stamp of the whole map', 'document.stamp(1, 0, 0, [[1000000000] * 200] * 200)\ndocument.undo()',
             'document.stamp(1, 0, 0, Array(200).fill(Array(200).fill(1000000000))); document.undo()',
             ['stamp 1 1 0 1 5', 'undo'], [('document.status.count', 'document.status.count', 2)], LARGE),
    Scenario('its cells', 'document.stamp(1, 0, 0, [[1000000000 + y for _ in range(200)] for y in range(200)])\n'
             'same = all(value == 1000000000 + at // 200 for at, value in enumerate(document.layers[1].cells()))\n'
             'assert same and document.status.count == 2\ndocument.goto(1)',
             'document.stamp(1, 0, 0, Array.from({ length: 200 }, (_, y) => Array(200).fill(1000000000 + y)));'
             'if (document.status.count !== 2 || document.layers.get(1).cells().some((value, at) => value !== 1000000000 + Math.floor(at / 200))) '
             'throw new Error("other cells"); document.goto(1)',
             ['stamp 1 1 0 1 5', 'undo'], [], LARGE),
    Scenario('one whose last value has no tileset', 'rows = [[1000000000] * 200] * 199 + [[2147483648] * 200]\n'
             'try:\n  document.stamp(1, 0, 0, rows)\nexcept roskevad.Refused as refusal:\n  assert refusal.code == 33',
             'try { document.stamp(1, 0, 0, [...Array(199).fill(Array(200).fill(1000000000)), Array(200).fill(2147483648)]); } catch (fault) {'
             ' if (fault.code !== 33) throw fault; }',
             [], [], LARGE),
    Scenario('one whose first rows are there', 'rows = [[1] + [0] * 199] + [[0] * 200] * 199\nrows[199] = [1000000000] * 200\n'
             'document.stamp(1, 0, 0, rows)\ndocument.undo()',
             'document.stamp(1, 0, 0, [[1, ...Array(199).fill(0)], ...Array(198).fill(Array(200).fill(0)), Array(200).fill(1000000000)]);'
             'document.undo()',
             ['stamp 1 1 0 1 5', 'undo'], [], LARGE),
    # ---- views
    Scenario('properties', 'p = document.properties\np["author"] = "you"\np["people"] = 13\np["open"] = True\np["door"] = document.objects["door"]\n'
             'p.set("sky", "#88ccff", type="color")\np.set("tune", "a.ogg", type="file")\np["sky"] = "#00000000"\np["tune"] = "b.ogg"\n'
             'p.set("people", 14, merge=True)\ndel p["author"]\ndocument.objects[1].properties["locked"] = False\ndocument.layers[2].properties["a"] = -1',
             'const p = document.properties; p.set("author", "you"); p.set("people", 13); p.set("open", true); p.set("door", document.objects.get("door"));'
             'p.set("sky", "#88ccff", { type: "color" }); p.set("tune", "a.ogg", { type: "file" }); p.set("sky", "#00000000"); p.set("tune", "b.ogg");'
             'p.set("people", 14, { merge: true }); p.delete("author"); document.objects.get(1).properties.set("locked", false);'
             'document.layers.get(2).properties.set("a", -1)',
             ['prop set map author string you', 'prop set map people int 13', 'prop set map open bool true', 'prop set map door object 1',
              'prop set map sky color #88ccff', 'prop set map tune file a.ogg', 'prop set map sky color #00000000', 'prop set map tune file b.ogg',
              'prop set+ map people int 14', 'prop remove map author', 'prop set object:1 locked bool false', 'prop set layer:2 a int -1'],
             [('dict(document.properties)', 'Object.fromEntries(document.properties)',
               {'people': 14, 'open': True, 'door': 1, 'sky': '#00000000', 'tune': 'b.ogg'}),
              ('[document.properties.type_of(key) for key in document.properties]',
               '[...document.properties.keys()].map((key) => document.properties.typeOf(key))', ['int', 'bool', 'object', 'color', 'file']),
              ('["sky" in document.properties, "author" in document.properties, len(document.properties)]',
               '[document.properties.has("sky"), document.properties.has("author"), document.properties.size]', [True, False, 5])]),
    Scenario('layers', 'id = document.layers.add("tile", "Roof")\nroof = document.layers[id]\nroof.name = "Top"\nroof.visible = False\nroof.move(0)\n'
             'document.layers["Walls"].remove()',
             'const id = document.layers.add("tile", "Roof"); const roof = document.layers.get(id); roof.name = "Top"; roof.visible = false;'
             'roof.move(0); document.layers.get("Walls").remove()',
             ['layer add tile Roof', 'layer rename 4 Top', 'layer show 4 no', 'layer move 4 0', 'layer remove 3'],
             [('[[each.id, each.kind, each.name, each.visible] for each in document.layers]',
               '[...document.layers].map((each) => [each.id, each.kind, each.name, each.visible])',
               [[4, 'tile', 'Top', False], [1, 'tile', 'Tile Layer 1', True], [2, 'object', 'Things', True]]),
              ('[4 in document.layers, "Walls" in document.layers, len(document.layers)]',
               '[document.layers.has(4), document.layers.has("Walls"), document.layers.size]', [True, False, 3])]),
    Scenario('layers of a name and a kind', 'document.layers.add("object", "Walls")', 'document.layers.add("object", "Walls")',
             ['layer add object Walls'],
             [('[getattr(document.layers.find("Walls", kind), "id", None) for kind in ("tile", "object", "group")]',
               '["tile", "object", "group"].map((kind) => document.layers.find("Walls", kind)?.id ?? null)', [3, 4, None]),
              ('document.layers.find("Roof", "tile")', 'document.layers.find("Roof", "tile")', None),
              ('document.orientation', 'document.orientation', 'orthogonal')]),
    Scenario('objects', 'id = document.layers["Things"].objects.add("key", 32, -8, 16, 16)\nkey = document.objects[id]\nkey.move(33, 0)\n'
             'key.move(34, 0, merge=True)\nkey.resize(8, 9)\ndocument.objects["door"].remove()',
             'const id = document.layers.get("Things").objects.add("key", 32, -8, 16, 16); const key = document.objects.get(id); key.move(33, 0);'
             'key.move(34, 0, { merge: true }); key.resize(8, 9); document.objects.get("door").remove()',
             ['object add 2 32 -8 16 16 key', 'object move 2 33 0', 'object move+ 2 34 0', 'object resize 2 8 9', 'object remove 1'],
             [('[[each.id, each.name, each.type, each.x, each.y, each.width, each.height, each.visible, each.tile, each.layer.id]'
               ' for each in document.objects]',
               '[...document.objects].map((each) => [each.id, each.name, each.type, each.x, each.y, each.width, each.height, each.visible, each.tile,'
               ' each.layer.id])', [[2, 'key', '', 34, 0, 8, 9, True, None, 2]]),
              ('["key" in document.objects, 1 in document.objects, len(document.layers[1].objects)]',
               '[document.objects.has("key"), document.objects.has(1), document.layers.get(1).objects.size]', [True, False, 0])]),
    Scenario('tilesets and tiles', 'walls = document.tilesets[document.tilesets.add(33, "walls.tsj")]\n'
             'document.stamp(1, 0, 0, [[walls.value(2, flipped_horizontally=True, turned=True), document.tilesets["town.tsj"].value(31)]])',
             'const walls = document.tilesets.get(document.tilesets.add(33, "walls.tsj"));'
             'document.stamp(1, 0, 0, [[walls.value(2, { flippedHorizontally: true, turned: true }), document.tilesets.get("town.tsj").value(31)]])',
             ['tileset add 33 walls.tsj', 'stamp 1 0 0 2 2415919139,32'],
             [('[[t.value, t.tileset.first_id, t.local_id, t.flipped_horizontally, t.flipped_vertically, t.flipped_diagonally, t.turned]'
               ' for t in [document.layers[1].tile(0, 0), document.layers[1].tile(1, 0)]]',
               '[0, 1].map((x) => document.layers.get(1).tile(x, 0)).map((t) => [t.value, t.tileset.firstId, t.localId, t.flippedHorizontally,'
               ' t.flippedVertically, t.flippedDiagonally, t.turned])',
               [[2415919139, 33, 2, True, False, False, True], [32, 1, 31, False, False, False, False]]),
              ('[document.layers[1].tile(3, 2), document.layers[1].rows(0, 0, 2, 1), list(document.layers[1].cells(1, 0, 1, 2))]',
               '[document.layers.get(1).tile(3, 2), document.layers.get(1).rows(0, 0, 2, 1), [...document.layers.get(1).cells(1, 0, 1, 2)]]',
               [None, [[2415919139, 32]], [32, 0]]),
              ('[[each.first_id, each.source, each.name] for each in document.tilesets]',
               '[...document.tilesets].map((each) => [each.firstId, each.source, each.name])', [[1, 'town.tsj', None], [33, 'walls.tsj', None]])]),
    Scenario('an unused tileset is removed', 'document.tilesets.add(33, "walls.tsj")\ndocument.tilesets["walls.tsj"].remove()',
             'document.tilesets.add(33, "walls.tsj"); document.tilesets.get("walls.tsj").remove()', ['tileset add 33 walls.tsj', 'tileset remove 33'],
             [('document.tilesets.first.first_id', 'document.tilesets.first.firstId', 1)]),
    Scenario('no tileset', 'document.erase(1, 0, 0, 1, 1)\ndocument.tilesets.first.remove()',
             'document.erase(1, 0, 0, 1, 1); document.tilesets.first.remove()', ['erase 1 0 0 1 1', 'tileset remove 1'],
             [('document.tilesets.first', 'document.tilesets.first', None)]),
    # ---- own members of objects
    Scenario('values of an object', 'door = document.objects["door"]\ndoor.name = "Tavern"\ndoor.class_name = "Inn"\ndoor.rotation = 45.0\n'
             'door.visible = False\ndoor.tile = 2147483650',
             'const door = document.objects.get("door"); door.name = "Tavern"; door.className = "Inn"; door.rotation = 45; door.visible = false;'
             'door.tile = 2147483650',
             ['member set object:1 name "Tavern"', 'member set object:1 type "Inn"', 'member set object:1 rotation 45',
              'member set object:1 visible false', 'member set object:1 gid 2147483650'],
             [('[[each.name, each.class_name, each.type, each.rotation, each.visible, each.tile.value] for each in document.objects]',
               '[...document.objects].map((each) => [each.name, each.className, each.type, each.rotation, each.visible, each.tile.value])',
               [['Tavern', 'Inn', 'Inn', 45, False, 2147483650]])]),
    Scenario('values that a file may have', 'door = document.objects["door"]\ndoor.name = ""\ndoor.class_name = "a \\"b\\"\\n\\\\ ü"\ndoor.rotation = -90',
             'const door = document.objects.get("door"); door.name = ""; door.className = "a \\"b\\"\\n\\\\ ü"; door.rotation = -90',
             ['member set object:1 name ""', r'member set object:1 type "a \"b\"\n\\ ü"', 'member set object:1 rotation -90'],
             [('[document.objects[1].name, document.objects[1].class_name]', '[document.objects.get(1).name, document.objects.get(1).className]',
               ['', 'a "b"\n\\ ü'])]),
    Scenario('an object off whole pixels', 'door = document.objects["door"]\ndoor.x = 16.5\ndoor.y = -0.25\ndoor.width, door.height = 8.5, 9.0\n'
             'door.move(4.5, 5)\ndoor.move(4, 5.5, merge=True)\ndoor.move(4, 5)\ndoor.move(5, 5)\ndoor.resize(8, 9.5)\ndoor.rotation = 22.5\n'
             'document.layers[1].opacity = 0.5\ndoor.properties["speed"] = 1.25',
             'const door = document.objects.get("door"); door.x = 16.5; door.y = -0.25; door.width = 8.5; door.height = 9; door.move(4.5, 5);'
             'door.move(4, 5.5, { merge: true }); door.move(4, 5); door.move(5, 5); door.resize(8, 9.5); door.rotation = 22.5;'
             'document.layers.get(1).opacity = 0.5; door.properties.set("speed", 1.25);',
             ['member set object:1 x 16.5', 'member set object:1 y -0.25', 'member set object:1 width 8.5', 'member set object:1 height 9',
              'member put object:1 {"x":4.5,"y":5}', 'member put+ object:1 {"x":4,"y":5.5}', 'member put object:1 {"x":4,"y":5}', 'object move 1 5 5',
              'member put object:1 {"width":8,"height":9.5}', 'member set object:1 rotation 22.5', 'member set layer:1 opacity 0.5',
              'prop put object:1 {"name":"speed","type":"float","value":1.25}'],
             [('[[each.x, each.y, each.width, each.height, each.rotation, each.properties["speed"]] for each in document.objects][0]',
               '[...document.objects].map((each) => [each.x, each.y, each.width, each.height, each.rotation, each.properties.get("speed")])[0]',
               [5, 5, 8, 9.5, 22.5, 1.25]),
              ('[document.layers[1].opacity, [each["x"] for each in document.map()["layers"][1]["objects"]][0]]',
               '[document.layers.get(1).opacity, document.map().layers[1].objects[0].x]', [0.5, 5])]),
    Scenario('own members at once, with fractions', 'members = document.objects[1].members\nmembers.put({"x": 1.5, "rotation": 0.5})\n'
             'for degrees in (1.5, 2.5, 0.5):\n  members.set("rotation", degrees, merge=True)\nmembers.update(x=1, kept=[0.1, {"a": 1e300}])',
             'const door = document.objects.get(1); door.setMembers({ x: 1.5, rotation: 0.5 });'
             'for (const degrees of [1.5, 2.5, 0.5]) { door.setMember("rotation", degrees, { merge: true }); }'
             'door.setMembers({ x: 1, kept: [0.1, { a: 1e300 }] });',
             ['member put object:1 {"x":1.5,"rotation":0.5}', 'member set+ object:1 rotation 1.5', 'member set+ object:1 rotation 2.5',
              'member set+ object:1 rotation 0.5', 'member put object:1 {"x":1,"kept":[0.1,{"a":1e300}]}'],
             [('[document.objects[1].members[name] for name in ("x", "rotation", "kept")]',
               '["x", "rotation", "kept"].map((name) => document.objects.get(1).members[name])', [1, 0.5, [0.1, {'a': 1e300}]])]),
    Scenario('a tile of another object, and none', 'key = document.layers["Things"].objects.add("key", 0, 0)\nkey.tile = 7\ndoor = document.objects["door"]\n'
             'door.tile = key.tile\nkey.tile = None\nkey.tile = None\ndoor.tile = 0',
             'const key = document.layers.get("Things").objects.add("key", 0, 0); key.tile = 7; const door = document.objects.get("door");'
             'door.tile = key.tile; key.tile = null; key.tile = null; door.tile = 0',
             ['object add 2 0 0 0 0 key', 'member set object:2 gid 7', 'member set object:1 gid 7', 'member remove object:2 gid',
              'member remove object:1 gid'],
             [('[each.tile for each in document.objects]', '[...document.objects].map((each) => each.tile)', [None, None])]),
    Scenario('own members', 'members = document.objects[1].members\nmembers["point"] = True\nmembers["polygon"] = ({"x": 0, "y": 0.0}, {"y": 8, "x": 8})\n'
             'members.set("rotation", 10, merge=True)\nmembers.set("rotation", 20, merge=True)\nmembers.update(x=32, rotation=90)\n'
             'members.update({"y": 1}, name="gate")\nmembers.put({"y": 2}, merge=True)\nassert members == document.objects[1].members\n'
             'del members["point"]\nassert "point" not in members and members.pop("none", 5) == 5 and members["y"] == 2',
             'const door = document.objects.get(1); door.setMember("point", true); door.setMember("polygon", [{ x: 0, y: -0 }, { y: 8, x: 8 }]);'
             'door.setMember("rotation", 10, { merge: true }); door.setMember("rotation", 20, { merge: true });'
             'door.setMembers({ x: 32, rotation: 90 }); door.setMembers({ y: 1, name: "gate" }); door.setMembers({ y: 2 }, { merge: true });'
             'if (!door.removeMember("point") || door.removeMember("point")) throw new Error("removed")',
             ['member set object:1 point true', 'member set object:1 polygon [{"x":0,"y":0},{"x":8,"y":8}]', 'member set+ object:1 rotation 10',
              'member set+ object:1 rotation 20', 'member put object:1 {"x":32,"rotation":90}', 'member put object:1 {"y":1,"name":"gate"}',
              'member put+ object:1 {"y":2}', 'member remove object:1 point'],
             [('document.objects[1].members', 'document.objects.get(1).members',
               {'height': 16, 'id': 1, 'name': 'gate', 'polygon': [{'x': 0, 'y': 0}, {'x': 8, 'y': 8}],
                'properties': [{'name': 'locked', 'type': 'bool', 'value': True}], 'rotation': 90, 'type': '', 'visible': True, 'width': 16,
                'x': 32, 'y': 2})]),
    Scenario('own members of any kind', 'members = document.objects[1].members\nmembers["a"] = {"b": [None, True, "c\\nd", {}, []], "\\"": -1e15}\n'
             'members.put({"a b": 1})\nmembers.put({})',
             'const door = document.objects.get(1); door.setMember("a", { b: [null, true, "c\\nd", {}, []], "\\"": -1e15 });'
             'door.setMembers({ "a b": 1 }); door.setMembers({})',
             [r'member set object:1 a {"b":[null,true,"c\nd",{},[]],"\"":-1000000000000000}', 'member put object:1 {"a b":1}', 'member put object:1 {}']),
    Scenario('own members in macros', 'door = document.objects[1]\nwith document.macro("A"):\n  door.name = "door"\n  door.members.update(x=16, y=0)\n'
             'with document.macro("B"):\n  door.rotation = 90\nwith document.macro("C"):\n  editor.step("member set object:1 rotation 0")',
             'const door = document.objects.get(1); document.macro("A", () => { door.name = "door"; door.setMembers({ x: 16, y: 0 }); });'
             'document.macro("B", () => { door.rotation = 90; }); document.macro("C", () => editor.step("member set object:1 rotation 0"))',
             ['begin B', 'member set object:1 rotation 90', 'end', 'begin C', 'member set object:1 rotation 0', 'end']),
    # ---- own members of layers and of the map
    Scenario('values of layers', 'ground, things = document.layers[1], document.layers["Things"]\nground.class_name = "floor"\nground.opacity = 0.0\n'
             'ground.tint = "#80ff8800"\nthings.locked = True\nthings.opacity = 2\nthings.tint = None\nground.tint = "#ffffff"\nground.tint = None',
             'const [ground, things] = [document.layers.get(1), document.layers.get("Things")]; ground.className = "floor"; ground.opacity = 0;'
             'ground.tint = "#80ff8800"; things.locked = true; things.opacity = 2; things.tint = null; ground.tint = "#ffffff"; ground.tint = null',
             ['member set layer:1 class "floor"', 'member set layer:1 opacity 0', 'member set layer:1 tintcolor "#80ff8800"', 'member set layer:2 locked true',
              'member set layer:2 opacity 2', 'member set layer:1 tintcolor "#ffffff"', 'member remove layer:1 tintcolor'],
             [('[[each.class_name, each.opacity, each.tint, each.locked] for each in document.layers]',
               '[...document.layers].map((each) => [each.className, each.opacity, each.tint, each.locked])',
               [['floor', 0, None, False], ['', 2, None, True], ['', 1, None, False]])]),
    Scenario('values of the map', 'document.class_name = "a \\"b\\"\\n"\ndocument.background = None\ndocument.background = "#102030"',
             'document.className = "a \\"b\\"\\n"; document.background = null; document.background = "#102030"',
             [r'member set map class "a \"b\"\n"', 'member set map backgroundcolor "#102030"'],
             [('[document.class_name, document.background]', '[document.className, document.background]', ['a "b"\n', '#102030']),
              ('document.members', 'document.members',
               {'backgroundcolor': '#102030', 'class': 'a "b"\n', 'nextlayerid': 4, 'nextobjectid': 2, 'orientation': 'orthogonal',
                'renderorder': 'right-down', 'tileheight': 16, 'tilewidth': 16})]),
    Scenario('values of the map that are taken away', 'document.background = "#102030"\ndocument.background = None\ndocument.background = None',
             'document.background = "#102030"; document.background = null; document.background = null',
             ['member set map backgroundcolor "#102030"', 'member remove map backgroundcolor'], [('document.background', 'document.background', None)]),
    Scenario('own members of a layer', 'members = document.layers[2].members\nmembers["parallaxx"] = 2\nmembers.set("opacity", 0, merge=True)\n'
             'members.set("opacity", 3, merge=True)\nmembers.update(x=32, color="#fff")\nmembers.put({"name": "People"}, merge=True)\ndel members["parallaxx"]\n'
             'assert members == document.layers[2].members and "parallaxx" not in members and members.pop("none", 5) == 5\ndel members["name"]',
             'const things = document.layers.get(2); things.setMember("parallaxx", 2); things.setMember("opacity", 0, { merge: true });'
             'things.setMember("opacity", 3, { merge: true }); things.setMembers({ x: 32, color: "#fff" });'
             'things.setMembers({ name: "People" }, { merge: true }); const came = [things.removeMember("parallaxx"), things.removeMember("parallaxx")];'
             'if (String(came) !== "true,false" || !things.removeMember("name")) throw new Error(came)',
             ['member set layer:2 parallaxx 2', 'member set+ layer:2 opacity 0', 'member set+ layer:2 opacity 3', 'member put layer:2 {"x":32,"color":"#fff"}',
              'member put+ layer:2 {"name":"People"}', 'member remove layer:2 parallaxx', 'member remove layer:2 name'],
             [('document.layers[2].members', 'document.layers.get(2).members',
               {'color': '#fff', 'draworder': 'topdown', 'id': 2, 'name': '', 'objects': [{
                   'height': 16, 'id': 1, 'name': 'door', 'properties': [{'name': 'locked', 'type': 'bool', 'value': True}], 'rotation': 0, 'type': '',
                   'visible': True, 'width': 16, 'x': 16, 'y': 0}], 'opacity': 3, 'type': 'objectgroup', 'visible': True, 'x': 32, 'y': 0})]),
    Scenario('own members of the map', 'members = document.members\nmembers["renderorder"] = "left-up"\nmembers.set("tilewidth", 8, merge=True)\n'
             'members.set("tilewidth", 24, merge=True)\nmembers.put({"tileheight": 32, "orientation": "isometric"})\nmembers.update(nextlayerid=9)\n'
             'del members["renderorder"]\nassert members.pop("none", 5) == 5 and members == document.members\ndocument.layers.add("tile", "Roof")',
             'document.setMember("renderorder", "left-up"); document.setMember("tilewidth", 8, { merge: true });'
             'document.setMember("tilewidth", 24, { merge: true }); document.setMembers({ tileheight: 32, orientation: "isometric" });'
             'document.setMembers({ nextlayerid: 9 }); const came = [document.removeMember("renderorder"), document.removeMember("renderorder")];'
             'if (String(came) !== "true,false") throw new Error(came); document.layers.add("tile", "Roof")',
             ['member set map renderorder "left-up"', 'member set+ map tilewidth 8', 'member set+ map tilewidth 24',
              'member put map {"tileheight":32,"orientation":"isometric"}', 'member put map {"nextlayerid":9}', 'member remove map renderorder',
              'layer add tile Roof'],
             [('document.members', 'document.members',
               {'nextlayerid': 10, 'nextobjectid': 2, 'orientation': 'isometric', 'tileheight': 32, 'tilewidth': 24}),
              ('[document.tile_width, document.tile_height, document.orientation, document.layers["Roof"].id]',
               '[document.tileWidth, document.tileHeight, document.orientation, document.layers.get("Roof").id]', [24, 32, 'isometric', 9])]),
    Scenario('own members of layers and of the map in macros', 'ground = document.layers[1]\nwith document.macro("A"):\n'
             '  ground.opacity = 1\n  ground.tint = None\n  document.background = None\n'
             '  del ground.members["visible"]\n  ground.members.update(name="Tile Layer 1", x=0)\n'
             '  document.members.put({"tilewidth": 16})\n  ground.locked = False\nwith document.macro("B"):\n  ground.locked = True\nwith document.macro("C"):\n'
             '  document.class_name = "level"\n  del ground.members["name"]',
             'const ground = document.layers.get(1); document.macro("A", () => { ground.opacity = 1; ground.tint = null; document.background = null;'
             ' ground.removeMember("visible"); ground.setMembers({ name: "Tile Layer 1", x: 0 }); document.setMembers({ tilewidth: 16 });'
             ' ground.locked = false; });'
             'document.macro("B", () => { ground.locked = true; }); document.macro("C", () => { document.className = "level"; ground.removeMember("name"); })',
             ['begin B', 'member set layer:1 locked true', 'end', 'begin C', 'member set map class "level"', 'member remove layer:1 name', 'end']),
    Scenario('own members of layers that other lines change', 'members, codes = document.layers[2].members, []\n'
             'for work in (lambda: members.set("objects", []), lambda: members.pop("objects"), lambda: members.update(type="group"),\n'
             '             lambda: document.members.set("layers", []), lambda: document.members.__delitem__("infinite"), lambda: members.put({"width": 1})):\n'
             '  try:\n    work()\n  except roskevad.Refused as refusal:\n    codes.append(refusal.code)\nassert codes == [41] * 6, codes',
             'const things = document.layers.get(2); const codes = [];'
             'for (const work of [() => things.setMember("objects", []), () => things.removeMember("objects"), () => things.setMembers({ type: "group" }),'
             ' () => document.setMember("layers", []), () => document.removeMember("infinite"), () => things.setMembers({ width: 1 })]) {'
             ' try { work(); } catch (fault) { codes.push(fault.code); } } if (String(codes) !== String(Array(6).fill(41))) throw new Error(codes)',
             []),
    Scenario('own members of a layer that is gone', 'layer = document.layers[3]\nmembers = layer.members\nlayer.remove()\ncodes = []\n'
             'for work in (lambda: setattr(layer, "class_name", "a"), lambda: members.put({}), lambda: members.update(x=1), lambda: members.pop("x"),\n'
             '             lambda: setattr(layer, "tint", None), lambda: layer.opacity, lambda: layer.members, lambda: setattr(layer, "locked", True)):\n'
             '  try:\n    work()\n  except roskevad.Refused as refusal:\n    codes.append(refusal.code)\nassert codes == [30] * 8, codes',
             'const layer = document.layers.get(3); layer.remove(); const codes = [];'
             'for (const work of [() => { layer.className = "a"; }, () => layer.setMembers({}), () => layer.setMembers({ x: 1 }),'
             ' () => layer.removeMember("x"), () => { layer.tint = null; }, () => layer.opacity, () => layer.members, () => { layer.locked = true; }]) {'
             ' try { work(); } catch (fault) { codes.push(fault.code); } } if (String(codes) !== String(Array(8).fill(30))) throw new Error(codes)',
             ['layer remove 3']),
    # ---- things of each kind that are added
    plain('layers of each kind', 'document.layers.add("group", "Houses"); document.layers.add("image", "The sky")',
          ['layer add group Houses', 'layer add image The sky'],
          values=[('[[each.kind, each.members] for each in list(document.layers)[3:]]', '[...document.layers].slice(3).map((each) => [each.kind, each.members])', [
              ['group', {'id': 4, 'layers': [], 'name': 'Houses', 'opacity': 1, 'type': 'group', 'visible': True, 'x': 0, 'y': 0}],
              ['image', {'id': 5, 'image': '', 'name': 'The sky', 'opacity': 1, 'type': 'imagelayer', 'visible': True, 'x': 0, 'y': 0}]])]),
    Scenario('objects of each shape', 'things = document.layers["Things"].objects\nthings.add("", 8, -8, point=True)\n'
             'things.add("Lake", 1, 2, 3, 4, ellipse=True)\n'
             'things.add("a", 0, 0, polygon=[(0, 0), [8, 8]])\nthings.add("b", 0, 0, polyline=[{"x": 0, "y": -8.0}])\n'
             'things.add("c", 0, 0, 16, 8, text="two\\nlines")\nthings.add("d", 0, 0, text={"text": "a", "wrap": True})\n'
             'things.add("e", 0, 16, 16, 16, tile=document.tilesets[1].value(4, flipped_horizontally=True))',
             'const { objects } = document.layers.get("Things"); objects.add("", 8, -8, 0, 0, { point: true }); objects.add("Lake", 1, 2, 3, 4, { ellipse: true });'
             'objects.add("a", 0, 0, 0, 0, { polygon: [[0, 0], Int8Array.of(8, 8)] }); objects.add("b", 0, 0, 0, 0, { polyline: [{ x: 0, y: -8 }] });'
             'objects.add("c", 0, 0, 16, 8, { text: "two\\nlines" }); objects.add("d", 0, 0, 0, 0, { text: { text: "a", wrap: true } });'
             'objects.add("e", 0, 16, 16, 16, { tile: document.tilesets.get(1).value(4, { flippedHorizontally: true }) })',
             ['object put 2 {"name":"","type":"","x":8,"y":-8,"width":0,"height":0,"rotation":0,"visible":true,"point":true}',
              'object put 2 {"name":"Lake","type":"","x":1,"y":2,"width":3,"height":4,"rotation":0,"visible":true,"ellipse":true}',
              'object put 2 {"name":"a","type":"","x":0,"y":0,"width":0,"height":0,"rotation":0,"visible":true,"polygon":[{"x":0,"y":0},{"x":8,"y":8}]}',
              'object put 2 {"name":"b","type":"","x":0,"y":0,"width":0,"height":0,"rotation":0,"visible":true,"polyline":[{"x":0,"y":-8}]}',
              r'object put 2 {"name":"c","type":"","x":0,"y":0,"width":16,"height":8,"rotation":0,"visible":true,"text":{"text":"two\nlines"}}',
              'object put 2 {"name":"d","type":"","x":0,"y":0,"width":0,"height":0,"rotation":0,"visible":true,"text":{"text":"a","wrap":true}}',
              'object put 2 {"name":"e","type":"","x":0,"y":16,"width":16,"height":16,"rotation":0,"visible":true,"gid":2147483653}'],
             [('[[each.id, each.is_point] for each in document.objects]', '[...document.objects].map((each) => [each.id, each.isPoint])',
               [[1, False], [2, True], *([at, False] for at in range(3, 9))]),
              ('[document.objects[2].members, document.objects[8].tile.local_id]', '[document.objects.get(2).members, document.objects.get(8).tile.localId]',
               [{'height': 0, 'id': 2, 'name': '', 'point': True, 'rotation': 0, 'type': '', 'visible': True, 'width': 0, 'x': 8, 'y': -8}, 4])]),
    Scenario('an object with a class, a turn and properties', 'things = document.layers["Things"].objects\n'
             'things.add("key", 32, 0, class_name="Key", rotation=90.0, visible=False,\n'
             '           properties={"two words": "", "opens": document.objects["door"], "n": -5, "b": True})\n'
             'things.add("key", 32, 0, class_name="", rotation=0, visible=True, point=False, tile=None, properties={})\nthings.add("a\\nb", 1.0, 2)',
             'const { objects } = document.layers.get("Things");'
             'objects.add("key", 32, 0, 0, 0, { className: "Key", rotation: 90, visible: false,'
             ' properties: { "two words": "", opens: document.objects.get("door"), n: -5, b: true } });'
             'objects.add("key", 32, 0, 0, 0, { className: "", rotation: -0, visible: true, point: false, tile: null, properties: {} });'
             'objects.add("a\\nb", 1, 2)',
             ['object put 2 {"name":"key","type":"Key","x":32,"y":0,"width":0,"height":0,"rotation":90,"visible":false,"properties":[{"name":"two words",'
              '"type":"string","value":""},{"name":"opens","type":"object","value":1},{"name":"n","type":"int","value":-5},'
              '{"name":"b","type":"bool","value":true}]}',
              'object add 2 32 0 0 0 key', r'object put 2 {"name":"a\nb","type":"","x":1,"y":2,"width":0,"height":0,"rotation":0,"visible":true}'],
             [('[[each.class_name, each.rotation, each.visible, dict(each.properties)] for each in document.objects][1]',
               '[...document.objects].map((each) => [each.className, each.rotation, each.visible, Object.fromEntries(each.properties)])[1]',
               ['Key', 90, False, {'two words': '', 'opens': 1, 'n': -5, 'b': True}])]),
    Scenario('objects as a file has them', 'things = document.layers["Things"].objects\ndoor = document.objects["door"]\nwas = door.members.copy()\n'
             'door.remove()\n'
             'assert things.put(was).id == 1 and things.put({"id": 9}).id == 9 and things.put({"x": 5.0}).id == 10',
             'const { objects } = document.layers.get("Things"); const was = document.objects.get("door").members; document.objects.get("door").remove();'
             'const ids = [objects.put(was), objects.put({ id: 9 }), objects.put({ x: 5 })].map(Number); if (String(ids) !== "1,9,10") throw new Error(ids)',
             ['object remove 1', 'object put 2 {"id":1,"name":"door","type":"","x":16,"y":0,"width":16,"height":16,"rotation":0,"visible":true,'
              '"properties":[{"name":"locked","type":"bool","value":true}]}', 'object put 2 {"id":9}', 'object put 2 {"x":5}'],
             [('[each.members for each in document.objects][1:]', '[...document.objects].map((each) => each.members).slice(1)', [{'id': 9}, {'id': 10, 'x': 5}])]),
    Scenario('layers as a file has them', 'at = document.layers\nassert at.put({"type": "tilelayer", "id": 9, "name": "Roof"}, at=1).id == 9\n'
             'houses = at.put({"type": "group", "id": 10, "layers": [{"type": "objectgroup", "id": 11, "objects": [{"id": 5, "x": 1.5}]}]})\n'
             'houses.layers.put({"type": "imagelayer", "id": 12}, at=1)\nat.put({"type": "imagelayer", "id": 13}, houses)\n'
             'at[10].remove()\nat.put({"type": "group", "id": 10, "layers": []}, None, 2)',
             'const at = document.layers; at.put({ type: "tilelayer", id: 9, name: "Roof" }, null, 1);'
             'const houses = at.put({ type: "group", id: 10, layers: [{ type: "objectgroup", id: 11, objects: [{ id: 5, x: 1.5 }] }] });'
             'houses.layers.put({ type: "imagelayer", id: 12 }, null, 1); at.put({ type: "imagelayer", id: 13 }, houses);'
             'at.get(10).remove(); at.put({ type: "group", id: 10, layers: [] }, null, 2)',
             ['layer put 0 1 {"type":"tilelayer","id":9,"name":"Roof"}',
              'layer put 0 0 {"type":"group","id":10,"layers":[{"type":"objectgroup","id":11,"objects":[{"id":5,"x":1.5}]}]}',
              'layer put 10 1 {"type":"imagelayer","id":12}', 'layer put 10 0 {"type":"imagelayer","id":13}', 'layer remove 10',
              'layer put 0 2 {"type":"group","id":10,"layers":[]}'],
             [('[each.id for each in document.layers]', '[...document.layers].map(Number)', [1, 9, 10, 2, 3])]),
    Scenario('a layer that is longer than a line, with cells selected', 'document.select(1, 2, 3, 1)\n'
             'whole = {"type": "tilelayer", "id": 5, "data": [1000000000] * 40000}\n'
             'things = {"type": "objectgroup", "id": 6, "objects": [{"id": at, "name": "a" * 99} for at in range(1, 800)]}\n'
             'document.layers.put({"type": "group", "id": 4, "layers": [whole, things]}, at=1)\n'
             'assert list(document.layers[5].cells()).count(1000000000) == 40000 and len(document.selection) == 3\ndocument.undo()\ndocument.redo()',
             'document.select(1, 2, 3, 1); const whole = { type: "tilelayer", id: 5, data: Array(40000).fill(1000000000) };'
             'const objects = Array.from({ length: 799 }, (_, at) => ({ id: at + 1, name: "a".repeat(99) }));'
             'document.layers.put({ type: "group", id: 4, layers: [whole, { type: "objectgroup", id: 6, objects }] }, null, 1);'
             'if (document.layers.get(5).cells().some((value) => value !== 1000000000)) throw new Error("other cells"); document.undo(); document.redo()',
             ['select replace 1 2 3 1', 'begin Add Layer || add layer', 'select none', 'layer put 0 1 {"type":"group","id":4,"layers":[]}',
              'layer put 4 0 {"type":"tilelayer","id":5}', *(f'stamp 5 0 {y} 200 {",".join(["1000000000"] * 200)}' for y in range(200)),
              'layer put 4 1 {"type":"objectgroup","id":6,"objects":[]}',
              *(f'object put 6 {{"id":{at},"name":"{"a" * 99}"}}' for at in range(1, 800)), 'select replace 1 2 3 1', 'end', 'undo', 'redo'],
             [('document.status.count', 'document.status.count', 3)], LARGE),
    Scenario('objects in macros', 'things = document.layers["Things"].objects\nwith document.macro("A"):\n  len(things)\nwith document.macro("B"):\n'
             '  things.put({}).name = "a"\ntry:\n  with document.macro("C"):\n    things.put({"x": [0.5]})\nexcept roskevad.Refused as refusal:\n'
             '  assert refusal.code == 63',
             'const { objects } = document.layers.get("Things"); document.macro("A", () => objects.size);'
             'document.macro("B", () => { objects.put({}).name = "a"; }); try { document.macro("C", () => objects.put({ x: [0.5] })); }'
             ' catch (fault) { if (fault.code !== 63) throw fault; }',
             ['begin B', 'object put 2 {}', 'member set object:2 name "a"', 'end', 'begin C', 'end', 'undo']),
    Scenario('tilesets as a file has them', 'art = document.tilesets.put({"firstgid": 100, "name": "art", "image": "art.png", "tilewidth": 16, "tileheight": 16,'
             ' "tilecount": 64, "columns": 8})\ndocument.tilesets.put({"firstgid": 200, "source": "other.tsj"})\ndocument.stamp(1, 0, 0, [[art.value(5)]])',
             'const art = document.tilesets.put({ firstgid: 100, name: "art", image: "art.png", tilewidth: 16, tileheight: 16, tilecount: 64, columns: 8 });'
             'document.tilesets.put({ firstgid: 200, source: "other.tsj" }); document.stamp(1, 0, 0, [[art.value(5)]])',
             ['tileset put {"firstgid":100,"name":"art","image":"art.png","tilewidth":16,"tileheight":16,"tilecount":64,"columns":8}',
              'tileset put {"firstgid":200,"source":"other.tsj"}', 'stamp 1 0 0 1 105'],
             [('[[each.first_id, each.source, each.name] for each in document.tilesets]',
               '[...document.tilesets].map((each) => [each.firstId, each.source, each.name])',
               [[1, 'town.tsj', None], [100, None, 'art'], [200, 'other.tsj', None]]),
              ('[document.layers[1].tile(0, 0).local_id, len(document.tilesets["art"].tiles)]',
               '[document.layers.get(1).tile(0, 0).localId, document.tilesets.get("art").tiles.length]', [5, 64])]),
    Scenario('a tileset of an image', 'document.tilesets.add_from_image(100, "art", "img/art.png", 130, 132, 16, 16, margin=1, spacing=1)',
             'document.tilesets.addFromImage(100, "art", "img/art.png", 130, 132, 16, 16, { margin: 1, spacing: 1 })',
             ['tileset put {"firstgid":100,"name":"art","image":"img/art.png","imagewidth":130,"imageheight":132,"tilewidth":16,"tileheight":16,"margin":1,'
              '"spacing":1,"columns":7,"tilecount":49}'],
             [('document.tilesets[100].members', 'document.tilesets.get(100).members',
               {'columns': 7, 'image': 'img/art.png', 'imageheight': 132, 'imagewidth': 130, 'margin': 1, 'name': 'art', 'spacing': 1, 'tilecount': 49,
                'tileheight': 16, 'tilewidth': 16})]),
    Scenario('properties of any name', 'names = ["two words", "a\\nb", "", "n"]\n'
             'thing = document.layers["Things"].objects.put({"properties": [{"name": name, "value": name} for name in [*names, "last"]]})\n'
             'for name in names:\n  del thing.properties[name]\nassert thing.properties.pop("none", 5) == 5',
             'const names = ["two words", "a\\nb", "", "n"]; const { objects } = document.layers.get("Things");'
             'const { properties } = objects.put({ properties: [...names, "last"].map((name) => ({ name, value: name })) });'
             'const came = [...names, "none"].map((name) => properties.delete(name)); if (String(came) !== "true,true,true,true,false") throw new Error(came)',
             [r'object put 2 {"properties":[{"name":"two words","value":"two words"},{"name":"a\nb","value":"a\nb"},{"name":"","value":""},{"name":"n",'
              r'"value":"n"},{"name":"last","value":"last"}]}', 'prop take object:2 "two words"', r'prop take object:2 "a\nb"', 'prop take object:2 ""',
              'prop remove object:2 n'],
             [('dict(document.objects[2].properties)', 'Object.fromEntries(document.objects.get(2).properties)', {'last': 'last'})]),
    # ---- things that are moved into others, and room around the map
    Scenario('objects into other layers', 'document.layers.add("object", "Doors")\ndoor = document.objects["door"]\ndoor.move_into("Doors")\n'
             'key = document.layers["Things"].objects.add("key", 0, 0)\nkey.move_into(document.layers["Doors"], 0)\nkey.move_into(4)\n'
             'door.move_into("Things", place=0)\ndoor.move_into(2)',
             'document.layers.add("object", "Doors"); const door = document.objects.get("door"); door.moveInto("Doors");'
             'const key = document.layers.get("Things").objects.add("key", 0, 0); key.moveInto(document.layers.get("Doors"), 0); key.moveInto(4);'
             'door.moveInto("Things", 0); door.moveInto(2)',
             ['layer add object Doors', 'object into 1 4 0', 'object add 2 0 0 0 0 key', 'object into 2 4 0', 'object into 2 4 1', 'object into 1 2 0',
              'object into 1 2 0'],
             [('[[each.id, each.layer.id, dict(each.properties)] for each in document.objects]',
               '[...document.objects].map((each) => [each.id, each.layer.id, Object.fromEntries(each.properties)])', [[1, 2, {'locked': True}], [2, 4, {}]])]),
    Scenario('layers into groups, and out of them', 'at = document.layers\nat.add("group", "Houses")\nat.add("group", "Inn").move_into("Houses")\n'
             'at["Walls"].move_into("Houses/Inn")\nat["Things"].move_into(4, 0)\nat[1].move_into(at["Inn"])\nat["Things"].move_into(at["Houses"])\n'
             'at["Walls"].move_into(None)\nat["Walls"].move_into(None, place=0)',
             'const at = document.layers; at.add("group", "Houses"); at.add("group", "Inn").moveInto("Houses"); at.get("Walls").moveInto("Houses/Inn");'
             'at.get("Things").moveInto(4, 0); at.get(1).moveInto(at.get("Inn")); at.get("Things").moveInto(at.get("Houses"));'
             'at.get("Walls").moveInto(null); at.get("Walls").moveInto(null, 0)',
             ['layer add group Houses', 'layer add group Inn', 'layer into 5 4 0', 'layer into 3 5 0', 'layer into 2 4 0', 'layer into 1 5 1', 'layer into 2 4 1',
              'layer into 3 0 1', 'layer into 3 0 0'],
             [('[[each.id, each.parent.id if each.parent else 0] for each in document.layers.walk()]',
               '[...document.layers.walk()].map((each) => [each.id, each.parent?.id ?? 0])', [[3, 0], [4, 0], [5, 4], [1, 5], [2, 4]])]),
    plain('room around the map', 'document.extend(1, 2, 0, 1); document.extend(0, 1); document.extend(2); document.extend()',
          ['extend 1 2 0 1', 'extend 0 1 0 0', 'extend 2 0 0 0', 'extend 0 0 0 0'],
          values=[('[document.width, document.height, document.objects[1].x, document.objects[1].y]',
                   '[document.width, document.height, document.objects.get(1).x, document.objects.get(1).y]', [7, 7, 64, 48])]),
    Scenario('what moves things in macros and strokes', 'with document.macro("A"):\n  document.layers[1].parent, len(document.objects)\n'
             'with document.macro("B"):\n  document.layers["Walls"].move_into(document.layers.add("group", "G"))\n  document.objects[1].move_into("Things")\n'
             'try:\n  with document.macro("C"):\n    document.extend(1)\n    document.layers["G"].move_into("G")\nexcept roskevad.Refused as refusal:\n'
             '  assert refusal.code == 39\nwith document.stroke():\n  document.stamp(1, 0, 0, [[5]])\n  document.extend(right=1)\n'
             '  document.stamp(1, 1, 0, [[6]])\nwith document.macro("D"):\n  editor.step("extend 0 0 0 1")\n'
             'with document.macro("E"):\n  editor.run_lines(["object into 1 2 0", "layer into 1 0 0"])',
             'document.macro("A", () => [document.layers.get(1).parent, document.objects.size]); document.macro("B", () => {'
             ' document.layers.get("Walls").moveInto(document.layers.add("group", "G")); document.objects.get(1).moveInto("Things"); });'
             'try { document.macro("C", () => { document.extend(1); document.layers.get("G").moveInto("G"); }); } catch (fault) {'
             ' if (fault.code !== 39) throw fault; } document.stroke(() => { document.stamp(1, 0, 0, [[5]]); document.extend(0, 0, 1);'
             ' document.stamp(1, 1, 0, [[6]]); }); document.macro("D", () => editor.step("extend 0 0 0 1"));'
             'document.macro("E", () => editor.runLines(["object into 1 2 0", "layer into 1 0 0"]))',
             ['begin B', 'layer add group G', 'layer into 3 4 0', 'object into 1 2 0', 'end', 'begin C', 'extend 1 0 0 0', 'end', 'undo', 'stamp 1 0 0 1 5',
              'extend 0 0 1 0', 'stamp+ 1 1 0 1 6', 'begin D', 'extend 0 0 0 1', 'end', 'begin E', 'object into 1 2 0', 'layer into 1 0 0', 'end']),
    Scenario('what is moved and is gone', 'layer, thing = document.layers[3], document.objects[1]\nlayer.remove()\nthing.remove()\ncodes = []\n'
             'for work in (lambda: layer.move_into(None), lambda: thing.move_into(2), lambda: document.layers[1].move_into(3),\n'
             '             lambda: thing.properties.put({"name": "a", "value": 1})):\n'
             '  try:\n    work()\n  except roskevad.Refused as refusal:\n    codes.append(refusal.code)\nassert codes == [30, 34, 30, 34], codes',
             'const [layer, thing] = [document.layers.get(3), document.objects.get(1)]; layer.remove(); thing.remove(); const codes = [];'
             'for (const work of [() => layer.moveInto(null), () => thing.moveInto(2), () => document.layers.get(1).moveInto(3),'
             ' () => thing.properties.put({ name: "a", value: 1 })]) { try { work(); } catch (fault) { codes.push(fault.code); } }'
             'if (String(codes) !== "30,34,30,34") throw new Error(codes)',
             ['layer remove 3', 'object remove 1']),
    # ---- properties of any kind
    Scenario('properties that no plain line says', 'p = document.properties\np["two words"] = "a"\np["note"] = "two\\nlines"\np["empty"] = ""\n'
             'p["people"] = 10000000000\np["long"] = "x" * 201\np[""] = True\np["to open"] = document.objects["door"]\np.set("two words", 5, type="int")\n'
             'p.set("sky", "", type="color")\np["sky"] = "#FFAA00"\np["sky"] = "#ffaa00"\np.set("tune", "", type="file")\ndel p["two words"]\n'
             'p.set("note", "one", merge=True)\np.set("note", "", merge=True)',
             'const p = document.properties; p.set("two words", "a"); p.set("note", "two\\nlines"); p.set("empty", ""); p.set("people", 1e10);'
             'p.set("long", "x".repeat(201)); p.set("", true); p.set("to open", document.objects.get("door")); p.set("two words", 5, { type: "int" });'
             'p.set("sky", "", { type: "color" }); p.set("sky", "#FFAA00"); p.set("sky", "#ffaa00"); p.set("tune", "", { type: "file" });'
             'p.delete("two words"); p.set("note", "one", { merge: true }); p.set("note", "", { merge: true })',
             ['prop put map {"name":"two words","type":"string","value":"a"}', r'prop put map {"name":"note","type":"string","value":"two\nlines"}',
              'prop put map {"name":"empty","type":"string","value":""}', 'prop put map {"name":"people","type":"int","value":10000000000}',
              f'prop put map {{"name":"long","type":"string","value":"{"x" * 201}"}}', 'prop put map {"name":"","type":"bool","value":true}',
              'prop put map {"name":"to open","type":"object","value":1}', 'prop put map {"name":"two words","type":"int","value":5}',
              'prop put map {"name":"sky","type":"color","value":""}', 'prop put map {"name":"sky","type":"color","value":"#FFAA00"}',
              'prop set map sky color #ffaa00', 'prop put map {"name":"tune","type":"file","value":""}', 'prop take map "two words"',
              'prop set+ map note string one', 'prop put map {"name":"note","type":"string","value":""}'],
             [('[[key, p_type] for key in document.properties for p_type in [document.properties.type_of(key)]][2:]',
               '[...document.properties.keys()].map((key) => [key, document.properties.typeOf(key)]).slice(2)',
               [['note', 'string'], ['empty', 'string'], ['long', 'string'], ['', 'bool'], ['to open', 'object'], ['sky', 'color'], ['tune', 'file']])]),
    Scenario('floats, classes and lists', 'p = document.objects[1].properties\np.set("speed", 3, type="float")\np["speed"] = 4.0\n'
             'p["house"] = {"rooms": 2, "open": [True, None]}\np.set("house", {"rooms": 3}, property_type="House")\np["house"] = {"rooms": 4}\n'
             'p.set("house", {}, property_type="")\np["many"] = [1, "b"]\np.set("facing", 2, type="int", property_type="Direction")\np["facing"] = 3\n'
             'p.set("house", {"rooms": 5}, type="class", property_type="House")',
             'const p = document.objects.get(1).properties; p.set("speed", 3, { type: "float" }); p.set("speed", 4);'
             'p.set("house", { rooms: 2, open: [true, null] }); p.set("house", { rooms: 3 }, { propertyType: "House" }); p.set("house", { rooms: 4 });'
             'p.set("house", {}, { propertyType: "" }); p.set("many", [1, "b"]); p.set("facing", 2, { type: "int", propertyType: "Direction" });'
             'p.set("facing", 3); p.set("house", { rooms: 5 }, { type: "class", propertyType: "House" })',
             ['prop put object:1 {"name":"speed","type":"float","value":3}', 'prop put object:1 {"name":"speed","type":"float","value":4}',
              'prop put object:1 {"name":"house","type":"class","value":{"rooms":2,"open":[true,null]}}',
              'prop put object:1 {"name":"house","type":"class","value":{"rooms":3},"propertytype":"House"}',
              'prop put object:1 {"name":"house","type":"class","value":{"rooms":4},"propertytype":"House"}',
              'prop put object:1 {"name":"house","type":"class","value":{}}', 'prop put object:1 {"name":"many","type":"list","value":[1,"b"]}',
              'prop put object:1 {"name":"facing","type":"int","value":2,"propertytype":"Direction"}', 'prop set object:1 facing int 3',
              'prop put object:1 {"name":"house","type":"class","value":{"rooms":5},"propertytype":"House"}'],
             [('document.objects[1].members["properties"][1:]', 'document.objects.get(1).members.properties.slice(1)', [
                 {'name': 'speed', 'type': 'float', 'value': 4}, {'name': 'house', 'propertytype': 'House', 'type': 'class', 'value': {'rooms': 5}},
                 {'name': 'many', 'type': 'list', 'value': [1, 'b']}, {'name': 'facing', 'propertytype': 'Direction', 'type': 'int', 'value': 3}])]),
    Scenario('properties as a file has them', 'document.layers[2].properties.put({"name": "a b", "value": 7})\n'
             'document.layers[2].properties.put({"name": "a b", "value": "c", "kept": [{}]})\n'
             'document.properties.put({"name": "people", "type": "odd", "value": None})\n'
             'try:\n  document.properties["people"] = 5\nexcept roskevad.OtherType:\n  document.properties.set("people", 5, type="int")',
             'const things = document.layers.get(2).properties; things.put({ name: "a b", value: 7 }); things.put({ name: "a b", value: "c", kept: [{}] });'
             'document.properties.put({ name: "people", type: "odd", value: null }); try { document.properties.set("people", 5); } catch (fault) {'
             ' if (!(fault instanceof roskevad.OtherType)) throw fault; document.properties.set("people", 5, { type: "int" }); }',
             ['prop put layer:2 {"name":"a b","value":7}', 'prop put layer:2 {"name":"a b","value":"c","kept":[{}]}',
              'prop put map {"name":"people","type":"odd","value":null}', 'prop set map people int 5'],
             [('dict(document.layers[2].properties)', 'Object.fromEntries(document.layers.get(2).properties)', {'a b': 'c'})]),
    Scenario('an object with a class and a list',
             'document.layers["Things"].objects.add("key", 0, 0, properties={"house": {"a": 1}, "many": [1], "to open": True})',
             'document.layers.get("Things").objects.add("key", 0, 0, 0, 0, { properties: { house: { a: 1 }, many: [1], "to open": true } })',
             ['object put 2 {"name":"key","type":"","x":0,"y":0,"width":0,"height":0,"rotation":0,"visible":true,"properties":['
              '{"name":"house","type":"class","value":{"a":1}},{"name":"many","type":"list","value":[1]},{"name":"to open","type":"bool","value":true}]}']),
    # ---- documents
    Scenario('a document that is not active', 'other = editor.new("b", 2, 2, 8, 8, "b.tsj")\ndocument.stamp(1, 0, 0, [[5]])',
             'editor.new("b", 2, 2, 8, 8, "b.tsj"); document.stamp(1, 0, 0, [[5]])', ['new b 2 2 8 8 b.tsj', 'use town', 'stamp 1 0 0 1 5'],
             [('list(editor.documents)', '[...editor.documents.keys()]', ['town', 'b']),
              ('editor.documents["town"] is document', 'editor.documents.get("town") === document', True),
              ('editor.active is document', 'editor.active === document', True)]),
    Scenario('what tells a document leaves another active', 'other = editor.new("b", 2, 2, 8, 8, "b.tsj")\n'
             'repr(document), repr(document.layers[1]), str(document.properties)\nother.undo_text\nrepr(document)',
             'const other = editor.new("b", 2, 2, 8, 8, "b.tsj"); String(document); other.undoText; String(document)',
             ['new b 2 2 8 8 b.tsj']),
    Scenario('none is active', 'editor.active = None', 'editor.active = null', ['use -'], [('editor.active', 'editor.active', None)]),
    Scenario('one is made active', 'editor.new("b", 2, 2, 8, 8, "b.tsj")\neditor.active = document',
             'editor.new("b", 2, 2, 8, 8, "b.tsj"); editor.active = document', ['new b 2 2 8 8 b.tsj', 'use town']),
    Scenario('closed and opened anew', 'document.discard()\nagain = editor.new("town", 2, 2, 8, 8, "b.tsj")\nagain.close()\n'
             'last = editor.open(b\'{"height":1,"infinite":false,"layers":[],"nextlayerid":1,"nextobjectid":1,"orientation":"orthogonal",'
             '"renderorder":"right-down","tileheight":1,"tilesets":[],"tilewidth":1,"type":"map","version":"1.10","width":1}\')\n'
             'assert document.is_closed and again.is_closed and not last.is_closed and last.name == "map"\nlast.discard()\n'
             'editor.new("town", 2, 2, 8, 8, "b.tsj")',
             'document.discard(); const again = editor.new("town", 2, 2, 8, 8, "b.tsj"); again.close();'
             'const last = await editor.open(\'{"height":1,"infinite":false,"layers":[],"nextlayerid":1,"nextobjectid":1,"orientation":"orthogonal",'
             '"renderorder":"right-down","tileheight":1,"tilesets":[],"tilewidth":1,"type":"map","version":"1.10","width":1}\');'
             'if (!document.isClosed || !again.isClosed || last.isClosed || last.name !== "map") throw new Error("closed"); last.discard();'
             'editor.new("town", 2, 2, 8, 8, "b.tsj")',
             ['discard town', 'new town 2 2 8 8 b.tsj']),
    Scenario('views of what is gone', 'layer, thing = document.layers[3], document.objects[1]\nlayer.remove()\nthing.remove()\ncodes = []\n'
             'for look in (lambda: layer.name, lambda: thing.x, lambda: layer.layers[1], lambda: thing.properties["a"]):\n'
             '  try:\n    look()\n  except roskevad.Refused as refusal:\n    codes.append(refusal.code)\nassert codes == [30, 34, 30, 34], codes',
             'const [layer, thing] = [document.layers.get(3), document.objects.get(1)]; layer.remove(); thing.remove(); const codes = [];'
             'for (const look of [() => layer.name, () => thing.x, () => layer.layers.get(1), () => thing.properties.get("a")]) {'
             ' try { look(); } catch (fault) { codes.push(fault.code); } } if (String(codes) !== "30,34,30,34") throw new Error(codes)',
             ['layer remove 3', 'object remove 1']),
    Scenario('own members of what is gone', 'thing = document.objects[1]\nmembers = thing.members\nthing.remove()\ncodes = []\n'
             'for work in (lambda: setattr(thing, "name", "a"), lambda: members.put({}), lambda: members.update(x=1), lambda: members.pop("x"),\n'
             '             lambda: setattr(thing, "tile", None), lambda: thing.rotation, lambda: thing.members):\n'
             '  try:\n    work()\n  except roskevad.Refused as refusal:\n    codes.append(refusal.code)\nassert codes == [34] * 7, codes',
             'const thing = document.objects.get(1); thing.remove(); const codes = [];'
             'for (const work of [() => { thing.name = "a"; }, () => thing.setMembers({}), () => thing.setMembers({ x: 1 }), () => thing.removeMember("x"),'
             ' () => { thing.tile = null; }, () => thing.rotation, () => thing.members]) { try { work(); } catch (fault) { codes.push(fault.code); } }'
             'if (String(codes) !== String(Array(7).fill(34))) throw new Error(codes)',
             ['object remove 1']),
]


def test_python():
    check_in_python(SCENARIOS)


def test_javascript():
    check_in_javascript(SCENARIOS)
