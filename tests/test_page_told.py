# SPDX-License-Identifier: MIT OR Apache-2.0
"""Looks at what the page in Chromium reads and shows behind lines, with an undo limit and without: cells of
a rectangle, one object, the rows of steps that are others, and nothing else of the map."""
from lib.cases import passed
from page.bench import Bench, choose, draw, object_of, spelled, standing, take_tile
from page.browser import Keys
from page.many_objects import count_calls, counted, crates, parts_read

NEEDS_BROWSER = True
IS_LONG = True
MANY, STEPS, EDITS = 1000, 450, 250
# The calls that read of a map what is not its cells.
READS = ('outline', 'object', 'layer', 'map_head')
# Whether the page has the cells that are in the map.
SEEN = '''
const {editor: {map}, view: {cache}} = roskevad, [x0, y0, x1, y1] = cache.box;
return map.layers.filter(layer => layer.isTiles).every(({id}) =>
  JSON.stringify([...cache.cellsOf(id)]) === JSON.stringify([...map.cells(id, x0, y0, x1 - x0, y1 - y0)]));'''
# Whether the page has the map that a look at all of it gives.
KNOWN = '''
const inOrder = (_, each) => each?.constructor === Object ? Object.fromEntries(Object.entries(each).sort(([one], [other]) => one < other ? -1 : 1)) : each;
const told = map => JSON.stringify([map.data, map.layers.map(({group, ...layer}) => [group?.id, layer]), map.odd, map.runs], inOrder);
const {editor} = roskevad, [has, wanted] = [editor.map, editor.modelNow()];
const isFound = ({id}) => JSON.stringify(has.object(id)?.object) === JSON.stringify(wanted.object(id).object);
return told(has) === told(wanted) && has.places.size === wanted.places.size
  && wanted.layers.every(layer => (layer.data.objects ?? []).every(isFound));'''


def see_read(page, line, parts=(), **wanted):
    """Does a line, behind which these rectangles of cells are read, and so often what else is named."""
    count_calls(page)
    page.editor.lines(line)
    read = parts_read(page)
    counts, _ = counted(page)
    has = {name: counts.get(name, 0) for name in READS}
    assert has == {**dict.fromkeys(READS, 0), **wanted}, (line, has)
    assert sorted(read) == sorted(map(list, parts)), (line, read)
    passed()


def names(page):
    return page.texts('#steps li .name')


def test_turns_of_paints():
    """Behind a paint, and an undo, a redo and a goto of paints, the page reads the rectangle in which cells
    are others, and nothing else: with a limit, too."""
    for limit in (0, 4):
        with Bench(empty=True) as page:
            page.editor.lines('new a 30 20 16 16 tiles.tsx', 'layer add tile Roof', 'clear', f'limit {limit}')
            page.click('#fit')
            for at in range(6):
                see_read(page, f'stamp 1 {3 * at} {2 * at} 2 5,6,7,8', [(1, 3 * at, 2 * at, 2, 2)])
            see_read(page, 'undo', [(1, 15, 10, 2, 2)])
            see_read(page, 'redo', [(1, 15, 10, 2, 2)])
            index = standing(page)[0]
            see_read(page, f'goto {index - 3}', [(1, 9, 6, 8, 6)])
            see_read(page, f'goto {index}', [(1, 9, 6, 8, 6)])
            see_read(page, 'fill 2 0 0 9', [(2, 0, 0, 30, 20)])
            see_read(page, 'undo', [(2, 0, 0, 30, 20)])
            see_read(page, 'erase 1 0 0 3 2', [(1, 0, 0, 2, 2)])
            see_read(page, 'select replace 1 1 3 3')
            see_read(page, 'undo')
            for line in ('begin Both', 'stamp 1 20 1 1 5', 'stamp 1 24 3 1 5', 'end'):
                page.editor.lines(line)
            see_read(page, 'undo', [(1, 20, 1, 5, 3)])
            assert page.js(SEEN) and page.js(KNOWN), limit


def test_own_members():
    """Behind an edit of a layer, or of the map's properties, its own members are read, and no object and no
    cell; a group that is hidden hides the layers in it. Layers that come, go or move are read whole."""
    with Bench() as page:
        page.click('#fit')
        for line in ('layer show 1 no', 'layer rename 1 Floor', 'prop set layer:1 a int 1', 'prop remove layer:1 a', 'undo', 'undo', 'redo'):
            see_read(page, line, layer=1)
            assert page.js(KNOWN), line
        assert 'Floor' in page.texts('#layers .name') and names(page)[-1] == 'Remove Property · Floor: a'
        group = page.js('return roskevad.editor.map.layers.find(each => each.type === "group").id')
        see_read(page, f'layer show {group} no', layer=1)
        assert page.js(KNOWN) and page.js('return roskevad.editor.map.layers.filter(each => !each.isSeen).length') > 2
        for line in ('prop set map weather string calm', 'prop remove map weather', 'undo', 'undo'):
            see_read(page, line, map_head=1)
            assert page.js(KNOWN), line
        for line in ('begin All', 'layer rename 1 Ground', 'stamp 1 22 9 1 5', 'end'):
            page.editor.lines(line)
        see_read(page, 'undo', [(1, 22, 9, 1, 1)], layer=1)
        count_calls(page)
        page.editor.lines(f'layer move {group} 0')
        assert counted(page)[0]['outline'] == 1 and page.js(KNOWN) and page.js(SEEN)


def test_objects_come_and_go():
    """An object that is added, removed, or brought back alone is read, in its place among 1,000."""
    for limit in (0, 5):
        bench = Bench(empty=True)
        with bench as page:
            first, *_, last = crates(bench.folder, MANY)
            page.choose_files(bench.folder / 'crates.tmj', *bench.folder.glob('*.ts?'))
            page.editor.lines(f'limit {limit}')
            page.keys('s')
            layer = page.js('return roskevad.editor.map.object(arguments[0]).layer.id', first)
            head = f'#objects li[data-layer="{layer}"] .kind'
            see_read(page, f'object add {layer} 9 8 7 6 new one', object=1)
            assert page.js(KNOWN) and object_of(page, last + 1)['name'] == 'new one'
            assert names(page)[-1] == 'Add Object · new one'
            see_read(page, 'undo')
            assert page.js(KNOWN) and names(page)[-1] == 'Add Object · new one'
            see_read(page, 'redo', object=1)
            page.js('roskevad.objects.choose(arguments[0])', first + 7)
            see_read(page, f'object remove {first + 7}')
            assert page.js(KNOWN) and page.js('return roskevad.bench.objectId') is None
            assert page.texts(head) == [f'{MANY:,} of {MANY:,}']
            see_read(page, f'object remove {first + 500}')
            see_read(page, 'undo', object=1)
            see_read(page, f'goto {standing(page)[0] - 1}', object=1)
            assert page.js(KNOWN) and page.texts(head) == [f'{MANY + 1:,} of {MANY + 1:,}']
            page.editor.lines(f'object move {first} 1 1', f'prop set object:{first} a int 1')
            see_read(page, f'goto {standing(page)[0] - 2}', object=1)
            assert page.js(KNOWN)


# ---- the rows of the list Steps


def test_steps_under_a_limit():
    """With an undo limit each step has what it is about, and the way in which it was made: behind drops,
    merges, macros and a reload."""
    with Bench() as page:
        page.editor.lines('limit 5')
        choose(page, 'Ground')
        take_tile(page, (3, 1))
        page.keys('p')
        page.drag([(3, 20), (5, 22)])
        page.say('select replace 1 1 5 5')
        page.say('select none')
        wanted = ['Stamp · Ground: rectangle', 'Select · 5 × 5', 'Select · none']
        assert names(page)[1:] == wanted, names(page)
        inn = page.js('return roskevad.editor.map.object(2).object.name')
        page.say('prop set object:2 open bool true')
        page.say('layer show 1 no')
        wanted += [f'Set Property · {inn}: open', 'Show Layer · Ground: hidden']
        assert names(page)[1:] == wanted, names(page)
        page.keys('b')
        page.say('layer show 1 yes')
        page.drag([(9, 20), (10, 20), (11, 21)])
        assert names(page)[1:] == [*wanted[2:], 'Show Layer · Ground: shown', 'Stamp · Ground'], names(page)
        for line in ('begin Two', 'stamp 1 0 0 1 5', 'erase 1 0 0 2 2', 'end', 'undo'):
            page.say(line)
        wanted = [*wanted[3:], 'Show Layer · Ground: shown', 'Stamp · Ground', 'Two · Ground']
        assert names(page)[1:] == wanted and standing(page) == (4, 5), names(page)
        page.reload()
        assert names(page)[1:] == wanted and standing(page) == (4, 5), names(page)
        page.ctrl('z')
        page.say('select add 2 2 3 3')
        assert names(page)[1:] == [*wanted[:3], 'Select · + 3 × 3'], names(page)
        page.say('select none')
        page.keys('p')
        page.drag([(3, 25), (5, 26)])
        assert names(page)[-1] == 'Stamp · Ground: rectangle'
        page.say('stamp+ 1 9 9 1 5')
        assert names(page)[-1] == 'Stamp · Ground', 'in part it was made otherwise'
        page.say('tileset add 5000 more.tsx')
        assert names(page)[-1] == 'Add Tileset · more.tsx'
        page.ctrl('z')
        assert names(page)[-1] == 'Add Tileset · more.tsx', 'it has the name that it had'


BY_CHANCE = '''
const [seed, count] = arguments;
let state = seed;
const below = most => {
  state = (Math.imul(state, 1664525) + 1013904223) >>> 0;
  return Math.floor(state / 2 ** 32 * most);
};
const {editor} = roskevad;
const {steps} = editor.openDocuments.document;
const edit = at => [`prop set map key${at} int 1`, `prop set map key${at} int 1`, `stamp+ 1 ${below(9)} ${below(9)} 1 ${1 + below(3)}`,
  `select add ${below(9)} ${below(9)} 1 1`, `prop set+ layer:1 key${at} int 1`, "object add 2 1 1 1 1 new"][below(6)];
const lineOf = at => {
  const turn = below(100), {count, depth} = editor.stand();
  if (turn < 55) return edit(at);
  if (turn < 67) return depth ? "end" : "undo";
  if (turn < 77) return "redo";
  if (turn < 83) return `goto ${below(count + 1)}`;
  return ["begin M", "end", "begin M", "end", "clean", "status"][below(6)];
};
const told = all => JSON.stringify(all.map(({text, isMacro, subject}) => [text, isMacro, subject]));
const wrong = [], lines = ["begin First", "stamp 1 0 0 1 1", "stamp+ 1 1 1 1 1"];
editor.doLines(lines);
for (let at = 0; at < count && !wrong.length; at++) {
  lines.push(lineOf(at));
  editor.doLines(lines.slice(-1), {isFree: true});
  const {count: all} = editor.stand();
  const from = below(all + 1);
  const has = steps.from(from, all, editor.editor);
  if (has.some(({isMacro, way}) => isMacro && way !== null)) wrong.push([at, lines.slice(-5), "a macro has a way"]);
  if (Object.keys(steps.rows).length > all) wrong.push([at, "rows of steps that are gone"]);
  if (told(has) !== told(editor.editor.steps(from))) wrong.push([at, lines.slice(-5), told(has), told(editor.editor.steps(from))]);
}
while (editor.stand().depth) editor.doLines(["end"]);
// A step that sets a property of the map is called by its name: that is gone behind its undo.
let seen = 0;
const keys = () => new Set((editor.map.data.properties ?? []).map(({name}) => name));
for (let {index} = editor.stand(); index > 0; index--) {
  const [{text, subject, way}] = steps.from(index - 1, index, editor.editor), before = keys();
  editor.doLines(["undo"]);
  const gone = [...before].filter(key => !keys().has(key));
  if (text !== "Set Property" || subject.kind !== "map") continue;
  seen++;
  if (gone.length !== 1 || gone[0] !== way) wrong.push([index, way, gone]);
}
return [wrong, seen];'''


def test_steps_by_chance():
    """Behind each of 250 random lines the rows that are kept are those that the editor tells, and none of
    a step that is gone; and each way is that of its step."""
    seen = 0
    for seed, limit in enumerate((0, 3, 20, 60)):
        with Bench(empty=True) as page:
            page.editor.lines('new a 12 12 16 16 tiles.tsx', 'layer add object Things', 'clear', f'limit {limit}')
            wrong, count = page.js(BY_CHANCE, 20261129 + seed, EDITS)
            assert not wrong, (limit, wrong)
            assert page.js(KNOWN)
            seen += count
            page.settle()
            passed()
    assert seen > 10, seen


def test_rows_of_many_steps():
    """Where 450 steps are there, a stroke asks for its own row alone, and so does an undo."""
    with Bench(empty=True) as page:
        page.editor.lines('new a 30 20 16 16 tiles.tsx')
        page.editor.lines(*(f'stamp 1 {at % 30} {at // 30} 1 {1 + at % 3}' for at in range(STEPS)))
        assert standing(page) == (STEPS, STEPS)
        for act in (lambda: page.drag([(3, 18), (5, 18)]), lambda: page.ctrl('z'), lambda: page.ctrl('z', Keys.SHIFT)):
            count_calls(page)
            act()
            page.settle()
            counts, lines = counted(page)
            assert counts.get('step_text', 0) <= 2 and not [line for line in lines if line.startswith(('text', 'status'))], counts
        assert names(page)[-1] == 'Stamp · Tile Layer 1' and len(names(page)) >= 200, names(page)[-3:]
        assert spelled(page)[-1] == 'redo'


# Counts how often the list of steps is another one, and has each change shown at once.
CHANGES = '''
const {steps} = roskevad;
window.changes = 0;
steps.measure = () => (window.changes++);
steps.time = 0;'''


def test_one_change_of_the_list():
    """A stroke is several lines of one step. Behind the first of them the rows of the list say what they said, so it changes once."""
    with Bench() as page:
        draw(page)
        page.js(CHANGES)
        for row in (21, 22, 23):
            page.stroke([(3, row), (4, row), (5, row), (6, row)])
        assert page.js('return window.changes') == 3 and standing(page) == (4, 4)
