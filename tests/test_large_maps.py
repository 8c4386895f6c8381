# SPDX-License-Identifier: MIT OR Apache-2.0
"""Runs the program on the largest maps that it takes: each cell of 1,048,576 set, the map saved,
opened, resized and turned back; each cell painted by one step of many lines; a layer in base64; a
selection of many runs; and each list filled to its limit and past it. No contract refuses a program
that gives up above some size, so none of these may meet want of memory or leave anything out. The
maps, the replies and the files are computed here, by the rules of docs/session-lines.md and
docs/map-files.md. Each save must be synced before it takes the old file's place, which
native/interpose.c sees."""
import itertools
import json
import random

from lib.cases import check_each
from lib.maps import map_of, packed, property_of, text_of, thing, things, tile_reply, tiles
from lib.native import interposed
from lib.refusals import refusal
from lib.sessions import Run, fault_of_replies, heard

SIDE = 1024
ROWS_OF_STAMP = 4


class Grid:
    """The values of a layer, row by row."""

    def __init__(self, width, height, values):
        self.width, self.height, self.values = width, height, values

    def row(self, y):
        return self.values[y * self.width : (y + 1) * self.width]

    def at(self, x, y):
        return self.values[y * self.width + x]

    def with_cell(self, x, y, value):
        place = y * self.width + x
        return Grid(
            self.width, self.height, self.values[:place] + [value] + self.values[place + 1 :]
        )

    def resized(self, width, height, right, down):
        """The cell at x, y of the new one is that at x - right, y - down of this one, and empty
        where that lies outside."""

        def value(x, y):
            return self.at(x, y) if 0 <= x < self.width and 0 <= y < self.height else 0

        return Grid(
            width, height, [value(x - right, y - down) for y in range(height) for x in range(width)]
        )


def varied(x, y):
    """A value that tells the cells apart, with flags in some."""
    return (
        (1 + (7 * x + 13 * y + x * y) % 99_991)
        | (0x80000000 if (x + y) % 17 == 0 else 0)
        | (0x20000000 if x % 19 == 3 else 0)
    )


def varied_grid():
    return Grid(SIDE, SIDE, [varied(x, y) for y in range(SIDE) for x in range(SIDE)])


def layer_with(grid):
    return tiles(1, grid.width, grid.height, name='Tile Layer 1', data=grid.values)


def map_with(grid, *layers, **members):
    """A map of the sizes of a grid with these layers, or one with its values, as the editor makes
    it but for other members."""
    return map_of(
        *(layers or [layer_with(grid)]),
        **{
            'width': grid.width,
            'height': grid.height,
            'nextlayerid': 2,
            'nextobjectid': 1,
            **members,
        },
    )


class LargeRun(Run):
    """A run that looks at many cells."""

    def look(self, grid):
        """Looks at the corners of a layer, and at cells all over it."""
        chosen = random.Random(1)
        places = [(x, y) for x in (0, grid.width - 1) for y in (0, grid.height - 1)]
        places += [
            (chosen.randrange(grid.width), chosen.randrange(grid.height)) for _ in range(2000)
        ]
        self.say_all((f'tile 1 {x} {y}', tile_reply(grid.at(x, y))) for x, y in places)


def all_cells():
    """Each cell of a map is set; it is saved, opened, made wide and high, and turned back each
    time."""
    run, grid = LargeRun('all cells'), varied_grid()
    run.say(f'new big {SIDE} {SIDE} 16 16 t.tsj', 'ok 0/0 clean 0')
    count = SIDE // ROWS_OF_STAMP
    for at in range(count):
        first = at * ROWS_OF_STAMP * SIDE
        values = ','.join(map(str, grid.values[first : first + ROWS_OF_STAMP * SIDE]))
        run.say(f'stamp 1 0 {at * ROWS_OF_STAMP} {SIDE} {values}', f'ok {at + 1}/{at + 1} dirty 0')
    run.look(grid)
    whole = text_of(map_with(grid))
    run.save('big.tmj', whole)
    run.say('open again big.tmj', 'ok 0/0 clean 0')
    run.look(grid)
    run.save('again.tmj', whole)
    run.say('resize 4096 257 0 0', refusal(39))
    run.say('resize 4097 1 0 0', refusal(39))
    for name, size in [('wide', (4096, 256, 1500, -3)), ('high', (256, 4096, -5, 2000))]:
        changed = grid.resized(*size)
        run.say('resize {} {} {} {}'.format(*size), 'ok 1/1 dirty 0')
        run.look(changed)
        run.save(f'{name}.tmj', text_of(map_with(changed)))
        run.say('undo', 'ok 0/1 dirty 0')
        run.look(grid)
        run.save(f'back_from_{name}.tmj', whole)
    run.say('use big', f'ok {count}/{count} clean 0')
    run.say('goto 0', f'ok 0/{count} dirty 0')
    run.look(Grid(SIDE, SIDE, [0] * SIDE * SIDE))
    return run


def strokes():
    """Lines with a plus paint each cell, paint it anew, and erase it: each kind of them is one
    step, of 1,048,576 cells."""
    run, rows = LargeRun('strokes'), range(0, SIDE, ROWS_OF_STAMP)
    first = Grid(SIDE, SIDE, [(x + y) % 9 + 1 for y in range(SIDE) for x in range(SIDE)])
    second = Grid(SIDE, SIDE, [(3 * x + y) % 9 + 1 for y in range(SIDE) for x in range(SIDE)])
    empty = Grid(SIDE, SIDE, [0] * SIDE * SIDE)
    run.say(f'new big {SIDE} {SIDE} 16 16 t.tsj', 'ok 0/0 clean 0')
    for grid in (first, second):
        for y in rows:
            values = grid.values[y * SIDE : (y + ROWS_OF_STAMP) * SIDE]
            run.say(f'stamp+ 1 0 {y} {SIDE} {",".join(map(str, values))}', 'ok 1/1 dirty 0')
        run.look(grid)
    run.save('painted.tmj', text_of(map_with(second)))
    half = SIDE // 2
    for y in (0, half):
        run.say(f'erase+ 1 0 {y} {SIDE} {half}', 'ok 2/2 dirty 0')
    run.look(empty)
    for line, reply, grid in [
        ('undo', 'ok 1/2 clean 0', second),
        ('undo', 'ok 0/2 dirty 0', empty),
        ('redo', 'ok 1/2 clean 0', second),
        ('redo', 'ok 2/2 dirty 0', empty),
    ]:
        run.say(line, reply)
        run.look(grid)
    run.save('erased.tmj', text_of(map_with(empty)))
    return run


def in_base64(grid):
    """A layer whose data is the text of its values, four bytes each, the lowest first."""
    return layer_with(grid) | {'data': packed(grid.values), 'encoding': 'base64'}


def base64_cells():
    """A layer in base64 is opened, saved, stamped and saved."""
    run, grid = LargeRun('base64'), varied_grid()
    first = text_of(map_with(grid, in_base64(grid)))
    run.put('m.tmj', first)
    stamped = grid.with_cell(700, 1023, 4242)
    run.say('open m m.tmj', 'ok 0/0 clean 0')
    run.look(grid)
    run.save('same.tmj', first)
    run.say('stamp 1 700 1023 1 4242', 'ok 1/1 dirty 0')
    run.look(stamped)
    run.say('tile 1 700 1023', 'tile 4242 ---- 1 4241')
    run.save('stamped.tmj', text_of(map_with(grid, in_base64(stamped))))
    return run


def many_runs():
    """A selection of 131,072 runs, with each second column: what is outside it stays, and it goes
    along with the map."""
    run, side = LargeRun('many runs'), 512
    whole = [x + y + 1 for y in range(side) for x in range(side)]
    run.say(f'new runs {side} {side} 16 16 t.tsj', 'ok 0/0 clean 0')
    counted = itertools.count(1)

    def edit(line):
        count = next(counted)
        run.say(line, f'ok {count}/{count} dirty 0')

    for y in range(0, side, 16):
        edit(f'stamp 1 0 {y} {side} ' + ','.join(map(str, whole[y * side : (y + 16) * side])))
    for x in range(0, side, 2):
        edit(f'select add {x} 0 1 {side}')
    edit(f'erase 1 0 0 {side} {side}')
    kept = Grid(
        side, side, [0 if place % side % 2 == 0 else value for place, value in enumerate(whole)]
    )
    run.look(kept)
    run.save('columns.tmj', text_of(map_with(kept)))
    edit(f'resize {side} {side} 1 1')
    moved = kept.resized(side, side, 1, 1)
    run.look(moved)
    edit(f'select subtract 0 0 {side} {side // 2}')
    # The selection has the odd columns now, and lacks the upper half.
    for y in range(side // 2, side, 16):
        edit(f'stamp 1 0 {y} {side} ' + ','.join(['7'] * 16 * side))
    stamped = [
        7 if place % side % 2 == 1 and place // side >= side // 2 else value
        for place, value in enumerate(moved.values)
    ]
    count = next(counted) - 1
    run.say(f'stamp 1 0 0 {side} ' + ','.join(['7'] * 16 * side), f'ok {count}/{count} dirty 0')
    run.look(Grid(side, side, stamped))
    run.save('stamped.tmj', text_of(map_with(Grid(side, side, stamped))))
    run.say('goto 32', f'ok 32/{count} dirty 0')
    run.look(Grid(side, side, whole))
    return run


def values_of(i):
    """The type of the i-th property, its value as a line has it, and its value in JSON."""
    return [
        ('int', str(-i), -i),
        ('string', f'text {i}', f'text {i}'),
        ('bool', 'true', True),
        ('bool', 'false', False),
        ('color', f'#{i:06x}', f'#{i:06x}'),
        ('file', f'f{i}.png', f'f{i}.png'),
        ('object', str(i), i),
    ][i % 7]


def property_at(name, i):
    kind, _, value = values_of(i)
    return property_of(name, kind, value)


def object_of(i):
    return thing(
        i, x=16 * i, y=-i, width=3 * i, height=i % 50, properties=[property_at(f'of{i}', i)]
    )


def full_map():
    """The map of `full_lists`."""
    grid, layer = Grid(2, 2, [0] * 4), things(
        2, *(object_of(i) for i in range(1, 4097)), name='Things'
    )
    tilesets = [{'firstgid': 1, 'source': 't.tsj'}] + [
        {'firstgid': 10 * i, 'source': f't{i}.tsj'} for i in range(1, 256)
    ]
    return map_with(
        grid,
        layer_with(grid),
        layer,
        nextlayerid=3,
        nextobjectid=4097,
        tilesets=tilesets,
        properties=[property_at(f'p{i}', i) for i in range(1, 257)],
    )


def lines_of_lists():
    """The edits that fill the lists, and behind those of each list one more, which is refused."""
    for i in range(1, 4097):
        yield f'object add 2 {16 * i} {-i} {3 * i} {i % 50} thing {i}', True
    yield 'object add 2 0 0 8 8 more', False
    for i in range(1, 4097):
        kind, value, _ = values_of(i)
        yield f'prop set object:{i} of{i} {kind} {value}', True
    for i in range(1, 257):
        kind, value, _ = values_of(i)
        yield f'prop set map p{i} {kind} {value}', True
    yield 'prop set map more int 1', False
    for i in range(1, 256):
        yield f'tileset add {10 * i} t{i}.tsj', True
    yield 'tileset add 3000 more.tsj', False


def full_lists():
    """Each list gets as many entries as it may have, and one more is refused; the map is saved,
    opened and saved again."""
    run, text = LargeRun('full lists'), text_of(full_map())
    run.say('new full 2 2 16 16 t.tsj', 'ok 0/0 clean 0')
    run.say('layer add object Things', 'ok 1/1 dirty 0')
    counted = itertools.count(2)
    for line, fits in lines_of_lists():
        count = next(counted) if fits else None
        run.say(line, f'ok {count}/{count} dirty 0' if fits else refusal(40))
    run.save('full.tmj', text)
    run.say('open again full.tmj', 'ok 0/0 clean 0')
    run.save('again.tmj', text)
    for line in [
        'object add 2 0 0 8 8 more',
        'prop set map more int 1',
        'tileset add 3000 more.tsj',
    ]:
        run.say(line, refusal(40))
    run.say('object remove 1', 'ok 1/1 dirty 0')
    run.say('undo', 'ok 0/1 clean 0')
    run.save('back.tmj', text)
    return run


def entries_of(value, path=''):
    """What stands at each place of a JSON value."""
    if isinstance(value, (dict, list)) and value:
        pairs = sorted(value.items()) if isinstance(value, dict) else enumerate(value)
        for name, below in pairs:
            yield from entries_of(below, f'{path}/{name}')
    else:
        yield f'{path}: {value if len(str(value)) < 100 else f"{len(str(value))} characters"}'


def fault_of_text(wanted, given):
    """Where a map's text differs from the one that is wanted, or None."""
    if wanted == given:
        return None
    try:
        pairs = itertools.zip_longest(
            entries_of(json.loads(wanted)), entries_of(json.loads(given)), fillvalue='nothing'
        )
        differing = next((pair for pair in pairs if pair[0] != pair[1]), None)
    except ValueError:
        return f'no JSON, of {len(given)} bytes and not {len(wanted)}'
    if differing:
        return f'wanted {differing[0]}, given {differing[1]}'
    return f'{len(given)} bytes, and not {len(wanted)}, that say the same'


def fault_of_maps(wanted, given):
    """How the maps of a folder differ from those that are wanted, or None."""
    if wanted.keys() != given.keys():
        return f'the folder has {sorted(given)}'
    for name in sorted(wanted):
        fault = fault_of_text(wanted[name], given[name])
        if fault:
            return f'{name}: {fault}'


def fault_of(run):
    """What is wrong in a run, or None."""
    done, files = heard(
        run.session, run.before, run.options, {'LD_PRELOAD': interposed(), 'READ_STEP': '65536'}
    )
    if done.returncode != 0 or done.stderr:
        return f'exit status {done.returncode}, {done.stderr.decode()[:300]}'
    return fault_of_replies(run.session, run.replies, done.stdout) or fault_of_maps(
        run.after, files
    )


def test_each_cell_set():
    check_each([all_cells()], fault_of)


def test_strokes_over_each_cell():
    check_each([strokes()], fault_of)


def test_cells_in_base64():
    check_each([base64_cells()], fault_of)


def test_a_selection_of_many_runs():
    check_each([many_runs()], fault_of)


def test_lists_at_their_limits():
    check_each([full_lists()], fault_of)
