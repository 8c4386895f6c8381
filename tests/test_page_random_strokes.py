# SPDX-License-Identifier: MIT OR Apache-2.0
"""Draws 40 strokes by chance on the page in Chromium: each is one step or none, an undo gives back
the map before it, and the page has the map that the editor has."""
import random

from lib.cases import passed
from page.bench import Bench, spelled, standing

NEEDS_BROWSER = True
IS_LONG = True
STROKES = 40


def random_stamp(numbers):
    """A stamp of one tile of two, or a block of them with holes."""
    width, height = numbers.choice([(1, 1), (2, 1), (2, 1), (2, 2), (3, 2)])
    values = [numbers.choice([1, 2, 0]) for _ in range(width * height)]
    values[numbers.randrange(len(values))] = numbers.choice([1, 2])
    return {'width': width, 'height': height, 'values': values}


def random_way(numbers):
    """A way of the hand over a map of 10 by 8 cells, and a little beside it. Some go straight out
    of the map: a stamp of two tiles may then give back all that it changed, and go on."""
    if numbers.random() < 0.4:
        x, y, goal = numbers.randrange(10), numbers.randrange(8), numbers.choice([-1, 11])
        return [(x, y), (goal, y), (goal, (y + 1) % 8), (numbers.randrange(10), (y + 1) % 8)]
    x, y, way = numbers.randrange(-1, 11), numbers.randrange(-1, 9), []
    for _ in range(numbers.randrange(1, 7)):
        way.append((x, y))
        x, y = x + numbers.randrange(-3, 4), y + numbers.randrange(-2, 3)
    return way


LINES_BETWEEN = [
    'select none',
    'select replace 2 2 5 4',
    'select add 0 0 4 3',
    'clean',
    'undo',
    'begin M',
    'end',
]


def tell(page, line):
    page.editor.lines(line)
    page.settle()


# The cells that the page has drawn last, of which it has asked the editor, or drawn them itself.
SEEN = '''
const {editor: {map}, view: {cache}} = roskevad;
return [cache.box, [...cache.cellsOf(map.layers[0].id)]]'''


def take_tool(page, numbers):
    """Takes a tool, a size of the brush and a stamp by chance."""
    page.js(
        'roskevad.tools.choose(arguments[0]); roskevad.bench.brushSize = arguments[1];'
        'roskevad.bench.takeStamp(arguments[2])',
        numbers.choice(['brush', 'brush', 'eraser']),
        numbers.choice([1, 1, 2, 3]),
        random_stamp(numbers),
    )


def draw(page, numbers):
    """Draws a stroke: it is one step or none, and an undo gives back the map before it. Gives
    whether the map has changed, and whether a step vanished on the way."""
    before, (index, _), lines = page.editor.map(), standing(page), len(spelled(page))
    page.stroke(random_way(numbers))
    now, after, depth = page.editor.map(), standing(page)[0], page.editor.state()['depth']
    said = spelled(page)[lines:]
    assert page.js(SEEN) == [[0, 0, 10, 8], now['layers'][0]['data']]
    assert depth or after == index + (now != before), (said, index, after)
    if not depth and now != before:
        page.editor.lines('undo')
        assert page.editor.map() == before, said
        page.editor.lines('redo')
    page.settle()
    return now != before, sum(line.startswith(('stamp ', 'erase ')) for line in said) > 1


def test_random_strokes():
    numbers, came = random.Random(20261125), []
    with Bench(empty=True) as page:
        page.say('new a 10 8 16 16 tiles.tsx')
        tell(
            page, 'stamp 1 0 0 10 ' + ','.join(str(numbers.choice([1, 2])) for _ in range(80))
        )
        for _ in range(STROKES):
            if numbers.random() < 0.3:
                tell(page, numbers.choice(LINES_BETWEEN))
            take_tool(page, numbers)
            came.append(draw(page, numbers))
            passed()
    steps, vanished = map(sum, zip(*came))
    assert steps and vanished, f'{steps} steps, {vanished} of which vanished on their way'
