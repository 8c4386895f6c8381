# SPDX-License-Identifier: MIT OR Apache-2.0
"""Writes a tile layer as a grid of letters, and draws one from such a grid. From the top of a clone:

    python3 examples/text_map.py MAP LAYER > GRID
    python3 examples/text_map.py MAP LAYER GRID

The grid begins with a line for each letter, with the value of its cells in the file, as `a 1`; then follow an empty line and the rows. A
point is an empty cell. Other letters may be used, if they have a line. What is drawn begins at the first cell of the layer, is one step,
and is saved; the grid of a layer that is as it was changes nothing.
"""
import string
import sys
from pathlib import Path

TOP = Path(__file__).resolve().parent.parent
sys.path.insert(0, str(TOP / 'python'))

from roskevad import Editor, Error, Layer  # noqa: E402

EMPTY = '.'
LETTERS = string.ascii_letters + string.digits + ''.join(sorted({*string.punctuation} - {EMPTY}))


def grid_of(layer: Layer) -> str:
    """A tile layer as a text. Raises ValueError where it has more values than there are letters."""
    rows = layer.rows()
    values = sorted({value for row in rows for value in row} - {0})
    if len(values) > len(LETTERS):
        raise ValueError(f'{len(values)} values, and {len(LETTERS)} letters')
    letters = dict(zip(values, LETTERS))
    key = [f'{letter} {value}' for value, letter in letters.items()]
    return '\n'.join([*key, '', *(''.join(letters.get(value, EMPTY) for value in row) for row in rows)]) + '\n'


def rows_of(grid: str) -> list[list[int]]:
    """The rows of values of a grid. Raises ValueError where it is none."""
    key, _, text = grid.partition('\n\n')
    if grid.startswith('\n'):
        key, text = '', grid[1:]
    values = {EMPTY: 0}
    for line in key.splitlines():
        letter, _, value = line.partition(' ')
        if len(letter) != 1 or not value.isdigit():
            raise ValueError(f'no letter with a value: {line!r}')
        values[letter] = int(value)
    unknown = sorted({*text} - {*values, '\n'})
    if unknown:
        raise ValueError(f'letters without a line: {" ".join(unknown)}')
    return [[values[letter] for letter in line] for line in text.splitlines()]


def main() -> None:
    if len(sys.argv) not in (3, 4):
        sys.exit('usage: python3 examples/text_map.py MAP LAYER [GRID]')
    try:
        with Editor() as editor, editor.open(sys.argv[1]) as document:
            layer = document.layers[sys.argv[2]]
            if len(sys.argv) == 3:
                print(grid_of(layer), end='')
                return
            layer.write(0, 0, rows_of(Path(sys.argv[3]).read_text()))
            if not document.status.clean:
                document.save()
    except (Error, OSError, ValueError) as fault:
        sys.exit(f'{sys.argv[1]}: {fault}')


if __name__ == '__main__':
    main()
