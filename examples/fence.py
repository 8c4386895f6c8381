# SPDX-License-Identifier: MIT OR Apache-2.0
"""Opens a map, draws a fence, takes it back, draws it again and saves the map. From the top of a clone:

    python3 examples/fence.py [MAP [FENCED_MAP]]

Without FENCED_MAP the map is saved in a folder that is removed at the end.
"""
import sys
import tempfile
from pathlib import Path

TOP = Path(__file__).resolve().parent.parent
sys.path.insert(0, str(TOP / 'python'))

from roskevad import Editor  # noqa: E402


def draw(map_path: Path, fenced: Path) -> None:
    """Draws the fence into a map, and saves it as another file."""
    with Editor() as editor:
        document = editor.open(map_path)
        layer = next(iter(document.layers))
        with document.macro('Fence'):
            document.stamp(layer, 0, 0, [[7, 7, 7, 7]])
            document.stamp(layer, 0, 2, [[7, 7, 7, 7]])
        print('drawn:', document)
        document.undo()
        print('undone:', document)
        document.redo()
        document.save(fenced)
        print('saved:', document)


def main() -> None:
    with tempfile.TemporaryDirectory() as folder:
        words = [Path(word) for word in sys.argv[1:]]
        draw(words[0] if words else TOP / 'examples' / 'maps' / 'layers.tmj', words[1] if words[1:] else Path(folder) / 'fenced.tmj')
    if not words[1:]:
        print('not kept: name a file behind the map to keep it')


if __name__ == '__main__':
    main()
