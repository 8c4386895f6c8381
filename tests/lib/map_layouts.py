# SPDX-License-Identifier: MIT OR Apache-2.0
"""Texts of maps in many layouts: a short printer of Tiled's own, and what other printers make of a
text; and a map for edits, as Tiled has it."""
import json
import re
import subprocess
import tempfile
from pathlib import Path

from lib.maps import group, map_of, packed, property_of, thing, things, tiles


def spelled(value):
    """A value that stands on no line of its own."""
    if isinstance(value, str):
        return json.dumps(value).replace('/', '\\/')
    return '%.15g' % value if isinstance(value, float) else json.dumps(value)


def printed(value, depth=0):
    """A tree in Tiled's layout."""
    pad = '    ' * depth
    if isinstance(value, list):
        return '[' + ', '.join(printed(entry, depth + 1) for entry in value) + ']'
    if not isinstance(value, dict):
        return spelled(value)
    members = [f'{spelled(name)}:{printed(value[name], depth + 1)}' for name in sorted(value)]
    if depth == 0:
        return '{ ' + ',\n '.join(members) + '\n}'
    rows = ',\n'.join(f'{pad} {member}' for member in members)
    return f'\n{pad}{{\n{rows}\n{pad}}}' if members else f'\n{pad}{{\n\n{pad}}}'


def minimized(data):
    """As Tiled does it: no space outside of texts."""
    texts = re.split(rb'("(?:[^"\\]|\\.)*")', data)
    return b''.join(text if at % 2 else re.sub(rb'\s', b'', text) for at, text in enumerate(texts))


def layouts(data):
    """A text in each of some layouts, by a name for each."""
    tree = json.loads(data)
    return {
        'as it is': data,
        'minimized': minimized(data),
        'as on Windows': data.replace(b'\r\n', b'\n').replace(b'\n', b'\r\n'),
        'with a last newline': data + b'\n',
        "Python's": json.dumps(tree).encode(),
        "Python's, indented": json.dumps(tree, indent=4).encode() + b'\n',
        "Python's, sorted": json.dumps(tree, indent='\t', sort_keys=True).encode(),
        "Node's": json.dumps(tree, indent=2, ensure_ascii=False).encode(),
    }


def turned(value):
    """A tree whose members stand the other way round."""
    if isinstance(value, dict):
        return {name: turned(member) for name, member in reversed(value.items())}
    return [turned(entry) for entry in value] if isinstance(value, list) else value


def printers():
    """Printers of trees, by the names of their layouts. The trees have whole numbers alone: Python's
    printer writes 1e-05 where Node's, and the program in their layouts, write 0.00001."""
    return {
        "Tiled's": lambda tree: printed(tree).encode(),
        'minimized': lambda tree: minimized(printed(tree).encode()),
        'as on Windows': lambda tree: printed(tree).replace('\n', '\r\n').encode(),
        "Python's": lambda tree: json.dumps(tree, indent=2, sort_keys=True).encode(),
        "Node's": lambda tree: json.dumps(
            tree, indent=1, sort_keys=True, ensure_ascii=False
        ).encode(),
    }


# ---- a map for edits


def in_csv(cells):
    """The members of a tile layer that say its cells, in Tiled's CSV."""
    return {'data': cells}


def in_base64(cells):
    """The same in Tiled's Base64 (uncompressed)."""
    return {'compression': '', 'data': packed(cells), 'encoding': 'base64'}


def layers_for_edits(form):
    """Two tile layers, one of them empty; objects; an object layer without any, whose name has
    letters that some layouts escape; and a tile layer in a group. No two set cells are the same."""
    owned = [property_of('colour', 'string', 'red'), property_of('locked', 'bool', True)]
    objects = [
        thing(1, x=8, y=16, properties=owned),
        thing(2, x=24, y=17),
        thing(3, x=40, y=18),
    ]
    note = [property_of('note', 'string', 'here')]
    return [
        tiles(1, 4, 3, name='Ground', **form(list(range(1, 13)))),
        tiles(2, 4, 3, name='Walls', **form([0] * 12)),
        things(3, *objects, name='Things', properties=note),
        things(4, name='Über/unter'),
        group(5, tiles(6, 4, 3, name='Floor', **form(list(range(13, 25)))), name='House'),
    ]


def map_for_edits(form=in_csv):
    """A map of 4 by 3 cells as Tiled 1.8 has it, whose tilesets stand beside the example maps. None
    of its tiles is of the second one."""
    return map_of(
        *layers_for_edits(form),
        compressionlevel=-1,
        height=3,
        width=4,
        nextlayerid=7,
        nextobjectid=4,
        properties=[property_of('author', 'string', 'me'), property_of('people', 'int', 12)],
        tiledversion='1.8.2',
        tilesets=[
            {'firstgid': 1, 'source': 'tiles.tsx'},
            {'firstgid': 33, 'source': 'walls.tsj'},
        ],
        version='1.8',
    )


# ---- lines


def lines_changed(before, after):
    """How many lines of the one text are not in the other, and the other way round, as `git diff` counts them."""
    with tempfile.TemporaryDirectory() as folder:
        for name, data in (('a', before), ('b', after)):
            (Path(folder) / name).write_bytes(data)
        words = ['git', 'diff', '--no-index', '--numstat', 'a', 'b']
        done = subprocess.run(words, cwd=folder, capture_output=True, text=True)
    added, removed, *_ = done.stdout.split() or ('0', '0')
    return int(removed), int(added)
