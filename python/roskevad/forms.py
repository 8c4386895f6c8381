# SPDX-License-Identifier: MIT OR Apache-2.0
"""The forms of the session lines, by their first words, as docs/session-lines.md lists them."""

#: The forms of the lines that begin with a word.
FORMS: dict[str, tuple[str, ...]] = {
    'new': ('new DOC WIDTH HEIGHT TILE_WIDTH TILE_HEIGHT SOURCE',),
    'open': ('open DOC FILE',),
    'save': ('save FILE',),
    'close': ('close DOC',),
    'discard': ('discard DOC',),
    'use': ('use DOC', 'use -'),
    'list': ('list',),
    'status': ('status',),
    'undotext': ('undotext',),
    'redotext': ('redotext',),
    'stamp': ('stamp LAYER X Y WIDTH TILES', 'stamp+ LAYER X Y WIDTH TILES'),
    'erase': ('erase LAYER X Y WIDTH HEIGHT', 'erase+ LAYER X Y WIDTH HEIGHT'),
    'fill': ('fill LAYER X Y TILE',),
    'select': ('select replace|add|subtract|intersect X Y WIDTH HEIGHT', 'select none'),
    'layer': (
        'layer add tile|object NAME', 'layer remove LAYER', 'layer rename LAYER NAME', 'layer show LAYER yes|no', 'layer move LAYER PLACE',
        'layer add group|image NAME', 'layer into LAYER GROUP PLACE', 'layer put GROUP PLACE JSON',
    ),
    'resize': ('resize WIDTH HEIGHT X Y',),
    'object': (
        'object add LAYER X Y WIDTH HEIGHT NAME', 'object move OBJECT X Y', 'object move+ OBJECT X Y', 'object resize OBJECT WIDTH HEIGHT',
        'object remove OBJECT', 'object put LAYER JSON', 'object into OBJECT LAYER PLACE',
    ),
    'prop': (
        'prop set OWNER KEY string|file TEXT', 'prop set OWNER KEY int NUMBER', 'prop set OWNER KEY bool true|false',
        'prop set OWNER KEY color COLOUR', 'prop set OWNER KEY object OBJECT', 'prop set+ OWNER KEY TYPE VALUE', 'prop remove OWNER KEY',
        'prop put OWNER JSON', 'prop take OWNER JSON',
    ),
    'tileset': ('tileset add FIRST SOURCE', 'tileset remove FIRST', 'tileset put JSON', 'tileset number FIRST NUMBER'),
    'undo': ('undo',),
    'redo': ('redo',),
    'goto': ('goto INDEX',),
    'clean': ('clean',),
    'dirty': ('dirty',),
    'clear': ('clear',),
    'begin': ('begin TEXT', 'begin TEXT || ACTION'),
    'end': ('end',),
    'limit': ('limit NUMBER',),
    'show': ('show',),
    'text': ('text PLACE',),
    'tile': ('tile LAYER X Y',),
    'member': (
        'member set OWNER KEY JSON', 'member set+ OWNER KEY JSON', 'member put OWNER JSON', 'member put+ OWNER JSON',
        'member remove OWNER KEY',
    ),
    'extend': ('extend LEFT TOP RIGHT BOTTOM',),
}


def forms_of(line: str) -> tuple[str, ...]:
    """The forms of the command that a line begins with; where it begins with none, those that begin with its first letter."""
    word = line.strip().split(' ')[0].rstrip('+')
    if word in FORMS:
        return FORMS[word]
    return tuple(form for name, forms in FORMS.items() if word and name[0] == word[0].lower() for form in forms)
