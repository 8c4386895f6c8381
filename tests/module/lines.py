# SPDX-License-Identifier: MIT OR Apache-2.0
"""Lines of sessions that are the same each time: of each example map, and by chance."""

# What a line may have in the place of a number, beside small ones.
NUMBERS = ('0', '-1', '4096', '4097', '65535', '1000000000', '1000000001', '4294967295', '4294967296')
WORDS = ('yes', 'no', 'map', 'none', 'tile', 'object', '-', '', ' ', 'é', '01', '+1')


def example_lines(name):
    """Edits of an example map, whose ids need not be there, with a save of each state."""
    lines = [f'open m {name}', 'show', 'save copy.tmj']
    for layer in range(1, 20):
        lines += [f'stamp {layer} 1 1 2 1,2,3,4', f'fill {layer} 0 0 5', f'tile {layer} 1 1']
        lines += [f'layer rename {layer} New name', f'object add {layer} 1 2 3 4 thing']
    lines += ['begin M', 'resize 20 20 1 1', 'prop set map kind string a', 'end', 'select replace 1 1 3 3']
    lines += ['erase 1 0 0 9 9', 'save edited.tmj', 'goto 0', 'save undone.tmj', 'goto 1000']
    return [*lines, 'save redone.tmj', 'open again redone.tmj', 'show', 'list', 'discard m']


def number(chosen, most=12):
    return chosen.choice(NUMBERS) if chosen.random() < 0.03 else str(chosen.randrange(most))


def tile_list(chosen, width):
    count = width * chosen.randrange(1, 5) + (chosen.random() < 0.02)
    return ','.join(number(chosen, 40) for _ in range(count))


def stamp(chosen):
    width = chosen.randrange(1, 6)
    plus = '+' * (chosen.random() < 0.5)
    place = f'{number(chosen)} {chosen.randrange(-2, 30)} {chosen.randrange(-2, 30)}'
    return f'stamp{plus} {place} {width} {tile_list(chosen, width)}'


def area(chosen):
    return ' '.join(str(chosen.randrange(-2, 30)) for _ in range(2)) + ' ' + ' '.join(
        str(chosen.randrange(0, 20)) for _ in range(2)
    )


# A line of each kind, with its own numbers in the place of `#`, its area in that of `@`, and a file,
# a document or a kind of selection.
FORMS = [
    *['undo', 'redo', 'goto #', 'status', 'tile # # #', 'fill # # # #', 'erase # @', 'erase+ # @'] * 3,
    *['layer add tile New', 'layer add object New', 'layer remove #', 'layer rename # A name'],
    *['layer show # yes', 'layer show # no', 'layer move # #', 'resize # # # #', 'select none'],
    *['select SELECT @'] * 4,
    *['object add # # # # # thing', 'object move # # #', 'object move+ # # #', 'object resize # # #'],
    *['object remove #', 'prop set map a int #', 'prop set layer:# a string text', 'prop set+ map a int #'],
    *['prop set object:# door object #', 'prop set map c color #ff00ff', 'prop remove map a'],
    *['tileset add # t.tsj', 'tileset remove #', 'clean', 'dirty', 'begin M', 'begin M || do it'],
    *['end', 'end', 'limit #', 'show', 'undotext', 'redotext', 'text #', 'list', 'save FILE', 'use DOC'],
    *['use -', 'open DOC FILE', 'close DOC', 'discard DOC', 'new DOC # # # # t.tsj', 'clear'],
]


def line(chosen, files):
    """A line, in one of a hundred cases with a word that is out of place."""
    if chosen.random() < 0.4:
        words = stamp(chosen).split(' ')
    else:
        words = chosen.choice(FORMS).replace('@', area(chosen)).split(' ')
    for at, word in enumerate(words):
        if '#' in word and not word.startswith('#f'):
            words[at] = word.replace('#', number(chosen))
        elif word == 'FILE':
            words[at] = chosen.choice([*files, 'saved.tmj', 'other.tmj'])
        elif word == 'DOC':
            words[at] = f'd{chosen.randrange(4)}'
        elif word == 'SELECT':
            words[at] = chosen.choice(('replace', 'add', 'subtract', 'intersect'))
    if chosen.random() < 0.01:
        words[chosen.randrange(len(words))] = chosen.choice(WORDS)
    return ' '.join(words)


def chance_lines(chosen, files, count):
    """So many lines over these files. Each map is opened at the front."""
    lines = [f'open d{at} {name}' for at, name in enumerate(files[:4])]
    lines += [line(chosen, files) for _ in range(count - len(lines))]
    return lines
