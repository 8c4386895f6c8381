# SPDX-License-Identifier: MIT OR Apache-2.0
"""Infinite maps as finite ones, and back: the rules of the crate infinite_maps, as a plain program
with one entry for each cell, and infinite maps that are made and edited by chance."""
import base64
import binascii
import itertools
import marshal
import struct

from lib.maps import cells_of, packed

MARK = 'roskevad'
MOST_SIDE, MOST_CELLS, MOST_LAYER_CELLS, MOST_PLACE = 4096, 1048576, 16777216, 1 << 31
USUAL_CHUNK, LEAST_CHUNK = 16, 4
BOUNDS = ('width', 'height', 'startx', 'starty')


class Fault(Exception):
    """A map that is refused; its text is the name of the fault."""


# ---- an infinite map as a finite one


def is_whole(value, least, most):
    return type(value) is int and least <= value <= most


def rectangle_of(chunk):
    """The place and size of a chunk: left, top, width, height."""
    if type(chunk) is not dict:
        raise Fault('BadChunk')
    places = [chunk.get(name) for name in ('x', 'y')]
    sizes = [chunk.get(name) for name in ('width', 'height')]
    if not all(is_whole(place, -MOST_PLACE, MOST_PLACE) for place in places):
        raise Fault('BadChunk')
    if not all(is_whole(size, 1, MOST_PLACE) for size in sizes):
        raise Fault('BadChunk')
    return (*places, *sizes)


def chunk_cells(chunk, is_text, count):
    """The values of a chunk, of which there must be so many."""
    data = chunk.get('data')
    if is_text:
        try:
            plain = base64.b64decode(data, validate=True) if type(data) is str else None
        except (binascii.Error, ValueError):
            raise Fault('BadChunk') from None
        if plain is None or base64.b64encode(plain).decode() != data or len(plain) != 4 * count:
            raise Fault('BadChunk')
        return struct.unpack(f'<{count}I', plain)
    if type(data) is not list or len(data) != count:
        raise Fault('BadChunk')
    if {*map(type, data)} != {int} or min(data) < 0 or max(data) >= 1 << 64:
        raise Fault('BadChunk')
    return data


def chunked_layers(layers):
    """The layers that have chunks, and those within groups."""
    for layer in layers:
        if 'chunks' in layer:
            yield layer
        yield from chunked_layers(layer.get('layers', []))


def box_of(tree):
    """The left, top, right and bottom of all chunks, from an even column and row on."""
    found = []
    for layer in chunked_layers(tree.get('layers', [])):
        if type(layer['chunks']) is not list:
            raise Fault('BadChunk')
        found += [rectangle_of(chunk) for chunk in layer['chunks']]
    if not found:
        return 0, 0, 1, 1
    left, top = (min(places) // 2 * 2 for places in list(zip(*found))[:2])
    right = max(x + width for x, _, width, _ in found)
    return left, top, right, max(y + height for _, y, _, height in found)


def cells_in_all(tree):
    """How many cells the layers of the finite map of a tree have in all; 0 where there is none."""
    try:
        left, top, right, bottom = box_of(tree) if is_infinite(tree) else (0, 0, 0, 0)
        width, height = right - left, bottom - top
        is_small = max(width, height) <= MOST_SIDE and width * height <= MOST_CELLS
        return len(list(chunked_layers(tree.get('layers', [])))) * width * height if is_small else 0
    except (Fault, KeyError, TypeError, AttributeError):
        return 0


def chunk_side(tree, name):
    side = tree.get('editorsettings', {}).get('chunksize', {}).get(name)
    return min(max(side, LEAST_CHUNK), MOST_SIDE) if is_whole(side, 1, 1 << 64) else USUAL_CHUNK


def tile_side(tree, name):
    """The side of a tile in pixels; 0 where the map names no whole number."""
    side = tree.get(name)
    return side if type(side) is int else 0


def data_of(values, is_text):
    return packed(values) if is_text else list(values)


def finite_layer(layer, left, top, width, height):
    """Makes a layer finite, in place."""
    if 'chunks' not in layer or layer.get('compression', '') != '':
        return
    is_text = layer.get('encoding') == 'base64'
    cells, taken, places = [0] * (width * height), bytearray(width * height), []
    for chunk in layer['chunks']:
        x, y, across, down = rectangle_of(chunk)
        x, y = x - left, y - top
        places.append([x, y, across, down])
        values = chunk_cells(chunk, is_text, across * down)
        for number, row in enumerate(rows_in((x, y, x + across, y + down), width)):
            if any(taken[row]):
                raise Fault('Overlap')
            taken[row] = b'\1' * across
            cells[row] = values[number * across : (number + 1) * across]
    del layer['chunks']
    layer[MARK] = {
        'chunks': places,
        **{name: layer.pop(name) for name in BOUNDS if name in layer},
    }
    layer.update(data=data_of(cells, is_text), width=width, height=height)


def move_objects(layers, x, y):
    """Moves objects by pixels; what is past 64 bits comes in at the other end."""
    for layer in layers:
        for item in layer.get('objects', []):
            for name, by in (('x', x), ('y', y)):
                if is_whole(item.get(name), -(1 << 63), (1 << 63) - 1):
                    item[name] = (item[name] + by + (1 << 63)) % (1 << 64) - (1 << 63)
        move_objects(layer.get('layers', []), x, y)


def every_layer(layers):
    for layer in layers:
        if type(layer) is dict:
            yield layer
            yield from every_layer(layer.get('layers', []))


def copied(tree):
    """A copy that shares nothing with a tree of JSON, and in which nothing stands twice: the second
    form of marshal knows no references."""
    return marshal.loads(marshal.dumps(tree, 2))


def is_infinite(tree):
    return type(tree) is dict and tree.get('infinite') is True


def finite_of(tree):
    """The finite map of an infinite one; None for a map that is not infinite."""
    if not is_infinite(tree):
        return None
    tree = copied(tree)
    left, top, right, bottom = box_of(tree)
    width, height = right - left, bottom - top
    is_small = max(width, height) <= MOST_SIDE and width * height <= MOST_CELLS
    across, down = chunk_side(tree, 'width'), chunk_side(tree, 'height')
    note = {'x': left, 'y': top}
    if is_small:
        layers = len(list(chunked_layers(tree.get('layers', []))))
        if layers * width * height > MOST_LAYER_CELLS:
            raise Fault('TooLarge')
        moved = [0, 0]
        if tree.get('orientation', 'orthogonal') == 'orthogonal':
            moved = [left * tile_side(tree, 'tilewidth'), top * tile_side(tree, 'tileheight')]
        note.update(chunkwidth=across, chunkheight=down, lostx=left % across, losty=top % down)
        note.update(movedx=moved[0], movedy=moved[1])
        note['most'] = min(MOST_CELLS, MOST_LAYER_CELLS // max(layers, 1))
        for layer in every_layer(tree.get('layers', [])):
            finite_layer(layer, left, top, width, height)
        move_objects(tree.get('layers', []), -moved[0], -moved[1])
    else:
        names = ('chunkwidth', 'chunkheight', 'lostx', 'losty', 'most', 'movedx', 'movedy')
        note.update({name: 0 for name in names})
    note.update({name: tree[name] for name in ('width', 'height') if name in tree})
    tree.update(width=width, height=height, infinite=False)
    tree[MARK] = {'infinite': note}
    return tree


# ---- what a finite map gets at its left and top


def keep_place(tree, left, top):
    """Moves the notes of a finite map that has got so many columns and rows at its left and top, in
    place: so that all of it is saved where it was on the plane. A map without the note stays as it is."""
    note = tree.get(MARK, {}).get('infinite')
    if note is None:
        return
    for name, lost, side, moved, pixels, by in (
        ('x', 'lostx', 'chunkwidth', 'movedx', 'tilewidth', left),
        ('y', 'losty', 'chunkheight', 'movedy', 'tileheight', top),
    ):
        note[name] -= by
        note[lost] = note[name] % note[side]
        note[moved] -= by * tree[pixels]
    for layer in every_layer(tree['layers']):
        if layer['type'] == 'tilelayer' and MARK in layer:
            layer[MARK]['chunks'] = [[x + left, y + top, *size] for x, y, *size in layer[MARK]['chunks']]


# ---- back


def block_of(note, x, y):
    """The row and column of the block that a cell lies in."""
    return (y + note['losty']) // note['chunkheight'], (x + note['lostx']) // note['chunkwidth']


def block_at(note, row, column):
    """A block as a rectangle, counted from the corner of the map, which it may reach past."""
    left = column * note['chunkwidth'] - note['lostx']
    top = row * note['chunkheight'] - note['losty']
    return left, top, left + note['chunkwidth'], top + note['chunkheight']


def has_room(note, width, height):
    """Whether all blocks that have a cell of the map, and one column and row more, are within the limits."""
    row, column = block_of(note, width - 1, height - 1)
    across = (column + 1) * note['chunkwidth'] + 1
    down = (row + 1) * note['chunkheight'] + 1
    return max(across, down) <= MOST_SIDE and across * down <= note['most']


def chunk_of_block(note, width, height, block):
    """The whole block, or what of it lies on the map, if there is no room for whole ones."""
    left, top, right, bottom = block_at(note, *block)
    if has_room(note, width, height):
        return left, top, right, bottom
    return max(left, 0), max(top, 0), min(right, width), min(bottom, height)


def on_map(rectangle, width, height):
    """The places of a rectangle that lie on the map, as slices of a layer's cells."""
    left, top, right, bottom = rectangle
    return rows_in((max(left, 0), max(top, 0), min(right, width), min(bottom, height)), width)


def cut(cells, rectangle, width, height):
    """The cells of a layer in a rectangle, row by row; 0 outside of the map."""
    left, top, right, bottom = rectangle
    return [
        cells[y * width + x] if 0 <= x < width and 0 <= y < height else 0
        for y in range(top, bottom)
        for x in range(left, right)
    ]


def rows_in(rectangle, width):
    """The slices of a layer's cells that are the rows of a rectangle."""
    left, top, right, bottom = rectangle
    return [slice(y * width + left, y * width + right) for y in range(top, bottom)]


def around(rectangles):
    sides = list(zip(*rectangles))
    return min(sides[0]), min(sides[1]), max(sides[2]), max(sides[3])


def new_rectangles(note, width, height, cells, covered):
    """Rectangles for the cells that are not 0 and that none covers, which has a 1 for each cell."""
    blocks = {}
    for at, value in enumerate(cells):
        if value and not covered[at]:
            y, x = divmod(at, width)
            blocks.setdefault(block_of(note, x, y), []).append((x, y, x + 1, y + 1))
    found = []
    for block in sorted(blocks):
        news = blocks[block]
        for whole in (chunk_of_block(note, width, height, block), around(news)):
            if not any(any(covered[row]) for row in on_map(whole, width, height)):
                news = [whole]
                break
        found += news
    return found


def infinite_layer(layer, note, width, height):
    """Puts the cells of a layer into chunks, in place."""
    if 'data' not in layer:
        return
    cells = cells_of(layer)
    is_text = type(layer['data']) is str
    if len(cells) != width * height:
        return
    own = layer.pop(MARK, None)
    rectangles = []
    for x, y, across, down in own['chunks'] if own else []:
        right, bottom = min(x + across, width), min(y + down, height)
        if x < right and y < bottom:
            rectangles.append((x, y, right, bottom))
    covered = bytearray(width * height)
    for rectangle in rectangles:
        for row in rows_in(rectangle, width):
            covered[row] = b'\1' * (row.stop - row.start)
    news = new_rectangles(note, width, height, cells, covered)
    rectangles += news
    for name in ('data', 'width', 'height'):
        layer.pop(name, None)
    layer['chunks'] = [
        {
            'data': data_of(cut(cells, rectangle, width, height), is_text),
            'height': rectangle[3] - rectangle[1],
            'width': rectangle[2] - rectangle[0],
            'x': note['x'] + rectangle[0],
            'y': note['y'] + rectangle[1],
        }
        for rectangle in rectangles
    ]
    if own and not news:
        layer.update({name: own[name] for name in BOUNDS if name in own})
        return
    left, top, right, bottom = around(rectangles) if rectangles else (0, 0, 0, 0)
    layer.update(width=right - left, height=bottom - top)
    layer.update(startx=note['x'] + left, starty=note['y'] + top)


def infinite_of(tree):
    """The infinite map that a finite one is; None for one that was not infinite."""
    if type(tree) is not dict or type(tree.get(MARK)) is not dict or 'infinite' not in tree[MARK]:
        return None
    tree = copied(tree)
    note = tree.pop(MARK)['infinite']
    width, height = tree.pop('width'), tree.pop('height')
    for layer in every_layer(tree.get('layers', [])):
        infinite_layer(layer, note, width, height)
    move_objects(tree.get('layers', []), note['movedx'], note['movedy'])
    tree.update({name: note[name] for name in ('width', 'height') if name in note})
    tree['infinite'] = True
    return tree


# ---- what must be so of an edited map


def places_in(x, y, width, height):
    """The row and column of each cell of a rectangle, row by row."""
    return itertools.product(range(y, y + height), range(x, x + width))


def cell_places(layer):
    """The row and column on the plane of each cell that a chunk of a layer covers, with its value."""
    found = {}
    for chunk in layer['chunks']:
        x, y, width, height = rectangle_of(chunk)
        values = chunk_cells(chunk, layer.get('encoding') == 'base64', width * height)
        own = dict(zip(places_in(x, y, width, height), values))
        both = found.keys() & own.keys()
        assert not both, f'two chunks cover {min(both)}'
        found.update(own)
    return found


def wrong_cells(finite, infinite):
    """Where a cell of an edited finite map is not where it stood, as text, or None."""
    note = finite[MARK]['infinite']
    sides = note['x'], note['y'], finite['width'], finite['height']
    layers = zip(every_layer(finite['layers']), every_layer(infinite['layers']))
    for layer, spread in layers:
        if 'data' not in layer:
            continue
        found = cell_places(spread)
        stood = dict(zip(places_in(*sides), cells_of(layer)))
        came = {**dict.fromkeys(stood, 0), **found}
        wrong = [place for place in came if came[place] != stood.get(place, 0)]
        if wrong:
            place = min(wrong)
            return f'layer {layer["id"]}: the cell at {place} was {stood.get(place)}, and is {came[place]}'
    return None


# ---- maps by chance


def apart(rectangles, new):
    left, top, width, height = new
    return all(
        left + width <= x or x + across <= left or top + height <= y or y + down <= top
        for x, y, across, down in rectangles
    )


def some_chunks(chosen, is_text, is_grid):
    """Chunks that do not overlap, on the grid of 16 or anywhere, some of them empty."""
    rectangles = []
    for _ in range(chosen.randint(0, 5)):
        if is_grid:
            new = 16 * chosen.randint(-1, 1), 16 * chosen.randint(-1, 1), 16, 16
        else:
            places = chosen.randint(-12, 12), chosen.randint(-12, 12)
            new = (*places, chosen.randint(1, 9), chosen.randint(1, 9))
        if apart(rectangles, new):
            rectangles.append(new)
    chunks = []
    for x, y, width, height in rectangles:
        most = chosen.choice((0, 3, (1 << 32) - 1))
        values = chosen.choices(range(most + 1), k=width * height)
        data = data_of(values, is_text)
        chunks.append({'data': data, 'height': height, 'width': width, 'x': x, 'y': y})
    return chunks


def some_layers(chosen, ids, depth):
    layers = []
    for _ in range(chosen.randint(1, 3)):
        layer = {'id': next(ids), 'name': 'layer', 'opacity': 1, 'visible': True, 'x': 0, 'y': 0}
        kind = chosen.choice(('tilelayer', 'tilelayer', 'objectgroup', 'group', 'imagelayer'))
        if kind == 'group' and depth == 0:
            kind = 'tilelayer'
        layer['type'] = kind
        if kind == 'tilelayer':
            is_text = chosen.random() < 0.5
            layer['chunks'] = some_chunks(chosen, is_text, chosen.random() < 0.5)
            if is_text:
                layer.update(encoding='base64', compression='')
            for name in BOUNDS:
                if chosen.random() < 0.9:
                    layer[name] = chosen.randint(-40, 40)
        elif kind == 'objectgroup':
            layer['objects'] = [
                {
                    'id': next(ids),
                    'name': 'thing',
                    'x': chosen.choice((chosen.randint(-900, 900), 10.1, -0.5, 3.25)),
                    'y': chosen.randint(-900, 900),
                    'polygon': [{'x': 1, 'y': 2}, {'x': 0.5, 'y': -4}],
                }
                for _ in range(chosen.randint(0, 3))
            ]
        elif kind == 'group':
            layer['layers'] = some_layers(chosen, ids, depth - 1)
        layers.append(layer)
    return layers


def some_map(chosen):
    """An infinite map that is made by chance."""
    ids = iter(range(1, 1000))
    tree = {
        'height': chosen.randint(1, 40),
        'infinite': True,
        'layers': some_layers(chosen, ids, 2),
        'nextlayerid': 1000,
        'nextobjectid': 1000,
        'orientation': chosen.choice(('orthogonal', 'orthogonal', 'isometric', 'staggered')),
        'tileheight': chosen.randint(1, 20),
        'tilesets': [],
        'tilewidth': chosen.randint(1, 20),
        'type': 'map',
        'version': chosen.choice(('1.10', 1.5)),
        'width': chosen.randint(1, 40),
    }
    if chosen.random() < 0.5:
        sides = {'width': chosen.randint(0, 30), 'height': chosen.randint(0, 30)}
        tree['editorsettings'] = {'chunksize': sides}
    return tree


def edit(chosen, tree):
    """Edits a finite map by chance, in place: cells, its size, objects, a layer more."""
    width, height = tree['width'], tree['height']
    if chosen.random() < 0.4:
        width, height = (max(1, side + chosen.randint(-9, 9)) for side in (width, height))
    for layer in every_layer(tree.get('layers', [])):
        for item in layer.get('objects', []):
            if chosen.random() < 0.3:
                item['x'] = chosen.randint(-99, 99)
        if 'data' not in layer:
            continue
        old, was = cells_of(layer), tree['width']
        rows = [old[y * was : y * was + min(was, width)] for y in range(min(tree['height'], height))]
        cells = [cell for row in rows for cell in [*row, *[0] * (width - len(row))]]
        cells += [0] * (width * height - len(cells))
        for _ in range(chosen.choice((0, 1, 5, 60))):
            cells[chosen.randrange(len(cells))] = chosen.randint(0, 9)
        layer.update(data=data_of(cells, type(layer['data']) is str), width=width, height=height)
    tree.update(width=width, height=height)
    if chosen.random() < 0.3:
        cells = chosen.choices((0, 0, 0, 7), k=width * height)
        layer = {'data': cells, 'height': height, 'id': 999, 'name': 'new', 'opacity': 1}
        layer.update(type='tilelayer', visible=True, width=width, x=0, y=0)
        tree['layers'].append(layer)
