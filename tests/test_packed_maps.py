# SPDX-License-Identifier: MIT OR Apache-2.0
"""Opens, edits, undoes and saves packed maps by `tile_editor --all-maps`: the maps of Tiled's own examples as Tiled exports them, and one
in each tile layer format, finite and infinite. Saved after the undo they are the same bytes; Tiled reads those that were packed anew,
which are no larger than what zlib packs at its level 1. A layer that is added has the format of the others, in groups too, and a second
save of it changes no byte.

10,000 streams of zlib's, at all levels and strategies, with stored blocks, fixed codes and others, windows of all sizes and gzip's
optional fields, unpack by `map_report --table` to what zlib unpacks them to. 20,000 that are damaged, cut short, longer or of another size
are each answered: zlib agrees which are sound. Streams that unpack to a thousand times as much are given up within bounds of time and
memory. All is from a fixed seed."""
import base64
import json
import random
import resource
import struct
import subprocess
import tempfile
import zlib
from pathlib import Path

from lib import tiled_package
from lib.any_maps import in_each_format
from lib.asides import OPTION
from lib.cases import CORES, Case, check_each, fail_with, in_processes, passed, unlike
from lib.compressions import CSV, GZIP, PLAIN, ZLIB, ZSTANDARD, cells_in, compression_of, holders, with_compression
from lib.maps import group, layers_in, map_of, text_of, tiles
from lib.places import IN_MEMORY, MAP_REPORT, TILE_EDITOR

IS_LONG = True
PACKAGES = ('tiled', 'python3-zstandard')
SEED, STREAMS, DAMAGED, STREAMS_OF_RUN, SECONDS = 20261130, 10_000, 20_000, 500, 120
# The most cells of a stream, but for one of a hundred.
SMALL, LARGE = 120, 20_000
STRATEGIES = (zlib.Z_DEFAULT_STRATEGY, zlib.Z_FILTERED, zlib.Z_HUFFMAN_ONLY, zlib.Z_RLE, zlib.Z_FIXED)
GZIP_FLAGS = {2: 'header sum', 4: 'extra', 8: 'name', 16: 'comment'}
# The bytes of memory that an opening of a hostile map may take, and the seconds.
MEMORY, PATIENCE = 512 * 2**20, 20


# ---- streams


def some_cells(chosen, most):
    """Bytes of cells, four each: of few tiles, of a pattern that comes again, of the same, or of any."""
    count = chosen.randint(1, most)
    kind = chosen.randrange(4)
    if kind == 0:
        values = [chosen.choice((0, 1, 2, 3, 17, 0x80000005)) for _ in range(count)]
    elif kind == 1:
        rows = [chosen.randrange(40) for _ in range(chosen.randint(1, 30))]
        values = [rows[at % len(rows)] if chosen.random() < 0.95 else chosen.randrange(99) for at in range(count)]
    elif kind == 2:
        values = [chosen.randrange(9)] * count
    else:
        return chosen.randbytes(4 * count)
    return struct.pack(f'<{count}I', *values)


def deflated(chosen, data, window):
    packer = zlib.compressobj(chosen.randint(0, 9), zlib.DEFLATED, window, chosen.randint(1, 9), chosen.choice(STRATEGIES))
    parts, at = [], 0
    while at < len(data):
        step = chosen.choice((len(data), 1 + len(data) // 3))
        parts.append(packer.compress(data[at:at + step]))
        at += step
        if chosen.random() < 0.3:
            parts.append(packer.flush(chosen.choice((zlib.Z_SYNC_FLUSH, zlib.Z_FULL_FLUSH, zlib.Z_PARTIAL_FLUSH))))
    return b''.join((*parts, packer.flush()))


def gzip_header(chosen):
    """One with optional fields."""
    flags = chosen.choice((0, chosen.randrange(32)))
    head = struct.pack('<4BIBB', 31, 139, 8, flags, chosen.randrange(2**32), chosen.randrange(256), chosen.randrange(256))
    if flags & 4:
        head += struct.pack('<H', 5) + chosen.randbytes(5)
    for flag in (8, 16):
        head += b'a name\0' if flags & flag else b''
    return head + (struct.pack('<H', zlib.crc32(head) & 0xFFFF) if flags & 2 else b'')


def some_stream(chosen, data):
    if chosen.random() < 0.6:
        return deflated(chosen, data, chosen.randint(9, 15))
    raw = deflated(chosen, data, -chosen.randint(9, 15))
    return gzip_header(chosen) + raw + struct.pack('<2I', zlib.crc32(data), len(data))


def damaged(chosen, stream):
    """A stream with a change: other bits, bytes that are gone, come again or are put in, or another end."""
    data = bytearray(stream)
    way, at = chosen.randrange(6), chosen.randrange(len(data))
    if way == 0:
        for _ in range(chosen.randint(1, 3)):
            data[chosen.randrange(len(data))] ^= 1 << chosen.randrange(8)
    elif way == 1:
        del data[at:]
    elif way == 2:
        del data[at:at + chosen.randint(1, 4)]
    elif way == 3:
        data[at:at] = data[at:at + chosen.randint(1, 9)]
    elif way == 4:
        data += chosen.randbytes(chosen.randint(1, 9))
    else:
        data[at] = chosen.randrange(256)
    return bytes(data)


def unpacked_by_zlib(stream, size):
    """The bytes, so many, to which a stream unpacks that is all of these; else None."""
    unpacker = zlib.decompressobj(47)
    try:
        found = unpacker.decompress(stream, size + 1)
        # What is left of a stream that has given all its bytes is its end.
        found += unpacker.decompress(unpacker.unconsumed_tail, 1) if unpacker.unconsumed_tail else b''
    except zlib.error:
        return None
    return found if unpacker.eof and not unpacker.unused_data and len(found) == size else None


def stream_case(number, is_damaged):
    chosen = random.Random(f'{SEED} {is_damaged} {number}')
    data = some_cells(chosen, LARGE if chosen.random() < 0.01 else SMALL)
    stream = some_stream(chosen, data)
    cells = len(data) // 4
    if is_damaged:
        if chosen.random() < 0.1:
            cells += chosen.choice((-1, 1)) if cells > 1 else 1
        else:
            stream = damaged(chosen, stream)
    return Case(f'{"damaged " if is_damaged else ""}stream {number}', (cells, stream), unpacked_by_zlib(stream, 4 * cells))


def map_of_stream(case):
    cells, stream = case.given
    layer = tiles(1, cells, 1, data=base64.b64encode(stream).decode(), encoding='base64', compression='zlib')
    return text_of(map_of(layer, width=cells, height=1)).decode()


def faults_of_streams(first, is_damaged):
    cases = [stream_case(number, is_damaged) for number in range(first, first + STREAMS_OF_RUN)]
    lines = ''.join(f'let m{at} {map_of_stream(case)}\naside m{at}\n' for at, case in enumerate(cases))
    done = subprocess.run([MAP_REPORT, '--table'], input=lines.encode(), capture_output=True, timeout=SECONDS)
    rows = [row.partition(b' => ')[2] for row in done.stdout.split(b'\n') if row.startswith(b'aside ')]
    if done.returncode != 0 or len(rows) != len(cases):
        return [f'{cases[0].name} and those behind it: status {done.returncode}, {len(rows)} answers']
    return [fault for case, row in zip(cases, rows) if (fault := fault_of_stream(case, row))]


def fault_of_stream(case, row):
    try:
        layer = json.loads(row)['layers'][0]
        came = base64.b64decode(layer['data'], validate=True) or None
    except (ValueError, TypeError, LookupError):
        return f'{case.name}: came {row[:200]!r}'
    if layer.get('roskevad_packed') != 'zlib' or 'compression' in layer:
        return f'{case.name}: it is noted as {layer!r}'[:400]
    return None if came == case.wanted else f'{case.name} of {case.given[0]} cells: {case.given[1][:60].hex()}: wanted {case.wanted and case.wanted[:20]}'


def sound_streams(first):
    return faults_of_streams(first, False)


def damaged_streams(first):
    return faults_of_streams(first, True)


def test_streams():
    fail_with(fault for some in in_processes(sound_streams, range(0, STREAMS, STREAMS_OF_RUN)) for fault in some)
    passed(STREAMS)


def test_damaged_streams():
    fail_with(fault for some in in_processes(damaged_streams, range(0, DAMAGED, STREAMS_OF_RUN)) for fault in some)
    passed(DAMAGED)


# ---- hostile maps


def bounded():
    resource.setrlimit(resource.RLIMIT_AS, (MEMORY, MEMORY))


def test_hostile_maps():
    """A gigabyte of one byte in a layer of a few cells; as many cells as a map may have in many layers."""
    bomb = base64.b64encode(zlib.compress(bytes(2**30), 1)).decode()
    full = base64.b64encode(zlib.compress(bytes(4 * 2**20))).decode()
    packed = {'encoding': 'base64', 'compression': 'zlib'}
    rows = {
        'a gigabyte': (map_of(tiles(1, 4, 4, data=bomb, **packed), width=4, height=4), 'no 66 bad data'),
        '17 full layers': (
            map_of(*(tiles(at, 1024, 1024, data=full, **packed) for at in range(1, 18)), width=1024, height=1024),
            'no 51 store failed',
        ),
        'a full layer': (map_of(tiles(1, 1024, 1024, data=full, **packed), width=1024, height=1024), 'ok 0/0 clean 0'),
    }
    with tempfile.TemporaryDirectory(dir=IN_MEMORY) as folder:
        for name, (tree, wanted) in rows.items():
            (Path(folder) / 'm.tmj').write_bytes(text_of(tree))
            done = subprocess.run(
                [TILE_EDITOR, OPTION, '--folder', folder], input=b'open m m.tmj\n', capture_output=True, timeout=PATIENCE, preexec_fn=bounded
            )
            fault = unlike(wanted, done.stdout.decode().strip())
            assert not fault, f'{name}: {fault}'
            passed()


# ---- maps


def played(folder, *lines):
    """The replies to lines, but for the numbers of steps and bytes."""
    text = ''.join(f'{line}\n' for line in lines).encode()
    done = subprocess.run([TILE_EDITOR, OPTION, '--all-edits', '--folder', folder], input=text, capture_output=True, timeout=SECONDS)
    return done.stdout.decode().split('\n')[:-1]


def tile_layers(tree):
    return [layer for layer in layers_in(tree['layers']) if layer['type'] == 'tilelayer']


def all_cells(layer):
    """The cells of a layer, each with where its holder lies."""
    compression = compression_of(layer)
    return [(holder.get('x'), holder.get('y'), cells_in(holder['data'], compression)) for holder in holders(layer)]


def edits_of(layer):
    """Lines that change two cells in the corner of a layer. Tiled knows the value that they have then."""
    value = next((value for _, _, cells in all_cells(layer) for value in cells if value), 1)
    return f'stamp {layer["id"]} 0 0 2 {value},{value}', f'erase {layer["id"]} 1 0 1 1'


def fault_of_edit(old, new, edited):
    """What is wrong with a map in which a layer was edited that is packed, or None."""
    for before, after in zip(tile_layers(old), tile_layers(new)):
        if before['id'] != edited:
            if before != after:
                return f'layer {before["id"]} is another one'
            continue
        if (after.get('encoding'), after.get('compression')) != (before.get('encoding'), before.get('compression')):
            return f'it is packed by {after.get("compression")!r}, and not by {before.get("compression")!r}'
        cells = [cells for _, _, cells in all_cells(after)]
        if cells == [cells for _, _, cells in all_cells(before)]:
            return 'no cell has changed'
        for holder, own in zip(holders(after), cells):
            most = len(zlib.compress(struct.pack(f'<{len(own)}I', *own), 1)) + (12 if after['compression'] == GZIP else 0)
            size = len(base64.b64decode(holder['data']))
            if size > most:
                return f'{size} bytes, and zlib packs {most}'
    return None


def fault_of_map(path):
    """What is wrong with a map that Tiled has exported, opened, edited, undone and saved, or None."""
    data = path.read_bytes()
    tree = json.loads(data)
    packed = [layer for layer in tile_layers(tree) if compression_of(layer) in (ZLIB, GZIP)]
    lines = ['open m ' + path.name, 'prop set map a int 1', *(line for layer in packed[:1] for line in edits_of(layer))]
    name = f'edited_{path.name}'
    replies = played(path.parent, *lines, f'save {name}', 'goto 0', f'save {path.name}')
    if len(replies) != len(lines) + 3 or any(reply.startswith('no ') for reply in replies):
        return f'came {replies}'
    if path.read_bytes() != data:
        return 'saved after the undo it has other bytes'
    edited = path.parent / name
    # Over the source, which has its data.
    edited.write_bytes(data)
    played(path.parent, *lines, f'save {name}')
    new = json.loads(edited.read_bytes())
    fault = fault_of_edit(tree, new, packed[0]['id']) if packed else None
    if fault:
        return fault
    came = tiled_package.exported(edited, path.parent, f'again_{path.name}')
    if came is None:
        return 'Tiled does not load it'
    again = json.loads(came)
    return unlike(
        [(layer['id'], all_cells(layer)) for layer in tile_layers(new)], [(layer['id'], all_cells(layer)) for layer in tile_layers(again)]
    )


def test_maps_of_tiled():
    with tempfile.TemporaryDirectory() as folder:
        cases = [Case(source.name, source, None) for source in tiled_package.unpacked(folder)]
        assert len(cases) > 15, f'{len(cases)} example maps'
        check_each(cases, fault_of_example, CORES)


def fault_of_example(case):
    name = f'{case.given.stem}.tmj'
    data = tiled_package.exported(case.given, case.given.parent, name)
    return None if data is None else fault_of_map(case.given.parent / name)


def test_each_format():
    with tempfile.TemporaryDirectory() as folder:
        sources = [path for path in tiled_package.unpacked(folder) if path.stem == 'desert']
        assert sources, 'the package tiled has no map of a desert'
        tiled_package.exported(sources[0], sources[0].parent, 'desert.tmj')
        for path in in_each_format(sources[0].parent / 'desert.tmj'):
            if 'zstd' in path.name:
                assert played(path.parent, f'open m {path.name}') == ['no 65 compressed'], path.name
            else:
                fault = fault_of_map(path)
                assert not fault, f'{path.name}: {fault}'
            passed()


# ---- layers that are added


# The cells that are drawn on an added layer, and where they come to lie from the corner of the map.
DRAWN = (3, 0x80000002, 1, 2)
PLACES = ((0, 0), (1, 0), (0, 1), (1, 1))


def plane_of(layer):
    """The cells of a tile layer that are not 0, by where they lie."""
    plane = {}
    for holder in holders(layer):
        left, top, width = (0, 0, layer['width']) if holder is layer else (holder['x'], holder['y'], holder['width'])
        for at, value in enumerate(cells_in(holder['data'], compression_of(layer))):
            if value:
                plane[left + at % width, top + at // width] = value
    return plane


def layer_of_id(tree, number):
    return next(layer for layer in layers_in(tree['layers']) if layer['id'] == number)


def drawing(number):
    return f'stamp {number} 0 0 2 {",".join(map(str, DRAWN))}'


def drawn_at(left, top):
    """What an added layer has of these cells, where the corner of the map lies there on the plane."""
    return {(left + x, top + y): value for (x, y), value in zip(PLACES, DRAWN)}


def format_of(layer):
    """How the cells of a layer are written: `encoding` and `compression`, and whether each of its data is an array."""
    return layer.get('encoding'), layer.get('compression'), {isinstance(holder['data'], list) for holder in holders(layer)}


def fault_of_added(path, lines, number, wanted, corner):
    """What is wrong with the layer of that id, which lines have added to a map and drawn on, and with the saves of it; or None. It is to
    have that format. The map that Tiled reads is to have its cells."""
    data = path.read_bytes()
    replies = played(path.parent, f'open m {path.name}', *lines, f'save {path.name}')
    if any(reply.startswith('no ') for reply in replies):
        return f'came {replies}'
    once = path.read_bytes()
    layer = layer_of_id(json.loads(once), number)
    fault = unlike(wanted, format_of(layer)) or unlike(drawn_at(*corner), plane_of(layer))
    if fault:
        return fault
    twice = fault_of_later_saves(path, data, lines, once)
    if twice:
        return twice
    came = tiled_package.exported(path, path.parent, f'again_{path.name}')
    if came is None:
        return 'Tiled does not load it'
    return unlike(drawn_at(*corner), plane_of(layer_of_id(json.loads(came), number)))


def fault_of_later_saves(path, data, lines, once):
    """What is wrong with the saves behind the first one, which has left these bytes: of the same map, of one that was opened again, and of
    one in which all is undone."""
    played(path.parent, f'open m {path.name}', 'prop set map again int 1', 'undo', f'save {path.name}')
    if path.read_bytes() != once:
        return 'opened and saved again, it has other bytes'
    path.write_bytes(data)
    played(path.parent, f'open m {path.name}', *lines, 'goto 0', f'save {path.name}')
    if path.read_bytes() != data:
        return 'saved after the undo it has other bytes'
    played(path.parent, f'open m {path.name}', *lines, f'save {path.name}', f'save {path.name}')
    if path.read_bytes() != once:
        return 'saved twice, it has other bytes'
    path.write_bytes(data)
    played(path.parent, f'open m {path.name}', *lines, f'save {path.name}', 'goto 0', f'save {path.name}')
    if path.read_bytes() != data:
        return 'saved, undone and saved again, it has other bytes'
    path.write_bytes(once)
    return None


def fault_of_added_to_export(path):
    """The same of a layer that is added to a map that Tiled has exported."""
    tree = json.loads(path.read_bytes())
    layers = tile_layers(tree)
    chunks = [chunk for layer in layers for chunk in layer.get('chunks', ())]
    # An infinite map begins at an even column and row.
    corner = tuple(min(chunk[name] for chunk in chunks) // 2 * 2 for name in ('x', 'y')) if chunks else (0, 0)
    number = tree['nextlayerid']
    first = layers[0]
    wanted = first.get('encoding'), first.get('compression'), {not first.get('encoding')}
    return fault_of_added(path, ['layer add tile New', drawing(number)], number, wanted, corner)


def test_added_layers():
    with tempfile.TemporaryDirectory() as folder:
        sources = [path for path in tiled_package.unpacked(folder) if path.stem == 'desert']
        tiled_package.exported(sources[0], sources[0].parent, 'desert.tmj')
        for path in in_each_format(sources[0].parent / 'desert.tmj'):
            if 'zstd' not in path.name:
                fault = fault_of_added_to_export(path)
                assert not fault, f'{path.name}: {fault}'
                passed()


def some_map(compression, is_infinite=False):
    """A map of 4 by 3 cells in this format, whose first tile layer stands in a group, and its second one in no group."""
    inside, outside = (tiles(number, 4, 3, data=[1, 2] * 6) for number in (2, 3))
    if is_infinite:
        for layer in (inside, outside):
            layer['chunks'] = [{'x': 0, 'y': 0, 'width': 4, 'height': 3, 'data': layer.pop('data')}]
            layer.update(startx=0, starty=0)
    tileset = {'firstgid': 1, 'name': 't', 'tilewidth': 16, 'tileheight': 16, 'tilecount': 9, 'columns': 3, 'image': 't.png',
               'imagewidth': 48, 'imageheight': 48, 'margin': 0, 'spacing': 0}
    tree = map_of(group(1, inside), outside, width=4, height=3, infinite=is_infinite, nextlayerid=4, tilesets=[tileset])
    return with_compression(tree, compression)


FORMATS = {
    CSV: (None, None, {True}),
    PLAIN: ('base64', '', {False}),
    ZLIB: ('base64', ZLIB, {False}),
    GZIP: ('base64', GZIP, {False}),
}


def fault_of_made(case):
    tree, lines, number = case.given
    with tempfile.TemporaryDirectory() as folder:
        path = Path(folder) / 'm.tmj'
        path.write_bytes(json.dumps(tree, indent=4, sort_keys=True).encode())
        return fault_of_added(path, lines, number, case.wanted, (0, 0))


def made_cases():
    """Layers that are added beside the others, into a group, and into a new one."""
    ways = {
        'beside': ['layer add tile New', drawing(4)],
        'in a group': ['layer add tile New', drawing(4), 'layer into 4 1 0'],
        'in a new group': ['layer add tile New', drawing(4), 'layer add group Own', 'layer into 4 5 0'],
    }
    for compression, wanted in FORMATS.items():
        for is_infinite in (False, True):
            for way, lines in ways.items():
                yield Case(f'{compression} {is_infinite} {way}', (some_map(compression, is_infinite), lines, 4), wanted)
    unnamed = some_map(PLAIN)
    mixed = some_map(ZLIB)
    for layer in tile_layers(unnamed):
        del layer['compression']
    tile_layers(mixed)[1].update(tiles(3, 4, 3, data=[1, 2] * 6))
    for name in ('encoding', 'compression'):
        del tile_layers(mixed)[1][name]
    # The first tile layer says it.
    yield Case('base64 without a compression', (unnamed, ways['beside'], 4), ('base64', None, {False}))
    yield Case('zlib, and CSV behind it', (mixed, ways['beside'], 4), FORMATS[ZLIB])


def test_added_to_made_maps():
    check_each(made_cases(), fault_of_made, CORES)


def saved_over(source, tree, *lines):
    """The tree of a file that a map is saved over, which lines have edited."""
    with tempfile.TemporaryDirectory(dir=IN_MEMORY) as folder:
        (Path(folder) / 'm.tmj').write_bytes(json.dumps(tree).encode())
        (Path(folder) / 'other.tmj').write_bytes(json.dumps(source).encode())
        replies = played(folder, 'open m m.tmj', *lines, 'save other.tmj')
        assert not any(reply.startswith('no ') for reply in replies), replies
        return json.loads((Path(folder) / 'other.tmj').read_bytes())


def named(compression):
    """A map whose tile layers say that they are packed so."""
    tree = some_map(PLAIN)
    for layer in tile_layers(tree):
        layer['compression'] = compression
    return tree


def test_other_sources():
    """Over a file with other layers new ones are as its first one is; over one that Zstandard or nothing known packs, they are arrays. One
    that the file has by its id is as it is there. An infinite layer without cells has the format alone."""
    lines = ['layer add tile New', drawing(4)]
    rows = {
        'over zlib': (some_map(ZLIB), some_map(CSV), 4, FORMATS[ZLIB]),
        'an old one over zlib': (some_map(ZLIB), some_map(CSV), 3, FORMATS[ZLIB]),
        'over Zstandard': (named(ZSTANDARD), some_map(CSV), 4, FORMATS[CSV]),
        'over another compression': (named('lzma'), some_map(CSV), 4, FORMATS[CSV]),
        'over a map without tile layers': (map_of(), some_map(CSV), 4, FORMATS[CSV]),
        'over no map': ({}, some_map(CSV), 4, FORMATS[CSV]),
    }
    for name, (source, tree, number, wanted) in rows.items():
        saved = layer_of_id(saved_over(source, tree, *lines), number)
        fault = unlike(wanted, format_of(saved))
        assert not fault, f'{name}: {fault}'
        passed()
    empty = layer_of_id(saved_over(some_map(GZIP, True), some_map(GZIP, True), 'layer add tile New'), 4)
    assert (empty['encoding'], empty['compression'], empty['chunks']) == ('base64', GZIP, []), empty
    passed()


def test_many_cells():
    """A layer that is added to a map of eight layers with the most cells stays an array, so that the map can be opened again."""
    full = base64.b64encode(zlib.compress(bytes(4 * 2**20))).decode()
    layers = [tiles(at, 1024, 1024, data=full, encoding='base64', compression=ZLIB) for at in range(1, 9)]
    for count, wanted in ((7, FORMATS[ZLIB]), (8, FORMATS[CSV])):
        tree = map_of(*layers[:count], width=1024, height=1024)
        number = tree['nextlayerid']
        saved = saved_over(tree, tree, 'layer add tile New')
        assert format_of(layer_of_id(saved, number)) == wanted, count
        passed()
