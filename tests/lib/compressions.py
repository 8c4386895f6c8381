# SPDX-License-Identifier: MIT OR Apache-2.0
"""Maps whose layers are compressed, plainly: they are packed here, and unpacked again to compare them."""
import base64
import copy
import gzip
import struct
import zlib

from lib.maps import layers_in

CSV, PLAIN, ZLIB, GZIP, ZSTANDARD = 'csv', 'base64', 'zlib', 'gzip', 'zstd'
COMPRESSIONS = (CSV, PLAIN, ZLIB, GZIP, ZSTANDARD)


def zstandard():
    """The package, which Debian's own interpreter has."""
    import zstandard as package

    return package


def compressed_bytes(data, compression, level=-1):
    """Bytes as Tiled packs them, with a level of its own where that is -1."""
    if compression == ZLIB:
        return zlib.compress(data, level)
    if compression == GZIP:
        return gzip.compress(data, 6 if level == -1 else level, mtime=0)
    if compression == ZSTANDARD:
        return zstandard().ZstdCompressor(level=6 if level == -1 else level).compress(data)
    return data


def decompressed_bytes(data, compression):
    if compression == ZLIB:
        return zlib.decompress(data)
    if compression == GZIP:
        return gzip.decompress(data)
    if compression == ZSTANDARD:
        return zstandard().ZstdDecompressor().decompress(data)
    return data


def text_of_bytes(data):
    return base64.b64encode(data).decode()


def data_of(cells, compression, level=-1):
    """The data of a layer or a chunk."""
    if compression == CSV:
        return list(cells)
    return text_of_bytes(compressed_bytes(struct.pack(f'<{len(cells)}I', *cells), compression, level))


def compression_of(layer):
    return layer.get('compression') or layer.get('encoding') or CSV


def cells_in(data, compression):
    if isinstance(data, list):
        return data
    plain = decompressed_bytes(base64.b64decode(data, validate=True), compression)
    return list(struct.unpack(f'<{len(plain) // 4}I', plain))


def holders(layer):
    """What holds data of a tile layer: the layer, or its chunks."""
    return layer['chunks'] if 'chunks' in layer else [layer]


def with_compression(tree, compression, level=-1):
    """A map with its tile layers packed so. Those of the map that is given are packed in any way."""
    tree = copy.deepcopy(tree)
    for layer in layers_in(tree['layers']):
        if layer['type'] != 'tilelayer':
            continue
        old = compression_of(layer)
        for holder in holders(layer):
            holder['data'] = data_of(cells_in(holder['data'], old), compression, level)
        for name in ('encoding', 'compression'):
            layer.pop(name, None)
        if compression != CSV:
            layer.update(encoding='base64', compression='' if compression == PLAIN else compression)
    return {**tree, 'compressionlevel': level}


def with_cells(tree):
    """A map with the cells of its layers as lists of numbers. How they were packed stays told."""
    tree = copy.deepcopy(tree)
    for layer in layers_in(tree['layers']):
        if layer['type'] == 'tilelayer':
            compression = compression_of(layer)
            for holder in holders(layer):
                holder['data'] = cells_in(holder['data'], compression)
            layer['compression'] = compression
    return tree
