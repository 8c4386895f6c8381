# SPDX-License-Identifier: MIT OR Apache-2.0
"""Zstandard, as Tiled packs the cells of a layer by it. They are unpacked to a number of bytes that is known before, and no further, so
memory is bounded by it."""
from typing import Any, Optional

#: What a layer calls it.
ZSTANDARD = 'zstd'
#: The member of a layer that notes that it was packed so, while it is unpacked.
NOTE = 'roskevad_compression'
# The modules that have it, the first of which is Python's own, from 3.14 on.
_MODULES = ('compression.zstd', 'backports.zstd', 'zstandard')
# The level that stands for the compression's own, and which Tiled takes then.
_ANY_LEVEL, _OWN_LEVEL, _GREATEST_LEVEL = -1, 6, 22


def why_not() -> Optional[str]:
    """Why it can't be unpacked here, in words; `None` where it can."""
    return 'Zstandard needs Python 3.14, or the package backports.zstd or zstandard' if _module() is None else None


def unpack(data: bytes, size: int) -> Optional[bytes]:
    """The bytes that are packed; `None` where they are not so many, where data are cut short or damaged, or something stands behind
    them."""
    module = _module()
    try:
        found = _unpack_by_package(module, data, size) if module.__name__ == 'zstandard' else _unpack_frame(module, data, size)
    except module.ZstdError:
        return None
    return found if found is not None and len(found) == size else None


def pack(data: bytes, level: int) -> bytes:
    """Packs bytes, with a level as Tiled takes it: -1 is the compression's own."""
    module = _module()
    stated = _OWN_LEVEL if level == _ANY_LEVEL else min(max(level, 1), _GREATEST_LEVEL)
    is_package = module.__name__ == 'zstandard'
    packed: bytes = module.ZstdCompressor(level=stated).compress(data) if is_package else module.compress(data, level=stated)
    return packed


def _module() -> Any:
    """The first module that has it and is there, or `None`."""
    import importlib

    for name in _MODULES:
        try:
            return importlib.import_module(name)
        except ImportError:
            pass
    return None


def _unpack_frame(module: Any, data: bytes, size: int) -> Optional[bytes]:
    unpacker = module.ZstdDecompressor()
    found: bytes = unpacker.decompress(data, size + 1)
    return found if unpacker.eof and not unpacker.unused_data else None


def _unpack_by_package(module: Any, data: bytes, size: int) -> Optional[bytes]:
    """The same by the package `zstandard`. What it has to tell where a frame ends gives out all that is in it, so it comes second,
    when that is known to be no more."""
    unpacker = module.ZstdDecompressor()
    with unpacker.stream_reader(data, read_across_frames=False) as reader:
        found: bytes = reader.read(size + 1)
    if len(found) != size:
        return None
    whole = unpacker.decompressobj()
    return found if whole.decompress(data) == found and whole.eof and not whole.unused_data else None
