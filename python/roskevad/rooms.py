# SPDX-License-Identifier: MIT OR Apache-2.0
"""Where the library puts what it tells."""
import ctypes
from typing import Any


class Room:
    """A place of so many bytes."""

    def __init__(self, size: int):
        # A slice of it is bytes, which typeshed does not know.
        self.bytes: Any = ctypes.create_string_buffer(size)
        self.at = ctypes.addressof(self.bytes)
        self.size = size
