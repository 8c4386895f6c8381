# SPDX-License-Identifier: MIT OR Apache-2.0
"""A thread that reads a file while others save it."""
import threading


class Reader(threading.Thread):
    """Reads a file over and over while a `with` goes on, and keeps what is no whole map, or None where
    nothing was there. `is_whole` says whether bytes are one."""

    def __init__(self, path, is_whole):
        super().__init__(daemon=True)
        self.path, self.is_whole, self.ends = path, is_whole, threading.Event()
        self.faults, self.count = [], 0

    def __enter__(self):
        self.start()
        return self

    def __exit__(self, *_):
        self.ends.set()
        self.join()

    def run(self):
        while not self.ends.is_set():
            try:
                data = self.path.read_bytes()
            except FileNotFoundError:
                data = None
            self.count += 1
            if data is None or not self.is_whole(data):
                self.faults.append(data)
