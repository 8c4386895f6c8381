# SPDX-License-Identifier: MIT OR Apache-2.0
"""Watches a folder, and checks each map that changes, as check_maps.py does. From the top of a clone:

    python3 examples/watch_folder.py FOLDER [SECONDS]

It looks once a second, or every SECONDS, checks all maps first, and ends with Ctrl+C. For each map that was written since it tells the
faults that are new, and those that are gone. A map that can't be opened, as one that is written just now, is told as such, and checked
again when it changes.
"""
import sys
import time
from pathlib import Path
from typing import Iterator

from check_maps import check
from roskevad import Editor

Stamp = tuple[int, int]


def stamps_in(folder: Path) -> dict[Path, Stamp]:
    """The maps of a folder, each with its time and its size."""
    stamps = {}
    for path in sorted(folder.glob('*.tmj')):
        try:
            known = path.stat()
        except FileNotFoundError:
            continue
        stamps[path] = known.st_mtime_ns, known.st_size
    return stamps


class Watcher:
    """What a folder had when it was looked at last: its maps, and the texts of their faults."""

    def __init__(self, folder: Path) -> None:
        self.folder = folder
        self.stamps: dict[Path, Stamp] = {}
        self.faults: dict[Path, list[str]] = {}

    def look(self) -> Iterator[str]:
        """Looks once, and tells what changed, a line each."""
        stamps, before = stamps_in(self.folder), self.stamps
        self.stamps = stamps
        for path in sorted(before.keys() - stamps.keys()):
            del self.faults[path]
            yield f'{path.name}: gone'
        with Editor() as editor:
            for path in [path for path, stamp in stamps.items() if before.get(path) != stamp]:
                old = self.faults.get(path, [])
                new = self.faults[path] = [fault['text'] for fault in check(editor, path)]
                yield f'{path.name}: {"changed" if path in before else "found"}, {len(new)} faults'
                yield from (f'  now: {text}' for text in new if text not in old)
                yield from (f'  no longer: {text}' for text in old if text not in new)


def main() -> None:
    if len(sys.argv) not in (2, 3) or not Path(sys.argv[1]).is_dir():
        sys.exit('usage: python3 examples/watch_folder.py FOLDER [SECONDS]')
    watcher = Watcher(Path(sys.argv[1]))
    try:
        while True:
            for line in watcher.look():
                print(line, flush=True)
            time.sleep(float(sys.argv[2]) if sys.argv[2:] else 1)
    except KeyboardInterrupt:
        pass


if __name__ == '__main__':
    main()
