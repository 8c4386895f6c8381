# SPDX-License-Identifier: MIT OR Apache-2.0
"""A console for a map: it runs scripts, shows what each has changed, and undoes it. From the top of a clone:

    python3 examples/console.py MAP

A script is a file in Python that edits `document`. All that it does is one step, and where it fails, nothing stays of it, not even to be
redone. The commands are `run SCRIPT`, `undo`, `redo`, `steps`, `save`, `quit`, which is refused where changes are not saved, and
`discard`, which quits all the same. They may come from a pipe; at its end, unsaved changes make the exit status 1.
"""
import cmd
import sys
import traceback
from pathlib import Path
from typing import Iterator

TOP = Path(__file__).resolve().parent.parent
sys.path.insert(0, str(TOP / 'python'))

from roskevad import CellArea, Closed, Document, Editor, Error, Subject, Told  # noqa: E402


def things_in(document: Document) -> dict[Subject, str]:
    """The map, its layers, objects and tilesets, each with its words."""
    found = {Subject('map', 0): 'the map'}
    found.update({Subject('layer', each.id): f'layer {each.id} {each.name!r}' for each in document.layers.walk()})
    found.update({Subject('object', each.id): f'object {each.id} {each.name!r}' for each in document.objects})
    found.update({Subject('tileset', each.first_id): f'tileset {each.source or each.name}' for each in document.tilesets})
    return found


def joined(one: CellArea, other: CellArea) -> CellArea:
    """The rectangle around two of the same layer."""
    x, y = min(one.x, other.x), min(one.y, other.y)
    right, bottom = max(one.x + one.width, other.x + other.width), max(one.y + one.height, other.y + other.height)
    return CellArea(one.layer, x, y, right - x, bottom - y)


def changes(before: dict[Subject, str], after: dict[Subject, str], tolds: list[Told]) -> Iterator[str]:
    """What lines have changed, by what was told of each: a line for each thing, and for the cells of each layer."""
    areas: dict[int, CellArea] = {}
    for told in tolds:
        if isinstance(told.cells, CellArea):
            areas[told.cells.layer] = joined(areas.get(told.cells.layer, told.cells), told.cells)
    for subject in dict.fromkeys(told.subject for told in tolds if told.outline and told.subject):
        if subject in before or subject in after:
            how = 'added' if subject not in before else 'removed' if subject not in after else 'changed'
            yield f'{after.get(subject) or before[subject]}: {how}'
    for layer, area in areas.items():
        if Subject('layer', layer) in after:
            yield f'{after[Subject("layer", layer)]}: cells in {area.width} by {area.height} at {area.x}, {area.y}'


class Console(cmd.Cmd):
    def __init__(self, document: Document) -> None:
        super().__init__()
        self.document = document
        self.prompt = '> ' if sys.stdin.isatty() else ''

    def onecmd(self, line: str) -> bool:
        try:
            return bool(super().onecmd(line))
        except Closed:
            print('the script has closed the map')
            return True
        except (Error, OSError) as fault:
            print(fault)
            return False

    def emptyline(self) -> bool:
        return False

    def do_run(self, script: str) -> None:
        """run SCRIPT: runs a script as one step, and shows what it changed."""
        document, tolds = self.document, list[Told]()
        before, source = things_in(document), Path(script).read_bytes()
        try:
            with document.watch(tolds.append), document.macro(Path(script).name):
                exec(compile(source, script, 'exec'), {'document': document})
        except (Exception, SystemExit) as fault:
            lines = [frame.lineno for frame in traceback.extract_tb(fault.__traceback__) if frame.filename == script]
            print(f'{script}, line {lines[-1]}' if lines else script, f'{type(fault).__name__}: {fault}', sep=': ')
            if tolds:
                # Members that change nothing are no step, but drop what could be redone: the half that was done.
                document.members.put({})
            print('the map is as it was')
        else:
            for line in list(changes(before, things_in(document), tolds)) or ['nothing changed']:
                print(line)

    def do_undo(self, _: str) -> None:
        """undo: takes the last step back."""
        self.document.undo()
        print(f'undone: {self.document.redo_text}')

    def do_redo(self, _: str) -> None:
        """redo: does it again."""
        self.document.redo()
        print(f'redone: {self.document.undo_text}')

    def do_steps(self, _: str) -> None:
        """steps: lists the steps; those that are undone are in parentheses."""
        done = self.document.status.index
        for place, step in enumerate(self.document.steps):
            print(step.text if place < done else f'({step.text})')

    def do_save(self, _: str) -> None:
        """save: writes the map to its file."""
        self.document.save()
        print('saved')

    def do_quit(self, _: str) -> bool:
        """quit: ends the console, if all is saved."""
        self.document.close()
        return True

    def do_discard(self, _: str) -> bool:
        """discard: ends the console, and drops what is not saved."""
        self.document.discard()
        return True

    def do_EOF(self, _: str) -> bool:
        """The end of a pipe, or Ctrl+D."""
        return True


def main() -> int:
    if len(sys.argv) != 2:
        sys.exit('usage: python3 examples/console.py MAP')
    with Editor() as editor:
        try:
            document = editor.open(sys.argv[1])
        except Error as fault:
            sys.exit(f'{sys.argv[1]}: {fault}')
        Console(document).cmdloop()
        is_lost = not document.is_closed and not document.status.clean
        if not document.is_closed:
            document.discard()
    return 1 if is_lost else 0


if __name__ == '__main__':
    sys.exit(main())
