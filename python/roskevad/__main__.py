# SPDX-License-Identifier: MIT OR Apache-2.0
"""A prompt: session lines from a person at a terminal, over a folder of maps.

    python3 -m roskevad [--folder DIR] [--limit N]

Behind the word `diff` it tells what differs between two maps, behind `merge` it brings two sides of one map together, and behind `git` it has
git do both.
"""
import argparse
import contextlib
import os
import sys
from pathlib import Path
from typing import Callable, Optional

from . import Editor, Refused, __version__
from .forms import FORMS, forms_of
from .limits import MAX_LIMIT
from .names import document_name, is_document_name

Command = Callable[[list[str]], int]


def options() -> argparse.Namespace:
    """The options of the command line; a limit or a folder that cannot be is refused with status 2."""
    more = 'roskevad diff A B tells what differs between two maps; roskevad merge BASE OURS THEIRS -o OUT brings two sides of one map together; ' \
        'roskevad git --enable has git do both. Each says more behind --help.'
    parser = argparse.ArgumentParser(prog='roskevad', description='Edits tile maps by session lines.', epilog=more)
    parser.add_argument('--folder', type=Path, default=Path('.'), help='the folder of the maps that are opened and saved')
    parser.add_argument('--limit', type=int, default=0, help='the most steps that a document keeps; 0 is no limit')
    parser.add_argument('--version', action='version', version=f'roskevad {__version__}')
    chosen = parser.parse_args()
    if not 0 <= chosen.limit <= MAX_LIMIT:
        parser.error(f'a limit is from 0 to {MAX_LIMIT}: {chosen.limit}')
    if not chosen.folder.is_dir():
        parser.error(f'no such folder: {chosen.folder}')
    return chosen


def say(text: str) -> None:
    """Tells something on standard error, where there is one."""
    try:
        if sys.stderr is not None:
            print(f'roskevad: {text}', file=sys.stderr, flush=True)
    except OSError:
        pass


# ---- lines, where `open` and `save` name the files of the folder


def reply_to(editor: Editor, line: str) -> str:
    """The reply to a line; to `?` and a word, the forms of its lines."""
    if line.startswith('?'):
        word = line[1:].strip()
        return '\n'.join(forms_of(word) if word else [form for forms in FORMS.values() for form in forms])
    word, _, rest = line.partition(' ')
    try:
        if word == 'open' and rest:
            return reply_to_open(editor, line, rest)
        if word == 'save' and is_name(rest) and rest == rest.strip() and not rest.startswith('.'):
            return editor.save_file(rest)
        return editor.step(line)
    except Refused as refusal:
        more = [each for each in (refusal.place_in_map, refusal.why) if each is not None] or refusal.forms
        return '\n'.join([f'no {refusal.code} {refusal.words}', *(f'  {each}' for each in more)])
    except MemoryError:
        return 'no 90 no memory'


def reply_to_open(editor: Editor, line: str, rest: str) -> str:
    """The reply to `open DOC FILE`, or else to `open FILE`, where FILE is the rest of the line and the document has a name that
    is made from it, which is told."""
    document, _, file = rest.partition(' ')
    if is_document_name(document) and is_there(editor, file):
        return editor.open_file(file, document)
    if is_there(editor, rest) or (is_name(rest) and ' ' not in rest):
        return f'{editor.open_file(rest)}\n  document {document_name(rest)}'
    return editor.step(line)


def is_name(word: str) -> bool:
    """Whether it is a name of a file, and leads to no other folder."""
    return word not in ('', '.', '..') and '/' not in word and '\0' not in word


def is_there(editor: Editor, name: str) -> bool:
    return is_name(name) and os.path.lexists(editor.folder / name)


# ---- what Tab completes


def completed(editor: Editor, before: str, start: str) -> list[str]:
    """The words that may stand behind `before` in a line, and begin with `start`."""
    word, _, rest = before.partition(' ')
    if not before:
        return [each for each in FORMS if each.startswith(start)]
    if word in ('close', 'discard', 'use'):
        names = (name.lstrip('*') for name in editor.step('list').split(' ')[1:])
        return [name for name in names if name.startswith(start)]
    if word not in ('open', 'save'):
        return []
    fronts = {rest, rest.partition(' ')[2]} if word == 'open' else {rest}
    files = sorted(name for name in os.listdir(editor.folder) if not name.startswith('.'))
    return [name[len(front):] for front in fronts for name in files if name.startswith(front + start)]


def complete(editor: Editor) -> None:
    """Has `readline`, where it is there, keep a history and complete words."""
    try:
        import readline
    except ImportError:
        return

    def candidate(start: str, at: int) -> Optional[str]:
        fitting = completed(editor, readline.get_line_buffer()[:readline.get_begidx()], start)
        return fitting[at] if at < len(fitting) else None

    readline.set_completer_delims(' ')
    readline.set_completer(candidate)
    readline.parse_and_bind('tab: complete')


# ---- the prompt


class Unwritten(Exception):
    """Standard output takes nothing any more."""


class Prompt:
    """Asks for lines and answers them, until the input ends."""

    def __init__(self, editor: Editor):
        self._editor = editor
        self._is_terminal = sys.stdin.isatty() and sys.stdout.isatty()
        self._runs_line = False
        # Whether the input has ended, and nothing has come since.
        self._has_ended = False

    def run(self) -> int:
        """Hears lines to the end, and gives the exit status."""
        try:
            while True:
                try:
                    status = self._hear()
                    if status is not None:
                        return status
                except KeyboardInterrupt:
                    self._tell_interrupt()
        except Unwritten as fault:
            say(f'write failed: {fault}')
            for name in self._editor.unsaved():
                say(f'not saved: {name}')
            # What Python still has to write at its end has nowhere to go.
            os.dup2(os.open(os.devnull, os.O_WRONLY), sys.__stdout__.fileno())
            return 1

    def _hear(self) -> Optional[int]:
        """Hears a line. Gives the exit status where it was the last one."""
        line = self._ask()
        if line is None:
            return self._end()
        self._has_ended = False
        self._runs_line = True
        reply = reply_to(self._editor, line)
        self._write(f'{reply}\n' if reply else '')
        self._runs_line = False
        return None

    def _ask(self) -> Optional[str]:
        """The next line; `None` where the input ends."""
        try:
            if self._is_terminal:
                return input('> ')
            line = sys.stdin.readline()
            return line.rstrip('\n') if line else None
        except EOFError:
            return None
        except OSError as fault:
            say(f'read failed: {fault.strerror}')
            return None

    def _end(self) -> Optional[int]:
        """The exit status at the end of the input. Where work is not saved, the input must end once more."""
        unsaved = self._editor.unsaved()
        self._write_to_terminal('\n')
        if not unsaved or self._has_ended:
            return 1 if unsaved else 0
        self._has_ended = True
        more = ' (Ctrl-D once more ends it all the same)' if self._is_terminal else ''
        say(f'not saved: {", ".join(unsaved)}{more}')
        return None

    def _tell_interrupt(self) -> None:
        if self._runs_line:
            self._runs_line = False
            say(f'interrupted; now {self._editor.step("status")}')
        else:
            self._write_to_terminal('\n')

    def _write_to_terminal(self, text: str) -> None:
        """Writes what is for eyes alone, and would be one more reply in a pipe."""
        if self._is_terminal:
            self._write(text)

    def _write(self, text: str) -> None:
        try:
            sys.stdout.write(text)
            sys.stdout.flush()
        except OSError as fault:
            raise Unwritten(fault.strerror) from None


def _difference() -> Command:
    from .difference_command import main as command

    return command


def _merge() -> Command:
    from .merge_command import main as command

    return command


def _git() -> Command:
    from .git_command import main as command

    return command


# The words that do something else, each brought with its first use.
COMMANDS = {'diff': _difference, 'merge': _merge, 'git': _git}


def main() -> int:
    """Reads lines to the end of the input, or does what the first word says, and gives the exit status."""
    if sys.argv[1:] and sys.argv[1] in COMMANDS:
        return COMMANDS[sys.argv[1]]()(sys.argv[2:])
    chosen = options()
    if sys.stdin is None or sys.stdout is None:
        say('read failed' if sys.stdin is None else 'write failed')
        return 1
    for stream, errors in ((sys.stdin, 'surrogateescape'), (sys.stdout, 'backslashreplace')):
        getattr(stream, 'reconfigure')(errors=errors)
    # What is not saved the prompt names itself.
    with contextlib.closing(Editor(limit=chosen.limit, folder=chosen.folder)) as editor:
        complete(editor)
        return Prompt(editor).run()


if __name__ == '__main__':
    sys.exit(main())
