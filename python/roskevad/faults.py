# SPDX-License-Identifier: MIT OR Apache-2.0
"""What an editor raises."""
from typing import TYPE_CHECKING, Iterable, Optional

from .forms import forms_of
from .refusals import REFUSALS
from .word_faults import WordAtFault, word_fault_of

if TYPE_CHECKING:
    from .map_faults import MapPlace


class Error(Exception):
    """What a file, or the map in it, is at fault for: a script that handles it can go on with the next map. What is wrong whatever the
    map is raises ValueError or TypeError instead."""


class NotFound(Error, KeyError):
    """The map has nothing with this id or name. The text says which ids there are."""

    def __str__(self) -> str:
        return str(self.args[0]) if self.args else ''


class OtherType(Error, TypeError, ValueError):
    """A property has a type in this map that does not take the value. `properties.set(key, value, type=..)` gives it another type."""


class BadTileset(Error, ValueError):
    """The file of a tileset, or a tileset in a map, does not say which tiles it has. Where it is a file, `__cause__` may tell more."""


class Refused(Error):
    """A line or a call was refused, and nothing was done.

    `code` is the number of the refusal, `words` what it says, and `line` what the caller wrote: a line, as `undo`, or a call,
    as `save_file('a.tmj')`. Where a line is of no command, or is not as its command has it, `forms` are the forms to write it
    in, and `word_at_fault` says at which word; a call has neither. Where it was one of many lines, `place` is its place among
    them, from 0, and `replies` are those to the lines before it, which are done. `why` says more, where more is known: of a
    file what the system says, of a map why it is not set aside, put back or unpacked. Where a map is read and refused,
    `place_in_map` tells where in its file. Where a file can't be read or written, `__cause__` has the OSError; of 50 it is a
    FileNotFoundError.
    """

    def __init__(
        self, code: int, words: str, line: str, place: Optional[int] = None, replies: Iterable[str] = (),
        forms: Optional[tuple[str, ...]] = None, why: Optional[str] = None, place_in_map: 'Optional[MapPlace]' = None,
        word_at_fault: Optional[WordAtFault] = None,
    ):
        self.code = code
        self.words = words
        self.line = line
        self.place = place
        self.replies = list(replies)
        is_of_a_word = forms is None and code in (3, 4)
        self.forms = forms if forms is not None else forms_of(line) if is_of_a_word else ()
        self.word_at_fault = word_fault_of(line) if is_of_a_word else word_at_fault
        self.why = why
        self.place_in_map = place_in_map
        # An exception is copied and pickled by its arguments, and so it goes from one process to another.
        super().__init__(code, words, line, place, self.replies, self.forms, why, place_in_map, self.word_at_fault)

    def _of(self, call: str, why: Optional[str] = None) -> 'Refused':
        """The same refusal of another call, perhaps with why."""
        return Refused(self.code, self.words, call, self.place, self.replies, self.forms, why or self.why, self.place_in_map, self.word_at_fault)

    def __str__(self) -> str:
        more = [str(each) for each in (self.word_at_fault, self.place_in_map, self.why) if each is not None]
        return '\n  '.join([f'{self.code} {self.words}: {self.line[:200]}', *more, *self.forms])


def refused_call(code: int, call: str, why: Optional[str] = None, place_in_map: 'Optional[MapPlace]' = None) -> Refused:
    """What is raised where a call is refused, with the words of its number."""
    return Refused(code, REFUSALS[code], call, forms=(), why=why, place_in_map=place_in_map)


def refused_file(call: str, fault: OSError) -> Refused:
    """What is raised where a file is not opened, with what the system says of it. Where there is none the words say all."""
    return refused_call(50, call) if isinstance(fault, FileNotFoundError) else refused_call(51, call, reason_of(fault))


def reason_of(fault: OSError) -> str:
    """What the system says of a file, in words."""
    return fault.strerror or str(fault)


class InCallback(RuntimeError):
    """A callback of `watch` has called what edits, says a line, or changes which documents are open or active. It may read."""


class Closed(Exception):
    """The editor or the document was closed, or this process is a fork of the one that opened it."""
