# SPDX-License-Identifier: MIT OR Apache-2.0
"""The turns in which an editor is called: one call at a time, and none in a fork."""
import functools
import os
from typing import TYPE_CHECKING, Any, Callable, TypeVar, cast

from .faults import Closed

if TYPE_CHECKING:
    from .editor import Editor

#: How many forks lie between this process and the one that loaded the module.
forks = [0]


def _count_fork() -> None:
    forks[0] += 1


os.register_at_fork(after_in_child=_count_fork)


def fork_fault() -> Closed:
    return Closed('an Editor is not used in a fork of its process')


def busy_fault() -> RuntimeError:
    return RuntimeError('an Editor is not called from a signal handler or a callback while its thread is in a call')


_Method = TypeVar('_Method', bound=Callable[..., Any])


def turn(method: _Method) -> _Method:
    """A call of an editor: one at a time, by whatever thread. `_heard` is written out the same way. What is told behind it may call again.

    Who has the lock and finds the editor busy is the thread that is in a call: then a signal handler calls in its midst. The
    mark is taken back twice, since in Python 3.9 the exception of a handler may fall in between."""

    @functools.wraps(method)
    def call(self: 'Editor', *words: Any, **named: Any) -> Any:
        if self._process != forks[0]:
            raise fork_fault()
        with self._lock:
            if self._is_busy:
                raise busy_fault()
            self._is_busy = True
            try:
                try:
                    if self._unsettled is not None:
                        self._settle()
                    return method(self, *words, **named)
                finally:
                    self._is_busy = False
            finally:
                self._is_busy = False
                if self._events.pending:
                    self._events.tell()

    return cast(_Method, call)
