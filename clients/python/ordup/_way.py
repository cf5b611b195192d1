"""What both ways to a store share: one call at a time, and none after the end."""

from __future__ import annotations

import os
import threading
import weakref
from subprocess import Popen
from typing import Optional, Tuple, Type, Union

from ._answers import ProgramEnded, TimedOut, Unanswered

# Answers, and what to raise where these are not all.
Answered = Tuple[bytes, Optional[Type[Unanswered]]]
Text = Union[bytes, bytearray, memoryview]

_MOST_SECONDS = 1_000_000


def bytes_of(text: Text) -> bytes:
    """A text as bytes, or a `TypeError`."""
    return text if type(text) is bytes else bytes(memoryview(text))


def seconds_of(limit: Optional[float]) -> Optional[float]:
    """A time limit, which is none from a million seconds on; or a `TypeError`, or a `ValueError` of what is no number."""
    if limit is None or limit >= _MOST_SECONDS:
        return None
    if limit != limit:
        raise ValueError("a time limit that is not a number")
    return float(max(limit, 0))


class Way:
    """A way to a store. Each kind of way has its own `_exchange`, `_stop` and `_end`.

    `_calling` is set before an exchange, and cleared once all its answers have come. So a call that finds it set was made by a
    signal handler amid another call, or after an interrupt left one amid its exchange. Then the store ends, since no answer
    could be told from one that is still to come.

    Whoever ends the store sets `_closed` before it looks at `_calling`, and a call sets `_calling` before it looks at `_closed`.
    So of two that meet, one at least sees the other.
    """

    process: Optional[Popen[bytes]] = None

    def __init__(self) -> None:
        self._lock = threading.RLock()  # a signal handler may close the store amid a call of its own thread
        self._calling = self._closed = False
        _ways.add(self)

    def ask(self, text: bytes, count: int, seconds: Optional[float]) -> Answered:
        """The answers to the lines of a text, which has so many and whose last line is ended."""
        with self._lock:
            if self._calling:
                self.close(at_once=True)
                return b"", ProgramEnded
            self._calling = True
            try:
                answers, why = (b"", ProgramEnded) if self._closed else self._exchange(text, count, seconds)
            except BaseException:  # an interrupt, say
                self.close(at_once=True)
                self._calling = False
                self._end()
                raise
            if why is TimedOut:
                self._closed = True
                self._stop()
            self._calling = False
            if self._closed:
                self._end()
            return answers, why

    def close(self, at_once: bool = False) -> int:
        """Ends the store, and a call that is under way. Returns the exit status."""
        self._closed = True
        if at_once or self._calling:
            self._stop()
        with self._lock:
            return self._end()

    def leave(self) -> None:
        """Leaves the store to the process that this one was forked from. Here it is closed from now on."""
        self._closed, self._lock = True, threading.RLock()

    def _exchange(self, text: bytes, count: int, seconds: Optional[float]) -> Answered:
        raise NotImplementedError

    def _stop(self) -> None:
        """Has a call that is under way end soon, in this thread or in another one."""
        raise NotImplementedError

    def _end(self) -> int:
        """Ends the store, unless a call of this thread is still under way, which then ends it. Returns the exit status."""
        raise NotImplementedError


_ways: weakref.WeakSet[Way] = weakref.WeakSet()


def _leave_all() -> None:
    for way in list(_ways):
        way.leave()


os.register_at_fork(after_in_child=_leave_all)
