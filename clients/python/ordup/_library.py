"""A store in this process: libordup.so, by ctypes."""

from __future__ import annotations

import ctypes
import functools
import io
import os
import time
import weakref
from pathlib import Path
from typing import Any, Callable, Optional, Tuple, Type, TypeVar

from ._answers import Error, NoMemory, ProgramEnded, Refused, TimedOut, Unanswered
from ._pipe import CHECKOUT
from ._way import Answered, Way

VERSION = 1  # of the functions, as in ordup.h
_DONE, _MORE, _CLOSED, _OPEN, _NO_MEMORY, _NOT_STARTED, _UNKNOWN_SITE, _MALFORMED, _TOO_LONG, _NOT_YET = range(10)
_ROOM = 65536  # for answers
_PIECE = 4096  # about so many bytes of lines are run by one call, at most
L = TypeVar("L")


class _Handle(ctypes.Structure):
    _fields_ = [("held", ctypes.c_void_p), ("mark", ctypes.c_uint64)]


class Library:
    """The functions of ordup.h."""

    def __init__(self, path: str) -> None:
        # Other threads run during a call of `long`. One of `quick` takes less time than it takes to let them.
        quick, long = ctypes.PyDLL(path), ctypes.CDLL(path)
        try:
            version = quick.ordup_version()
        except AttributeError as why:
            raise OSError(f"{path} is no library of ordup: {why}") from why
        if version != VERSION:
            raise OSError(f"{path} has the version {version} of the library's functions, not {VERSION}")
        try:  # a function that came later than the version
            self.check_series = long.ordup_check_series
        except AttributeError as why:
            raise OSError(f"{path} is an older library of ordup: {why}") from why
        handle, text, size = ctypes.POINTER(_Handle), ctypes.c_char_p, ctypes.c_size_t
        answer: Any = (ctypes.c_void_p, size, ctypes.POINTER(size))
        self.open, self.close, self.run, self.run_long = quick.ordup_open, long.ordup_close, quick.ordup_run, long.ordup_run
        self.record, self.next, self.check = long.ordup_record, long.ordup_next, long.ordup_check
        self.open.argtypes = self.close.argtypes = [handle]
        self.close.restype = None
        self.run.argtypes = self.run_long.argtypes = [handle, text, size, ctypes.POINTER(size), *answer]
        self.record.argtypes = [handle, text, size, *answer]
        self.next.argtypes = [handle, *answer]
        self.check.argtypes = self.check_series.argtypes = [text, size, *answer]


@functools.lru_cache(maxsize=None)
def _load(path: str) -> Library:
    return Library(path)


def found(load: Callable[[str], L]) -> Optional[L]:
    """What `load` makes of the library that the variable ORDUP_LIBRARY names; or else of the one beside the module, in out/ of the
    checkout, or where the loader of the system finds it; or None."""
    named = os.environ.get("ORDUP_LIBRARY")
    if named:
        return load(named)
    beside = Path(__file__).resolve().parent
    for folder in [beside, CHECKOUT / "out"] if CHECKOUT else [beside]:
        if (folder / "libordup.so").exists():
            return load(str(folder / "libordup.so"))
    try:
        return load("libordup.so.1")
    except OSError:
        return None


def find() -> Optional[Library]:
    """The library for stores, or None."""
    return found(_load)


def whole(call: Any, *words: Any) -> Tuple[int, bytes]:
    """The status and the bytes of a function that gives all its bytes or none, and says how many they are."""
    room, written = _ROOM, ctypes.c_size_t()
    while True:
        given = ctypes.create_string_buffer(room)
        status = call(*words, ctypes.addressof(given), room, written)
        if status != _MORE:
            return status, ctypes.string_at(given, written.value)
        room = written.value


def check_text(check: Any, text: bytes) -> str:
    """The line that `ordup check` prints for a text, by a function that checks it."""
    status, line = whole(check, text, len(text))
    if status == _NO_MEMORY:
        raise MemoryError
    if status == _TOO_LONG:
        raise Error("read fault")
    return line.decode("ascii").strip()


class InProcess(Way):
    def __init__(self, library: Library) -> None:
        self._library, self._handle = library, _Handle()
        if library.open(self._handle) != _DONE:
            raise MemoryError
        self._forgotten = weakref.finalize(self, library.close, self._handle)
        self._forgotten.atexit = False  # at the end of Python another thread may be in a call
        room = ctypes.create_string_buffer(_ROOM)
        self._given, self._taken, self._written = memoryview(room), ctypes.c_size_t(), ctypes.c_size_t()
        self._after_text = ctypes.byref(self._taken), ctypes.addressof(room), _ROOM, ctypes.byref(self._written)
        super().__init__()

    def leave(self) -> None:
        super().leave()
        self._forgotten.detach()

    def _exchange(self, text: bytes, count: int, seconds: Optional[float]) -> Answered:
        """Runs the lines, some at a time, and looks between these at the time and at whether the store was closed.

        A line of `certify`, whose answer alone may be long, ends its piece.
        """
        limit = None if seconds is None else time.monotonic() + seconds
        answers = io.BytesIO()
        start, why = 0, None
        while start < len(text) and why is None:
            end = text.find(b"\n", start + _PIECE) + 1 or len(text)
            at = text.find(b"certify", start, end)
            if at >= 0:
                end = text.find(b"\n", at) + 1
            why = self._run(self._library.run if at < 0 else self._library.run_long, text[start:end], answers)
            start = end
            if why is None and start < len(text):
                why = ProgramEnded if self._closed else TimedOut if limit is not None and time.monotonic() > limit else None
        return answers.getvalue(), why

    def _run(self, run: Any, text: bytes, answers: io.BytesIO) -> Optional[Type[Unanswered]]:
        """Runs lines and takes their answers, all of them: the next call of the library would give those that it kept."""
        status = first = run(self._handle, text, len(text), *self._after_text)
        while True:
            written = answers.write(self._given[: self._written.value])
            if status in (_DONE, _CLOSED) or not written:
                return {_CLOSED: ProgramEnded, _NO_MEMORY: NoMemory}.get(first)
            status = self._library.run(self._handle, b"", 0, *self._after_text)

    def _stop(self) -> None:
        pass  # the call looks at `_closed`

    def _end(self) -> int:
        if not self._calling:
            self._forgotten()  # does nothing the second time, or in a forked process
        return 0

    def record(self, site: str) -> bytes:
        name = str.encode(site, errors="surrogatepass")
        return self._printed(f"record {site}", self._library.record, name, len(name))

    def next_declarations(self) -> bytes:
        return self._printed("next", self._library.next)

    def _printed(self, line: str, call: Any, *words: Any) -> bytes:
        """What a job of the program prints. What it says instead is an exception."""
        with self._lock:
            status, text = (_CLOSED, b"") if self._closed else whole(call, self._handle, *words)
        if status == _DONE:
            return text
        if status == _NOT_STARTED:
            raise Refused(2, "NotStarted", line)
        if status == _UNKNOWN_SITE:
            raise Refused(8, "UnknownSite", line)
        if status == _NOT_YET:
            raise Refused(22, "NotYet", line)
        if status == _NO_MEMORY:
            raise NoMemory(4, b"", [line])
        if status == _CLOSED:
            raise ProgramEnded(0, b"", [line])
        raise Error(f"{line}: the library's status is {status}")
