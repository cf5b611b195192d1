"""A store in a process of its own, behind two pipes."""

from __future__ import annotations

import contextlib
import os
import select
import shutil
import signal
import subprocess
import time
import weakref
from pathlib import Path
from typing import List, Optional, Union

from ._answers import BadAnswer, ProgramEnded, TimedOut, quoted
from ._way import Answered, Way, seconds_of

Program = Union[str, "os.PathLike[str]"]
# The repository, where this is a checkout of it.
_FOLDER = Path(__file__).resolve().parent.parent
CHECKOUT = _FOLDER.parent.parent if _FOLDER.parts[-2:] == ("clients", "python") else None


def path_of(program: Optional[Program]) -> Program:
    """The program that is meant: without a word the `ordup` on PATH, or else the launcher of the checkout."""
    return program if program is not None else shutil.which("ordup") or (CHECKOUT / "ordup" if CHECKOUT else "ordup")


class Pipe(Way):
    process: subprocess.Popen[bytes]

    def __init__(self, program: Optional[Program], end_limit: float) -> None:
        self._end_limit = seconds_of(end_limit)
        # In a session of its own, so that Ctrl-C in a terminal reaches the caller alone.
        self.process = subprocess.Popen(
            [path_of(program), "run"], bufsize=0, stdin=subprocess.PIPE, stdout=subprocess.PIPE, start_new_session=True
        )
        assert self.process.stdin and self.process.stdout
        self._input, self._output = self.process.stdin, self.process.stdout
        os.set_blocking(self._input.fileno(), False)
        self._forgotten = weakref.finalize(self, _kill, self.process)
        super().__init__()

    def leave(self) -> None:
        super().leave()
        self._input.close()
        self._output.close()
        self.process.returncode = 0  # of a process that is not this one's child, so that it is not killed here

    def _exchange(self, text: bytes, count: int, seconds: Optional[float]) -> Answered:
        """Writes lines and reads their answers, both at once, so that no pipe stays full."""
        to, back = self._input.fileno(), self._output.fileno()
        limit = None if seconds is None else time.monotonic() + seconds
        unsent, missing = memoryview(text), count
        pieces: List[bytes] = []
        while True:
            if unsent:
                try:
                    unsent = unsent[os.write(to, unsent) :]
                except BlockingIOError:
                    pass
                except BrokenPipeError:  # the answers that came before are still read
                    unsent = unsent[:0]
            if missing <= 0 and not unsent:
                break
            ready = self._wait(bool(unsent), limit) if unsent or limit is not None else [back]
            if not ready:
                return b"".join(pieces), TimedOut
            if back in ready:
                piece = os.read(back, 65536)
                if not piece:
                    return b"".join(pieces), ProgramEnded if missing > 0 else None
                pieces.append(piece)
                missing -= piece.count(b"\n")
        answers = b"".join(pieces)
        if missing < 0 or answers[-1:] not in (b"", b"\n"):
            more = answers.split(b"\n", count + 1)[count].decode("ascii", "replace")
            raise BadAnswer(f"{quoted(more)} is an answer to no line")
        return answers, None

    def _wait(self, to_write: bool, limit: Optional[float]) -> List[int]:
        """The pipes that are ready, or none once the limit of time is reached."""
        left = _milliseconds_until(limit)
        if left == 0:
            return []
        pipes = select.poll()
        pipes.register(self._output, select.POLLIN)
        if to_write:
            pipes.register(self._input, select.POLLOUT)
        return [pipe for pipe, _ in pipes.poll(left)]

    def _stop(self) -> None:
        _kill(self.process)

    def _end(self) -> int:
        """Closes the input, waits for the program, and kills it after the time limit, or where another `_end` waits already."""
        if not (self._calling or self._input.closed):
            self._input.close()
            limit = None if self._end_limit is None else time.monotonic() + self._end_limit
            hung_up = select.poll()
            hung_up.register(self._output, 0)
            hung_up.poll(_milliseconds_until(limit))
            while not _has_ended(self.process) and (limit is None or time.monotonic() < limit):
                time.sleep(0.001)  # it closed its output, and will end
            status = _kill(self.process)
            self._output.close()
            return status
        return _kill(self.process)


def _milliseconds_until(limit: Optional[float]) -> Optional[float]:
    return None if limit is None else max(0, limit - time.monotonic()) * 1000


def _has_ended(process: subprocess.Popen[bytes]) -> bool:
    """Whether a process has ended. Takes no lock of `Popen`, which a call that a signal interrupted may hold."""
    try:
        return os.waitid(os.P_PID, process.pid, os.WEXITED | os.WNOWAIT | os.WNOHANG) is not None
    except ChildProcessError:
        return True


def _kill(process: subprocess.Popen[bytes]) -> int:
    """Kills a program and what it started, unless it has ended, and returns its exit status."""
    if process.returncode is None and not _has_ended(process):
        with contextlib.suppress(ProcessLookupError, ChildProcessError):
            os.killpg(process.pid, signal.SIGKILL)
            os.waitid(os.P_PID, process.pid, os.WEXITED | os.WNOWAIT)
    status = process.poll()
    return -signal.SIGKILL if status is None else status
