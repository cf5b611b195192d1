"""The checkout that the launcher stands in: its sources, its crates, its folder in the user's cache, and the lock on that."""

from __future__ import annotations

import contextlib
import fcntl
import hashlib
import os
import shutil
import subprocess
import sys
from concurrent.futures import Future, wait
from pathlib import Path
from typing import TYPE_CHECKING, Any, Iterable, Iterator, Sequence, TypeVar, Union

TOP = Path(__file__).resolve().parent.parent
sys.path.append(str(TOP / "checks"))

if TYPE_CHECKING:
    from source.tree import Crate

OUT = TOP / "out"
begun: list[subprocess.Popen[bytes]] = []
ends: list[bool] = []  # something, once what was begun is to end
Result = TypeVar("Result")


class Failure(Exception):
    """Ends the launcher with a line on standard error, and a status."""

    def __init__(self, why: str, status: int = 70) -> None:
        super().__init__(why)
        self.status = status


def put(text: bytes) -> None:
    """Writes to standard error, which may be closed, or full."""
    with contextlib.suppress(OSError):
        os.write(2, text)


def say(what: str) -> None:
    put(os.fsencode(f"ordup: {what}\n"))


def begin(words: Sequence[Union[str, Path]], **how: Any) -> subprocess.Popen[bytes]:
    """Begins a process, which `end_begun` ends, also where that comes from another thread meanwhile."""
    if ends:
        raise Failure("it is ended")
    started = subprocess.Popen(words, stdin=subprocess.DEVNULL, **how)
    begun.append(started)
    if ends:
        started.kill()
    return started


def end_begun() -> None:
    ends.append(True)
    for it in begun:
        it.terminate()


def output_of(words: Sequence[Union[str, Path]], **how: Any) -> tuple[bytes, int]:
    """What a command wrote to standard output, and its status, which is the shell's where there is no such command."""
    try:
        started = begin(words, stdout=subprocess.PIPE, **how)
    except FileNotFoundError:
        return b"", 127
    return started.communicate()[0], started.returncode


def result_of(it: Future[Result]) -> Result:
    """What a thread comes to. The system may give a signal to any thread, and Python heeds it in this one, which so wakes now and then."""
    while not wait([it], timeout=0.1).done:
        pass
    return it.result()


def need(command: str, how: str) -> None:
    if not shutil.which(command):
        raise Failure(f"{command} is not on PATH: {how} (docs/INSTALL.md)", 127)


def need_kit() -> None:
    need("rt", "install the Rattle kit, and put its folder bin on PATH")


def sources(*others: str) -> bytes:
    """The list that `sources.bash` makes of the sources, and of other files."""
    script = TOP / "launcher" / "sources.bash"
    return output_of(["bash", "-pc", '. "$0" && list_sources "$@"', script, *others])[0]


def crates_below(names: Iterable[str]) -> dict[str, Crate]:
    """These crates and all that they stand on, lowest first. Of those that crates.txt does not list none is there."""
    from source.tree import below, read_crates  # Who runs a script does not wait for it.

    known = read_crates((TOP / "crates.txt").read_text(encoding="utf-8"))
    return {it: known[it] for name in names for it in [*below(known, name), name] if it in known}


def named_folder() -> Path:
    """What the folder is called in which crates are proved and programs built: one for each checkout in the user's cache, or in out/."""
    home = os.environ.get("HOME")
    cache = os.environ.get("XDG_CACHE_HOME") or (f"{home}/.cache" if home else "")
    return Path(cache, "ordup", hashlib.sha256(os.fsencode(TOP)).hexdigest()[:32]) if cache.startswith("/") else OUT / "trees"


def made_folder() -> Path:
    """Makes that folder, which names its checkout. A file MODULE.bazel has `rt all` pass over it, should it stand in a checkout."""
    for folder in (named_folder(), OUT / "trees"):
        with contextlib.suppress(OSError):
            folder.mkdir(parents=True, exist_ok=True)
            (folder / "checkout").write_bytes(os.fsencode(TOP) + b"\n")
            (folder / "MODULE.bazel").touch()
            return folder
    raise Failure(f"cannot write into {folder}")


@contextlib.contextmanager
def locked(file: Path, busy: str, wait: bool = True) -> Iterator[int]:
    """Holds the system's lock on a file, after whoever holds it. What is begun meanwhile can have its descriptor, and so hold it too."""
    while True:
        file.parent.mkdir(parents=True, exist_ok=True)
        with open(file, "ab") as it:
            try:
                fcntl.flock(it, fcntl.LOCK_EX | fcntl.LOCK_NB)
            except BlockingIOError:
                if not wait:
                    raise Failure(busy) from None
                say(f"{busy}: waiting for its end ({file} is locked)")
                fcntl.flock(it, fcntl.LOCK_EX)
            # Who had it may have removed the file.
            if file.exists() and os.path.samestat(os.fstat(it.fileno()), file.stat()):
                yield it.fileno()
                return
