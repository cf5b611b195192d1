"""How a check runs commands, tries cases, and counts what it tried.

What a machine has no tools for is not tried: a line that begins with `not tried: ` tells it. The last line of a check that ends by `end`
is `N passed, M failed`, and its status is 0 where M is 0 and N is not.
"""

from __future__ import annotations

import os
import subprocess
import sys
from pathlib import Path
from typing import Callable, Iterable, Mapping, Sequence, Tuple, TypeVar

Subject = TypeVar("Subject")
# A case by its name, with what tries it.
Case = Tuple[str, Callable[[Subject], object]]
# No more is told of what a command said.
MOST_TOLD = 3000


class Failed(Exception):
    """What did not come as it must."""


class NotTried(Exception):
    """Why something cannot be tried here."""


def must(is_so: object, what: str) -> None:
    if not is_so:
        raise Failed(what)


def must_be(given: bytes, wanted: bytes, what: str) -> None:
    """Sees that these are the bytes that are wanted, and else tells the first that are not."""
    if given != wanted:
        at = len(os.path.commonprefix([given, wanted]))
        raise Failed(f"{what}: {given[at:at + 80]!r} instead of {wanted[at:at + 80]!r}, from byte {at} on")


def run(*words: object, given: bytes = b"", status: int = 0, folder: Path | None = None, names: Mapping[str, str] = {}, seconds: float = 600,
        with_errors: bool = False) -> bytes:
    """What a command says on its standard output, or with its errors, where it ends with this status in time."""
    try:
        ran = subprocess.run([str(word) for word in words], input=given, stdout=subprocess.PIPE,
                             stderr=subprocess.STDOUT if with_errors else subprocess.PIPE, cwd=folder, env={**os.environ, **names}, timeout=seconds)
    except subprocess.TimeoutExpired:
        raise Failed(f"{words[0]}: it did not end in {seconds:.0f} seconds") from None
    if ran.returncode != status:
        said = ran.stdout[-MOST_TOLD:] + (ran.stderr or b"")[-MOST_TOLD:]
        raise Failed(f"{' '.join(map(str, words))}: status {ran.returncode}\n{said.decode('utf-8', 'replace')}")
    return ran.stdout


def audit(program: Path, records: Sequence[bytes], whose: str) -> None:
    """Sees that `ordup` finds nothing wrong with records, nor with all of them as those of one site, one after another."""
    for words, given in [(["check"], it) for it in records] + [(["check", "--series"], b"".join(records))]:
        must_be(run(program, *words, given=given)[:4], b"yes ", f"the records of {whose}")


def named(*cases: Callable[[Subject], object]) -> list[Case[Subject]]:
    """Cases that are functions, by the names of these."""
    return [(case.__name__, case) for case in cases]


def tried(cases: Iterable[Case[Subject]], subject: Subject) -> tuple[int, int]:
    """How many cases passed and how many failed. It tells why one failed, or could not be tried."""
    passed = failed = 0
    for name, case in cases:
        try:
            case(subject)
            passed += 1
        except NotTried as why:
            print(f"not tried: {name}, since {why}")
        except Failed as why:
            print(f"{name}: {why}")
            failed += 1
    return passed, failed


def end(passed: int, failed: int) -> None:
    """Ends a check that tried so much. It has failed where nothing passed."""
    print(f"{passed} passed, {failed} failed")
    sys.exit(0 if passed and not failed else 1)
