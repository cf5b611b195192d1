"""Tests the program before its proof, as the gate does the proved one.

Those checks are made of checks/table.py that are to be made before the proof, too. Beside them the tests by calls of each crate are run,
by `rt try --test`. Of what fails all that it said is told, and on standard error what was not tried. The last line is 'N passed, M
failed', and the status is 0 where M is 0 and N is not.
"""

from __future__ import annotations

import os
import re
import subprocess
import sys
from concurrent.futures import Future, ThreadPoolExecutor
from pathlib import Path
from typing import NamedTuple

import unproved
from checkout import TOP, Failure, need_kit, output_of, result_of

ROWS = "checks/rows"  # These are tried file by file.
# Where it is told how much passed, and how much failed: by `rt try --test`, and in the last line of a check.
OF_TESTS = r"^test result: .*?(\d+) passed; (\d+) failed"
OF_A_CHECK = r"^(\d+) (?:passed, (\d+) failed)?[^\n]*\n*\Z"


class Tried(NamedTuple):
    said: str
    status: int
    passed: int = 0
    failed: int = 0


def tried(words: list[str], folder: Path, counts: str) -> Tried:
    """Runs a command, and finds in what it said how much passed and failed."""
    output, status = output_of(words, cwd=folder, stderr=subprocess.STDOUT)
    said = output.decode(errors="replace")
    found = re.search(counts, said, re.M)
    return Tried(said, status, *(int(it or 0) for it in (found.groups() if found else ())))


def check(built: Future[tuple[Path, bool]], words: list[str]) -> Tried:
    """Makes a check, once the program is built."""
    try:
        program, _ = built.result()
    except Failure as why:
        return Tried(str(why), why.status)
    return tried([f"{TOP}/{words[0]}", str(program), *words[1:]], TOP, OF_A_CHECK)


def tell(name: str, it: Tried) -> tuple[int, int]:
    """Tells of what was tried, and answers how much passed and how much failed."""
    for line in re.findall(r"^not tried: .*", it.said, re.M):
        print(line, file=sys.stderr)
    if it.status or it.failed or not it.passed:
        print(f"{it.said.rstrip()}\n{name} failed", file=sys.stderr, flush=True)
        return it.passed, it.failed or 1
    print(f"{name}: {it.passed} passed", flush=True)
    return it.passed, 0


def test() -> int:
    """Tests all, and answers the status."""
    need_kit()
    from table import CHECKS  # All else that the launcher does needs no check.

    crates = sorted(it for it in (TOP / "crates").iterdir() if any("#[test]" in file.read_text() for file in it.glob("src/**/*.rt")))
    files = sorted(os.path.relpath(it, TOP) for it in (TOP / "tests").glob("**/*.txt"))
    with ThreadPoolExecutor(max(2, len(os.sched_getaffinity(0)))) as pool:
        built = pool.submit(unproved.have, "ordup")
        tries = [(f"the tests of {it.name}", pool.submit(tried, ["rt", "try", "--test"], it, OF_TESTS)) for it in crates]
        names = [it.name for it in CHECKS if it.before_proof]
        for words in [*([it] for it in names if it != ROWS), *([ROWS, file] for file in files)]:
            tries.append((" ".join(words), pool.submit(check, built, words)))
        try:
            counted = [tell(name, result_of(it)) for name, it in tries]
        except SystemExit:
            for _, it in tries:
                it.cancel()
            raise
    passed, failed = (sum(it) for it in zip(*counted))
    print("Nothing of it is proved by this: the proof is rt ci.")
    print(f"{passed} passed, {failed} failed")
    return 1 if failed or not passed else 0
