"""Tells what was proved of the program and of the library, for those who install them.

It reads the folder where the proofs worked: in it each crate has a copy of the sources that were proved, what the kit made of them, and
what it said. A line of the account is one of these, in this order; DIGEST is by SHA-256:

    ordup VERSION
    commit HASH               and ` with changes` behind it, where files were not as the commit has them
    kit NAME logic SUM        what `rt version` says
    source FILE DIGEST        of crates.txt and of HANDLES
    crate NAME FUNCTIONS DIGEST
    verdict NAME WORDS..      the kit's last line on the program and on the library, without what it trusts of earlier runs
    axiom NAME FUNCTION       a function of C that NAME reaches, whose contract is assumed
    file NAME DIGEST          what is installed
    unproved NAME DIGEST ..   in the package of ordup-node: a program that has the library in it, and no proof of its own code;
                              beside a library before its proof: that library. No package is made of such a one

FUNCTIONS is how many functions are proved in the crate: all, since the kit makes nothing of a crate that has a hole. Closures are
counted with their functions, as the kit does. DIGEST of a crate is that of the lines `DIGEST  FILE` for its files in src/ and
specs/, sorted, as `sha256sum` prints them.
"""

from __future__ import annotations

import hashlib
import json
import re
import subprocess
from pathlib import Path
from typing import Iterator, NamedTuple

from checkout import OUT, TOP, Failure, crates_below, output_of
from prove import HEADERS, LIBRARY, PROGRAM, made_of

ROOTS = (*PROGRAM.crates, *LIBRARY.crates)
# What the kit makes of a library beside its functions: closures, methods that a trait declares, and the drop of nothing.
NOT_COUNTED = re.compile(r"::fn::|\+decl$|Destruct\+\+none::drop$")
# What is installed, with the names that it has in out/.
FILES = {"bin/ordup": "ordup", "lib/libordup.so": "libordup.so", "lib/libordup.a": "libordup.a", **{f"include/{it}": it for it in HEADERS}}


class Said(NamedTuple):
    """What the kit said of a crate that it proved: the words of its last line, and the functions of C that it reaches."""

    words: list[str]
    reached: list[str]


def sum_of(path: Path) -> str:
    return hashlib.sha256(path.read_bytes()).hexdigest()


def digest_of(crate: Path) -> str:
    """The digest of the sources of a crate."""
    files = sorted(str(it.relative_to(crate)) for part in ("src", "specs") for it in crate.glob(f"{part}/**/*") if it.is_file())
    return hashlib.sha256("".join(f"{sum_of(crate / it)}  {it}\n" for it in files).encode()).hexdigest()


def said_of(folder: Path, name: str) -> Said:
    said = (folder / name / "said").read_text(encoding="utf-8", errors="replace")
    verdicts = re.findall(r"^(logic=proved .*)$", said, re.M)
    reached = re.findall(r"^\s*(\w+(?:::\w+)+)\b.*\breached$", said, re.M)
    counted = re.search(r" axioms=(\d+) ", verdicts[-1]) if verdicts else None
    if not verdicts or len(set(reached)) != int(counted[1] if counted else 0):
        raise Failure(f"{folder}/{name}/said does not tell what was proved of {name}")
    return Said([it for it in verdicts[-1].split() if not it.endswith("=trusted")], sorted(set(reached)))


def functions_in(folder: Path, name: str) -> int:
    """How many functions are proved in a library. The kit tells it in its last line, but not of a library that was built before."""
    made = made_of(folder, name) / f"rlib/{name}.rlib/toolchain/mir.json"
    try:
        count = sum(not NOT_COUNTED.search(it[0]) for it in json.loads(made.read_text(encoding="utf-8")))
        said = (folder / name / "said").read_text(encoding="utf-8", errors="replace")
    except (OSError, ValueError, LookupError) as why:
        raise Failure(f"{made} does not tell what was proved of {name}") from why
    if any(int(it) != count for it in re.findall(r"^logic=proved functions=(\d+)", said, re.M)):
        raise Failure(f"{made} has {count} functions, and the kit counts others")
    return count


def crate_lines(folder: Path, said: dict[str, Said]) -> Iterator[str]:
    """A line for each crate, whose sources are those that were proved."""
    for name in crates_below(ROOTS):
        sources = digest_of(TOP / "crates" / name)
        if sources != digest_of(folder / name / "crates" / name):
            raise Failure(f"crates/{name} is not as it was proved")
        found = re.search(r"\bfunctions=(\d+)", " ".join(said[name].words)) if name in said else None
        yield f"crate {name} {found[1] if found else functions_in(folder, name)} {sources}"


def commit() -> str:
    """The commit of the checkout, if it is one."""
    hash = output_of(["git", "-C", TOP, "rev-parse", "HEAD"], stderr=subprocess.DEVNULL)[0].decode().strip()
    _, differs = output_of(["git", "-C", TOP, "diff", "--quiet", "HEAD"], stderr=subprocess.DEVNULL)
    return f"{hash}{' with changes' if differs else ''}" if hash else "unknown"


def opening(kit: str) -> Iterator[str]:
    """What an account says of the checkout."""
    yield f"commit {commit()}"
    yield f"kit {kit}"
    yield from (f"source {it} {sum_of(TOP / it)}" for it in ("crates.txt", "HANDLES"))


def kit_of(folder: Path) -> str:
    """The kit that proved the program, and the library too."""
    kits = {(folder / it.crates[0] / "kit").read_text(encoding="utf-8").strip() for it in (PROGRAM, LIBRARY)}
    if len(kits) != 1:
        raise Failure(f"the program and the library are of several kits, {' and '.join(sorted(kits))}: ./ordup --clean removes both")
    return kits.pop()


def account(folder: Path) -> Iterator[str]:
    """The lines of the account."""
    said = {it: said_of(folder, it) for it in ROOTS}
    version, status = output_of([OUT / "ordup", "--version"])
    if status:
        raise Failure("the program does not tell its version")
    yield version.decode().strip()
    yield from opening(kit_of(folder))
    yield from crate_lines(folder, said)
    yield from (f"verdict {name} {' '.join(it.words)}" for name, it in said.items())
    yield from (f"axiom {name} {function}" for name, it in said.items() for function in it.reached)
    yield from (f"file {name} {sum_of(OUT / it)}" for name, it in FILES.items())
