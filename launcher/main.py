"""What ./ordup does but for the start of the proved program, by the words of its command line, which the first lines of ./ordup explain."""

from __future__ import annotations

import contextlib
import filecmp
import os
import re
import shutil
import signal
import subprocess
import sys
from pathlib import Path
from types import FrameType
from typing import NoReturn, Optional

sys.path.insert(0, str(Path(__file__).parent))

import unproved
import unproved_library
from account import account
from checkout import OUT, TOP, Failure, end_begun, locked, made_folder, named_folder, output_of, put, say
from prove import LIBRARY, PROGRAM, Aim, made_of, prove
from test import test

# What the program does, its options, and those of the launcher that take no more words.
JOBS = ("run", "record", "check", "lag", "next", "threads", "help")
OWN = ("--help", "-h", "--version", "-V")
ALONE = ("--prove", "--test", "--library", "--package", "--clean")
UNPROVED = ["--library", "--unproved"]
# The descriptor of the standard input that ./ordup was given.
GIVEN = 9
SIGNALS = (signal.SIGINT, signal.SIGTERM, signal.SIGHUP)


def answer(words: list[str]) -> NoReturn:
    """Answers by the program before its proof."""
    program, is_new = unproved.have("run" if words == ["run"] else "ordup")
    if not is_new:
        say("this answer is of the program before its proof (./ordup --prove proves it)")
    signal.signal(signal.SIGPIPE, signal.SIG_DFL)
    try:
        os.dup2(GIVEN, 0)
    except OSError:
        os.close(0)
    os.execv(program, [str(program), *words])


def is_told_of(aim: Aim, folder: Path) -> bool:
    """Whether the folder of the proofs still tells what was proved of what was made. Of what the gate handed over it does not."""
    try:
        said = [(folder / it / "said").read_bytes() for it in aim.crates]
        is_same = aim is LIBRARY or filecmp.cmp(made_of(folder, "ordup_cli") / "ordup_cli", OUT / "ordup", shallow=False)
        return is_same and (folder / aim.crates[0] / "kit").exists() and all(re.search(rb"^logic=proved ", it, re.M) for it in said)
    except OSError:
        return False


def build_node(folder: Path) -> list[Path]:
    """Builds ordup-node over the library, if Go is there."""
    node = OUT / "ordup-node"
    node.unlink(missing_ok=True)
    os.environ.setdefault("GOCACHE", str(folder / "go"))
    said, status = output_of([TOP / "node" / "build", OUT, node], stderr=subprocess.STDOUT)
    if status == 77:
        say(f"the package of ordup-node is not built: {said.decode(errors='replace').strip()}")
    elif status:
        put(said)
        raise Failure("ordup-node was not built")
    return [node] if not status else []


def build_packages() -> None:
    """Builds the packages of the program, of the library and of ordup-node, which have the date of the commit."""
    commit = output_of(["git", "-C", TOP, "log", "-1", "--format=%ct"], stderr=subprocess.DEVNULL)[0].decode().strip()
    os.environ["SOURCE_DATE_EPOCH"] = date = os.environ.get("SOURCE_DATE_EPOCH") or commit
    if not re.fullmatch("[0-9]+", date):
        raise Failure("there is no commit whose date the packages could have: set SOURCE_DATE_EPOCH")
    folder = made_folder()
    for aim in (PROGRAM, LIBRARY):
        if not is_told_of(aim, folder):
            aim.listed().unlink(missing_ok=True)
        prove(aim)
    with locked(folder / "lock", "another ./ordup proves here"):
        (OUT / "proof.new").write_text("".join(f"{line}\n" for line in account(folder)), encoding="utf-8")
        os.replace(OUT / "proof.new", OUT / "proof")
        words = [OUT / "ordup", OUT, OUT / "proof", OUT, *build_node(folder)]
        made, status = output_of(["python3", "-IS", TOP / "packages" / "build", *words])
    if status:
        raise Failure("packages/build fails")
    say(f"the packages are in {OUT}: {', '.join(made.decode().split())}")


def clean() -> None:
    """Removes what the others left, unless one of them is at work."""
    if not os.path.lexists(OUT) and not named_folder().exists():
        return say("there is nothing to remove")
    if os.path.lexists(OUT) and not OUT.is_dir():
        raise Failure(f"nothing is removed, since {OUT} is no folder")
    folder, out = made_folder(), OUT.resolve()
    with contextlib.ExitStack() as held:
        for it in (folder / "lock", *folder.glob("unproved/*.lock")):
            held.enter_context(locked(it, "nothing is removed while another ./ordup is at work here", wait=False))
        total = output_of(["du", "-shc", out, folder], stderr=subprocess.DEVNULL)[0].splitlines()[-1]
        say(f"removing {total.split()[0].decode()}: {OUT} and {folder}")
        for it in (out, folder):
            if it.exists():
                shutil.rmtree(it)
        if OUT.is_symlink():
            OUT.unlink()


def act(words: list[str]) -> int:
    """Does what the words ask for, and answers the status."""
    first = words[0] if words else "run"
    if first in ALONE and words[1:] and words != UNPROVED:
        raise Failure(f"{first} takes no more words", 2)
    if first == "--prove":
        prove(PROGRAM)
        say(f"the proved program is {OUT}/ordup")
    elif first == "--test":
        return test()
    elif words == UNPROVED:
        unproved_library.have_library()
    elif first == "--library":
        prove(LIBRARY)
        say(f"the library is in {OUT}: libordup.a, libordup.so, ordup.h and ordup_cluster.h")
    elif first == "--package":
        build_packages()
    elif first == "--clean":
        clean()
    elif first in (*JOBS, *OWN):
        answer(words)
    elif first.startswith("-"):
        raise Failure(f"there is no option {first}: the options are {', '.join((*ALONE, '--proved', *OWN))}", 2)
    else:
        raise Failure(f"there is no job {first}: the jobs are {', '.join(JOBS)}", 2)
    return 0


def end(number: int, _: Optional[FrameType]) -> None:
    """Ends what was begun, and then the launcher."""
    for it in SIGNALS:
        signal.signal(it, signal.SIG_IGN)
    end_begun()
    sys.exit(128 + number)


def main(words: list[str]) -> int:
    with contextlib.suppress(OSError):
        os.set_inheritable(GIVEN, False)
    while os.open(os.devnull, os.O_RDWR) < 2:  # no file that is opened later can be taken for a stream that is closed
        pass
    for number in SIGNALS:
        if signal.getsignal(number) != signal.SIG_IGN:
            signal.signal(number, end)
    try:
        return act(words)
    except Failure as why:
        say(str(why))
        return why.status
    except OSError as error:
        reason = error.args[0][0][2] if isinstance(error, shutil.Error) else error.strerror
        say(f"cannot write into {error.filename or f'{OUT} or {named_folder()}'}: {reason}")
        return 70


if __name__ == "__main__":
    sys.exit(main(sys.argv[1:]))
