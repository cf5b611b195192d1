"""Proves and builds the program, or the library, in the foreground.

Each crate is begun as soon as those below it are proved and a processor is idle, and is proved in a tree of its own: `rt` lets one process
at a time work on a crate and on those below it. What `rt` keeps of the crate stays in the tree, so that a proof that was ended goes on
from there. The sources as they were before the proof are listed with what is made, so that an edit made meanwhile is seen.
"""

from __future__ import annotations

import os
import re
import shutil
import signal
import subprocess
import time
from pathlib import Path
from typing import NamedTuple

from checkout import OUT, TOP, Failure, begin, crates_below, locked, made_folder, need, need_kit, output_of, put, say, sources

PARTS = ("src", "specs", "proofs")


class Aim(NamedTuple):
    """What is proved and built as one: its crates, the files that it leaves in out/, those beside the crates that it is made of."""

    name: str
    crates: tuple[str, ...]
    makes: tuple[str, ...]
    others: tuple[str, ...] = ()
    tools: tuple[str, ...] = ()

    def listed(self) -> Path:
        return OUT / ("sources" if self is PROGRAM else f"{self.name}.sources")

    def is_made(self) -> bool:
        """Whether all that it makes is there, of the sources as they are now."""
        try:
            return all((OUT / it).exists() for it in self.makes) and self.listed().read_bytes() == sources(*self.others)
        except OSError:
            return False


HEADERS = ("ordup.h", "ordup_cluster.h", "ordup_holds.h")
PROGRAM = Aim("program", ("ordup_cli",), ("ordup",))
LIBRARY = Aim("library", ("ordup_c", "ordup_shared"), ("libordup.a", "libordup.so", *HEADERS),
              tuple(f"clients/c/{it}" for it in ("build", *HEADERS, "ordup_cluster.c")), ("gcc", "ld", "ar", "objcopy"))


def made_of(folder: Path, crate: str) -> Path:
    """Where `rt` leaves what it makes of a crate."""
    return folder / crate / "crates" / crate / "out"


class Proof:
    """The crates of an aim, of which some are proved and some at work."""

    def __init__(self, aim: Aim, folder: Path, lock: int) -> None:
        self.aim, self.folder, self.lock = aim, folder, lock
        self.crates = crates_below(aim.crates)
        files = {name: (TOP / "crates" / name / "src").rglob("*.rt") for name in self.crates}
        self.lines = {name: sum(it.read_bytes().count(b"\n") for it in files[name]) for name in self.crates}
        # How many lines wait for a crate: its own, and those of the longest way from it to the last one.
        self.behind = dict.fromkeys(self.crates, 0)
        for name in reversed(list(self.crates)):
            self.behind[name] += self.lines[name]
            for it in self.below(name):
                self.behind[it] = max(self.behind[it], self.behind[name])
        self.proved: list[str] = []
        self.at_work: dict[str, subprocess.Popen[bytes]] = {}
        self.processors = int(output_of(["nproc"])[0])
        self.begun_at = time.monotonic()

    def below(self, name: str) -> set[str]:
        """The crates of the checkout that a crate names."""
        return set(self.crates[name].libraries) & set(self.crates)

    def run(self) -> None:
        """Proves all. However it ends, nothing that it began goes on: a `rt` that is ended takes with it what it began itself."""
        try:
            if os.isatty(2):
                signal.signal(signal.SIGALRM, lambda *_: self.tell())
                signal.setitimer(signal.ITIMER_REAL, 1, 1)
            while len(self.proved) < len(self.crates):
                self.begin_some()
                self.tell()
                os.waitid(os.P_ALL, 0, os.WEXITED | os.WNOWAIT)
                for name in [name for name, it in self.at_work.items() if it.poll() is not None]:
                    if self.at_work.pop(name).returncode:
                        raise Failure(self.why_failed(name))
                    self.proved.append(name)
        finally:
            self.stop()

    def begin_some(self) -> None:
        """Begins crates whose libraries are proved. The one that most lines wait for, of those at work too, begins at once, and others as
        long as fewer crates than processors are at work. They have one process each, and use what that one leaves. It has several where
        it is large: a small crate reads more than it proves, and they would cost more than they save."""
        waiting = [name for name in self.crates if name not in self.proved and name not in self.at_work]
        ready = [name for name in waiting if self.below(name) <= set(self.proved)]
        most, *_ = sorted([*self.at_work, *ready], key=lambda it: -self.behind[it])
        for name in sorted(ready, key=lambda it: -self.behind[it]):
            if name == most:
                self.begin(name, 10, 1 if self.lines[name] < 800 else min(self.processors, 4))
            elif len(self.at_work) < self.processors:
                self.begin(name, 14, 1)

    def begin(self, name: str, niceness: int, processes: int) -> None:
        words = ["nice", "-n", str(niceness), "rt", "run" if name == "ordup_cli" else "lib", "--jobs", str(processes)]
        # What is linked names the functions of C that it reaches.
        words += [*["--list-axioms"] * (name in self.aim.crates), *["--", "--help"] * (name == "ordup_cli")]
        environment = {key: it for key, it in os.environ.items() if key != "RT_BACKEND"}
        work = self.lay_tree(name)
        with open(self.folder / name / "said", "wb") as said:
            self.at_work[name] = begin(words, cwd=work, env=environment, pass_fds=[self.lock], stdout=said, stderr=subprocess.STDOUT)

    def lay_tree(self, name: str) -> Path:
        """Lays a crate beside those that it stands on, as they were proved, and answers its folder, where what `rt` kept of it is left."""
        tree = self.folder / name / "crates"
        for old in [*tree.glob("*"), *(tree / name / it for it in PARTS)]:
            if old != tree / name:
                shutil.rmtree(old, ignore_errors=True)
        needed = crates_below([name])
        for it in needed:
            of = (TOP if it == name else self.folder / it) / "crates" / it
            for part in PARTS if it == name else (*PARTS, "out/rlib"):
                if (of / part).is_dir():
                    shutil.copytree(of / part, tree / it / part, copy_function=copy if it == name else link)
        (tree.parent / "crates.txt").write_text("".join(f"{it.text}\n" for it in needed.values()), encoding="utf-8")
        return tree / name

    def tell(self) -> None:
        """Tells how far it is: on a terminal in one line, whose time goes on, and else in a line whenever a crate is proved."""
        line = f"{len(self.proved)} of {len(self.crates)} crates are proved in {self.time()}, at work on {' '.join(self.at_work)}"
        if os.isatty(2):
            put(f"\r\x1b[Kordup: {line}"[: (os.get_terminal_size(2).columns or 80) + 3].encode())
        else:
            say(line)

    def time(self) -> str:
        seconds = int(time.monotonic() - self.begun_at)
        return f"{seconds // 60}:{seconds % 60:02}"

    def stop(self) -> None:
        """Ends what is at work, and the line on a terminal."""
        if os.isatty(2):
            signal.setitimer(signal.ITIMER_REAL, 0)
            put(b"\r\x1b[K")
        for it in self.at_work.values():
            it.terminate()
        for it in self.at_work.values():
            it.wait()

    def why_failed(self, name: str) -> str:
        """Prints the errors of a crate, or the end of what was said of it, and answers that it was not proved."""
        said = self.folder / name / "said"
        lines = said.read_bytes().splitlines(keepends=True)
        put(b"".join([it for it in lines if re.search(rb": error|^error|: not proved|: no proof", it)][:12] or lines[-12:]))
        return f"{name} was not proved, so there is no {self.aim.name}: all that was said of it is in {said}"


def copy(source: str, target: str) -> None:
    shutil.copy(source, target)


def link(source: str, target: str) -> None:
    """Copies a file, by a link where the file system has links."""
    try:
        os.link(source, target)
    except OSError:
        copy(source, target)


def library_of(archives: list[Path], folder: Path) -> None:
    """Makes the library of those of its crates."""
    said, status = output_of([TOP / "clients" / "c" / "build", *archives, folder], stderr=subprocess.STDOUT)
    if status:
        put(said)
        raise Failure("the library is compiled, but it cannot be linked")


def build(aim: Aim, folder: Path) -> None:
    """Puts what was proved into out/, in the place of what was not."""
    if aim is PROGRAM:
        shutil.copy(made_of(folder, "ordup_cli") / "ordup_cli", OUT / "ordup.new")
        os.replace(OUT / "ordup.new", OUT / "ordup")
        return
    library_of([made_of(folder, it) / f"lib{it}.a" for it in aim.crates], OUT)
    (OUT / "proof").unlink(missing_ok=True)  # an account of another library


def prove_once(aim: Aim, folder: Path, lock: int) -> None:
    listed = sources(*aim.others)
    kit, status = output_of(["rt", "version"])
    if status:
        raise Failure("the kit does not work here: `rt version` fails")
    OUT.mkdir(exist_ok=True)
    (OUT / f"{aim.name}.new").write_bytes(listed)  # before the proof, so that a disk that is full is told at once
    proof = Proof(aim, folder, lock)
    try:
        proof.run()
    except SystemExit:
        say(f"the proof is ended after {len(proof.proved)} of {len(proof.crates)} crates, and goes on from there when it is begun again")
        raise
    (folder / aim.crates[0] / "kit").write_bytes(kit)
    with locked(folder / "out.lock", "another ./ordup puts a library into out/"):
        build(aim, folder)
        os.replace(OUT / f"{aim.name}.new", aim.listed())
    say(f"the {aim.name} is proved and built in {proof.time()}")


def prove(aim: Aim) -> None:
    """Proves and builds it, unless it is there. It waits for whoever proves in the same folder, and goes on from what that proved."""
    if aim.is_made():
        return
    need_kit()
    for tool in aim.tools:
        need(tool, "install gcc and binutils")
    folder = made_folder()
    with locked(folder / "lock", "another ./ordup proves here") as lock:
        while not aim.is_made():  # also where a source was changed meanwhile
            prove_once(aim, folder, lock)
