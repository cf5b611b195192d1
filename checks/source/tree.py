"""The crates of the repository, as crates.txt has them, and their files."""

from __future__ import annotations

from functools import lru_cache
from pathlib import Path
from typing import NamedTuple

from .antt import Definitions, read_definitions
from .rattle import File, Function, read_file

TOP = Path(__file__).resolve().parent.parent.parent


class Crate(NamedTuple):
    """A line of crates.txt: the crate, what it is built as if that is said, the libraries it names, and the number of the line."""

    name: str
    kind: str
    libraries: tuple[str, ...]
    line: int

    @property
    def is_of_store(self) -> bool:
        """Whether it is part of the store, and none of tests, examples and measurements."""
        return self.name.startswith("ordup_")

    @property
    def text(self) -> str:
        """Its line, without a comment."""
        return f"{f'{self.name} {self.kind}'.strip()}: {' '.join(self.libraries)}"

    def is_same(self, other: Crate) -> bool:
        """Whether another line, in which libraries may stand in another order, says the same."""
        return (self.kind, set(self.libraries)) == (other.kind, set(other.libraries))


def read_crates(text: str) -> dict[str, Crate]:
    """The crates of a crates.txt in its order, which is from below."""
    found = {}
    for number, line in enumerate(text.split("\n"), 1):
        head, _, libraries = line.partition("#")[0].partition(":")
        if head.strip():
            name, _, kind = head.strip().partition(" ")
            found[name] = Crate(name, kind.strip(), tuple(libraries.split()), number)
    return found


def below(crates: dict[str, Crate], name: str) -> list[str]:
    """The crates that a crate stands on, each once and above those that it stands on itself."""
    found: list[str] = []
    for library in crates[name].libraries if name in crates else ():
        found += [it for it in [*below(crates, library), library] if it in crates and it not in found]
    return found


class Tree:
    """What is read of the repository, each file once."""

    def __init__(self, top: Path = TOP):
        self.top = top
        self.crates = read_crates(self.read("crates.txt"))

    def read(self, name: str) -> str:
        return (self.top / name).read_text(encoding="utf-8")

    def has(self, name: str) -> bool:
        return (self.top / name).exists()

    @lru_cache(maxsize=None)
    def files(self, crate: str) -> list[File]:
        """The files of a crate's code, in the order of their paths."""
        source = self.top / "crates" / crate / "src"
        return [read_file(crate, str(path.relative_to(self.top)), "::".join(path.relative_to(source).with_suffix("").parts),
                          path.read_text(encoding="utf-8")) for path in sorted(source.rglob("*.rt"), key=str)]

    def all_files(self, of_store: bool = False) -> list[File]:
        return [file for crate in self.crates.values() if crate.is_of_store or not of_store for file in self.files(crate.name)]

    def functions(self, of_store: bool = False) -> list[Function]:
        return [it for file in self.all_files(of_store) for it in file.functions]

    def bodies(self) -> dict[str, list[str]]:
        """The bodies of the functions of the store, without comments, by their names with those of their types."""
        found: dict[str, list[str]] = {}
        for it in self.functions(of_store=True):
            if it.body is not None:
                found.setdefault(it.path, []).append(it.body)
        return found

    def file(self, crate: str, module: str) -> File | None:
        return next((it for it in self.files(crate) if it.module == module), None) if crate in self.crates else None

    def odd_copies(self, module: str) -> list[tuple[File, File]]:
        """The files of a module that several crates have alike which are not as the first of them, each with that."""
        files = [it for crate in self.crates for it in self.files(crate) if it.module == module]
        return [(it, files[0]) for it in files if it.text != files[0].text]

    def root(self, crate: str) -> File | None:
        return self.file(crate, "lib") or self.file(crate, "main")

    @lru_cache(maxsize=None)
    def definitions(self, crate: str) -> list[Definitions]:
        """The files of a crate's specs/ and proofs/."""
        paths = sorted((it for kind in ("specs", "proofs") for it in (self.top / "crates" / crate / kind).rglob("*.antt")), key=str)
        return [read_definitions(crate, str(it.relative_to(self.top)), it.read_text(encoding="utf-8")) for it in paths]

    def specs(self, crate: str) -> list[Definitions]:
        return [it for it in self.definitions(crate) if it.path.split("/")[2] == "specs"]

    def has_tests(self, crate: str) -> bool:
        return any(it.is_test for file in self.files(crate) for it in file.functions)

    def words_of_specs(self) -> set[str]:
        return {word for crate in self.crates for it in self.specs(crate) for word in it.words}
