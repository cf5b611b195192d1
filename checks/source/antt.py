"""A file of specs/ or proofs/: what it declares, and what it imports."""

from __future__ import annotations

import re
from typing import Iterator, NamedTuple

from .rattle import Use, names_of_use

# A name may have dashes and other signs in it, as `IsState-after` or `to_ℕ`.
NAME = r"[^\W\d][\w'-]*"
COMMENT = re.compile(r"(^|\s)--.*")
USE = re.compile(r"^ *(?P<pub>pub )?use (?P<path>[\w.«»]+(?:\.\{[^}]*\})?(?: as \w+)?)$")
MODULE = re.compile(r" *module\b")
# A signature: `abbrev pub NAME :`, `NAME : ..`, `pub record NAME ..`.
SIGNATURE = re.compile(
    rf" *(?P<words>(?:(?:abbrev|unfoldable) (?:pub )?|pub )?)(?:(?:record|data) (?P<of>{NAME})|(?P<name>{NAME}) :(?= |$))")


class Declaration(NamedTuple):
    """A declaration: its name, whether others may name it, its first line and the one after its last, from 1, and its text."""

    name: str
    is_public: bool
    line: int
    after: int
    text: str


class Definitions(NamedTuple):
    """A file: its lines have neither comments nor imports."""

    crate: str
    path: str
    module: str
    lines: tuple[str, ...]
    uses: tuple[Use, ...]
    declared: tuple[Declaration, ...]
    words: tuple[str, ...]

    @property
    def name(self) -> str:
        """As pages name it: `ordup_log/Spans`."""
        return f"{self.crate}/{self.path.rpartition('/')[2].removesuffix('.antt')}"

    def names(self) -> list[str]:
        """All that stands before a colon at the beginning of a line, fields and cases too."""
        return [it["name"] for it in map(SIGNATURE.match, self.lines) if it and it["name"]]


def indent_of(line: str) -> int:
    return len(line) - len(line.lstrip(" "))


def is_outside(lines: list[str], number: int) -> bool:
    """Whether a line stands at the top of its file or of a module in it, and is no field."""
    indent = indent_of(lines[number])
    above = next((it for it in reversed(lines[:number]) if it and indent_of(it) < indent), "")
    return indent == 0 or bool(MODULE.match(above)) and above.endswith("where") and indent == indent_of(above) + 2


def declarations(lines: list[str]) -> Iterator[Declaration]:
    """The declarations of a file: a signature with the lines up to the next one."""
    starts = []
    for number, line in enumerate(lines):
        found = SIGNATURE.match(line)
        if MODULE.match(line):
            starts.append((number, "", False))
        elif found and is_outside(lines, number):
            starts.append((number, found["name"] or found["of"], "pub" in found["words"]))
    for (first, name, is_public), (after, *_) in zip(starts, [*starts[1:], (len(lines), "", False)]):
        if name:
            yield Declaration(name, is_public, first + 1, after + 1, "\n".join(lines[first:after]))


def read_definitions(crate: str, path: str, text: str) -> Definitions:
    lines, uses = [], []
    for line in (COMMENT.sub("", it) for it in text.split("\n")):
        found = USE.match(line.rstrip())
        if found:
            uses += names_of_use(("pub", "ghost") if found["pub"] else ("ghost",), found["path"])
        lines.append("" if found else line.rstrip())
    module = ".".join(["Rattle", *path.removeprefix("crates/").removesuffix(".antt").split("/")])
    words = tuple(re.findall(r"[^\W\d][\w']*", "\n".join(lines)))
    return Definitions(crate, path, module, tuple(lines), tuple(uses), tuple(declarations(lines)), words)
