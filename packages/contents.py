"""What is installed: the files below a prefix, such as /usr, with their bytes."""

from __future__ import annotations

import re
import subprocess
from pathlib import Path
from typing import Callable

import manual
from archives import Entry
from spelling import NUMBER

TOP = Path(__file__).resolve().parent.parent
# The prefix, and in it the folder of libraries, where they lie as in an archive that is unpacked anywhere.
WHERE_IT_LIES = ("${pcfiledir}/../..", "${prefix}/lib")
# The completion: each word in capitals stands for some of ordup's.
COMPLETION = """# Completes the words of ordup, for bash.
_ordup() {
    local word=${COMP_WORDS[COMP_CWORD]} words
    case $COMP_CWORD:${COMP_WORDS[1]} in
    1:*) words='FIRST' ;;
OTHERS
    esac
    mapfile -t COMPREPLY < <(compgen -W "$words" -- "$word")
}
complete -F _ordup ordup
"""


def said_by(*words: str | Path) -> str:
    """What a command prints, where it ends well."""
    return subprocess.run(words, stdin=subprocess.DEVNULL, stdout=subprocess.PIPE, check=True, encoding="utf-8").stdout


def version_of(program: Path, name: str = "ordup") -> str:
    """The version that a program says: the one that its packages have. What it was built of may stand behind it."""
    said = said_by(program, "--version")
    found = re.fullmatch(rf"{name} ({NUMBER})(?: \(build [0-9a-f]+\))?\n", said)
    if not found:
        raise ValueError(f"{program} --version says {said!r}, and no version")
    return found[1]


def summary_of(header: str) -> str:
    """What ordup is, in the words of the first line of its header."""
    return manual.found_in(header, r"\A/\* ordup: an? ([^,]*),")[1]


def first_paragraph(page: str) -> str:
    """What something is, in the first paragraph of its page that is no heading; its last sentence leads to another page."""
    text = (TOP / page).read_text(encoding="utf-8").split("\n\n")[1]
    return re.split(r" (?:The )?\[", text)[0]


def glibc_of(*binaries: bytes) -> tuple[int, int]:
    """The newest version of the C library of which these take a function."""
    names = [it for data in binaries for it in re.findall(rb"\0GLIBC_(\d+)\.(\d+)(?:\.\d+)?(?=\0)", data)]
    if not names:
        raise ValueError("nothing there names a version of the C library")
    return max((int(major), int(minor)) for major, minor in names)


def completion(commands: list[str]) -> str:
    """The completion: which words may stand first, and which behind each of them."""
    words = [it.split()[1:] for it in commands]
    first = list(dict.fromkeys(it[0] for it in words))
    behind = {name: [it[1] for it in words if it[0] == name and it[1:] and it[1].startswith("-")] for name in first}
    lines = [f"    2:{name}) words='{' '.join([*options, '--help'])}' ;;" for name, options in behind.items() if not name.startswith("-")]
    return COMPLETION.replace("FIRST", " ".join(first)).replace("OTHERS", "\n".join(lines))


def description(name: str, version: str, summary: str, prefix: str, library: str) -> str:
    """What pkg-config reads of the library."""
    return (f"prefix={prefix}\nlibdir={library}\nincludedir=${{prefix}}/include\n\nName: {name}\nDescription: {summary}\n"
            f"Version: {version}\nLibs: -L${{libdir}} -lordup\nLibs.private: -pthread\nCflags: -I${{includedir}}\n")


def pages() -> dict[str, bytes]:
    """The pages and the examples that they name, at the places that they have in the repository."""
    found = [TOP / "README.md", TOP / "CHANGELOG.md"]
    for folder in ("docs", "examples"):
        found += sorted(it for it in (TOP / folder).iterdir() if it.is_file())
    return {str(it.relative_to(TOP)): it.read_bytes() for it in found}


# The sources of the bindings that are built with the program, and the examples of the one that pip installs.
BINDINGS = ("c/series.c", "rust/Cargo.toml", "rust/build.rs", "rust/src/**/*.rs", "rust/examples/*.rs", "rust/tests/*.rs", "go/go.mod",
            "go/**/*.go", "python/examples/*.py")


def bindings() -> dict[str, bytes]:
    """The sources of the bindings, at the places that they have in the repository."""
    found = [it for pattern in BINDINGS for it in sorted(TOP.glob(f"clients/{pattern}"))]
    return {str(it.relative_to(TOP)): it.read_bytes() for it in found}


# The headers of the library: of the store that takes lines, of the cluster that threads share, and of what that stands on.
HEADERS = "ordup.h", "ordup_cluster.h", "ordup_holds.h"


class Contents:
    """What the packages hold, of a program, of the folder of its library, and of the account of their proof."""

    def __init__(self, program: Path, library: Path, proof: Path, epoch: int):
        self.epoch, self.version = epoch, version_of(program)
        self.program, self.proof = program.read_bytes(), proof.read_bytes()
        self.archive, self.shared = ((library / it).read_bytes() for it in ("libordup.a", "libordup.so"))
        self.soname = manual.found_in(self.shared, rb"\0(libordup\.so\.\d+)\0")[1].decode("ascii")
        self.headers = {it: (library / it).read_text(encoding="utf-8") for it in HEADERS}
        self.summary = summary_of(self.headers["ordup.h"])
        self.commands = manual.usage((TOP / "docs/FORMATS.md").read_text(encoding="utf-8"))
        jobs = dict.fromkeys(it.split()[1] for it in self.commands if not it.split()[1].startswith("-"))
        helps = {name: said_by(program, *name.split(), "--help") for name in ["", *jobs]}
        told = (epoch, self.version, self.summary)
        self.pages_of_manual = {
            "man1/ordup.1": manual.page_of_program(helps, self.commands, *told).encode("utf-8"),
            **{f"man3/{it[:-2]}.3": manual.page_of_library(it[:-2], text, epoch, self.version).encode("utf-8")
               for it, text in self.headers.items()},
        }

    def below(self, library: str = "lib", where: tuple[str, str] = WHERE_IT_LIES, pack: Callable[[bytes], bytes] | None = None) -> list[Entry]:
        """What lies below a prefix, in which `library` is the folder of libraries; man pages as `pack` packs them."""
        config = description("ordup", self.version, self.summary, *where)
        made: dict[str, bytes | str] = {
            f"{library}/{self.soname}": self.shared,
            f"{library}/libordup.so": self.soname,
            f"{library}/libordup.a": self.archive,
            f"{library}/pkgconfig/ordup.pc": config.encode("utf-8"),
            **{f"include/{name}": text.encode("utf-8") for name, text in self.headers.items()},
            "share/bash-completion/completions/ordup": completion(self.commands).encode("utf-8"),
            "share/ordup/proof": self.proof,
            "share/doc/ordup/copyright": (TOP / "packages/copyright").read_bytes(),
        }
        for name, page in self.pages_of_manual.items():
            made[f"share/man/{name}" + (".gz" if pack else "")] = pack(page) if pack else page
        made.update((f"share/doc/ordup/{name}", page) for name, page in pages().items())
        made["share/doc/ordup/clients"] = "../../ordup/clients"
        made.update((f"share/ordup/{name}", source) for name, source in bindings().items())
        others = [Entry(path, 0o777 if isinstance(it, str) else 0o644, it) for path, it in made.items()]
        return [Entry("bin/ordup", 0o755, self.program), *others]
