"""The parts of pages that checks/model --print writes: what a page says of the code, printed from the code.

- docs/PROOFS.md: the promises, from the comments in src/ (checks/source/promises.py).
- docs/ARCHITECTURE.md: each crate of the store with the first sentence of its src/lib.rt, or src/main.rt, in the order of crates.txt.
- docs/crates.svg: these crates, each above those that it stands on. An edge that others imply is left out.
- docs/GLOSSARY.md: by crate the words that name it, or a public type, call or definition of it.
- docs/SERVICE.md: the lock that each call of a cluster and of epochs takes, and for what it waits, from comments above the calls:
  `// waits: LOCK | WAIT`, or `// waits: as Type::call` of another one. What stands above a type is of all its calls.

In a page a part stands between the lines `<!-- NAME: .. -->` and `<!-- end -->`. The picture is one part.
"""

from __future__ import annotations

import re
from typing import Callable, Iterator, Sequence

from source.findings import Finding
from source.promises import Row
from source.rattle import Comment, Function
from source.tree import Tree

NEED_WAITS = ("Cluster", "SiteQuery", "Epochs")


def crates(tree: Tree) -> dict[str, list[str]]:
    """The crates of the store in the order of crates.txt, each with those of them that it names."""
    named = {it.name: it.libraries for it in tree.crates.values() if it.is_of_store}
    return {name: [it for it in libraries if it in named] for name, libraries in named.items()}


def promise_lines(rows: Sequence[Row]) -> Iterator[str]:
    """The rows of the promises, crate by crate."""
    section = ""
    yield from ("|promise|carried by|", "|-|-|")
    for row in rows:
        if row.section != section:
            section = row.section
            yield f"|**`{section}`**||"
        yield f"|{row.promise[:1].upper()}{row.promise[1:]}|{row.contract}|"


def crate_lines(tree: Tree) -> Iterator[str]:
    yield from ("|crate|what it is|", "|-|-|")
    for crate in crates(tree):
        root = tree.root(crate)
        told = (root.text if root else "").partition("\n\n")[0].partition("\n//!\n")[0]
        text = " ".join(line[3:].strip() for line in told.split("\n") if line.startswith("//!"))
        sentence = re.split(r"\. |\.$", text)[0]
        yield f"|`{crate.removeprefix('ordup_')}`|{sentence}|"


def parts_of_name(name: str) -> str:
    """The words of a name: `MessageSet` and `message_set` are of two."""
    return " ".join(re.findall(r"[a-z]+|[A-Z][a-z]*", name)).lower()


def declared(tree: Tree, crate: str) -> list[set[str]]:
    """The public names that a crate declares, as their words: its own name, its types, and its calls and definitions."""
    files = tree.files(crate)
    types = [it.name for file in files for it in file.types if it.visibility == "pub" and it.kind in ("struct", "enum", "trait")]
    calls = [it.name for file in files for it in file.functions if it.visibility == "pub" and not it.modifiers]
    calls += [it.name for file in tree.specs(crate) for it in file.declared if it.is_public]
    return [set(map(parts_of_name, names)) for names in ([crate.removeprefix("ordup_")], types, calls)]


def glossary_lines(tree: Tree) -> Iterator[str]:
    """By crate the words of the glossary that name it, or a public type, call or definition of it, in this order. The lowest counts."""
    text = tree.read("docs/GLOSSARY.md").split("## Several machines")[0]
    names = {crate: declared(tree, crate) for crate in crates(tree)}
    places: dict[str, list[str]] = {}
    for word in [it for words in re.findall(r"^- \*\*([^*]+)\*\*", text, re.M) for it in words.split(", ")]:
        named = [crate for way in range(3) for crate in names if names[crate][way] & {word, word + "s"}]
        if named:
            places.setdefault(named[0], []).append(word)
    return iter(["|crate|words|", "|-|-|", *(f"|`{crate}`|{','.join(places[crate])}|" for crate in names if crate in places)])


def text_of_waits(comments: Sequence[Comment]) -> str:
    """What comments say of waits, on lines that go on up to a promise or the doc comment."""
    told = " ".join(it.text.strip(" /") for it in comments if not it.is_doc)
    return told.partition("promise")[0].strip().removeprefix("waits: ") if told.startswith("waits: ") else ""


def waits(tree: Tree) -> tuple[dict[str, str], list[Function]]:
    """The calls, or the types, that have a comment on waits, each with its text, and those of `NEED_WAITS` that have none."""
    files = [*tree.files("ordup_cluster"), *tree.files("ordup_epochs")]
    items = [it for file in files for it in file.items() if it.visibility == "pub"]
    said = {it.path: text_of_waits(it.comments) for it in items}
    missing = [it for it in items if isinstance(it, Function) and it.owner in NEED_WAITS and not said[it.path]]
    return {name: text for name, text in said.items() if text}, missing


def wrong_waits(tree: Tree) -> Iterator[Finding]:
    said, missing = waits(tree)
    for it in missing:
        yield Finding(it.where, f"no comment says for what {it.path} waits", "`// waits: LOCK | WAIT` above it says it")
    for name, text in said.items():
        if "|" not in text and "|" not in said.get(text.removeprefix("as "), ""):
            yield Finding("docs/SERVICE.md", f"{name} waits {text}, and no comment says for what that waits")


def wait_lines(tree: Tree) -> Iterator[str]:
    """The calls by what they wait for: first those that never wait."""
    said, _ = waits(tree)
    rows: dict[str, list[str]] = {}
    for name, text in sorted(said.items(), key=lambda it: it[1].startswith("as ") and "|" not in it[1]):
        rows.setdefault(name if "|" in text else text.removeprefix("as "), []).append(name)
    yield from ("| call | takes the lock | waits |", "|---|---|---|")
    for of in sorted(rows, key=lambda it: "never" not in said.get(it, "")):
        yield f"| {calls_by_type(rows[of])} | {said.get(of, '')} |"


def calls_by_type(names: Sequence[str]) -> str:
    """Names of calls, those of one type together, and of types."""
    types: dict[str, list[str]] = {}
    for name in names:
        owner, _, call = name.rpartition("::")
        types.setdefault(owner or name, []).extend([call] if owner else [])
    return ", ".join(f"all of `{it}`" if not calls else f"`{it}::{calls[0]}`" if len(calls) == 1 else f"`{it}::{{{', '.join(calls)}}}`"
                     for it, calls in types.items())


def parts(tree: Tree, rows: Sequence[Row]) -> dict[str, tuple[str, Callable[[], Iterator[str]]]]:
    """The printed part of each page: its name, and its lines."""
    return {"docs/PROOFS.md": ("promises", lambda: promise_lines(rows)), "docs/ARCHITECTURE.md": ("crates", lambda: crate_lines(tree)),
            "docs/GLOSSARY.md": ("places", lambda: glossary_lines(tree)), "docs/SERVICE.md": ("waits", lambda: wait_lines(tree))}
