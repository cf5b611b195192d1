"""The examples of README.md and docs/EMBEDDING.md, and what stands beside them, for the checks that build them."""

from __future__ import annotations

import re
import sys
from pathlib import Path
from typing import Callable

TOP = Path(__file__).resolve().parent.parent
sys.path.append(str(TOP / "checks"))

from source.pages import Block, Page

PAGE, OF_LINES = "docs/EMBEDDING.md", "## A store of lines"


def block_of(language: str, page: str, title: str) -> Block:
    """The one block of a language below a title."""
    found = [it for it in Page(TOP, page).blocks_below(title) if it.word == language]
    if len(found) != 1:
        raise ValueError(f"{page} has {len(found)} blocks of {language} below {title}, and not one")
    return found[0]


def after(language: str, word: str, others: tuple[str, ...]) -> Block:
    """The block of a word that belongs to the example of a language: between the two stand none but those of others."""
    source = block_of(language, PAGE, OF_LINES)
    behind = [it for it in Page(TOP, PAGE).blocks_below(OF_LINES) if it.line > source.line and it.word not in others]
    if not behind or behind[0].word != word:
        raise ValueError(f"{PAGE} has no block of {word} for the example in {language}")
    return behind[0]


def only(pattern: str, page: str = PAGE, title: str = "") -> str:
    """What a page has once by a pattern in its text, below a title."""
    found: list[str] = re.findall(pattern, Page(TOP, page).text_below(title))
    if len(found) != 1:
        raise ValueError(f"{page} has {len(found)} times {pattern}, and not once")
    return found[0]


def example(language: str) -> tuple[str, str]:
    """The example of a store of lines in a language, and what it prints: the block after it."""
    return block_of(language, PAGE, OF_LINES).text, after(language, "text", ("proof",)).text


def of_threads(language: str) -> tuple[str, str]:
    """The example of a cluster in a language, and what it prints."""
    where, told = ((PAGE, "## A cluster"), "Each prints") if language in ("c", "go") else (("README.md", "## From threads"), "each printing")
    return block_of(language, *where).text, only(rf"{told} (\d+)", *where) + "\n"


def command(language: str) -> str:
    """The command by which the page runs the example of a language, which stands between it and what it prints."""
    return after(language, "proof", ()).text


def quoted(begin: str) -> str:
    """The words in backquotes on the page that begin so."""
    return only(rf"`({re.escape(begin)}[^`\n]*)`")


def lay(language: str, folder: Path, clients: str, example: Callable[[str], tuple[str, str]] = example) -> str:
    """Lays the example into a folder, as a crate of Rust or a module of Go, with the way from there to clients/. Answers what it prints."""
    source, printed = example(language)
    needs, required, replaced = quoted("ordup = {"), quoted("require ordup"), quoted("replace ordup")
    files = {
        "rust": {"src/main.rs": source, "Cargo.toml": '[package]\nname = "shop"\nversion = "0.1.0"\nedition = "2021"\n\n[dependencies]\n'
                                                      f"{needs}\n"},
        "go": {"main.go": source, "go.mod": f"module shop\n\ngo 1.19\n\n{required}\n\n{replaced}\n"},
        "c": {"shop.c": source},
        "python": {"shop.py": source},
    }
    for name, text in files[language].items():
        if name in ("Cargo.toml", "go.mod"):
            text = text.replace("../ordup/clients", clients)
        (folder / name).parent.mkdir(parents=True, exist_ok=True)
        (folder / name).write_text(text, encoding="utf-8")
    return printed
