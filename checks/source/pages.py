"""The pages of the tree: their blocks, titles, links and tables, and the parts that are printed."""

from __future__ import annotations

import re
from pathlib import Path
from typing import Iterable, Iterator, NamedTuple

CODE = re.compile(r"`([^`\n]*)`")
LINK = re.compile(r"\]\(([^)#\s]*)(?:#([^)\s]*))?\)")
BEGINS = "<!-- {}: checks/model --print writes this part -->"
ENDS = "<!-- end -->"


class Command(NamedTuple):
    """A command of a block that is typed: its line, itself, and what comes of it."""

    line: int
    text: str
    answers: list[str]


class Block(NamedTuple):
    """A block between fences: its page, the word behind the first one, the number of the line after it, and its lines."""

    page: str
    word: str
    line: int
    lines: tuple[str, ...]

    @property
    def where(self) -> str:
        return f"{self.page}:{self.line}"

    @property
    def text(self) -> str:
        return "".join(f"{line}\n" for line in self.lines)

    def commands(self) -> list[Command]:
        """The commands, which begin with `$ `, each with the lines below it."""
        found: list[Command] = []
        for number, line in enumerate(self.lines, self.line):
            if line.startswith("$ "):
                found.append(Command(number, line[2:], []))
            elif found:
                found[-1].answers.append(line)
        return found


class Row(NamedTuple):
    """A row of a table, with the title above it."""

    line: int
    title: str
    cells: tuple[str, ...]


class Page:
    def __init__(self, top: Path, name: str):
        self.top, self.name = top, name
        self.text = (top / name).read_text(encoding="utf-8")
        self.lines = self.text.split("\n")
        self.blocks: list[Block] = []
        self.titles: dict[int, str] = {}
        # The lines outside of blocks, by their numbers.
        self.bare: dict[int, str] = {}
        # Where a block begins that is indented, or has no end.
        self.without_fence: list[int] = []
        block: Block | None = None
        for number, (above, line) in enumerate(zip(["", *self.lines], self.lines), 1):
            if block and line.strip() == "```":
                self.blocks.append(block)
                block = None
            elif block:
                block = block._replace(lines=(*block.lines, line))
            elif line.lstrip().startswith("```"):
                block = Block(name, line.strip()[3:], number + 1, ())
            else:
                self.bare[number] = line
                if line.startswith("#"):
                    self.titles[number] = line
                if line.startswith(("    ", "\t")) and not above.strip():
                    self.without_fence.append(number)
        self.without_fence += [block.line] if block else []

    def of_word(self, word: str) -> list[Block]:
        return [it for it in self.blocks if it.word == word]

    def below(self, title: str) -> range:
        """The numbers of the lines below a title, up to the next one of its level or above; of all lines below no title."""
        first = next(number for number, it in self.titles.items() if it == title) if title else 0
        ends = [number for number, it in self.titles.items() if title and number > first and len(it.split()[0]) <= len(title.split()[0])]
        return range(first + 1, min(ends, default=len(self.lines) + 1))

    def blocks_below(self, title: str) -> list[Block]:
        return [it for it in self.blocks if it.line in self.below(title)]

    def text_below(self, title: str) -> str:
        """The lines below a title that stand outside of blocks."""
        return "".join(f"{line}\n" for number, line in self.bare.items() if number in self.below(title))

    def anchors(self) -> set[str]:
        """The names by which links lead to the titles."""
        return {re.sub(r"[^\w\- ]", "", it.lstrip("#").strip().lower()).replace(" ", "-") for it in self.titles.values()}

    def links(self) -> Iterator[tuple[int, str, str]]:
        """Each link to a file of the tree or to a title: its line, the file and the title."""
        for number, line in self.bare.items():
            yield from ((number, name, title or "") for name, title in LINK.findall(line) if "://" not in name)

    def rows(self) -> Iterator[Row]:
        """The rows of all tables."""
        title = ""
        for number, line in self.bare.items():
            title = self.titles.get(number, title)
            if line.strip().startswith("|"):
                yield Row(number, title.lstrip("# "), tuple(cells_of(line)))

    def rows_below(self, title: str) -> list[Row]:
        """The rows of all tables below a title, up to the next one of its level or above."""
        return [it for it in self.rows() if it.line in self.below(title)]

    def with_part(self, name: str, lines: Iterable[str]) -> str | None:
        """The text of the page with these lines in a part that is printed; None where it has no place for the part."""
        begin = BEGINS.format(name) + "\n"
        above, found, below = self.text.partition(begin)
        if not found or begin in below or ENDS + "\n" not in below:
            return None
        return f"{above}{begin}\n" + "\n".join(lines) + f"\n\n{ENDS}\n" + below.split(ENDS + "\n", 1)[1]


def cells_of(line: str) -> list[str]:
    """The cells of a row of a table."""
    return [it.strip() for it in re.split(r"(?<!\\)\|", line.strip())[1:-1]]


def all_pages(top: Path) -> list[Page]:
    return [Page(top, str(it.relative_to(top))) for depth in ("*.md", "*/*.md", "*/*/*.md") for it in sorted(top.glob(depth))]


def wrong_links(top: Path, pages: list[Page]) -> Iterator[tuple[str, str]]:
    """Each link that leads nowhere, with where it stands."""
    by_path = {top / page.name: page for page in pages}
    for page in pages:
        for number, name, title in page.links():
            goal = (top / page.name).parent.joinpath(name).resolve() if name else top / page.name
            if not goal.exists() or title and (goal not in by_path or title not in by_path[goal].anchors()):
                yield f"{page.name}:{number}", f"{name}{'#' * bool(title)}{title}"
