"""The promises above the calls of the crates, the rows that they make in docs/PROOFS.md, and what shows them.

A promise is a comment above a function, a type or a law: the clauses, a colon, and the sentence, which goes on over the lines below it
that begin with `//`:

    // promise number added allowed refused err: just the given legal set is appended

A clause without a name goes by the definition that it cites, as in `promise Answers`, or by a case or a field of that: `Runs.Ok`,
`answer`. Without clauses the promise is that of the whole call. Without a colon the first sentence of the doc comment is the promise.
Another call of the same promise names the one that has the sentence, with a clause where that has several:

    // promise returned: as Log::append number

A row without a wrong body says '; no wrong body: ' and why, at the end of its sentence. A law needs none: its comment begins with
'A law'. Each law, a public function without a body and parameters, is in a row.
"""

from __future__ import annotations

import re
from typing import Iterator, NamedTuple, Sequence

from .findings import Finding
from .rattle import Comment, Function, Item
from .tree import Tree

NONE = "; no wrong body: "
MARK = re.compile(r"// promise((?: [\w.]+)*)(?:: (.*))?$")


class Mark(NamedTuple):
    """A promise above a call: where it stands, the crate, the call, the clauses, and its text if it has one."""

    where: str
    crate: str
    call: Item
    clauses: tuple[str, ...]
    text: str | None

    @property
    def of_another(self) -> list[str]:
        """The call with clauses of which it is, if it has no sentence of its own."""
        return self.text[3:].split() if self.text and self.text.startswith("as ") else []


class Row(NamedTuple):
    """A row: where its sentence stands, the crate, the promise, its contract as the page has it, the clauses of each call, and why it
    needs no wrong body, if it needs none."""

    where: str
    section: str
    promise: str
    contract: str
    calls: tuple[tuple[str, tuple[str, ...]], ...]
    needs_none: str

    def has(self, promise: tuple[str, Sequence[str]]) -> bool:
        """Whether it has a call with these clauses; without clauses, the call without any."""
        call, clauses = promise
        return any(call == its and (set(clauses) <= set(of) if clauses else not of) for its, of in self.calls)


def marks_in(comments: Sequence[Comment]) -> Iterator[tuple[int, tuple[str, ...], str | None]]:
    """The promises in comments that stand one below the other: of each its line, its clauses and its text."""
    found: list[tuple[int, tuple[str, ...], str | None]] = []
    goes_on = False
    for line, text in comments:
        mark = MARK.match(text)
        if mark:
            found.append((line, tuple(mark[1].split()), mark[2]))
        elif goes_on and text.startswith("// ") and found[-1][2] is not None:
            found[-1] = (*found[-1][:2], f"{found[-1][2]}{text[2:]}")
        goes_on = bool(mark) or goes_on and text.startswith("// ")
    return iter(found)


def first_sentence(doc: str) -> str:
    """The first sentence of a comment as a row has it: without 'A law: ', the point, and a great letter."""
    text = re.split(r"\. |\.$", doc.removeprefix("A law: "))[0]
    return text[:1].lower() + text[1:]


def is_law(item: Item) -> bool:
    return item.doc.startswith("A law")


def contracts(calls: Sequence[Mark]) -> Iterator[str]:
    """The calls with their clauses: those of one type with the same clauses together, a star at those that are not public, and laws after
    the others."""
    groups: dict[tuple[bool, str, tuple[str, ...], bool], list[str]] = {}
    for mark in calls:
        names = groups.setdefault((is_law(mark.call), mark.call.owner, mark.clauses, mark.call.is_public), [])
        names += [mark.call.name] if mark.call.name not in names else []
    for (of_law, owner, clauses, is_public), names in groups.items():
        if not of_law:
            name = names[0] if len(names) == 1 else "{" + ",".join(names) + "}"
            told = ",".join(clauses)
            yield f"`{owner}{'::' if owner else ''}{name}{' ' + told if told else ''}`" + ("" if is_public else "\\*")
    yield from (f"`{it}`" for (of_law, *_), names in groups.items() if of_law for it in names)


class Promises:
    """The rows that the comments of the crates make, and what is wrong with these."""

    def __init__(self, tree: Tree):
        self.wrong: list[Finding] = []
        self.defined = {name for crate in tree.crates for it in tree.specs(crate) for name in it.names()}
        self.words = tree.words_of_specs()
        self.marks = [mark for crate in tree.crates for mark in self.marks_of(tree, crate)]
        self.homes = [it for it in self.marks if not it.of_another]
        calls = [[it] for it in self.homes]
        for mark in self.marks:
            lacking = [it for it in mark.clauses if not self.has(mark.call, it)]
            self.wrong += [Finding(mark.where, f"`{mark.call.path}` has no clause `{it}`") for it in lacking]
            if mark.of_another:
                self.join(mark, calls)
        self.rows = [self.row(home, joined) for home, joined in zip(self.homes, calls)]

    def marks_of(self, tree: Tree, crate: str) -> Iterator[Mark]:
        for file in tree.files(crate):
            above: set[int] = set()
            for item in file.items():
                marks = list(marks_in(item.comments))
                above.update(line for line, *_ in marks)
                yield from (Mark(f"{file.path}:{line}", crate, item, clauses, text) for line, clauses, text in marks)
                if isinstance(item, Function) and item.is_law and not marks:
                    self.wrong.append(Finding(item.where, "this law is in no promise"))
            for line, text in file.comments:
                if text.startswith("// promise") and line not in above:
                    what = "stands above no function and no type" if MARK.match(text) else "has not its clauses and its sentence"
                    self.wrong.append(Finding(f"{file.path}:{line}", f"this promise {what}"))

    def has(self, item: Item, clause: str) -> bool:
        """Whether a call has the clause, or may cite a definition or a case of one that goes by this name."""
        if "." in clause or clause[0].isupper():
            return all(it in self.words for it in clause.split("."))
        return clause in self.defined or isinstance(item, Function) and clause in item.ensures()

    def join(self, mark: Mark, calls: list[list[Mark]]) -> None:
        """Adds a call to the row that it names."""
        call, *of = mark.of_another
        near = [it for it, home in enumerate(self.homes) if home.call.path == call and set(of) <= set(home.clauses)]
        exact = [it for it in near if set(of) == set(self.homes[it].clauses)]
        found = exact if len(exact) == 1 else near
        if len(found) == 1:
            calls[found[0]].append(mark)
        else:
            self.wrong.append(Finding(mark.where, f"{len(found)} promises are those of `{' '.join(mark.of_another)}`, and not one"))

    def row(self, home: Mark, calls: list[Mark]) -> Row:
        text, _, reason = (first_sentence(home.call.doc) if home.text is None else home.text).partition(NONE)
        if not text:
            self.wrong.append(Finding(home.where, "this promise has no sentence"))
        reason = reason or ("a law" if all(is_law(it.call) for it in calls) else "")
        return Row(home.where, home.crate, text, ", ".join(contracts(calls)), tuple((it.call.path, it.clauses) for it in calls), reason)


def promise_of(text: str) -> tuple[str, list[str]]:
    """A call with its clauses, with spaces or commas between them."""
    call, *clauses = re.split(r"[ ,]+", text.strip()) or [""]
    return call, clauses
