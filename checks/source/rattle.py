"""A file of Rattle: its functions with their clauses, its types, what it imports, and its modules."""

from __future__ import annotations

import re
from dataclasses import dataclass, field
from typing import NamedTuple

from .tokens import Token, pairs_of, read_tokens, without_comments

MODIFIERS = {"const", "unsafe", "final", "async", "extern"}
CLAUSES = {"requires", "ensures"}


class Comment(NamedTuple):
    """A comment of one line, or of one block, with the line that it begins on."""

    line: int
    text: str

    @property
    def is_doc(self) -> bool:
        return self.text.startswith("///")


class Clause(NamedTuple):
    """A clause: `requires` or `ensures`, its name if it has one, and what it states."""

    kind: str
    name: str
    text: str


class Parameter(NamedTuple):
    """A parameter. One without a type is the receiver, whose form is its name."""

    name: str
    type: str


@dataclass
class Item:
    """What all have that stand at the top of a file, or in a type."""

    file: str
    line: int
    # `pub`, `pub(crate)` or nothing.
    visibility: str
    comments: tuple[Comment, ...]
    attributes: tuple[str, ...]
    # The type or the trait that it stands in, by its bare name, and the trait whose calls these are.
    owner: str
    trait: str
    name: str = ""

    @property
    def where(self) -> str:
        return f"{self.file}:{self.line}"

    @property
    def is_public(self) -> bool:
        """Whether others may name it: a call of a trait is as public as that."""
        return self.visibility == "pub" or bool(self.trait)

    @property
    def path(self) -> str:
        """Its name, behind that of its type."""
        return f"{self.owner}::{self.name}" if self.owner else self.name

    @property
    def doc(self) -> str:
        return " ".join(it.text[3:].strip() for it in self.comments if it.is_doc)


@dataclass
class Function(Item):
    """A function. It has no body where a trait only declares it, and an empty one where it is a law or a fact for proofs."""

    modifiers: tuple[str, ...] = ()
    generics: str = ""
    parameters: tuple[Parameter, ...] = ()
    result: str = ""
    clauses: list[Clause] = field(default_factory=list)
    body: str | None = None
    last_line: int = 0

    @property
    def is_test(self) -> bool:
        return "test" in self.attributes

    @property
    def is_empty(self) -> bool:
        return self.body is not None and not self.body.strip()

    @property
    def is_law(self) -> bool:
        """Whether it only states something: it is public and of no type, and has neither parameters nor a body."""
        return self.visibility == "pub" and not self.owner and not self.parameters and self.is_empty

    @property
    def has_self(self) -> bool:
        return bool(self.parameters and re.search(r"\bself\b", self.parameters[0].name))

    def ensures(self) -> set[str]:
        """The names of what it ensures."""
        return {it.name for it in self.clauses if it.kind == "ensures" and it.name}


@dataclass
class Type(Item):
    """What is declared and is no function: its kind is `struct`, `enum`, `union`, `trait`, `const`, `static` or `type`."""

    kind: str = ""
    # Of a struct or an enum what stands in its brackets, and the bracket, if it has any.
    bracket: str = ""
    body: str = ""


class Use(NamedTuple):
    """An import of one name: by which words (`pub`, `ghost`), from which module, and under which name here; `*` for all of it."""

    words: tuple[str, ...]
    module: str
    name: str
    here: str


class Module(NamedTuple):
    name: str
    visibility: str


@dataclass
class File:
    """A file of Rattle. `code` is its text without comments, and `bare` also without imports of definitions."""

    crate: str
    path: str
    module: str
    text: str
    code: str = ""
    bare: str = ""
    comments: list[Comment] = field(default_factory=list)
    functions: list[Function] = field(default_factory=list)
    types: list[Type] = field(default_factory=list)
    uses: list[Use] = field(default_factory=list)
    modules: list[Module] = field(default_factory=list)

    def items(self) -> list[Item]:
        """Functions and types in the order of their lines."""
        return sorted([*self.functions, *self.types], key=lambda it: it.line)


def split(text: str, at: str = ",") -> list[str]:
    """The parts of a list, which signs divide. A part may have them in brackets."""
    parts, depth = [""], 0
    for index, sign in enumerate(text):
        depth += (sign in "([{<") - (sign in ")]}" or sign == ">" and text[index - 1 : index] not in ("-", "="))
        if sign == at and not depth:
            parts.append("")
        else:
            parts[-1] += sign
    return [" ".join(part.split()) for part in parts if part.strip()]


class Reader:
    """Reads the items of one file, one sign after the other."""

    def __init__(self, file: File):
        self.file = file
        everything = read_tokens(file.text)
        file.code = without_comments(file.text, everything)
        file.comments = [Comment(it.line, it.text) for it in everything if it.kind == "comment"]
        ends = {it.last_line for it in everything if it.kind != "comment"}
        # Comments that have lines of their own, by the lines that they end on.
        self.comments: dict[int, Token] = {it.last_line: it for it in everything if it.kind == "comment" and it.line not in ends}
        self.tokens = [it for it in everything if it.kind != "comment"] + [Token("end", "", len(file.text), 1 + file.text.count("\n"))]
        self.pairs = pairs_of(self.tokens)
        self.at = 0
        self.imports: list[tuple[int, int]] = []

    def read(self) -> None:
        self.read_items(len(self.tokens) - 1, "", "")
        parts, place = [], 0
        for start, end in self.imports:
            parts += [self.file.code[place:start], re.sub(r"[^\n]", " ", self.file.code[start:end])]
            place = end
        self.file.bare = "".join([*parts, self.file.code[place:]])

    # ---- signs

    def see(self, *texts: str) -> bool:
        return self.tokens[self.at].text in texts

    def take(self) -> str:
        text = self.tokens[self.at].text
        self.go_to(self.at + 1)
        return text

    def go_to(self, index: int) -> None:
        """Goes on behind a sign, but never beyond the end of the file, where some bracket may be open."""
        self.at = min(index, len(self.tokens) - 1)

    def text_between(self, first: int, after: int) -> str:
        """The text without comments from a sign up to another one."""
        if first >= after:
            return ""
        return self.file.code[self.tokens[first].start : self.tokens[after - 1].end]

    def take_brackets(self) -> str:
        """What stands in the brackets that begin here."""
        first = self.at
        self.go_to(self.pairs.get(self.at, self.at) + 1)
        return self.file.code[self.tokens[first].end : self.tokens[self.at - 1].start]

    def take_until(self, *texts: str) -> str:
        """What stands before one of these, outside of brackets. It does not take that."""
        first = self.at
        while self.tokens[self.at].kind != "end" and not self.see(*texts):
            self.go_to(self.pairs.get(self.at, self.at) + 1)
        return self.text_between(first, self.at)

    def take_generics(self) -> str:
        if not self.see("<"):
            return ""
        first, depth = self.at + 1, 0
        while self.tokens[self.at].kind != "end":
            depth += self.see("<") - self.see(">")
            self.go_to(self.pairs.get(self.at, self.at) + 1)
            if not depth:
                break
        return self.text_between(first, self.at - 1)

    # ---- items

    def read_items(self, end: int, owner: str, trait: str) -> None:
        while self.at < end:
            first = self.at
            self.read_item(owner, trait)
            self.go_to(max(self.at, first + 1))

    def above(self, line: int, attributes: dict[int, int]) -> tuple[Comment, ...]:
        """The comments right above a line, between which attributes may stand: each of these from its last line to its first."""
        found: list[Comment] = []
        while line - 1 in self.comments or line - 1 in attributes:
            comment = self.comments.get(line - 1)
            line = comment.line if comment else attributes[line - 1]
            found += [Comment(comment.line, comment.text)] if comment else []
        return tuple(reversed(found))

    def read_item(self, owner: str, trait: str) -> None:
        attributes, lines = [], {}
        while self.see("#"):
            begin = self.tokens[self.at].line
            self.take()
            if self.see("!"):
                self.take()
            if not self.see("["):
                return
            attributes.append(" ".join(self.take_brackets().split()))
            lines[self.tokens[self.at - 1].line] = begin
        start = self.at
        visibility = self.take() if self.see("pub") else ""
        if visibility and self.see("("):
            visibility += f"({self.take_brackets()})"
        modifiers = self.take_modifiers()
        comments = self.above(self.tokens[start].line, lines)
        head = (self.file.path, self.tokens[start].line, visibility, comments, tuple(attributes), owner, trait)
        if self.see("fn"):
            self.read_function(Function(*head, modifiers=modifiers))
        elif self.see("struct", "enum", "union", "trait", "const", "static", "type"):
            self.read_type(Type(*head))
        elif self.see("impl"):
            self.read_impl()
        elif self.see("mod"):
            self.read_module(visibility)
        elif self.see("use", "ghost"):
            self.read_use(visibility, start)
        else:
            self.take_until(";", "{")
            if self.see("{"):
                self.take_brackets()

    def take_modifiers(self) -> tuple[str, ...]:
        """The words between the visibility and `fn`, `impl` or `trait`. A `const` that is an item is none."""
        place, found = self.at, []
        while self.tokens[place].text in MODIFIERS or self.tokens[place].kind == "string":
            found.append(self.tokens[place].text)
            place += 1
        if self.tokens[place].text not in ("fn", "impl", "trait"):
            return ()
        self.at = place
        return tuple(found)

    def read_function(self, it: Function) -> None:
        self.take()
        it.name, it.generics = self.take(), self.take_generics()
        it.parameters = tuple(parameter(part) for part in split(self.take_brackets()))
        if self.see("->"):
            self.take()
            it.result = " ".join(self.take_until("{", ";", "where", *CLAUSES).split())
        while self.see("where", *CLAUSES):
            kind = self.take()
            if kind == "where":
                self.take_until("{", ";", *CLAUSES)
            else:
                name = "" if self.see("{") else self.take()
                it.clauses.append(Clause(kind, name, " ".join(self.take_brackets().split())))
        if self.see("{"):
            it.body = self.take_brackets()
        it.last_line = self.tokens[self.at - 1].line
        self.file.functions.append(it)

    def read_type(self, it: Type) -> None:
        it.kind, it.name = self.take(), self.take()
        self.file.types.append(it)
        if it.kind in ("const", "static", "type"):
            self.take_until(";")
            return
        self.take_generics()
        self.take_until("{", ";", *"(" * (it.kind != "trait"))
        if self.see("{", "("):
            it.bracket = self.tokens[self.at].text
            if it.kind == "trait":
                self.read_inside(it.name, it.name)
            else:
                it.body = self.take_brackets()

    def read_inside(self, owner: str, trait: str) -> None:
        """The items in the brackets that begin here."""
        last = self.pairs.get(self.at, self.at)
        self.take()
        self.read_items(last, owner, trait)
        self.go_to(last + 1)

    def read_impl(self) -> None:
        self.take()
        self.take_generics()
        head, trait = self.take_until("{", "for", ";"), ""
        if self.see("for"):
            self.take()
            trait, head = head, self.take_until("{", ";")
        self.read_inside(bare_name(head), bare_name(trait))

    def read_module(self, visibility: str) -> None:
        self.take()
        self.file.modules.append(Module(self.take(), visibility))
        if self.see("{"):
            self.read_inside("", "")

    def read_use(self, visibility: str, start: int) -> None:
        words = [visibility] if visibility else []
        while self.see("ghost"):
            words.append(self.take())
        if not self.see("use"):
            self.take_until(";")
            self.take()
            return
        self.take()
        path = self.take_until(";")
        self.take()
        if "ghost" in words:
            self.imports.append((self.tokens[start].start, self.tokens[self.at - 1].end))
        self.file.uses += names_of_use(tuple(words), " ".join(path.split()))


def names_of_use(words: tuple[str, ...], path: str) -> list[Use]:
    """The imports of a path, `crate::a::{b, c as d}` or, of definitions, `Rattle.crate.specs.File.{a, b}`."""
    dot = "." if "ghost" in words else "::"
    head, bracket, rest = path.partition("{")
    if not bracket:
        head, _, here = path.partition(" as ")
        module, _, name = head.rpartition(dot)
        return [Use(words, module, name, here or name)]
    found = []
    inside = rest.rpartition("}")[0]
    for part in split(inside) if dot == "::" else filter(None, map(str.strip, inside.split(","))):
        if "{" in part and dot == "::":
            found += names_of_use(words, head + part)
            continue
        name, _, here = part.partition(" as ")
        *inner, name = name.split("::") if dot == "::" else [name]
        found.append(Use(words, dot.join([head[: -len(dot)], *inner]), name, here or name))
    return found


def bare_name(text: str) -> str:
    """The name of a type without its path, its lifetimes and what it is over."""
    found = re.match(r"(?:[&!*]|'\w+|mut\b|dyn\b|\s)*((?:\w+::)*)(\w+)", text)
    return found[2] if found else ""


def parameter(text: str) -> Parameter:
    """A parameter: a receiver has its form for a name, and its type behind a colon if that is written."""
    name, colon, kind = text.partition(": ")
    return Parameter(name, kind) if colon else Parameter(text, "")


def read_file(crate: str, path: str, module: str, text: str) -> File:
    file = File(crate, path, module, text)
    Reader(file).read()
    return file
