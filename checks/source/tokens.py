"""The signs of a text in Rattle. A name may have primes, as in the definitions that clauses cite."""

from __future__ import annotations

import re
from typing import NamedTuple

SIGN = re.compile(
    r"""(?P<comment>//[^\n]*)
      | (?P<block>/\*)
      | (?P<raw>[bc]?r(?P<marks>\#*)".*?"(?P=marks))
      | (?P<string>[bc]?"(?:\\.|[^"\\])*")
      | (?P<char>b?'(?:\\(?:u\{[^}]*\}|x..|.)|[^\\'\n])')
      | (?P<lifetime>'[^\W\d]\w*)
      | (?P<name>[^\W\d][\w']*)
      | (?P<number>\d\w*(?:\.\d\w*)?)
      | (?P<sign>->|=>|::|\S)""",
    re.X | re.S,
)
BLOCK_ENDS = re.compile(r"/\*|\*/")
PAIRS = {"(": ")", "[": "]", "{": "}"}


class Token(NamedTuple):
    """A sign: what it is, its text, where it stands in the text, and its line, from 1."""

    kind: str
    text: str
    start: int
    line: int

    @property
    def end(self) -> int:
        return self.start + len(self.text)

    @property
    def last_line(self) -> int:
        return self.line + self.text.count("\n")


def end_of_block(text: str, start: int) -> int:
    """Where a comment `/* .. */` ends, in which others may stand."""
    depth, place = 0, start
    while True:
        found = BLOCK_ENDS.search(text, place)
        if not found:
            return len(text)
        depth += 1 if found[0] == "/*" else -1
        place = found.end()
        if not depth:
            return place


def read_tokens(text: str) -> list[Token]:
    tokens: list[Token] = []
    place, line, counted = 0, 1, 0
    while True:
        found = SIGN.search(text, place)
        if not found:
            return tokens
        start, place = found.start(), found.end()
        kind = found.lastgroup or "sign"
        if kind == "block":
            place = end_of_block(text, start)
        line, counted = line + text.count("\n", counted, start), start
        kind = {"block": "comment", "raw": "string", "marks": "string"}.get(kind, kind)
        tokens.append(Token(kind, text[start:place], start, line))


def pairs_of(tokens: list[Token]) -> dict[int, int]:
    """The index of the closing bracket of each opening one. One that nothing closes goes up to the end."""
    open_ones: list[int] = []
    found: dict[int, int] = {}
    for index, token in enumerate(tokens):
        if token.kind == "sign" and token.text in PAIRS:
            open_ones.append(index)
        elif token.kind == "sign" and open_ones and token.text == PAIRS[tokens[open_ones[-1]].text]:
            found[open_ones.pop()] = index
    found.update((index, len(tokens) - 1) for index in open_ones)
    return found


def without_comments(text: str, tokens: list[Token]) -> str:
    """A text with blanks in place of its comments."""
    parts, place = [], 0
    for token in tokens:
        if token.kind == "comment":
            parts += [text[place : token.start], re.sub(r"[^\n]", " ", token.text)]
            place = token.end
    return "".join([*parts, text[place:]])
