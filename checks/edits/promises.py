"""Which promise of the crates each wrong body breaks. The promises themselves are those of checks/source/promises.py.

The first line of an edit names a call with one clause or more of its row, or several such with '; ' between them:

    promise: Primary::settle first

The edit belongs to each row that has the call with all of these clauses. A call without clauses is one whose row names none.
"""

from __future__ import annotations

import sys
from pathlib import Path
from typing import Sequence

sys.path.insert(0, str(Path(__file__).resolve().parent.parent))

from source.promises import NONE, Promises, promise_of
from source.tree import Tree


def read_promises(file: str) -> list[tuple[str, list[str]]]:
    """The calls, each with its clauses, that the first line of an edit names; none where it has no such line."""
    with open(file, encoding="utf-8") as it:
        word, _, text = it.readline().rstrip("\n").partition(" ")
    return [promise_of(it) for it in text.split(";") if it.split()] if word == "promise:" else []


def faults(top: str, files: Sequence[str], is_all: bool) -> list[str]:
    """What is wrong with these edits and with the rows, a text for each. The rows are looked at where these are all edits."""
    promises = Promises(Tree(Path(top)))
    told = [str(it) for it in promises.wrong] if is_all else []
    used: set[str] = set()
    for file in files:
        named, name = read_promises(file), file[len(top) + 1:]
        if not named:
            told.append(f"{name}: its first line is not 'promise: CALL [CLAUSE ..]'")
        for promise in named:
            mine = {it.where for it in promises.rows if it.has(promise)}
            used |= mine
            if not mine:
                told.append(f"{name}: no promise of the crates has `{' '.join([promise[0], *promise[1]])}`")
    for row in promises.rows if is_all else []:
        if row.where in used and row.needs_none:
            told.append(f"{row.where}: this promise says that it has no wrong body, and has some")
        if row.where not in used and not row.needs_none:
            told.append(f"{row.where}: no wrong body names {row.contract}, and the promise does not say why there is none")
    return told if promises.rows else ["there is no promise in crates/*/src"]


def print_table(top: str, files: Sequence[str], is_all: bool) -> None:
    """Prints each promise with its wrong bodies, those of must-fail/ with a star; of some crates alone the rows that they have."""
    edits = []
    for file in files:
        star = "*" if "/must-fail/" in file else ""
        edits.append((file.split("/")[-1][: -len(".edit")] + star, read_promises(file)))
    edits.sort()
    section = ""
    for row in Promises(Tree(Path(top))).rows:
        names = [name for name, named in edits if any(row.has(it) for it in named)]
        if not names and not is_all:
            continue
        if section != row.section:
            section = row.section
            print(f"\n{section}")
        print(f"\n{row.promise}\n    {row.contract}")
        print(f"    {', '.join(names) or NONE[2:] + row.needs_none}")
