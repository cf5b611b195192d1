"""How a check says what is wrong: `file:line: what; how to mend it`, on standard error, and last how many things it looked at."""

from __future__ import annotations

import sys
from typing import Iterable, NamedTuple


class Finding(NamedTuple):
    """Something wrong: where it stands (`file` or `file:line`), what it is, and how to mend it if that is not plain."""

    where: str
    what: str
    mend: str = ""

    def __str__(self) -> str:
        return f"{self.where}: {self.what}" + (f"; {self.mend}" if self.mend else "")


def tell(findings: Iterable[Finding], counted: str, *counts: int) -> int:
    """Tells what is wrong, and on the last line of standard output what was looked at. The status is 0 where nothing is wrong and
    nothing of what was counted is 0."""
    wrong = list(findings)
    for it in wrong:
        print(it, file=sys.stderr)
    print(counted.format(*counts, wrong=len(wrong) or "nothing"))
    return 1 if wrong or not all(counts) else 0


def words_of(usage: str, *known: str) -> str:
    """The one word that a check was given, or nothing; it ends where that is none of these."""
    words = sys.argv[1:]
    if words and (len(words) > 1 or words[0] not in known):
        sys.exit(f"usage: {usage}")
    return words[0] if words else ""
