"""Lines, what their answers say, and the exceptions."""

from __future__ import annotations

import functools
import re
from dataclasses import dataclass, field
from typing import Callable, Dict, List, Literal, Mapping, Sequence, Tuple, Union

__all__ = [
    "Abandoned", "Acked", "Answer", "Applied", "BadAnswer", "BadLine", "Begun", "Certified", "Change", "Declared", "Ended",
    "Error", "Malformed", "MalformedInSeries", "No", "NoInSeries", "NoMemory", "OnlyInProcess", "Outcome", "ProgramEnded",
    "Proposed", "Read", "Refused", "Relimited", "Reported", "Round", "Scope", "Sent", "SeriesVerdict", "Settled", "Shown",
    "Started", "TimedOut", "Unanswered", "Verdict", "Waiting", "Word", "Yes", "line",
]

# A change of an object: `('add', -5)`, or `('take', 'till')` for the value of another object. All changes of an update read the values
# before it.
Change = Union[Tuple[Literal["add", "set", "mul", "max", "min"], int], Tuple[Literal["take"], str]]
# What a limit weighs: `('object', 'tea')`, `('group', 'drinks')`, `'all'` or `'count'`.
Scope = Union[Tuple[Literal["object", "group"], str], Literal["all", "count"]]
Word = Union[str, int, Tuple[str, str, Union[str, int]]]

_MOST_BYTES = 4096  # of a line, without its end
_LINE = re.compile(r"(?!#) *[!-~][ -~]*")
_NAME = re.compile(r"[a-z][a-z0-9_]{0,15}")
# A comment or a blank line, with the LF before it. A longer one is a line like any other, which is refused.
_WITHOUT_ANSWER = re.compile(rb"\n(?:#[^\n]{0,%d}| {0,%d})(?=\n)" % (_MOST_BYTES - 1, _MOST_BYTES))


class Error(Exception):
    """What this module raises. Beside it there are the usual errors of a program or a library that cannot be started."""


class BadLine(Error, ValueError):
    """A text that is no command, or a name that is none. Nothing was sent."""


class Refused(Error):
    """The store's answer `refused NUMBER NAME` to a line. After it all is as before. FORMATS has the numbers, 1 to 26, and their names."""

    def __init__(self, number: int, name: str, line: str) -> None:
        super().__init__(number, name, line)
        self.number = number
        self.name = name
        self.line = line

    def __str__(self) -> str:
        return f"{self.line}: refused {self.number} {self.name}"


class BadAnswer(Error):
    """The program said what is no answer to the line. So it is another program."""


class OnlyInProcess(Error):
    """The store is behind a pipe, and only one in the process does this. A job of the program does it from the script."""


class Unanswered(Error):
    """Not all lines were answered.

    `answered` has the answers that came, in order, and `unanswered` the lines that have none. `status` is the exit status of
    the program, or minus the number of the signal that ended it. FORMATS says what it means; standard error says more.
    """

    def __init__(self, status: int, answers: bytes, lines: Sequence[str]) -> None:
        super().__init__(status, answers, lines)
        self.status = status
        self._answers, self._lines, self._count = answers, lines, answers.count(b"\n")
        self.unanswered = lines[self._count :]

    @functools.cached_property
    def answered(self) -> List[Outcome]:
        # Not read before: an answer may be long, and the time limit is over.
        return outcomes_of(self._answers, self._lines)

    def __str__(self) -> str:
        where = f", from {quoted(self.unanswered[0])} on" if self.unanswered else ""
        return f"status {self.status}: {self._count} lines were answered, and {len(self.unanswered)} were not{where}"


class ProgramEnded(Unanswered):
    """The program ended, or the store was closed, before all lines were answered. The store is gone, and so is what it was told.

    Each later command raises this too. In the process the status is 0.
    """


class TimedOut(ProgramEnded):
    """The call took longer than its time limit. The store was closed."""


class NoMemory(Unanswered):
    """Memory was refused to a store in the process. The lines in `unanswered` changed nothing, and the store goes on.

    The status is 4, with which the program behind a pipe ends for want of memory.
    """


class Answer:
    """An answer that begins with `ok`. A place is the number of an update in the log, from 1."""


@dataclass(frozen=True)
class Declared(Answer):
    """An object, a group, a site or a limit was declared. The name of a limit is that of its site."""

    kind: str  # 'object', 'group', 'site' or 'limit'
    name: str


@dataclass(frozen=True)
class Started(Answer):
    """The store is started."""


@dataclass(frozen=True)
class Proposed(Answer):
    """The update has this place."""

    place: int


@dataclass(frozen=True)
class Sent(Answer):
    """The update at this place is in the feed of the site."""

    site: str
    place: int


@dataclass(frozen=True)
class Applied(Answer):
    """The site applied the update at this place."""

    site: str
    place: int


@dataclass(frozen=True)
class Reported(Answer):
    """The primary goes by so many updates that the site has applied."""

    site: str
    applied: int


@dataclass(frozen=True)
class Settled(Answer):
    """What became of the head, at this place: it is `Acked`, or waits for these sites (`Round`, and later `Waiting`)."""

    place: int
    sites: Tuple[str, ...] = ()


class Acked(Settled):
    """The head is acknowledged."""


class Round(Settled):
    """The head has a forced round: it waits for the reports of these sites."""


class Waiting(Settled):
    """The head still waits for these sites."""


@dataclass(frozen=True)
class Begun(Answer):
    """The query began. Its reference is this place: so many updates were acknowledged then."""

    query: str
    place: int


@dataclass(frozen=True)
class Read(Answer):
    """The value at the query's site, no further than `imported` from the one at the query's reference.

    `total` is what all its reads imported, in the unit of the values.
    """

    query: str
    object: str
    value: int
    imported: int
    total: int


@dataclass(frozen=True)
class Ended(Answer):
    """The `sum` of the values of all `reads`, no further than `total` from the sum at `place`, the query's reference.

    Refused reads do not count.
    """

    query: str
    place: int
    sum: int
    total: int
    reads: int


@dataclass(frozen=True)
class Abandoned(Answer):
    """The query ended without its sum."""

    query: str


@dataclass(frozen=True)
class Shown(Answer):
    """How many updates were `sent` to a site, `applied` by it and last `reported`, and its values.

    `rounds` is how many forced rounds it had, with one that is waited for.
    """

    site: str
    sent: int
    applied: int
    reported: int
    rounds: int
    values: Mapping[str, int] = field(hash=False)


@dataclass(frozen=True)
class Certified(Answer):
    """How many forced rounds a site had: no schedule that keeps its limits has fewer. There is a window for each.

    A window (a, b) is of the updates a + 1 to b, which pass a limit alone, and no two windows share an update.
    """

    site: str
    rounds: int
    windows: Tuple[Tuple[int, int], ...]


@dataclass(frozen=True)
class Relimited(Answer):
    """The limit is in force from this place on."""

    site: str
    place: int


Outcome = Union[Answer, Refused]


@dataclass(frozen=True)
class Yes:
    """The record or the series is valid, and no schedule that keeps the site's limits has fewer than these rounds."""

    rounds: int


@dataclass(frozen=True)
class No:
    """There is a reason against the record, in this row, from 1. FORMATS has the reasons."""

    row: int
    reason: str


@dataclass(frozen=True)
class Malformed:
    """The text is no record: this row is the first that breaks a rule of the format."""

    row: int


@dataclass(frozen=True)
class NoInSeries:
    """There is a reason against this record of a series, in this row of it."""

    record: int
    row: int
    reason: str


@dataclass(frozen=True)
class MalformedInSeries:
    """The text is no series: this row of this record is the first that breaks a rule of the format."""

    record: int
    row: int


Verdict = Union[Yes, No, Malformed]
SeriesVerdict = Union[Yes, NoInSeries, MalformedInSeries]


def _shown(words: List[str]) -> Shown:
    values = (word.split("=") for word in words[9:])
    return Shown(words[0], int(words[2]), int(words[4]), int(words[6]), int(words[8]), {x: int(v) for x, v in values})


def _certified(words: List[str]) -> Certified:
    windows = (word.split("-") for word in words[2:])
    return Certified(words[0], int(words[1]), tuple((int(a), int(b)) for a, b in windows))


# By the word after `ok`: what the words after it are.
_ANSWERS: Dict[str, Callable[[List[str]], Answer]] = {
    "object": lambda words: Declared("object", words[0]),
    "group": lambda words: Declared("group", words[0]),
    "site": lambda words: Declared("site", words[0]),
    "limit": lambda words: Declared("limit", words[0]),
    "start": lambda words: Started(),
    "proposed": lambda words: Proposed(int(words[0])),
    "sent": lambda words: Sent(words[0], int(words[1])),
    "applied": lambda words: Applied(words[0], int(words[1])),
    "reported": lambda words: Reported(words[0], int(words[1])),
    "acked": lambda words: Acked(int(words[0])),
    "round": lambda words: Round(int(words[0]), tuple(words[1:])),
    "waiting": lambda words: Waiting(int(words[0]), tuple(words[1:])),
    "begun": lambda words: Begun(words[0], int(words[1])),
    "read": lambda words: Read(words[0], words[1], int(words[3]), int(words[5]), int(words[7])),
    "end": lambda words: Ended(words[0], int(words[2]), int(words[4]), int(words[6]), int(words[8])),
    "abandoned": lambda words: Abandoned(words[0]),
    "show": _shown,
    "certified": _certified,
    "relimit": lambda words: Relimited(words[0], int(words[1])),
}


def quoted(text: str) -> str:
    """A text for a message, which has the first 80 letters of it."""
    return repr(text[:80])


def outcome_of(text: str, line: str) -> Outcome:
    """What an answer says, which came for a line."""
    words = text.split(" ")
    try:
        if words[0] == "refused":
            return Refused(int(words[1]), words[2], line)
        if words[0] == "ok":
            return _ANSWERS[words[1]](words[2:])
    except (IndexError, KeyError, ValueError):
        pass
    raise BadAnswer(f"{quoted(text)} is no answer to {quoted(line)}")


def outcomes_of(answers: bytes, lines: Sequence[str]) -> List[Outcome]:
    """What the answers to lines say: of all lines, or of the first ones. What comes after the last LF is no answer."""
    texts = answers.decode("ascii", "replace").split("\n")[:-1]
    if len(texts) > len(lines):
        raise BadAnswer(f"{quoted(texts[len(lines)])} is an answer to no line")
    return [outcome_of(text, line) for text, line in zip(texts, lines)]


def verdict_of(text: str) -> Verdict:
    """What the line says that `ordup check` prints."""
    found = re.fullmatch(r"(yes|no|malformed) ([0-9]+)(?: ([A-Za-z]+))?", text)
    if not found or (found[1] == "no") != bool(found[3]):
        raise BadAnswer(f"{quoted(text)} is no verdict")
    number = int(found[2])
    return Yes(number) if found[1] == "yes" else Malformed(number) if found[1] == "malformed" else No(number, found[3])


def series_verdict_of(text: str) -> SeriesVerdict:
    """What the line says that `ordup check --series` prints."""
    found = re.fullmatch(r"yes ([0-9]+)|no ([0-9]+) ([0-9]+) ([A-Za-z]+)|malformed ([0-9]+) ([0-9]+)", text)
    if not found:
        raise BadAnswer(f"{quoted(text)} is no verdict")
    if found[1]:
        return Yes(int(found[1]))
    return NoInSeries(int(found[2]), int(found[3]), found[4]) if found[2] else MalformedInSeries(int(found[5]), int(found[6]))


def check_lines(lines: Sequence[str]) -> None:
    """Raises `BadLine` where one of the lines would have no answer, or is more than a line."""
    for line in lines:
        if len(line) > _MOST_BYTES or not _LINE.fullmatch(line):
            raise BadLine(f"{quoted(line)} is no command: that has 1 to {_MOST_BYTES} bytes of printed ASCII, and a word")


def count_answers(text: bytes) -> int:
    """How many answers a text has, whose last line is ended: one for each line that is no comment and not blank."""
    return text.count(b"\n") - len(_WITHOUT_ANSWER.findall(b"\n" + text))


def answered_lines(text: bytes) -> List[str]:
    """The lines of a text that have an answer."""
    return _WITHOUT_ANSWER.sub(b"", b"\n" + text).decode("ascii", "replace").split("\n")[1:-1]


def line(*words: Word) -> str:
    """A command as text: `line('send', 'south')`, `line('propose', ('add', 'tea', -5), ('take', 'last', 'till'))`.

    Keywords and names are strings, numbers are whole, and a change is its three parts. A string that is no name is a
    `BadLine`.
    """
    return " ".join(map(_word, words))


def _word(word: Word) -> str:
    if isinstance(word, tuple):
        return ":".join(map(_word, word))
    if isinstance(word, str):
        if not _NAME.fullmatch(word):
            raise BadLine(f"{quoted(word)} is no name: that has 1 to 16 of a to z, 0 to 9 and _, and begins with a letter")
        return word
    if abs(word) >= 10**19:
        raise BadLine("a number has more than 19 digits")
    return f"{word:d}"


def scope_words(scope: Scope) -> Tuple[str, ...]:
    return (scope,) if isinstance(scope, str) else scope
