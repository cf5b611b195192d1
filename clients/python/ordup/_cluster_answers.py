"""What the calls of a cluster take and answer, and the exceptions."""

from __future__ import annotations

from dataclasses import dataclass, field
from typing import Dict, Literal, Mapping, NamedTuple

from . import _cluster_library as c
from ._answers import Change, Error, Refused, Scope

__all__ = [
    "Behind", "Charged", "Condition", "Forked", "InUse", "Lag", "Mixed", "NotYet", "Numbers", "QueryEnd", "Seen", "SeenMany", "Site",
    "SiteNumbers", "Stopped", "Unmet", "add", "at_least", "at_most", "max_", "min_", "mul", "set_", "take",
]

_NAMES = (
    "Syntax", "NotStarted", "AlreadyStarted", "BadName", "NameTaken", "UnknownObject", "UnknownGroup", "UnknownSite", "OutOfRange",
    "TooMany", "Empty", "Repeated", "LogFull", "NothingToSend", "FeedFull", "NothingToApply", "NothingToSettle", "UnknownQuery",
    "QueryOpen", "OverImport", "Behind", "NotYet", "Stopped", "HeadPending", "LagOver", "NoMemory", "Mixed",
)  # of the refusals, from 1


class Behind(Error):
    """The site has applied `applied` updates, which is less than the session has seen."""

    def __init__(self, applied: int) -> None:
        super().__init__(applied)
        self.applied = applied

    def __str__(self) -> str:
        return f"the site has applied {self.applied} updates, and the session has seen more"


class NotYet(Error):
    """The update `number` is numbered and stands, but is not acknowledged: the time is over, the cluster was stopped, or memory was
    refused. Do not propose it again: `settle` waits for it. Of `finish` and `successor` it is the number of the last update."""

    def __init__(self, number: int) -> None:
        super().__init__(number)
        self.number = number

    def __str__(self) -> str:
        return f"update {self.number} stands, and is not acknowledged yet"


class Unmet(Error):
    """The condition at `index`, from 0, is the first that is not met. Nothing was numbered."""

    def __init__(self, index: int, condition: Condition) -> None:
        super().__init__(index, condition)
        self.index = index
        self.condition = condition

    def __str__(self) -> str:
        return f"{self.condition.object} would not be {self.condition.bound.replace('_', ' ')} {self.condition.number}"


class Stopped(Error):
    """The cluster was stopped. Nothing was numbered."""


class Mixed(Error):
    """A site does not hold the result of the updates that it applied, which is a bug of ordup."""


class Forked(Error):
    """The cluster is in the process that this one was forked from, and lost here."""


class InUse(Error):
    """The session or the query is in another call. It takes one at a time."""


class Condition(NamedTuple):
    """What an object must be after an update for it to be numbered."""

    object: str
    bound: Literal["at_least", "at_most"]
    number: int


class Seen(NamedTuple):
    """A value at a site, which has `applied` so many updates."""

    value: int
    applied: int


class SeenMany(NamedTuple):
    """Values of one state of a site, which has `applied` so many updates."""

    values: Dict[str, int]
    applied: int


class Charged(NamedTuple):
    """A value that a query read, what the read `imported`, and the `total` of its reads."""

    value: int
    imported: int
    total: int


class QueryEnd(NamedTuple):
    """The `sum` of the values of all `reads`, no further than `total` from the sum at `place`: so many updates were acknowledged as the
    query began."""

    place: int
    sum: int
    total: int
    reads: int


class Numbers(NamedTuple):
    """How many updates came before the cluster, how many there are with these, and how many of those are acknowledged."""

    before: int
    length: int
    acknowledged: int


class SiteNumbers(NamedTuple):
    """How many updates a site was sent, has applied and has reported, and its `rounds`: how many of this cluster's waited for it."""

    sent: int
    applied: int
    reported: int
    rounds: int


class Lag(NamedTuple):
    """A limit of a site, and the weight of the acknowledged updates that the site has not reported."""

    scope: Scope
    amount: int
    weight: int


@dataclass(frozen=True)
class Site:
    """A site whose feed has room for `capacity` updates, 1 to 1,024, with the amount of each limit."""

    capacity: int = 64
    limits: Mapping[Scope, int] = field(default_factory=dict, hash=False)


def add(number: int) -> Change:
    """The change by which an object is so much more."""
    return "add", number


def set_(number: int) -> Change:
    """The change by which an object is this."""
    return "set", number


def mul(number: int) -> Change:
    """The change by which an object is so many times as much."""
    return "mul", number


def max_(number: int) -> Change:
    """The change by which an object is at least this."""
    return "max", number


def min_(number: int) -> Change:
    """The change by which an object is at most this."""
    return "min", number


def take(object: str) -> Change:
    """The change by which an object is what another was before the update."""
    return "take", object


def at_least(object: str, number: int) -> Condition:
    """The condition that an object is at least this after the update."""
    return Condition(object, "at_least", number)


def at_most(object: str, number: int) -> Condition:
    """The condition that an object is at most this after the update."""
    return Condition(object, "at_most", number)


def must(status: int, *words: object) -> None:
    """Raises what a status says, but DONE, of a call in these words."""
    if status == c.DONE:
        return
    if status == c.NO_MEMORY:
        raise MemoryError
    if status == c.STOPPED:
        raise Stopped("the cluster was stopped")
    if status == c.MIXED:
        raise Mixed("a site does not hold the result of the updates that it applied")
    said = " ".join(str(word) for word in words)
    if c.REFUSED < status <= c.REFUSED + len(_NAMES):
        raise Refused(status - c.REFUSED, _NAMES[status - c.REFUSED - 1], said)
    raise Error(f"{said}: the library's status is {status}")


def failed_read(status: int, applied: int, *words: object) -> Exception:
    if status == c.BEHIND:
        return Behind(applied)
    try:
        must(status, "read", *words)
    except Exception as why:
        return why
    raise AssertionError
