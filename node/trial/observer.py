#!/usr/bin/python3
"""The observer of the test. It shares no code with what it observes: it computes values and weights by itself.

`observer.py URL [TOKEN AUTHORITY]` reads the site of this host again and again, and writes a line for each reading: when it began, by
the clock that all hosts of one computer share, and what the site showed. `Observer` judges the readings, and what clients were answered,
by the script.
"""

from __future__ import annotations

import http.client
import json
import re
import ssl
import sys
import time
import urllib.parse
from collections import Counter
from typing import Iterable, NamedTuple, NoReturn, Protocol, Sequence

Place = tuple[int, int]

MOST = 1_000_000_000
REFUSALS = {1: "Syntax", 6: "UnknownObject", 9: "OutOfRange", 10: "TooMany", 11: "Empty", 12: "Repeated", 13: "LogFull"}


class Answered(Protocol):
    """What a client was answered: when, who, the number, the changes, and what came."""

    @property
    def when(self) -> float: ...
    @property
    def client(self) -> str: ...
    @property
    def number(self) -> int: ...
    @property
    def changes(self) -> str: ...
    @property
    def text(self) -> str: ...


class Limit(NamedTuple):
    """A limit that is in force from an update on: its scope, the objects of that or None for the count, and its amount."""

    scope: str
    members: Iterable[str] | None
    amount: int
    place: int = 1


class Told(NamedTuple):
    """What an operator was told, and when: a site has a limit from an update of an epoch on."""

    when: float
    site: str
    scope: str
    amount: int
    place: Place


class Loss(NamedTuple):
    """What a restore of a backup loses: what came after the backup was begun, until all was ended. The script had so many requests of this
    epoch then."""

    began: float
    ended: float
    epoch: int
    asked: int


class Refused(Exception):
    def __str__(self) -> str:
        return f"refused {self.args[0]} {REFUSALS[self.args[0]]}"


def read_changes(words: Sequence[str]) -> list[list[str]]:
    changes = [word.split(":") for word in words]
    for change in changes:
        number = r"-?(0|[1-9][0-9]{0,18})"
        if len(change) != 3 or not change[1] or change[0] not in ("add", "set", "mul", "max", "min", "take"):
            raise Refused(1)
        if change[0] != "take" and (not re.fullmatch(number, change[2]) or change[2] == "-0"):
            raise Refused(1)
    return changes


def changed(values: dict[str, int], words: Sequence[str]) -> dict[str, int]:
    """The values after a message set, or why it is refused."""
    changes = read_changes(words)
    if any(x not in values or what == "take" and y not in values for what, x, y in changes):
        raise Refused(6)
    if any(what != "take" and abs(int(n)) > MOST for what, _, n in changes):
        raise Refused(9)
    if len(changes) > 64:
        raise Refused(10)
    if not changes:
        raise Refused(11)
    if len({x for _, x, _ in changes}) < len(changes):
        raise Refused(12)
    after = dict(values)
    for what, x, y in changes:
        old = values[x]
        if what == "take":
            after[x] = values[y]
        else:
            n = int(y)
            after[x] = {"add": old + n, "set": n, "mul": old * n, "max": max(old, n), "min": min(old, n)}[what]
    if any(abs(value) > MOST for value in after.values()):
        raise Refused(9)
    return after


class Epoch:
    """What the script of an epoch comes to."""

    def __init__(self, observer: Observer, number: int, lines: list[str], before: Epoch | None) -> None:
        self.observer, self.number, self.asked = observer, number, 0
        # The values after each update, how many updates there are after each request, the groups, and the limits of each site, in the
        # order in which they come into force.
        self.values: list[dict[str, int]] = [{}]
        self.places = [0]
        self.groups: dict[str, list[str]] = {}
        self.limits: dict[str, list[Limit]] = {}
        asker, started, since = None, False, 0
        for line in lines:
            words = line.split()
            if words[:2] == ["#", "request"]:
                asker = (words[2], int(words[3]))
            elif words[:2] == ["#", "limit"]:
                since = int(words[2])
            elif words[:1] == ["relimit"]:
                # One that was refused changes nothing.
                self.limit(words[1:], since)
                since = 0
            elif words[:1] == ["start"]:
                started = True
            elif words[:1] == ["propose"]:
                self.propose(asker, words[1:])
                asker = None
            elif words and not started:
                self.declare(words)
        if before:
            last = before.values[-1]
            goes_on = all(last[x] == value for x, value in self.values[0].items() if x in last)
            observer.check("values go on", goes_on, f"epoch {number} begins with {self.values[0]} after {last}")
        # For each scope what the updates up to each place weigh on it.
        members = {limit.scope: limit.members for limits in self.limits.values() for limit in limits}
        self.weights = {scope: self.sums(objects) for scope, objects in members.items()}

    def declare(self, words: list[str]) -> None:
        if words[0] == "object":
            self.values[0][words[1]] = int(words[2])
        elif words[0] == "group":
            self.groups[words[1]] = words[2:]
        elif words[0] == "site":
            self.limits[words[1]] = []
        elif words[0] == "limit":
            self.limit(words[1:], 1)

    def limit(self, words: list[str], place: int) -> None:
        """A site has a limit from a place on, which is 0 where the limit was refused."""
        scopes = {"object": words[2:3], "group": self.groups.get(words[2]), "all": self.values[0], "count": None}
        if place:
            self.limits[words[0]].append(Limit(" ".join(words[1:-1]), scopes[words[1]], int(words[-1]), place))

    def in_force(self, site: str, place: int) -> list[Limit]:
        """The limits of a site at the acknowledgement of an update."""
        return [*{limit.scope: limit for limit in self.limits.get(site, []) if limit.place <= place}.values()]

    def propose(self, asker: tuple[str, int] | None, words: list[str]) -> None:
        self.asked += 1
        is_new = asker is not None and asker not in self.observer.came
        self.observer.check("requests taken once", is_new, f"{asker} was proposed again, or by nobody")
        try:
            self.values.append(changed(self.values[-1], words))
            came = f"ok acked {len(self.values) - 1} epoch {self.number}"
        except Refused as refused:
            came = str(refused)
        self.places.append(self.end())
        if asker:
            self.observer.came[asker] = (" ".join(words), came)

    def sums(self, members: Iterable[str] | None) -> list[int]:
        total = [0]
        for before, after in zip(self.values, self.values[1:]):
            moved = 1 if members is None else sum(abs(after[x] - before[x]) for x in members)
            total.append(total[-1] + moved)
        return total

    def end(self) -> int:
        return len(self.values) - 1


class Observer:
    """What the script comes to, of all epochs."""

    def __init__(self, scripts: list[list[str]], losses: Sequence[Loss] = (), limits: Sequence[Told] = ()) -> None:
        """`scripts` has the lines of each epoch. Of each loss it is told in the order of time. `limits` is what operators were told."""
        self.passed: Counter[str] = Counter()
        self.seen: Counter[str] = Counter()
        self.failed: list[str] = []
        # Of each request the changes, and what comes of them.
        self.came: dict[tuple[str, int], tuple[str, str]] = {}
        # Before the first epoch there is nothing.
        self.epochs = [Epoch(self, 0, [], None)]
        for number, lines in enumerate(scripts, 1):
            self.check("numbers of epochs", lines[:1] == [f"# epoch {number}"], f"epoch {number} begins with {lines[:1]}")
            self.epochs.append(Epoch(self, number, lines, self.epochs[-1] if number > 1 else None))
        # Each loss with the place to which all went back.
        self.losses = [(loss, (loss.epoch, self.epochs[loss.epoch].places[loss.asked])) for loss in losses]
        self.told = [told for told in limits if not any(loss.began < told.when <= loss.ended for loss in losses)]
        for told in self.told:
            known = (told.scope, told.amount, told.place[1])
            are = [(limit.scope, limit.amount, limit.place) for limit in self.epochs[told.place[0]].limits.get(told.site, [])]
            self.check("limits that operators were told", known in are, f"{told} is none of {are}")
        # Of each limit of a site how many readings were behind, and how far at most.
        self.lags: dict[tuple[str, str, int], tuple[int, int]] = {}

    def check(self, what: str, good: bool, words: str) -> None:
        if good:
            self.passed[what] += 1
        else:
            self.failed.append(f"{what}: {words}")

    def is_lost(self, one: Answered) -> bool:
        """Whether a restore lost what was answered, as it may lose what was answered after the backup was begun, and nothing else."""
        isnt_there = self.came.get((one.client, one.number)) != (one.changes, one.text)
        is_after = one.text.startswith("ok acked")
        return any(loss.began < one.when <= loss.ended and (isnt_there or is_after and place_of(one.text) > place)
                   for loss, place in self.losses)

    def lacks(self, one: Answered) -> bool:
        """Whether an update that was acknowledged is not in the script, though no restore lost it."""
        is_there = self.came.get((one.client, one.number)) == (one.changes, one.text)
        return one.text.startswith("ok acked") and not is_there and not self.is_lost(one)

    def judge_answers(self, answers: Sequence[Answered]) -> None:
        """Each must be what the script makes of the request."""
        for one in answers:
            wanted = self.came.get((one.client, one.number), ("", "nothing"))
            words = f"{one.client} {one.number} `{one.changes}`: `{one.text}`, not `{wanted[1]}`"
            self.check("answers", wanted == (one.changes, one.text), words)

    def judge_readings(
        self, site: str, known_as: str, readings: list[tuple[float, str]], answers: Sequence[Answered], to_the_end: bool = True
    ) -> None:
        """`known_as` is the site's name in the script. `readings`: when each began, and what the site sent."""
        acknowledged = sorted((answer.when, place_of(answer.text)) for answer in answers if answer.text.startswith("ok acked"))
        at, next_answer, known, before = (0, 0), 0, (1, 0), 0.0
        for when, line in readings:
            while next_answer < len(acknowledged) and acknowledged[next_answer][0] < when:
                known = max(known, acknowledged[next_answer][1])
                next_answer += 1
            words = line.split()
            last, at = self.place_since(before, when, at), (int(words[1]), int(words[3]))
            before = when
            shown = {name: int(value) for name, value in (word.split("=") for word in words[4:])}
            good = 0 < at[0] < len(self.epochs) and at[1] <= self.epochs[at[0]].end() and shown == self.epochs[at[0]].values[at[1]]
            self.check("never back", at >= last, f"{site} goes back from {last} to {at}")
            # A reading that had begun a second before the backup may show what came after it.
            if any(loss.began - 1 < when <= loss.ended and at > place for loss, place in self.losses):
                self.seen["readings of what a restore lost"] += 1
                continue
            self.check("values of a prefix", good, f"{site} at {at} shows {line}")
            if good and at < known:
                self.judge_lag(site, known_as, at, known, when)
            elif at >= known:
                self.passed["within the limits"] += 1
                self.seen["readings of all that is acknowledged"] += 1
        if to_the_end:
            self.check("all applied at the end", at == (len(self.epochs) - 1, self.epochs[-1].end()), f"{site} has {at}")

    def place_since(self, before: float, when: float, at: Place) -> Place:
        """What a site that was at a place may not go back from: after a restore that is where the backup was."""
        return min([at, *(place for loss, place in self.losses if before <= loss.ended < when)])

    def judge_lag(self, site: str, known_as: str, at: Place, known: Place, when: float) -> None:
        """A reading at a place, begun as a later one was known as acknowledged. It keeps the limits that were in force at that, and those that
        an operator was told before."""
        self.seen["readings behind an acknowledged update"] += 1
        epoch = self.epochs[known[0]] if known[0] < len(self.epochs) else None
        if epoch is None or known[1] > epoch.end():
            return self.check("what is acknowledged is in the script", False, f"{known} is not")
        is_there = known_as in epoch.limits and known_as in self.epochs[at[0]].limits
        self.check("served by a site of the script", is_there, f"{site} at {at} of {known} is taken out")
        if at[0] < known[0]:
            # It told the last place of each epoch that has ended. So it may show that place, which begins the next one.
            missing = self.epochs[at[0]].end() - at[1] + sum(e.end() for e in self.epochs[at[0] + 1 : known[0]])
            self.check("all told at the end of an epoch", missing == 0, f"{site} at {at} of {known} lacks {missing} before")
        base = at[1] if at[0] == known[0] else 0
        for limit in epoch.in_force(known_as, known[1]):
            weight = epoch.weights[limit.scope][known[1]] - epoch.weights[limit.scope][base]
            lesser = [told.amount for told in self.told if told.when < when and told.place > known and told.place[0] == known[0]
                      and (told.site, told.scope) == (known_as, limit.scope)]
            most = min([limit.amount, *lesser])
            self.seen["spans weighed"] += weight > 0
            self.check("within the limits", weight <= most, f"{site} at {at} of {known} lags by {weight}: {limit.scope} {most}")
            count, greatest = self.lags.get((known_as, limit.scope, most), (0, 0))
            self.lags[known_as, limit.scope, most] = count + 1, max(greatest, weight)


def place_of(answer: str) -> Place:
    """The epoch and the place of an update that is acknowledged."""
    words = answer.split()
    return int(words[4]), int(words[2])


class Reader:
    """Reads by HTTP, by one connection as long as that lasts."""

    def __init__(self, url: str, token: str, authority: str) -> None:
        where = urllib.parse.urlsplit(url)
        host, self.path, self.headers = where.hostname or "", where.path, {}
        self.connection = http.client.HTTPConnection(host, where.port, timeout=1)
        if token:
            self.headers = {"Authorization": f"Bearer {token}"}
            context = ssl.create_default_context(cafile=authority)
            self.connection = http.client.HTTPSConnection(host, where.port, timeout=1, context=context)

    def read(self) -> str:
        try:
            self.connection.request("GET", self.path, headers=self.headers)
            answer = self.connection.getresponse()
            text = answer.read()
        except (OSError, http.client.HTTPException):
            self.connection.close()
            return ""
        return line_of(json.loads(text)) if answer.status == 200 else ""


def line_of(shown: dict[str, object]) -> str:
    """What a site shows, as one line."""
    values = shown["values"]
    assert isinstance(values, dict)
    return f"epoch {shown['epoch']} place {shown['place']} {' '.join(f'{name}={value}' for name, value in values.items())}\n"


def read_often(url: str, token: str = "", authority: str = "") -> NoReturn:
    reader = Reader(url, token, authority)
    while True:
        began = time.monotonic()
        line = reader.read()
        if line:
            print(f"{began:.6f} {line}", end="", flush=True)
        time.sleep(0.01)


if __name__ == "__main__":
    read_often(*sys.argv[1:])
