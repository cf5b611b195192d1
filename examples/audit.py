#!/usr/bin/env python3
"""A second checker of records: audit.py [--series | --sites] < RECORD

It reads the record of a site, or as `cat` puts them together with --series the records of a site and with --sites those of several sites of
one store, and prints what `ordup check` prints: `yes N` or `no ROW REASON`, or on standard error `malformed ROW`. There it also tells what
a reason means here. The status is 0, 1 or 3.

This is not the proved checker. It was written from docs/FORMATS.md, shares no code with ordup, and needs Python 3.9 alone. So it can be
read whole, and run where there is no ordup. A record that both accept would have to be wrong by a mistake that both have.
"""

from __future__ import annotations

import argparse
import re
import sys
from dataclasses import dataclass, field
from itertools import accumulate, zip_longest
from typing import Iterator

GREATEST_VALUE, GREATEST_AMOUNT = 10**9, 10**18
MOST_OBJECTS, MOST_GROUPS, MOST_MEMBERS, MOST_CHANGES = 256, 32, 64, 64
MOST_SCOPES, MOST_LIMITS, MOST_UPDATES, MOST_WINDOWS = 64, 1_088, 1_000_000, 1_000_000
MOST_ROW_BYTES = 300
KINDS = [b"object", b"member", b"limit", b"change", b"report", b"round", b"window"]  # in the order of their rows
NUMBER = re.compile(rb"0|-?[1-9][0-9]{0,18}")
NAME = re.compile(rb"[a-z][a-z0-9_]{0,15}")
CHANGE = re.compile(rb"(add|set|mul|max|min|take):([^:]+):([^:]+)")

Row = list[bytes]


class Malformed(Exception):
    """A row breaks a rule, or is missing."""

    row = 0


class Refused(Exception):
    """A reason against a record, and what it means here."""

    def __init__(self, row: int, reason: str, meaning: str) -> None:
        super().__init__(meaning)
        self.row, self.reason = row, reason


def must(holds: object) -> None:
    if not holds:
        raise Malformed


# ---- rows of comma-separated values ----


def rows_of(text: bytes) -> Iterator[Row]:
    """The rows with a byte at least. One that is too long is the last, and has its first column alone."""
    text = text.removeprefix(b"\xef\xbb\xbf")
    if b'"' in text:
        yield from quoted_rows(text)
        return
    for line in re.split(rb"[\r\n]", text):
        if len(line) > MOST_ROW_BYTES:
            yield line.split(b",")[:1]
            return
        if line:
            yield line.split(b",")


def quoted_rows(text: bytes) -> Iterator[Row]:
    """The same, of a text with quotes. A quote counts where a column begins, and within quotes, where a second one stands for itself."""
    row: Row = []
    column, size, state = bytearray(), 0, "begins"
    for byte in text:
        if state != "quoted" and byte in b"\r\n":
            if size:
                yield [*row, bytes(column)]
            row, column, size, state = [], bytearray(), 0, "begins"
            continue
        size += 1
        if size > MOST_ROW_BYTES:
            yield [*row, bytes(column)][:1]
            return
        if byte == ord('"') and state == "quoted":
            state = "closed"
        elif byte == ord('"') and state != "plain":
            column += b'"' * (state == "closed")
            state = "quoted"
        elif byte == ord(",") and state != "quoted":
            row.append(bytes(column))
            column, state = bytearray(), "begins"
        else:
            column.append(byte)
            state = state if state == "quoted" else "plain"
    if size:
        yield [*row, bytes(column)]


def number(word: bytes, least: int, most: int) -> int:
    must(NUMBER.fullmatch(word))
    must(least <= int(word) <= most)
    return int(word)


def name(word: bytes) -> bytes:
    must(NAME.fullmatch(word))
    return word


# ---- a record ----


@dataclass
class Limit:
    scope: bytes
    amount: int
    place: int  # from which it is in force


@dataclass
class Change:
    row: int
    kind: bytes
    target: bytes
    source: bytes  # an object, or a number


@dataclass
class Record:
    version: int
    site: bytes
    decided: int
    objects: dict[bytes, int] = field(default_factory=dict)  # with their first values
    groups: dict[bytes, list[bytes]] = field(default_factory=dict)
    limits: list[Limit] = field(default_factory=list)
    updates: list[list[Change]] = field(default_factory=list)
    reports: list[tuple[int, int]] = field(default_factory=list)  # a place, and what was reported there
    rounds: list[int] = field(default_factory=list)
    windows: list[tuple[int, int, int]] = field(default_factory=list)  # a row, and the two numbers
    rows: int = 1
    stage: int = 0  # the kind of the last row

    @classmethod
    def begun(cls, row: Row) -> Record:
        must(len(row) == 4 and row[0] == b"ordup")
        return cls(number(row[1], 1, 2), name(row[2]), number(row[3], 0, MOST_UPDATES))

    def add(self, row: Row) -> None:
        must(len(row) == 4)
        must(row[0] in KINDS)
        stage = KINDS.index(row[0])
        must(stage >= self.stage and (stage == 0 or self.objects) and (stage < 4 or len(self.updates) == self.decided))
        self.stage, self.rows = stage, self.rows + 1
        add = [self.add_object, self.add_member, self.add_limit, self.add_change, self.add_report, self.add_round, self.add_window]
        add[stage](*row[1:])

    def add_object(self, index: bytes, word: bytes, value: bytes) -> None:
        must(len(self.objects) < MOST_OBJECTS)
        must(number(index, 1, MOST_OBJECTS) == len(self.objects) + 1 and word not in self.objects)
        self.objects[name(word)] = number(value, -GREATEST_VALUE, GREATEST_VALUE)

    def add_member(self, index: bytes, word: bytes, member: bytes) -> None:
        must(number(index, 1, MOST_GROUPS * MOST_MEMBERS) == sum(map(len, self.groups.values())) + 1)
        must(member in self.objects)
        if word not in self.groups:
            must(len(self.groups) < MOST_GROUPS)
            self.groups[name(word)] = []
        members = self.groups[word]
        must(word == [*self.groups][-1] and member not in members and len(members) < MOST_MEMBERS)
        members.append(member)

    def add_limit(self, index: bytes, scope: bytes, amount: bytes) -> None:
        must(number(index, 1, MOST_LIMITS) == len(self.limits) + 1)
        kind, _, word = scope.partition(b":")
        must(scope in (b"all", b"count") or word in {b"object": [*self.objects], b"group": [*self.groups]}.get(kind, []))
        place = b"1"
        if self.version == 2:
            must(amount.count(b"@") == 1)
            amount, place = amount.split(b"@")
        limit = Limit(scope, number(amount, 0, GREATEST_AMOUNT), number(place, 1, self.decided + 1))
        must(not self.limits or self.limits[-1].place <= limit.place)
        must(all((limit.scope, limit.place) != (it.scope, it.place) for it in self.limits))
        self.limits.append(limit)
        must(len({it.scope for it in self.limits}) <= MOST_SCOPES)

    def add_change(self, place: bytes, position: bytes, word: bytes) -> None:
        if number(position, 1, MOST_CHANGES) == 1:
            self.updates.append([])
        must(self.updates and number(place, 1, self.decided) == len(self.updates))
        parts, changes = CHANGE.fullmatch(word), self.updates[-1]
        if not parts or int(position) != len(changes) + 1:
            raise Malformed
        kind, target, source = parts.groups()
        must(target in self.objects and all(it.target != target for it in changes))
        if kind == b"take":
            must(source in self.objects)
        else:
            number(source, -GREATEST_VALUE, GREATEST_VALUE)
        changes.append(Change(self.rows, kind, target, source))

    def add_report(self, place: bytes, reported: bytes, rest: bytes) -> None:
        before = self.reports[-1] if self.reports else (0, 0)
        self.reports.append((number(place, before[0] + 1, self.decided), number(reported, before[1] + 1, MOST_UPDATES)))
        must(rest == b"-")

    def add_round(self, index: bytes, place: bytes, rest: bytes) -> None:
        must(number(index, 1, MOST_UPDATES) == len(self.rounds) + 1 and rest == b"-")
        self.rounds.append(number(place, (self.rounds or [0])[-1] + 1, self.decided))

    def add_window(self, index: bytes, start: bytes, end: bytes) -> None:
        must(number(index, 1, MOST_WINDOWS) == len(self.windows) + 1)
        self.windows.append((self.rows, number(start, 0, self.decided), number(end, 0, self.decided)))


def record_of(rows: list[Row]) -> Record:
    row = 1
    try:
        must(rows)
        record = Record.begun(rows[0])
        for row in range(2, len(rows) + 1):
            record.add(rows[row - 1])
        row = len(rows) + 1
        must(record.objects and len(record.updates) == record.decided)
    except Malformed as fault:
        fault.row = row
        raise
    return record


# ---- the verdict ----


def new_value(change: Change, values: dict[bytes, int]) -> int:
    old = values[change.target]
    if change.kind == b"take":
        return values[change.source]
    amount = int(change.source)
    return {b"add": old + amount, b"set": amount, b"mul": old * amount, b"max": max(old, amount), b"min": min(old, amount)}[change.kind]


class Audit:
    """Weighs the updates of a record anew."""

    def __init__(self, record: Record) -> None:
        self.record = record
        self.values = dict(record.objects)
        moved = [self.step(place, changes) for place, changes in enumerate(record.updates, 1)]
        scopes = {it.scope for it in record.limits}
        # For each scope what the updates up to each place weigh.
        self.sums = {scope: [0, *accumulate(self.weight(scope, it) for it in moved)] for scope in scopes}
        self.amounts: dict[bytes, list[tuple[int, int]]] = {}
        for limit in record.limits:
            self.amounts.setdefault(limit.scope, []).append((limit.place, limit.amount))

    def step(self, place: int, changes: list[Change]) -> dict[bytes, int]:
        """Does an update, and answers how far it moves each object."""
        after = {it.target: new_value(it, self.values) for it in changes}
        for it in changes:
            if abs(after[it.target]) > GREATEST_VALUE:
                raise Refused(it.row, "NotLegal", f"the update {place} makes {spelled(it.target)} {after[it.target]}")
        moved = {target: abs(value - self.values[target]) for target, value in after.items()}
        self.values |= after
        return moved

    def weight(self, scope: bytes, moved: dict[bytes, int]) -> int:
        kind, _, word = scope.partition(b":")
        if kind == b"count":
            return 1
        members = {b"all": [*moved], b"object": [word], b"group": self.record.groups.get(word, [])}[kind]
        return sum(moved.get(member, 0) for member in members)

    def over(self, start: int, end: int) -> str:
        """Which limit in force at the end the updates after start, up to the end, pass; or nothing."""
        if start >= end:
            return ""
        for scope, sums in self.sums.items():
            amount = next((amount for place, amount in reversed(self.amounts[scope]) if place <= end), None)
            weight = sums[end] - sums[start]
            if amount is not None and weight > amount:
                return f"{start + 1} to {end} weigh {weight} on {spelled(scope)}, and the limit is {amount}"
        return ""

    def reported(self) -> list[int]:
        """What the site had reported at each place."""
        at = dict(self.record.reports)
        return list(accumulate((at.get(it, 0) for it in range(self.record.decided + 1)), max))

    def judge(self) -> int:
        """How many rounds there are. None is too many, unless there is a reason against the record."""
        record, reported = self.record, self.reported()
        base, rounds = 0, set(record.rounds)
        for place, changes in enumerate(record.updates, 1):
            base = max(base, reported[place], place * (place in rounds))
            if over := self.over(base, place):
                raise Refused(changes[0].row, "LimitsBroken", f"without a round the updates {over}")
        for row, start, end in record.windows:
            if not self.over(start, end):
                raise Refused(row, "WindowLight", f"the updates {start + 1} to {end} pass no limit")
        for (_, _, before), (row, start, end) in zip(record.windows, record.windows[1:]):
            if start < before:
                raise Refused(row, "WindowsMeet", f"the window {start + 1} to {end} begins at {before} or before, where another ends")
        for row, start, end in record.windows:
            if reported[end] > start:
                raise Refused(row, "WindowBeforeReport", f"at {end} {reported[end]} were reported, and the window begins at {start + 1}")
        if len(record.windows) != len(record.rounds):
            raise Refused(record.rows, "CountDiffers", f"there are {len(record.rounds)} rounds, and {len(record.windows)} windows")
        return len(record.rounds)


def spelled(word: bytes) -> str:
    return word.decode()


# ---- one record, or several ----


def must_be_next(before: Audit, record: Record) -> None:
    """Compares the site, objects and members of a record with those at the end of the one before."""
    wanted: list[tuple[object, ...]] = [(before.record.site,), *before.values.items(), *members_of(before.record)]
    found: list[tuple[object, ...]] = [(record.site,), *record.objects.items(), *members_of(record)]
    for row, (one, other) in enumerate(zip([*wanted, ()], [*found, ()]), 1):
        if one != other:
            raise Refused(row, "NotNext", "the record does not begin with what the one before it ends with")


def must_be_same(longest: Record, record: Record) -> None:
    """Compares the objects, members and updates of a record with those of the one before it that has the most updates."""
    wanted: list[tuple[object, ...]] = [*longest.objects.items(), *members_of(longest)]
    found: list[tuple[object, ...]] = [*record.objects.items(), *members_of(record)]
    for row, (one, other) in enumerate(zip([*wanted, ()], [*found, ()]), 2):
        if one != other:
            raise Refused(row, "NotSame", "the objects or groups are not those of the records before it")
    for place, (these, those) in enumerate(zip(longest.updates, record.updates), 1):
        for row, (mine, other) in enumerate(zip_longest(map(told, these), map(told, those)), those[0].row):
            if mine != other:
                raise Refused(row, "NotSame", f"the update {place} is not that of a record before it")


def told(change: Change) -> tuple[bytes, bytes, bytes]:
    return change.kind, change.target, change.source


def members_of(record: Record) -> list[tuple[object, ...]]:
    return [("member", group, member) for group, members in record.groups.items() for member in members]


def records_of(rows: list[Row], are_several: bool) -> list[list[Row]]:
    starts = [index for index, row in enumerate(rows) if are_several and index and row[:1] == [b"ordup"]]
    return [rows[start:end] for start, end in zip([0, *starts], [*starts, len(rows)])]


def check(given: bytes, several: str = "") -> tuple[str, str]:
    """The verdict on a text of a record, of a "series" or of "sites", and what it means where it is against the text."""
    rounds = 0
    before, longest = None, None
    for index, rows in enumerate(records_of([*rows_of(given)], bool(several)), 1):
        at = f"{index} " if several else ""
        try:
            record = record_of(rows)
            if before and several == "series":
                must_be_next(before, record)
            before = Audit(record)
            rounds += before.judge()
            if longest and several == "sites":
                must_be_same(longest, record)
            longest = max(longest or record, record, key=lambda it: it.decided)
        except Malformed as fault:
            return f"malformed {at}{fault.row}", "this row breaks a rule of docs/FORMATS.md, or is missing"
        except Refused as reason:
            return f"no {at}{reason.row} {reason.reason}", str(reason)
    return f"yes {rounds}", ""


def main() -> int:
    parser = argparse.ArgumentParser(description="A second checker of the records of a site. It is not the proved one, `ordup check`.")
    several = parser.add_mutually_exclusive_group()
    for word, meaning in {"series": "several records, each of which goes on from the one before", "sites": "records of several sites of one store"}.items():
        several.add_argument(f"--{word}", dest="several", action="store_const", const=word, default="", help=meaning)
    verdict, meaning = check(sys.stdin.buffer.read(), parser.parse_args().several)
    print(verdict, file=sys.stderr if verdict.startswith("malformed") else sys.stdout)
    if meaning:
        print(meaning, file=sys.stderr)
    return {"yes": 0, "no": 1, "malformed": 3}[verdict.split()[0]]


if __name__ == "__main__":
    sys.exit(main())
