#!/usr/bin/env python3
"""Runs a plan from the standard input in a cluster, and prints what came of it, as `ordup threads CALLERS` but for the last lines:

    threads.py CALLERS [EPOCHS FOLDER]

EPOCHS clusters, one after the other, share the sets evenly. FOLDER gets the record of each site in each: EPOCH_SITE.csv.
"""

import sys
from concurrent.futures import ThreadPoolExecutor
from dataclasses import dataclass, field
from pathlib import Path
from typing import Callable, Dict, Iterable, List, Mapping, Optional, Tuple

from ordup import Change, Cluster, NotYet, Refused, Scope, Session, Site, add, max_, min_, mul, set_, take

OUT_OF_RANGE, LOG_FULL = 9, 13


CHANGES: Dict[str, Callable[[int], Change]] = {"add": add, "set": set_, "mul": mul, "max": max_, "min": min_}


def change_of(text: str) -> Tuple[str, Change]:
    kind, name, operand = text.split(":")
    return name, take(operand) if kind == "take" else CHANGES[kind](int(operand))


def scope_of(words: List[str]) -> Scope:
    if words[0] == "object":
        return "object", words[1]
    if words[0] == "group":
        return "group", words[1]
    return "all" if words[0] == "all" else "count"


@dataclass
class Plan:
    objects: Dict[str, int] = field(default_factory=dict)
    groups: Dict[str, List[str]] = field(default_factory=dict)
    capacities: Dict[str, int] = field(default_factory=dict)
    limits: Dict[str, Dict[Scope, int]] = field(default_factory=dict)
    sets: List[Mapping[str, Change]] = field(default_factory=list)

    def read(self, line: str) -> None:
        command, *words = line.split()
        if command == "object":
            self.objects[words[0]] = int(words[1])
        elif command == "group":
            self.groups[words[0]] = words[1:]
        elif command == "site":
            self.capacities[words[0]] = int(words[1])
            self.limits[words[0]] = {}
        elif command == "limit":
            self.limits[words[0]][scope_of(words[1:-1])] = int(words[-1])
        elif command == "propose":
            self.sets.append(dict(map(change_of, words)))

    def open(self) -> Cluster:
        sites = {name: Site(capacity, self.limits[name]) for name, capacity in self.capacities.items()}
        return Cluster(self.objects, sites, self.groups)


def propose(cluster: Cluster, session: Session, sets: Iterable[Mapping[str, Change]]) -> Tuple[int, int]:
    """One caller's sets. Returns how many were refused, and how many are not acknowledged."""
    refused = pending = 0
    for changes in sets:
        try:
            cluster.propose(session, changes)
        except NotYet:
            pending += 1
        except Refused as why:
            if why.number not in (OUT_OF_RANGE, LOG_FULL):
                raise
            refused += 1
    return refused, pending


def main(callers: int, epochs: int = 1, folder: Optional[Path] = None) -> None:
    plan = Plan()
    for line in sys.stdin:
        plan.read(line)
    sessions, rounds, refused, pending = [Session() for _ in range(callers)], dict.fromkeys(plan.capacities, 0), 0, 0
    following = plan.open()
    for epoch in range(epochs):
        first, last = (len(plan.sets) * at // epochs for at in (epoch, epoch + 1))
        with following as cluster, ThreadPoolExecutor(callers) as pool:
            sets = [[plan.sets[at] for at in range(first, last) if at % callers == me] for me in range(callers)]
            for counts in pool.map(propose, [cluster] * callers, sessions, sets):
                refused, pending = refused + counts[0], pending + counts[1]
            cluster.finish()
        closed = cluster.close()
        for at, (site, record) in enumerate(closed.records().items()):
            rounds[site] += cluster.site_numbers(site).rounds
            if folder:
                (folder / f"{epoch}_{at}.csv").write_bytes(record)
        if epoch + 1 < epochs:
            following = closed.successor()
    print(f"log {closed.numbers().length}\nrefused {refused}\npending {pending}")
    for site in plan.capacities:
        values = cluster.read_many(Session(), site, plan.objects).values
        shown = "".join(f" {name}={value}" for name, value in values.items())
        print(f"site {site} applied {cluster.site_numbers(site).applied} rounds {rounds[site]}{shown}")


if __name__ == "__main__":
    if len(sys.argv) not in (2, 4):
        sys.exit("usage: threads.py CALLERS [EPOCHS FOLDER]")
    main(int(sys.argv[1]), int(sys.argv[2]) if sys.argv[2:] else 1, Path(sys.argv[3]) if sys.argv[2:] else None)
