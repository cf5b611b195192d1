"""cluster WAY LOAD THREADS SECONDS: measures a cluster of a program in Python, or a lock and a dict, and prints a number.
bench/clients/clusters tells the loads, and runs it."""

import os
import sys
import threading
import time
from pathlib import Path
from typing import Callable, List, Optional, Union

from ordup import Cluster, Session, Site, add

SITES = ["s0", "s1", "s2", "s3"]
OBJECTS = [f"x{number}" for number in range(64)]
BY = {name: 1 - number % 2 * 2 for number, name in enumerate(OBJECTS)}
CHANGES = [{name: add(by)} for name, by in BY.items()]
CLUSTERS = 100
UPDATES = 100_000

Batch = Callable[[], None]


class Ordup:
    """A cluster, of which a thread makes one call for each object in a batch."""

    most = 900_000.0  # updates, after which a load ends: a log has a million

    def __init__(self, limit: Optional[int] = None) -> None:
        site = Site(1024, {} if limit is None else {"all": limit})
        self.cluster = Cluster(objects=dict.fromkeys(OBJECTS, 0), sites=dict.fromkeys(SITES, site))
        self.cluster.start()

    def reader(self, at: int) -> Batch:
        read, session, site = self.cluster.read, Session(), SITES[at]

        def batch() -> None:
            for name in OBJECTS:
                read(session, site, name)

        return batch

    def writer(self) -> Batch:
        propose, session = self.cluster.propose, Session()

        def batch() -> None:
            for changes in CHANGES:
                propose(session, changes)

        return batch


class Plain:
    """A lock and a dict."""

    most = float("inf")

    def __init__(self) -> None:
        self.lock, self.values = threading.Lock(), dict.fromkeys(OBJECTS, 0)

    def get(self, name: str) -> int:
        with self.lock:
            return self.values[name]

    def add(self, name: str, number: int) -> None:
        with self.lock:
            self.values[name] += number

    def reader(self, at: int) -> Batch:
        def batch() -> None:
            for name in OBJECTS:
                self.get(name)

        return batch

    def writer(self) -> Batch:
        def batch() -> None:
            for name, by in BY.items():
                self.add(name, by)

        return batch


def rate(store: Union[Ordup, Plain], load: str, threads: int, seconds: float) -> float:
    """How many calls a second so many threads make, beside one that makes updates where there is a writer."""
    has_writer, is_over, rates = load == "reads-beside", threading.Event(), [0.0] * threads
    start = threading.Barrier(1 + threads + has_writer)

    def call(batch: Batch, most: float) -> float:
        made = 0
        start.wait()
        begun = time.perf_counter()
        while not made or made < most and not is_over.is_set():
            batch()
            made += len(OBJECTS)
        if made >= most:
            is_over.set()
        return made / (time.perf_counter() - begun)

    def each(me: int) -> None:
        if load.startswith("reads-"):
            rates[me] = call(store.reader(0 if load == "reads-one" else me % len(SITES)), float("inf"))
        else:
            rates[me] = call(store.writer(), store.most / threads)

    them = [threading.Thread(target=each, args=[me]) for me in range(threads)]
    them += [threading.Thread(target=call, args=[store.writer(), store.most])] * has_writer
    for thread in them:
        thread.start()
    start.wait()
    time.sleep(seconds)
    is_over.set()
    for thread in them:
        thread.join()
    return sum(rates)


def idle(seconds: float) -> float:
    """Seconds of the processors in so many seconds without a call."""
    store = Ordup(0)
    store.cluster.propose(Session(), CHANGES[0])
    time.sleep(0.1)
    used = time.process_time()
    time.sleep(seconds)
    used = time.process_time() - used
    store.cluster.close()
    return used


def resident() -> int:
    """How many bytes are resident."""
    return int(Path("/proc/self/statm").read_text().split()[1]) * os.sysconf("SC_PAGE_SIZE")


def of_a_cluster() -> float:
    many: List[Ordup] = []
    before = resident()
    for _ in range(CLUSTERS):
        many.append(Ordup())
    return (resident() - before) / CLUSTERS


def of_an_update() -> float:
    store, made = Ordup(), 0
    batch, before = store.writer(), resident()
    while made < UPDATES:
        batch()
        made += len(OBJECTS)
    store.cluster.finish()
    return (resident() - before) / made


def main(way: str, load: str, threads: int, seconds: float) -> None:
    if way == "map":
        number = rate(Plain(), load, threads, seconds)
    elif load == "idle":
        number = idle(seconds)
    elif load == "memory":
        number = of_a_cluster()
    elif load == "memory-update":
        number = of_an_update()
    else:
        limit = load.partition("round-")[2]
        number = rate(Ordup(int(limit) if limit else None), load, threads, seconds)
    print(f"{number:.9f}")


main(sys.argv[1], sys.argv[2], int(sys.argv[3]), float(sys.argv[4]))
