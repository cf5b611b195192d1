#!/usr/bin/env python3
"""A service that never stops: a cluster that has had its sales is closed, and its successor goes on. Clerks sell meanwhile. It prints the
record of the south of each cluster: series.py | ordup check --series
"""

import sys
import threading
from concurrent.futures import ThreadPoolExecutor
from contextlib import contextmanager
from typing import Iterator

from ordup import Closed, Cluster, Session, Site, add, at_least

CLERKS = 4
SALES = 25  # of a clerk
MOST = 30  # updates of a cluster, after which its successor is opened


class Service:
    def __init__(self) -> None:
        self.open = Cluster(objects={"tea": 1000}, sites={"south": Site(64, {"all": 4})})
        self.open.start()
        self.visits, self.ended = 0, threading.Condition()

    @contextmanager
    def visit(self) -> Iterator[Cluster]:
        """Lends the open cluster, which nobody exchanges meanwhile."""
        with self.ended:
            self.visits += 1
        try:
            yield self.open
        finally:
            with self.ended:
                self.visits -= 1
                self.ended.notify_all()

    def go_on(self) -> None:
        """Puts the successor in the place of a cluster that has had its updates, unless another clerk did."""
        with self.ended:  # which no visit begins
            self.ended.wait_for(lambda: self.visits == 0)
            if is_full(self.open):
                self.open = self.archive().successor()
                self.open.start()

    def archive(self) -> Closed:
        """Closes the cluster, and prints its record."""
        self.open.finish()
        closed = self.open.close()
        sys.stdout.buffer.write(closed.record("south"))
        return closed

    def clerk(self) -> None:
        session = Session()  # it lasts over all clusters
        for _ in range(SALES):
            with self.visit() as cluster:
                cluster.propose(session, {"tea": add(-1)}, None, [at_least("tea", 0)])
                full = is_full(cluster)
            if full:
                self.go_on()


def is_full(cluster: Cluster) -> bool:
    numbers = cluster.numbers()
    return numbers.length - numbers.before >= MOST


def main() -> None:
    service = Service()
    with ThreadPoolExecutor(CLERKS) as pool:
        for clerk in [pool.submit(service.clerk) for _ in range(CLERKS)]:
            clerk.result()
    service.archive()


if __name__ == "__main__":
    main()
