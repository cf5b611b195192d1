"""What the tests of clusters share."""

import contextlib
import os
import sys
import time
import unittest
from concurrent.futures import ThreadPoolExecutor
from pathlib import Path

from cases import TestCase
from ordup import Cluster, Site, Yes, check, check_series

HERE = Path(__file__).resolve().parent
IS_LONG = "--long" in sys.argv
SOON = 5.0


class ClusterCase(TestCase):
    def forced(self, **options):
        """A cluster whose site in the north is forced for each update."""
        return Cluster(objects={"n": 0, "tea": 40}, sites={"north": Site(4, {"count": 0}), "south": 64}, **options)

    @contextlib.contextmanager
    def soon(self, least=0.0):
        start = time.monotonic()
        yield
        self.assertLess(time.monotonic() - start, SOON)
        self.assertGreaterEqual(time.monotonic() - start, least)

    def raised(self, kind, call, *words, **options):
        with self.assertRaises(kind) as caught:
            call(*words, **options)
        return caught.exception

    def in_thread(self, work, *words, **options):
        """What a call answers or raises in a thread, once that has ended."""
        pool = ThreadPoolExecutor(1)
        self.addCleanup(pool.shutdown)
        return pool.submit(work, *words, **options)

    def tasks(self):
        """How many threads the process has, once none is about to end."""
        count = 0
        while count != (count := len(os.listdir("/proc/self/task"))):
            time.sleep(0.05)
        return count

    def audited(self, *series):
        """The records of a site, in order, are valid."""
        program = TestCase.program or None
        for record in series:
            self.assertIsInstance(check(record, program), Yes)
        self.assertIsInstance(check_series(b"".join(series), program), Yes)
