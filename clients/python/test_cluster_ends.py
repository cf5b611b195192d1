"""Tests of what ends a call of a cluster, and of what goes on around it meanwhile."""

import gc
import os
import signal
import threading
import time
from pathlib import Path

from cluster_cases import SOON, ClusterCase
from ordup import Behind, Cluster, Forked, NotYet, Session, Site, Stopped, add


def interrupted_after(seconds):
    """Ctrl-C for this process, after so many seconds."""
    timer = threading.Timer(seconds, os.kill, [os.getpid(), signal.SIGINT])
    timer.start()
    return timer


class Ends(ClusterCase):
    def test_ctrl_c_in_a_waiting_call(self):
        cluster, session = self.forced(), Session()
        for number, wait in enumerate((
            lambda: cluster.propose(session, {"n": add(1)}), lambda: cluster.propose(session, {"n": add(1)}, timeout=60.0),
            lambda: cluster.settle(session, 1), cluster.finish, lambda: cluster.read_when_level(Session(1), "south", "n"),
            lambda: cluster.read_many(Session(1), "south", ["n"], timeout=None), lambda: cluster.read(Session(1), "south", "n", 60.0),
        )):
            timer = interrupted_after(0.25)
            with self.soon(0.2):
                self.assertRaises(KeyboardInterrupt, wait)
            timer.join()
            # What was numbered stands, and the session tells its number.
            self.assertEqual((session.numbered, cluster.numbers().length), (min(number, 1) + 1,) * 2)
            self.assertEqual(cluster._calls, {})
        with cluster:
            cluster.settle(session, session.numbered)
            self.assertEqual(cluster.read(session, "north", "n"), (2, 2))

    def test_ctrl_c_ends_a_block_and_the_waits_of_other_threads(self):
        script = """
import ordup, os, signal, threading, time
signal.signal(signal.SIGINT, signal.default_int_handler)
ended = []
def wait(cluster):
    try:
        cluster.read_when_level(ordup.Session(1), "s", "x")
    except ordup.Behind as behind:
        ended.append(behind.applied)
try:
    with ordup.Cluster({"x": 0}, {"s": 4}) as cluster:
        thread = threading.Thread(target=wait, args=[cluster])
        thread.start()
        threading.Timer(0.3, os.kill, [os.getpid(), signal.SIGINT]).start()
        cluster.read_when_level(ordup.Session(1), "s", "x")
except KeyboardInterrupt:
    thread.join(5)
    print("interrupted", ended, flush=True)
"""
        with self.soon(), self.started(script) as process:
            self.assertEqual(process.stdout.read(), b"interrupted [0]\n")

    def test_interrupts_lose_nothing(self):
        # Wherever Ctrl-C comes, the session tells of each update that stands, and no call is left under way.
        for turn in range(60):
            with self.forced() as cluster:
                session, numbers, interrupted = Session(), [], False
                signal.setitimer(signal.ITIMER_REAL, 0.002 + turn % 20 / 3000)
                before = signal.signal(signal.SIGALRM, signal.default_int_handler)
                try:
                    try:
                        while True:
                            known = session.numbered
                            numbers.append(cluster.propose(session, {"n": add(1)}))
                            cluster.read(session, "north", "n")
                    except KeyboardInterrupt:
                        pass
                finally:
                    signal.setitimer(signal.ITIMER_REAL, 0)
                    signal.signal(signal.SIGALRM, before)
                if session.numbered > known:
                    cluster.settle(session, session.numbered)
                self.assertEqual(cluster._calls, {})
                self.assertEqual(session.numbered, cluster.numbers().length)
                self.assertEqual(cluster.read(session, "north", "n").value, session.numbered)

    def test_a_stop_ends_each_wait(self):
        cluster = self.forced()
        ahead = Session(9)
        waits = [self.in_thread(cluster.propose, Session(), {"n": add(1)})]
        while not cluster.numbers().length:
            time.sleep(0.001)
        waits += [self.in_thread(cluster.finish), self.in_thread(cluster.read_when_level, ahead, "south", "n"),
                  self.in_thread(cluster.read_many_when_level, Session(9), "north", ["n"])]
        time.sleep(0.1)
        threading.Timer(0.1, cluster.stop).start()
        with self.soon():
            self.assertRaises(NotYet, cluster.settle, Session(), 1)
            for wait, kind in zip(waits, (NotYet, NotYet, Behind, Behind)):
                self.assertIsInstance(wait.exception(SOON), kind)

    def test_a_close_amid_the_calls_of_other_threads(self):
        for turn in range(8):
            cluster = self.forced()
            cluster.start()
            ends, begun, over = [], threading.Barrier(5), threading.Event()

            def work(kind):
                session = Session()
                begun.wait(SOON)
                try:
                    while not (kind and over.is_set()):
                        if kind:
                            cluster.read(session, "south", "n")
                            self.assertEqual(cluster.read_many(Session(), "north", ["n", "tea"]).values["tea"], 40)
                            cluster.query("south", 0).end()
                        else:
                            cluster.propose(session, {"n": add(1)})
                except (Stopped, NotYet) as why:
                    ends.append(type(why))

            threads = [threading.Thread(target=work, args=[kind]) for kind in (0, 0, 1, 1)]
            for thread in threads:
                thread.start()
            begun.wait(SOON)
            time.sleep(turn / 400)
            closed = [self.in_thread(cluster.close) for _ in range(2)]
            cluster.close()
            for it in closed:
                it.result(2 * SOON)
            over.set()
            for thread in threads:
                thread.join(2 * SOON)
                self.assertFalse(thread.is_alive())
            self.assertEqual(len(ends), 2)
            self.assertEqual(cluster._calls, {})
            self.audited(cluster.record("north"))

    def test_a_signal_handler_amid_a_call(self):
        cluster, told = self.forced(), []

        def handler(number, frame):
            told.append(cluster.read(Session(), "north", "n").value)
            told.append(cluster.close().numbers().length)

        before = signal.signal(signal.SIGALRM, handler)
        signal.setitimer(signal.ITIMER_REAL, 0.15)
        try:
            with self.soon():
                self.assertEqual(self.raised(NotYet, cluster.propose, Session(), {"n": add(1)}).number, 1)
        finally:
            signal.signal(signal.SIGALRM, before)
        self.assertEqual(told, [0, 1])

    def test_a_forked_child(self):
        with self.forced() as cluster:
            session, query, queries = Session(), cluster.query("south", 5), [cluster.query("south", 5)]
            cluster.propose(session, {"n": add(1)})
            waiting = self.in_thread(cluster.read_when_level, Session(2), "south", "n")
            time.sleep(0.05)

            def in_child():
                for call in (lambda: cluster.propose(session, {"n": add(1)}), lambda: cluster.read(session, "north", "n"), cluster.numbers,
                             lambda: cluster.settle(session, 1), cluster.finish, cluster.stop, cluster.close, cluster.start, query.end,
                             lambda: cluster.read_many(session, "north", ["n"]), lambda: cluster.record("north"), lambda: query.read("n"),
                             lambda: cluster.query("north", 1), lambda: cluster.lags("north"), lambda: cluster.relimit("north", "all", 1)):
                    self.assertRaises(Forked, call)
                with self.assertRaises(Forked), query:
                    cluster.numbers()
                queries.clear()
                cluster.__exit__(None)
                gc.collect()
                with self.forced() as own:  # it may have one of its own
                    self.assertEqual(own.propose(Session(), {"n": add(1)}), 1)
                return 7

            for _ in range(3):
                self.assertEqual(self.forked(in_child), 7)
            self.assertEqual(cluster.propose(session, {"n": add(1)}), 2)
            self.assertEqual(waiting.result(SOON), (2, 2))
            self.assertEqual(query.end().reads, 0)

    def test_the_end_of_python_amid_calls(self):
        script = """
import ordup, threading
cluster = ordup.Cluster({"x": 0}, {"s": 4})
cluster.start()
query = cluster.query("s", 1)
for _ in range(3):
    threading.Thread(target=cluster.read_when_level, args=[ordup.Session(1), "s", "x"], daemon=True).start()
left = ordup.Cluster({"x": 0}, {"s": 4})
left.start()
print("at the end", flush=True)
"""
        with self.soon(), self.started(script) as process:
            self.assertEqual(process.stdout.read(), b"at the end\n")
        self.assertEqual(process.returncode, 0)

    def test_a_forgotten_cluster_ends(self):
        tasks = self.tasks()
        cluster = self.forced()
        cluster.start()
        cluster.propose(Session(), {"n": add(1)})
        forgotten = cluster._forgotten
        del cluster
        gc.collect()
        self.assertFalse(forgotten.alive)
        self.assertEqual(self.tasks(), tasks)

    def test_ten_thousand_clusters_leave_no_memory(self):
        def resident():
            gc.collect()
            return int(Path("/proc/self/statm").read_text().split()[1]) * 4096

        def one(number):
            cluster = Cluster(objects={"n": 0}, sites={"s": Site(4, {"count": 0})})
            if number % 20 == 0:
                with cluster:
                    cluster.propose(Session(), {"n": add(1)})
                    cluster.query("s", 1).read("n")
                    cluster.record("s")
                cluster = cluster.close().successor()
            cluster.read(Session(), "s", "n")

        for number in range(1_000):
            one(number)
        before = resident()
        for number in range(10_000):
            one(number)
        self.assertLess(resident() - before, 2 << 20)  # a cluster has some 20 KB
