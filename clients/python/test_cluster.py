#!/usr/bin/env python3
"""Tests the clusters of the module on the library: clients/python/test_cluster.py [PROGRAM] [--long] [TEST..]

Threads that propose, read and query, with the values that they must see; each exception; Ctrl-C, signals, forks and ends amid a call;
memory, a cluster at rest, and the examples. PROGRAM is `ordup`, which then audits the records. With --long the threads make a
million updates, where they make 1,200 else, and tell what was done. Of the variables ORDUP_UPDATES says how many of them a caller makes in a
cluster, ORDUP_EPOCHS how many clusters there are, and ORDUP_RECORDS names a folder that gets the records: EPOCH_SITE.csv.
"""

import contextlib
import doctest
import faulthandler
import gc
import os
import random
import signal
import sys
import threading
import time
import unittest
from collections import Counter
from concurrent.futures import ThreadPoolExecutor
from pathlib import Path
from unittest import mock

if __name__ == "__main__":
    sys.dont_write_bytecode = True

import ordup
from cases import TestCase
from cluster_cases import IS_LONG, SOON, ClusterCase
from ordup import (
    Behind, Cluster, Condition, Error, InUse, Lag, NotYet, Refused, Session, Site, Stopped, Unmet, add, at_least, at_most, max_, min_, mul,
    set_, take,
)
from ordup import _cluster_answers
from test_cluster_ends import Ends
from test_examples import Asyncio, Page, Service
from test_header import Header  # unittest finds it here


class Threads(ClusterCase):
    def test_reads_show_what_was_written_with_its_values(self):
        # Each update adds 1 to n, so what a site holds is how many updates it has applied.
        limit, callers = 3, 4
        updates, epochs = (int(os.environ.get(name, usual[IS_LONG])) for name, usual in (("ORDUP_UPDATES", (150, 31_250)), ("ORDUP_EPOCHS", (2, 8))))
        objects = {"n": 0, **{f"x{caller}": 0 for caller in range(callers)}}
        sites = {"north": Site(4, {"count": limit}), "south": 64, "east": Site(1, {"all": 8}), "west": 16}
        series = {site: [] for site in sites}

        def work(cluster, caller, session, chance):
            mine, done = f"x{caller}", Counter()
            for _ in range(updates):
                if chance.random() < 0.1:
                    unmet = self.raised(Unmet, cluster.propose, session, {mine: add(1)}, conditions=[at_most(mine, written[caller])])
                    self.assertEqual(unmet.index, 0)
                    done["conditions not met"] += 1
                kept = [at_least("n", 1), at_most(mine, written[caller] + 1)]
                number = cluster.propose(session, {"n": add(1), mine: add(1)}, conditions=kept)
                self.assertGreaterEqual(session.seen, number)
                site, seen = chance.choice(list(sites)), session.seen
                (values, applied) = cluster.read_many(session, site, ["n", mine], timeout=SOON)
                self.assertGreaterEqual(applied, max(seen, number))
                self.assertEqual(values["n"], applied)
                self.assertEqual(session.seen, applied)
                written[caller] += 1
                self.assertEqual(values[mine], written[caller])
                done["reads"] += 1
                with contextlib.suppress(Behind):
                    value, applied = cluster.read(session, chance.choice(list(sites)), "n")
                    self.assertGreaterEqual(applied, session.seen)
                    self.assertEqual(value, applied)
                    done["reads"] += 1
                if chance.random() < 0.2:
                    with cluster.query(chance.choice(list(sites)), limit=6) as query:
                        with contextlib.suppress(Refused):
                            value, imported, total = query.read("n")
                            self.assertEqual(imported, total)
                            self.assertLessEqual(abs(value - query.end().place), imported)
                        self.assertLessEqual(query.end().total, 6)
                    done["queries"] += 1
                if chance.random() < 0.05:
                    with contextlib.suppress(Refused):
                        cluster.relimit("west", "count", chance.choice([2, 20]))
                        done["limits changed"] += 1
            return done

        def watch(cluster):
            while not ended.wait(0.001):
                acknowledged = cluster.numbers().acknowledged
                self.assertGreaterEqual(cluster.read(Session(), "north", "n").applied, acknowledged - limit)

        sessions, written, done = [Session() for _ in range(callers)], [0] * callers, Counter()
        folder = os.environ.get("ORDUP_RECORDS")
        following = Cluster(objects=objects, sites=sites)
        for epoch in range(epochs):
            ended = threading.Event()
            with following as cluster, ThreadPoolExecutor(callers + 1) as pool:
                watcher = pool.submit(watch, cluster)
                works = [pool.submit(work, cluster, it, sessions[it], random.Random(epoch * 10 + it)) for it in range(callers)]
                try:
                    for it in works:
                        done.update(it.result(7200 if IS_LONG else 60))
                finally:
                    ended.set()
                watcher.result(60)
                cluster.finish(SOON)
            closed = cluster.close()
            total = (epoch + 1) * callers * updates
            self.assertEqual(closed.numbers(), (epoch * callers * updates, total, total))
            for at, (site, record) in enumerate(closed.records().items()):
                self.assertEqual(cluster.read(Session(), site, "n"), (total, total))
                if folder:
                    (Path(folder) / f"{epoch}_{at}.csv").write_bytes(record)
                else:
                    series[site].append(record)
            following = closed.successor()
        if IS_LONG:
            print(f"{total} updates,", ", ".join(f"{number} {what}" for what, number in done.items()))
        if not folder:
            for records in series.values():
                self.audited(*records)

    def test_who_waits_is_woken_at_once(self):
        with self.forced() as cluster:
            session = Session()
            start = time.monotonic()
            for _ in range(200):
                cluster.propose(session, {"n": add(1)})
                cluster.read(session, "south", "n", timeout=None)
            self.assertLess(time.monotonic() - start, SOON)

    def test_a_cluster_at_rest_takes_nothing(self):
        with self.forced() as cluster:
            cluster.propose(Session(), {"n": add(1)})
            cluster.finish()
            waiting = self.in_thread(cluster.read_when_level, Session(99), "south", "n")
            time.sleep(0.05)
            start = time.process_time()
            time.sleep(0.5)
            self.assertLess(time.process_time() - start, 0.02)
            cluster.stop()
            self.assertEqual(self.raised(Behind, waiting.result, SOON).applied, 1)

    def test_other_threads_run_while_a_call_waits(self):
        cluster, turns = self.forced(), 0
        waiting = self.in_thread(cluster.propose, Session(), {"n": add(1)}, timeout=0.5)
        while not waiting.done():
            turns += 1
            time.sleep(0.001)
        self.assertGreater(turns, 50)
        self.assertEqual(self.raised(NotYet, waiting.result).number, 1)


class Calls(ClusterCase):
    def test_each_change(self):
        with Cluster(objects={"a": 3, "b": 7, "c": 7, "d": 7, "e": 7, "f": 7, "g": 7}, sites={"s": 4}) as cluster:
            session = Session()
            cluster.propose(session, {
                "a": add(-2), "b": set_(-2), "c": mul(-2), "d": max_(8), "e": min_(-2), "f": take("a"), "g": ("add", 1),
            })
            values = cluster.read_many(session, "s", "abcdefg", timeout=SOON).values
            self.assertEqual(values, {"a": 1, "b": -2, "c": -14, "d": 8, "e": -2, "f": 3, "g": 8})

    def test_the_numbers(self):
        with self.forced(before=7) as cluster:
            session = Session()
            self.assertEqual(cluster.numbers(), (7, 7, 7))
            self.assertEqual(session.numbered, 0)
            self.assertEqual(cluster.propose(session, {"n": add(1)}), 8)
            self.assertEqual((session.seen, session.numbered, repr(session)), (8, 8, "Session(8)"))
            self.assertEqual(cluster.numbers(), (7, 8, 8))
            self.assertEqual(cluster.read(session, "south", "tea", timeout=SOON), (40, 8))
            cluster.settle(Session(), 8, timeout=0)
            self.assertEqual((cluster.objects, cluster.sites), (("n", "tea"), ("north", "south")))

    def test_time_limits(self):
        cluster, session = self.forced(), Session()
        self.assertEqual(self.raised(NotYet, cluster.propose, session, {"n": add(1)}, timeout=0).number, 1)
        for number, seconds in ((2, 0.03), (3, 0.25)):  # within a slice, and over two
            with self.soon(seconds):
                late = self.raised(NotYet, cluster.propose, session, {"n": add(1)}, timeout=seconds)
            self.assertEqual((late.number, session.numbered, session.seen), (number, number, 0))
            self.assertEqual(str(late), f"update {number} stands, and is not acknowledged yet")
            with self.soon(seconds):
                self.assertEqual(self.raised(NotYet, cluster.settle, session, 1, timeout=seconds).number, 1)
            with self.soon(seconds):
                self.assertEqual(self.raised(NotYet, cluster.finish, timeout=seconds).number, number)
            with self.soon(seconds):
                behind = self.raised(Behind, cluster.read, Session(1), "south", "n", timeout=seconds)
            self.assertEqual((behind.applied, str(behind)), (0, "the site has applied 0 updates, and the session has seen more"))
            with self.soon(seconds):
                self.raised(Behind, cluster.read_when_level, Session(1), "south", "n", seconds)
            with self.soon(seconds):
                self.assertEqual(self.raised(Behind, cluster.read_many_when_level, Session(1), "south", ["n"], seconds).applied, 0)
            with self.soon(seconds):
                late = self.raised(NotYet, self.in_thread(cluster.settle, session, 1, timeout=seconds).result)
        self.assertEqual(self.raised(Behind, cluster.read, Session(1), "south", "n").applied, 0)
        self.raised(Behind, cluster.read_many, Session(1), "south", ["n"])
        with self.soon():
            self.raised(NotYet, cluster.finish, timeout=-1.0)
        # What began without threads goes on with them, and a wait of some slices ends as one does.
        timer = threading.Timer(0.35, cluster.start)
        timer.start()
        with self.soon(0.2):
            self.assertEqual(cluster.propose(session, {"n": add(1)}), 4)
        timer.join()
        cluster.settle(session, 1)
        self.assertEqual(cluster.read_when_level(session, "south", "n"), (4, 4))
        for seconds in (None, 10**6, 10**400, float("inf")):
            cluster.settle(session, 1, timeout=seconds)
        cluster.close()

    def test_an_unmet_condition(self):
        with self.forced() as cluster:
            session = Session()
            unmet = self.raised(Unmet, cluster.propose, session, {"tea": add(-3)}, conditions=[("tea", "at_least", 2**62 + 1)])
            self.assertEqual((unmet.index, unmet.condition), (0, Condition("tea", "at_least", 2**62 + 1)))
            self.assertEqual(str(unmet), f"tea would not be at least {2**62 + 1}")
            self.assertEqual((session.numbered, cluster.numbers().length), (0, 0))

    def test_conditions(self):
        with Cluster(objects={"tea": 40, "rye": 0}, sites={"shop": Site(64, {"count": 0}), "yard": 64}) as cluster:
            session, sale = Session(), {"tea": add(-30), "rye": add(1)}
            kept = [at_most("rye", 1), at_least("tea", 0)]
            self.refused(6, "UnknownObject", lambda: cluster.propose(session, sale, conditions=[at_least("coffee", 0)]))
            self.assertEqual(cluster.propose(session, sale, conditions=iter(kept)), 1)
            unmet = self.raised(Unmet, cluster.propose, session, sale, conditions=kept)
            self.assertEqual((unmet.index, unmet.condition), (0, kept[0]))
            unmet = self.raised(Unmet, cluster.propose, session, {"tea": add(-30)}, conditions=kept)
            self.assertEqual((unmet.index, unmet.condition), (1, kept[1]))
            self.assertEqual(cluster.numbers(), (0, 1, 1))
            # Two clerks who both see 10 bags sell no more than these.
            def sell():
                try:
                    return cluster.propose(Session(), {"tea": add(-1)}, conditions=[at_least("tea", 0)])
                except Unmet:
                    return None

            with ThreadPoolExecutor(4) as pool:
                sold = [it.result() for it in [pool.submit(sell) for _ in range(20)]]
            self.assertEqual(sum(number is not None for number in sold), 10)

    def test_groups_lags_and_the_numbers_of_a_site(self):
        sites = {"shop": Site(64, {"count": 0}), "yard": Site(64, {("group", "all"): 100, "all": 200, ("object", "rye"): 5})}
        with Cluster(objects={"tea": 40, "rye": 0}, groups={"all": ["tea", "rye"]}, sites=sites, before=7) as cluster:
            session = Session()
            cluster.propose(session, {"tea": add(-30)})
            cluster.finish()
            cluster.read_when_level(session, "yard", "tea")
            cluster.propose(session, {"tea": add(-1)})
            numbers = cluster.site_numbers("shop")
            self.assertEqual((numbers.sent, numbers.applied, numbers.rounds), (9, 9, 2))
            self.assertEqual(cluster.lags("shop"), (Lag("count", 0, 0),))
            lags = {lag.scope: lag for lag in cluster.lags("yard")}
            self.assertEqual({scope: lag.amount for scope, lag in lags.items()}, sites["yard"].limits)
            self.assertLessEqual(lags["all"].weight, 31)
            self.assertEqual(lags["object", "rye"].weight, 0)
            self.assertEqual(cluster.relimit("yard", ("group", "all"), 90), 10)
            self.assertIn(("group", "all"), [lag.scope for lag in cluster.lags("yard")])
        yard = cluster.site_numbers("yard")
        self.assertEqual((yard.sent, yard.applied, yard.reported, yard.rounds), (9, 9, 9, 0))

    def test_a_limit_that_is_changed(self):
        cluster, session = self.forced(), Session()
        self.assertEqual(cluster.relimit("south", "all", 5), 1)
        self.assertEqual(cluster.relimit("south", ("object", "tea"), 5), 1)
        self.raised(NotYet, cluster.propose, session, {"n": add(1)}, timeout=0)
        self.refused(24, "HeadPending", cluster.relimit, "south", "all", 9)
        with cluster:
            cluster.settle(session, 1)
            self.assertEqual(cluster.relimit("south", "all", 9), 2)

    def test_a_query(self):
        with self.forced() as cluster:
            session = Session()
            cluster.propose(session, {"n": add(1), "tea": add(-1)})
            cluster.read_when_level(session, "south", "n")
            with cluster.query("south", limit=0) as query:
                self.assertEqual(query.read("tea"), (39, 0, 0))
                self.refused(6, "UnknownObject", query.read, "coffee")
                self.assertEqual(query.read("n").value, 1)
                self.assertEqual(query.end(), (1, 40, 0, 2))
                self.assertRaisesRegex(Error, "has ended", query.read, "n")
            self.assertEqual(query.end(), (1, 40, 0, 2))
            forgotten = cluster.query("south", 10**18)
            self.assertEqual(forgotten.read("n").imported, 0)
        late = cluster.query("south", 3)
        del cluster, forgotten
        gc.collect()
        self.assertEqual(late.read("tea"), (39, 0, 0))

    def test_a_query_imports_no_more_than_its_limit(self):
        cluster, session = Cluster(objects={"n": 0}, sites={"s": 64}), Session()
        for _ in range(5):
            cluster.propose(session, {"n": add(1)})
        with cluster.query("s", limit=9) as query:
            self.assertEqual(query.read("n"), (0, 5, 5))
            self.refused(20, "OverImport", query.read, "n")
            self.assertEqual(query.end(), (5, 0, 5, 1))
        cluster.close()

    def test_a_record_while_it_runs(self):
        with self.forced() as cluster:
            for _ in range(50):
                cluster.propose(Session(), {"n": add(1)})
            self.audited(cluster.record("north"))
            self.assertTrue(cluster.record("south").startswith(b"ordup,"))
            self.refused(8, "UnknownSite", cluster.record, "west")

    def test_a_successor(self):
        with self.forced() as cluster:
            session = Session()
            cluster.propose(session, {"n": add(5)})
        closed = cluster.close()
        with closed.successor() as following:
            self.assertEqual(following.read(session, "north", "n"), (5, 1))
            self.assertEqual(following.propose(session, {"n": add(1)}), 2)
            following.settle(session, 1)
            self.refused(9, "OutOfRange", following.settle, session, 3)
            self.assertEqual(cluster.numbers(), (0, 1, 1))
        self.audited(closed.record("north"), following.close().record("north"))

    def test_no_successor_after_what_is_not_acknowledged(self):
        cluster = self.forced()
        self.raised(NotYet, cluster.propose, Session(), {"n": add(1)}, timeout=0)
        self.assertEqual(self.raised(NotYet, cluster.close().successor).number, 1)


class Misuse(ClusterCase):
    def test_a_stopped_cluster(self):
        with self.forced() as cluster:
            session = Session()
            cluster.propose(session, {"n": add(1)})
            cluster.finish()
        self.assertRaises(Stopped, cluster.propose, session, {"n": add(1)})
        self.assertRaises(Stopped, cluster.start)
        self.assertRaises(Stopped, cluster.__enter__)
        cluster.stop()
        self.assertEqual(cluster.close().numbers(), (0, 1, 1))
        self.assertEqual(cluster.read(session, "south", "n"), (1, 1))
        self.assertEqual(cluster.read_many(session, "south", ["n"]).values, {"n": 1})
        self.assertEqual(cluster.query("south", 0).read("n").value, 1)
        self.assertRaises(Behind, cluster.read_when_level, Session(2), "south", "n")
        cluster.settle(session, 1)
        cluster.finish()

    def test_a_block_that_fails_closes_the_cluster(self):
        with self.assertRaises(ZeroDivisionError):
            with self.forced() as cluster:
                raise ZeroDivisionError
        self.assertRaises(Stopped, cluster.propose, Session(), {"n": add(1)})

    def test_a_cluster_is_started_once(self):
        cluster, tasks = self.forced(), self.tasks()
        for _ in range(3):
            cluster.start()
        self.assertEqual(self.tasks(), tasks + 3)
        cluster.close()
        self.assertEqual(self.tasks(), tasks)

    def test_a_session_in_two_calls(self):
        cluster, session = self.forced(), Session()
        waiting = self.in_thread(cluster.propose, session, {"n": add(1)})
        while not cluster.numbers().length:
            time.sleep(0.001)
        for call in (lambda: cluster.read(session, "north", "n"), lambda: cluster.propose(session, {"n": add(1)}),
                     lambda: cluster.settle(session, 1), lambda: cluster.read_many(session, "north", ["n"])):
            self.assertRaises(InUse, call)
        self.assertEqual(cluster.numbers().length, 1)
        with cluster:
            self.assertEqual(waiting.result(SOON), 1)
            self.assertEqual(cluster.read(session, "north", "n"), (1, 1))
            self.assertEqual(cluster._calls, {})

    def test_threads_that_take_turns_with_a_session_get_their_own_numbers(self):
        session, told = Session(), []

        def work():
            for _ in range(200):
                try:
                    told.append(cluster.propose(session, {"n": add(1)}))
                except InUse:
                    pass

        with Cluster(objects={"n": 0}, sites={"s": 64}) as cluster:
            threads = [threading.Thread(target=work) for _ in range(4)]
            for thread in threads:
                thread.start()
            for thread in threads:
                thread.join()
        self.assertEqual(sorted(told), list(range(1, len(told) + 1)))
        self.assertEqual(session.seen, len(told))

    def test_refusals(self):
        with self.forced() as cluster:
            session = Session()
            self.refused(6, "UnknownObject", cluster.propose, session, {"coffee": add(1)})
            self.refused(6, "UnknownObject", cluster.propose, session, {"n": take("coffee")})
            self.refused(1, "Syntax", cluster.propose, session, {"n": ("div", 2)})
            self.refused(11, "Empty", cluster.propose, session, {})
            for number in (10**9 + 1, -(10**9) - 1, 2**63, 2**64, 2**64 + 1, -(2**64) + 1, 10**30):
                self.refused(9, "OutOfRange", cluster.propose, session, {"n": set_(number)})
                self.refused(9, "OutOfRange", cluster.settle, session, abs(number))
                self.refused(9, "OutOfRange", cluster.settle, session, -abs(number))
            self.refused(9, "OutOfRange", cluster.settle, session, 0)
            for call in (cluster.read, cluster.read_when_level):
                self.refused(8, "UnknownSite", call, session, "west", "n")
                self.refused(6, "UnknownObject", call, session, "north", "coffee")
            self.refused(8, "UnknownSite", cluster.read_many, session, "west", ["n"])
            self.refused(6, "UnknownObject", cluster.read_many, session, "north", ["n", "coffee"])
            self.refused(8, "UnknownSite", cluster.query, "west", 1)
            for limit in (-1, 10**18 + 1, 2**64 + 1):
                self.refused(9, "OutOfRange", cluster.query, "north", limit)
                self.refused(9, "OutOfRange", cluster.relimit, "north", "all", limit)
            self.refused(8, "UnknownSite", cluster.relimit, "west", "all", 1)
            self.refused(6, "UnknownObject", cluster.relimit, "north", ("object", "coffee"), 1)
            self.refused(7, "UnknownGroup", cluster.relimit, "north", ("group", "all"), 1)
            self.refused(8, "UnknownSite", cluster.site_numbers, "west")
            self.refused(8, "UnknownSite", cluster.lags, "west")
            self.assertEqual(str(self.raised(Refused, cluster.propose, session, {"coffee": add(-3)})), "propose add:coffee:-3: refused 6 UnknownObject")
            self.assertEqual((cluster.numbers().length, session.numbered), (0, 0))

    def test_refused_declarations(self):
        sites = {"s": 4}
        for number, name, words in (
            (11, "Empty", dict(objects={}, sites=sites)),
            (11, "Empty", dict(objects={"x": 0}, sites={})),
            (4, "BadName", dict(objects={"X": 0}, sites=sites)),
            (4, "BadName", dict(objects={"": 0}, sites=sites)),
            (4, "BadName", dict(objects={"\ud800": 0}, sites=sites)),
            (4, "BadName", dict(objects={"x": 0}, sites={"a b": 4})),
            (9, "OutOfRange", dict(objects={"x": 10**9 + 1}, sites=sites)),
            (9, "OutOfRange", dict(objects={"x": 2**64}, sites=sites)),
            (9, "OutOfRange", dict(objects={"x": 0}, sites={"s": 0})),
            (9, "OutOfRange", dict(objects={"x": 0}, sites={"s": -1})),
            (9, "OutOfRange", dict(objects={"x": 0}, sites={"s": 1025})),
            (9, "OutOfRange", dict(objects={"x": 0}, sites={"s": Site(4, {"all": -1})})),
            (6, "UnknownObject", dict(objects={"x": 0}, sites={"s": Site(4, {("object", "y"): 1})})),
            (7, "UnknownGroup", dict(objects={"x": 0}, sites={"s": Site(4, {("group", "y"): 1})})),
            (10, "TooMany", dict(objects={f"x{it}": 0 for it in range(257)}, sites=sites)),
            (10, "TooMany", dict(objects={"x": 0}, sites={f"s{it}": 4 for it in range(17)})),
            (13, "LogFull", dict(objects={"x": 0}, sites=sites, before=10**18 + 1)),
            (13, "LogFull", dict(objects={"x": 0}, sites=sites, before=-1)),
        ):
            with self.subTest(name=name, words=str(words)[:80]):
                self.refused(number, name, lambda: Cluster(**words))

    def test_what_is_no_argument(self):
        with self.forced() as cluster:
            session = Session()
            for changes in (None, 5, "n", [("n", ("add", 1))], {"n"}):
                self.assertRaises(TypeError, cluster.propose, session, changes)
            for operand in (1.5, None, b"x", "tea"):
                self.assertRaises(TypeError, cluster.propose, session, {"n": ("add", operand)})
            self.refused(6, "UnknownObject", cluster.propose, session, {"n": ("take", 1)})
            self.assertRaises(ValueError, cluster.propose, session, {"n": add(1)}, conditions=[Condition("n", "over", 1)])
            for seconds in ("1", [], 1j, float("nan")):
                wrong = ValueError if seconds != seconds else TypeError
                self.assertRaises(wrong, cluster.propose, session, {"n": add(1)}, timeout=seconds)
                self.assertRaises(wrong, cluster.settle, session, 1, seconds)
                self.assertRaises(wrong, cluster.finish, seconds)
                self.assertRaises(wrong, cluster.read, session, "north", "n", seconds)
                self.assertRaises(wrong, cluster.read_many, session, "north", ["n"], seconds)
            for scope in ("object", "n", ("all", "n"), ("object", ""), ("site", "n")):
                self.assertRaises((ValueError, Refused), cluster.relimit, "north", scope, 1)
            for limit in (1.5, "1", None):
                self.assertRaises(TypeError, cluster.query, "north", limit)
                self.assertRaises(TypeError, cluster.relimit, "north", "all", limit)
                self.assertRaises(TypeError, cluster.settle, session, limit)
                self.assertRaises(TypeError, Session, limit)
            for names in ({"x": 1.5}, {"x": "1"}, {5: 1}, {None: 1}):
                self.assertRaises(TypeError, Cluster, names, {"s": 4})
            for sites in ({"s": 1.5}, {5: 4}, {"s": Site(4, {"all": 0.5})}):
                self.assertRaises(TypeError, Cluster, {"x": 0}, sites)
            self.assertEqual(cluster.numbers().length, 0)

    def test_statuses_that_have_no_name(self):
        self.assertRaisesRegex(Error, "read s x: the library's status is 10", _cluster_answers.must, 10, "read", "s", "x")
        self.assertRaisesRegex(Error, "the library's status is 128", _cluster_answers.must, 128)
        self.assertRaises(MemoryError, _cluster_answers.must, 126)
        self.assertRaises(ordup.Mixed, _cluster_answers.must, 127)

    def test_memory_that_is_refused(self):
        cluster, session = self.forced(), Session()
        with mock.patch.object(cluster, "_library", mock.Mock(wraps=cluster._library)) as library:
            library.propose_if.side_effect = lambda *words: 126
            self.assertRaises(MemoryError, cluster.propose, session, {"n": add(1)})
            library.close.side_effect = lambda *words: 126
            self.assertRaises(MemoryError, cluster.close)
            library.close.side_effect = lambda *words: 127
            self.assertRaises(ordup.Mixed, cluster.close)
        self.assertEqual(cluster.close().numbers(), (0, 0, 0))

    def test_libraries_without_clusters(self):
        older = mock.Mock(spec=["ordup_version"])
        older.ordup_version.return_value = 1
        with mock.patch("ctypes.PyDLL", return_value=older), mock.patch("ctypes.CDLL", return_value=older):
            with mock.patch.dict(os.environ, {"ORDUP_LIBRARY": "older.so"}):
                self.assertRaisesRegex(OSError, "older.so is an older library of ordup, without clusters", self.forced)
                older.ordup_version.return_value = 2
                self.assertRaisesRegex(OSError, "older.so has the version 2", self.forced)
        with mock.patch("ordup._cluster_library.found", return_value=None):
            self.assertRaisesRegex(OSError, "not found", self.forced)
        for path in ("/no/such/library.so", "libc.so.6"):
            with mock.patch.dict(os.environ, {"ORDUP_LIBRARY": path}):
                self.assertRaises(OSError, self.forced)


CASES = [Threads, Calls, Misuse, Ends, Page, Asyncio, Service]  # what needs the library


def load_tests(loader, tests, pattern):
    tests.addTest(doctest.DocTestSuite(ordup, test_finder=Examples()))
    return tests


class Examples(doctest.DocTestFinder):
    """The examples of the clusters alone."""

    def find(self, *words, **options):
        return [test for test in super().find(*words, **options) if test.name.startswith("ordup.Cluster")]


if __name__ == "__main__":
    sys.argv = [word for word in sys.argv if word != "--long"]
    if len(sys.argv) > 1 and Path(sys.argv[1]).is_file():
        TestCase.program = str(Path(sys.argv.pop(1)).resolve())
    else:
        print("not tried: the audit of the records by a program, since none was given")
    signal.signal(signal.SIGINT, signal.default_int_handler)
    faulthandler.dump_traceback_later(14_400 if IS_LONG else 600, exit=True)
    result = unittest.main(exit=False).result
    for why in sorted({why for _, why in result.skipped}):
        print(f"not tried: {why}")
    failed = len(result.failures) + len(result.errors)
    print(f"{result.testsRun - failed - len(result.skipped)} passed, {failed} failed")
    sys.exit(0 if result.wasSuccessful() and result.testsRun else 1)
