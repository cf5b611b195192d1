"""Tests of how a store ends, and of what goes on around it meanwhile."""

import contextlib
import gc
import json
import os
import signal
import threading
import time

from cases import TestCase
from ordup import ProgramEnded, Proposed, Started, Store, TimedOut, find, line
from ordup._way import Way

# What a store answers for ever, and how long a test waits for what should come at once.
MANY = [line("propose", ("add", "y", 0))] * 20_000
SOON = 3.0


class Stopped(Exception):
    """What a handler of a signal raises."""


class EndCase(TestCase):
    @contextlib.contextmanager
    def soon(self):
        start = time.monotonic()
        yield
        self.assertLess(time.monotonic() - start, SOON)

    @contextlib.contextmanager
    def alarm(self, seconds, handler):
        before = signal.signal(signal.SIGALRM, lambda number, frame: handler())
        signal.setitimer(signal.ITIMER_REAL, seconds)
        try:
            yield
        finally:
            signal.setitimer(signal.ITIMER_REAL, 0)
            signal.signal(signal.SIGALRM, before)

    def mute(self):
        """A store whose program answers nothing, and has a child that holds its output."""
        return self.store(self.stand_in("sleep 60\n"))

    def busy(self, store):
        """Calls until the store ends, and returns how it did."""
        while True:
            try:
                store.commands(MANY)
            except ProgramEnded as ended:
                return ended


class ClosedAmid(Way):
    """A way to a store that is closed amid each exchange, as by a signal handler."""

    ends = 0

    def _exchange(self, text, count, seconds):
        self.close()
        return b"", None

    def _stop(self):
        pass

    def _end(self):
        if not self._calling:
            self.ends += 1
        return 0


class Ends(EndCase):
    def test_a_close_by_a_signal_handler_ends_the_call(self):
        for tenth in range(10):
            store = self.shop()
            with self.alarm(0.02 + tenth / 97, store.close), self.soon():
                ended = self.busy(store)
            self.assertEqual(len(ended.answered) + len(ended.unanswered), len(MANY))
            self.assertRaises(ProgramEnded, store.settle)

    def test_a_close_by_another_thread_ends_the_call(self):
        for tenth in range(10):
            store, ended = self.shop(), []
            thread = threading.Thread(target=lambda: ended.append(self.busy(store)), daemon=True)
            thread.start()
            time.sleep(0.02 + tenth / 97)
            with self.soon():
                store.close()
                thread.join(SOON)
            self.assertEqual(len(ended[0].answered) + len(ended[0].unanswered), len(MANY))

    def test_the_call_amid_which_a_store_was_closed_ends_it(self):
        way = ClosedAmid()
        way.ask(b"settle\n", 1, None)
        self.assertEqual(way.ends, 1)

    def test_many_threads_close_at_once(self):
        store, statuses = self.shop(), []
        threads = [threading.Thread(target=lambda: statuses.append(store.close()), daemon=True) for _ in range(8)]
        with self.soon():
            for thread in threads:
                thread.start()
            for thread in threads:
                thread.join(SOON)
        self.assertEqual(statuses, [0] * 8)

    def test_a_call_in_a_signal_handler_ends_the_store_at_most(self):
        store, inner = self.shop(), []

        def handler():
            try:
                inner.append(store.show("a").values["x"])
            except ProgramEnded:
                inner.append("ended")

        with self.alarm(0.05, handler), self.soon():
            while not inner:
                try:
                    store.commands(MANY)
                except ProgramEnded:
                    self.assertEqual(inner, ["ended"])
        self.assertIn(inner, ([0], ["ended"]))

    def test_a_time_limit_of_a_call(self):
        store = self.shop()
        text = b"propose add:y:0\n" * 500_000
        with self.soon(), self.assertRaises(TimedOut) as caught:
            store.run(text, timeout=0.01)
        answered, unanswered = caught.exception.answered, caught.exception.unanswered
        self.assertEqual(answered, [Proposed(place) for place in range(1, len(answered) + 1)])
        self.assertEqual(len(answered) + len(unanswered), 500_000)
        self.assertRaises(ProgramEnded, store.settle)

    def test_a_time_limit_that_is_kept(self):
        store = self.shop()
        store.timeout = 60.0
        self.assertEqual(store.propose({"x": ("add", 1)}), Proposed(1))
        self.assertEqual(store.commands(MANY, timeout=100.0)[-1], Proposed(20_001))
        self.assertEqual(store.close(), 0)

    def test_no_time_limit(self):
        for seconds in (10**6, 1e300, 10**400, float("inf")):
            with self.subTest(seconds=str(seconds)[:20]):
                store = self.store(time_limit=seconds, timeout=seconds)
                self.assertEqual(store.run(b"object x 0\nsite a 1"), b"ok object x\nok site a\n")
                self.assertEqual(store.commands(["start"], timeout=seconds), [Started()])
                store.timeout = 1.0
                self.assertEqual(store.run(b"settle", timeout=seconds), b"refused 17 NothingToSettle\n")
                self.assertEqual(store.close(), 0)

    def test_a_time_limit_that_is_over(self):
        for seconds in (0, -1.5, -(10**400), float("-inf")):
            self.assertRaises(TimedOut, self.shop().commands, MANY, timeout=seconds)

    def test_what_is_no_time_limit(self):
        store = self.shop()
        for seconds in ("x", "1", b"1", [], 1j, float("nan")):
            with self.subTest(seconds=seconds):
                wrong = ValueError if seconds != seconds else TypeError
                self.assertRaises(wrong, self.store, timeout=seconds)
                self.assertRaises(wrong, store.command, "propose add:x:1", timeout=seconds)
                self.assertRaises(wrong, store.run, b"propose add:x:1", timeout=seconds)
                store.timeout = seconds
                self.assertRaises(wrong, store.settle)
                store.timeout = None
        self.refused(17, "NothingToSettle", store.settle)

    def test_a_time_limit_of_long_answers(self):
        # They would be a gigabyte, and take seconds. Meanwhile another thread and a signal have their turn.
        script = """
import json, ordup, resource, signal, sys, threading, time
store = ordup.Store(sys.argv[1] if sys.argv[1:] else None)
store.run(b"object x 0\\nsite a 1\\nlimit a count 0\\nstart\\n")
store.run(b"propose add:x:1\\nsettle\\nsend a\\napply a\\nreport a\\nsettle\\n" * 40_000)
resource.setrlimit(resource.RLIMIT_AS, (3 << 29, 3 << 29))
start = last = time.monotonic()
turns, rung = [], []
def take_turns():
    global last
    while not rung or not ended:
        time.sleep(0.001)
        turns.append(time.monotonic() - last)
        last += turns[-1]
ended = False
thread = threading.Thread(target=take_turns)
thread.start()
signal.signal(signal.SIGALRM, lambda *words: rung.append(time.monotonic() - start))
signal.setitimer(signal.ITIMER_REAL, 0.2)
try:
    how = str(len(store.run(b"settle\\n" * 3_000 + b"certify a\\n" * 2_000, timeout=0.5)))
except Exception as error:
    how = type(error).__name__
took, longest, ended = time.monotonic() - start, max(turns), True
thread.join()
print(json.dumps([how, took, longest, rung[0]]))
"""
        with self.started(script) as process:
            how, took, longest, rung = json.loads(process.stdout.read())
        self.assertEqual(how, "TimedOut")
        self.assertLess(max(took, longest, rung), SOON)

    def test_a_forgotten_store_ends(self):
        store = Store(self.program)
        store.object("x", 0)
        if self.program:
            number = store.process.pid
            del store
            gc.collect()
            self.assertRaises(ProcessLookupError, os.kill, number, 0)
        else:
            opened, handle = find().open, store._way._handle
            del store
            gc.collect()
            self.assertEqual(opened(handle), 0)  # it was closed, so it can be opened
            find().close(handle)


class Mute(EndCase):
    """The same, where the program does not answer."""

    def test_a_close_by_a_signal_handler(self):
        store = self.mute()
        with self.alarm(0.1, store.close), self.soon():
            self.assertEqual(self.ended(store.settle).status, -signal.SIGKILL)

    def test_a_second_close_by_a_signal_handler(self):
        store = self.mute()
        with self.alarm(0.1, store.close), self.soon():
            self.assertEqual(store.close(), -signal.SIGKILL)

    def test_a_close_by_another_thread(self):
        store, ended = self.mute(), []
        thread = threading.Thread(target=lambda: ended.append(self.ended(store.settle)), daemon=True)
        thread.start()
        time.sleep(0.1)
        with self.soon():
            self.assertEqual(store.close(), -signal.SIGKILL)
            thread.join(SOON)
        self.assertEqual(ended[0].unanswered, ["settle"])

    def test_a_time_limit(self):
        store = self.store(self.stand_in("read line\necho ok start\nsleep 60\n"), timeout=1.0)
        with self.soon(), self.assertRaises(TimedOut) as caught:
            store.commands(["start", "settle"])
        self.assertEqual(caught.exception.unanswered, ["settle"])
        self.assertEqual(caught.exception.status, -signal.SIGKILL)
        self.assertEqual(self.ended(store.settle).status, -signal.SIGKILL)

    def test_a_time_limit_while_lines_are_written(self):
        store = self.mute()
        with self.soon(), self.assertRaises(TimedOut):
            store.commands(MANY, timeout=0.1)

    def test_an_interrupt(self):
        def interrupt():
            raise KeyboardInterrupt

        store = self.mute()
        with self.alarm(0.1, interrupt), self.soon():
            self.assertRaises(KeyboardInterrupt, store.settle)
        self.assertEqual(self.ended(store.settle).status, -signal.SIGKILL)

    def test_a_forgotten_store(self):
        number = Store(self.stand_in("exec sleep 60\n")).process.pid
        gc.collect()
        self.assertRaises(ProcessLookupError, os.kill, number, 0)


class Interrupts(EndCase):
    def test_between_calls(self):
        # A process with its own group, as a shell makes one, and Ctrl-C for the group.
        script = """
import ordup, sys, time
store = ordup.Store(sys.argv[1] if sys.argv[1:] else None)
store.object("x", 0)
try:
    print("ready", flush=True)
    time.sleep(60)
except KeyboardInterrupt:
    print(store.site("a", 1), store.close())
"""
        with self.started(script) as process:
            self.assertEqual(process.stdout.readline(), b"ready\n")
            os.killpg(process.pid, signal.SIGINT)
            self.assertEqual(process.stdout.read(), b"Declared(kind='site', name='a') 0\n")

    def test_within_a_call_no_answer_is_left_for_the_next(self):
        def stop():
            raise Stopped

        ends = 0
        for number in range(200):
            store, query = self.shop(), f"q{number}"
            try:
                with self.alarm(0.0005 + number % 50 / 5000, stop):
                    while True:
                        store.commands(MANY[:300])
                        store.settle()
            except Stopped:
                pass
            try:
                self.assertEqual(store.begin(query, "a", 0).query, query)
            except ProgramEnded:
                ends += 1
            store.close()
        self.assertGreater(ends, 0)


class Forks(EndCase):
    def test_a_child_that_closes(self):
        store = self.shop()
        with self.soon():
            self.assertEqual(self.forked(store.close), 0)
        self.assertEqual(store.propose({"x": ("add", 1)}), Proposed(1))
        self.assertEqual(store.close(), 0)

    def test_a_child_that_calls(self):
        store = self.shop()

        def call():
            try:
                store.propose({"x": ("add", 1)})
            except ProgramEnded:
                return 7

        self.assertEqual(self.forked(call), 7)
        self.assertEqual(store.propose({"x": ("add", 1)}), Proposed(1))

    def test_a_child_that_forgets(self):
        stores = [self.shop()]
        self._cleanups.clear()

        def forget():
            stores.clear()
            gc.collect()
            return 0

        self.assertEqual(self.forked(forget), 0)
        self.assertEqual(stores[0].propose({"x": ("add", 1)}), Proposed(1))
        self.assertEqual(stores[0].close(), 0)

    def test_a_child_that_lives_on(self):
        store = self.shop()
        child = os.fork()
        if not child:
            time.sleep(60)
            os._exit(0)
        try:
            with self.soon():
                self.assertEqual(store.close(), 0)
        finally:
            os.kill(child, signal.SIGKILL)
            os.waitpid(child, 0)

    def test_a_child_of_a_thread_amid_a_call(self):
        store = self.shop()
        thread = threading.Thread(target=lambda: self.busy(store), daemon=True)
        thread.start()
        time.sleep(0.05)
        for _ in range(5):
            with self.soon():
                self.assertEqual(self.forked(store.close), 0)
        store.close()
        thread.join(SOON)
        self.assertFalse(thread.is_alive())
