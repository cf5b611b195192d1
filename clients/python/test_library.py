"""Tests of a store in the process alone."""

import gc
import io
import os
import tempfile
import threading
import time
from unittest import mock

from cases import VALID, TestCase
from ordup import Error, NoMemory, Proposed, Store, Yes, _library, check, check_series, find, line


class InProcess(TestCase):
    program = None

    def test_it_has_no_process(self):
        store = self.shop()
        self.assertIsNone(store.process)
        self.assertEqual(store.close(), 0)
        self.assertEqual(store.close(), 0)
        error = self.ended(store.commands, ["settle", "show a"])
        self.assertEqual((error.status, error.answered, error.unanswered), (0, [], ["settle", "show a"]))
        self.ended(store.record, "a")
        self.ended(store.next_declarations)

    def test_the_same_bytes_as_behind_a_pipe(self):
        here, there = self.store(), self.store(TestCase.program)
        lines = b"propose add:x:1\nsettle\nsend a\napply a\nreport a\n# a comment\nbad\n\n" * 2000
        for text in (b"object x 1\n\nsite a 1\n# c\n", b"start", lines, b"show a\n" * 5000, b"certify a", b"x" * 70_000 + b"\nshow a"):
            self.assertEqual(here.run(text), there.run(text))

    def test_a_record(self):
        store = self.store()
        self.refused(2, "NotStarted", store.record, "a")
        lines = ["object x 0", "object y 10", "site a 4", "limit a object x 5", "start", "propose add:x:5", "settle"]
        store.commands(lines + ["propose add:x:1", "settle"])
        self.assertEqual(store.record("a"), VALID)
        self.refused(8, "UnknownSite", store.record, "b")
        self.assertEqual(check(store.record("a")), Yes(1))
        store.commands([line("propose", ("add", "y", 1))] * 10_000 + ["send a"] * 2 + ["apply a"] * 2 + ["report a"])
        store.commands(["settle"] * 10_001)
        self.assertGreater(len(store.record("a")), 200_000)
        self.assertEqual(check(store.record("a")), Yes(1))

    def test_the_successor(self):
        store = self.shop()
        store.propose({"x": ("add", 3), "y": ("set", 7)})
        self.refused(22, "NotYet", store.next_declarations)
        store.settle()
        following = self.store()
        answers = following.run(store.next_declarations())
        self.assertEqual(answers, b"ok object x\nok object y\nok site a\nok limit a\nok start\n")
        self.assertEqual(following.show("a").values, {"x": 3, "y": 7})
        self.refused(2, "NotStarted", self.store().next_declarations)

    def test_refused_memory_loses_nothing(self):
        store = self.shop()
        whole = find().run

        def refuse(handle, text, size, *others):
            """Takes the first half of the lines, as where memory is refused then."""
            half = text.find(b"\n", size // 2) + 1
            status = whole(handle, text[:half], half, *others)
            return 4 if text else status

        with mock.patch.object(find(), "run", refuse), self.assertRaises(NoMemory) as caught:
            store.commands(["show a"] * 400)
        self.assertEqual((caught.exception.status, len(caught.exception.answered), len(caught.exception.unanswered)), (4, 201, 199))
        self.assertEqual(caught.exception.answered[-1], store.show("a"))
        self.assertEqual(store.run(b"settle"), b"refused 17 NothingToSettle\n")

    def test_a_text_of_many_rooms_comes_by_the_second_call(self):
        rooms = []

        def call(_at, room, written):
            rooms.append(room)
            self.assertLess(len(rooms), 3)
            written.value = 9 * _library._ROOM
            return _library._MORE if room < written.value else 0

        self.assertEqual(_library.whole(call), (0, bytes(9 * _library._ROOM)))
        self.assertEqual(len(rooms), 2)

    def test_two_stores_are_two(self):
        one, two = self.shop(), self.shop()
        self.assertEqual(one.propose({"x": ("add", 1)}), Proposed(1))
        self.assertEqual(two.propose({"x": ("add", 1)}), Proposed(1))

    def test_a_thread_with_a_small_stack(self):
        before = threading.stack_size(256 * 1024)
        try:
            store, outcomes = self.shop(), []
            lines = [line("propose", ("add", "y", 1)), "settle", "certify a"]
            thread = threading.Thread(target=lambda: outcomes.extend(store.commands(lines)))
            thread.start()
            thread.join()
        finally:
            threading.stack_size(before)
        self.assertEqual(len(outcomes), 3)

    def test_a_line_of_certify_ends_its_piece(self):
        store, library, runs = self.shop(), find(), []

        def recorded(name):
            run = getattr(library, name)

            def record(handle, text, *others):
                runs.append((name, text))
                return run(handle, text, *others)

            return mock.patch.object(library, name, record)

        text = b"settle\n" * 2_000 + b"certify a\n" * 3 + b"show a\n"
        with recorded("run"), recorded("run_long"):
            self.assertEqual(store.run(text).count(b"\n"), 2_004)
        runs = [run for run in runs if run[1]]
        self.assertEqual(b"".join(piece for _, piece in runs), text)
        for name, piece in runs:
            self.assertEqual((name, piece.count(b"certify")), ("run_long", 1) if piece.endswith(b"certify a\n") else ("run", 0))
            self.assertLess(len(piece), 5_000)

    def test_threads_run_during_a_long_call(self):
        store, turns, ended = self.shop(), [time.monotonic()], threading.Event()

        def take_turns():
            while not ended.wait(0.001):
                turns.append(time.monotonic())

        thread = threading.Thread(target=take_turns)
        thread.start()
        start = time.monotonic()
        store._way._run(find().run_long, b"\n" * 20_000_000, io.BytesIO())
        took = time.monotonic() - start
        ended.set()
        thread.join()
        longest = max(after - before for before, after in zip(turns, turns[1:] + [start + took]))
        self.assertLess(longest, took / 2)

    def test_a_store_that_is_closed_is_closed_in_the_library(self):
        store = self.shop()
        opened, handle = find().open, store._way._handle
        store.close()
        self.assertEqual(opened(handle), 0)  # it was closed, so it can be opened
        find().close(handle)

    def test_a_forked_child_calls_nothing_of_the_library(self):
        library = find()
        with mock.patch.object(library, "close", mock.Mock(wraps=library.close)) as close:
            stores = [self.shop(), Store()]

            def leave():
                stores[0].close()
                stores.clear()
                gc.collect()
                return close.call_count

            self._cleanups.clear()
            self.assertEqual(self.forked(leave), 0)
            stores.clear()
            gc.collect()
            self.assertEqual(close.call_count, 2)

    def test_the_end_of_python_calls_nothing_of_the_library(self):
        # A thread that is no longer waited for could be in a call.
        script = """
import ordup
library = ordup.find()
close, library.close = library.close, lambda handle: print("closed", flush=True)
stores = [ordup.Store(), ordup.Store()]
stores.pop()
"""
        with self.started(script) as process:
            self.assertEqual(process.stdout.read(), b"closed\n")

    def test_a_record_is_told_under_the_lock(self):
        store, held, whole = self.shop(), [], find().record

        def look():
            is_free = store._way._lock.acquire(blocking=False)
            held.append(not is_free)
            if is_free:
                store._way._lock.release()

        def record(*words):
            thread = threading.Thread(target=look)
            thread.start()
            thread.join()
            return whole(*words)

        with mock.patch.object(find(), "record", record):
            store.record("a")
        self.assertEqual(held, [True])

    def test_a_record_of_what_is_no_name(self):
        store = self.shop()
        for name in ("", "b", "a b", "\ud800", "a" * 100_000):
            self.refused(8, "UnknownSite", store.record, name)
        for name in (None, 5, b"a"):
            self.assertRaises(TypeError, store.record, name)
        self.assertTrue(store.record("a"))

    def test_a_record_that_is_too_long(self):
        with mock.patch.object(find(), "check", lambda *words: 8):
            self.assertRaisesRegex(Error, "read fault", check, b"")

    def test_a_check_that_is_refused_memory(self):
        with mock.patch.object(find(), "check", lambda *words: 4):
            self.assertRaises(MemoryError, check, b"")
        with mock.patch.object(find(), "check_series", lambda *words: 4):
            self.assertRaises(MemoryError, check_series, b"")

    def test_an_older_library(self):
        older = mock.Mock(spec=["ordup_version"])
        older.ordup_version.return_value = 1
        with mock.patch("ctypes.PyDLL", return_value=older), mock.patch("ctypes.CDLL", return_value=older):
            with mock.patch.dict(os.environ, {"ORDUP_LIBRARY": "older.so"}):
                self.assertRaisesRegex(OSError, "older.so is an older library of ordup: .*ordup_check_series", Store)

    def test_where_it_is_looked_for(self):
        with tempfile.NamedTemporaryFile(suffix=".so") as no_library:
            for path in ("/no/such/library.so", no_library.name, "libc.so.6"):
                with mock.patch.dict(os.environ, {"ORDUP_LIBRARY": path}):
                    self.assertRaises(OSError, Store)
