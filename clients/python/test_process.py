"""Tests of a store behind a pipe alone."""

import os
import signal
import tempfile
from pathlib import Path
from unittest import mock

from cases import SERIES, TOP, VALID, TestCase, text_of
from ordup import BadAnswer, Declared, Error, OnlyInProcess, Proposed, Store, check, check_series


class Process(TestCase):
    def test_it_ends(self):
        store = self.shop()
        self.assertIsNone(store.process.poll())
        self.assertEqual(store.close(), 0)
        self.assertEqual(store.process.returncode, 0)
        self.assertEqual(store.close(), 0)
        error = self.ended(store.commands, ["settle", "show a"])
        self.assertEqual((error.status, error.answered, error.unanswered), (0, [], ["settle", "show a"]))

    def test_a_block_ends_it(self):
        with self.assertRaises(ZeroDivisionError):
            with Store(self.program) as store:
                raise ZeroDivisionError
        self.assertEqual(store.process.returncode, 0)

    def test_one_that_does_not_end_is_killed(self):
        for text in ("exec sleep 60\n", "sleep 60\n", "sleep 60 >/dev/null &\nexec >/dev/null\nwait\n"):
            with self.subTest(text=text):
                store = self.store(self.stand_in(text), time_limit=0.1)
                self.assertEqual(store.close(), -signal.SIGKILL)

    def test_a_killed_program(self):
        store = self.shop()
        self.assertEqual(store.propose({"x": ("add", 1)}), Proposed(1))
        store.process.kill()
        error = self.ended(store.settle)
        self.assertEqual((error.status, error.answered, error.unanswered), (-signal.SIGKILL, [], ["settle"]))
        self.assertEqual(str(error), "status -9: 0 lines were answered, and 1 were not, from 'settle' on")
        self.assertEqual(self.ended(store.settle).status, -signal.SIGKILL)
        self.assertEqual(store.close(), -signal.SIGKILL)

    def test_a_pipe_that_breaks(self):
        # The program is given the first 16,000 bytes, which are 1,000 lines. Then the pipe breaks.
        for end, status in (("exit 3", 3), ("kill -KILL $$", -signal.SIGKILL)):
            with self.subTest(end=end):
                path = self.stand_in(f"head -c 16000 | '{self.program}' run\n{end}\n")
                error = self.ended(self.store(path).commands, ["object xyz 1000"] * 100_000)
                self.assertEqual(error.status, status)
                texts = [text_of(outcome) for outcome in error.answered]
                self.assertEqual(texts, ["ok object xyz"] + ["refused 5 NameTaken"] * 999)
                self.assertEqual(len(error.unanswered), 99_000)

    def test_an_answer_that_is_cut(self):
        path = self.stand_in("read line\nprintf 'ok object x\\nok objec'\nexit 4\n")
        error = self.ended(self.store(path).commands, ["object x 0", "object y 0", "start"])
        self.assertEqual((error.status, error.answered), (4, [Declared("object", "x")]))
        self.assertEqual(error.unanswered, ["object y 0", "start"])

    def test_a_program_that_is_another_one(self):
        half = "read line\nprintf 'ok start\\nok'\nsleep 60\n"
        for text in ("exec cat\n", "read line\necho ok nothing\n", "read line\necho ok sent a\n", "yes ok start\n", half):
            with self.subTest(text=text):
                store = self.store(self.stand_in(text))
                self.assertRaises(BadAnswer, store.command, "start")
                self.assertIsNotNone(store.process.returncode)
                self.ended(store.command, "start")
        store = self.store(self.stand_in("read line\necho ok sent a 1\n"))
        self.assertRaises(BadAnswer, store.start)

    def test_the_message_of_a_long_answer(self):
        long = "x" * 4000
        for text in (f"{long}\\n", f"ok start\\n{long}", f"ok start\\n{long}\\n", f"ok object {long}\\n"):
            store = self.store(self.stand_in(f"read line\nprintf '{text}'\nsleep 60\n"))
            with self.assertRaises(BadAnswer) as caught:
                store.start()
            self.assertLess(len(str(caught.exception)), 300)
        with self.assertRaises(BadAnswer) as caught:
            check(VALID, self.stand_in(f"echo {long}\n"))
        self.assertLess(len(str(caught.exception)), 300)

    def test_a_program_that_is_not_there(self):
        self.assertRaises(FileNotFoundError, Store, "/no/such/program")
        self.assertRaises(PermissionError, Store, TOP / "README.md")
        self.assertEqual(self.ended(self.store("false").start).status, 1)

    def test_the_program_on_the_path(self):
        with tempfile.TemporaryDirectory() as folder:
            Path(folder, "ordup").symlink_to(self.program)
            with mock.patch.dict(os.environ, {"PATH": folder}), mock.patch("ordup.find", return_value=None):
                self.assertEqual(self.store().process.args[0], self.program)
                with Store() as store:
                    self.assertEqual(store.process.args[0], str(Path(folder, "ordup")))
                    self.assertEqual(store.object("x", 0), Declared("object", "x"))
            with mock.patch.dict(os.environ, {"PATH": folder}):
                self.assertRaises(OSError, Store, "")
                self.assertRaises(OSError, check, VALID, "")

    def test_the_launcher_where_the_path_has_no_program(self):
        with mock.patch.dict(os.environ, {"PATH": ""}), mock.patch("ordup.find", return_value=None):
            with mock.patch("subprocess.Popen", side_effect=OSError) as start:
                self.assertRaises(OSError, Store)
        self.assertEqual(start.call_args[0][0], [TOP / "ordup", "run"])

    def test_what_only_a_store_in_the_process_does(self):
        store = self.shop()
        self.assertRaises(OnlyInProcess, store.record, "a")
        self.assertRaises(OnlyInProcess, store.next_declarations)
        self.assertEqual(store.propose({"x": ("add", 1)}), Proposed(1))

    def test_what_is_no_verdict(self):
        for text in ("cat", "echo yes", "echo no 1", "echo yes 1 WindowLight", "exit 3"):
            self.assertRaises(BadAnswer, check, VALID, self.stand_in(text + "\n"))
        for text in ("cat", "echo yes 1 1", "echo no 1 WindowLight", "echo malformed 1", "exit 3"):
            self.assertRaises(BadAnswer, check_series, SERIES, self.stand_in(text + "\n"))
        for call in (check, check_series):
            self.assertRaises(MemoryError, call, VALID, self.stand_in("echo no memory >&2\nexit 4\n"))
            self.assertRaises(Error, call, VALID, self.stand_in("echo read fault >&2\nexit 3\n"))
