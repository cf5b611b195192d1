#!/usr/bin/env python3
"""Tests the module on the built program: clients/python/test_ordup.py PROGRAM [TEST..]

What both ways to a store have is tried on each: behind a pipe, and in the process, where the library is found. Without it one line
says so. That is each command, each answer and each refusal of docs/FORMATS.md, the transcripts of the pages, 100,000 lines at once,
processes that end early, and signals, threads and forks amid a call. The module's own examples are run too, and those of
docs/CLIENTS.md. Where the library has clusters, test_cluster.py has their tests.
"""

import doctest
import faulthandler
import signal
import sys
import threading
import unittest
from pathlib import Path

sys.dont_write_bytecode = True

import ordup
from cases import SERIES, TOP, VALID, TestCase, text_of, transcripts
from ordup import (
    Abandoned, Acked, Applied, BadLine, Begun, Certified, Declared, Ended, Malformed, MalformedInSeries, No, NoInSeries, Proposed,
    Read, Refused, Relimited, Reported, Round, Sent, Shown, Started, Waiting, Yes, check, check_series, line,
)
import test_cluster
from test_ends import Ends, Forks, Interrupts, Mute
from test_header import Header
from test_library import InProcess
from test_package import Package
from test_process import Process

PAGE = str(TOP / "docs/CLIENTS.md")
BILLION = 1_000_000_000


class Commands(TestCase):
    def test_each_command(self):
        store = self.store()
        self.assertEqual(store.object("tea", 40), Declared("object", "tea"))
        self.assertEqual(store.object("till", 7), Declared("object", "till"))
        self.assertEqual(store.group("all_tea", ["tea"]), Declared("group", "all_tea"))
        self.assertEqual(store.site("south", 2), Declared("site", "south"))
        self.assertEqual(store.site("north", 4), Declared("site", "north"))
        self.assertEqual(store.limit("south", ("object", "tea"), 6), Declared("limit", "south"))
        self.assertEqual(store.limit("south", ("group", "all_tea"), 100), Declared("limit", "south"))
        self.assertEqual(store.limit("south", "all", 100), Declared("limit", "south"))
        self.assertEqual(store.limit("south", "count", 100), Declared("limit", "south"))
        self.assertEqual(store.start(), Started())
        self.assertEqual(store.propose({"tea": ("add", -5)}), Proposed(1))
        self.assertEqual(store.settle(), Acked(1))
        self.assertEqual(store.begin("look", "south", 5), Begun("look", 1))
        self.assertEqual(store.read("look", "tea"), Read("look", "tea", 40, 5, 5))
        self.assertEqual(store.read("look", "till"), Read("look", "till", 7, 0, 5))
        self.assertEqual(store.end("look"), Ended("look", 1, 47, 5, 2))
        self.assertEqual(store.begin("look", "south", 0), Begun("look", 1))
        self.assertEqual(store.abandon("look"), Abandoned("look"))
        # 5 + 2 is over 6 on tea, so this update waits for the south.
        self.assertEqual(store.propose({"tea": ("add", 2)}), Proposed(2))
        self.assertEqual(store.settle(), Round(2, ("south",)))
        self.assertEqual(store.send("south"), Sent("south", 1))
        self.assertEqual(store.send("south"), Sent("south", 2))
        self.assertEqual(store.apply("south"), Applied("south", 1))
        self.assertEqual(store.settle(), Waiting(2, ("south",)))
        self.assertEqual(store.apply("south"), Applied("south", 2))
        self.assertEqual(store.report("south"), Reported("south", 2))
        self.assertEqual(store.settle(), Acked(2))
        self.assertEqual(store.show("south"), Shown("south", 2, 2, 2, 1, {"tea": 37, "till": 7}))
        self.assertEqual(store.show("north"), Shown("north", 0, 0, 0, 0, {"tea": 40, "till": 7}))
        self.assertEqual(store.certify("south"), Certified("south", 1, ((0, 2),)))
        self.assertEqual(store.certify("north"), Certified("north", 0, ()))
        self.assertEqual(store.relimit("south", ("object", "tea"), 3), Relimited("south", 3))
        self.assertEqual(store.relimit("north", ("group", "all_tea"), 7), Relimited("north", 3))
        self.assertEqual(store.relimit("north", "all", 7), Relimited("north", 3))
        self.assertEqual(store.relimit("north", "count", 2), Relimited("north", 3))

    def test_each_number_of_a_site_is_its_own(self):
        store = self.shop()
        store.commands(["propose add:x:6"] + ["propose add:x:1"] * 2 + ["settle"] + ["send a"] * 2 + ["apply a", "report a"] * 2 + ["send a"])
        shown = store.show("a")
        self.assertEqual((shown.sent, shown.applied, shown.reported, shown.rounds), (3, 2, 2, 1))
        store.apply("a")
        shown = store.show("a")
        self.assertEqual((shown.sent, shown.applied, shown.reported, shown.rounds), (3, 3, 2, 1))

    def test_each_change(self):
        store = self.store()
        for name, value in {"a": 3, "b": 7, "c": 7, "d": 7, "e": 7, "f": 7}.items():
            store.object(name, value)
        store.site("s", 2)
        store.start()
        store.propose({
            "a": ("add", -2), "b": ("set", -2), "c": ("mul", -2), "d": ("max", 8), "e": ("min", -2), "f": ("take", "a"),
        })
        store.send("s")
        store.apply("s")
        self.assertEqual(store.show("s").values, {"a": 1, "b": -2, "c": -14, "d": 8, "e": -2, "f": 3})

    def test_settled_is_the_kind_of_all_three(self):
        for answer in (Acked(1), Round(1, ("a",)), Waiting(1, ("a",))):
            self.assertIsInstance(answer, ordup.Settled)
        self.assertNotEqual(Round(1, ("a",)), Waiting(1, ("a",)))

    def test_answers_may_be_in_a_set(self):
        self.assertEqual(len({Acked(1), Acked(1), Shown("a", 0, 0, 0, 0, {"x": 1}), Shown("a", 0, 0, 0, 0, {"x": 1})}), 2)

    def test_transcripts_of_the_pages(self):
        seen = 0
        for page in ("README.md", "docs/FORMATS.md", "docs/MODEL.md", "docs/TUTORIAL.md"):
            for pairs in transcripts(page):
                store = self.store()
                for text, wanted in pairs:
                    if wanted is None or not text.isascii():
                        self.assertRaises(BadLine, store.command, text)
                        continue
                    with self.subTest(page=page, line=text):
                        self.assertEqual(text_of(store.commands([text])[0]), wanted)
                        seen += 1
        self.assertGreater(seen, 70)


class Refusals(TestCase):
    def test_before_the_start(self):
        store = self.store()
        self.refused(1, "Syntax", store.command, "Object x 1")
        self.refused(2, "NotStarted", store.settle)
        self.refused(11, "Empty", store.start)
        self.refused(4, "BadName", store.command, "object 9x 1")
        store.object("x", 0)
        self.refused(5, "NameTaken", store.object, "x", 0)
        self.refused(9, "OutOfRange", store.object, "y", BILLION + 1)
        self.refused(9, "OutOfRange", store.object, "y", 10**19 - 1)
        self.refused(6, "UnknownObject", store.group, "g", ["z"])
        self.refused(11, "Empty", store.group, "g", [])
        self.refused(12, "Repeated", store.group, "g", ["x", "x"])
        self.refused(9, "OutOfRange", store.site, "a", 1025)
        store.site("a", 1024)
        self.refused(7, "UnknownGroup", store.limit, "a", ("group", "g"), 1)
        self.refused(8, "UnknownSite", store.limit, "b", "all", 1)
        self.refused(9, "OutOfRange", store.limit, "a", "count", -1)
        store.limit("a", "all", 10**18)
        self.refused(12, "Repeated", store.limit, "a", "all", 1)

    def test_after_the_start(self):
        store = self.shop()
        self.refused(3, "AlreadyStarted", store.start)
        self.refused(3, "AlreadyStarted", store.object, "z", 0)
        self.refused(6, "UnknownObject", store.propose, {"z": ("add", 1)})
        self.refused(9, "OutOfRange", store.propose, {"x": ("set", BILLION + 1)})
        self.refused(11, "Empty", store.propose, {})
        self.refused(12, "Repeated", store.command, "propose add:x:1 add:x:1")
        self.refused(8, "UnknownSite", store.show, "b")
        self.refused(14, "NothingToSend", store.send, "a")
        self.refused(16, "NothingToApply", store.apply, "a")
        self.refused(17, "NothingToSettle", store.settle)
        store.commands([line("propose", ("add", "y", 1))] * 3)
        store.commands(["send a"] * 2)
        self.refused(15, "FeedFull", store.send, "a")
        self.refused(18, "UnknownQuery", store.read, "q", "x")
        self.refused(18, "UnknownQuery", store.end, "q")
        self.refused(18, "UnknownQuery", store.abandon, "q")
        store.commands(["settle"] * 3)
        store.begin("q", "a", 2)
        self.refused(19, "QueryOpen", store.begin, "q", "a", 2)
        self.refused(20, "OverImport", store.read, "q", "y")
        self.refused(25, "LagOver", store.relimit, "a", "count", 2)
        store.propose({"x": ("add", 6)})
        self.assertEqual(store.settle(), Round(4, ("a",)))
        self.refused(24, "HeadPending", store.relimit, "a", "count", 9)

    def test_too_many(self):
        store = self.store()
        names = [f"x{number}" for number in range(257)]
        for name in names[:256]:
            store.object(name, 0)
        self.refused(10, "TooMany", store.object, names[256], 0)
        self.refused(10, "TooMany", store.group, "g", names[:65])
        self.assertEqual(store.group("g", names[:64]), Declared("group", "g"))
        for number in range(31):
            store.group(f"g{number}", ["x0"])
        self.refused(10, "TooMany", store.group, "h", ["x0"])
        for number in range(16):
            store.site(f"s{number}", 1)
        self.refused(10, "TooMany", store.site, "t", 1)
        for name in names[:64]:
            store.limit("s0", ("object", name), 1)
        self.refused(10, "TooMany", store.limit, "s0", "all", 1)
        store.start()
        self.refused(10, "TooMany", store.relimit, "s0", "all", 1)
        self.refused(10, "TooMany", store.propose, {name: ("add", 1) for name in names[:65]})
        self.assertEqual(store.propose({name: ("add", 1) for name in names[:64]}), Proposed(1))
        for number in range(64):
            store.begin(f"q{number}", "s1", 0)
        self.refused(10, "TooMany", store.begin, "q", "s1", 0)
        store.commands([line("read", "q0", "x0")] * 256)
        self.refused(10, "TooMany", store.read, "q0", "x0")

    def test_a_refusal_says_what_was_asked(self):
        with self.assertRaises(Refused) as caught:
            self.shop().send("a")
        self.assertEqual(caught.exception.line, "send a")
        self.assertEqual(str(caught.exception), "send a: refused 14 NothingToSend")


class BadLines(TestCase):
    def test_a_bad_line_is_not_sent(self):
        store = self.shop()
        for text in ("", "   ", "# a comment", "settle\n", "propose add:x:1\nsettle", "settle\r", "settle\t", "été", "x" * 4097):
            with self.subTest(text=text[:20]):
                self.assertRaises(BadLine, store.command, text)
                self.assertRaises(BadLine, store.commands, ["propose add:x:1", text])
        # No line was sent: not even those before it.
        self.refused(17, "NothingToSettle", store.settle)

    def test_what_is_a_line_is_sent(self):
        store = self.shop()
        self.assertEqual(store.command("  propose   add:x:1  "), Proposed(1))
        self.assertEqual(store.command("settle" + " " * 4090), Acked(1))
        self.refused(1, "Syntax", store.command, " # no comment")
        self.assertEqual(store.commands([]), [])

    def test_bad_words(self):
        store = self.shop()
        for name in ("", "X", "9x", "a b", "a\n", "été", "a" * 17, "add:x"):
            with self.subTest(name=name):
                self.assertRaises(BadLine, store.show, name)
                self.assertRaises(BadLine, store.propose, {name: ("add", 1)})
                self.assertRaises(BadLine, store.propose, {"x": ("take", name)})
                self.assertRaises(BadLine, store.relimit, "a", ("object", name), 1)
        self.assertRaises(BadLine, store.propose, {"x": ("set", 10**19)})
        self.assertRaises(BadLine, store.propose, {"x": ("set", -(10**19))})
        self.assertRaises(ValueError, store.propose, {"x": ("set", 1.5)})
        self.refused(17, "NothingToSettle", store.settle)
        self.refused(8, "UnknownSite", store.show, "a" * 16)
        self.refused(9, "OutOfRange", store.propose, {"x": ("set", 1 - 10**19)})

    def test_lines(self):
        self.assertEqual(line("settle"), "settle")
        self.assertEqual(line("limit", "a", "object", "x", 5), "limit a object x 5")
        self.assertEqual(line("propose", ("add", "x", -5), ("take", "y", "x")), "propose add:x:-5 take:y:x")
        self.assertEqual(line("site", "a", True), "site a 1")


class ManyLines(TestCase):
    def test_a_hundred_thousand(self):
        store = self.shop()
        outcomes = store.commands([line("propose", ("add", "x", 1))] * 100_000)
        self.assertEqual(outcomes, [Proposed(place) for place in range(1, 100_001)])
        self.assertEqual(store.settle(), Acked(1))

    def test_a_log_that_is_full(self):
        store = self.shop()
        text = line("propose", ("set", "y", 0))
        for place in range(100_000, 1_000_001, 100_000):
            self.assertEqual(store.commands([text] * 100_000)[-1], Proposed(place))
        self.refused(13, "LogFull", store.propose, {"y": ("set", 0)})

    def test_answers_that_are_longer_than_their_lines(self):
        store = self.store()
        for number in range(256):
            store.object(f"object_{number}", -BILLION)
        store.site("a", 1)
        store.start()
        wanted = Shown("a", 0, 0, 0, 0, {f"object_{number}": -BILLION for number in range(256)})
        for outcome in store.commands(["show a"] * 500):
            self.assertEqual(outcome, wanted)

    def test_refusals_come_in_order(self):
        outcomes = self.shop().commands(["propose add:x:1", "send b", "send a", "apply a", "nothing"])
        self.assertEqual(
            [text_of(outcome) for outcome in outcomes],
            ["ok proposed 1", "refused 8 UnknownSite", "ok sent a 1", "ok applied a 1", "refused 1 Syntax"],
        )
        self.assertEqual(outcomes[1].line, "send b")

    def test_bytes(self):
        store = self.store()
        text = b"# a comment\nobject x 0\n\n   \nsite a 1\nstart\n # no comment\n\xc3\xa9\nobject y\tz 0\nshow a"
        answers = b"ok object x\nok site a\nok start\n" + b"refused 1 Syntax\n" * 3
        self.assertEqual(store.run(text), answers + b"ok show a sent 0 applied 0 reported 0 rounds 0 x=0\n")
        self.assertEqual(store.run(b""), b"")
        self.assertEqual(store.run(b"\n# nothing\n#" + b"x" * 4095 + b"\n" + b" " * 4096), b"")
        self.assertEqual(store.run(b"#" + b"x" * 4096 + b"\n" + b" " * 4097 + b"\nsettle\r\n"), b"refused 1 Syntax\n" * 3)
        answers = store.run(b"# one\npropose add:x:1\n\n" * 50_000)
        self.assertEqual(answers, b"".join(b"ok proposed %d\n" % place for place in range(1, 50_001)))

    def test_what_is_like_bytes(self):
        store = self.store()
        self.assertEqual(store.run(bytearray(b"object x 0\nsite a 1\nstart")), b"ok object x\nok site a\nok start\n")
        self.assertEqual(store.run(memoryview(b"s-e-t-t-l-e-")[::2]), b"refused 17 NothingToSettle\n")
        self.assertEqual(store.run(bytearray()), b"")
        self.assertEqual(check(bytearray(VALID), self.program), Yes(1))
        self.assertEqual(check(memoryview(VALID), self.program), Yes(1))
        self.assertEqual(check_series(bytearray(SERIES), self.program), Yes(2))
        self.assertEqual(check_series(memoryview(SERIES), self.program), Yes(2))

    def test_what_is_not_like_bytes(self):
        store = self.shop()
        for text in ("settle", None, 5, [115], object()):
            self.assertRaises(TypeError, store.run, text)
            self.assertRaises(TypeError, check, text, self.program)
            self.assertRaises(TypeError, check_series, text, self.program)
        for text in ([b"settle"], [None], [5], 5, None):
            self.assertRaises(TypeError, store.commands, text)
        self.refused(17, "NothingToSettle", store.settle)

    def test_bytes_without_answers(self):
        store = self.store()
        comments = b"# " + b"x" * 98 + b"\n"
        self.assertEqual(store.run(comments * 10_000), b"")
        self.assertEqual(store.run(b"object x 0\n" + comments * 10_000 + b"object y 0"), b"ok object x\nok object y\n")
        self.assertEqual(store.run(b"object z 0\n" + comments * 10_000), b"ok object z\n")
        self.assertEqual(store.run(b"start"), b"refused 11 Empty\n")

    def test_lines_are_not_a_string(self):
        self.assertRaises(TypeError, self.shop().commands, "settle")

    def test_what_is_no_mapping_is_not_proposed(self):
        store = self.shop()
        for changes in (None, 5, "tea", b"x", [("x", ("add", 1))], {"x"}):
            self.assertRaises(TypeError, store.propose, changes)
        self.assertEqual(store.propose({"x": ("add", 1)}), Proposed(1))

    def test_threads_share_a_store(self):
        store = self.shop()
        places = []
        threads = [
            threading.Thread(target=lambda: places.extend(store.propose({"y": ("add", 1)}).place for _ in range(250)))
            for _ in range(4)
        ]
        for thread in threads:
            thread.start()
        for thread in threads:
            thread.join()
        self.assertEqual(sorted(places), list(range(1, 1001)))


class Verdicts(TestCase):
    def test_a_record(self):
        self.assertEqual(check(VALID, self.program), Yes(1))
        self.assertEqual(check(VALID.replace(b"window,1,0,2", b"window,1,1,2"), self.program), No(8, "WindowLight"))
        self.assertEqual(check(VALID.replace(b"object,2", b"object,3"), self.program), Malformed(3))
        self.assertEqual(check(b"", self.program), Malformed(1))

    def test_a_series(self):
        self.assertEqual(check_series(SERIES, self.program), Yes(2))
        self.assertEqual(check_series(VALID, self.program), Yes(1))
        self.assertEqual(check_series(SERIES.replace(b"tea,34", b"tea,35"), self.program), NoInSeries(2, 2, "NotNext"))
        self.assertEqual(check_series(SERIES.replace(b",a,3", b",b,3"), self.program), NoInSeries(2, 1, "NotNext"))
        self.assertEqual(check_series(SERIES.replace(b"report,3", b"report,4"), self.program), MalformedInSeries(2, 8))
        self.assertEqual(check_series(b"", self.program), MalformedInSeries(1, 1))


BY_BOTH = [Commands, Refusals, BadLines, ManyLines, Verdicts, Ends, Interrupts, Forks]


def load_tests(loader, tests, pattern):
    for program in [TestCase.program, None] if ordup.find() else [TestCase.program]:
        examples = {"program": program}
        tests.addTest(doctest.DocTestSuite(ordup, extraglobs=examples, test_finder=Examples()))
        tests.addTest(doctest.DocFileSuite(PAGE, module_relative=False, globs=examples))
    return test_cluster.load_tests(loader, tests, pattern) if has_clusters() else tests


class Examples(doctest.DocTestFinder):
    """The examples of the stores alone."""

    def find(self, *words, **options):
        return [test for test in super().find(*words, **options) if not test.name.startswith("ordup.Cluster")]


def has_clusters():
    try:
        return ordup.find_clusters()
    except OSError:
        return None


if __name__ == "__main__":
    if len(sys.argv) < 2 or not Path(sys.argv[1]).is_file():
        sys.exit("usage: clients/python/test_ordup.py PROGRAM [TEST..]")
    TestCase.program = str(Path(sys.argv.pop(1)).resolve())
    if ordup.find():
        for case in BY_BOTH:
            globals()[f"{case.__name__}InProcess"] = type(f"{case.__name__}InProcess", (case,), {"program": None})
    else:
        del InProcess
    if has_clusters():
        globals().update({f"Cluster{case.__name__}": case for case in test_cluster.CASES})
    signal.signal(signal.SIGINT, signal.default_int_handler)  # a shell starts what runs in its background with Ctrl-C ignored
    faulthandler.dump_traceback_later(600, exit=True)  # a test that waits for ever has failed
    result = unittest.main(exit=False).result
    for _, why in result.skipped:
        print(f"not tried: {why}")
    if not ordup.find():
        print("not tried: a store in the process, since libordup.so is not found")
    if not has_clusters():
        print("not tried: clusters, since libordup.so is not found or has none")
    failed = len(result.failures) + len(result.errors)
    print(f"{result.testsRun - failed - len(result.skipped)} passed, {failed} failed")
    sys.exit(0 if result.wasSuccessful() and result.testsRun else 1)
