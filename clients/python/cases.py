"""What the tests share."""

import os
import re
import subprocess
import sys
import tempfile
import unittest
from pathlib import Path

from ordup import (
    Abandoned, Acked, Applied, Begun, Certified, Declared, Ended, ProgramEnded, Proposed, Read, Refused, Relimited, Reported,
    Round, Sent, Shown, Started, Store, Waiting,
)

TOP = Path(__file__).resolve().parent.parent.parent
# The record of the first example of docs/FORMATS.md.
VALID = b"""ordup,1,a,2
object,1,x,0
object,2,y,10
limit,1,object:x,5
change,1,1,add:x:5
change,2,1,add:x:1
round,1,2,-
window,1,0,2
"""
# The first series there, of two records.
SERIES = b"""ordup,2,a,2
object,1,tea,40
limit,1,object:tea,5@1
limit,2,object:tea,3@2
change,1,1,add:tea:-4
change,2,1,add:tea:-2
round,1,2,-
window,1,0,2
ordup,2,a,3
object,1,tea,34
limit,1,object:tea,4@1
limit,2,object:tea,1@3
change,1,1,add:tea:-3
change,2,1,add:tea:-2
change,3,1,add:tea:-1
report,3,2,-
round,1,2,-
window,1,0,2
"""


def text_of(outcome):
    """The line of FORMATS that an outcome stands for."""
    if isinstance(outcome, Refused):
        return f"refused {outcome.number} {outcome.name}"
    kind, it = type(outcome), outcome
    if kind is Shown:
        values = "".join(f" {name}={value}" for name, value in it.values.items())
        return f"ok show {it.site} sent {it.sent} applied {it.applied} reported {it.reported} rounds {it.rounds}{values}"
    if kind is Certified:
        return f"ok certified {it.site} {it.rounds}" + "".join(f" {a}-{b}" for a, b in it.windows)
    if kind is Read:
        return f"ok read {it.query} {it.object} value {it.value} import {it.imported} total {it.total}"
    if kind is Ended:
        return f"ok end {it.query} place {it.place} sum {it.sum} total {it.total} reads {it.reads}"
    if kind in (Round, Waiting):
        return " ".join([f"ok {kind.__name__.lower()} {it.place}", *it.sites])
    return {
        Declared: lambda: f"ok {it.kind} {it.name}",
        Started: lambda: "ok start",
        Proposed: lambda: f"ok proposed {it.place}",
        Sent: lambda: f"ok sent {it.site} {it.place}",
        Applied: lambda: f"ok applied {it.site} {it.place}",
        Reported: lambda: f"ok reported {it.site} {it.applied}",
        Acked: lambda: f"ok acked {it.place}",
        Begun: lambda: f"ok begun {it.query} {it.place}",
        Abandoned: lambda: f"ok abandoned {it.query}",
        Relimited: lambda: f"ok relimit {it.site} {it.place}",
    }[kind]()


def transcripts(page):
    """The blocks `transcript` of a page: pairs of a line and the answer below it, or None where there is no answer."""
    for block in re.findall(r"^```transcript\n(.*?)^```$", (TOP / page).read_text(encoding="utf-8"), re.M | re.S):
        pairs = []
        for text in block.split("\n")[:-1]:
            if text.startswith("> "):
                pairs.append((text[2:], None))
            else:
                pairs[-1] = (pairs[-1][0], text)
        yield pairs


class TestCase(unittest.TestCase):
    """Tests of a store behind a pipe; or, where `program` is None, of one in the process."""

    program = ""  # the path of the built program

    def store(self, *words, **options):
        store = Store(*(words or [self.program]), **options)
        self.addCleanup(store.close)
        return store

    def shop(self):
        """A store that is started: x is 0, y is 10, and the site a has a feed of 2, and may lag by 5 on x."""
        store = self.store()
        store.object("x", 0)
        store.object("y", 10)
        store.site("a", 2)
        store.limit("a", ("object", "x"), 5)
        store.start()
        return store

    def stand_in(self, text):
        """A program that is a script of the shell."""
        folder = tempfile.TemporaryDirectory()
        self.addCleanup(folder.cleanup)
        path = Path(folder.name, "program")
        path.write_text("#!/bin/sh\n" + text, encoding="utf-8")
        path.chmod(0o755)
        return path

    def forked(self, work):
        """Does something in a forked child, and returns its exit status: that of what it returns."""
        child = os.fork()
        if not child:
            status = 99
            try:
                status = work()
            finally:
                os._exit(status)
        return os.WEXITSTATUS(os.waitpid(child, 0)[1])

    def started(self, script):
        """A Python of its own, which runs a script. `sys.argv[1:]` has the program, where there is one."""
        words = [sys.executable, "-c", script] + ([self.program] if self.program else [])
        around = {**os.environ, "PYTHONPATH": str(Path(__file__).parent), "PYTHONDONTWRITEBYTECODE": "1"}
        return subprocess.Popen(words, stdout=subprocess.PIPE, start_new_session=True, env=around)

    def refused(self, number, name, call, *words):
        with self.assertRaises(Refused) as caught:
            call(*words)
        self.assertEqual((caught.exception.number, caught.exception.name), (number, name))

    def ended(self, call, *words):
        with self.assertRaises(ProgramEnded) as caught:
            call(*words)
        return caught.exception
