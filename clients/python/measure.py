#!/usr/bin/env python3
"""Measures the module behind a pipe and in the process, and prints a table in Markdown: clients/python/measure.py PROGRAM [RUNS]

The load is one update after another, of five lines each: it is proposed, settled, sent, applied and reported. A run has 20,000 lines
that go out one by one, or 100,000 of which many go out at once; then the time of a line is its share of the call. What it prints of
each row is the best of RUNS runs, 10 where nothing else is said. bench/results/python.csv has the last table.
"""

import os
import statistics
import subprocess
import sys
import time

sys.dont_write_bytecode = True

from ordup import Refused, Store, find, line

SETUP = ["object x 0", "site a 1024", "limit a object x 100", "start"]
UPDATE = [line("propose", ("add", "x", 1)), "settle", "send a", "apply a", "report a"]
ONE_BY_ONE = 20_000  # lines of a run
MANY = 100_000


def by_bare_pipe(program):
    """Seconds of each line, where Python only writes and reads bytes."""
    lines = [text.encode() + b"\n" for text in UPDATE]
    with subprocess.Popen([program, "run"], bufsize=0, stdin=subprocess.PIPE, stdout=subprocess.PIPE) as process:
        to, back = process.stdin.fileno(), process.stdout.fileno()
        for text in SETUP:
            os.write(to, text.encode() + b"\n")
            os.read(back, 65536)
        times = []
        for index in range(ONE_BY_ONE):
            start = time.perf_counter()
            os.write(to, lines[index % len(lines)])
            os.read(back, 65536)
            times.append(time.perf_counter() - start)
        process.stdin.close()
    return times


def by_methods(program):
    """Seconds of each call of a method."""
    with Store(program) as store:
        store.commands(SETUP)
        calls = [lambda: store.propose({"x": ("add", 1)}), store.settle]
        calls += [lambda: store.send("a"), lambda: store.apply("a"), lambda: store.report("a")]
        times = []
        for index in range(ONE_BY_ONE):
            call = calls[index % len(calls)]
            start = time.perf_counter()
            call()
            times.append(time.perf_counter() - start)
    return times


def by_lines(program, at_once):
    """Seconds of each line, where so many go out by one call."""
    with Store(program) as store:
        store.commands(SETUP)
        lines = UPDATE * (at_once // len(UPDATE))
        times = []
        for _ in range(MANY // at_once):
            start = time.perf_counter()
            outcomes = store.commands(lines)
            times.append((time.perf_counter() - start) / at_once)
            assert not any(isinstance(outcome, Refused) for outcome in outcomes)
    return times


def by_bytes(program, at_once):
    """Seconds of each line, where so many go out as bytes and the answers stay bytes."""
    with Store(program) as store:
        store.commands(SETUP)
        text = "".join(f"{line}\n" for line in UPDATE * (at_once // len(UPDATE))).encode()
        times = []
        for _ in range(MANY // at_once):
            start = time.perf_counter()
            answers = store.run(text)
            times.append((time.perf_counter() - start) / at_once)
            assert answers.count(b"ok ") == at_once
    return times


def row(name, runs):
    """The most lines a second of a run, and of one line the least median and 99th percentile, in microseconds."""
    most = max(len(times) / sum(times) for times in runs)
    median = min(statistics.median(times) for times in runs) * 1e6
    late = min(sorted(times)[len(times) * 99 // 100] for times in runs) * 1e6
    ended = f"{median:.1f} | {late:.1f}" if len(runs[0]) >= 1000 else "- | -"
    print(f"| {name} | {most:.0f} | {1e6 / most:.2f} | {ended} |")


def main():
    if not 2 <= len(sys.argv) <= 3 or not os.path.isfile(sys.argv[1]):
        sys.exit("usage: clients/python/measure.py PROGRAM [RUNS]")
    program = os.path.abspath(sys.argv[1])
    runs = range(int(sys.argv[2]) if len(sys.argv) == 3 else 10)
    print("| how | lines/s | µs a line | median µs | 99 % µs |\n|---|--:|--:|--:|--:|")
    row("one by one, without the module", [by_bare_pipe(program) for _ in runs])
    for program, way in [(program, "behind a pipe")] + ([(None, "in the process")] if find() else []):
        row(f"{way}: one by one, by methods", [by_methods(program) for _ in runs])
        for at_once in (10, 100, 1000, MANY):
            row(f"{way}: {at_once} lines at once", [by_lines(program, at_once) for _ in runs])
        for at_once in (5, 1000):
            row(f"{way}: {at_once} lines at once, as bytes", [by_bytes(program, at_once) for _ in runs])
    if not find():
        print("not measured: a store in the process, since libordup.so is not found", file=sys.stderr)


main()
