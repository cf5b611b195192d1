#!/usr/bin/env python3
"""The checks, each in a row: checks/table.py [--gate FOLDER]

The gate (.ci/run), `checks/changed` and `./ordup --test` go by it. Without a word it prints a line for each check: its command, about how
long it takes, what it asks for, and what it sees. With --gate it prints what the gate does, in that order, a line for each: the way, the
least number of things, whether the check may end with 77, and the words of the command, with blanks of a tab. What the gate makes is in
FOLDER.

To add a check is to add a row, and a command that says on its last line how many things it tried, first.
"""

from __future__ import annotations

import sys
from pathlib import Path
from typing import Literal, NamedTuple

sys.dont_write_bytecode = True

from source.tree import TOP, read_crates


class Check(NamedTuple):
    """A check.

    In the gate it has `least` things to try, some three quarters of what it tried when that was written; where `least` is 0 it is for
    hands, or for a release. There it comes in its turn, or begins `beside` those that follow, or runs `alone`, once all of these have ended;
    what `rt ci` says is `seen` by who looks on. Where it `may_be_left`, since something is not here that a machine need not have, it ends with 77.
    """

    command: str
    sees: str
    paths: str = ""  # that call for it; without one each file does, and wants another check too
    least: int = 0
    way: Literal["then", "beside", "alone", "seen"] = "then"
    takes: str = "seconds"
    asks: str = ""
    may_be_left: bool = False
    before_proof: bool = False  # `./ordup --test` makes it

    @property
    def name(self) -> str:
        return self.command.split()[0]

    @property
    def own_paths(self) -> str:
        """An expression for the paths that call for it: it calls for itself, too."""
        return self.paths and f"{self.paths}|{self.name}$"


class Word(NamedTuple):
    """What a word of a command stands for in the gate and by hand, and what makes that by hand."""

    gate: str
    hand: str
    made_by: str


WORDS = {
    "PROGRAM": Word("crates/ordup_cli/out/ordup_cli", "out/ordup", "./ordup --prove"),
    "LIBRARY": Word("FOLDER/library", "out", "./ordup --library"),
    "ARCHIVE": Word("FOLDER/library/libordup.a", "out/libordup.a", "./ordup --library"),
    "NODE": Word("FOLDER/ordup-node", "out/ordup-node", "./ordup --library && node/build out out/ordup-node"),
    "PACKAGES": Word("", "out", "./ordup --package"),
    "MEMORY_TRIAL": Word("crates/memory_trial/out/memory_trial", "crates/memory_trial/out/memory_trial", "(cd crates/memory_trial && rt run)"),
    "REST_TRIAL": Word("crates/rest_trial/out/rest_trial", "crates/rest_trial/out/rest_trial", "(cd crates/rest_trial && rt run)"),
}
TESTS = "TESTS"  # the tests of the crates tests_of_*, where these were built

CHECKS = [
    # What reads the sources and the pages.
    Check("checks/source/test", "the reader of the sources, and the types of all checks",
          r"checks/|launcher/|packages/|node/checks/|clients/(c/archive|examples)|examples/\w+\.py|bench/(page|clients/run)", 15,
          takes="a minute", asks="mypy"),
    Check("checks/edits/run --list", "each wrong body can be applied and names its promise",
          r"crates/|checks/(edits|source)/|docs/PROOFS", 600),
    Check("checks/tests", "each test names a promise of PROOFS, and each worked row is there",
          r"crates/.*\.rt$|tests/|docs/PROOFS|checks/(worked|source/)", 80),
    Check("checks/unused", "each declaration, public call and library is used",
          r"crates/.*\.(rt|antt)$|crates\.txt|checks/(specified|source/)", 2400),
    Check("checks/words", "no word stands anywhere that the glossary rules out", "", 2000),
    Check("checks/model", "what pages print is what is there",
          r"crates/.*\.(rt|antt)$|crates\.txt|.*\.md$|docs/crates|checks/(model|source/)", 290),
    Check("checks/refusals", "the refusals of the pages are those of the code; checks/pages makes it",
          r"crates/.*\.(rt|antt)$|.*\.md$|checks/source/"),
    Check("checks/ways", "the ways of ARCHITECTURE are those of the code", r"crates/.*\.rt$|docs/ARCHITECTURE|checks/source/", 60),
    Check("checks/waking/steps", "the models of how threads sleep, and of the node, have the steps of the code",
          r"checks/(waking|source)/|crates/ordup_(holds|cluster|epochs)/.*\.rt$|clients/c/ordup_cluster|node/internal/", 30),
    Check("checks/paths", "the public calls are those that they should be",
          r"crates/.*\.rt$|crates\.txt|docs/DECISIONS|checks/(specified|source/)", 120),
    Check("checks/versions", "there is one version, and the commands, files and links that pages name are there", "", 8),
    Check("node/checks/alerts", "the alerts of operators come when they should", r"node/(prometheus/|engine$)", 15,
          asks="promtool", may_be_left=True),
    Check("node/checks/dashboard", "the dashboard of operators asks for what there is",
          r"node/(grafana/|engine$)|docs/MACHINES", 30, asks="promtool", may_be_left=True),
    Check("node/checks/trial", "the trial of several machines: its types, and its mistakes can be made",
          r"examples/machines/|node/|clients/python/ordup_node", 15, asks="mypy"),
    # What tries the tools.
    Check("checks/changed --files", "each file leads to a check", r"\.ci/|checks/table", 2000),
    Check("checks/gate", "the gate fails where one of its checks does", r"\.ci/|launcher/sources|checks/(table|source/tree)", 90),
    Check("packages/checks/forged", "packages/checks/proof is not deceived",
          r"checks/cases|packages/(archives|debian|opened|wheel|checks/proof$)", 40),
    Check("checks/launcher", "the launcher",
          r"ordup$|examples/first|launcher/|(clients/c|node)/build|packages/(archives|build|opened|checks/)|checks/(source/|table)", 24,
          takes="a minute"),
    # The proof, and models beside it.
    Check("checks/waking/run", "no wake-up is lost, in models of how threads sleep, and no promise of the node is broken in its model",
          r"checks/waking/|crates/ordup_(holds|cluster|epochs)/|clients/c/ordup_cluster|node/internal/", 10, "beside", "minutes",
          "spin and gcc", may_be_left=True),
    Check("checks/interleavings", "no order of holds breaks a law, and each wrong step does",
          r"crates/ordup_(interleavings|holds)/", 175000, "beside", "minutes"),
    Check("rt ci", "each crate is proved, its tests pass, and the wrong bodies of must-fail are refused", r"crates/", 1, "seen", "an hour",
          "the kit"),
    # What tries the program.
    Check("clients/c/archive LIBRARY", "the library for C is joined of what is proved", r"clients/c/build", 12, "beside", "minutes",
          "the kit"),
    Check("checks/mistaken PROGRAM", "checks of the program see one that is wrong by a word",
          r"tests/lag|checks/(epochs|mistaken|outside|pages|rows|series)$", 5, "beside", "a minute"),
    Check("checks/pages PROGRAM", "the pages, the examples and the help say what the program does",
          r".*\.md$|docs/|examples/|clients/python/|checks/(refusals$|source/|table)|node/engine$|(bench/(clients/)?run|ordup)$|"
          r"crates/(ordup_cli|example_.*)/", 5, before_proof=True),
    Check("checks/rows PROGRAM", "the rows of tests/", r"tests/|crates/ordup_cli/", 750, takes="a minute", before_proof=True),
    Check("checks/epochs PROGRAM", "three stores, one after the other", r"crates/(ordup_cli|ordup_succession)/", 24,
          before_proof=True),
    Check("checks/series PROGRAM", "records of a site, one after another", r"crates/ordup_(cli|series|check)/", 3500),
    Check("checks/audit PROGRAM", "a second checker of records says the same",
          r"docs/FORMATS|examples/audit|crates/ordup_(cli|series|check)/", 3000),
    Check("checks/allocations PROGRAM MEMORY_TRIAL TESTS", "want of memory loses nothing",
          r"checks/(refuse\.c|samples)|crates/(ordup_cli|memory_trial|tests?_\w+)/", 500, takes="a minute", asks="gcc"),
    Check("checks/outside PROGRAM REST_TRIAL", "streams, words, sizes and a store at rest",
          r"docs/FORMATS|checks/(cases|samples)|crates/(ordup_cli|rest_trial)/", 500, takes="a minute", before_proof=True),
    # What tries the library, the node and the packages.
    Check("checks/cluster_c ARCHIVE PROGRAM", "the cluster of programs in C", r"clients/c/(ordup_)?(cluster|holds)|checks/cases", 7, "alone",
          "a minute", "gcc"),
    Check("checks/clients PROGRAM LIBRARY", "the bindings",
          r"README|docs/(CLIENTS|EMBEDDING|FORMATS|LIMITS|MODEL|SERVICE)|(bench/)?clients/|packages/contents|checks/(cases|cluster_c$|source/)|"
          r"crates/ordup_(c|cli)/", 10, "alone", "minutes", "gcc, and Rust, Go, Python if they are to be tried"),
    Check("checks/clusters PROGRAM LIBRARY", "a plan comes to the same in the cluster of each language",
          r"checks/cases|clients/|crates/ordup_(cli|cluster|plan|shared|shapes)/", 70, "alone", "a minute"),
    Check("node/checks/code LIBRARY NODE", "the node: its form, its tests, its simulation",
          r"node/|clients/(go/|rust/|python/ordup_node)|docs/(HOSTS|HTTP|MACHINES)|examples/machines/update|crates/ordup_c/", 340, "beside",
          "minutes", "Go and etcd", may_be_left=True),
    Check("packages/checks/installed PROGRAM LIBRARY", "the packages in a clean Debian",
          r"README|docs/(EMBEDDING|FORMATS|HOSTS|HTTP|MACHINES|machines|node)|clients/|node/|examples/machines/(shop|three/)|packages/|"
          r"checks/(cases|source/)|"
          r"crates/ordup_(c|cli|command_line)/", 10, "beside", "minutes", "root, and Debian over the network", may_be_left=True),
    Check("checks/pages PROGRAM NODE", "what is typed on several machines, and in a trial",
          r"README|node/|clients/(go/|python/ordup_node)|docs/(HOSTS|HTTP|MACHINES)|examples/machines/|crates/ordup_(c|cli)/", 7,
          "alone", "a minute", "root, network namespaces and etcd", may_be_left=True),
    Check("node/checks/machines PROGRAM LIBRARY", "a deployment over several machines",
          r"examples/machines/|node/|clients/go/|crates/ordup_(c|cli)/", 1000, "alone", "minutes", "root, network namespaces, Go and etcd",
          may_be_left=True),
    # What hands type, and a release.
    Check("node/checks/simulation", "the simulation of the node tells mistakes; node/checks/code makes it", r"node/|clients/go/", asks="Go",
          takes="a minute"),
    Check("packages/checks/twice", "the packages are the same bytes twice",
          r"launcher/(account|prove)|(clients/c|node)/build|node/(go.mod|vendored)|packages/", takes="an hour", asks="the kit"),
    Check("packages/checks/proof PACKAGES", "what somebody gives out is what a checkout proves", r"packages/", takes="an hour",
          asks="the kit"),
    Check("bench/clients/run PROGRAM LIBRARY 1", "the answers are the same in each language", r"bench/clients/", takes="minutes"),
    Check("bench/clients/clusters LIBRARY 1", "the clusters of each language, beside what its users would take",
          r"bench/(clients/cluster|threads$)", takes="minutes"),
    Check("bench/run --runs 1", "the answers of ordup and of the plain programs agree", r"bench/|crates/bench_.*/.", takes="minutes",
          asks="the kit"),
]


def typed(check: Check) -> str:
    """The command as hands type it, behind what makes what it asks for."""
    words = [WORDS[it] if it in WORDS else Word("", it, "") for it in check.command.split() if it != TESTS]
    makes = dict.fromkeys(it.made_by for it in words if it.made_by)
    if check.name == "clients/c/archive":
        return f'{check.name} "$(mktemp -d)"'
    if check.name == "node/checks/code":
        makes.pop(WORDS["NODE"].made_by)
    return " && ".join([*makes, " ".join(it.hand for it in words)])


def of_gate(check: Check, folder: str) -> str:
    """The line of a check for the gate."""
    words: list[str] = []
    for word in check.command.split():
        if word == TESTS:
            crates = read_crates((TOP / "crates.txt").read_text(encoding="utf-8"))
            words += [f"crates/{it}/out/{it}_tests" for it in crates if it.startswith("tests_of_")]
        else:
            words.append(WORDS[word].gate.replace("FOLDER", folder) if word in WORDS else word)
    return "\t".join([check.way, str(check.least), "77" if check.may_be_left else "0", *words])


def main(words: list[str]) -> None:
    if words[:1] == ["--gate"] and len(words) == 2:
        print("\n".join(of_gate(it, words[1]) for it in CHECKS if it.least))
    elif words:
        sys.exit("usage: checks/table.py [--gate FOLDER]")
    else:
        wide = max(len(it.command) for it in CHECKS)
        for it in CHECKS:
            asks = f"; asks for {it.asks}" if it.asks else ""
            print(f"{it.command:{wide}}  {it.takes + asks}: {it.sees}" + ("" if it.least else " (not in the gate)"))


if __name__ == "__main__":
    main(sys.argv[1:])
