"""A run of a deployment with clients and faults, and what came of it."""

import random
import sys
import threading
import time
from contextlib import contextmanager
from typing import Callable, Iterator

from addresses import DECLARATIONS, FLEET, MEMBERS, PRIMARIES, SITES
from asking import CLIENTS, PATIENCE, Asking
from deployment import Deployment
from etcd import Away, Engine
from faults import Faults
from form import Form, Place
from upkeep import Upkeep


class Trial:
    def __init__(self, deployment: Deployment, engine: Engine, chance: random.Random, crowds: int) -> None:
        self.deployment, self.engine, self.chance = deployment, engine, chance
        self.form: Form = deployment.form
        self.faults = Faults(self)
        # What fails while a call says that the trial goes on.
        self.fails = self.faults.run
        self.upkeep = Upkeep(engine, self.faults.note)
        self.asking = Asking(self.form, crowds, self.faults.note, self.faults.wrong.append, lambda: self.faults.revive("a wait"))
        # How long the faults went on, and a start at the end took.
        self.seconds = self.start = 0.0
        # The sites that are to be taken out, those that may be, and how often declarations were wanted.
        self.goes: set[str] = set()
        # The sites of the next epoch that nobody starts.
        self.lost: list[str] = []
        self.out: set[str] = set()
        self.wants = 0
        # How many epochs may have been asked for.
        self.asked_for = 0

    @contextmanager
    def alone(self) -> Iterator[None]:
        """The clients wait meanwhile. All that they asked is answered, and each site shows it."""
        with self.asking.alone():
            self.wait_for_sites(time.monotonic() + PATIENCE)
            yield

    # The next epoch.

    def wanted(self) -> str:
        """Declarations without the site south, or with it, with those that nobody starts, and with one object more."""
        self.wants += 1
        lines = DECLARATIONS.read_text().splitlines()
        lines = [line for line in lines if not self.goes.intersection(line.split())]
        lines[-1:] = [*(words for site in self.lost for words in (f"site {site} 1", f"limit {site} object till 0")), "start"]
        return "\n".join(["object milk 7", *lines] if self.wants % 2 else lines)

    def want(self, version: str = "") -> bool:
        """Asks for the next epoch. Returns whether nobody else has asked for it."""
        self.asked_for += 1
        asked = self.form.want(self.wanted(), version)
        # Of one whose answer was lost it is not known.
        self.asked_for -= not asked
        return asked

    def has_begun(self) -> bool:
        return not self.form.is_wanted()

    def bring_back(self) -> None:
        """Has all sites be sites again."""
        ends = time.monotonic() + 3 * PATIENCE
        while self.goes or self.out:
            if time.monotonic() > ends:
                sys.exit(f"{', '.join(self.goes | self.out)} cannot be brought back")
            self.change_sites()

    def change_sites(self) -> None:
        self.goes = set() if self.goes else {"south"}
        self.out |= self.goes
        # What was wanted before comes first.
        if self.soon(self.want):
            has_come = self.soon(self.has_begun)
            if has_come and not self.goes:
                self.faults.may_leave |= {self.deployment.processes[name] for name in self.out}
                self.out.clear()

    def soon(self, call: Callable[[], object]) -> bool:
        """Whether a call gives something true in time."""
        ends, came = time.monotonic() + PATIENCE, False
        while not came and time.monotonic() < ends:
            came = bool(self.upkeep.ask(call))
            self.faults.revive("a wait")
            time.sleep(0.1)
        return came

    # What sites show.

    def serves(self, site: str) -> bool:
        return self.form.place_at(site) is not None

    def waits_for_reader(self, site: str) -> bool:
        """Whether the site serves readers in time."""
        ends = time.monotonic() + PATIENCE
        while not self.serves(site) and time.monotonic() < ends:
            self.faults.revive(f"the wait for {site}")
            time.sleep(0.1)
        return time.monotonic() < ends

    def wait_for_sites(self, ends: float) -> None:
        """Waits until each site shows the last place that a client knows, and no epoch is to end."""
        while time.monotonic() < ends:
            self.faults.revive("the wait for sites")
            last, epoch = self.asking.last(), self.upkeep.ask(self.engine.epoch)[0]
            shown = [self.form.place_at(site) for site in SITES if site not in self.out]
            if all(is_at(place, last, epoch) for place in shown) and self.upkeep.ask(self.has_begun):
                break
            time.sleep(0.1)

    def scripts(self) -> list[list[str]]:
        """The lines of each epoch: from the archives, and the last one from the engine."""
        epoch, first = self.upkeep.ask(self.engine.epoch)
        ends = time.monotonic() + PATIENCE
        # What is to go to an archive goes there soon.
        while self.upkeep.ask(self.engine.first) < first and time.monotonic() < ends:
            time.sleep(0.1)
        kept = self.archives()
        entries = [(number, text) for number, text in self.upkeep.ask(self.engine.entries) if number >= first]
        for (number, _), comes in zip(entries, range(first, first + len(entries))):
            if number != comes:
                self.faults.wrong.append(f"the script has the entry {number} and not {comes}")
        last = [line for _, text in entries for line in self.form.lines_of(text)]
        return [kept.get(number, []) for number in range(1, epoch)] + [last]

    def archives(self) -> dict[int, list[str]]:
        kept: dict[int, list[str]] = {}
        for path in (path for name in PRIMARIES for path in self.deployment.archive(name).glob("epoch-*.ordup")):
            number, lines = int(path.stem.split("-")[1]), self.form.lines_of_archive(path.read_text())
            if kept.setdefault(number, lines) != lines:
                self.faults.wrong.append(f"epoch {number} has two archives that differ")
        return kept

    # The run.

    def run(self, seconds: float, updates: int) -> list[list[str]]:
        """Returns the lines of each epoch."""
        for name in [*MEMBERS, *PRIMARIES, FLEET, *SITES]:
            self.deployment.start(name)
        for site in SITES:
            self.deployment.start_reader(site)
        self.asking.start(self.chance)
        ends = time.monotonic() + PATIENCE
        while len(self.asking.answers) < CLIENTS and time.monotonic() < ends:
            time.sleep(0.05)
        # A primary that sees the script first after other declarations were given would end.
        self.soon(lambda: all(map(self.form.is_ready, PRIMARIES)))
        threading.Thread(target=self.upkeep.look_at_alarms, daemon=True).start()
        began = time.monotonic()
        self.fails(lambda: time.monotonic() < began + seconds or self.asking.acknowledged() < updates)
        self.seconds = time.monotonic() - began
        self.bring_back()
        self.soon(self.asking.has_ended)
        self.wait_for_sites(time.monotonic() + PATIENCE)
        self.start_again()
        self.ask_late()
        self.wait_for_sites(time.monotonic() + PATIENCE)
        # The readers read it all.
        time.sleep(3)
        return self.scripts()

    def start_again(self) -> None:
        """All primaries and sites are killed and started. Each runs the epoch."""
        began = time.monotonic()
        self.deployment.kill(*PRIMARIES, *SITES)
        for name in [*PRIMARIES, *SITES]:
            self.deployment.start(name)
        self.asking.propose_alone("add:tea:1")
        for site in SITES:
            self.waits_for_reader(site)
        self.start = time.monotonic() - began

    def ask_late(self) -> None:
        """Under a number that is before the last one. The client is told so, until its next answer. Other changes are refused."""
        self.asking.propose_alone("add:tea:1")
        last = self.asking.asked[0]
        told = self.soon(lambda: self.form.is_told_late("client0", 1, last))
        self.faults.check(told, "a late request had no answer")
        self.asking.propose_alone("add:tea:1")
        told = self.upkeep.ask(lambda: self.form.is_told_late("client0", 1, last))
        self.faults.check(not told, "a late request is told a number that is not the last one")
        answer = self.asking.propose_other("add:tea:2")
        self.faults.check(answer is None, f"the number of other changes had the answer {answer}")


def is_at(shown: Place | None, last: Place, epoch: int) -> bool:
    """Whether a site shows the last place. An epoch that has ended has no more."""
    return shown is not None and (shown >= last or epoch > last[0] and shown[0] >= epoch)
