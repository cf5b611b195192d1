"""What the faults of the trial have in common."""

from __future__ import annotations

import signal
import sys
import time
from typing import TYPE_CHECKING, NamedTuple

from addresses import MEMBERS, PRIMARIES, SITES
from asking import PATIENCE

if TYPE_CHECKING:
    from deployment import Process
    from trial import Trial

# Longer than the lease of a process.
LONG = 7.0


class Upgrade(NamedTuple):
    """All processes were started anew of a program of this version, from one time to another."""

    version: str
    began: float
    ended: float


class Failing:
    def __init__(self, trial: Trial) -> None:
        self.trial, self.deployment, self.chance, self.engine = trial, trial.deployment, trial.chance, trial.engine
        # How often each fault came, what was wrong, and what was met.
        self.times: dict[str, int] = {}
        self.wrong: list[str] = []
        self.found: dict[str, int] = {}
        # What is told of a restore, and the upgrades.
        self.told: list[str] = []
        self.upgrades: list[Upgrade] = []
        # Whether the trial ends as soon as something is wrong.
        self.ends_early = False
        # The processes that were started while their site was taken out, or left out of its fleet.
        self.may_leave: set[Process] = set()

    def revive(self, after: str) -> None:
        """Starts again what has ended."""
        if self.ends_early and self.wrong:
            sys.exit(self.wrong[0])
        for name, process in [*self.deployment.processes.items()]:
            if process.poll() is not None and name not in self.deployment.down:
                # A site that is taken out ends, and so does a process of it that was started before it is a site again, or that its fleet
                # left out.
                if process.returncode != 4 or name not in self.trial.out and process not in self.may_leave:
                    self.wrong.append(f"{name} ended by itself with {process.returncode} after {after}")
                self.deployment.start(name)

    def check(self, good: bool, words: str) -> None:
        if not good:
            self.wrong.append(words)

    def note(self, what: str) -> None:
        self.found[what] = self.found.get(what, 0) + 1

    def pause(self, least: float, most: float) -> None:
        time.sleep(self.chance.uniform(least, most))

    def restart(self, name: str, least: float, most: float) -> None:
        self.deployment.kill(name)
        self.pause(least, most)
        self.deployment.start(name)

    def suspend(self, name: str, least: float, most: float) -> None:
        self.deployment.processes[name].send_signal(signal.SIGSTOP)
        self.pause(least, most)
        self.deployment.processes[name].send_signal(signal.SIGCONT)

    def cut(self, names: list[str], least: float, most: float, how: str = "cut") -> None:
        self.deployment.hosts(how, *names)
        self.pause(least, most)
        self.deployment.hosts("mend", *names)

    def site(self) -> str:
        return self.chance.choice([*SITES])

    def member(self) -> str:
        return self.chance.choice(MEMBERS)

    def writer(self) -> str:
        """The host of the primary that writes."""
        ends = time.monotonic() + PATIENCE
        while time.monotonic() < ends:
            value = self.trial.upkeep.ask(lambda: self.engine.value("primary"))
            for name in PRIMARIES:
                if value and self.trial.form.pid_of(value) == self.deployment.processes[name].pid:
                    return name
            time.sleep(0.1)
        self.wrong.append("no primary holds the lease")
        return PRIMARIES[0]

    def busy_writer(self) -> str:
        """The host of the primary that writes, as requests wait for it."""
        writer, ends = self.writer(), time.monotonic() + 5
        while not self.trial.asking.open and time.monotonic() < ends:
            time.sleep(0.001)
        return writer

    def begins_next(self, words: str, version: str = "") -> None:
        """Asks for the next epoch, and waits until it has begun."""
        self.check(self.trial.soon(lambda: self.trial.want(version)), f"the next epoch could not be asked for {words}")
        self.check(self.trial.soon(self.trial.has_begun), f"the next epoch did not begin {words}")
