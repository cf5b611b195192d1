"""Makes each alert of operators fire, by the fault that it is for. Each public method is a fault while its block goes on.

Clients ask for nothing but what a fault has them ask for. Before each fault and after it no alert fires.
"""

from __future__ import annotations

import contextlib
import inspect
import signal
import time
from typing import TYPE_CHECKING, Iterator, NamedTuple

from addresses import MEMBERS, PRIMARIES
from asking import PATIENCE
from failing import Failing
from prometheus import LESS, LONG_LOG, Prometheus

if TYPE_CHECKING:
    from safety import Safety
    from trial import Trial

# For how long nothing fires before a fault, and for how long an alert may be waited for.
QUIET, LONGEST = 3.0, 180.0
# So many clients fill a log.
FILLERS = 25


class Case(NamedTuple):
    """The alert that a fault is for, and those that may come with it."""

    alert: str
    beside: tuple[str, ...] = ()


CASES = {
    "kill_all_primaries": Case("OrdupNobodyWrites"),
    "stop_site_at_its_limit": Case("OrdupUpdatesWait"),
    "stop_site_near_its_limit": Case("OrdupSiteNearLimit", ("OrdupSiteIsAway",)),
    "kill_site": Case("OrdupSiteIsAway"),
    "end_writer_while_site_is_dead": Case("OrdupSiteIsAway"),
    "start_site_without_engine": Case("OrdupSiteServesNobody"),
    "kill_member_of_fleet": Case("OrdupMemberIsAway"),
    "ask_for_epoch_without_member_of_fleet": Case("OrdupNextEpochWaits", ("OrdupMemberIsAway",)),
    "put_key_that_fleet_does_not_list": Case("OrdupFleetTellsNothing"),
    "fill_log_while_site_is_dead": Case("OrdupEpochDoesNotEnd", ("OrdupSiteIsAway", "OrdupNextEpochWaits")),
    "hold_lease_of_site_that_goes": Case("OrdupLeaseDoesNotEnd", ("OrdupSiteIsAway",)),  # It is away until the script has that it leaves.
    "end_epoch_with_one_primary": Case("OrdupArchivesWait"),
    "fill_engine": Case("OrdupEngineIsFull"),
    "cut_majority": Case("OrdupEngineFails", ("OrdupSiteServesNobody", "OrdupSiteIsAway", "OrdupMemberIsAway")),
    "show_certificate_that_expires": Case("OrdupCertificateExpires"),
}


class Alerts(Failing):
    def __init__(self, trial: Trial, prometheus: Prometheus, safety: Safety) -> None:
        super().__init__(trial)
        self.prometheus, self.safety = prometheus, safety
        self.wrong, self.told, self.found = trial.faults.wrong, trial.faults.told, trial.faults.found

    def run(self, alerts: list[str]) -> None:
        """Each fault that is for one of these alerts, or each where none is named."""
        for alert in set(self.prometheus.alerts) - {case.alert for case in CASES.values()}:
            self.check(False, f"no fault makes {alert} fire")
        with self.trial.alone():
            self.check(self.trial.soon(self.prometheus.sees_all), "Prometheus does not see all processes")
            for name, case in CASES.items():
                if not alerts or case.alert in alerts:
                    print(f"{time.monotonic():.1f} {name}", file=self.deployment.log, flush=True)
                    self.make_fire(name, case)

    def make_fire(self, name: str, case: Case) -> None:
        self.be_quiet(f"before {name}")
        began, fault = time.monotonic(), getattr(self, name)
        with fault():
            ends = began + LONGEST
            while case.alert not in (self.prometheus.now() or ()) and time.monotonic() < ends:
                self.trial.faults.revive(name)
                time.sleep(0.2)
            took = time.monotonic() - began
        self.be_quiet(f"after {name}")
        fired = self.prometheus.since(began)
        self.check(case.alert in fired, f"{case.alert} did not fire: {name}")
        self.check(fired <= {case.alert, *case.beside}, f"{name} had {', '.join(sorted(fired - {case.alert, *case.beside}))} fire too")
        if case.alert in fired:
            self.note("alerts that fired")
        others = ", ".join(sorted(fired - {case.alert}))
        meaning = " ".join((inspect.getdoc(fault) or "").split())
        self.told.append(f"{case.alert}: {took:.0f} s after this: {meaning}" + (f" With it: {others}." if others else ""))

    def be_quiet(self, when: str) -> None:
        """Waits until no alert fires or is about to, for some seconds."""
        ends, since = time.monotonic() + 2 * PATIENCE, time.monotonic()
        while time.monotonic() < since + QUIET:
            alerts = self.prometheus.now(also_pending=True)
            if alerts is None or alerts:
                since = time.monotonic()
            if time.monotonic() > ends:
                self.check(False, f"there was no quiet {when}: {alerts}")
                return
            self.trial.faults.revive(when)
            time.sleep(0.2)

    @contextlib.contextmanager
    def dead(self, *names: str) -> Iterator[None]:
        """These processes are killed, and started again."""
        self.deployment.kill(*names)
        yield
        for name in names:
            self.deployment.start(name)

    # The faults.

    @contextlib.contextmanager
    def kill_all_primaries(self) -> Iterator[None]:
        """All primaries are killed."""
        with self.dead(*PRIMARIES):
            yield

    @contextlib.contextmanager
    def stop_site_at_its_limit(self) -> Iterator[None]:
        """A site is stopped, and an update waits for it."""
        self.trial.asking.propose_alone("add:tea:1")
        self.deployment.processes["south"].send_signal(signal.SIGSTOP)
        with self.trial.asking.proposing("add:tea:200"):
            yield
            self.deployment.processes["south"].send_signal(signal.SIGCONT)

    @contextlib.contextmanager
    def stop_site_near_its_limit(self) -> Iterator[None]:
        """A site is stopped, and what it lacks is nearly all that it may."""
        self.trial.asking.propose_alone("add:tea:1")
        self.deployment.processes["south"].send_signal(signal.SIGSTOP)
        self.trial.asking.propose_alone("add:tea:19")
        yield
        self.deployment.processes["south"].send_signal(signal.SIGCONT)

    @contextlib.contextmanager
    def kill_site(self) -> Iterator[None]:
        """A site is killed."""
        with self.dead("south"):
            yield

    @contextlib.contextmanager
    def end_writer_while_site_is_dead(self) -> Iterator[None]:
        """The primary ends that a site told its places, and the one that takes over is never told one."""
        writer = self.writer()
        with self.dead("south"):
            self.deployment.processes[writer].terminate()
            self.deployment.processes[writer].wait()
            self.deployment.start(writer)
            yield

    @contextlib.contextmanager
    def start_site_without_engine(self) -> Iterator[None]:
        """The process of a site does not reach the engine, so it serves nobody."""
        with self.dead("south"):
            words = self.deployment.words_of("south")
            words[words.index("--engine") + 1] = "http://10.77.0.1:1"
            alone = self.deployment.begin("south", words)
            yield
            alone.kill()
            alone.wait()

    @contextlib.contextmanager
    def kill_member_of_fleet(self) -> Iterator[None]:
        """A site of a fleet is killed."""
        with self.dead("east"):
            yield

    @contextlib.contextmanager
    def ask_for_epoch_without_member_of_fleet(self) -> Iterator[None]:
        """A site of a fleet is killed and lacks an update, as the next epoch is asked for."""
        with self.dead("east"):
            self.trial.asking.propose_alone("add:coffee:1")
            self.check(self.trial.soon(self.trial.want), "the next epoch could not be asked for")
            yield
        self.check(self.trial.soon(self.trial.has_begun), "the next epoch did not begin")

    @contextlib.contextmanager
    def put_key_that_fleet_does_not_list(self) -> Iterator[None]:
        """The engine has a key of a fleet that is of none of its sites."""
        self.trial.upkeep.ask(lambda: self.engine.put(b"site/far/middle", b"nobody"))
        yield
        self.trial.upkeep.ask(lambda: self.engine.remove("site/far/middle"))

    @contextlib.contextmanager
    def fill_log_while_site_is_dead(self) -> Iterator[None]:
        """A site is killed, so the epoch that is due goes on, and the log grows."""
        asking, names = self.trial.asking, [f"filler{one}" for one in range(FILLERS)]
        index = asking.add(names)
        with self.dead("south"):
            for _ in range(LONG_LOG // LESS // FILLERS + 2):
                asking.propose(index, {name: "add:coffee:1" for name in names})
            yield

    @contextlib.contextmanager
    def hold_lease_of_site_that_goes(self) -> Iterator[None]:
        """A site is taken out, and somebody keeps the lease of its key."""
        self.deployment.kill("south")
        lease = self.trial.upkeep.ask(lambda: self.engine.grant(600))
        self.trial.upkeep.ask(lambda: self.engine.put(b"site/south/south", b"somebody", lease))
        self.trial.goes = {"south"}
        self.trial.out |= self.trial.goes
        self.check(self.trial.soon(self.trial.want), "the next epoch could not be asked for")
        yield
        self.trial.upkeep.ask(lambda: self.engine.revoke(lease))
        self.check(self.trial.soon(self.trial.has_begun), "the epoch without the site did not begin")
        self.trial.bring_back()
        self.deployment.start("south")

    @contextlib.contextmanager
    def end_epoch_with_one_primary(self) -> Iterator[None]:
        """One primary is killed, and an epoch ends. So one host alone has its archive."""
        writer = self.writer()
        with self.dead(*(name for name in PRIMARIES if name != writer)):
            self.begins_next("with one primary")
            yield

    @contextlib.contextmanager
    def fill_engine(self) -> Iterator[None]:
        """The engine has no space for a write."""
        upkeep = self.trial.upkeep
        upkeep.fills = True
        upkeep.fill()
        with self.trial.asking.proposing("add:coffee:1"):
            yield
            upkeep.fills = False

    @contextlib.contextmanager
    def cut_majority(self) -> Iterator[None]:
        """Two of three members of the engine are cut off."""
        self.deployment.hosts("cut", *MEMBERS[1:])
        yield
        self.deployment.hosts("mend", *MEMBERS[1:])

    @contextlib.contextmanager
    def show_certificate_that_expires(self) -> Iterator[None]:
        """All processes are given a certificate that is good for two days."""
        self.safety.renew(2)
        yield
        self.safety.renew()
