"""What fails of primaries, and as one epoch follows another. Each public method is a fault from its beginning to its end."""

import signal
import subprocess
import time
from pathlib import Path

from addresses import DECLARATIONS, FLEET, MEMBERS, PRIMARIES, SITES, SPARE
from asking import PATIENCE
from failing import LONG, Failing, Upgrade
from observer import Told

# So many updates has the log of an epoch that goes on while sites are lost.
LONG_LOG = 600_000


class PrimaryFaults(Failing):
    def end_primary(self) -> None:
        """The primary that writes ends as it is asked to. It gives up its lease, so another one need not wait for that."""
        writer = self.writer()
        process = self.deployment.processes[writer]
        process.terminate()
        self.check(process.wait() == 0, f"{writer} ended with {process.returncode} when it was asked to")
        # The engine may be slow. After this it has done what it was asked before.
        self.trial.upkeep.ask(lambda: self.engine.put(b"junk/asked", b""))
        held = self.trial.upkeep.ask(lambda: self.engine.value("primary"))
        self.check(not held or self.trial.form.pid_of(held) != process.pid, f"{writer} has ended, and has its lease")
        self.deployment.start(writer)

    def end_each_in_turn(self) -> None:
        """Each site, the fleet and each primary ends as it is asked to, and is started again, while clients ask."""
        for name in [*SITES, FLEET, *PRIMARIES]:
            self.renew(name)

    def renew(self, name: str) -> None:
        """It ends when it is asked to. Returns once it serves again."""
        if name in self.trial.out:
            return
        process = self.deployment.processes[name]
        process.terminate()
        # The engine says of itself by which signal it ended.
        self.check(process.wait() in ([0, -signal.SIGTERM] if name in MEMBERS else [0]),
                   f"{name} ended with {process.returncode} when it was asked to")
        self.deployment.start(name)
        if name in SITES:
            self.check(self.trial.waits_for_reader(name), f"{name} does not serve after it was started again")
        if name in MEMBERS:
            self.check(self.trial.upkeep.has_joined(name), f"the member {name} does not answer after it was started again")

    def upgrade(self) -> None:
        """The deployment goes to a newer version of the program, if there is one, and then back, while clients ask. In between the newer
        one runs the script, and an older one ends where it meets that."""
        form = self.trial.form
        older, newer = form.nodes
        self.renew_all(newer)
        if newer != older:
            self.goes_on_by(form.version_of(newer))
            self.ends_as_too_old(older)
            self.goes_on_by(form.version_of(older))
            self.renew_all(older)

    def ends_as_too_old(self, node: Path) -> None:
        """A primary of a program that has not the version of the script ends with the status 2."""
        words = self.trial.form.words_of_primary(SPARE, self.deployment.archive(SPARE), self.deployment.every, None)
        self.check(self.status_of([str(node), *words[1:]]) == 2, "a program goes on with the script of a version that it has not")

    def status_of(self, words: list[str]) -> int | None:
        """The status of a process on the spare host, or nothing where it does not end."""
        other = self.deployment.begin(SPARE, words)
        try:
            return other.wait(PATIENCE)
        except subprocess.TimeoutExpired:
            other.kill()
            other.wait()
            return None

    def goes_on_by(self, version: str) -> None:
        """The script goes to a version that all processes have."""
        self.begins_next(f"of version {version}", version)
        _, last = max(self.trial.upkeep.ask(self.engine.entries))
        self.check(f" ordup {version} " in last.partition("\n")[0], f"the script is not run by {version}")

    def renew_all(self, node: Path) -> None:
        """All processes are started anew of a program, one at a time, in the order of an upgrade: members of the engine, sites, the fleet,
        the primary that stands by, and the one that writes."""
        began, self.trial.form.node = time.monotonic(), node
        for name in [*MEMBERS, *SITES, FLEET]:
            self.renew(name)
        writer = self.writer()
        for name in sorted(PRIMARIES, key=lambda name: name == writer):
            self.renew(name)
            self.check(self.trial.soon(lambda: self.trial.form.is_ready(name)), f"{name} is not ready after it was started again")
        self.trial.asking.propose_alone("add:tea:1")
        self.upgrades.append(Upgrade(self.trial.form.version_of(node), began, time.monotonic()))

    def ask_for_an_epoch_from_afar(self) -> None:
        """Epochs are asked for while a member is far, so a primary may hear late of what it wrote itself."""
        with self.trial.alone():
            for _ in range(4):
                member = self.member()
                self.deployment.hosts("slow", "20", "0", member)
                self.begins_next("from afar")
                self.pause(0.2, 0.4)
                self.deployment.hosts("mend", member)

    def fill_log_and_lose_sites(self) -> None:
        """Four sites are lost, and the epoch goes on until its log is long. Then they are taken out at once, as the others tell all."""
        self.trial.bring_back()
        with self.trial.alone():
            self.trial.lost = ["lost1", "lost2", "lost3", "lost4"]
            self.begins_next("with four sites more")
            self.deployment.kill(*PRIMARIES)
            number, last = max(self.trial.upkeep.ask(self.engine.entries))
            for first in range(1, LONG_LOG, 20_000):
                asks = [f"ask filler {first + at} add:till:0" for at in range(20_000)]
                number = self.add_entry(number + 1, "\n".join([last.partition("\n")[0], *asks, ""]))
            self.trial.lost = []
            for name in PRIMARIES:
                self.deployment.start(name)
            self.begins_next("after a long one")

    def add_entry(self, number: int, text: str) -> int:
        """Writes an entry as a primary does, and returns its number. What one of them sent before it was killed may come first."""

        def is_written() -> bool:
            key = f"script/{number:012d}"
            return self.engine.create(key, text) or self.engine.value(key) == text

        while not self.trial.upkeep.ask(is_written):
            number += 1
        return number

    def ask_under_many_names(self) -> None:
        """New clients ask once each. In the next epoch, and of another primary, they have the same answers."""
        asking, names = self.trial.asking, [f"many{self.times['ask_under_many_names']}_{one}" for one in range(150)]
        index, changes = asking.add(names), {name: "add:till:1" for name in names}
        answers = asking.propose(index, changes)
        self.begins_next("by many names")
        self.restart(self.writer(), 0, 0.1)
        if wrong := asking.clients[index].again(1, changes, answers):
            self.wrong.append(wrong[:500])

    def ask_for_other_limits(self) -> None:
        """An operator gives a site a greater limit, a lesser one, and the first one again, while clients ask. The readers of the site
        count how far it lags."""
        site, scope, amounts = self.chance.choice([("north", "count", (12, 1, 3)), ("far", "group goods", (150, 25, 40))])
        for amount in amounts:
            self.check(self.trial.soon(lambda: self.takes_limit(site, scope, amount)), f"{site} could not be given the limit {scope} {amount}")
            self.pause(1, 2)

    def takes_limit(self, site: str, scope: str, amount: int) -> bool:
        place = self.trial.form.relimit(site, f"{scope} {amount}")
        if place is None:
            self.note("limits that were not taken at once")
            return False
        self.trial.asking.limits.append(Told(time.monotonic(), site, scope, amount, place))
        return True

    def put_what_is_odd(self) -> None:
        """What is no key of the deployment, and no request, is put and sent. It stops nobody, also who takes over."""
        self.trial.bring_back()
        for site in SITES:
            self.check(self.trial.waits_for_reader(site), f"{site} does not serve")
        form = self.trial.form
        values = [bytes([self.chance.randrange(256)] * 3) for _ in form.odd_keys]
        self.wrong += self.trial.upkeep.ask(lambda: form.put_odd(values))
        self.restart(self.writer(), 0.1, 0.5)
        self.trial.asking.propose_alone("add:tea:1")

    def start_primary_with_other_settings(self) -> None:
        """A primary with other settings is started. It ends with the status 2, before it stands by."""
        declarations = self.deployment.folder / "other.ordup"
        declarations.write_text(DECLARATIONS.read_text().replace("limit north count 3", "limit north count 4"))
        every = self.deployment.every
        for settings in ((every + 1, None), (every, declarations)):
            words = self.trial.form.words_of_primary(SPARE, self.deployment.archive(SPARE), *settings)
            status = self.status_of(words)
            self.check(status == 2, f"a primary with other settings had the status {status}")

    def kill_primary(self) -> None:
        """The primary that writes is killed as requests wait for it, and started again."""
        self.restart(self.busy_writer(), 0.1, 0.5)

    def kill_primaries(self) -> None:
        """Both primaries are killed, and started again."""
        self.deployment.kill(*PRIMARIES)
        self.pause(0, 0.5)
        for name in PRIMARIES:
            self.deployment.start(name)

    def kill_primary_as_an_epoch_ends(self) -> None:
        """The primary that writes is killed as an epoch is to end, once the next one has begun, or once what was before is archived: each
        in its turn."""
        writer, step = self.writer(), self.times["kill_primary_as_an_epoch_ends"] % 3
        epoch = self.trial.upkeep.ask(self.engine.epoch)[0]
        self.trial.upkeep.ask(self.trial.want)
        ends = time.monotonic() + (PATIENCE if step else self.chance.uniform(0, 0.3))
        while self.steps_of_end(epoch) < max(step, 1) and time.monotonic() < ends:
            pass
        self.deployment.kill(writer)
        when = ("before an epoch ended", "after an epoch ended", "after an epoch was archived")[self.steps_of_end(epoch)]
        self.note(f"primaries killed {when}")
        self.pause(0.1, 0.5)
        self.deployment.start(writer)

    def steps_of_end(self, epoch: int) -> int:
        """0 before the next epoch has begun, 1 after that, and 2 once what was before is archived."""
        last, first = self.trial.upkeep.ask(self.engine.epoch)
        return 0 if last == epoch else 1 + (self.trial.upkeep.ask(self.engine.first) >= first)

    def kill_bursts_as_an_epoch_ends(self) -> None:
        """Some processes are killed at once, and more before these have come back, from when an epoch is asked for until it has begun."""
        self.trial.soon(self.trial.want)
        for _ in range(self.chance.randint(3, 6)):
            names = self.chance.sample([*PRIMARIES, *SITES, FLEET], self.chance.randint(2, 6))
            self.deployment.kill(*names)
            for name in names:
                self.deployment.start(name)
            self.pause(0, 0.6)
        self.check(self.trial.soon(self.trial.has_begun), "the next epoch did not begin after bursts of kills")
        self.note("epochs that ended in bursts of kills")

    def stop_primary(self) -> None:
        """The primary that writes is stopped for longer than its lease, and goes on."""
        self.suspend(self.busy_writer(), LONG, LONG + 2)

    def stop_primaries_in_turn(self) -> None:
        """The primary that writes is stopped, and then the other one as the first goes on."""
        for _ in range(2):
            self.suspend(self.writer(), LONG, LONG + 1)

    def cut_primary(self) -> None:
        """The primary that writes is cut off for so long that another one takes over."""
        self.cut([self.busy_writer()], LONG, LONG + 2)

    def ask_for_the_next_epoch(self) -> None:
        """The next epoch is asked for, in which a site goes or comes back, and an object too."""
        self.trial.change_sites()
