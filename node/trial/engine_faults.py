"""What fails of the engine, its links and its disks. Each public method is a fault from its beginning to its end."""

import os
import shutil
import time
from pathlib import Path

from addresses import MEMBERS, PRIMARIES, SITES
from asking import PATIENCE
from failing import LONG, Failing
from observer import Loss


class EngineFaults(Failing):
    def kill_member(self) -> None:
        """A member of the engine is killed, and started again."""
        self.restart(self.member(), 0.2, 2)

    def kill_leader_often(self) -> None:
        """The member that leads is killed three times, one after the other."""
        for _ in range(3):
            self.restart(self.trial.upkeep.leader(), 0.2, 1)
            self.pause(1, 2)

    def kill_all(self) -> None:
        """All members, primaries and sites are killed at once, and started again."""
        names = [*self.deployment.processes]
        self.deployment.kill(*names)
        for name in names:
            self.deployment.start(name)

    def lose_disk_of_member(self) -> None:
        """A member is killed, its disk is deleted, and another one takes its place."""
        name = self.member()
        self.deployment.kill(name)
        for kept in self.deployment.disk(name).iterdir():
            shutil.rmtree(kept)
        if self.trial.upkeep.replace_member(name):
            self.deployment.start(name, "--initial-cluster-state", "existing")
            # Killed before it has joined, it would begin as the one that was taken away.
            self.check(self.trial.upkeep.has_joined(name), f"the member {name} did not join")
        else:
            self.wrong.append(f"the member {name} could not be replaced")

    def lose_all_disks(self) -> None:
        """What all members have is brought back from a backup that has all that was acknowledged."""
        backup, upkeep = self.deployment.folder / "backup", self.trial.upkeep
        with self.trial.alone():
            # What sites told goes into an entry a little later. A process that has run one which the backup lacks would end.
            ends, saved = time.monotonic() + PATIENCE, 0
            while saved != (last := upkeep.last_entry()) and time.monotonic() < ends:
                self.check(upkeep.save(backup), "there was no backup")
                self.pause(1, 1)
                saved = last
            self.deployment.kill(*MEMBERS)
            self.restore_members(backup)
        backup.unlink()

    def restore_members(self, backup: Path) -> None:
        for name in MEMBERS:
            shutil.rmtree(self.deployment.disk(name) / "data")
            self.trial.upkeep.restore(backup, name, self.deployment.disk(name) / "data")
        for name in MEMBERS:
            self.deployment.start(name)
        for name in MEMBERS:
            self.check(self.trial.upkeep.has_joined(name), f"the member {name} was not restored")

    def restore(self) -> None:
        """A backup is made while clients ask. Then all members are lost with their disks, and brought back from it. What was acknowledged
        after it is lost. All else is stopped meanwhile, and archives of epochs that had not ended in it are taken away."""
        asking, backup = self.trial.asking, self.deployment.folder / "backup"
        self.check(self.trial.soon(self.trial.has_begun), "the next epoch did not begin before a backup")
        began = time.monotonic()
        self.check(self.trial.upkeep.save(backup), "there was no backup")
        asking.propose_alone("add:tea:1")
        self.pause(1, 3)
        others = [name for name in self.deployment.processes if name not in MEMBERS]
        self.deployment.kill(*MEMBERS, *others)
        # What was answered is heard by then, also by crowds.
        self.pause(3, 3)
        ended = time.monotonic()
        self.restore_members(backup)
        backup.unlink()
        epoch, asked = self.trial.upkeep.asked()
        for path in (path for name in PRIMARIES for path in self.deployment.archive(name).glob("epoch-*.ordup")):
            if int(path.stem.split("-")[1]) >= epoch:
                path.unlink()
        asking.losses.append(Loss(began, ended, epoch, asked))
        for name in others:
            self.deployment.start(name)
        asking.propose_alone("add:tea:1")
        self.pause(1, 1)
        self.told.append(f"restore: {asking.acknowledged(until=began)} updates acknowledged before the backup, "
                         f"{asking.acknowledged(began, ended)} until all was lost, {asking.acknowledged(ended)} since it was restored; "
                         f"the longest wait was {asking.longest(began):.1f} s")

    def cut_minority_with_primary(self) -> None:
        """The primary that writes and a member are cut off from all others, and see each other."""
        self.cut([self.writer(), self.member()], 1, LONG + 3, "part")

    def cut_majority(self) -> None:
        """Two members are cut off. Nothing that is asked then has an answer."""
        two = self.chance.sample(MEMBERS, 2)
        self.deployment.hosts("cut", *two)
        began = time.monotonic()
        self.pause(1, 6)
        answers = [answer for answer in [*self.trial.asking.answers] if answer.began > began]
        self.check(not answers, f"there were answers without a majority, as {answers[:1]}")
        self.deployment.hosts("mend", *two)

    def stop_member(self) -> None:
        """A member is stopped, and goes on."""
        self.suspend(self.member(), 0.5, LONG)

    def slow_links(self) -> None:
        """The links of three hosts are slow, and lose frames."""
        names = self.chance.sample([*MEMBERS, *PRIMARIES, *SITES], 3)
        self.deployment.hosts("slow", str(self.chance.choice([5, 20, 50])), str(self.chance.choice([0, 2, 5])), *names)
        self.pause(2, 6)
        self.deployment.hosts("mend", *names)

    def fill_disk_of_member(self) -> None:
        """The disk of a member is full. The member may end, and is started again when there is space."""
        name = MEMBERS[-1]
        filler = self.deployment.disk(name) / "filler"
        with open(filler, "wb", buffering=0) as file:
            try:
                while True:
                    file.write(bytes(1 << 20))
            except OSError:
                pass
        ends = time.monotonic() + LONG
        while self.deployment.processes[name].poll() is None and time.monotonic() < ends:
            time.sleep(0.1)
        os.remove(filler)
        if self.deployment.processes[name].poll() is not None:
            self.note("members that ended as their disk was full")
            self.deployment.start(name)

    def fill_engine(self) -> None:
        """The engine is filled up to its quota. Then the operator frees space again."""
        upkeep = self.trial.upkeep
        upkeep.fills = True
        upkeep.fill()
        self.pause(0.5, 2)
        upkeep.fills = False
        ends = time.monotonic() + PATIENCE
        while (full := upkeep.ask(self.engine.alarms)) and time.monotonic() < ends:
            time.sleep(0.1)
        self.check(not full, "there was no space again")
