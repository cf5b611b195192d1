"""What an operator does with the engine while the trial runs."""

import subprocess
import time
from functools import partial
from pathlib import Path
from typing import Callable, TypeVar

from addresses import MEMBERS, address_of
from asking import PATIENCE
from etcd import Away, Engine, Full, until, until_done

T = TypeVar("T")


class Upkeep:
    def __init__(self, engine: Engine, note: Callable[[str], None]) -> None:
        self.engine, self.note = engine, note
        # Whether the engine is to be full.
        self.fills = False

    def ask(self, call: Callable[[], T]) -> T:
        """What a call of the engine gives, as soon as it gives something."""
        while True:
            try:
                return call()
            except Away:
                time.sleep(0.1)

    def leader(self) -> str:
        found = self.ask(self.engine.leader)
        return found if found in MEMBERS else MEMBERS[0]

    def replace_member(self, name: str) -> bool:
        """As `etcdctl member remove` and `etcdctl member add` do."""
        return until_done(partial(self.engine.replace_member, name, f"http://{address_of(name)}:2380"), PATIENCE)

    def has_joined(self, name: str) -> bool:
        return until(Engine([address_of(name)]).leader, PATIENCE, 0.3)

    def save(self, to: Path) -> bool:
        """Makes a backup, as an operator does. A member that has just answered has all that was acknowledged before it was asked."""

        def saves() -> bool:
            Engine([address_of(MEMBERS[0])]).epoch()
            words = ["etcdctl", "--endpoints", f"http://{address_of(MEMBERS[0])}:2379", "snapshot", "save", str(to)]
            return subprocess.run(words, stdout=subprocess.DEVNULL, stderr=subprocess.DEVNULL).returncode == 0

        return until(saves, PATIENCE, 0.3)

    def last_entry(self) -> int:
        return max((number for number, _ in self.ask(self.engine.entries)), default=0)

    def asked(self) -> tuple[int, int]:
        """The epoch, and how many requests its script has."""
        epoch, first = self.ask(self.engine.epoch)
        entries = [text.split("\n") for number, text in self.ask(self.engine.entries) if number >= first]
        return epoch, sum(line.startswith("ask ") for lines in entries for line in lines)

    def restore(self, backup: Path, name: str, to: Path) -> None:
        """Makes the folder of a member of a backup, as an operator does."""
        peers = {member: f"http://{address_of(member)}:2380" for member in MEMBERS}
        words = ["--name", name, "--data-dir", str(to), "--initial-advertise-peer-urls", peers[name]]
        words += ["--initial-cluster", ",".join(f"{member}={url}" for member, url in peers.items())]
        subprocess.run(["etcdctl", "snapshot", "restore", backup, *words], check=True, stdout=subprocess.DEVNULL, stderr=subprocess.DEVNULL)

    def size_of_script(self) -> int:
        """The bytes of the epoch."""
        return self.ask(lambda: sum(len(text) for _, text in self.engine.entries()))

    def fill(self) -> None:
        number, ends = 0, time.monotonic() + PATIENCE
        while time.monotonic() < ends:
            try:
                number += 1
                self.engine.put(f"junk/{number}".encode(), b"x" * 1_000_000)
            except Full:
                return
            except Away:
                pass

    def look_at_alarms(self) -> None:
        """A member on an empty disk goes through what was written since the others made a snapshot. So it may be full."""
        while True:
            time.sleep(0.3)
            try:
                if not self.fills and self.engine.alarms() and self.free_space():
                    self.note("times that space was freed")
            except Away:
                pass

    def free_space(self) -> bool:
        """As `etcdctl del`, `etcdctl compaction`, `etcdctl defrag` and `etcdctl alarm disarm` do."""
        made = until_done(partial(self.engine.remove, "junk/"), PATIENCE)
        for name in MEMBERS:
            made = made and until_done(Engine([address_of(name)], 10).defragment, PATIENCE)
        return made and until_done(self.engine.disarm, PATIENCE)
