"""What runs on the hosts of the trial."""

import subprocess
import threading
from pathlib import Path
from typing import IO

from addresses import DECLARATIONS, FLEET, HOSTS, MACHINES, MEMBERS, NET, PRIMARIES, USERS, address_of
from form import Form

HERE = Path(__file__).resolve().parent
# What the engine may hold, and what the disk of the last member has, in MB.
QUOTA, DISK = 64, 768

Process = subprocess.Popen[bytes]


class Deployment:
    def __init__(self, form: Form, folder: Path, every: int) -> None:
        self.form, self.folder, self.every = form, folder, every
        self.processes: dict[str, Process] = {}
        self.others: list[Process] = []
        # What was killed, and is started when its fault ends.
        self.down: set[str] = set()
        # Of each reader the site, whether it is on the site's own host, and where its readings go.
        self.readings: list[tuple[str, bool, Path]] = []
        self.log = open(folder / "log", "w")

    def hosts(self, what: str, *words: str) -> None:
        subprocess.run([MACHINES / "hosts", what, NET, *words], check=True, stdout=self.log, stderr=self.log)

    def up(self) -> None:
        self.hosts("up", *HOSTS)
        for name in MEMBERS:
            self.disk(name).mkdir()
        subprocess.run(["mount", "-t", "tmpfs", "-o", f"size={DISK}m", "tmpfs", self.disk(MEMBERS[-1])], check=True)

    def disk(self, name: str) -> Path:
        return self.folder / f"disk-{name}"

    def archive(self, name: str) -> Path:
        return self.folder / f"archive-{name}"

    def begin(self, host: str, words: list[str], output: IO[str] | None = None) -> Process:
        # Where the trial is killed, so is what it started. The system does that as soon as the thread ends which started it.
        assert threading.current_thread() is threading.main_thread()
        words = ["setpriv", "--pdeathsig", "KILL", "ip", "netns", "exec", f"{NET}-{host}", *words]
        return subprocess.Popen(words, stdin=subprocess.DEVNULL, stdout=output or self.log, stderr=self.log)

    def words_of(self, name: str, *more: str) -> list[str]:
        if name in MEMBERS:
            members = [f"{member}={address_of(member)}" for member in MEMBERS]
            words = [str(MACHINES / "member"), name, address_of(name), str(self.disk(name) / "data"), *members]
            return [*words, "--quota-backend-bytes", str(QUOTA << 20), *more]
        if name in PRIMARIES:
            # An operator may have given others since the first start.
            declarations = None if name in self.processes else DECLARATIONS
            return self.form.words_of_primary(name, self.archive(name), self.every, declarations)
        return self.form.words_of_fleet() if name == FLEET else self.form.words_of_site(name)

    def start(self, name: str, *more: str) -> None:
        """Starts a member, a primary, the fleet or a site, on its host."""
        self.processes[name] = self.begin({FLEET: USERS}.get(name, name), self.words_of(name, *more))
        self.down.discard(name)

    def start_reader(self, site: str, host: str | None = None) -> Process:
        path = self.folder / f"{site}.readings{len(self.readings)}"
        self.readings.append((site, host is None, path))
        with open(path, "w") as output:
            self.others.append(self.begin(host or site, [str(HERE / "observer.py"), *self.form.words_of_reader()], output))
        return self.others[-1]

    def kill(self, *names: str) -> None:
        self.down.update(names)
        for name in names:
            self.processes[name].kill()
        for name in names:
            self.processes[name].wait()

    def end(self) -> None:
        for process in [*self.processes.values(), *self.others]:
            if process.poll() is None:
                process.kill()
                process.wait()
        self.hosts("down")
        subprocess.run(["umount", self.disk(MEMBERS[-1])], stderr=self.log)
        self.log.close()
