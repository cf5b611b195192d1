"""What fails of sites. Each public method is a fault from its beginning to its end."""

import signal
import time

from addresses import FLEET, MACHINES, MEMBERS, SITES, SPARE, USERS, address_of
from deployment import Process
from etcd import PORT
from failing import LONG, Failing

# By so many seconds a process says late that it gives a lease back. By then it has taken it up again, if it does that.
LATE = 6.0


class SiteFaults(Failing):
    def kill_site(self) -> None:
        """A site is killed, and started again."""
        self.restart(self.site(), 0.2, 1)

    def kill_fleet(self) -> None:
        """The process of the fleet is killed, and started again."""
        self.restart(FLEET, 0.2, 1)

    def stop_site(self) -> None:
        """A site is stopped, and goes on."""
        self.suspend(self.site(), 0.5, LONG)

    def cut_site(self) -> None:
        """The link of a site is cut, also for longer than its lease lives."""
        self.cut([self.site()], 0.5, LONG)

    def cut_and_kill_site(self) -> None:
        """A site is killed while its link is cut, and started before that is mended."""
        site = self.site()
        self.deployment.hosts("cut", site)
        self.pause(0.3, 0.8)
        self.restart(site, 0, 0.1)
        self.pause(0.3, 0.8)
        self.deployment.hosts("mend", site)

    def start_second_site(self) -> None:
        """A second process of a site is started elsewhere, while the first one is cut off. Readers read both."""
        site = self.site()
        self.deployment.hosts("cut", site)
        second = self.deployment.begin(SPARE, self.deployment.words_of(site))
        reader = self.deployment.start_reader(site, SPARE)
        self.pause(LONG, LONG + 2)
        self.deployment.hosts("mend", site)
        self.pause(1, 2)
        for process in (second, reader):
            process.kill()
            process.wait()

    def start_site_that_no_fleet_lists(self) -> None:
        """A process of a fleet is started under a name that the fleet does not list. It serves nobody, and ends."""
        words = self.deployment.words_of("west")
        words[words.index("--site") + 1] = "middle"
        process = self.deployment.begin(SPARE, words)
        reader = self.deployment.start_reader("west", SPARE)
        served, ends = False, time.monotonic() + LONG
        while process.poll() is None and time.monotonic() < ends:
            served = self.trial.serves(SPARE) or served
            time.sleep(0.05)
        self.check(not served, "a process that its fleet does not list served a reader")
        self.check(process.poll() == 4, f"a process that its fleet does not list ended with {process.poll()}")
        for started in (process, reader):
            started.kill()
            started.wait()

    def start_fleet_without_a_site(self) -> None:
        """The fleet is started anew without a site that serves readers, and is asleep for a moment. That ends once it is told so."""
        west = self.deployment.processes["west"]
        with self.trial.alone():
            west.send_signal(signal.SIGSTOP)
            self.deployment.kill(FLEET)
            words = self.deployment.words_of(FLEET)
            words[words.index("east,west")] = "east"
            fleet = self.deployment.begin(USERS, words)
            # It may end, and is started again with the fleet.
            self.may_leave.add(west)
            self.deployment.down.add("west")
            with self.trial.asking.proposing("add:tea:200"):
                # The lease of the site lives.
                self.pause(1.5, 1.8)
                west.send_signal(signal.SIGCONT)
                self.pause(1, 1)
                fleet.kill()
                fleet.wait()
                self.deployment.start(FLEET)
                self.check(west.poll() in (None, 4), f"west ended with {west.returncode}")
                if west.returncode is None:
                    self.deployment.down.discard("west")
                else:
                    self.deployment.start("west")

    def slow_return_of_lease(self) -> None:
        """A process gets the lease of its site and cannot read the script. So it gives the lease back, and the engine hears of that seconds
        later, as the process is cut off and another one waits for the lease. Readers read both."""
        self.trial.bring_back()
        site, at, to = "north", f"{address_of(MEMBERS[0])}:{PORT + 20}", f"{address_of(MEMBERS[0])}:{PORT}"
        road = self.deployment.begin(MEMBERS[0], [str(MACHINES / "late.py"), at, to, "60", str(LATE)])
        words = self.deployment.words_of(site)
        words[words.index("--engine") + 1] = f"http://{at}"
        second = self.deployment.begin(SPARE, words)
        reader = self.deployment.start_reader(site, SPARE)
        self.pause(2, 2)
        self.deployment.processes[site].terminate()
        self.deployment.down.add(site)
        if self.has_lease(site, second):
            road.send_signal(signal.SIGUSR1)
            self.note("leases that were taken behind a slow road")
        # Its calls for the end of the script, and then to give the lease back, have no answer in time.
        self.pause(1, 1)
        self.deployment.start(site)
        self.pause(LATE + 1.8, LATE + 1.8)
        self.deployment.hosts("cut", SPARE)
        self.pause(LONG / 2, LONG / 2)
        self.deployment.hosts("mend", SPARE)
        for process in (second, reader, road):
            process.kill()
            process.wait()

    def has_lease(self, site: str, process: Process) -> bool:
        """Whether the process gets the lease of its site in time. Returns at once when it does."""
        ends = time.monotonic() + LONG
        while time.monotonic() < ends:
            held = self.trial.upkeep.ask(lambda: self.engine.value(f"site/{SITES[site]}/{site}"))
            if held and f"-{process.pid}-" in held:
                return True
        return False

    def cut_site_that_is_taken_out(self) -> None:
        """A site that has all is cut off and taken out. Its readers are served while its lease lives, and what comes then is beyond its
        limits."""
        self.trial.bring_back()
        with self.trial.alone():
            self.deployment.hosts("cut", "south")
            self.trial.change_sites()
            for _ in range(4):
                self.trial.asking.propose_alone("add:till:1000 add:tea:200")
        self.deployment.hosts("mend", "south")
        self.trial.bring_back()

    def cut_site_as_it_is_taken_out(self) -> None:
        """A site is cut off a moment before or after it is taken out, while clients ask. It may have all or not."""
        self.trial.bring_back()
        if self.chance.random() < 0.5:
            self.deployment.hosts("cut", "south")
            self.pause(0, 0.3)
            self.trial.change_sites()
        else:
            self.trial.goes = {"south"}
            self.trial.out |= self.trial.goes
            self.trial.soon(self.trial.want)
            self.pause(0, 0.1)
            self.deployment.hosts("cut", "south")
            self.check(self.trial.soon(self.trial.has_begun), "the epoch without a site that is cut off did not begin")
        self.deployment.hosts("mend", "south")
        self.trial.bring_back()

    def stop_site_as_it_is_taken_out(self) -> None:
        """A site is stopped, taken out, and goes on. By then its lease is over, and it may not show what it had."""
        self.trial.bring_back()
        south = self.deployment.processes["south"]
        with self.trial.alone():
            south.send_signal(signal.SIGSTOP)
            self.trial.change_sites()
            self.trial.asking.propose_alone("add:till:1000 add:tea:200")
        south.send_signal(signal.SIGCONT)
        self.trial.bring_back()

    def thin_link_of_site(self) -> None:
        """A site is started behind a link that takes longer for the script than a call of the engine may. It serves all the same."""
        self.trial.bring_back()
        site = self.site()
        for _ in range(30):
            self.trial.asking.propose_alone(" ".join(["add:tea:1"] * 390))
        self.deployment.kill(site)
        self.deployment.hosts("thin", str(self.trial.upkeep.size_of_script() * 8 // 1000 // 5), site)
        self.deployment.start(site)
        self.check(self.trial.waits_for_reader(site), f"{site} is not served behind a thin link")
        self.deployment.hosts("mend", site)

    def cut_site_as_an_epoch_ends(self) -> None:
        """A site that may lag is cut off as an epoch is to end. The epoch may not end before it is back."""
        site = self.chance.choice([name for name in ("south", "east", "west") if name not in self.trial.out])
        with self.trial.alone():
            self.deployment.hosts("cut", site)
            for _ in range(3):
                self.trial.asking.propose_alone("add:tea:1")
            self.trial.upkeep.ask(self.trial.want)
        # Its lease lives, so it is read.
        self.pause(1, 2)
        self.deployment.hosts("mend", site)

    def kill_site_of_fleet_as_an_epoch_ends(self) -> None:
        """One of the two sites of the fleet is killed as an epoch is to end. Until it is back the epoch goes on."""
        with self.trial.alone():
            self.deployment.kill("east")
            self.trial.asking.propose_alone("add:tea:1")
            self.trial.upkeep.ask(self.trial.want)
            # Until the primary has seen that.
            self.pause(1, 1)
            self.trial.asking.propose_alone("add:tea:1")
        self.deployment.start("east")
