"""What fails in the trial, one fault after another."""

import inspect
import time
from typing import Callable

from engine_faults import EngineFaults
from primary_faults import PrimaryFaults
from site_faults import SiteFaults

# With these the names of faults begin.
KINDS = ("kill_", "stop_", "cut_", "start_", "lose_", "fill_", "slow_", "ask_", "end_", "put_", "thin_")
# Two have no more than these names.
WHOLE = ("upgrade", "restore")
# These come only where they are named: they take minutes.
LONG_ONES = ("fill_log_and_lose_sites",)


def is_fault(name: str) -> bool:
    return name.startswith(KINDS) or name in WHOLE


class Faults(SiteFaults, PrimaryFaults, EngineFaults):
    # Those that there are, those that come, which are all but a long one, and whether no others were chosen.
    known = sorted(name for kind in (SiteFaults, PrimaryFaults, EngineFaults) for name in vars(kind) if is_fault(name))
    are_all = True
    names = [name for name in known if name not in LONG_ONES]

    @classmethod
    def meanings(cls) -> dict[str, str]:
        """What each fault does, which it says itself."""
        meanings = {name: " ".join((inspect.getdoc(getattr(cls, name)) or "").split()) for name in cls.known}
        if silent := [name for name, meaning in meanings.items() if not meaning]:
            raise LookupError(f"{', '.join(silent)}: it is not said what this fault does")
        return meanings

    def run(self, goes_on: Callable[[], bool]) -> None:
        """Each fault once, in an order by chance, and then any of them while the trial goes on."""
        first = self.chance.sample(self.names, len(self.names))
        while first or goes_on():
            name = first.pop() if first else self.chance.choice(self.names)
            self.times[name] = self.times.get(name, 0) + 1
            print(f"{time.monotonic():.1f} {name}", file=self.deployment.log, flush=True)
            getattr(self, name)()
            self.pause(0.2, 0.6)
            self.revive(name)
