"""The hosts of the trial by their names, and where they and the files are."""

from os import getpid
from pathlib import Path

# Where `hosts` and `member` lie, and the declarations with which the script begins.
MACHINES = Path(__file__).resolve().parents[2] / "examples/machines"
DECLARATIONS = MACHINES / "shop.ordup"

MEMBERS, PRIMARIES = ["m1", "m2", "m3"], ["p1", "p2"]
# The site of the script that each site on a host is. Two are a fleet.
SITES = {"north": "north", "south": "south", "east": "far", "west": "far"}
FLEET, SPARE, USERS = "far", "spare", "users"
HOSTS = [*MEMBERS, *PRIMARIES, *SITES, SPARE, USERS]
NET = f"ordup{getpid()}"


def address_of(name: str) -> str:
    return f"10.77.0.{HOSTS.index(USERS if name == FLEET else name) + 1}"
