"""What the package of ordup-node holds."""

from __future__ import annotations

import hashlib
import re
from pathlib import Path
from typing import Callable

import linked
import manual
from archives import Entry
from contents import TOP, first_paragraph, said_by, version_of

NAME = "ordup-node"
SUMMARY = "primaries and sites of ordup over several machines"
# A conffile: as it stands a process that is started with it reaches this machine alone, so it asks no wrong host.
SETTINGS = "etc/ordup-node/settings"
# The pages by the names of their files, and what who asks by HTTP takes beside them. The client in Go is with the binding for Go.
PAGES = ("MACHINES.md", "HOSTS.md", "HTTP.md")
FOR_CLIENTS = ("node/openapi.json", "clients/python/ordup_node.py")
# What the pages show.
EXAMPLES = "examples/machines"
SHOWN = ("shop.ordup", "three/certify", "three/etcd", "three/settings")
# A name by default which is that of the machine where the program runs.
OWN_NAME = re.compile(r"^(  --host .*) \(\S*\)$", re.M)


def account(proof: bytes, program: bytes) -> bytes:
    """The account of the proof, with a line on the program, of which no line of a proof is."""
    return proof + f"unproved bin/{NAME} {hashlib.sha256(program).hexdigest()} its own code is tested alone\n".encode("ascii")


def statuses() -> list[tuple[str, str]]:
    """The statuses of the program, each with what it says."""
    source = (TOP / "node/internal/exit/exit.go").read_text(encoding="utf-8")
    found = re.findall(r"^\t// (\w+) (?:is|says that) (.*)\.\n\t\1 Status = (\d+)$", source, re.M)
    if len(found) != source.count(" Status = "):
        raise ValueError("exit.go does not say of each status what it is")
    return [(status, meaning) for _, meaning, status in found]


def pages() -> dict[str, bytes]:
    """The pages, with their pictures and examples, by where they lie in the folder of the package."""
    made = {it: (TOP / "docs" / it).read_bytes() for it in PAGES}
    pictures = {it.decode("ascii") for page in made.values() for it in re.findall(rb"\]\((\w+\.(?:png|svg))\)", page)}
    made.update({it: (TOP / "docs" / it).read_bytes() for it in sorted(pictures)})
    return {**made, **{f"examples/{it}": (TOP / EXAMPLES / it).read_bytes() for it in SHOWN}}


class Node:
    """The program ordup-node, with what was proved of the library in it, and whose code is in it."""

    def __init__(self, program: Path, library: Path, proof: Path, epoch: int):
        self.epoch, self.version, self.summary = epoch, version_of(program, NAME), SUMMARY
        self.program = program.read_bytes()
        self.rights = (TOP / "packages/copyright").read_text(encoding="utf-8") + "\n" + linked.rights(library)
        self.proof = account(proof.read_bytes(), self.program)
        helped = said_by(program, "--help")
        helps = {it: OWN_NAME.sub(r"\1 (that of the machine)", said_by(program, it, "--help"))
                 for it in re.findall(r"^  ([\w-]+) ", helped, re.M)}
        told = (epoch, self.version, SUMMARY)
        self.manual = manual.page_of_node(helped, helps, first_paragraph("docs/MACHINES.md"), statuses(), *told).encode("utf-8")

    def files(self, pack: Callable[[bytes], bytes]) -> list[Entry]:
        """All that is installed. Man pages are as `pack` packs them."""
        folder = TOP / "node/systemd"
        made = {
            SETTINGS: (folder / "settings.example").read_bytes(),
            f"usr/share/man/man1/{NAME}.1.gz": pack(self.manual),
            f"usr/share/{NAME}/proof": self.proof,
            f"usr/share/doc/{NAME}/copyright": self.rights.encode("utf-8"),
            **{f"lib/systemd/system/{it.name}": it.read_bytes() for it in sorted(folder.glob("*.service"))},
            **{f"usr/share/{NAME}/{it.parent.name}/{it.name}": it.read_bytes()
               for kind in ("prometheus/*.yml", "grafana/*.json") for it in sorted((TOP / "node").glob(kind))},
            **{f"usr/share/{NAME}/{Path(it).name}": (TOP / it).read_bytes() for it in FOR_CLIENTS},
            **{f"usr/share/doc/{NAME}/{it}": data for it, data in pages().items()},
        }
        return [Entry(f"usr/bin/{NAME}", 0o755, self.program), *(Entry(path, 0o644, data) for path, data in made.items())]
