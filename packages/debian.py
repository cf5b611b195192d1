"""Makes packages for Debian."""

from __future__ import annotations

import hashlib
import textwrap
import time
from typing import Callable

from archives import Entry, ar, gzip, tar
from contents import TOP, Contents, first_paragraph, glibc_of
from node import Node
from spelling import of_debian

# Whom a package names that nobody has taken over yet: whoever gives packages out puts a name of theirs here.
MAINTAINER = "The owner of ordup <owner@ordup.invalid>"
LIBRARIES = "lib/x86_64-linux-gnu"
ENDS_OF_NODE = """It needs etcd, which may be on other hosts: that of Debian 12 was tried. Nothing is started before an operator starts it.

The library of ordup that is linked into it is proved. Its own code is tested alone, and nothing of it is proved."""


def described(text: str) -> str:
    """Paragraphs as a control file has them."""
    parts = ("\n".join(" " + line for line in textwrap.wrap(part, 78)) for part in text.split("\n\n"))
    return "\n .\n".join(parts)


def control(name: str, version: str, size: int, needs: str, section: str, summary: str, text: str) -> str:
    return (f"Package: {name}\nVersion: {version}\nArchitecture: amd64\nMaintainer: {MAINTAINER}\n"
            f"Installed-Size: {size}\n{needs}\nSection: {section}\nPriority: optional\nDescription: {summary}\n{described(text)}\n")


def libc(*binaries: bytes) -> str:
    return f"libc6 (>= {'.'.join(map(str, glibc_of(*binaries)))})"


def changelog(name: str, version: str, epoch: int) -> Entry:
    date = time.strftime("%a, %d %b %Y %H:%M:%S +0000", time.gmtime(epoch))
    text = f"{name} ({version}) unstable; urgency=medium\n\n  * CHANGELOG.md has what a user sees.\n\n -- {MAINTAINER}  {date}\n"
    return Entry(f"usr/share/doc/{name}/changelog.gz", 0o644, gzip(text.encode("utf-8")))


# Why lintian may find an error: nothing is stripped from what was proved.
OVERRIDE = """# The bytes are those of which the account of the proof has the digest.
ordup: unstripped-binary-or-object [usr/bin/ordup]
"""


def put_together(name: str, version: str, epoch: int, files: list[Entry], control: Callable[[int], str], about: dict[str, str]) -> tuple[str, bytes]:
    """The name of a package, and its bytes, of its files and of what dpkg is told: `control` makes a text of a size, and `about` has others."""
    plain = {it.path: it.data for it in files if isinstance(it.data, bytes)}
    texts = {
        **about,
        "control": control(sum((len(data) + 1023) // 1024 for data in plain.values())),
        "md5sums": "".join(f"{hashlib.md5(plain[it]).hexdigest()}  {it}\n" for it in sorted(plain)),
    }
    told = [Entry(it, 0o755 if text.startswith("#!") else 0o644, text.encode("utf-8")) for it, text in texts.items()]
    members = [("debian-binary", b"2.0\n")]
    members += [(it, gzip(tar(entries, epoch, "./"))) for it, entries in (("control.tar.gz", told), ("data.tar.gz", files))]
    return f"{name}_{version}_amd64.deb", ar(members, epoch)


def package(contents: Contents) -> tuple[str, bytes]:
    """The package of the program and the library."""
    version = of_debian(contents.version)
    below = contents.below(LIBRARIES, ("/usr", "${prefix}/" + LIBRARIES), gzip)
    if b"\0.symtab\0" in contents.program:
        below.append(Entry("share/lintian/overrides/ordup", 0o644, OVERRIDE.encode("utf-8")))
    files = [it._replace(path=f"usr/{it.path}") for it in below] + [changelog("ordup", version, contents.epoch)]
    needs = f"Depends: {libc(contents.program, contents.shared)}"
    told = lambda size: control("ordup", version, size, needs, "utils", contents.summary, first_paragraph("README.md"))
    return put_together("ordup", version, contents.epoch, files, told, {
        "shlibs": f"libordup {contents.soname.rsplit('.', 1)[1]} ordup (>= {version})\n",
        "triggers": "activate-noawait ldconfig\n",
    })


def package_of_node(node: Node) -> tuple[str, bytes]:
    """The package of ordup-node."""
    version = of_debian(node.version)
    files = [*node.files(gzip), changelog("ordup-node", version, node.epoch)]
    needs = f"Depends: adduser, {libc(node.program)}\nSuggests: etcd-server, ordup"
    text = f"{first_paragraph('docs/MACHINES.md').replace('`', '')}\n\n{ENDS_OF_NODE}"
    told = lambda size: control("ordup-node", version, size, needs, "database", node.summary, text)
    return put_together("ordup-node", version, node.epoch, files, told, {
        "conffiles": "".join(f"/{it.path}\n" for it in files if it.path.startswith("etc/")),
        **{it: (TOP / "packages/ordup-node" / it).read_text(encoding="utf-8") for it in ("postinst", "prerm", "postrm")},
    })
