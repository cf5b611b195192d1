"""Archives that are the same bytes wherever they are made: each entry has one date, no owner, and its place by its name."""

from __future__ import annotations

import io
import tarfile
import zlib
from typing import Iterable, NamedTuple


class Entry(NamedTuple):
    """A file: its path, its rights, and its bytes; or a link, with the name that it leads to in place of bytes."""

    path: str
    mode: int
    data: bytes | str


def folders_of(paths: Iterable[str]) -> set[str]:
    """All folders above these paths."""
    found: set[str] = set()
    for path in paths:
        parts = path.split("/")[:-1]
        found.update("/".join(parts[: end + 1]) for end in range(len(parts)))
    return found


def tar(entries: Iterable[Entry], epoch: int, top: str = "") -> bytes:
    """A tar archive. Each name begins with `top`."""
    items = {it.path: it for it in entries}
    with io.BytesIO() as made:
        with tarfile.open(fileobj=made, mode="w", format=tarfile.USTAR_FORMAT) as to:
            for path in sorted({*items, *folders_of(items)}):
                _, mode, data = items.get(path, Entry(path, 0o755, b""))
                head = tarfile.TarInfo(top + path)
                head.mode, head.mtime, head.uname, head.gname = mode, epoch, "root", "root"
                if path not in items:
                    head.type = tarfile.DIRTYPE
                elif isinstance(data, str):
                    head.type, head.linkname = tarfile.SYMTYPE, data
                else:
                    head.size = len(data)
                to.addfile(head, None if isinstance(data, str) else io.BytesIO(data))
        return made.getvalue()


def gzip(data: bytes) -> bytes:
    """Packed as `gzip -9n` does it. The module of that name writes other heads in other versions of Python."""
    packer = zlib.compressobj(9, wbits=31)
    return packer.compress(data) + packer.flush()


def ar(members: Iterable[tuple[str, bytes]], epoch: int) -> bytes:
    """An archive as `ar` makes it: the names with their bytes. That command itself ends each name with a slash, which packages have not, and
    `dpkg-deb` packs a folder of files, whose rights and dates are those that the machine gave them."""
    made = b"!<arch>\n"
    for name, data in members:
        made += f"{name:<16}{epoch:<12}{0:<6}{0:<6}{'100644':<8}{len(data):<10}`\n".encode("ascii")
        made += data + b"\n" * (len(data) % 2)
    return made
