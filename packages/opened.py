"""Opens the packages that `packages/build` makes, and no others: of one that is laid otherwise another reader might see more, or less."""

from __future__ import annotations

import io
import tarfile
import zipfile
import zlib

from archives import Entry, ar, tar


class Odd(Exception):
    """Why a file is no package as they are made here."""


def must(is_so: bool, why: str) -> None:
    if not is_so:
        raise Odd(why)


def unpacked(packed: bytes | str) -> bytes:
    if isinstance(packed, str):
        raise Odd("it has a link in place of what is packed")
    unpacker = zlib.decompressobj(wbits=31)
    data = unpacker.decompress(packed)
    must(unpacker.eof and not unpacker.unused_data, "it is cut, or goes on after its end")
    return data


def data_of(archive: tarfile.TarFile, member: tarfile.TarInfo) -> bytes | str:
    """The bytes of a file, or the name that another entry leads to."""
    file = archive.extractfile(member) if member.isreg() else None
    return file.read() if file else member.linkname


def tar_entries(packed: bytes, top: str = "") -> list[Entry]:
    """The entries of a packed tar archive, without the folder that all of them are in, and unpacked where they are packed. Made again of
    these it is the same bytes: so it has nothing twice, no hard link, and nothing between them or behind."""
    data = unpacked(packed)
    with tarfile.open(fileobj=io.BytesIO(data)) as it:
        found = [(member, data_of(it, member)) for member in it if not member.isdir()]
    must(bool(found), "it is empty")
    top = top or found[0][0].name.partition("/")[0] + "/"
    entries = [Entry(member.name[len(top) :], member.mode, held) for member, held in found]
    must(tar(entries, found[0][0].mtime, top) == data, "it is not laid as the packages of ordup are")
    return [it._replace(data=unpacked(it.data)) if it.path.endswith(".gz") else it for it in entries]


def ar_members(data: bytes) -> list[tuple[str, bytes]]:
    """The names of an archive as ar makes it, with their bytes."""
    found, at = [], 8
    while at < len(data):
        name, size = data[at : at + 16].decode("ascii").rstrip(), int(data[at + 48 : at + 58])
        must(size >= 0, "a part of it has no size")
        found.append((name, data[at + 60 : at + 60 + size]))
        at += 60 + size + size % 2
    return found


def of_debian(data: bytes) -> dict[str, Entry]:
    """What a package for Debian holds: what dpkg is told, by its names, and what is installed, by its paths, which begin with `/`."""
    members = ar_members(data)
    must([name for name, _ in members] == ["debian-binary", "control.tar.gz", "data.tar.gz"], "it has other parts than a package has")
    must(ar(members, int(data[24:36])) == data, "it is not laid as the packages of ordup are")
    (_, version), (_, told), (_, installed) = members
    must(version == b"2.0\n", "it is of another version of Debian's packages")
    return {**{it.path: it for it in tar_entries(told, "./")}, **{f"/{it.path}": it for it in tar_entries(installed, "./")}}


def of_wheel(data: bytes) -> dict[str, Entry]:
    """What a wheel holds. Its entries follow one another, and then comes the list of them, with nothing between or behind."""
    with zipfile.ZipFile(io.BytesIO(data)) as it:
        listed, end_of_last = it.infolist(), 0
        for entry in listed:
            is_next = entry.header_offset == end_of_last and not entry.extra and not entry.flag_bits
            must(is_next, "it is not laid as the wheels of ordup are")
            end_of_last += 30 + len(entry.filename) + entry.compress_size
        size_of_list = sum(46 + len(entry.filename) for entry in listed)
        must(it.start_dir == end_of_last and len(data) == end_of_last + size_of_list + 22, "it is cut, or has more than its files")
        must(len({entry.filename for entry in listed}) == len(listed), "it has a file twice")
        return {entry.filename: Entry(entry.filename, entry.external_attr, it.read(entry)) for entry in listed}


def opened(name: str, data: bytes) -> dict[str, Entry] | None:
    """What a package holds, by the paths of the entries, or None where a file of this name, with these bytes, is none."""
    try:
        if data[8:21] == b"debian-binary":
            return of_debian(data)
        if name.endswith(".whl"):
            return of_wheel(data)
        return {it.path: it for it in tar_entries(data)} if name.endswith((".tar.gz", ".tgz")) else None
    except Odd:
        raise
    except Exception as why:  # whoever forges a file may have a reader fail in any way
        raise Odd(f"it cannot be read: {why!r}") from why
