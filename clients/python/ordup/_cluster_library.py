"""The functions of ordup_cluster.h, by ctypes."""

from __future__ import annotations

import ctypes
import functools
from typing import Any, Callable

from ._library import VERSION, found

DONE, MORE, CLOSED, OPEN, UNMET = 0, 1, 2, 3, 12
REFUSED = 100  # and the number of the refusal
BEHIND, NOT_YET, STOPPED, NO_MEMORY, MIXED = (REFUSED + number for number in (21, 22, 23, 26, 27))
FOREVER = 2**64 - 1

_u32, _u64, _i64, _size, _at = ctypes.c_uint32, ctypes.c_uint64, ctypes.c_int64, ctypes.c_size_t, ctypes.c_void_p


class Handle(ctypes.Structure):
    _fields_ = [("at", _at), ("mark", _u64)]


class Change(ctypes.Structure):
    _fields_ = [("object", _u32), ("op", _u32), ("operand", _i64)]


class Condition(ctypes.Structure):
    _fields_ = [("object", _u32), ("bound", _u32), ("number", _i64)]


class Seen(ctypes.Structure):
    _fields_ = [("value", _i64), ("applied", _u64)]


class Charged(ctypes.Structure):
    _fields_ = [("value", _i64), ("imported", _u64), ("total", _u64), ("place", _u64), ("reads", _u64)]


class Ended(ctypes.Structure):
    _fields_ = [("place", _u64), ("sum", _i64), ("total", _u64), ("reads", _u64)]


class Query(ctypes.Structure):
    _fields_ = [("handle", Handle), ("cluster", _at), ("before", _u64), ("site", _u32)]


class Numbers(ctypes.Structure):
    _fields_ = [("before", _u64), ("length", _u64), ("acknowledged", _u64)]


class SiteNumbers(ctypes.Structure):
    _fields_ = [("sent", _u64), ("applied", _u64), ("reported", _u64), ("rounds", _u64)]


class Lag(ctypes.Structure):
    _fields_ = [("kind", _u32), ("id", _u32), ("amount", _u64), ("weight", _u64)]


class ClusterLibrary:
    """The functions. Other threads run during a call of `long`, which may wait. One of `quick` waits for no more than a lock that is
    held for one read or one update, and holds Python's own lock meanwhile, as whoever holds that one never wants Python's."""

    def __init__(self, path: str) -> None:
        quick, long = ctypes.PyDLL(path), ctypes.CDLL(path)
        try:
            version = quick.ordup_version()
            if version != VERSION:
                raise OSError(f"{path} has the version {version} of the library's functions, not {VERSION}")

            def of(kind: Any, name: str, *types: Any) -> Callable[..., int]:
                function: Any = getattr(kind, f"ordup_{name}")
                function.argtypes, function.restype = types, _u32
                return function  # type: ignore[no-any-return]

            self.setup_open = of(quick, "setup_open", _at)
            self.setup_object = of(quick, "setup_object", _at, ctypes.c_char_p, _size, _i64, _at)
            self.setup_group = of(quick, "setup_group", _at, ctypes.c_char_p, _size, _at, _size, _at)
            self.setup_site = of(quick, "setup_site", _at, ctypes.c_char_p, _size, _u64, _at)
            self.setup_limit = of(quick, "setup_limit", _at, _u32, _u32, _u32, _u64)
            self.handle_close = of(quick, "handle_close", _at)
            self.open = of(long, "cluster_open", _at, _u64, _at)
            self.start = of(long, "cluster_start", _at)
            self.stop = of(long, "cluster_stop", _at)
            self.close = of(long, "cluster_close", _at)
            self.successor = of(long, "cluster_successor", _at, _at)
            self.free = of(long, "cluster_free", _at)
            self.propose_if = of(long, "cluster_propose_if", _at, _at, _at, _size, _at, _size, _u64, _at, _at)
            self.settle = of(long, "cluster_settle", _at, _at, _u64, _u64)
            self.finish = of(long, "cluster_finish", _at, _u64)
            self.read: Callable[..., int] = quick.ordup_cluster_read  # without the types of its words, it takes half the time
            self.read_many = of(quick, "cluster_read_many", _at, _at, _u32, _at, _size, _at, _at)
            self.read_when_level = of(long, "cluster_read_when_level", _at, _at, _u32, _u32, _u64, _at)
            self.read_many_when_level = of(long, "cluster_read_many_when_level", _at, _at, _u32, _at, _size, _u64, _at, _at)
            self.begin = of(long, "cluster_begin", _at, _u32, _u64, _at)
            self.query_read = of(quick, "cluster_query_read", _at, _u32, _at)
            self.query_end = of(quick, "cluster_query_end", _at, _at)
            self.relimit = of(long, "cluster_relimit", _at, _u32, _u32, _u32, _u64, _at)
            self.count = of(quick, "cluster_count", _at, _at)
            self.site_count = of(long, "cluster_site_count", _at, _u32, _at)
            self.lags = of(long, "cluster_lags", _at, _u32, _at, _size, _at)
            self.record = of(long, "cluster_record", _at, _u32, _at, _size, ctypes.POINTER(_size))
        except AttributeError as why:
            raise OSError(f"{path} is an older library of ordup, without clusters: {why}") from why
        for function in (self.handle_close, self.stop, self.free, self.count):
            function.restype = None  # type: ignore[attr-defined]


@functools.lru_cache(maxsize=None)
def _load(path: str) -> ClusterLibrary:
    return ClusterLibrary(path)


def find_clusters() -> ClusterLibrary:
    """The library that a `Store` in the process would take, or an `OSError`."""
    library = found(_load)
    if library is None:
        raise OSError("libordup.so is not found, and a cluster is in the process alone")
    return library
