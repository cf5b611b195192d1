"""A store for the threads of this process."""

from __future__ import annotations

import ctypes
import math
import os
import threading
import time
import weakref
from ctypes import byref
from operator import index
from threading import get_ident
from typing import Any, Callable, Dict, Iterable, List, Mapping, Optional, Sequence, Tuple, Type, Union

from . import _cluster_library as c
from ._answers import Change, Error, Scope
from ._cluster_answers import (
    Charged, Condition, Forked, InUse, Lag, NotYet, Numbers, QueryEnd, Seen, SeenMany, Site, SiteNumbers, Unmet, failed_read, must,
)
from ._library import whole
from ._way import seconds_of

__all__ = ["Closed", "Cluster", "Query", "Session"]

_OPERATIONS = {name: number for number, name in enumerate(("add", "set", "mul", "max", "min", "take"))}
_SCOPES = ("object", "group", "all", "count")
_BOUNDS = {"at_least": 0, "at_most": 1}
_NONE = 2**32 - 1  # the id of what there is not, which the library refuses in its turn
_SLICE = 0.1  # seconds
_LIMITS = 64  # of a site
_FORKED = -1  # in place of a thread's number
_new = tuple.__new__  # of a named tuple, in half the time

Calls = Dict[object, Tuple[int]]


class Session:
    """What the reads of one caller have to show: they see its updates, and never an older state than before, at whichever site.

    It is used by one call at a time, in any thread, and stays good for the successors of a cluster. `Session(seen)` is one that has
    seen so many updates, as another process heard from this one.
    """

    def __init__(self, seen: int = 0) -> None:
        self._seen, self._numbered, self._read = ctypes.c_uint64(_natural(seen)), ctypes.c_uint64(), c.Seen()
        self._at, self._number_at, self._read_at = byref(self._seen), byref(self._numbered), byref(self._read)

    @property
    def seen(self) -> int:
        """How many updates its calls have seen."""
        return self._seen.value

    @property
    def numbered(self) -> int:
        """The number of the last update that was numbered by it, or 0. After an interrupt amid `propose` it tells whether the update
        stands: then it is more than it was before."""
        return self._numbered.value

    def __repr__(self) -> str:
        return f"Session({self.seen})"


class Cluster:
    """A replicated store in this process, with a proved bound on its lag, which threads share.

        >>> import ordup
        >>> from ordup import Cluster, Session, Site, add
        >>> with Cluster(objects={'tea': 40}, sites={'shop': Site(64, {'all': 10}), 'yard': Site()}) as cluster:
        ...     session = Session()
        ...     cluster.propose(session, {'tea': add(-3)}, timeout=1.0)
        ...     cluster.read(session, 'yard', 'tea', timeout=1.0)
        ...     with cluster.query('shop', limit=5) as query:
        ...         value = query.read('tea').value
        ...     cluster.finish(timeout=1.0)
        1
        Seen(value=37, applied=1)
        >>> closed = cluster.close()
        >>> sorted(closed.records())
        ['shop', 'yard']
        >>> with closed.successor() as cluster:
        ...     cluster.propose(session, {'tea': add(-3)}, timeout=1.0)
        2

    Any thread may make any call at any time. A `with` block starts an applier for each site and a keeper, which are threads of the
    library, and closes the cluster at its end. Updates are numbered in one order, from 1, or from where the predecessor ended. An update
    is acknowledged once each site that its limits name has applied it.

    **Time limits** are seconds. 0 waits for nothing and None for any time. Who waits sleeps, other threads run meanwhile, and `stop`
    ends each wait. Ctrl-C ends one of the main thread, in which alone Python has its signals: there a wait is made of slices of a tenth of
    a second. In other threads a wait is one call.

    **A forked child** has no cluster: each call raises `Forked` there, and the parent's goes on.

    Each call may raise `MemoryError`, with which nothing changed. Before anything is asked, what is no mapping, no name, no whole number
    or no time limit is a `TypeError` or a `ValueError`.
    """

    def __init__(
        self,
        objects: Mapping[str, int],
        sites: Mapping[str, Union[int, Site]],
        groups: Mapping[str, Iterable[str]] = {},
        before: int = 0,
    ) -> None:
        """Opens a cluster of these objects with their initial values, and these sites, each a `Site` or its capacity. A limit may weigh
        one of the groups of objects. `before` is how many updates came before, in clusters of other processes.

        Refused `BadName`, `NameTaken`, `UnknownObject`, `UnknownGroup`, `OutOfRange`, `TooMany`, `Empty`, `Repeated` or `LogFull`. An
        `OSError` if the library is not found.
        """
        library, setup, at = c.find_clusters(), c.Handle(), ctypes.c_void_p()
        try:
            must(library.setup_open(byref(setup)), "cluster")
            names = _declare(library, setup, objects, sites, groups)
            must(library.open(byref(setup), _natural(before), byref(at)), "cluster")
            self._hold(library, names, at)
        finally:
            library.handle_close(byref(setup))

    def _hold(self, library: c.ClusterLibrary, names: _Names, at: ctypes.c_void_p) -> None:
        self._library, self._names, self._at = library, names, at
        self._calls: Calls = {}  # the calls under way, each by its session, its query or itself, with the number of its thread
        self._gate = threading.RLock()  # of `start` and `close`
        self._barred_by: Optional[int] = None  # the thread that compares the sites, beside which no other may make a call
        self._is_closed = False
        # Nobody calls a cluster that is forgotten: each call, each query and what is closed have a reference to it.
        self._forgotten = weakref.finalize(self, library.free, at)
        self._forgotten.atexit = False  # at the end of Python another thread may be in a call
        _clusters.add(self)

    def _leave(self) -> None:
        """Leaves the cluster to the process that this one was forked from."""
        self._forgotten.detach()
        self._gate, self._barred_by = threading.RLock(), _FORKED
        self._calls.clear()

    @property
    def objects(self) -> Tuple[str, ...]:
        return tuple(self._names.objects)

    @property
    def sites(self) -> Tuple[str, ...]:
        return tuple(self._names.sites)

    def __enter__(self) -> Cluster:
        self.start()
        return self

    def __exit__(self, kind: Optional[Type[BaseException]], *error: object) -> None:
        if self._barred_by != _FORKED:
            self.close()

    def start(self) -> None:
        """Starts the appliers and the keeper, if they do not run.

        Raises `Stopped`.
        """
        with self._gate:
            status = self._call(object(), lambda: self._library.start(self._at))
        if status != c.OPEN:
            must(status, "start")

    def stop(self) -> None:
        """Has proposals refused from now on, who waits answered, and each applier end once its site has applied what was sent."""
        self._call(object(), lambda: self._library.stop(self._at) or c.DONE)

    def close(self) -> Closed:
        """Stops the cluster, joins its threads, waits until all other calls have ended, and compares each site with the log. Reads,
        queries, numbers and records go on to be answered.

        Raises `Mixed`.
        """
        self.stop()
        with self._gate:
            before, me = self._barred_by, get_ident()
            try:
                try:
                    self._barred_by = me
                    while any(thread != me for thread, in list(self._calls.values())):
                        time.sleep(0.001)
                    if not self._is_closed:
                        must(self._library.close(self._at), "close")
                        self._is_closed = True
                finally:
                    self._barred_by = before
            finally:  # an interrupt may have come amid the first
                self._barred_by = before
        return Closed(self)

    def propose(
        self, session: Session, changes: Mapping[str, Change], timeout: Optional[float] = None, conditions: Iterable[Condition] = ()
    ) -> int:
        """Proposes one update of 1 to 64 changes, if each condition is met, waits until it is acknowledged, and returns its number:
        `propose(session, {'tea': add(-5), 'till': ('add', 12)}, 1.0, [at_least('tea', 0)])`.

        Raises `NotYet` with its number once the time is over, and `Unmet` or `Stopped`. After a KeyboardInterrupt `session.numbered`
        tells the number, if it stands. Refused `Syntax` for an operation that there is not, `UnknownObject`, `OutOfRange`, `TooMany`,
        `Empty` or `LogFull`.
        """
        if not isinstance(changes, Mapping):
            raise TypeError("`propose` takes a mapping of objects to changes")
        asked = [Condition(*it) for it in conditions]
        rows = _array(c.Change, [self._change(name, kind, operand) for name, (kind, operand) in changes.items()])
        tests = _array(c.Condition, [self._condition(*it) for it in asked])
        number, unmet, seconds, library = 0, ctypes.c_size_t(), seconds_of(timeout), self._library

        def first(ms: int) -> int:
            return library.propose_if(
                self._at, session._at, rows, len(rows), tests, len(tests), ms, session._number_at, byref(unmet)
            )

        def again(ms: int) -> int:
            return library.settle(self._at, session._at, session._numbered, ms)

        def work() -> int:
            nonlocal number
            status = _waited(first, again, c.NOT_YET, seconds)
            number = session.numbered  # before another thread has the session
            return status

        status = self._call(session, work)
        if status == c.NOT_YET:
            raise NotYet(number)
        if status == c.UNMET:
            raise Unmet(unmet.value, asked[unmet.value])
        must(status, "propose", *(f"{kind}:{name}:{operand}" for name, (kind, operand) in changes.items()))
        return number

    def _change(self, name: str, kind: str, operand: Any) -> c.Change:
        number = self._names.objects.get(operand, _NONE) if kind == "take" else _whole(operand)
        return c.Change(self._names.objects.get(name, _NONE), _OPERATIONS.get(kind, _NONE), number)

    def _condition(self, name: str, bound: str, number: int) -> c.Condition:
        if bound not in _BOUNDS:
            raise ValueError(f"{bound!r} is no bound: 'at_least' is one, and 'at_most'")
        return c.Condition(self._names.objects.get(name, _NONE), _BOUNDS[bound], _whole(number))

    def settle(self, session: Session, number: int, timeout: Optional[float] = None) -> None:
        """Waits until an update is acknowledged. The session has then seen it.

        Raises `NotYet`. Refused `OutOfRange` where no update has this number.
        """
        at, asked, seconds = session._at, _natural(number), seconds_of(timeout)

        def wait(ms: int) -> int:
            return self._library.settle(self._at, at, asked, ms)

        status = self._call(session, lambda: _waited(wait, wait, c.NOT_YET, seconds))
        if status == c.NOT_YET:
            raise NotYet(number)
        must(status, "settle", number)

    def finish(self, timeout: Optional[float] = None) -> None:
        """Waits until all updates are acknowledged and sent to each site, which then applies them, also after `stop`.

        Raises `NotYet`.
        """
        seconds = seconds_of(timeout)

        def wait(ms: int) -> int:
            return self._library.finish(self._at, ms)

        status = self._call(object(), lambda: _waited(wait, wait, c.NOT_YET, seconds))
        if status == c.NOT_YET:
            raise NotYet(self.numbers().length)
        must(status, "finish")

    def read(self, session: Session, site: str, object: str, timeout: Optional[float] = 0) -> Seen:
        """Reads an object at a site, which has applied all that the session has seen. Else the site may have so many seconds for that.

        Raises `Behind`. Refused `UnknownObject` or `UnknownSite`.
        """
        if timeout != 0:
            return self.read_when_level(session, site, object, timeout)
        calls, call, out = self._calls, (get_ident(),), session._read
        try:  # as `_call` does, which would cost the read a quarter more
            try:
                if calls.setdefault(session, call) is not call:
                    raise InUse("the session is in another call")
                if self._barred_by is not None:
                    self._await_entry(session, call)
                status = self._library.read(
                    self._at, session._at, self._names.sites.get(site, _NONE), self._names.objects.get(object, _NONE), session._read_at
                )
                seen = _new(Seen, (out.value, out.applied))
            finally:
                if calls.get(session) is call:
                    del calls[session]
        finally:
            if calls.get(session) is call:
                del calls[session]
        if status:
            raise failed_read(status, seen.applied, site, object)
        return seen

    def read_when_level(self, session: Session, site: str, object: str, timeout: Optional[float] = None) -> Seen:
        """Reads as `read` does, and waits until the site has applied what the session has seen.

        Raises `Behind` once the time is over. Refused as `read` is.
        """
        seconds, out = seconds_of(timeout), c.Seen()
        at, it, the = session._at, self._names.sites.get(site, _NONE), self._names.objects.get(object, _NONE)

        def wait(ms: int) -> int:
            return self._library.read_when_level(self._at, at, it, the, ms, byref(out))

        status = self._call(session, lambda: _waited(wait, wait, c.BEHIND, seconds))
        if status:
            raise failed_read(status, out.applied, site, object)
        return Seen(out.value, out.applied)

    def read_many(self, session: Session, site: str, objects: Iterable[str], timeout: Optional[float] = 0) -> SeenMany:
        """Reads several objects as `read` does one. All values are of one state of the site."""
        names, seconds = list(objects), seconds_of(timeout)
        at, it, applied = session._at, self._names.sites.get(site, _NONE), ctypes.c_uint64()
        ids = (ctypes.c_uint32 * len(names))(*(self._names.objects.get(name, _NONE) for name in names))
        values = (ctypes.c_int64 * len(names))()

        def once(ms: int) -> int:
            return self._library.read_many(self._at, at, it, ids, len(ids), values, byref(applied))

        def wait(ms: int) -> int:
            return self._library.read_many_when_level(self._at, at, it, ids, len(ids), ms, values, byref(applied))

        status = self._call(session, lambda: once(0) if seconds == 0 else _waited(wait, wait, c.BEHIND, seconds))
        if status:
            raise failed_read(status, applied.value, site, *names)
        return SeenMany(dict(zip(names, values)), applied.value)

    def read_many_when_level(self, session: Session, site: str, objects: Iterable[str], timeout: Optional[float] = None) -> SeenMany:
        """Reads several objects as `read_when_level` does one."""
        return self.read_many(session, site, objects, timeout)

    def query(self, site: str, limit: int) -> Query:
        """Begins a query at a site, whose reads import at most `limit` in sum, 0 to 10^18: what they miss of the updates that are
        acknowledged now. It ends with its `with` block.

        Refused `UnknownSite` or `OutOfRange`.
        """
        query, it, most = Query(self, site), self._names.sites.get(site, _NONE), _natural(limit)
        must(self._call(query, lambda: self._library.begin(self._at, it, most, byref(query._at))), "begin", site, limit)
        return query

    def relimit(self, site: str, scope: Scope, amount: int) -> int:
        """Changes the limit of a site on a scope, or begins one, and returns the number of the first update that it is for. The scope is
        `('object', 'tea')`, `('group', 'drinks')`, `'all'` or `'count'`.

        Refused `UnknownObject`, `UnknownGroup`, `UnknownSite`, `OutOfRange`, `TooMany`, `HeadPending` or `LagOver`.
        """
        place, (kind, id) = ctypes.c_uint64(), self._names.scope(scope)
        it, most = self._names.sites.get(site, _NONE), _natural(amount)
        status = self._call(object(), lambda: self._library.relimit(self._at, it, kind, id, most, byref(place)))
        must(status, "relimit", site, scope, amount)
        return place.value

    def numbers(self) -> Numbers:
        """The numbers of the cluster. It waits for no lock."""
        out = c.Numbers()
        self._call(object(), lambda: self._library.count(self._at, byref(out)) or c.DONE)
        return Numbers(out.before, out.length, out.acknowledged)

    def site_numbers(self, site: str) -> SiteNumbers:
        """The numbers of a site: `reported` <= `applied` <= `sent`.

        Refused `UnknownSite`.
        """
        out, it = c.SiteNumbers(), self._names.sites.get(site, _NONE)
        must(self._call(object(), lambda: self._library.site_count(self._at, it, byref(out))), "numbers", site)
        return SiteNumbers(out.sent, out.applied, out.reported, out.rounds)

    def lags(self, site: str) -> Tuple[Lag, ...]:
        """Each limit of a site, and what it lags by beside it, all of one moment.

        Refused `UnknownSite`.
        """
        rows, count, it = (c.Lag * _LIMITS)(), ctypes.c_size_t(), self._names.sites.get(site, _NONE)
        must(self._call(object(), lambda: self._library.lags(self._at, it, rows, len(rows), byref(count))), "lags", site)
        return tuple(Lag(self._names.scope_of(row.kind, row.id), row.amount, row.weight) for row in rows[: count.value])

    def record(self, site: str) -> bytes:
        """The record of a site in this cluster, for an auditor: the bytes that `ordup check` takes. Proposals wait meanwhile.

        Refused `UnknownSite`.
        """
        rows: List[bytes] = []
        it = self._names.sites.get(site, _NONE)

        def tell() -> int:
            status, text = whole(lambda *room: self._library.record(self._at, it, *room))
            rows.append(text)
            return status

        must(self._call(object(), tell), "record", site)
        return rows[0]

    def _call(self, key: object, work: Callable[[], int]) -> int:
        """The status of a call. No other call has this key meanwhile, and no close is under way.

        An interrupt may come between any two steps, also amid what is done at last: so that is done twice.
        """
        calls, call = self._calls, (get_ident(),)
        try:
            try:
                if calls.setdefault(key, call) is not call:
                    raise InUse("the session or the query is in another call")
                if self._barred_by is not None:
                    self._await_entry(key, call)
                return work()
            finally:
                if calls.get(key) is call:
                    del calls[key]
        finally:
            if calls.get(key) is call:
                del calls[key]

    def _await_entry(self, key: object, call: Tuple[int]) -> None:
        """Waits while another thread compares the sites. A handler of a signal amid that compares nothing, so it may go on."""
        while self._barred_by not in (None, get_ident()):
            if self._barred_by == _FORKED:
                raise Forked("the cluster is in the process that this one was forked from")
            del self._calls[key]
            with self._gate:
                pass
            if self._calls.setdefault(key, call) is not call:
                raise InUse("the session or the query is in another call")


class Query:
    """A query at a site of a cluster, for one call at a time. It is ended by `end`, by the end of its `with` block, or once it is
    forgotten."""

    def __init__(self, cluster: Cluster, site: str) -> None:
        self._cluster, self._at, self._site = cluster, c.Query(), site
        self._end_of: Optional[QueryEnd] = None

    def __enter__(self) -> Query:
        return self

    def __exit__(self, *error: object) -> None:
        if self._cluster._barred_by != _FORKED:
            self.end()

    def __del__(self) -> None:
        if self._end_of is None and self._cluster._barred_by != _FORKED:
            self._cluster._library.query_end(byref(self._at), byref(c.Ended()))

    def read(self, object: str) -> Charged:
        """Reads an object at the query's site.

        Refused `UnknownObject`, `TooMany` after 256 reads, or `OverImport`.
        """
        out, cluster = c.Charged(), self._cluster
        the = cluster._names.objects.get(object, _NONE)
        status = cluster._call(self, lambda: cluster._library.query_read(byref(self._at), the, byref(out)))
        if status == c.CLOSED:
            raise Error("the query has ended")
        must(status, "read", self._site, object)
        return Charged(out.value, out.imported, out.total)

    def end(self) -> QueryEnd:
        """Ends the query, and tells the sum of what it read. A second time it tells the same."""

        def end() -> int:
            out = c.Ended()
            status = self._cluster._library.query_end(byref(self._at), byref(out))
            if status == c.DONE:
                self._end_of = QueryEnd(out.place, out.sum, out.total, out.reads)
            return status

        status = self._cluster._call(self, end)
        if self._end_of is None:
            must(status, "end")
            raise Error("the query has ended")
        return self._end_of


class Closed:
    """What a cluster leaves once each site was compared with the log."""

    def __init__(self, cluster: Cluster) -> None:
        self._cluster = cluster

    def numbers(self) -> Numbers:
        """The last numbers of the cluster."""
        return self._cluster.numbers()

    def record(self, site: str) -> bytes:
        """As `record` of the cluster."""
        return self._cluster.record(site)

    def records(self) -> Dict[str, bytes]:
        """The record of each site."""
        return {site: self.record(site) for site in self._cluster.sites}

    def successor(self) -> Cluster:
        """Opens the cluster that goes on from this one: with the same declarations, each object at its last value, and numbers and
        sessions that go on.

        Raises `NotYet` where an update is not acknowledged. Refused `LogFull`.
        """
        it, at = self._cluster, ctypes.c_void_p()
        with it._gate:
            status = it._call(object(), lambda: it._library.successor(it._at, byref(at)))
        if status == c.NOT_YET:
            raise NotYet(it.numbers().length)
        must(status, "successor")
        following = Cluster.__new__(Cluster)
        following._hold(it._library, it._names, at)
        return following


class _Names:
    """The ids of what was declared."""

    def __init__(self) -> None:
        self.objects: Dict[str, int] = {}
        self.groups: Dict[str, int] = {}
        self.sites: Dict[str, int] = {}

    def scope(self, scope: Scope) -> Tuple[int, int]:
        """The kind and the id of a scope."""
        kind, name = (scope, "") if isinstance(scope, str) else scope
        if kind not in _SCOPES or isinstance(scope, str) != (kind in ("all", "count")):
            raise ValueError(f"{scope!r} is no scope")
        ids = {"object": self.objects, "group": self.groups}.get(kind, {"": 0})
        return _SCOPES.index(kind), ids.get(name, _NONE)

    def scope_of(self, kind: int, id: int) -> Scope:
        if kind == 0:
            return "object", list(self.objects)[id]
        if kind == 1:
            return "group", list(self.groups)[id]
        return "all" if kind == 2 else "count"


def _declare(
    library: c.ClusterLibrary,
    setup: c.Handle,
    objects: Mapping[str, int],
    sites: Mapping[str, Union[int, Site]],
    groups: Mapping[str, Iterable[str]],
) -> _Names:
    names, id = _Names(), ctypes.c_uint32()
    for name, value in objects.items():
        must(library.setup_object(byref(setup), *_text(name), _whole(value), byref(id)), "object", name, value)
        names.objects[name] = id.value
    for name, members in groups.items():
        listed = list(members)
        ids = (ctypes.c_uint32 * len(listed))(*(names.objects.get(member, _NONE) for member in listed))
        must(library.setup_group(byref(setup), *_text(name), ids, len(ids), byref(id)), "group", name, *listed)
        names.groups[name] = id.value
    for name, it in sites.items():
        site = it if isinstance(it, Site) else Site(it)
        must(library.setup_site(byref(setup), *_text(name), _natural(site.capacity), byref(id)), "site", name, site.capacity)
        names.sites[name] = id.value
        for scope, amount in site.limits.items():
            kind, of = names.scope(scope)
            status = library.setup_limit(byref(setup), names.sites[name], kind, of, _natural(amount))
            must(status, "limit", name, scope, amount)
    return names


def _text(name: str) -> Tuple[bytes, int]:
    text = str.encode(name, errors="surrogatepass")
    return text, len(text)


def _whole(number: int) -> int:
    """A number for the library, which refuses what is beyond its range: as the least or the greatest that it can be told."""
    return min(max(index(number), -(2**63)), 2**63 - 1)


def _natural(number: int) -> int:
    return index(number) if 0 <= number < 2**64 else 2**64 - 1


def _array(kind: Type[ctypes.Structure], rows: Sequence[ctypes.Structure]) -> ctypes.Array[ctypes.Structure]:
    return (kind * len(rows))(*rows)


def _waited(first: Callable[[int], int], again: Callable[[int], int], unfinished: int, seconds: Optional[float]) -> int:
    """The status of a call that waits so many seconds or less. In the main thread, where signals are handled between calls, it is made
    of slices: `first`, and then `again` while that has the status `unfinished` because its slice is over."""
    if get_ident() != threading.main_thread().ident:
        return first(c.FOREVER if seconds is None else math.ceil(seconds * 1000))
    end = None if seconds is None else time.monotonic() + seconds
    while True:
        begun = time.monotonic()
        left = _SLICE if end is None else min(_SLICE, max(0.0, end - begun))
        ms = math.ceil(left * 1000)
        status = first(ms)
        # What comes back before its time has another reason than the time, such as a stop.
        if status != unfinished or left < _SLICE or time.monotonic() < begun + ms / 1000:
            return status
        first = again


_clusters: weakref.WeakSet[Cluster] = weakref.WeakSet()


def _leave_all() -> None:
    for cluster in list(_clusters):
        cluster._leave()


os.register_at_fork(after_in_child=_leave_all)
