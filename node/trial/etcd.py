"""The engine as its operator has it, by the HTTP of etcd itself. It shares no code with the deployment.

Keys are bytes, and so are values. A member that fails a call is left for the next one.
"""

import base64
import http.client
import json
import time
import urllib.error
import urllib.request
from typing import Any, Callable, Iterator

PORT, SECONDS = 2379, 3.0
# So many keys are read at once.
PAGE = 500

Json = dict[str, Any]


class Away(Exception):
    """A member cannot be reached, or has no majority. Whether a write was taken is not known."""


class Full(Away):
    """The engine has no space for a write."""


def text_of(data: bytes) -> str:
    return base64.b64encode(data).decode()


def bytes_of(text: str) -> bytes:
    return base64.b64decode(text)


def end_of(prefix: bytes) -> bytes:
    """Behind the keys that begin so."""
    return prefix[:-1] + bytes([prefix[-1] + 1])


class Engine:
    """Asks one member at a time. Threads may share it."""

    def __init__(self, members: list[str], seconds: float = SECONDS) -> None:
        self.members, self.seconds, self.at = members, seconds, 0

    def call(self, what: str, **asked: Any) -> Json:
        at = self.at
        member = self.members[at % len(self.members)]
        request = urllib.request.Request(f"http://{member}:{PORT}/v3/{what}", json.dumps(asked).encode(), method="POST")
        try:
            with urllib.request.urlopen(request, timeout=self.seconds) as answer:
                found: Json = json.load(answer)
                return found
        except urllib.error.HTTPError as error:
            why = error.read().decode("utf-8", "replace")
            if "space exceeded" in why:
                raise Full("the engine is full") from error
            failed: Exception = Away(f"the member {member}: {why}")
        except (OSError, ValueError, http.client.HTTPException) as error:
            failed = Away(f"the member {member}: {error}")
        self.at = at + 1
        raise failed

    # Keys.

    def range(self, key: bytes, end: bytes, limit: int = 0, keys_only: bool = False) -> tuple[list[tuple[bytes, bytes]], bool]:
        """The keys of a range with their values, and whether there are more."""
        found = self.call("kv/range", key=text_of(key), range_end=text_of(end), limit=str(limit), keys_only=keys_only)
        return [(bytes_of(kv["key"]), bytes_of(kv.get("value", ""))) for kv in found.get("kvs", [])], bool(found.get("more"))

    def under(self, prefix: str, keys_only: bool = False) -> Iterator[tuple[bytes, bytes]]:
        """The keys that begin so, in their order."""
        key, end, more = prefix.encode(), end_of(prefix.encode()), True
        while more:
            some, more = self.range(key, end, PAGE, keys_only)
            yield from some
            key = some[-1][0] + b"\0" if some else key

    def value(self, key: str) -> str | None:
        found, _ = self.range(key.encode(), key.encode() + b"\0")
        return found[0][1].decode("utf-8", "replace") if found else None

    def has(self, key: bytes) -> bool:
        return bool(self.range(key, key + b"\0", 1, True)[0])

    def put(self, key: bytes, value: bytes, lease: str = "0") -> None:
        self.call("kv/put", key=text_of(key), value=text_of(value), lease=lease)

    def grant(self, seconds: int) -> str:
        """A lease that the engine keeps for so long."""
        return str(self.call("lease/grant", TTL=str(seconds))["ID"])

    def revoke(self, lease: str) -> None:
        self.call("lease/revoke", ID=lease)

    def create(self, key: str, value: str) -> bool:
        """Creates the key, if it is not there. Returns whether it was not."""
        name = text_of(key.encode())
        absent = {"key": name, "target": "CREATE", "result": "EQUAL", "create_revision": "0"}
        puts = {"request_put": {"key": name, "value": text_of(value.encode())}}
        return bool(self.call("kv/txn", compare=[absent], success=[puts]).get("succeeded"))

    def remove(self, prefix: str) -> None:
        """Takes away the keys that begin so, and what the engine keeps of the past."""
        gone = self.call("kv/deleterange", key=text_of(prefix.encode()), range_end=text_of(end_of(prefix.encode())))
        try:
            self.call("kv/compaction", revision=gone["header"]["revision"], physical=True)
        except Away as away:
            if "compacted" not in str(away):
                raise

    # Members.

    def leader(self) -> str | None:
        """The name of the member that leads."""
        leader = self.call("maintenance/status").get("leader", "0")
        return next((name for ident, name, _ in self.all_members() if ident == leader), None)

    def all_members(self) -> list[tuple[str, str, list[str]]]:
        """Of each member its number, its name, and where the others reach it."""
        found = self.call("cluster/member/list").get("members", [])
        return [(member["ID"], member.get("name", ""), member.get("peerURLs", [])) for member in found]

    def replace_member(self, name: str, url: str) -> None:
        """Takes the member away, and lets one of the same name begin on an empty disk."""
        for ident, other, urls in self.all_members():
            if other == name or other and url in urls:
                self.call("cluster/member/remove", ID=ident)
        if not any(url in urls for _, _, urls in self.all_members()):
            self.call("cluster/member/add", peerURLs=[url])

    def defragment(self) -> None:
        self.call("maintenance/defragment")

    def alarms(self) -> list[Json]:
        """Those by which the engine takes no write."""
        found: list[Json] = self.call("maintenance/alarm", action="GET").get("alarms", [])
        return found

    def disarm(self) -> None:
        for alarm in self.alarms():
            self.call("maintenance/alarm", action="DEACTIVATE", memberID=alarm["memberID"], alarm=alarm.get("alarm", "NONE"))

    # The script, which each form of the deployment keeps under these keys.

    def epoch(self) -> tuple[int, int]:
        """The last epoch, and the number of its first entry. Before there is one, that is 0 and 1."""
        number, first = (self.value("epoch") or "0 1").split()
        return int(number), int(first)

    def first(self) -> int:
        """The number of the first entry, or 0."""
        return next((number_of(key) for key, _ in self.under("script/", True) if number_of(key)), 0)

    def entries(self) -> list[tuple[int, str]]:
        """The numbers of the entries, and their texts."""
        return [(number_of(key), value.decode("utf-8", "replace")) for key, value in self.under("script/") if number_of(key)]


def number_of(key: bytes) -> int:
    """The number of an entry, or 0 of a key that is none."""
    digits = key[len(b"script/") :]
    return int(digits) if len(digits) == 12 and digits.isdigit() else 0


def until(call: Callable[[], object], seconds: float, pause: float = 0.1) -> bool:
    """Whether a call gives something true in time. While a member is away it is asked again."""
    ends = time.monotonic() + seconds
    while time.monotonic() < ends:
        try:
            if call():
                return True
        except Away:
            pass
        time.sleep(pause)
    return False


def until_done(call: Callable[[], None], seconds: float) -> bool:
    """Whether a call that gives nothing succeeds in time."""

    def done() -> bool:
        call()
        return True

    return until(done, seconds, 0.3)
