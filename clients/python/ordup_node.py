"""A client of ordup-node, in this file alone: update at primaries, and read at sites.

>>> shop = Deployment(["http://10.0.0.1:7002", "http://10.0.0.2:7002"], client="ann")
>>> acked = shop.update(["add:tea:-5", "add:till:20"])
>>> shop.read("http://10.0.0.6:7001", "tea").values["tea"]
995
>>> try:
...     shop.update(["add:milk:1"])
... except Refused as error:
...     print(error.refusal)
UnknownObject

An update is asked again, under its number and at the next address, until there is an answer for good: so it is done once. A reading shows
no less than each update and reading before. Who must be sure after a crash of its own notes a number and the changes before it asks, and
asks again with `number=`. Without that each number is greater than those before, by the clock: a restart asks for new updates alone.
docs/HTTP.md has what travels. A `Deployment` is for one thread at a time.
"""

from __future__ import annotations

import dataclasses
import http.client
import json
import ssl
import time
import urllib.error
import urllib.parse
import urllib.request
from collections.abc import Callable, Sequence
from typing import Any

# After these statuses a node may have another answer: elsewhere, or there too, or there alone.
AGAIN = (408, 500, 503, 504, 507)
# The longest try, for how much of it a node waits for an answer, and the least and the longest pause after each address has failed.
TRY, WAIT = 6.0, 4.0
LEAST_PAUSE, MOST_PAUSE = 0.05, 1.0
MOST_ANSWER = 1 << 20

Json = dict[str, Any]


class Error(Exception):
    """An answer that is none: `name` and `status` are those of the table of docs/HTTP.md, `told` is all of it."""

    def __init__(self, status: int, told: Json) -> None:
        super().__init__(told.get("message") or told["error"])
        self.status, self.told = status, told
        self.name: str = told["error"]


class Refused(Error):
    """The store refuses the update, for good: `refusal` is why."""

    @property
    def refusal(self) -> str:
        return str(self.told.get("refusal", ""))


class Passed(Error):
    """The client asked under a later number before, which is `last`."""

    @property
    def last(self) -> int:
        return int(self.told.get("last", 0))


class Behind(Error):
    """The site did not get in time to what was seen: it is at `seen`."""

    @property
    def seen(self) -> str:
        return f"{self.told.get('epoch', 0)}.{self.told.get('place', 0)}"


class NoAnswer(Exception):
    """There was no answer in time, and `last` is why. An update may be done or not: ask again under its `number`. That of a reading is 0."""

    def __init__(self, number: int, last: Exception | None) -> None:
        super().__init__(f"there is no answer yet: {last}")
        self.number, self.last = number, last


OF_NAME: dict[str, type[Error]] = {"Refused": Refused, "Passed": Passed, "Behind": Behind}


@dataclasses.dataclass(frozen=True)
class Acked:
    """An acknowledged update: it is the one `place` of its epoch, and `seen` is both."""

    client: str
    number: int
    epoch: int
    place: int
    seen: str


@dataclasses.dataclass(frozen=True)
class Reading:
    """Values of a site, which shows `place` updates of the epoch, and what it told beside them."""

    values: dict[str, int]
    site: str
    epoch: int
    place: int
    seen: str
    told: Json


class _Unfollowed(urllib.request.HTTPRedirectHandler):
    """Goes nowhere else, since a token is for who was asked."""

    def redirect_request(self, *_: Any) -> None:
        return None


class Deployment:
    """Asks the primaries at `addresses`, as http://10.0.0.1:7002, in the name of a client, for `timeout` seconds at most."""

    def __init__(self, addresses: Sequence[str], client: str, token: str | Callable[[], str] | None = None, timeout: float = 60.0,
                 context: ssl.SSLContext | None = None) -> None:
        if not addresses:
            raise ValueError("there is no address to ask at")
        self.addresses, self.client, self.timeout = [it.rstrip("/") for it in addresses], client, timeout
        self.token = token
        self.seen = ""
        self.last = 0
        self._writer = self.addresses[0]
        handlers: list[urllib.request.BaseHandler] = [urllib.request.ProxyHandler({}), _Unfollowed()]
        if context:
            handlers.append(urllib.request.HTTPSHandler(context=context))
        self._opener = urllib.request.build_opener(*handlers)

    def update(self, changes: Sequence[str], number: int | None = None) -> Acked:
        """Asks for an update until it is acknowledged. Raises an Error where it can never be done so, and NoAnswer after the timeout."""
        chosen = number if number is not None else self.next_number()
        while True:
            self.last = max(self.last, chosen)
            body = json.dumps({"client": self.client, "number": chosen, "changes": list(changes)}).encode()
            asking = _Asking(self, chosen, self._writer, self.addresses)
            try:
                told = asking.until_answered("/update", {}, body)
            except Passed as error:
                if number is not None or asking.tries > 1:
                    raise
                # This number was asked for the first time, so nothing was done under it.
                chosen = error.last + 1
                continue
            finally:
                self._writer = asking.address
            acked = Acked(**{it.name: told[it.name] for it in dataclasses.fields(Acked)})
            self.see(acked.seen)
            return acked

    def next_number(self) -> int:
        """A number above those of this Deployment, and by the clock above those before a restart."""
        return max(self.last + 1, time.time_ns() // 1000)

    def read(self, site: str | Sequence[str], *objects: str) -> Reading:
        """Reads objects, or all, at the addresses of one site: no less than was seen. Raises Behind where it is not as far in time."""
        sites = [site] if isinstance(site, str) else list(site)
        path = f"/value/{urllib.parse.quote(objects[0], safe='')}" if len(objects) == 1 else "/values"
        told = _Asking(self, 0, sites[0], sites).until_answered(path, {"seen": self.seen} if self.seen else {}, None)
        values = {told["object"]: told["value"]} if len(objects) == 1 else told["values"]
        missing = [it for it in objects if it not in values]
        if missing:
            raise Error(404, {"error": "NoSuchObject", "message": f"the site has no object {missing[0]}"})
        self.see(told["seen"])
        return Reading({it: values[it] for it in objects or values}, told["site"], told["epoch"], told["place"], told["seen"], told)

    def see(self, seen: str) -> None:
        """Has later readings show no less: of what another client has seen, too."""
        def place(text: str) -> list[int]:
            return [int(it) for it in text.split(".")]
        if not self.seen or place(seen) > place(self.seen):
            self.seen = seen


class _Asking:
    """Asks for one thing, at one address after the other."""

    def __init__(self, of: Deployment, number: int, first: str, addresses: Sequence[str]) -> None:
        self.of, self.number, self.address, self.addresses = of, number, first, list(addresses)
        self.tries = 0

    def until_answered(self, path: str, words: dict[str, str], body: bytes | None) -> Json:
        end, pause = time.monotonic() + self.of.timeout, LEAST_PAUSE
        last: Exception | None = None
        while (left := end - time.monotonic()) > 0:
            self.tries += 1
            wait = min(WAIT, left * 3 / 4)
            query = urllib.parse.urlencode({"wait": f"{wait:.3f}", **words})
            try:
                return self._try(f"{path}?{query}", body, min(TRY, left))
            except Error as error:
                if error.status not in AGAIN:
                    raise
                last = error
            except (OSError, ValueError, http.client.HTTPException) as error:
                last = error
                self._go_on()
            if self.tries % (len(self.addresses) + 1) == 0:
                time.sleep(max(0.0, min(pause, end - time.monotonic())))
                pause = min(2 * pause, MOST_PAUSE)
        raise NoAnswer(self.number, last)

    def _try(self, path: str, body: bytes | None, seconds: float) -> Json:
        """Asks one address. What it answers, or who it says writes, tells who is asked next."""
        headers = {"Content-Type": "application/json"} if body is not None else {}
        if self.of.token is not None:
            headers["Authorization"] = f"Bearer {self.of.token if isinstance(self.of.token, str) else self.of.token()}"
        request = urllib.request.Request(self.address + path, body, headers)
        try:
            answer = self.of._opener.open(request, timeout=seconds)
        except urllib.error.HTTPError as error:
            answer = error
        with answer:
            status, writer = answer.status, answer.headers.get("Ordup-Writer", "")
            told = json.loads(answer.read(MOST_ANSWER))
        if not isinstance(told, dict) or status != 200 and not isinstance(told.get("error"), str):
            raise ValueError(f"{self.address} answers with status {status}, and not as a node does")
        name = told.get("error", "")
        if status not in AGAIN or name == "NotWriter":
            named = told.get("writer") or writer
            # An address of another scheme is not asked, since it would get the token.
            if named and named != self.address and named.partition("://")[0] == self.address.partition("://")[0]:
                self.address = named
            elif name == "NotWriter":
                self._go_on()
        elif name not in ("Busy", "Full", "NotYet"):
            self._go_on()
        if status != 200:
            raise OF_NAME.get(name, Error)(status, told)
        return told

    def _go_on(self) -> None:
        """Has the next address asked: the first one, where an answer named the one that failed."""
        at = self.addresses.index(self.address) + 1 if self.address in self.addresses else 0
        self.address = self.addresses[at % len(self.addresses)]
