"""Who asks the deployment over HTTP: clients, and the operator for the next epoch."""

import http.client
import json
import random
import threading
import time
from concurrent.futures import ThreadPoolExecutor
from typing import Any

import etcd
from addresses import PRIMARIES, address_of
from safety import Safety

PORT = 7070
# For so many seconds a process may look for an answer, and who asks waits a little longer for the process.
WAIT, LONGER = 4, 6.0
Json = dict[str, Any]


class Refused(Exception):
    """The deployment does not take the request, whoever asks: its number, or its changes."""


class Http:
    """One connection to a process, as long as that lasts. Where it fails, the status is 0."""

    def __init__(self, name: str, seconds: float, role: str, safety: Safety | None) -> None:
        host, self.headers = address_of(name), {"Content-Type": "application/json"}
        self.connection = http.client.HTTPConnection(host, PORT, timeout=seconds)
        if safety:
            self.connection = http.client.HTTPSConnection(host, PORT, timeout=seconds, context=safety.context)
            self.headers.update({"Authorization": f"Bearer {safety.tokens[role]}"} if role else {})

    def ask(self, method: str, path: str, body: bytes | None = None) -> tuple[int, Json]:
        try:
            self.connection.request(method, path, body, self.headers)
            answer = self.connection.getresponse()
            text = answer.read()
            told = json.loads(text) if text[:1] == b"{" else {"text": text.decode("utf-8", "replace")}
            return answer.status, told
        except (OSError, ValueError, http.client.HTTPException):
            self.connection.close()
            return 0, {}


class Client:
    """It has a name, and one request open at a time. It asks a primary until that fails, and then another one, which may be the same."""

    def __init__(self, name: str, safety: Safety | None) -> None:
        self.name, self.safety = name, safety
        # When it heard its last answer.
        self.heard = 0.0
        self.next()

    def next(self) -> None:
        self.http = Http(random.choice(PRIMARIES), LONGER, "client", self.safety)

    def propose(self, number: int, changes: str) -> str:
        """The answer in the words of the store. Raises `Refused`, or etcd's `Full`."""
        answer = self.answer_to(number, changes)
        self.heard = time.monotonic()
        return answer

    def answer_to(self, number: int, changes: str) -> str:
        update = json.dumps({"client": self.name, "number": number, "changes": changes.split()}).encode()
        while True:
            status, told = self.http.ask("POST", f"/update?wait={WAIT}", update)
            if status == 200:
                return f"ok acked {told['place']} epoch {told['epoch']}"
            if told.get("error") == "Refused":
                return f"refused {told['refused']} {told['refusal']}"
            if status in (400, 409, 422):
                raise Refused(f"{self.name} {number} had {told}")
            if status == 507:
                raise etcd.Full("the engine is full")
            time.sleep(0.05)
            self.next()


class Clients:
    """Some clients that ask together."""

    def __init__(self, names: list[str], safety: Safety | None) -> None:
        self.names, self.own = names, {name: Client(name, safety) for name in names}
        self.threads = ThreadPoolExecutor(len(names)) if len(names) > 1 else None

    def propose(self, number: int, changes: dict[str, str]) -> dict[str, str]:
        """Asks under one number for what each client wants, and waits for the answer of each."""
        if self.threads is None:
            return {name: self.own[name].propose(number, text) for name, text in changes.items()}
        asked = {name: self.threads.submit(self.own[name].propose, number, text) for name, text in changes.items()}
        return {name: one.result() for name, one in asked.items()}

    def again(self, number: int, changes: dict[str, str], answers: dict[str, str]) -> str | None:
        """Asks again, as one that did not hear the answers. Returns what is wrong."""
        try:
            others = self.propose(number, changes)
        except (etcd.Full, Refused) as why:
            return None if isinstance(why, etcd.Full) else f"who asked again was refused: {why}"
        return None if others == answers else f"who asked again had {others}, and before {answers}"


class Wish(threading.Thread):
    """Asks for the next epoch until it has begun, under the number of the one that is to end. So it is done once."""

    def __init__(self, engine: etcd.Engine, declarations: str, safety: Safety | None, version: str) -> None:
        super().__init__(daemon=True)
        self.engine, self.safety, self.wrong = engine, safety, ""
        self.wanted = {"declarations": declarations, **({"ordup": version} if version else {})}

    def run(self) -> None:
        since = 0
        while True:
            try:
                since = since or self.engine.epoch()[0]
                wish = json.dumps({"from": since, **self.wanted}).encode()
                host = Http(random.choice(PRIMARIES), LONGER, "operator", self.safety)
                status, told = host.ask("POST", f"/next?wait={WAIT}", wish)
                host.connection.close()
                if status == 200:
                    return
                if status == 409 and self.engine.epoch()[0] > since:
                    # That one ended before it was asked for.
                    since = 0
                elif status in (400, 422):
                    self.wrong = f"the next epoch was refused: {told}"
                    return
            except etcd.Away:
                pass
            time.sleep(0.1)
