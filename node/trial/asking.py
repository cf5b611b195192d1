"""The clients of the trial, and what they were answered."""

import contextlib
import math
import random
import sys
import threading
import time
from typing import Callable, Iterator, NamedTuple

import etcd
from clients import Refused
from form import Form, Place
from observer import Loss, Told

# For how many seconds all may come to rest.
PATIENCE = 60
# How many clients ask alone, and how many a crowd has.
CLIENTS, CROWD = 5, 100

# What clients propose: mostly small changes, some that move much, and some that are refused. X and Y are two objects, N is small.
USUAL = ["add:X:N", "add:X:N add:Y:-N"]
GREAT = ["take:X:Y", "take:X:Y take:Y:X", "mul:X:-1", "max:X:900 min:Y:1100", "set:X:1000"]
REFUSED = ["mul:X:1000000000", "add:X:1000000001", "add:tie:N", "add:X:1 add:X:2", "inc:X:1", "add:tea:1000000000 add:coffee:1"]


class Answer(NamedTuple):
    """What a client was answered to a request: since when it asked and when it knew, who, the number, the changes, and the answer."""

    began: float
    when: float
    client: str
    number: int
    changes: str
    text: str

    def place(self) -> Place | None:
        """The epoch and the place of an update that is acknowledged."""
        words = self.text.split()
        return (int(words[4]), int(words[2])) if self.text.startswith("ok acked ") else None


class Asking:
    """The clients. The first one is the trial's own, some ask alone, and the others in crowds."""

    def __init__(
        self, form: Form, crowds: int, note: Callable[[str], None], wrong: Callable[[str], None], look: Callable[[], None]
    ) -> None:
        """`look` is called again and again while somebody waits."""
        self.form, self.note, self.wrong, self.look = form, note, wrong, look
        self.answers: list[Answer] = []
        # What restores of backups lost.
        self.losses: list[Loss] = []
        # What operators were told of limits.
        self.limits: list[Told] = []
        names = [[f"client{index}"] for index in range(CLIENTS + 1)]
        names += [[f"crowd{index}_{one}" for one in range(CROWD)] for index in range(crowds)]
        self.clients = [form.clients(some) for some in names]
        # Of each the number of its last request, and a lock: who has it has the client wait. Then how many requests are open.
        self.asked, self.locks = [0] * len(names), [threading.Lock() for _ in names]
        self.open, self.counting = 0, threading.Lock()
        self.rests = threading.Event()
        self.threads: list[threading.Thread] = []

    def start(self, chance: random.Random) -> None:
        seeds = [(index, chance.random()) for index in range(1, len(self.clients))]
        self.threads = [threading.Thread(target=self.run, args=one, daemon=True) for one in seeds]
        for thread in self.threads:
            thread.start()

    def add(self, names: list[str]) -> int:
        """More clients, which ask when they are told to, by this index."""
        self.clients.append(self.form.clients(names))
        self.asked.append(0)
        self.locks.append(threading.Lock())
        return len(self.clients) - 1

    def has_ended(self) -> bool:
        """Asks for no more. Returns whether each has heard the answer to what it asked last."""
        self.rests.set()
        return not any(thread.is_alive() for thread in self.threads)

    def run(self, index: int, seed: float) -> None:
        chance, client = random.Random(seed), self.clients[index]
        while not self.rests.is_set():
            changes = {name: some_changes(chance) for name in client.names}
            with self.locks[index]:
                losses = len(self.losses)
                answers = self.propose(index, changes)
                if chance.random() < 0.05:
                    wrong = client.again(self.asked[index], changes, answers)
                    # After a restore it is a new request.
                    if wrong and losses == len(self.losses):
                        self.wrong(wrong)
            time.sleep(chance.expovariate(1 / 0.03))

    def propose(self, index: int, changes: dict[str, str]) -> dict[str, str]:
        self.asked[index] += 1
        began, answers = time.monotonic(), None
        self.count(len(changes))
        while answers is None:
            try:
                answers = self.clients[index].propose(self.asked[index], changes)
            except etcd.Full:
                self.note("requests that found the engine full")
                time.sleep(0.2)
        self.count(-len(changes))
        own = self.clients[index].own
        self.answers += [Answer(began, own[name].heard, name, self.asked[index], changes[name], text) for name, text in answers.items()]
        return answers

    def count(self, more: int) -> None:
        with self.counting:
            self.open += more

    @contextlib.contextmanager
    def proposing(self, changes: str) -> Iterator[None]:
        """A client asks for changes. Its answer comes at the end of what is done meanwhile, or soon after it."""
        asks = threading.Thread(target=self.propose, args=(0, {"client0": changes}), daemon=True)
        asks.start()
        yield
        ends = time.monotonic() + PATIENCE
        while asks.is_alive():
            asks.join(0.2)
            self.look()
            if time.monotonic() > ends:
                sys.exit(f"client0 has no answer to `{changes[:80]}` after {PATIENCE} seconds")

    def propose_alone(self, changes: str) -> None:
        with self.proposing(changes):
            pass

    def propose_other(self, changes: str) -> str | None:
        """The answer to other changes under the last number, or nothing where they are refused."""
        try:
            return self.clients[0].propose(self.asked[0], {"client0": changes})["client0"]
        except Refused:
            return None

    @contextlib.contextmanager
    def alone(self) -> Iterator[None]:
        """The clients wait meanwhile. All that they asked is answered."""
        with contextlib.ExitStack() as stack:
            for client, lock in zip(self.clients[1:], self.locks[1:]):
                ends = time.monotonic() + PATIENCE
                while not lock.acquire(timeout=0.2):
                    self.look()
                    if time.monotonic() > ends:
                        sys.exit(f"{client.names[0]} has no answer after {PATIENCE} seconds")
                stack.callback(lock.release)
            yield

    def last(self) -> Place:
        """The last place that a client knows as acknowledged, and that no restore may have lost."""
        kept = (answer for answer in [*self.answers] if not any(loss.began < answer.when <= loss.ended for loss in self.losses))
        return max((place for place in (answer.place() for answer in kept) if place), default=(0, 0))

    def acknowledged(self, since: float = 0.0, until: float = math.inf) -> int:
        """How many updates were acknowledged in this time."""
        return sum(since < answer.when <= until and answer.text.startswith("ok acked") for answer in [*self.answers])

    def longest(self, since: float, until: float = math.inf) -> float:
        """The longest wait for an answer that came in this time, or was waited for at its end."""
        return max((answer.when - answer.began for answer in [*self.answers] if answer.when > since and answer.began <= until), default=0.0)

    def lost(self) -> Iterator[str]:
        """The clients that had not one answer to each request, in the order of their numbers."""
        given: dict[str, list[int]] = {}
        for answer in self.answers:
            given.setdefault(answer.client, []).append(answer.number)
        for client, asked in zip(self.clients, self.asked):
            for name in client.names:
                if given.get(name, []) != list(range(1, asked + 1)):
                    yield f"{name} has {len(given.get(name, []))} answers to {asked} requests"


def some_changes(chance: random.Random) -> str:
    changes = chance.choice(chance.choices([USUAL, GREAT, REFUSED], [20, 1, 1])[0])
    one, other = chance.sample(["tea", "coffee", "till"], 2)
    number = chance.randint(-5, 5)
    return changes.replace("X", one).replace("Y", other).replace("-N", str(-number)).replace("N", str(number))
