"""A store of ordup: for the threads of this process, or of lines, in this process or behind a pipe.

A `Cluster` is shared by threads, which read at sites whose lag has a proved bound. `pydoc ordup.Cluster` begins with an example.

A `Store` has a method for each command of docs/FORMATS.md. A method runs one line and returns its answer:

    >>> from ordup import Store, line
    >>> store = Store(program)
    >>> store.object('tea', 40)
    Declared(kind='object', name='tea')
    >>> store.site('south', 2)
    Declared(kind='site', name='south')
    >>> store.limit('south', ('object', 'tea'), 6)
    Declared(kind='limit', name='south')
    >>> store.start()
    Started()
    >>> store.propose({'tea': ('add', -5)})
    Proposed(place=1)
    >>> store.settle()
    Acked(place=1, sites=())

A refusal is an exception. After it all is as before:

    >>> store.apply('south')
    Traceback (most recent call last):
    ordup.Refused: apply south: refused 16 NothingToApply

`commands` runs many lines at once and returns all answers. `line` makes a line of its words. Here a refusal is one of the
answers:

    >>> for answer in store.commands([line('propose', ('add', 'tea', 2)), line('settle'), 'settle', 'send north']):
    ...     print(repr(answer))
    Proposed(place=2)
    Round(place=2, sites=('south',))
    Waiting(place=2, sites=('south',))
    Refused(8, 'UnknownSite', 'send north')

`run` takes a text and gives the answers as they are, which is the fastest:

    >>> store.run(b'# a comment\\nsend south\\nshow south\\n')
    b'ok sent south 1\\nok show south sent 1 applied 0 reported 0 rounds 1 tea=40\\n'

`close` ends the store, and so does the end of a `with` block. It returns the exit status of the program:

    >>> store.close()
    0

The store is in memory: where its process ends, it is gone. Threads may share a `Store`, and take turns. A forked child has no store:
there it is closed, and the parent's goes on. A store that is forgotten is ended by the collector.

Before anything is sent, a `BadLine` is raised for a name that is none, for a number of more than 19 digits, and for a text that would be
more than a line or have no answer. An argument that is no text, no mapping or no time limit is a `TypeError` or a `ValueError` then.
"""

from __future__ import annotations

import subprocess
from typing import Any, Iterable, List, Mapping, Optional, Sequence, Type, TypeVar, Union

from . import _answers, _cluster, _cluster_answers
from ._cluster import *
from ._cluster_answers import *
from ._cluster_library import find_clusters
from ._library import InProcess, check_text, find
from ._pipe import Pipe, Program, path_of
from ._answers import *
from ._way import Answered, Text, bytes_of, seconds_of
from ._answers import answered_lines, check_lines, count_answers, outcomes_of, scope_words, series_verdict_of, verdict_of

__version__ = "0.3.0.dev0"
__all__ = ["Store", "check", "check_series"]
__all__ += _answers.__all__
__all__ += _cluster.__all__ + _cluster_answers.__all__

for _it in [vars(module)[name] for module in (_answers, _cluster, _cluster_answers) for name in module.__all__]:
    if isinstance(_it, type):
        _it.__module__ = __name__  # a traceback names it as it is imported

A = TypeVar("A", bound=Answer)


def check(record: Text, program: Optional[Program] = None) -> Verdict:
    """The verdict on a record, as the job `check` gives it. It needs no store, and trusts nothing but the record.

    It is found in this process if no program is given and the library is there, else by the program. A record of more than 8 GiB is an
    `Error`, and want of memory a `MemoryError`.
    """
    return verdict_of(_checked(bytes_of(record), program, is_series=False))


def check_series(records: Text, program: Optional[Program] = None) -> SeriesVerdict:
    """The verdict on the records of a site, one after another in one text, as the job `check --series` gives it.

    The records are of a store and of those that go on from it. The verdict is found as that of `check` is. Of these two records the first
    one ends with 40 bags, and the second one begins with 35:

    >>> check_series(b'ordup,1,south,0\\nobject,1,tea,40\\n' + b'ordup,1,south,0\\nobject,1,tea,35\\n', program)
    NoInSeries(record=2, row=2, reason='NotNext')
    """
    return series_verdict_of(_checked(bytes_of(records), program, is_series=True))


def _checked(text: bytes, program: Optional[Program], is_series: bool) -> str:
    """The line that the job `check` prints for a text."""
    library = find() if program is None else None
    if library:
        return check_text(library.check_series if is_series else library.check, text)
    words = ["check", "--series"] if is_series else ["check"]
    ran = subprocess.run([path_of(program), *words], input=text, stdout=subprocess.PIPE, stderr=subprocess.PIPE)
    said = (ran.stdout or ran.stderr).decode("utf-8", "replace").strip()
    if said == "no memory":
        raise MemoryError
    if said == "read fault":
        raise Error(said)
    return said


class Store:
    """A store in this process, or in a process of its own behind a pipe. Methods, answers and exceptions are the same.

    A method has the name of its command, and returns its answer. The last line of a method names the refusals that it may raise, as
    a `Refused`. Each call that is not answered raises an `Unanswered`: `ProgramEnded`, `TimedOut` or, in the process, `NoMemory`.

    `process` is the process of its own, or None. `timeout` is how many seconds a call may take, or None, and may be changed;
    `command`, `commands` and `run` take one of their own. A million seconds and more are no limit. A call that takes longer raises `TimedOut`, and
    the store is closed, since later answers could not be told apart. In the process the time is looked at after each `certify`, and
    after every 4,096 bytes of other lines.

    Ctrl-C between calls does nothing to a store: its program is in a session of its own. Within a call it leaves the store ended or
    usable, as any exception does. No later call gets an answer of an earlier one.
    """

    def __init__(
        self, program: Optional[Program] = None, time_limit: float = 5.0, timeout: Optional[float] = None
    ) -> None:
        """Starts PROGRAM. Without one the store is in this process, where the library libordup.so is there.

        The library is looked for at the path in the variable ORDUP_LIBRARY; or else beside this module, in `out` of the
        repository that it lies in, and where the system keeps libraries. Where there is none, PROGRAM is the `ordup` on PATH, or
        else the launcher of the repository.

        `time_limit` is how many seconds the program may take to end once its input was closed. In the process it has no meaning.
        A program that cannot be started is an `OSError`, such as `FileNotFoundError`. The program's standard error is that of
        this process, and has the line of a fault, and the messages of the launcher.
        """
        seconds_of(timeout)
        library = find() if program is None else None
        self._way: Union[InProcess, Pipe] = InProcess(library) if library else Pipe(program, time_limit)
        self.timeout = timeout

    @property
    def process(self) -> Optional[subprocess.Popen[bytes]]:
        return self._way.process

    def __enter__(self) -> Store:
        return self

    def __exit__(self, *error: Any) -> None:
        self.close()

    def close(self) -> int:
        """Ends the store, and returns the exit status of its program, which is 0 in the process.

        The program gets the end of its input, and is killed where it has not ended after the time limit. A call that is under
        way, in another thread or above a signal handler, ends too: its program is killed, and it raises `ProgramEnded`. A signal
        handler may close a store; another call that it makes amid a call ends the store.
        """
        return self._way.close()

    def command(self, line: str, timeout: Optional[float] = None) -> Answer:
        """Runs one line, and returns its answer or raises the refusal."""
        outcome = self.commands([line], timeout)[0]
        if isinstance(outcome, Refused):
            raise outcome
        return outcome

    def commands(self, lines: Iterable[str], timeout: Optional[float] = None) -> List[Outcome]:
        """Runs all lines without waiting between them, and returns their answers in order; a refusal is one of them.

        A line that would have no answer or is more than a line is a `BadLine`, and then none is run.
        """
        if isinstance(lines, str):
            raise TypeError("`commands` takes lines, and `command` takes one")
        asked = list(lines)
        check_lines(asked)
        text = "".join([line + "\n" for line in asked]).encode("ascii")
        answers, why = self._ask_all(text, len(asked), timeout)
        return self._outcomes(answers, asked, why)

    def run(self, text: Text, timeout: Optional[float] = None) -> bytes:
        """Runs the lines of a text as `ordup run` does, and returns the bytes of its answers. The last line needs no LF.

        This is the fastest. No line is looked at before: what is no command is answered `refused 1 Syntax`.
        """
        given = bytes_of(text)
        whole = given if given.endswith(b"\n") or not given else given + b"\n"
        answers, why = self._ask_all(whole, count_answers(whole), timeout)
        if why:
            self._outcomes(answers, answered_lines(whole), why)
        return answers

    def record(self, site: str) -> bytes:
        """The record of a site, for an auditor: the bytes that `ordup record SITE` prints. The store is as it was.

        Only a store in the process has it: else it raises `OnlyInProcess`, and `ordup record SITE` makes it of the script.

        Refused `NotStarted` or `UnknownSite`.
        """
        return self._in_process("ordup record SITE").record(site)

    def next_declarations(self) -> bytes:
        """The declarations of the successor, which begins with what this store ends with, for its `run`.

        They are the bytes that `ordup next` prints, once all updates are acknowledged. The store is as it was. Only a store in the
        process has them: else it raises `OnlyInProcess`, and `ordup next` makes them of the script.

        Refused `NotStarted` or `NotYet`.
        """
        return self._in_process("ordup next").next_declarations()

    def _in_process(self, job: str) -> InProcess:
        if not isinstance(self._way, InProcess):
            raise OnlyInProcess(f"a store behind a pipe cannot do this, but `{job}` can, given the script")
        return self._way

    def _ask_all(self, text: bytes, count: int, timeout: Optional[float]) -> Answered:
        return self._way.ask(text, count, seconds_of(self.timeout if timeout is None else timeout))

    def _outcomes(self, answers: bytes, lines: Sequence[str], why: Optional[Type[Unanswered]]) -> List[Outcome]:
        """What answers to lines say. Where they are not all, that is raised."""
        if why:
            raise why(4 if why is NoMemory else self._way.close(), answers, lines)
        try:
            return outcomes_of(answers, lines)
        except BadAnswer:
            self._way.close(at_once=True)
            raise

    def _ask(self, kind: Type[A], *words: Word) -> A:
        answer = self.command(line(*words))
        if not isinstance(answer, kind):
            raise BadAnswer(f"{repr(answer)[:80]} is no answer to {words[0]!r}")
        return answer

    def object(self, name: str, value: int) -> Declared:
        """Declares an object with its initial value, from -1,000,000,000 to 1,000,000,000. There are at most 256 objects.

        Refused `AlreadyStarted`, `NameTaken`, `OutOfRange` or `TooMany`.
        """
        return self._ask(Declared, "object", name, value)

    def group(self, name: str, members: Iterable[str]) -> Declared:
        """Declares a group of 1 to 64 objects, which a limit weighs together. There are at most 32 groups.

        Refused `AlreadyStarted`, `NameTaken`, `UnknownObject`, `TooMany`, `Empty` or `Repeated`.
        """
        return self._ask(Declared, "group", name, *members)

    def site(self, name: str, capacity: int) -> Declared:
        """Declares a site. Its feed holds up to `capacity` updates that it has not applied, 1 to 1,024. There are at most 16
        sites.

        Refused `AlreadyStarted`, `NameTaken`, `OutOfRange` or `TooMany`.
        """
        return self._ask(Declared, "site", name, capacity)

    def limit(self, site: str, scope: Scope, amount: int) -> Declared:
        """Gives a site a limit, before the start: the acknowledged updates that it has not applied never weigh more than
        `amount` on the scope, 0 to 10^18. A site has at most 64 limits, each on a scope of its own.

        Refused `AlreadyStarted`, `UnknownObject`, `UnknownGroup`, `UnknownSite`, `OutOfRange`, `TooMany` or `Repeated`.
        """
        return self._ask(Declared, "limit", site, *scope_words(scope), amount)

    def start(self) -> Started:
        """Starts the store. The log is empty, and each site has the initial values. Declarations come before it, all else
        after it.

        Refused `AlreadyStarted` or `Empty`.
        """
        return self._ask(Started, "start")

    def propose(self, changes: Mapping[str, Change]) -> Proposed:
        """Proposes one update of 1 to 64 changes, all of which happen at once or not at all: `propose({'tea': ('add', -5),
        'last': ('take', 'till')})`. Each number, and each value after the update, is from -1,000,000,000 to 1,000,000,000.

        Refused `NotStarted`, `UnknownObject`, `OutOfRange`, `TooMany`, `Empty` or `LogFull`.
        """
        if not isinstance(changes, Mapping):
            raise TypeError("`propose` takes a mapping of objects to changes")
        return self._ask(Proposed, "propose", *((kind, name, operand) for name, (kind, operand) in changes.items()))

    def send(self, site: str) -> Sent:
        """Puts the first update that was not sent to a site into its feed, acknowledged or not.

        Refused `NotStarted`, `UnknownSite`, `NothingToSend` or `FeedFull`.
        """
        return self._ask(Sent, "send", site)

    def apply(self, site: str) -> Applied:
        """Has a site apply the next update of its feed.

        Refused `NotStarted`, `UnknownSite` or `NothingToApply`.
        """
        return self._ask(Applied, "apply", site)

    def report(self, site: str) -> Reported:
        """Tells the primary how many updates a site has applied. The primary goes by it until the next report.

        Refused `NotStarted` or `UnknownSite`.
        """
        return self._ask(Reported, "report", site)

    def settle(self) -> Settled:
        """Asks the primary to acknowledge the head, which is the first update that is not acknowledged.

        Refused `NotStarted` or `NothingToSettle`.
        """
        return self._ask(Settled, "settle")

    def begin(self, query: str, site: str, limit: int) -> Begun:
        """Begins a query at a site. Its reference is how many updates are acknowledged now, and its reads may import at most
        `limit` in sum, 0 to 10^18, in the unit of the values. At most 64 queries are open at a time.

        Refused `NotStarted`, `UnknownSite`, `OutOfRange`, `TooMany` or `QueryOpen`.
        """
        return self._ask(Begun, "begin", query, site, limit)

    def read(self, query: str, object: str) -> Read:
        """Reads an object by a query, at the query's site.

        Refused `NotStarted`, `UnknownObject`, `UnknownQuery`, `TooMany` or `OverImport`.
        """
        return self._ask(Read, "read", query, object)

    def end(self, query: str) -> Ended:
        """Ends a query, and tells the sum of what it read. Its name is free again.

        Refused `NotStarted` or `UnknownQuery`.
        """
        return self._ask(Ended, "end", query)

    def abandon(self, query: str) -> Abandoned:
        """Ends a query without its sum. Its name is free again.

        Refused `NotStarted` or `UnknownQuery`.
        """
        return self._ask(Abandoned, "abandon", query)

    def show(self, site: str) -> Shown:
        """Shows how far a site is, and its values.

        Refused `NotStarted` or `UnknownSite`.
        """
        return self._ask(Shown, "show", site)

    def certify(self, site: str) -> Certified:
        """Shows that the forced rounds of a site are the fewest. The answer has a window for each of them, so it may be long.

        Refused `NotStarted` or `UnknownSite`.
        """
        return self._ask(Certified, "certify", site)

    def relimit(self, site: str, scope: Scope, amount: int) -> Relimited:
        """Changes a limit of a site while the store runs, or gives it one. It is in force from the place of the head on. The
        scope and the amount are those of `limit`. A second change of the same scope before the head is acknowledged
        replaces the first.

        Refused `NotStarted`, `UnknownObject`, `UnknownGroup`, `UnknownSite`, `OutOfRange`, `TooMany`, `HeadPending` or
        `LagOver`.
        """
        return self._ask(Relimited, "relimit", site, *scope_words(scope), amount)
