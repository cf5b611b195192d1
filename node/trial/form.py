"""The deployment of ordup-node, as the hosts of the trial have it: how it is started, asked and read.

Its entries and archives are read here by their form alone: what `ordup run` reads of an entry is made anew, and an archive must have it.
"""

import json
import random
import re
import subprocess
import threading
from pathlib import Path

import etcd
from addresses import FLEET, MEMBERS, PRIMARIES, SITES, SPARE, USERS, address_of
from clients import LONGER, PORT, WAIT, Clients, Http, Json, Refused, Wish
from safety import Safety

Place = tuple[int, int]


class Form:
    """What the trial asks of a deployment."""

    # Keys that nobody of the deployment puts, and by which it is not stopped.
    odd_keys = [f"{begin}{end}".encode("latin-1") for begin in ("script/", "site/", "archive/", "epoch", "primary", "request/", "next")
                for end in ("\xff\xfe/1", "ann/9\xff", "\xff", "0", "abc", "~\n/", "000000000002x")]

    def __init__(self, engine: etcd.Engine, nodes: tuple[Path, Path], safety: Safety | None) -> None:
        # The program, the one that runs its scripts too, and that of the two with which processes are started.
        self.engine, self.nodes, self.node, self.safety = engine, nodes, nodes[0], safety
        # What was found to be wrong.
        self.wrong: list[str] = []
        self.wish, self.wishing = Wish(engine, "", safety, ""), threading.Lock()

    # How its processes are started.

    def http(self, name: str, role: str, seconds: float = LONGER) -> Http:
        return Http(name, seconds, role, self.safety)

    def url_of(self, name: str) -> str:
        return f"http{'s' if self.safety else ''}://{address_of(name)}:{PORT}"

    def words(self, command: str, host: str, listen: str) -> list[str]:
        own = [str(self.node), command, "--host", host, "--listen", f"{listen}:{PORT}"]
        return own + (self.safety.words_of_server() if self.safety else [])

    def engine_words(self) -> list[str]:
        return ["--engine", ",".join(f"http://{address_of(member)}:{etcd.PORT}" for member in MEMBERS)]

    def words_of_primary(self, name: str, archive: Path, every: int, declarations: Path | None) -> list[str]:
        """Of a primary on the host of this name. Without declarations it takes those of the script."""
        own = [*self.words("primary", name, address_of(name)), *self.engine_words(), "--archive", str(archive), "--every", str(every)]
        return [*own, *(["--declarations", str(declarations)] if declarations else [])]

    def primaries(self) -> list[str]:
        return ["--primaries", ",".join(map(self.url_of, PRIMARIES)), *self.token()]

    def token(self) -> list[str]:
        return self.safety.words_of_site() if self.safety else []

    def words_of_site(self, name: str) -> list[str]:
        """Of a site, on any host."""
        fleet = ["--fleet", SITES[name], "--teller", self.url_of(FLEET), *self.token()]
        tells = fleet if SITES[name] != name else self.primaries()
        return [*self.words("site", name, "0.0.0.0"), *self.engine_words(), "--site", name, *tells]

    def words_of_fleet(self) -> list[str]:
        sites = [site for site in SITES if SITES[site] == FLEET]
        own = [*self.words("fleet", USERS, address_of(USERS)), *self.engine_words(), *self.primaries()]
        return [*own, "--fleet", FLEET, "--members", ",".join(sites)]

    def version_of(self, node: Path) -> str:
        """The version of a program, as scripts have it. What it was built of may stand behind it."""
        return subprocess.run([node, "--version"], stdout=subprocess.PIPE, text=True, check=True).stdout.split()[1]

    def words_of_reader(self) -> list[str]:
        """With which `observer.py` reads the site of its host."""
        if self.safety:
            return [f"https://127.0.0.1:{PORT}/values", self.safety.tokens["client"], self.safety.authority]
        return [f"http://127.0.0.1:{PORT}/values"]

    # How it is asked.

    def clients(self, names: list[str]) -> Clients:
        return Clients(names, self.safety)

    def want(self, declarations: str, version: str = "") -> bool:
        """Asks for the next epoch, by another version if one is named, and does not wait for it. Returns whether nobody else has asked."""
        with self.wishing:
            if self.wish.is_alive():
                return False
            self.wish = Wish(self.engine, declarations, self.safety, version)
            self.wish.start()
            return True

    def is_wanted(self) -> bool:
        """Whether an epoch was asked for that has not begun."""
        if self.wish.wrong:
            raise Refused(self.wish.wrong)
        return self.wish.is_alive()

    def relimit(self, site: str, limit: str) -> Place | None:
        """The update from which on a site has a limit, or nothing where that was not taken now, or is not known to be."""
        status, told = self.ask_once(random.choice(PRIMARIES), "operator", "POST", f"/relimit?wait={WAIT}",
                                     json.dumps({"site": site, "limit": limit}).encode())
        if status == 200:
            return told["epoch"], told["place"]
        if told.get("refused", 24) not in (24, 25):
            self.wrong.append(f"the limit {limit} of {site} is refused: {told}")
        return None

    def is_told_late(self, client: str, number: int, last: int) -> bool:
        """Whether the client is told under this number that it asked under `last` before."""
        update = json.dumps({"client": client, "number": number, "changes": ["add:tea:1"]}).encode()
        status, told = self.http(random.choice(PRIMARIES), "client").ask("POST", f"/update?wait={WAIT}", update)
        return status == 409 and told.get("error") == "Passed" and told.get("last") == last

    def place_at(self, site: str) -> Place | None:
        """What a reader sees at a site: the epoch, and the place in it. Nothing where it serves no reader."""
        reader = self.http(site, "client", 1)
        status, shown = reader.ask("GET", "/values")
        reader.connection.close()
        return (shown["epoch"], shown["place"]) if status == 200 else None

    def is_ready(self, primary: str) -> bool:
        """Whether a primary takes requests, or passes them on to the one that does."""
        return self.ask_once(primary, "", "GET", "/readyz", b"")[0] == 200

    # What nobody of the deployment sends.

    def put_odd(self, values: list[bytes]) -> list[str]:
        """Puts the odd keys, and sends what else nobody of the deployment sends. Returns what is wrong."""
        wrong: list[str] = []
        for key, value in zip(self.odd_keys, values):
            self.engine.put(key, value)
        for host in (*PRIMARIES, *SITES, FLEET):
            idle = [self.http(host, "").connection for _ in range(50)]
            try:
                for connection in idle:
                    connection.connect()
            except OSError as error:
                wrong.append(f"{host} takes no connection: {error}")
                continue
            wrong += [words for method, path, body in self.odd_requests() for words in self.send_odd(host, method, path, body)]
            for connection in idle:
                connection.close()
        return wrong

    def odd_requests(self) -> list[tuple[str, str, bytes]]:
        epoch = self.engine.epoch()[0]
        place = {"site": "north", "member": "north", "epoch": epoch, "applied": 999_999, "entry": 1}
        bodies = [b"", b"{", b"\xff" * 100, b"[" * 10_000, b'{"client":"a b","number":1,"changes":[]}',
                  b'{"client":"odd","number":-1,"changes":["add:tea:1"]}', b'{"client":"odd","number":1e30,"changes":["add:tea:1"]}',
                  b'{"client":"odd","number":1,"changes":["add:tea:1\\n"]}', json.dumps({"from": 10**18, "declarations": "\0"}).encode()]
        odd = [("POST", path, body) for path in ("/update", "/next", "/place", "/relimit") for body in bodies]
        odd += [("POST", "/update", b"x" * 2_000_000), ("POST", "/place", json.dumps(place).encode()),
                ("GET", "/values?seen=1", b""), ("GET", "/values?seen=-1.-1", b""),
                ("GET", "/value/%ff%00", b""), ("GET", "/values?wait=nan", b""), ("PUT", "/update", b""), ("GET", "/%2e%2e/x", b"")]
        return odd

    def send_odd(self, host: str, method: str, path: str, body: bytes) -> list[str]:
        """What is odd is answered, and is no answer. A body that is too large may end the connection."""
        role = {"/update": "client", "/place": "site", "/next": "operator", "/relimit": "operator"}.get(path, "client")
        if self.safety and self.ask_once(host, "", method, path, body[:1000])[0] == 200:
            return [f"{host} answered without a token to {method} {path}"]
        status, told = self.ask_once(host, role, method, path, body)
        if 300 <= status < 600 or status == 0 and len(body) > 10_000 or status == 200 and self.is_past(body):
            return []
        return [f"{host} answered {status} {told} to {method} {path} {body[:40]!r}"]

    def is_past(self, body: bytes) -> bool:
        """Whether it is a place of an epoch that has ended meanwhile, which nobody counts."""
        epochs = [int(text) for text in re.findall(rb'"epoch": (\d+)', body)]
        return epochs != [] and etcd.until(lambda: self.engine.epoch()[0] > epochs[0], 5, 0.1)

    def ask_once(self, host: str, role: str, method: str, path: str, body: bytes) -> tuple[int, Json]:
        asked = self.http(host, role)
        told = asked.ask(method, path, body)
        asked.connection.close()
        return told

    # What it keeps.

    def pid_of(self, writer: str) -> int:
        """The process that the key `primary` names."""
        return int(writer.rpartition("@")[0].rsplit("-", 2)[1])

    def lines_of(self, entry: str) -> list[str]:
        """What an entry has for `ordup run`, with the comments that the observer looks for: `# request CLIENT NUMBER` before each proposal,
        `# limit PLACE` before each change of a limit that was taken, and first of all `# epoch NUMBER` where it begins one."""
        lines: list[str] = []
        for line in entry.split("\n")[1:-1]:
            kind, _, rest = line.partition(" ")
            words = rest.split(" ")
            if kind == "begin":
                lines.append(f"# epoch {entry.split(' ', 4)[3]}")
            elif kind == "ask":
                lines.append(f"# request {words[0]} {words[1]}")
            elif kind == "relimit" and words[-2] == "ok":
                lines.append(f"# limit {words[-1]}")
            lines += lines_of_step(kind, rest, words)
        return lines

    def lines_of_archive(self, text: str) -> list[str]:
        """An archive has nothing but its entries, as comments, each step with the lines that follow from it."""
        lines: list[str] = []
        for part in re.split("^# entry ", text, flags=re.M)[1:]:
            _, *rest = part.split("\n")[:-1]
            entry = "\n".join(line[2:] for line in rest if line.startswith("# ")) + "\n"
            made = self.lines_of(entry)
            if [line for line in made if line[:1] != "#"] != [line for line in rest if line[:1] != "#"]:
                self.wrong.append(f"an archive has other lines than its entry: {part[:200]!r}")
            lines += made
        return lines

    def audit(self, archives: list[Path]) -> list[str]:
        """What `ordup-node fsck` finds to be wrong in these folders and in the engine."""
        words = [str(self.nodes[-1]), "fsck", *self.engine_words(), *map(str, archives)]
        ran = subprocess.run(words, stdout=subprocess.PIPE, stderr=subprocess.STDOUT, text=True)
        last = ran.stdout.strip().rpartition("\n")[2]
        return [] if ran.returncode == 0 and last.startswith("ok ") else [f"fsck ended with {ran.returncode}: {last}"]

    def numbers_of(self, primary: str, epoch: int, updates: int) -> list[tuple[str, float | None, float]]:
        """Numbers that a primary gives to operators at the end of the trial: the name, what it is, and what it is to be."""
        wanted = {"ordup_epoch": epoch, "ordup_log_updates": updates, "ordup_acknowledged_updates": updates,
                  'ordup_site_applied_updates{site="far"}': updates}
        _, told = self.ask_once(primary, "operator", "GET", "/metrics", b"")
        pairs = [line.rsplit(" ", 1) for line in told.get("text", "").splitlines() if line[:1] not in ("#", "")]
        has = {name: float(value) for name, value in pairs}
        return [(name, has.get(name), value) for name, value in wanted.items()]


def lines_of_step(kind: str, rest: str, words: list[str]) -> list[str]:
    if kind == "declare":
        return [rest]
    if kind == "ask":
        return ["propose " + rest.split(" ", 2)[2]]
    if kind == "settle":
        return ["settle"] * int(words[0])
    if kind == "relimit":
        return ["relimit " + re.sub(" (ok|refused) .*", "", rest)]
    if kind in ("tell", "gone"):
        return [f"send {words[0]}", f"apply {words[0]}"] * int(words[1]) + [f"report {words[0]}"]
    return []
