#!/usr/bin/env python3
"""A service that sells tea, and tells its stock at two sites: stock_service.py PORT [FOLDER]

    POST /sales/tea/3           sells 3 bags, if they are there: 201, and the number of the update; 409 if they are not
    POST /deliveries/tea/40     40 bags more
    GET /updates/7              waits until update 7 is acknowledged
    GET /stock/north/tea        the bags that the site in the north knows of, and how stale that is
    GET /metrics, GET /healthz  for whoever runs the service

Each answer says what it has `seen`. Who gives that with the next request, as `?seen=7`, sees his own updates at both sites, and never an
older state than before. 202 says that an update stands and waits for a site: ask for it by its number, and do not send it again. PORT 0 is
one that is free; the first line tells which. SIGTERM ends the service. Then FOLDER gets the record of each site, for `ordup check`.
"""

import json
import signal
import sys
import threading
from http.server import BaseHTTPRequestHandler, ThreadingHTTPServer
from pathlib import Path
from typing import Any, Dict, Iterator, List, Tuple
from urllib.parse import parse_qs, urlsplit

from ordup import Behind, Cluster, NotYet, Refused, Scope, Session, Site, Stopped, Unmet, add, at_least

SECONDS = 1.0  # the most that a request waits for a site
UNKNOWN = ("UnknownObject", "UnknownSite")
Answer = Tuple[int, Dict[str, Any]]

# The north misses at most 20 acknowledged updates, and the sales that it has not heard of are at most 10 bags. The south may lag.
cluster = Cluster(objects={"tea": 100, "sold": 0}, sites={"north": Site(64, {"count": 20, ("object", "tea"): 10}), "south": Site(256)})


def words_of(scope: Scope) -> str:
    return scope if isinstance(scope, str) else ":".join(scope)


def sell(session: Session, name: str, bags: int) -> Answer:
    number = cluster.propose(session, {name: add(-bags), "sold": add(bags)}, SECONDS, [at_least(name, 0)])
    return 201, {"number": number}


def deliver(session: Session, name: str, bags: int) -> Answer:
    return 201, {"number": cluster.propose(session, {name: add(bags)}, SECONDS)}


def stock(session: Session, site: str, name: str) -> Answer:
    acknowledged = cluster.numbers().acknowledged
    value, applied = cluster.read(session, site, name, SECONDS if session.seen else 0)
    lags = {words_of(lag.scope): {"is": lag.weight, "at_most": lag.amount} for lag in cluster.lags(site)}
    return 200, {"value": value, "applied": applied, "missing_updates": max(0, acknowledged - applied), "lags": lags}


def route(method: str, words: List[str], session: Session) -> Answer:
    if method == "POST" and len(words) == 3 and words[0] in ("sales", "deliveries") and words[2].isdecimal():
        return (sell if words[0] == "sales" else deliver)(session, words[1], int(words[2]))
    if method == "GET" and len(words) == 2 and words[0] == "updates":
        cluster.settle(session, int(words[1]), SECONDS)
        return 200, {"number": int(words[1])}
    if method == "GET" and len(words) == 3 and words[0] == "stock":
        return stock(session, *words[1:])
    return 200 if words == ["healthz"] else 404, {}


def metrics() -> Iterator[str]:
    """The live numbers in the text form of Prometheus."""
    numbers = cluster.numbers()
    rows = {"log_updates": [("", numbers.length)], "acknowledged_updates": [("", numbers.acknowledged)]}
    for site in cluster.sites:
        it = cluster.site_numbers(site)
        for name, value in (("sent_updates", it.sent), ("applied_updates", it.applied), ("reported_updates", it.reported),
                            ("rounds_total", it.rounds)):
            rows.setdefault(f"site_{name}", []).append((f'{{site="{site}"}}', value))
        for lag in cluster.lags(site):
            for name, value in (("lag", lag.weight), ("limit", lag.amount)):
                rows.setdefault(f"site_{name}", []).append((f'{{site="{site}",scope="{words_of(lag.scope)}"}}', value))
    for name, values in rows.items():
        yield f"# TYPE ordup_{name} {'counter' if name.endswith('_total') else 'gauge'}\n"
        yield from (f"ordup_{name}{labels} {value}\n" for labels, value in values)


class Handler(BaseHTTPRequestHandler):
    protocol_version = "HTTP/1.1"

    def do_GET(self) -> None:
        asked = urlsplit(self.path)
        if asked.path == "/metrics":
            return self.tell(200, "".join(metrics()), "text/plain; version=0.0.4")
        try:
            session = Session(int(parse_qs(asked.query).get("seen", ["0"])[0]))
            status, said = route(self.command, asked.path.strip("/").split("/"), session)
            said["seen"] = session.seen
        except NotYet as late:
            status, said = 202, {"number": late.number}
        except Unmet as unmet:
            status, said = 409, {"error": str(unmet)}
        except (Behind, Stopped, MemoryError) as why:
            status, said = 503, {"error": str(why)}
        except (Refused, ValueError) as why:
            status, said = 404 if isinstance(why, Refused) and why.name in UNKNOWN else 400, {"error": str(why)}
        self.tell(status, json.dumps(said) + "\n", "application/json")

    do_POST = do_GET

    def tell(self, status: int, text: str, kind: str) -> None:
        self.send_response(status)
        self.send_header("Content-Type", kind)
        self.send_header("Content-Length", str(len(text)))
        self.end_headers()
        self.wfile.write(text.encode("ascii"))

    def log_message(self, format: str, *words: Any) -> None:
        pass


def main(words: List[str]) -> None:
    server = ThreadingHTTPServer(("127.0.0.1", int(words[0])), Handler)
    signal.signal(signal.SIGTERM, lambda *_: threading.Thread(target=server.shutdown).start())
    with cluster:
        print(f"http://127.0.0.1:{server.server_address[1]}", flush=True)
        server.serve_forever()
        server.server_close()
        cluster.finish(SECONDS)
    if len(words) > 1:
        for site, record in cluster.close().records().items():
            Path(words[1], f"{site}.record").write_bytes(record)


if __name__ == "__main__":
    main(sys.argv[1:])
