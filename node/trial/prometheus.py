"""Prometheus over the deployment of the trial, with the alerts that operators have of it."""

import json
import re
import time
import urllib.error
import urllib.parse
import urllib.request
from pathlib import Path
from typing import Any

from addresses import FLEET, PRIMARIES, SITES, USERS, address_of
from clients import PORT
from deployment import Deployment
from safety import Safety

RULES = Path(__file__).resolve().parents[1] / "prometheus/ordup-node.rules.yml"
ADDRESS = "127.0.0.1:9090"
# The time for which a rule waits is shorter here by so much, and so is the log that is too long. For how long it looks back, and what it
# compares a number of seconds with, are as they are.
SHORTER, LESS = 10, 250
LONG_LOG = 500_000
SECONDS = {"s": 1, "m": 60}
WAITS = re.compile(r"(?<=for: )(\d+)([sm])$", re.M)


def shorter(found: re.Match[str]) -> str:
    return f"{int(found[1]) * SECONDS[found[2]] * 1000 // SHORTER}ms"


def scaled(rules: str) -> str:
    """The rules for a trial that has minutes."""
    return WAITS.sub(shorter, rules).replace(f" > {LONG_LOG}\n", f" > {LONG_LOG // LESS}\n")


def alerts_of(rules: str) -> list[str]:
    return re.findall(r"^      - alert: (\w+)$", rules, re.M)


class Prometheus:
    """It runs beside the users, and asks each process once a second."""

    def __init__(self, deployment: Deployment, safety: Safety | None) -> None:
        self.alerts = alerts_of(RULES.read_text())
        folder = deployment.folder / "prometheus"
        folder.mkdir()
        (folder / "rules.yml").write_text(scaled(RULES.read_text()))
        targets = [f"{address_of(name)}:{PORT}" for name in (*PRIMARIES, *SITES, FLEET)]
        job: dict[str, Any] = {"job_name": "ordup-node", "static_configs": [{"targets": targets}]}
        if safety:
            job |= {"scheme": "https", "tls_config": {"ca_file": safety.authority},
                    "authorization": {"credentials": safety.tokens["operator"]}}
        often = {"scrape_interval": "1s", "scrape_timeout": "1s", "evaluation_interval": "1s"}
        config = {"global": often, "rule_files": [str(folder / "rules.yml")], "scrape_configs": [job]}
        (folder / "config.yml").write_text(json.dumps(config))
        words = ["prometheus", f"--config.file={folder / 'config.yml'}", f"--storage.tsdb.path={folder / 'data'}",
                 f"--web.listen-address={ADDRESS}", "--log.level=warn"]
        deployment.others.append(deployment.begin(USERS, words))

    def ask(self, path: str, **words: str) -> Any:
        """The data of an answer, or nothing while it does not answer."""
        try:
            with urllib.request.urlopen(f"http://{ADDRESS}/api/v1/{path}?{urllib.parse.urlencode(words)}", timeout=5) as answer:
                return json.load(answer)["data"]
        except (OSError, ValueError, urllib.error.HTTPError):
            return None

    def now(self, also_pending: bool = False) -> set[str] | None:
        """The alerts that fire, and those that are about to where these are wanted too."""
        if (told := self.ask("alerts")) is None:
            return None
        return {alert["labels"]["alertname"] for alert in told["alerts"] if also_pending or alert["state"] == "firing"}

    def since(self, began: float) -> set[str]:
        """The alerts that have fired since a time."""
        seconds = int(time.monotonic() - began) + 1
        query = f'group by(alertname) (count_over_time(ALERTS{{alertstate="firing"}}[{seconds}s]))'
        told = self.ask("query", query=query) or {"result": []}
        return {sample["metric"]["alertname"] for sample in told["result"]}

    def sees_all(self) -> bool:
        """Whether it has asked each process."""
        told = self.ask("query", query="up")
        return bool(told) and [sample["value"][1] for sample in told["result"]] == ["1"] * (len(PRIMARIES) + len(SITES) + 1)
