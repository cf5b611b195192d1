"""Tests of the examples: of the page, of asyncio, and of a service over HTTP, under a small load."""

import asyncio
import contextlib
import importlib.util
import json
import os
import re
import signal
import subprocess
import sys
import tempfile
import unittest
import urllib.error
import urllib.request
from concurrent.futures import ThreadPoolExecutor
from pathlib import Path
from unittest import mock

from cluster_cases import HERE, SOON, ClusterCase
from ordup import InUse, Session, add


class Page(ClusterCase):
    def test_the_example_of_the_page(self):
        page = (HERE / "README.md").read_text(encoding="utf-8")
        given = {}
        with mock.patch("builtins.print") as told:
            exec(re.search(r"^```python\n(.*?)^```$", page, re.M | re.S)[1], given)
        numbers, site_numbers, lags = told.call_args[0]
        self.assertEqual((given["value"], given["applied"], numbers), (37, 1, (0, 1, 1)))
        self.assertEqual((site_numbers.applied, lags[0][:2]), (1, ("all", 10)))
        self.audited(given["records"]["shop"])


class Asyncio(ClusterCase):
    def example(self, name):
        spec = importlib.util.spec_from_file_location(name, HERE / "examples" / f"{name}.py")
        module = importlib.util.module_from_spec(spec)
        spec.loader.exec_module(module)
        return module

    @unittest.skipIf(sys.version_info < (3, 9), "asyncio.to_thread, which came with Python 3.9")
    def test_the_example(self):
        with mock.patch("builtins.print") as told, self.soon():
            seen = asyncio.run(self.example("in_asyncio").main(8))
        told.assert_called_once_with(920, "bags are left")
        self.assertEqual(len(seen), 8)
        self.assertEqual(min(seen), 920)

    @unittest.skipIf(sys.version_info < (3, 9), "asyncio.to_thread, which came with Python 3.9")
    def test_the_loop_goes_on_while_a_call_waits(self):
        async def main():
            cluster, session, turns = self.forced(), Session(), 0
            waiting = asyncio.create_task(asyncio.to_thread(cluster.propose, session, {"n": add(1)}, 10.0))
            while cluster.numbers().length == 0 or turns < 50:
                turns += 1
                await asyncio.sleep(0.002)
            self.assertFalse(waiting.done())
            with self.assertRaises(InUse):
                await asyncio.to_thread(cluster.read, session, "south", "n")
            with cluster:
                self.assertEqual(await waiting, 1)

        with self.soon():
            asyncio.run(main())


class Service(ClusterCase):
    """The example of a service over HTTP, under a small load."""

    def ask(self, method, path):
        """The status and what was said."""
        try:
            with urllib.request.urlopen(urllib.request.Request(self.at + path, method=method), timeout=2 * SOON) as answer:
                return answer.status, answer.read().decode()
        except urllib.error.HTTPError as why:
            return why.code, why.read().decode()

    def told(self, method, path):
        status, text = self.ask(method, path)
        return status, json.loads(text)

    @contextlib.contextmanager
    def served(self, folder):
        words = [sys.executable, HERE / "examples/stock_service.py", "0", folder]
        around = {**os.environ, "PYTHONPATH": str(HERE), "PYTHONDONTWRITEBYTECODE": "1"}
        with subprocess.Popen([str(word) for word in words], stdout=subprocess.PIPE, env=around) as process:
            try:
                self.at = process.stdout.readline().decode().strip()
                yield
                process.send_signal(signal.SIGTERM)
                self.assertEqual(process.wait(2 * SOON), 0)
            finally:
                process.kill()

    def test_under_a_small_load(self):
        clients, requests = 4, 50

        def work(client):
            seen = sold = 0
            for number in range(requests):
                status, said = self.told("POST", f"/sales/tea/1?seen={seen}")
                while status == 202:
                    seen, (status, said) = said["number"], self.told("GET", f"/updates/{said['number']}")
                self.assertIn(status, (200, 201, 409))
                if status != 409:
                    sold, seen = sold + 1, said["seen"]
                    self.assertGreaterEqual(seen, said["number"])
                site = ("north", "south")[number % 2]
                status, said = self.told("GET", f"/stock/{site}/tea?seen={seen}")
                self.assertEqual(status, 200)
                self.assertGreaterEqual(said["applied"], seen)
                self.assertLessEqual(said["value"], 300 - sold)
                self.assertGreaterEqual(said["missing_updates"], 0)
                seen = said["seen"]
            return sold

        with tempfile.TemporaryDirectory() as folder:
            with self.served(folder):
                self.assertEqual(self.ask("GET", "/healthz")[0], 200)
                self.assertEqual(self.told("GET", "/stock/north/tea")[1]["value"], 100)
                self.assertEqual(self.told("POST", "/deliveries/tea/200"), (201, {"number": 1, "seen": 1}))
                with ThreadPoolExecutor(clients) as pool:
                    sold = sum(it.result() for it in [pool.submit(work, it) for it in range(clients)])
                self.assertEqual(sold, clients * requests)
                last = json.loads(self.ask("GET", f"/updates/{sold + 1}")[1])["seen"]
                for site in ("north", "south"):
                    self.assertEqual(self.told("GET", f"/stock/{site}/tea?seen={last}")[1]["value"], 300 - sold)
                for path, status in (("/stock/west/tea", 404), ("/stock/north/coffee", 404), ("/nothing", 404), ("/updates/x", 400),
                                     ("/updates/9999", 400), ("/stock/north/tea?seen=x", 400), ("/stock/south/tea?seen=9999", 503)):
                    self.assertEqual(self.ask("GET", path)[0], status, path)
                self.assertEqual(self.ask("POST", "/sales/coffee/1")[0], 404)
                status, text = self.ask("GET", "/metrics")
                self.assertEqual(status, 200)
                rows = [line for line in text.splitlines() if not line.startswith("#")]
                for row in rows:
                    self.assertRegex(row, r'^[a-z_]+(\{[a-z]+="[a-z:]+"(,[a-z]+="[a-z:]+")*\})? [0-9]+$')
                self.assertEqual(len(rows), len(set(rows)))
                self.assertIn(f"ordup_log_updates {sold + 1}", rows)
                self.assertIn(f"ordup_acknowledged_updates {sold + 1}", rows)
                self.assertIn(f'ordup_site_sent_updates{{site="south"}} {sold + 1}', rows)
                self.assertIn('ordup_site_limit{site="north",scope="count"} 20', rows)
                self.assertIn("# TYPE ordup_site_rounds_total counter", text)
            for site in ("north", "south"):
                record = Path(folder, f"{site}.record").read_bytes()
                self.assertGreater(record.count(b"change,"), sold)
                self.audited(record)

    def test_no_bag_is_sold_twice(self):
        with tempfile.TemporaryDirectory() as folder, self.served(folder), ThreadPoolExecutor(8) as pool:
            statuses = [it.result()[0] for it in [pool.submit(self.ask, "POST", "/sales/tea/3") for _ in range(50)]]
            self.assertEqual(statuses.count(409), 50 - 33)
            self.assertEqual(self.told("GET", "/stock/north/tea?seen=33")[1]["value"], 1)
