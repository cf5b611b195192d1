#!/usr/bin/env python3
"""Asks for an update until there is an answer: update.py [--patience SECONDS] PRIMARY,.. CLIENT NUMBER CHANGE..

PRIMARY is as http://10.0.0.1:7002. It is asked again under the same number, so it is done once. The answer is printed as it came. The
status is 0 where the update is done, 2 where it is refused or can never be done so, and 1 where there was no answer in the seconds of
--patience, by default 60: then it may be done or not. clients/python/ordup_node.py is the client that asks.
"""

import argparse
import dataclasses
import json
import sys
from pathlib import Path

sys.path.insert(0, str(Path(__file__).resolve().parents[2] / "clients/python"))

from ordup_node import Deployment, Error, NoAnswer


def main() -> int:
    words = argparse.ArgumentParser(description="Asks for an update until there is an answer.")
    words.add_argument("--patience", type=float, default=60, metavar="SECONDS", help="for which it is asked again (60)")
    words.add_argument("primaries", metavar="PRIMARY,..", help="as http://10.0.0.1:7002")
    words.add_argument("client", metavar="CLIENT")
    words.add_argument("number", metavar="NUMBER", type=int)
    words.add_argument("changes", metavar="CHANGE", nargs="+", help="as add:tea:-5")
    given = words.parse_args()
    deployment = Deployment(given.primaries.split(","), given.client, timeout=given.patience)
    try:
        print(json.dumps(dataclasses.asdict(deployment.update(given.changes, given.number))))
    except Error as error:
        print(json.dumps(error.told))
        return 2
    except NoAnswer as error:
        if isinstance(error.last, Error):
            print(json.dumps(error.last.told))
        print("there is no answer yet", file=sys.stderr)
        return 1
    return 0


if __name__ == "__main__":
    sys.exit(main())
