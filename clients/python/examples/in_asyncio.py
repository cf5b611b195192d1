#!/usr/bin/env python3
"""A cluster in a program of asyncio: a call that may wait runs in a thread, by `asyncio.to_thread`, and the loop goes on meanwhile.

A session has one call at a time, so each task has its own. Give such a call a time limit: a task that is cancelled leaves its thread to
wait until then, or until the cluster is stopped. A read of what the site has now waits for nothing, and needs no thread.
"""

import asyncio
from typing import List

from ordup import Cluster, NotYet, Session, Site, add

SALES = 10


async def sell(cluster: Cluster) -> int:
    """Sells some bags, one after another, and returns how many it sees then to be left in the shop."""
    session = Session()
    for _ in range(SALES):
        try:
            await asyncio.to_thread(cluster.propose, session, {"tea": add(-1)}, timeout=5.0)
        except NotYet as late:  # it stands
            await asyncio.to_thread(cluster.settle, session, late.number)
    seen = await asyncio.to_thread(cluster.read_when_level, session, "shop", "tea", timeout=5.0)
    return seen.value


async def main(clerks: int = 8) -> List[int]:
    with Cluster(objects={"tea": 1_000}, sites={"shop": Site(64, {"all": 5}), "yard": 64}) as cluster:
        seen = await asyncio.gather(*(sell(cluster) for _ in range(clerks)))
        await asyncio.to_thread(cluster.finish, 5.0)
        print(cluster.read(Session(), "shop", "tea").value, "bags are left")
    return seen


if __name__ == "__main__":
    asyncio.run(main())
