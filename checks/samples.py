"""The scripts and records with which checks of the program begin, each of bytes."""

from __future__ import annotations


def lines(*texts: str) -> bytes:
    return "".join(text + "\n" for text in texts).encode()


# The first update is within the limit, the second is not: it waits until the site has reported it.
SCRIPT = lines(
    "object x 0", "object y 10", "site a 4", "limit a object x 5", "start", "propose add:x:5", "settle", "propose add:x:1",
    "settle", "settle", "send a", "send a", "apply a", "report a", "settle", "apply a", "report a", "settle", "certify a",
)
RECORD = lines(
    "ordup,1,a,2", "object,1,x,0", "object,2,y,10", "limit,1,object:x,5", "change,1,1,add:x:5", "change,2,1,add:x:1",
    "round,1,2,-", "window,1,0,2",
)
# The record of the store that goes on: nothing of x moves, and the site had reported both updates.
NEXT_RECORD = lines("ordup,1,a,1", "object,1,x,6", "object,2,y,10", "limit,1,object:x,5", "change,1,1,add:y:2")
FIRST_SCRIPT = lines("object x 0", "site a 4", "start", "propose add:x:5", "send a", "apply a", "show a")
