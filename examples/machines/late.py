#!/usr/bin/python3
"""A road to a member of the engine, on which what a process says may come late: late.py FROM TO MS SECONDS

It listens at FROM, as 10.77.0.1:2399, and each way takes so many ms. At SIGUSR1 what is said from then on by connections that are open
comes so many seconds late, also if the process leaves its connection meanwhile. Those that are opened later carry as before.
"""

import selectors
import signal
import socket
import sys
import time
from collections import deque


class Way:
    """One direction of a connection."""

    def __init__(self, near: socket.socket, far: socket.socket, usual: float, most: float) -> None:
        # By how much what is said comes later, usually, once that is wanted, and now.
        self.near, self.far, self.most, self.late = near, far, most, usual
        # What was said, with when it arrives. Nothing is said after an empty piece.
        self.said: deque[tuple[float, bytes]] = deque()

    def take(self) -> bool:
        """Whether there may be more."""
        try:
            piece = self.near.recv(65536)
        except OSError:
            piece = b""
        self.said.append((time.monotonic() + self.late, piece))
        return bool(piece)

    def carry(self) -> None:
        while self.said and self.said[0][0] <= time.monotonic():
            _, piece = self.said.popleft()
            try:
                self.far.sendall(piece) if piece else self.far.shutdown(socket.SHUT_WR)
            except OSError:
                pass  # The other end has left.


def address(words: str) -> tuple[str, int]:
    host, _, port = words.partition(":")
    return host, int(port)


def main() -> None:
    usual, late, ready = float(sys.argv[3]) / 1000, float(sys.argv[4]), selectors.DefaultSelector()
    ways: list[Way] = []
    listener = socket.create_server(address(sys.argv[1]))
    ready.register(listener, selectors.EVENT_READ)

    def hold(*_: object) -> None:
        for way in ways:
            way.late = way.most

    signal.signal(signal.SIGUSR1, hold)
    while True:
        for key, _ in ready.select(0.001):
            if key.fileobj is listener:
                near = listener.accept()[0]
                far = socket.create_connection(address(sys.argv[2]))
                # What the member says is never late.
                for one, other, most in ((near, far, late), (far, near, usual)):
                    ways.append(Way(one, other, usual, most))
                    ready.register(one, selectors.EVENT_READ, ways[-1])
            elif not key.data.take():
                ready.unregister(key.fileobj)
        for way in ways:
            way.carry()


if __name__ == "__main__":
    main()
