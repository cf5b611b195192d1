#!/usr/bin/python3
"""A link with a delay and loss, between two taps that it makes: link.py TAP TAP MS PERCENT [KBITS]

With KBITS each way carries so many kbit a second, and drops what would wait for more than half a second.

It stands in for `tc netem` where the kernel does not have that.
"""

import fcntl
import heapq
import os
import random
import select
import struct
import sys
import time

TUNSETIFF, IFF_TAP, IFF_NO_PI = 0x400454CA, 0x0002, 0x1000


def tap(name: str) -> int:
    file = os.open("/dev/net/tun", os.O_RDWR | os.O_NONBLOCK)
    fcntl.ioctl(file, TUNSETIFF, struct.pack("16sH22x", name.encode(), IFF_TAP | IFF_NO_PI))
    return file


def main() -> None:
    one, other = tap(sys.argv[1]), tap(sys.argv[2])
    delay, loss = float(sys.argv[3]) / 1000, float(sys.argv[4]) / 100
    # What a frame of one byte takes, and until when the frames that came from each side take.
    byte, until = 8 / 1000 / float(sys.argv[5]) if len(sys.argv) > 5 else 0, {one: 0.0, other: 0.0}
    to, order = {one: other, other: one}, 0
    late: list[tuple[float, int, int, bytes]] = []
    while True:
        wait = max(0, late[0][0] - time.monotonic()) if late else None
        for file in select.select([one, other], [], [], wait)[0]:
            frame, order, now = os.read(file, 65536), order + 1, time.monotonic()
            if random.random() >= loss and until[file] <= now + 0.5:
                until[file] = max(now, until[file]) + byte * len(frame)
                heapq.heappush(late, (until[file] + delay, order, to[file], frame))
        while late and late[0][0] <= time.monotonic():
            _, _, file, frame = heapq.heappop(late)
            try:
                os.write(file, frame)
            except OSError:
                pass  # The tap is down, so the frame is lost.


if __name__ == "__main__":
    main()
