"""measure.py FILE LINES [PROGRAM]: runs the lines of a file, so many by each call, in the process or behind the pipe of a program.
Writes the answers, and on standard error the seconds that the calls took."""

import sys
import time

import ordup

lines, at_once = open(sys.argv[1], "rb").read().splitlines(keepends=True), int(sys.argv[2])
store, answers = ordup.Store(*sys.argv[3:]), []
start = time.perf_counter()
for index in range(0, len(lines), at_once):
    answers.append(store.run(b"".join(lines[index : index + at_once])))
print(f"{time.perf_counter() - start:.6f}", file=sys.stderr)
store.close()
sys.stdout.buffer.write(b"".join(answers))
