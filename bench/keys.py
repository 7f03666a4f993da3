#!/usr/bin/env python3
"""Times small changes under a join and a group, by the number of rows held and of rows with the changed key.

    bench/keys.py [PROGRAM]

PROGRAM is the built program. Without it, the script ./wpinq of this repository is run, which builds the
program first. Each line is one run: a source gets its rows in one update, and a plan is declared on it. The first
change afterwards gives back the memory that the plan was built in, so 50 changes go before. Then 500 updates of one
record each, of rows all over the source, are timed from the first that is sent to the last reply.
"""

import json
import pathlib
import random
import subprocess
import sys
import time

UNTIMED = 50
CHANGES = 500
MAX_LINE = 1_048_576  # the most bytes of a line


def request(**fields):
    return json.dumps(fields, separators=(",", ":")).encode() + b"\n"


def update(source, rows):
    return request(op="update", source=source, csv="".join(f"{row},1\n" for row in rows))


def by(size):
    """A key that so many rows of the source have."""
    return [{"call": "div", "args": [{"col": 0}, {"int": size}]}]


def join_with_itself(size):
    return [{"do": "join", "left": 0, "right": 0, "left_key": by(size), "right_key": by(size)}]


def join_with_one(size):
    other = {"do": "source", "name": "b"}
    return [other, {"do": "join", "left": 0, "right": 1, "left_key": by(size), "right_key": [{"col": 0}]}]


def group(size):
    return [{"do": "group", "of": 0, "key": by(size), "reduce": {"fn": "count"}}]


# what is run: its name, its steps by the rows of a key, the rows of a key, the rows held
RUNS = (
    ("join of 4 by 4", join_with_itself, 4, 1_000),
    ("join of 4 by 4", join_with_itself, 4, 100_000),
    ("group of 4", group, 4, 1_000),
    ("group of 4", group, 4, 100_000),
    ("join of 1,000 by 1", join_with_one, 1_000, 1_000),
    ("group of 1,000", group, 1_000, 1_000),
)


def ask(server, lines):
    """Sends the lines and reads as many replies, which all have to be accepted."""
    # The replies are few enough to wait in the pipe until all lines are sent.
    server.stdin.write(b"".join(lines))
    server.stdin.flush()
    for _ in lines:
        reply = server.stdout.readline()
        if not reply or not json.loads(reply)["ok"]:
            sys.exit(f"the program answered {reply.decode()!r}")


def time_changes(program, steps, size, held):
    """How many seconds the changes take."""
    chosen = random.Random(held)
    start = [request(op="source", name=name, kinds=["int"], signed=False, budget=0) for name in ("a", "b")]
    start.append(update("a", range(held)))
    if steps is join_with_one:
        start.append(update("b", range(held // size)))
    whole = [{"do": "source", "name": "a"}] + steps(size)
    start.append(request(op="plan", name="p", plan={"format": 1, "steps": whole}))
    changes = [update("a", [chosen.randrange(held)]) for _ in range(UNTIMED + CHANGES)]
    assert max(map(len, start + changes)) <= MAX_LINE
    with subprocess.Popen([program], stdin=subprocess.PIPE, stdout=subprocess.PIPE) as server:
        ask(server, start)
        ask(server, changes[:UNTIMED])
        begun = time.perf_counter()
        ask(server, changes[UNTIMED:])
        return time.perf_counter() - begun


def main():
    top = pathlib.Path(__file__).resolve().parent.parent
    program = sys.argv[1] if len(sys.argv) > 1 else str(top / "wpinq")
    for name, steps, size, held in RUNS:
        each = time_changes(program, steps, size, held) / CHANGES * 1e6
        print(f"{name:<20} {held:>9,} rows held: {each:>9,.0f} microseconds a change")


if __name__ == "__main__":
    main()
