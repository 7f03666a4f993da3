#!/usr/bin/env python3
"""Times small updates of one source at several numbers of rows held, without and with a plan on them.

    bench/updates.py [PROGRAM]

PROGRAM is the built program. Without it, the script ./wpinq of this repository is run, which builds the
program first. Each size is two runs: one update loads the rows, and then 1,000 updates of 10 records each,
spread over those rows, are timed from the first that is sent to the last reply. In the second run a plan that
keeps half of the rows and adds up those of the same tens is kept up to date all the while.
"""

import json
import pathlib
import random
import subprocess
import sys
import time

SIZES = (1_000, 10_000, 100_000)
UPDATES = 1_000
RECORDS = 10
MAX_LINE = 1_048_576  # the most bytes of a line


def call(name, by):
    """The expression that applies a primitive to the one column and a number."""
    return {"call": name, "args": [{"col": 0}, {"int": by}]}


# Keeps the odd rows, and selects of each the number of tens.
STEPS = [
    {"do": "source", "name": "a"},
    {"do": "where", "of": 0, "if": call("mod", 2)},
    {"do": "select", "of": 1, "row": [call("div", 10)]},
]
PLAN = {"format": 1, "steps": STEPS}


def request(**fields):
    return json.dumps(fields, separators=(",", ":")).encode() + b"\n"


def update(rows):
    return request(op="update", source="a", csv="".join(f"{row},1\n" for row in rows))


def ask(server, lines, wanted):
    """Sends the lines and reads as many replies, which all have to be the wanted one."""
    # The replies are few enough to wait in the pipe until all lines are sent.
    server.stdin.write(b"".join(lines))
    server.stdin.flush()
    for _ in lines:
        reply = server.stdout.readline()
        if not reply or json.loads(reply) != wanted:
            sys.exit(f"wanted {wanted}, and the program answered {reply.decode()!r}")


def time_updates(program, held, planned):
    """How many seconds the updates take with so many rows held, and a plan on them where that is asked for."""
    chosen = random.Random(held)
    source = request(op="source", name="a", kinds=["int"], signed=False, budget=0)
    plan = request(op="plan", name="p", plan=PLAN)
    load = update(range(held))
    updates = [update(chosen.sample(range(held), RECORDS)) for _ in range(UPDATES)]
    assert len(load) <= MAX_LINE
    with subprocess.Popen([program], stdin=subprocess.PIPE, stdout=subprocess.PIPE) as server:
        ask(server, [source], {"ok": True})
        if planned:
            ask(server, [plan], {"ok": True, "cols": ["int"], "uses": [["a", 1]]})
        ask(server, [load], {"ok": True, "records": held})
        begun = time.perf_counter()
        ask(server, updates, {"ok": True, "records": RECORDS})
        return time.perf_counter() - begun


def main():
    top = pathlib.Path(__file__).resolve().parent.parent
    program = sys.argv[1] if len(sys.argv) > 1 else str(top / "wpinq")
    for held in SIZES:
        alone = UPDATES / time_updates(program, held, False)
        planned = UPDATES / time_updates(program, held, True)
        print(f"{held:>7,} rows held: {alone:>9,.0f} updates a second, {planned:>9,.0f} with a plan")


if __name__ == "__main__":
    main()
