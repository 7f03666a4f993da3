#!/usr/bin/env python3
"""Times the load of a file of about 16 MB, and measures the memory that its rows take, and that a refused load leaves.

    bench/load.py [PROGRAM]

PROGRAM is the built program. Without it, the script ./wpinq of this repository is run, which builds the program
first. Each case is a run of its own: a source of rows of one or two integers or of a text, without and with a plan on it that
selects the first column. The seconds are those from the request to its reply, and the bytes are what the program's memory grew by
in that time, both by the number of rows of the file, which are all distinct. The last line is of a file that is refused at its
last record: the memory before, at most and afterwards.
"""

import json
import pathlib
import subprocess
import sys
import tempfile
import time

FILE_LIMIT = 16_777_216  # the most bytes of a file that is loaded

# The kinds of the columns, and the record of a row.
SHAPES = {
    "one integer": (["int"], "{0},1\n"),
    "two integers": (["int", "int"], "{0},{1},1\n"),
    "a text": (["text"], "name-{0:09},1\n"),
}
PLAN = {"format": 1, "steps": [{"do": "source", "name": "a"}, {"do": "select", "of": 0, "row": [{"col": 0}]}]}


def request(**fields):
    return json.dumps(fields, separators=(",", ":")).encode() + b"\n"


def write_file(path, record):
    """Writes as many records of distinct rows as a file may have, and gives their number."""
    length = count = 0
    with open(path, "w", encoding="ascii") as file:
        while length + len(line := record.format(count, count * 7 % 1000)) <= FILE_LIMIT:
            length += file.write(line)
            count += 1
    return count


def ask(server, line, accepted=True):
    server.stdin.write(line)
    server.stdin.flush()
    reply = json.loads(server.stdout.readline())
    if reply["ok"] != accepted:
        sys.exit(f"the program answered {reply}")
    return reply


def memory_of(server, what="VmRSS"):
    """The bytes of memory that the program has, or that it had at most."""
    lines = pathlib.Path(f"/proc/{server.pid}/status").read_text().splitlines()
    return next(1024 * int(line.split()[1]) for line in lines if line.startswith(f"{what}:"))


def time_load(program, folder, kinds, planned):
    """The seconds that the load takes, the bytes that the memory grew by, and the number of records."""
    with subprocess.Popen([program], cwd=folder, stdin=subprocess.PIPE, stdout=subprocess.PIPE) as server:
        ask(server, request(op="source", name="a", kinds=kinds, signed=False, budget=0))
        if planned:
            ask(server, request(op="plan", name="p", plan=PLAN))
        before = memory_of(server)
        begun = time.perf_counter()
        records = ask(server, request(op="load", source="a", path="rows.csv"))["records"]
        seconds = time.perf_counter() - begun
        grown = memory_of(server) - before
        server.stdin.close()
    return seconds, grown, records


def measure_refused(program, folder):
    """Loads a file that is refused at its last record three times. The bytes of memory before, at most and afterwards."""
    path = pathlib.Path(folder) / "rows.csv"
    kinds, record = SHAPES["one integer"]
    count = write_file(path, record)
    with open(path, "r+b") as file:
        file.seek(-2, 2)
        file.write(b"x")  # the weight of the last record
    with subprocess.Popen([program], cwd=folder, stdin=subprocess.PIPE, stdout=subprocess.PIPE) as server:
        ask(server, request(op="source", name="a", kinds=kinds, signed=False, budget=0))
        before = memory_of(server)
        for _ in range(3):
            reply = ask(server, request(op="load", source="a", path="rows.csv"), accepted=False)
            if reply != {"ok": False, "why": "csv", "what": "weight", "record": count - 1}:
                sys.exit(f"the program answered {reply}")
        most, after = memory_of(server, "VmHWM"), memory_of(server)
        server.stdin.close()
    return before, most, after


def main():
    top = pathlib.Path(__file__).resolve().parent.parent
    program = str(pathlib.Path(sys.argv[1] if len(sys.argv) > 1 else top / "wpinq").resolve())
    subprocess.run([program], stdin=subprocess.DEVNULL, check=True)
    with tempfile.TemporaryDirectory() as folder:
        for shape, (kinds, record) in SHAPES.items():
            count = write_file(pathlib.Path(folder) / "rows.csv", record)
            for planned in (False, True):
                seconds, grown, records = time_load(program, folder, kinds, planned)
                if records != count:
                    sys.exit(f"wanted {count} records, and the program read {records}")
                with_plan = "with a plan" if planned else "no plan"
                print(f"{shape}, {with_plan}: {count:,} rows, {count / seconds:,.0f} rows a second, {grown / count:,.0f} bytes a row")
        before, most, after = (amount / 1e6 for amount in measure_refused(program, folder))
        print(f"refused at its last record: {before:.1f} MB before, {most:.1f} MB at most, {after:.1f} MB afterwards")


if __name__ == "__main__":
    main()
