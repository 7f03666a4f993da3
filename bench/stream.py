#!/usr/bin/env python3
"""Measures the memory of a run that reads 100 MB of short lines.

    bench/stream.py [PROGRAM]

PROGRAM is the built program. Without it, the script ./wpinq of this repository is run, which builds the program
first. The lines add a row to a source that has a plan, look at it, and take it out again. The memory that the program has is
told after the first megabyte of lines and at the end.
"""

import pathlib
import subprocess
import sys
import threading

MEGABYTE = 1_000_000
LENGTH = 100 * MEGABYTE

OPENING = b"""{"op":"source","name":"a","kinds":["int"],"signed":false,"budget":0}
{"op":"plan","name":"p","plan":{"format":1,"steps":[{"do":"source","name":"a"},{"do":"select","of":0,"row":[{"col":0}]}]}}
"""
TURN = b"""{"op":"update","source":"a","csv":"5,1"}
{"op":"exact","plan":"p","rows":[[5]]}
{"op":"update","source":"a","csv":"5,-1"}
"""


def memory_of(server):
    """The bytes of memory that the program has."""
    lines = pathlib.Path(f"/proc/{server.pid}/status").read_text().splitlines()
    return next(1024 * int(line.split()[1]) for line in lines if line.startswith("VmRSS:"))


def main():
    top = pathlib.Path(__file__).resolve().parent.parent
    program = str(pathlib.Path(sys.argv[1] if len(sys.argv) > 1 else top / "wpinq").resolve())
    subprocess.run([program], stdin=subprocess.DEVNULL, check=True)
    turns = MEGABYTE // len(TURN)
    with subprocess.Popen([program, "--curator"], stdin=subprocess.PIPE, stdout=subprocess.PIPE) as server:
        server.stdin.write(OPENING)
        server.stdin.flush()
        for _ in range(2):
            server.stdout.readline()
        done = 0
        while done < LENGTH:
            sender = threading.Thread(target=lambda: (server.stdin.write(TURN * turns), server.stdin.flush()))
            sender.start()
            for _ in range(turns):
                replies = [server.stdout.readline() for _ in range(3)]
                if replies != [b'{"ok":true,"records":1}\n', b'{"ok":true,"weights":["1"]}\n', b'{"ok":true,"records":1}\n']:
                    sys.exit(f"the program answered {replies}")
            sender.join()
            if done == 0:
                print(f"after the first megabyte: {memory_of(server) // 1024:,} KiB", flush=True)
            done += len(TURN) * turns
        print(f"after {done / MEGABYTE:.0f} MB: {memory_of(server) // 1024:,} KiB")
        server.stdin.close()
        sys.exit(server.wait())


if __name__ == "__main__":
    main()
