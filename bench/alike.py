#!/usr/bin/env python3
"""Runs two programs over the same random sessions, and compares their replies line by line.

    bench/alike.py ONE OTHER [--sessions N] [--seed N]

Each session declares three sources and some plans of all operators on them, and then updates, asks and drops at random; some
of its lines are refused. Status 1: a line was answered otherwise, and the session up to it is printed.
"""

import argparse
import json
import pathlib
import random
import subprocess
import sys

KINDS = {"a": ["int"], "b": ["int", "int"], "c": ["int", "text"]}
WEIGHTS = ["1", "1", "1", "2", "3", "-1", "1/2", "3/4", "-2/3", "0", "7", "1/3", "4611686018427387903", "x"]
TEXTS = ["x", "y", "zz", "a longer text than the others", ""]
COMPARISONS = ["eq", "ne", "lt", "le", "gt", "ge"]


class Session:
    """A random session: its lines."""

    def __init__(self, rng):
        self.rng, self.lines, self.plans = rng, [], {}
        for name, kinds in KINDS.items():
            self.add(op="source", name=name, kinds=kinds, signed=rng.random() < 0.4, budget=1_000_000)
        for _ in range(rng.randrange(4, 30)):
            rng.choice([self.update, self.update, self.update, self.plan, self.exact, self.drop])()
        for name in [*KINDS, *self.plans]:
            self.ask_rows(name)

    def add(self, **fields):
        self.lines.append(json.dumps(fields, separators=(",", ":")).encode() + b"\n")

    def atom(self, kind):
        return self.rng.randrange(6) if kind == "int" else self.rng.choice(TEXTS)

    def update(self):
        source = self.rng.choice(list(KINDS))
        count = self.rng.choice([0, 1, 1, 2, 5, 12, 40])
        records = [[*map(self.atom, KINDS[source]), self.rng.choice(WEIGHTS[:-2] * 20 + WEIGHTS)] for _ in range(count)]
        self.add(op="update", source=source, csv="".join(",".join(map(str, record)) + "\n" for record in records))

    def expression(self, kinds, wanted):
        """An expression of the wanted kind over columns of these kinds."""
        columns = [at for at, kind in enumerate(kinds) if kind == wanted]
        if columns and self.rng.random() < 0.6:
            return {"col": self.rng.choice(columns)}
        if wanted == "text":
            return {"text": self.rng.choice(TEXTS)}
        if self.rng.random() < 0.4:
            return {"int": self.rng.randrange(-2, 6)}
        name = self.rng.choice(["mod", "div", *COMPARISONS])
        by = {"int": self.rng.randrange(1, 4)}
        return {"call": name, "args": [self.expression(kinds, "int"), by]}

    def step(self, steps, kinds_of):
        """A step over the earlier ones, with the kinds of its columns."""
        rng = self.rng
        left, right = rng.randrange(len(steps)), rng.randrange(len(steps))
        kinds, others = kinds_of[left], kinds_of[right]
        do = rng.choice(["where", "select", "many", "shave", "group", "join", "union", "intersect", "except", "concat"])
        if do == "where":
            return {"do": do, "of": left, "if": self.expression(kinds, "int")}, kinds
        if do == "select":
            made = [rng.choice(["int", "int", "text"]) for _ in range(rng.randrange(1, 4))]
            return {"do": do, "of": left, "row": [self.expression(kinds, kind) for kind in made]}, made
        if do == "many":
            made = [rng.choice(["int", "text"])]
            items = [{"weight": rng.randrange(1, 3), "row": [self.expression(kinds, made[0])]} for _ in range(2)]
            return {"do": do, "of": left, "over": rng.randrange(4, 7), "items": items}, made
        if do == "shave":
            runs = [{"weight": rng.choice(["1", "1/2", "2"]), "times": rng.randrange(1, 5)}]
            return {"do": do, "of": left, "runs": runs}, [*kinds, "int"]
        if do == "group":
            key = self.expression(kinds, "int")
            return {"do": do, "of": left, "key": [key], "reduce": {"fn": "count"}}, ["int", "int"]
        if do == "join":
            keys = {"left_key": [self.expression(kinds, "int")], "right_key": [self.expression(others, "int")]}
            return {"do": do, "left": left, "right": right, **keys}, [*kinds, *others]
        return {"do": do, "left": left, "right": right}, kinds

    def plan(self):
        steps = [{"do": "source", "name": name} for name in KINDS if self.rng.random() < 0.8] or [{"do": "source", "name": "a"}]
        kinds_of = [KINDS[step["name"]] for step in steps]
        for _ in range(self.rng.randrange(1, 4)):
            step, kinds = self.step(steps, kinds_of)
            steps.append(step)
            kinds_of.append(kinds)
        name = f"p{len(self.plans)}"
        self.plans[name] = kinds_of[-1]
        self.add(op="plan", name=name, plan={"format": 1, "steps": steps})

    def ask_rows(self, name):
        kinds = KINDS.get(name) or self.plans[name]
        rows = {tuple(self.atom(kind) for kind in kinds): None for _ in range(6)}
        self.add(op="exact", rows=list(rows), **{"source" if name in KINDS else "plan": name})

    def exact(self):
        self.ask_rows(self.rng.choice([*KINDS, *self.plans]))

    def drop(self):
        if self.plans:
            self.add(op="drop", plan=self.rng.choice(list(self.plans)))


def replies_of(program, lines):
    text = b"".join(lines)
    return subprocess.run([program, "--curator"], input=text, stdout=subprocess.PIPE, check=True).stdout.splitlines()


def main():
    parser = argparse.ArgumentParser(description="Compares the replies of two programs.")
    parser.add_argument("one")
    parser.add_argument("other")
    parser.add_argument("--sessions", type=int, default=200)
    parser.add_argument("--seed", type=int, default=1)
    words = parser.parse_args()
    one, other = (str(pathlib.Path(it).resolve()) for it in (words.one, words.other))
    lines = refused = 0
    for number in range(words.sessions):
        session = Session(random.Random(words.seed + number))
        first, second = (replies_of(program, session.lines) for program in (one, other))
        for at, (mine, theirs) in enumerate(zip(first, second)):
            if mine != theirs:
                sys.stdout.buffer.writelines(session.lines[: at + 1])
                sys.exit(f"session {words.seed + number}, line {at + 1}:\n{mine.decode()}\n{theirs.decode()}")
        if not len(first) == len(second) == len(session.lines):
            sys.exit(f"session {words.seed + number}: {len(session.lines)} lines, {len(first)} and {len(second)} replies")
        lines += len(first)
        refused += sum(b'"ok":false' in reply for reply in first)
    print(f"{words.sessions} sessions, {lines} replies, {refused} of them refusals: all alike")


if __name__ == "__main__":
    main()
