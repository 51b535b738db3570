#!/usr/bin/env python3
"""Draws policies, recorded answers and questions at random within the limits, and keeps those that take the program longest.

    bench/slowest.py [--program FILE] [--first SEED] [--count N] [--budget N] [--seconds N] [--memory MIB] [--keep N]

A seed gives a schema of one to three tables, which may be linked to themselves and to each other, a policy of one to twelve views,
up to twelve recorded answers, and a question; sizes are drawn so that most are small and some are at a limit. Each question is asked
once; its seconds and MiB are what it adds to the run without it. The slowest are printed as a table in
Markdown; `--show SEED` prints what a seed draws. Questions that the program doesn't read count for nothing. Without --program it has
the repository's own `blockaid` proved and built first.
"""
import argparse
import collections
import os
import random
import sys
import tempfile

from asks import Ask, Program, last_said
from bench import HOME, built, processors, told

OPERATORS = ("=", "=", "=", "<>", "<", "<=", ">", ">=")
PARAMS = ("Me", "Team")
# The most tables and conditions of a part, and parts of a question.
PLACES, CONDITIONS, PARTS = 8, 64, 32


class Draws:
    """What a seed draws."""

    def __init__(self, seed):
        self.it = random.Random(seed)
        self.tables = {f"T{n}": [f"C{n}{m}" for m in range(self.it.randint(2, 5))] for n in range(self.it.randint(1, 3))}

    def size(self, most):
        """A number from 1 on: mostly small, now and then near the most."""
        return max(1, min(most, int(most ** self.it.random() ** 1.5)))

    def schema(self):
        lines = []
        for name, columns in self.tables.items():
            parts = [f"{columns[0]} INT PRIMARY KEY"]
            for column in columns[1:]:
                other = self.it.choice(list(self.tables)) if self.it.random() < 0.4 else None
                parts.append(f"{column} INT NOT NULL" + (f" REFERENCES {other} ({self.tables[other][0]})" if other else ""))
            lines.append(f"CREATE TABLE {name} ({', '.join(parts)});")
        return "\n".join(lines)

    def operand(self, columns, params):
        drawn = self.it.random()
        if drawn < 0.65:
            return self.it.choice(columns)
        if drawn < 0.75 and params:
            return f"?{self.it.choice(PARAMS)}"
        return str(self.it.randint(0, 5))

    def select(self, most_places, most_conditions, params=False, width=None):
        names = [self.it.choice(list(self.tables)) for _ in range(self.size(most_places))]
        columns = [f"t{n}.{it}" for n, name in enumerate(names) for it in self.tables[name]]
        conditions = []
        for n in range(1, len(names)):
            if self.it.random() < 0.8:
                one = self.it.choice(self.tables[names[n]])
                other = self.it.randrange(n)
                conditions.append(f"t{n}.{one} = t{other}.{self.it.choice(self.tables[names[other]])}")
        for _ in range(self.size(most_conditions + 1) - 1):
            conditions.append(f"{self.it.choice(columns)} {self.it.choice(OPERATORS)} {self.operand(columns, params)}")
        width = width or self.it.randint(1, min(4, len(columns)))
        head = [self.it.choice(columns) for _ in range(width)]
        sources = ", ".join(f"{name} t{n}" for n, name in enumerate(names))
        where = f" WHERE {' AND '.join(conditions[:CONDITIONS])}" if conditions else ""
        return f"SELECT {', '.join(head)} FROM {sources}{where}"

    def question(self):
        width = self.it.randint(1, 4)
        parts = [self.select(PLACES, 48, width=width) for _ in range(self.size(PARTS))]
        return " UNION ".join(parts)

    def ask(self, seed):
        schema = self.schema()
        views = [f"CREATE VIEW V{n} AS {self.select(self.it.choice((1, 2, 3, 8)), 8, params=True)};" for n in range(self.size(12))]
        policy = "\n".join([*(f"PARAM {it} INT;" for it in PARAMS), *views])
        rows = {}
        for name, columns in self.tables.items():
            count = self.size(60)
            rows[name] = [[key, *(key for _ in columns[1:])] for key in range(1, count + 1)]
        least = min(len(it) for it in rows.values())
        rows = {name: it[:least] for name, it in rows.items()}
        shown = self.it.choice(list(self.tables))
        before = []
        if self.it.random() < 0.6:
            # (a view that shows a table, so that answers of it are recorded)
            policy += f"\nCREATE VIEW Shown AS SELECT {', '.join(self.tables[shown])} FROM {shown};"
            for _ in range(self.size(12)):
                before.append(f"SELECT {', '.join(self.tables[shown])} FROM {shown} WHERE {self.tables[shown][-1]} >= {self.it.randint(0, 20)}")
        context = {name: self.it.randint(0, 5) for name in PARAMS}
        return Ask(f"seed {seed}", schema, policy, rows, context, before, self.question(), "")


Slow = collections.namedtuple("Slow", "seconds mib seed said what")


def measure(program, seed, budget):
    """What the seed's question took, or nothing where it wasn't read."""
    ask = Draws(seed).ask(seed)._replace(budget=budget)
    with tempfile.TemporaryDirectory() as folder:
        without, ran = program.once(folder, ask)
        if without.status != 0:
            sys.exit(f"slowest: seed {seed}: the run without its question ended with status {without.status}")
        said = "ended by hand" if ran.status is None else last_said(folder) or "memory"
    what = f"{ask.question.count('SELECT')} parts, {len(ask.question):,} bytes; {ask.policy.count('CREATE VIEW')} views; {len(ask.before)} answers"
    return Slow(ran.seconds - without.seconds, (ran.kib - without.kib) / 1024, seed, said, what)


def main():
    reader = argparse.ArgumentParser(description=__doc__, formatter_class=argparse.RawDescriptionHelpFormatter)
    reader.add_argument("--program", help="the program to measure")
    reader.add_argument("--first", type=int, default=1, help="the first seed")
    reader.add_argument("--count", type=int, default=2_000, help="how many seeds")
    reader.add_argument("--budget", type=int, default=2_000, help="steps of a search")
    reader.add_argument("--seconds", type=int, default=30, help="of one run of the program")
    reader.add_argument("--memory", type=int, default=4_096, help="MiB of one run of the program")
    reader.add_argument("--keep", type=int, default=10, help="how many are printed")
    reader.add_argument("--show", type=int, metavar="SEED", help="prints what the seed draws, and measures nothing")
    given = reader.parse_args()
    if given.show is not None:
        ask = Draws(given.show).ask(given.show)
        print(ask.schema, ask.policy, *ask.before, ask.question, sep="\n")
        return
    program = Program(os.path.abspath(given.program) if given.program else built(), given.seconds, given.memory * 1024)
    found = [measure(program, seed, given.budget) for seed in range(given.first, given.first + given.count)]
    said = collections.Counter(it.said for it in found)
    slow, large = sum(it.seconds > 5 for it in found), sum(it.mib > 500 for it in found)
    ended = max((it.seconds for it in found if it.said != "ended by hand"), default=0)
    print(f"{processors()}; commit {told(['git', '-C', HOME, 'rev-parse', '--short', 'HEAD'])}; budget {given.budget:,}; seeds {given.first} to {given.first + given.count - 1}: "
          f"{', '.join(f'{count:,} {it}' for it, count in said.most_common())}. Over 5 s: {slow}, "
          f"over 500 MiB: {large}; of those that ended the slowest took {ended:.2f} s.\n")
    print("| seed | s | MiB | said | what it draws |\n|---|---|---|---|---|")
    for it in sorted(found, reverse=True)[: given.keep]:
        print(f"| {it.seed} | {it.seconds:.2f} | {it.mib:.0f} | {it.said} | {it.what} |")


if __name__ == "__main__":
    main()
