#!/usr/bin/env python3
"""Measures what a question that the search decides costs `blockaid`, and what the same question costs `z3` and `cvc5`.

    bench/search.py [--program FILE] [--parts PART,..] [--asks N] [--checks N] [--runs N] [--seconds N] [--memory MIB]

The parts are `kinds` (with the solvers that are installed), `entries`, `compared`, `views`, `memory`, `hard` and `slow`. Each prints a table in Markdown. Without
--program it has the repository's own `blockaid` proved and built first; `--program none` measures the solvers alone.
A solver has to say `sat` where the program refutes and `unsat` where it proves.
"""
import argparse
import datetime
import os
import shutil
import sys
import tempfile

import questions
import solvers
from asks import Program, last_said, problem
from bench import built, expect, processors, told
from smt import Bounded, Quantified

# The ways to write a question for solvers: name, logic, text.
WRITERS = [
    ("least rows", "QF_UFLIA", lambda it: Bounded(it).write()),
    ("a spare row", "QF_UFLIA", lambda it: Bounded(it, 1).write()),
    ("any rows", "UFLIA", lambda it: Quantified(it).write()),
]
# What a solver has to say where the program says so. Of the others nothing is asked.
SAID = {"refuted": "sat", "proof": "unsat"}


def table(*columns):
    print(f"\n| {' | '.join(columns)} |\n|{'---|' * len(columns)}", flush=True)


def line(*cells):
    print(f"| {' | '.join(map(str, cells))} |", flush=True)


def microseconds(seconds):
    return f"{seconds * 1e6:,.1f}" if seconds < 0.001 else f"{seconds * 1e6:,.0f}"


class Bench:
    """What is measured, and how often."""

    def __init__(self, given):
        self.given = given
        self.program = None
        if given.program != "none":
            path = os.path.abspath(given.program) if given.program else built()
            self.program = Program(path, given.seconds, given.memory * 1024)
        self.checked = {}

    def asked(self, ask, most):
        """How often the program was asked, and the microseconds of one."""
        if self.program is None:
            return ["", ""]
        with tempfile.TemporaryDirectory() as folder:
            count, cost = self.program.measure(folder, ask, most, self.given.runs)
        return [f"{count:,}", f"over {self.given.seconds} s" if cost is None else microseconds(cost)]

    def check(self, solver, logic, lines):
        """What a solver takes for a problem. It is checked once, whatever questions ask for it."""
        key = solver, logic, "\n".join(lines)
        if key not in self.checked:
            self.checked[key] = solvers.measure(solvers.WORDS[solver], logic, lines, self.given.checks, self.given.check_seconds)
        return self.checked[key]

    def cell(self, ask, found):
        """What was said, the least time and the median."""
        if found is None:
            return f"over {self.given.check_seconds} s"
        said, least, median = found
        if ask and said != "unknown":
            expect(said, SAID.get(ask.said, said), f"what a solver says of {ask.name}")
        return f"{said} {microseconds(least)} / {microseconds(median)}"

    def kinds(self):
        present = [(solver, *it) for solver in solvers.WORDS if shutil.which(solver) for it in WRITERS]
        table("question", "said", "asks", "blockaid", *(f"{solver}, {name}" for solver, name, _, _ in present))
        floor = [self.check(solver, logic, []) for solver, _, logic, _ in present]
        line("no question", "", "", "", *(self.cell(None, it) for it in floor))
        for ask in questions.kinds():
            asked = problem(ask)
            found = [self.check(solver, logic, write(asked)) for solver, _, logic, write in present]
            line(ask.name, ask.said, *self.asked(ask, self.given.asks), *(self.cell(ask, it) for it in found))

    def entries(self):
        table("recorded rows", "by", "own event, proof (asks)", "other event, refuted (asks)")
        for count, is_together in questions.ENTRIES:
            asks = [questions.after(count, *it, is_together) for it in ((5, "proof"), (4, "refuted"))]
            cells = [self.asked(it, max(1, self.given.asks // 10)) for it in asks]
            times = [f"{cost} ({count})" if cost else "" for count, cost in cells]
            line(count, "one ask" if is_together else "an ask each", *times)

    def compared(self):
        table("recorded rows, by one ask", "other short event, refuted (asks)")
        for count in questions.COMPARED_ROWS:
            asked, cost = self.asked(questions.compared_after(count), max(1, self.given.asks // 10))
            line(count, f"{cost} ({asked})")
        table("recorded rows, by questions that compare", "said", "s", "MiB of the question", "MiB")
        for answers in questions.ANSWERS:
            line(f"{answers * 100:,}", *self.once(questions.many_rows(answers, "refuted")))

    def views(self):
        table("views", "asks", "first ask, refuted", "after an attendance, proof")
        for count in questions.VIEWS:
            cells = [self.asked(questions.viewed(count, it), self.given.asks) for it in (True, False)]
            line(count, cells[0][0], *(it[1] for it in cells))

    def once(self, ask):
        """What was said, the seconds and the MiB that a question adds to a request, and the MiB of all."""
        with tempfile.TemporaryDirectory() as folder:
            without, ran = self.program.once(folder, ask)
            said = self.said(folder, ran.status)
        added = f"{ran.seconds - without.seconds:.3f}" if ran.status is not None else f"over {self.given.seconds}"
        return [said, added, f"{(ran.kib - without.kib) / 1024:.1f}", f"{ran.kib / 1024:.1f}"]

    @staticmethod
    def said(folder, status):
        if status is None:
            return "ended"
        return last_said(folder) or "memory" if status in (0, 6) else f"status {status}"

    def memory(self):
        table("steps", "said", "s", "MiB of the question", "MiB")
        for steps in questions.STEPS:
            line(f"{steps:,}", *self.once(questions.cyclic(steps)))

    def hard(self):
        table("steps", "said", "s", "MiB of the question", "MiB")
        for steps in questions.HARD_STEPS:
            line(f"{steps:,}", *self.once(questions.hard(steps)))

    def slow(self):
        table("question", "said", "s", "MiB of the question", "MiB")
        for ask in questions.slow():
            line(ask.name, *self.once(ask))


def arguments():
    reader = argparse.ArgumentParser(description=__doc__, formatter_class=argparse.RawDescriptionHelpFormatter)
    parts = ["kinds", "entries", "compared", "views", "memory", "hard", "slow"]
    reader.add_argument("--program", help="the program to measure, or `none`")
    reader.add_argument("--parts", type=lambda text: text.split(","), default=parts)
    reader.add_argument("--asks", type=int, default=10_000, help="how often a question is asked")
    reader.add_argument("--runs", type=int, default=3)
    reader.add_argument("--checks", type=int, default=200, help="how often a solver checks a problem")
    reader.add_argument("--check-seconds", type=int, default=20, help="of a solver for one problem, all checks together")
    reader.add_argument("--seconds", type=int, default=120, help="of one run of the program")
    reader.add_argument("--memory", type=int, default=4_096, help="MiB of one run of the program")
    given = reader.parse_args()
    if given.program == "none":
        given.parts = ["kinds"]
    if not set(given.parts) <= set(parts):
        sys.exit(f"search: the parts are {', '.join(parts)}")
    return given


def versions():
    found = [(it, told([it, "--version"]).replace("This is ", "").split("\n")[0]) for it in solvers.WORDS]
    return "; ".join(said or f"{name} isn't installed" for name, said in found)


def main():
    given = arguments()
    bench = Bench(given)
    commit = told(["git", "rev-parse", "--short", "HEAD"]) or "unknown"
    print(f"{datetime.date.today()}, {processors()}; commit {commit}; {versions()}; least of {given.runs} runs.")
    print("Microseconds for one question, of a solver least / median.")
    for part in given.parts:
        getattr(bench, part)()


if __name__ == "__main__":
    main()
