#!/usr/bin/env python3
"""Measures what a question costs whose shape was never asked before, so that no template is there for it, and what the same
question costs `z3` and `cvc5`.

    bench/first.py [--program FILE] [--shapes N] [--runs N] [--checks N]

Each of so many requests asks the question with a head of its own: its columns, and behind them up to four that stand in the same
table and are shown like them, in an order that no other head has. So each has a shape of its own. The difference to the same requests
without the question, by their number, is what such an ask costs: text, cover, search, the making of the template or the image and its
test, the answer and the printed line. Without --program it has the repository's own `blockaid` proved and built first. The solvers
are asked the question itself.
"""
import argparse
import itertools
import os
import shutil
import tempfile

import questions
import solvers
from asks import Ask, Program, problem, request, write_files
from bench import HOME, built, expect, processors, told, write_lines
from smt import Quantified

# How much faster than the better solver an ask should be, and has to be.
GOAL, LEAST = 100, 60
# The columns of a question's table that may stand behind its head.
EVENTS, RANGE = ("EId", "Title", "Duration"), ("EId", "Duration")
FURTHER = {"covered_names": ("UId", "Name"), "narrower_range": RANGE, "wider_range": RANGE, "sixteen_links_and_a_view": ("Id", "A1")}


def heads(name, count):
    """So many different lists of further columns, the shortest first."""
    columns = FURTHER.get(name, EVENTS)
    lists = itertools.chain.from_iterable(itertools.product(columns, repeat=length) for length in itertools.count())
    return list(itertools.islice(lists, count))


def headed(question, further):
    """The question with these columns behind its head."""
    head, rest = question.split(" FROM ", 1)
    return f"{', '.join([head, *further])} FROM {rest}"


def asked():
    covered = Ask("covered_names", questions.SCHEMA, questions.POLICY, questions.attended(1), {"MyUId": 2}, [],
                  "SELECT Name FROM Users WHERE UId = 2", "cover")
    return [covered, *(it for it in questions.kinds() if it.said in ("proof", "refuted"))]


def script(ask, count, is_asked):
    """So many requests, each of which asks the question with a head of its own, or without the question."""
    for further in heads(ask.name, count):
        yield from request(ask._replace(question=headed(ask.question, further)), is_asked)


class Firsts(Program):
    """Runs of requests each of which asks a question of a shape of its own."""

    def used_by(self, folder, ask, count, is_asked):
        name = f"script{int(is_asked)}.jsonl"
        write_lines(f"{folder}/{name}", list(script(ask, count, is_asked)))
        ran = self.run(folder, ask, name)
        expect(ran.status, 0, f"the status of {ask.name}")
        if is_asked:
            with open(f"{folder}/out.jsonl", encoding="utf-8") as it:
                text = it.read()
            told_so = text.count(f'"by":"{ask.said}"') + text.count(f'"blocked":"{ask.said}"')
            expect(told_so >= count, True, f"what is said of {ask.name}")
        return ran.used

    def microseconds(self, ask, count, runs):
        with tempfile.TemporaryDirectory() as folder:
            write_files(folder, ask)
            least = [min(self.used_by(folder, ask, count, it) for _ in range(runs)) for it in (False, True)]
        return (least[1] - least[0]) / count * 1e6


def better(ask, checks, seconds):
    """The least time of the better solver for databases of any size, in microseconds, and its name; or nothing."""
    found = []
    for solver in (it for it in solvers.WORDS if shutil.which(it)):
        said = solvers.measure(solvers.WORDS[solver], "UFLIA", Quantified(problem(ask)).write(), checks, seconds)
        if said and said[0] in ("sat", "unsat"):
            found.append((said[1] * 1e6, solver))
    return min(found, default=None)


def main():
    reader = argparse.ArgumentParser(description=__doc__, formatter_class=argparse.RawDescriptionHelpFormatter)
    reader.add_argument("--program", help="the program to measure")
    reader.add_argument("--shapes", type=int, default=24, help="how many shapes a question has")
    reader.add_argument("--runs", type=int, default=20)
    reader.add_argument("--checks", type=int, default=30, help="how often a solver checks a problem")
    reader.add_argument("--check-seconds", type=int, default=20, help="of a solver for one problem, all checks together")
    given = reader.parse_args()
    program = Firsts(os.path.abspath(given.program) if given.program else built(), 120, 4_194_304)
    print(f"{processors()}; commit {told(['git', '-C', HOME, 'rev-parse', '--short', 'HEAD'])}; {given.shapes} shapes of each question, "
          f"least of {given.runs} runs; microseconds.\n")
    print(f"| question | said | a whole ask | the better solver | ratio | goal: {GOAL} |\n|---|---|---|---|---|---|")
    for ask in asked():
        cost = program.microseconds(ask, given.shapes, given.runs)
        peer = better(ask, given.checks, given.check_seconds)
        if peer is None:
            cells = ["none ended", "", ""]
        else:
            ratio = peer[0] / cost
            cells = [f"{peer[1]} {peer[0]:,.0f}", f"{ratio:.0f}", "met" if ratio >= GOAL else f"**missed**{', at least 60' if ratio >= LEAST else ''}"]
        print(f"| {ask.name} | {ask.said} | {cost:.1f} | {' | '.join(cells)} |", flush=True)


if __name__ == "__main__":
    main()
