#!/usr/bin/env python3
"""Counts the instructions that a question costs two programs: bench/instructions.py --before FILE --program FILE [--asks N] [--parts PART,..]

Both are `blockaid`, such as out/blockaid of two clones, built in the same way. The parts are `kinds`, `entries`, `compared`, `views` and `hard`,
whose questions are those of bench/search.py; `answers`, those of bench/bench.py over tables of a thousand rows; `requests`, the lines of
bench/sessions.py; `workload`, `gen` with one worker; `shapes`, the questions of bench/first.py, each time of a shape that is new; and `nullable`, the questions of `kinds` by the second program alone, over their own
schema and over one in which each column that is in no PRIMARY KEY may be NULL. A script is run with the questions and without them, under valgrind's callgrind;
the difference, by their number, is what one costs. That doesn't depend on what else the machine does, as seconds do. Prints a table in
Markdown, a line for each question.
"""
import argparse
import json
import os
import re
import subprocess
import sys
import tempfile

import bench
import first
import questions
import sessions
from asks import write_files, write_scripts
from bench import expect

# The most instructions of one question that is asked more than once.
FEW = 10_000_000
# How many shapes a question of `shapes` has.
SHAPES = 8
# How many rows a table of `answers` has, and how many requests there are of `requests` and `workload`.
ROWS, REQUESTS = 1_000, 256


def entries():
    for count, is_together in questions.ENTRIES:
        for event, said in ((5, "proof"), (4, "refuted")):
            ask = questions.after(count, event, said, is_together)
            yield f"{said} after {count} by {'one ask' if is_together else 'an ask each'}", ask


def views():
    for count in questions.VIEWS:
        for is_first in (True, False):
            yield f"{count} views, {'first ask' if is_first else 'after an attendance'}", questions.viewed(count, is_first)


PARTS = {
    "kinds": lambda: ((ask.name, ask) for ask in questions.kinds()),
    "entries": entries,
    "compared": lambda: ((f"compared after {count}", questions.compared_after(count)) for count in questions.COMPARED_ROWS),
    "views": views,
    "hard": lambda: ((f"hard, {steps:,} steps", questions.hard(steps)) for steps in questions.HARD_STEPS),
}


def counted(name, folder, words):
    """The instructions of one run."""
    words = ["valgrind", "--tool=callgrind", "--callgrind-out-file=/dev/null", *words]
    ran = subprocess.run(words, cwd=folder, stdin=subprocess.DEVNULL, stdout=subprocess.DEVNULL, stderr=subprocess.PIPE, text=True)
    expect(ran.returncode, 0, f"the status of {name}")
    return int(re.search(r"Collected : (\d+)", ran.stderr)[1])


def run_words(program, script, *more):
    return [program, "run", "--schema", "schema.sql", "--policy", "policy.sql", "--tables", "t0", "--script", script, *more]


def cost(program, folder, ask, count):
    """The instructions that the question adds to a request."""
    asked, without = (
        counted(ask.name, folder, run_words(program, write_scripts(folder, ask, count, it)[0], "--budget", str(ask.budget)))
        for it in (True, False)
    )
    return (asked - without) / count


def tell(name, before, now):
    print(f"| {name} | {before:,.0f} | {now:,.0f} | {now / before:.3f} |", flush=True)


def tell_ask(name, ask, programs, asks):
    with tempfile.TemporaryDirectory() as folder:
        write_files(folder, ask)
        found = [cost(it, folder, ask, 1) for it in programs]
        if max(found) < FEW:
            found = [cost(it, folder, ask, asks) for it in programs]
    tell(name, *found)


def tell_answers(programs, asks):
    """A line for each kind of answer: the instructions of one ask."""
    for name, kind in bench.KINDS.items():
        with tempfile.TemporaryDirectory() as folder:
            bench.make_tables(folder, ROWS)
            bench.write_text(f"{folder}/policy.sql", bench.POLICY + kind.view)
            questions_asked = [kind.question(n, ROWS) for n in range(asks)]
            bench.write_lines(f"{folder}/none", bench.lines_of(questions_asked[:1]))
            bench.write_lines(f"{folder}/all", bench.lines_of(questions_asked))
            found = [counted(name, folder, run_words(it, "all")) - counted(name, folder, run_words(it, "none")) for it in programs]
        tell(f"{name}, {ROWS:,} rows", *(it / (asks - 1) for it in found))


def tell_requests(programs):
    """A line for each kind of line of requests that share templates."""
    with tempfile.TemporaryDirectory() as folder:
        bench.write_text(f"{folder}/schema.sql", sessions.SCHEMA)
        bench.write_text(f"{folder}/policy.sql", sessions.POLICY)
        sessions.write_tables(folder)
        before = None
        for asks, what in enumerate(("no question", "a covered question", "one by a template", "one that is refuted")):
            lines = (json.dumps(line, separators=(",", ":")) for number in range(REQUESTS) for line in sessions.lines_of(number, asks))
            bench.write_lines(f"{folder}/F{asks}", lines)
            found = [counted(what, folder, run_words(it, f"F{asks}")) for it in programs]
            if before:
                tell(what, *((now - old) / REQUESTS for now, old in zip(found, before)))
            before = found


def nullable(schema):
    """The schema without NOT NULL, but for the columns of its links, which would lead nowhere where they may be NULL."""
    return re.sub(r"\b(\w+ \w+) NOT NULL(?! REFERENCES)", r"\1", schema)


def tell_nullable(program, asks):
    """A line for each kind of question, over NOT NULL columns and over nullable ones."""
    for ask in questions.kinds():
        found = []
        for schema in (ask.schema, nullable(ask.schema)):
            with tempfile.TemporaryDirectory() as folder:
                write_files(folder, ask._replace(schema=schema))
                one = cost(program, folder, ask, 1)
                found.append(one if one >= FEW else cost(program, folder, ask, asks))
        tell(ask.name, *found)


def tell_shapes(programs):
    """A line for each kind of question: the instructions of a whole ask whose shape is new."""
    for ask in first.asked():
        with tempfile.TemporaryDirectory() as folder:
            write_files(folder, ask)
            for script, is_asked in (("none", False), ("all", True)):
                bench.write_lines(f"{folder}/{script}", list(first.script(ask, SHAPES, is_asked)))
            found = [counted(ask.name, folder, run_words(it, "all")) - counted(ask.name, folder, run_words(it, "none")) for it in programs]
        tell(ask.name, *(it / SHAPES for it in found))


def tell_workload(programs):
    """The instructions of a request of `gen`, and the whole of a run of one request."""
    with tempfile.TemporaryDirectory() as folder:
        few, many = (
            [counted("gen", folder, [it, "gen", "--seed", "7", "--requests", str(count)]) for it in programs] for count in (1, REQUESTS + 1)
        )
    tell("a request of `gen`", *((all_of - one) / REQUESTS for all_of, one in zip(many, few)))
    tell("`gen` of one request, whole", *few)


OTHERS = {
    "answers": tell_answers,
    "requests": lambda programs, asks: tell_requests(programs),
    "workload": lambda programs, asks: tell_workload(programs),
    "shapes": lambda programs, asks: tell_shapes(programs),
    "nullable": lambda programs, asks: tell_nullable(programs[-1], asks),
}


def main():
    reader = argparse.ArgumentParser(description=__doc__, formatter_class=argparse.RawDescriptionHelpFormatter)
    reader.add_argument("--before", required=True, type=os.path.abspath, help="the program of an earlier commit")
    reader.add_argument("--program", required=True, type=os.path.abspath)
    reader.add_argument("--asks", type=int, default=50, help="how often a question is asked")
    reader.add_argument("--parts", type=lambda text: text.split(","), default=[*PARTS, *OTHERS])
    given = reader.parse_args()
    if not set(given.parts) <= {*PARTS, *OTHERS}:
        sys.exit(f"instructions: the parts are {', '.join([*PARTS, *OTHERS])}")
    programs = [given.before, given.program]
    print("| question | instructions before | now | of those before |\n|---|---|---|---|", flush=True)
    for part in given.parts:
        if part in OTHERS:
            OTHERS[part](programs, given.asks)
            continue
        for name, ask in PARTS[part]():
            tell_ask(name, ask, programs, given.asks)


if __name__ == "__main__":
    main()
