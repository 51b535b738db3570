#!/usr/bin/env python3
"""What a read of a cache key costs, beside the question behind it.

usage: bench/keys.py --program FILE [--repeat N]

Of 20 requests each is told its own attendance, and then asks for the event's title 200 times, or
reads a key of that one query 200 times, or a key of eight such queries 25 times. The first of all
is proved, all others are by its template. Prints microseconds of processor time for one line, the
least of N runs (default 3), without what the begin lines and first questions take.
"""

import argparse
import json
import pathlib
import resource
import subprocess
import tempfile

HOME = pathlib.Path(__file__).resolve().parent.parent
FILES = HOME / "crates/blockaid_cases/data/keys/template_of_a_read"
TITLE = "SELECT Title FROM Events WHERE EId = "
OWN = "SELECT UId, EId, At FROM Attendances WHERE UId = 2 AND EId = 5"
REQUESTS = 20
KINDS = {
    "an ask": (200, lambda name: {"ask": name, "query": TITLE + "5"}),
    "a read of one query": (200, lambda name: {"args": {"e": 5}, "key": "title", "read": name}),
    "a read of eight": (25, lambda name: {"args": {"e": 5}, "key": "eight", "read": name}),
}


def script_of(count, line_of):
    lines = []
    for number in range(REQUESTS):
        name = f"r{number}"
        lines.append({"begin": name, "context": {"MyUId": 2}})
        lines.append({"ask": name, "query": OWN})
        lines += [line_of(name)] * count
    return "".join(json.dumps(it) + "\n" for it in lines)


def seconds(program, folder, script, repeat):
    (folder / "F").write_text(script)
    words = ["--schema", FILES / "S", "--policy", folder / "P", "--tables", FILES / "t0"]
    best = None
    for _ in range(repeat):
        before = resource.getrusage(resource.RUSAGE_CHILDREN).ru_utime
        subprocess.run([program, "run", *words, "--script", folder / "F"], check=True,
                       stdout=subprocess.DEVNULL)
        took = resource.getrusage(resource.RUSAGE_CHILDREN).ru_utime - before
        best = took if best is None else min(best, took)
    return best


def main():
    asked = argparse.ArgumentParser()
    asked.add_argument("--program", required=True)
    asked.add_argument("--repeat", type=int, default=3)
    words = asked.parse_args()
    with tempfile.TemporaryDirectory() as name:
        folder = pathlib.Path(name)
        queries = " ALSO ".join([TITLE + "?e"] * 8)
        policy = (FILES / "P").read_text()
        (folder / "P").write_text(f"{policy}\nCREATE KEY eight (e INT) AS {queries};\n")
        nothing = seconds(words.program, folder, script_of(0, KINDS["an ask"][1]), words.repeat)
        for kind, (count, line_of) in KINDS.items():
            took = seconds(words.program, folder, script_of(count, line_of), words.repeat) - nothing
            print(f"{kind}: {1_000_000 * took / (REQUESTS * count):.1f} microseconds")


main()
