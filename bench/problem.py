#!/usr/bin/env python3
"""Times how a question's problem is made: python3 bench/problem.py [RUNS]

Proves and builds the program bench/programs/problem_bench.txt over ba_kernel in a folder of its own, and prints a table in
Markdown: processor time for one problem, the least of RUNS (7 if it isn't said).
"""

import pathlib
import sys
import tempfile

from built import build, microseconds

CRATES = ["ba_model", "ba_comply", "ba_classes", "ba_facts", "ba_kernel"]
COUNT = 200_000


def main() -> None:
    runs = int(sys.argv[1]) if len(sys.argv) > 1 else 7
    with tempfile.TemporaryDirectory() as folder:
        uses = "ba_model ba_comply ba_kernel"
        program = build(pathlib.Path(folder), "problem_bench", uses, CRATES, ["1", "0", "1"])
        print("| views | recorded rows | microseconds |\n|---|---|---|")
        for views in (1, 8, 128):
            for rows in (0, 1, 8):
                time = microseconds(program, [str(views), str(rows)], COUNT, runs)
                print(f"| {views} | {rows} | {time:.2f} |")


main()
