#!/usr/bin/env python3
"""Times branches of ba_facts: python3 bench/facts.py [RUNS]

Proves and builds the program bench/programs/facts_bench.txt over ba_facts in a folder of its own, and prints a table in
Markdown: processor time for one of each, the least of RUNS (7 if it isn't said).
"""

import pathlib
import sys
import tempfile

from built import build, microseconds

CRATES = ["ba_model", "ba_comply", "ba_classes", "ba_facts"]
KINDS = [
    ("learn", 200, "a branch of 16 facts, 64 terms, learns 200 comparisons, one by one, and goes"),
    ("ask", 1_000_000, "whether such a branch shows a comparison"),
    ("copy", 20_000, "a copy of such a branch"),
    ("map", 2_000, "the live mappings of three tables, joined by two equations, to a branch of 48 facts"),
]


def main() -> None:
    runs = int(sys.argv[1]) if len(sys.argv) > 1 else 7
    with tempfile.TemporaryDirectory() as folder:
        program = build(pathlib.Path(folder), "facts_bench", "ba_model ba_facts", CRATES, ["learn", "1"])
        print("| what | microseconds |\n|---|---|")
        for kind, count, words in KINDS:
            print(f"| {words} | {microseconds(program, [kind], count, runs):.2f} |")


main()
