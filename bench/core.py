#!/usr/bin/env python3
"""Times the machine of ba_core: python3 bench/core.py [RUNS]

Proves and builds the program bench/programs/core_bench.txt over ba_core in a folder of its own, and prints a table in
Markdown: processor time for one of each, the least of RUNS (7 if it isn't said), by how many requests are open,
each of which was told an answer.
"""

import pathlib
import sys
import tempfile

from built import build, microseconds

CRATES = """ba_model ba_comply ba_classes ba_facts ba_kernel ba_template ba_match ba_direct ba_index ba_eval ba_tables ba_script
ba_lex ba_grammar ba_sql_syntax ba_sql_query ba_sql_ddl ba_policy ba_sql_print ba_proof ba_core""".split()
USES = """ba_model ba_comply ba_kernel ba_template ba_direct ba_tables ba_policy ba_sql_ddl ba_sql_query ba_proof ba_core"""
KINDS = [
    ("begin", "a request begins and ends"),
    ("cover", "and asks a covered question in between"),
    ("refuse", "and then one that is refused"),
    ("template", "and then one that a template answers"),
    ("admit", "a template is admitted"),
    ("proved", "a proof of four steps is read and checked"),
    ("proof", "and a request begins, is told an answer by a cover and one by that proof, and ends"),
    ("tables", "a table of two rows is read and checked"),
    ("publish", "and is published"),
]
COUNT = 20_000
PROOFS = {
    "proofs/Lib.antt": "core_bench_lib.txt",
    "proofs/TableLemmas.antt": "core_bench_lemmas.txt",
    "proofs/checked/Answers.antt": "core_bench_answers.txt",
}


def main() -> None:
    runs = int(sys.argv[1]) if len(sys.argv) > 1 else 7
    with tempfile.TemporaryDirectory() as folder:
        program = build(pathlib.Path(folder), "core_bench", USES, CRATES, ["begin", "1", "1"], PROOFS)
        print("| what | 1 open | 1,000 open | 100,000 open |\n|---|---|---|---|")
        for kind, words in KINDS:
            times = [microseconds(program, [kind, str(n)], COUNT, runs) for n in (1, 1_000, 100_000)]
            print(f"| {words} | " + " | ".join(f"{time:.2f}" for time in times) + " |")


main()
