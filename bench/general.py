#!/usr/bin/env python3
"""Times templates: python3 bench/general.py [RUNS]

Proves and builds the program bench/programs/general_bench.txt over ba_general and ba_match in a folder of its own, and prints
a table in Markdown: processor time to make one template, and to match one, the least of RUNS (7 if it isn't said).
"""

import pathlib
import sys
import tempfile

from built import build, microseconds

CRATES = """ba_model ba_comply ba_classes ba_facts ba_kernel ba_template ba_general ba_match ba_script ba_lex ba_grammar
ba_sql_syntax ba_sql_query ba_sql_ddl ba_policy ba_sql_print ba_proof""".split()
USES = """ba_model ba_comply ba_facts ba_kernel ba_template ba_general ba_match ba_lex ba_sql_syntax ba_sql_query ba_script
ba_sql_ddl ba_policy ba_proof serde_json""".replace("\n", " ")
KINDS = [
    ("title", "three steps with one entry are generalised", 5_000, 150),
    ("links", "sixteen needless links, a view and the goal", 5_000, 200),
    ("chain", "1,000 needless links, a view and the goal", 50, 100_000),
    ("entries", "256 entries, of which one is needed, a view and the goal", 200, None),
    ("match", "a template is matched after one entry", 200_000, 3),
    ("passed", "and after 256 entries, of which the fifth serves", 200_000, 10),
]
PROOFS = {
    "proofs/Lib.antt": "../../crates/ba_kernel_tests/proofs/Lib.antt",
    "proofs/QuestionLemmas.antt": "../../crates/ba_kernel_tests/proofs/QuestionLemmas.antt",
}


def main() -> None:
    runs = int(sys.argv[1]) if len(sys.argv) > 1 else 7
    with tempfile.TemporaryDirectory() as folder:
        program = build(pathlib.Path(folder), "general_bench", USES, CRATES, ["title", "1"], PROOFS)
        print("| what | microseconds | at most |\n|---|---|---|")
        for kind, words, count, most in KINDS:
            time = microseconds(program, [kind], count, runs)
            print(f"| {words} | {time:,.2f} | {'' if most is None else f'{most:,}'} |")


main()
