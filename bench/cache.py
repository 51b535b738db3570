#!/usr/bin/env python3
"""Times calls on a cache from one thread and from four: python3 bench/cache.py [RUNS]

Proves and builds the program bench/programs/cache_bench.txt over ba_cache and ba_workers in a folder of its own, and prints a
table in Markdown: nanoseconds by the clock and the calls of all threads together, of RUNS runs (5 if it isn't said).
"""

import pathlib
import statistics
import subprocess
import sys
import tempfile

from built import build

CRATES = """ba_model ba_outside ba_comply ba_turn ba_workers ba_classes ba_facts ba_kernel ba_template ba_cache""".split()
USES = "ba_model ba_outside ba_workers ba_kernel ba_template ba_cache anyhow"
FILES = {
    "src/jobs.rt": "cache_bench_jobs.txt",
    "src/templates.rt": "../../crates/ba_base_tests/src/tests/templates.rt",
    "proofs/Lib.antt": "cache_bench_lib.txt",
    "proofs/CallsCross.antt": "cache_bench_cross.txt",
    "proofs/jobs/run/Answers.antt": "cache_bench_run.txt",
    "proofs/templates/is_checked/Answers.antt": "cache_bench_checked.txt",
}
KINDS = [
    ("look", "a look that finds one template", 200_000),
    ("known", "an admit of a template that stands there", 200_000),
    ("added", "an admit of a template that is new", 20_000),
]
PLACES = [("one", 1, "one thread"), ("one", 4, "four threads on one shelf"), ("apart", 4, "four threads, a shelf for each")]


def nanoseconds(program: pathlib.Path, kind: str, place: str, threads: int, calls: int) -> int:
    done = subprocess.run([program, kind, place, str(threads), str(calls)], text=True, capture_output=True, check=True)
    return int(done.stdout.split()[0])


def main() -> None:
    runs = int(sys.argv[1]) if len(sys.argv) > 1 else 5
    with tempfile.TemporaryDirectory() as folder:
        program = build(pathlib.Path(folder), "cache_bench", USES, CRATES, ["look", "one", "1", "9"], FILES, "Threads, Wait")
        print("| what | threads | least ns | median ns | most ns |\n|---|---|---|---|---|")
        for kind, words, calls in KINDS:
            for place, threads, where in PLACES:
                times = [nanoseconds(program, kind, place, threads, calls) for _ in range(runs)]
                print(f"| {words} | {where} | {min(times):,} | {statistics.median(times):,.0f} | {max(times):,} |")


main()
