#!/usr/bin/env python3
"""Measures pages of applications that ask for lists: how many asks a second of processor time the program decides.

    bench/pages.py [--program FILE] [--before FILE] [--runs N]

`pages/autolab-20` is a page of a course with twenty students, `pages/clinic-lists` questions after a list of told rows; each is asked in
several ways: lists whole by `IN`, or each value by itself. A script is run as it stands and with its request many times over, so that
requests after the first meet its templates: the least of some runs, by the lines that ask. `--before` names the program of an earlier
commit, built in the same way, which has to print the same. Without --program the repository's own is proved and built first.
"""
import argparse
import json
import os
import resource
import subprocess
import tempfile

from bench import HOME, built, expect, processors, told, write_lines

PAGES = f"{HOME}/bench/pages"
SCRIPTS = [("autolab-20", "whole", 1), ("autolab-20", "apart", 50), ("clinic-lists", "in8", 50), ("clinic-lists", "in9", 50), ("clinic-lists", "one", 50)]


def used(program, page, script):
    """The processor seconds of one run, and what it printed."""
    words = [program, "run", "--schema", "schema.sql", "--policy", "policy.sql", "--tables", "t0", "--script", script]
    before = resource.getrusage(resource.RUSAGE_CHILDREN)
    ran = subprocess.run(words, cwd=f"{PAGES}/{page}", stdout=subprocess.PIPE, check=False)
    after = resource.getrusage(resource.RUSAGE_CHILDREN)
    expect(ran.returncode, 0, f"the status of {page}")
    return after.ru_utime + after.ru_stime - before.ru_utime - before.ru_stime, ran.stdout


def asks_a_second(program, page, lines, times, runs):
    """Asks a second of so many of the same requests, one after another, and what was printed."""
    with tempfile.TemporaryDirectory() as folder:
        write_lines(f"{folder}/script.jsonl", lines * times)
        found = [used(program, page, f"{folder}/script.jsonl") for _ in range(runs)]
    return sum('"ask"' in it for it in lines) * times / min(it[0] for it in found), found[0][1]


def ended(lines):
    """The lines, and behind them an end of each request that is open."""
    said = [json.loads(it) for it in lines]
    open_still = dict.fromkeys(it["begin"] for it in said if "begin" in it)
    for it in said:
        open_still.pop(it.get("end"), None)
    return lines + [json.dumps({"end": it}) for it in open_still]


def main():
    reader = argparse.ArgumentParser(description=__doc__, formatter_class=argparse.RawDescriptionHelpFormatter)
    reader.add_argument("--program", help="the program to measure")
    reader.add_argument("--before", help="an earlier program")
    reader.add_argument("--runs", type=int, default=3)
    given = reader.parse_args()
    program = os.path.abspath(given.program) if given.program else built()
    before = os.path.abspath(given.before) if given.before else None
    print(f"{processors()}; commit {told(['git', 'rev-parse', '--short', 'HEAD'])}; least of {given.runs} runs; asks a second of one processor.\n")
    print(f"| page | requests |{' before |' if before else ''} now |\n|---|---|{'---|' if before else ''}---|")
    for page, way, most in SCRIPTS:
        with open(f"{PAGES}/{page}/script_{way}.jsonl", encoding="utf-8") as it:
            lines = ended(it.read().splitlines())
        for times in sorted({1, most}):
            now, text = asks_a_second(program, page, lines, times, given.runs)
            cells = [f"{now:,.0f}"]
            if before:
                then, was = asks_a_second(before, page, lines, times, given.runs)
                expect(was, text, f"what the earlier program prints of {page}, {way}")
                cells.insert(0, f"{then:,.0f}")
            print(f"| {page}, {way} | {times} | {' | '.join(cells)} |", flush=True)


if __name__ == "__main__":
    main()
