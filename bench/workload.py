#!/usr/bin/env python3
"""Measures the generated workload: how it grows, what workers gain, where the time goes, and what the proxy costs beside a database.

    bench/workload.py [--program FILE] [--requests N] [--runs N]

Prints tables in Markdown, of the least of the runs (5). Elapsed seconds are those of a whole process. First `gen --seed 7` with one worker by the number
of requests, with the processor time and the greatest memory. Then N requests (8192) with 1, 2, 4 and 16 workers. Then parts of the one worker's time: making and
reading the script (`run` of it with each question left out), and writing (`run` of it, which prints all lines, beside `gen`). Last the same questions by sqlite3 in memory,
each with the access check of the policy written into its WHERE by hand, beside `run` with one worker: processor time, and bytes printed by both. Without --program it
has the repository's own `blockaid` proved and built first.
"""
import argparse
import datetime
import json
import os
import shutil
import subprocess
import tempfile
import time

from bench import built, processors
from sessions import POLICY, SCHEMA, answered_by, write_tables


def run(words, folder=None, given=None):
    """Processor seconds, elapsed seconds, greatest memory in MiB, and what was printed."""
    begun = time.monotonic()
    with tempfile.TemporaryFile() as text:
        process = subprocess.Popen(words, cwd=folder, stdin=given, stdout=text)
        _, status, used = os.wait4(process.pid, 0)
        elapsed = time.monotonic() - begun
        assert status == 0, (words, status)
        text.seek(0)
        return used.ru_utime + used.ru_stime, elapsed, used.ru_maxrss / 1024, text.read()


def least(runs, words, folder=None, given=None):
    """Of so many runs the least processor and elapsed seconds, the greatest memory, and what one printed."""
    done = []
    for _ in range(runs):
        if given:
            with open(given, "rb") as it:
                done.append(run(words, folder, it))
        else:
            done.append(run(words, folder))
    return min(it[0] for it in done), min(it[1] for it in done), max(it[2] for it in done), done[-1][3]


def gen(program, requests, *more):
    return [program, "gen", "--seed", "7", "--requests", str(requests), *more]


def print_growth(program, said):
    print("\n| requests | processor seconds | elapsed | microseconds a question | MiB |\n|---|---|---|---|---|")
    for requests in (1024, 2048, 4096, 8192):
        seconds, elapsed, memory, _ = least(said.runs, gen(program, requests))
        print(f"| {requests:,} | {seconds:.3f} | {elapsed:.3f} | {seconds / requests / 3 * 1e6:.1f} | {memory:.0f} |", flush=True)


def print_workers(program, said):
    print("\n| workers | elapsed | questions a second | times one worker's | MiB |\n|---|---|---|---|---|")
    first = None
    for workers in (1, 2, 4, 16):
        _, elapsed, memory, _ = least(said.runs, gen(program, said.requests, "--workers", str(workers)))
        first = first or elapsed
        print(f"| {workers} | {elapsed:.3f} | {3 * said.requests / elapsed:,.0f} | {first / elapsed:.2f} | {memory:.0f} |", flush=True)


def of_script(program, script):
    return [program, "run", "--schema", "S", "--policy", "P", "--tables", "t0", "--script", script]


def print_parts(program, said, folder):
    print("\n| what | processor seconds | MiB | answered by |\n|---|---|---|---|")
    for what, words in [
        ("the script printed (`gen --print`)", gen(program, said.requests, "--print")),
        ("the script without its questions, served and printed (`run`)", of_script(program, "F0")),
        ("the workload, served (`gen`)", gen(program, said.requests)),
        ("its script, served and printed (`run`)", of_script(program, "F")),
    ]:
        seconds, _, memory, text = least(said.runs, words, folder)
        print(f"| {what} | {seconds:.3f} | {memory:.0f} | {answered_by(text)} |", flush=True)


def with_check(user, query):
    """The question with the policy's check: of attendances the user's own alone, of events those alone that the user attends."""
    if " FROM Attendances " in query:
        return f"{query} AND Attendances.UId = {user};"
    return f"{query} AND EXISTS (SELECT 1 FROM Attendances a WHERE a.EId = Events.EId AND a.UId = {user});"


def write_sql(folder, script):
    """The tables, and the script's questions with their checks, as a text for sqlite3."""
    user = None
    with open(f"{folder}/sql", "w", encoding="utf-8") as it:
        it.write(SCHEMA + ".mode csv\n" + "".join(f".import --skip 1 t0/{name}.csv {name}\n" for name in ("Users", "Events", "Attendances")) + ".mode list\n")
        for line in map(json.loads, script.decode().splitlines()):
            if "begin" in line:
                user = line["context"]["MyUId"]
            elif "ask" in line:
                it.write(with_check(user, line["query"]) + "\n")


def print_beside_sqlite(program, said, folder, script):
    if not shutil.which("sqlite3"):
        print("\nThere is no sqlite3.")
        return
    write_sql(folder, script)
    print("\n| what answers | processor seconds | bytes printed |\n|---|---|---|")
    seconds, _, _, text = least(said.runs, ["sqlite3", ":memory:"], folder, f"{folder}/sql")
    print(f"| sqlite3, with checks by hand | {seconds:.3f} | {len(text):,} |", flush=True)
    ours, _, _, text = least(said.runs, of_script(program, "F"), folder)
    print(f"| `run` | {ours:.3f} | {len(text):,} |\n\n`run` takes {ours / seconds:.2f} times as long.", flush=True)


def main():
    parser = argparse.ArgumentParser(description=__doc__, formatter_class=argparse.RawDescriptionHelpFormatter)
    parser.add_argument("--program")
    parser.add_argument("--requests", type=int, default=8192)
    parser.add_argument("--runs", type=int, default=5)
    said = parser.parse_args()
    program = os.path.abspath(said.program) if said.program else built()
    print(f"{datetime.date.today()}, {processors()}, {said.requests:,} requests.")
    with tempfile.TemporaryDirectory() as folder:
        write_tables(folder)
        script = run(gen(program, said.requests, "--print"))[3]
        questions = [line for line in script.decode().splitlines(keepends=True) if not line.startswith('{"ask"')]
        for name, text in (("S", SCHEMA), ("P", POLICY), ("F", script.decode()), ("F0", "".join(questions))):
            with open(f"{folder}/{name}", "w", encoding="utf-8") as it:
                it.write(text)
        print_growth(program, said)
        print_workers(program, said)
        print_parts(program, said, folder)
        print_beside_sqlite(program, said, folder, script)


if __name__ == "__main__":
    main()
