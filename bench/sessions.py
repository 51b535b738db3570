#!/usr/bin/env python3
"""Measures requests that share templates: one question covered, one by a template of an earlier request, one blocked; and
how several workers serve them.

    bench/sessions.py [--program FILE] [--requests N] [--runs N]

Each of N requests (8192) is of one of 64 users, who asks for one of four attendances of hers, for the title of that event, and for the title
of another one. Prints tables in Markdown: what each kind of line costs, as the difference of two scripts, and the greatest memory; times are
processor time, the least of the runs (7). Then the elapsed time of the whole script with 1, 2, 4 and 16 workers, the least of the runs. Without --program it has the repository's own `blockaid` proved and built first.
"""
import argparse
import datetime
import json
import os
import subprocess
import tempfile
import time

from bench import built, processors

SCHEMA = """CREATE TABLE Users (UId INT PRIMARY KEY, Name TEXT NOT NULL);
CREATE TABLE Events (EId INT PRIMARY KEY, Title TEXT NOT NULL, Duration INT NOT NULL);
CREATE TABLE Attendances (UId INT NOT NULL REFERENCES Users (UId),
  EId INT NOT NULL REFERENCES Events (EId), At INT NOT NULL, PRIMARY KEY (UId, EId));
"""
POLICY = """PARAM MyUId INT;
CREATE VIEW V1 AS SELECT UId, Name FROM Users;
CREATE VIEW V2 AS SELECT UId, EId, At FROM Attendances WHERE UId = ?MyUId;
CREATE VIEW V3 AS SELECT e.EId, e.Title, e.Duration FROM Events e
  JOIN Attendances a ON a.EId = e.EId WHERE a.UId = ?MyUId;
"""
PEOPLE = 64
EACH = 4


def event_of(user, number):
    return (7 * user + 13 * number) % PEOPLE + 1


def write_tables(folder):
    os.mkdir(f"{folder}/t0")
    rows = {
        "Users": ("UId,Name", [f"{u},u{u}" for u in range(1, PEOPLE + 1)]),
        "Events": ("EId,Title,Duration", [f"{e},e{e},{e % 7 * 10 + 10}" for e in range(1, PEOPLE + 1)]),
        "Attendances": ("UId,EId,At", [f"{u},{event_of(u, j)},{100 * u + j}" for u in range(1, PEOPLE + 1) for j in range(EACH)]),
    }
    for name, (header, lines) in rows.items():
        with open(f"{folder}/t0/{name}.csv", "w", encoding="utf-8") as it:
            it.write("\n".join([header, *lines, ""]))


def lines_of(number, asks):
    """The lines of a request with that many of its three questions."""
    user = number % PEOPLE + 1
    event = event_of(user, number // PEOPLE % EACH)
    name = f"q{number}"
    texts = [
        f"SELECT UId, EId, At FROM Attendances WHERE UId = {user} AND EId = {event}",
        f"SELECT Title FROM Events WHERE EId = {event}",
        f"SELECT Title FROM Events WHERE EId = {event % PEOPLE + 1}",
    ]
    return [{"begin": name, "context": {"MyUId": user}}, *({"ask": name, "query": text} for text in texts[:asks]), {"end": name}]


def run(program, folder, script, workers=1):
    """Processor seconds, elapsed seconds, greatest memory in MiB, and the text of one run."""
    words = [program, "run", "--schema", "S", "--policy", "P", "--tables", "t0", "--script", script, "--workers", str(workers)]
    begun = time.monotonic()
    process = subprocess.Popen(words, cwd=folder, stdout=subprocess.PIPE)
    text = process.stdout.read()
    _, status, used = os.wait4(process.pid, 0)
    assert status == 0, status
    return used.ru_utime + used.ru_stime, time.monotonic() - begun, used.ru_maxrss / 1024, text


def answered_by(text):
    """How many questions were answered by each ground."""
    counts = {kind: text.count(f'"by":"{kind}"'.encode()) for kind in ("cover", "template", "proof")}
    return ", ".join(f"{kind} {count:,}" for kind, count in counts.items() if count)


def print_workers(said, program, folder, script):
    """A line for each number of workers: the elapsed time of all that the command does, of serving alone, and questions by the second."""
    print("\n| workers | seconds | of them for the questions | questions a second | times one worker's | MiB | answered by |\n|---|---|---|---|---|---|---|")
    empty = min(run(program, folder, "F0")[1] for _ in range(said.runs))
    first = None
    for workers in (1, 2, 4, 16):
        runs = [run(program, folder, script, workers) for _ in range(said.runs)]
        elapsed = min(it[1] for it in runs)
        memory = max(it[2] for it in runs)
        serving = elapsed - empty
        first = first or serving
        print(f"| {workers} | {elapsed:.3f} | {serving:.3f} | {3 * said.requests / serving:,.0f} | {first / serving:.2f} | {memory:.0f} | {answered_by(runs[-1][3])} |", flush=True)


def main():
    parser = argparse.ArgumentParser(description=__doc__, formatter_class=argparse.RawDescriptionHelpFormatter)
    parser.add_argument("--program")
    parser.add_argument("--requests", type=int, default=8192)
    parser.add_argument("--runs", type=int, default=7)
    said = parser.parse_args()
    program = os.path.abspath(said.program) if said.program else built()
    print(f"{datetime.date.today()}, {processors()}, {said.requests:,} requests.")
    with tempfile.TemporaryDirectory() as folder:
        for name, text in (("S", SCHEMA), ("P", POLICY)):
            with open(f"{folder}/{name}", "w", encoding="utf-8") as it:
                it.write(text)
        write_tables(folder)
        print("\n| a request asks | seconds | MiB | microseconds more for each | answered by |\n|---|---|---|---|---|")
        before = None
        for asks, what in enumerate(("nothing", "a covered question", "one by a template too", "one that is refuted too")):
            with open(f"{folder}/F{asks}", "w", encoding="utf-8") as it:
                for number in range(said.requests):
                    it.writelines(json.dumps(line, separators=(",", ":")) + "\n" for line in lines_of(number, asks))
            runs = [run(program, folder, f"F{asks}") for _ in range(said.runs)]
            seconds, _, memory, text = min(runs)
            by = answered_by(text)
            more = "" if before is None else f"{(seconds - before) / said.requests * 1e6:.1f}"
            print(f"| {what} | {seconds:.2f} | {memory:.0f} | {more} | {by} |", flush=True)
            before = seconds
        print_workers(said, program, folder, "F3")


if __name__ == "__main__":
    main()
