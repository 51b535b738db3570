#!/usr/bin/env python3
"""Measures the decision service: round trips, decisions a second, start-up, lists whole and apart, and memory over many requests.

    bench/service.py [--program FILE] [--asks N] [--runs N] [--lines N] [--parts trips,ahead,pages,start,memory,rows]

A client writes a line into a pipe and reads the line that answers it from another. **trips**: the client's clock, in microseconds, over N asks one after another (20000): of a
question that a view covers, of one that a template serves, of one that is refuted (a tenth as often), and of the same lines through a process that does nothing but echo lines (`cat`). **ahead**: the lines
of `gen`'s workload of 8192 requests, written without waiting, with the rows that its tables give told behind each allowed question: decisions a second of elapsed and of the service's
processor time. **pages**: `pages/autolab-20`, each list whole by `IN` or each value by itself, told what SQLite answers: asks a second, of one request and of 50. **start**: from the
start of the process until its first line is answered. **memory**: resident size while so many lines (1000000) of requests go by that begin, ask, are told and end. **rows**: one line each after 100 to
100000 told rows. Each figure but of memory and rows is the best of some runs (5). Without --program it has the repository's own `blockaid` proved and built first.
"""
import argparse
import csv
import json
import os
import sqlite3
import statistics
import subprocess
import tempfile
import threading
import time

from bench import HOME, built, expect, processors, told
from sessions import POLICY, SCHEMA, write_tables

CLINIC = f"{HOME}/examples/clinic"
PAGES = f"{HOME}/bench/pages"
COVERED = "SELECT SId, PId FROM Care WHERE SId = 1"
SERVED = "SELECT Name FROM Patients WHERE PId = 7"
REFUTED = "SELECT Phone FROM Patients WHERE PId = 7"


def line_of(**said):
    return json.dumps(said, separators=(",", ":")).encode() + b"\n"


class Pipe:
    """A process that answers each line by a line."""

    def __init__(self, words):
        self.process = subprocess.Popen(words, stdin=subprocess.PIPE, stdout=subprocess.PIPE, stderr=subprocess.DEVNULL, bufsize=0)
        self.into, self.out = self.process.stdin.fileno(), self.process.stdout.fileno()
        self.rest = b""

    def trip(self, line):
        """One line there, one line back, with nothing written ahead."""
        os.write(self.into, line)
        said = os.read(self.out, 65536)
        while not said.endswith(b"\n"):
            said += os.read(self.out, 65536)
        return said

    def say(self, **said):
        return json.loads(self.trip(line_of(**said)))

    def ahead(self, data):
        """All that is answered to these lines, which are written without waiting."""
        writer = threading.Thread(target=self._write, args=(memoryview(data),))
        writer.start()
        many, pieces = data.count(b"\n"), []
        while many:
            piece = os.read(self.out, 1 << 20)
            expect(piece != b"", True, "that the service goes on")
            many -= piece.count(b"\n")
            pieces.append(piece)
        writer.join()
        return b"".join(pieces)

    def _write(self, data):
        while data:
            data = data[os.write(self.into, data[:65536]):]

    def seconds(self):
        """The processor time that the process has taken."""
        with open(f"/proc/{self.process.pid}/schedstat", encoding="ascii") as it:
            return int(it.read().split()[0]) / 1e9

    def resident(self):
        """Its resident size, in KiB."""
        with open(f"/proc/{self.process.pid}/status", encoding="ascii") as it:
            return next(int(line.split()[1]) for line in it if line.startswith("VmRSS"))

    def end(self):
        self.process.stdin.close()
        expect(self.process.wait(), 0, "the service's status")


def service(program, folder, schema="schema.sql", policy="policy.sql"):
    files = ["--schema", f"{folder}/{schema}", "--policy", f"{folder}/{policy}"]
    return Pipe([program, "decide", *files, "--database", "sqlite"])


def begun(program):
    """A service in which a request was told its rows of Care, and a template serves names of patients."""
    pipe = service(program, CLINIC)
    pipe.say(begin="a", context={"Me": 1, "Today": 120})
    line = pipe.say(ask="a", query=COVERED)["line"]
    pipe.say(told=line, rows=[[1, 7], [1, 8]])
    expect(pipe.say(ask="a", query=SERVED)["allowed"], "proof", "the first question of its shape")
    return pipe


def trips(pipe, line, asks):
    """Microseconds of each round trip."""
    times = []
    for _ in range(asks):
        start = time.perf_counter_ns()
        pipe.trip(line)
        times.append((time.perf_counter_ns() - start) / 1000)
    return times


def print_trips(program, said):
    print("\n| round trip | median | mean | 99th of 100 | beside an echo's median |\n|---|---|---|---|---|")
    echo = None
    for what, query, wanted in [
        ("echo of lines (`cat`)", COVERED, None),
        ("covered", COVERED, "cover"),
        ("by template", SERVED, "template"),
        ("refuted", REFUTED, None),
    ]:
        line, best = line_of(ask="a", query=query), None
        asks = said.asks // 10 if what == "refuted" else said.asks
        for _ in range(said.runs):
            # (a request has at most 65536 questions, so that each run has a service of its own)
            pipe = Pipe(["cat"]) if what.startswith("echo") else begun(program)
            if wanted:
                expect(json.loads(pipe.trip(line))["allowed"], wanted, what)
            times = trips(pipe, line, asks)
            pipe.end()
            found = statistics.median(times), statistics.mean(times), sorted(times)[len(times) * 99 // 100]
            best = min(best, found) if best else found
        echo = echo or best[0]
        print(f"| {what} | {best[0]:.1f} | {best[1]:.1f} | {best[2]:.1f} | {best[0] - echo:+.1f} |", flush=True)


def database(folder, schema):
    """The table files of a folder in SQLite."""
    opened = sqlite3.connect(":memory:")
    statements = [it for it in schema.split(";") if it.strip().startswith("CREATE TABLE")]
    for statement in statements:
        opened.execute(statement)
    for name, in opened.execute("SELECT name FROM sqlite_master WHERE type = 'table'").fetchall():
        with open(f"{folder}/{name}.csv", newline="", encoding="utf-8") as it:
            _, *rows = csv.reader(it)
        for row in rows:
            opened.execute(f"INSERT INTO \"{name}\" VALUES ({', '.join('?' * len(row))})", row)
    return opened


def conversation(program, folder, names, lines, opened):
    """The lines with what is told behind each allowed question, of which the rows are the database's; and how many were asked."""
    pipe, sent, asks, known = service(program, folder, *names), [], 0, {}
    for line in lines:
        data = line_of(**json.loads(line))
        sent.append(data)
        answer = json.loads(pipe.trip(data))
        if "request" in answer:
            asks += 1
        if "allowed" in answer:
            text = answer["send"]
            if text not in known:
                known[text] = [list(it) for it in opened.execute(text).fetchall()]
            sent.append(line_of(told=answer["line"], rows=known[text]))
            expect("told" in json.loads(pipe.trip(sent[-1])), True, "that rows are told")
    pipe.end()
    return b"".join(sent), asks


def fastest(program, folder, names, sent, asks, runs):
    """Asks a second of elapsed and of processor time, the best of so many runs, and what one answered."""
    best, answers = (0, 0), b""
    for _ in range(runs):
        pipe = service(program, folder, *names)
        busy, start = pipe.seconds(), time.perf_counter()
        answers = pipe.ahead(sent)
        elapsed, busy = time.perf_counter() - start, pipe.seconds() - busy
        pipe.end()
        best = max(best[0], asks / elapsed), max(best[1], asks / busy)
    return best, answers


def kinds_of(answers):
    """How many asks were allowed, by what, and how many not."""
    found = {}
    for line in map(json.loads, answers.splitlines()):
        if "request" in line:
            kind = line.get("allowed") or line.get("blocked") or "unread"
            found[kind] = found.get(kind, 0) + 1
    return ", ".join(f"{many:,} {kind}" for kind, many in sorted(found.items()))


def print_ahead(program, said):
    with tempfile.TemporaryDirectory() as folder:
        write_tables(folder)
        for name, text in (("schema.sql", SCHEMA), ("policy.sql", POLICY)):
            with open(f"{folder}/{name}", "w", encoding="utf-8") as it:
                it.write(text)
        words = [program, "gen", "--seed", "7", "--requests", "8192", "--print"]
        lines = subprocess.run(words, check=True, stdout=subprocess.PIPE, stderr=subprocess.DEVNULL).stdout.splitlines()
        sent, asks = conversation(program, folder, (), lines, database(f"{folder}/t0", SCHEMA))
        (elapsed, busy), answers = fastest(program, folder, (), sent, asks, said.runs)
    print("\n| lines written ahead | lines | asks | decisions a second, elapsed | of processor time | said |\n|---|---|---|---|---|---|")
    print(f"| 8,192 requests of `gen` | {sent.count(10):,} | {asks:,} | {elapsed:,.0f} | {busy:,.0f} | {kinds_of(answers)} |", flush=True)


def print_pages(program, said):
    print("\n| autolab-20 | requests | asks | asks a second, elapsed | of processor time | said |\n|---|---|---|---|---|---|")
    folder = f"{PAGES}/autolab-20"
    with open(f"{folder}/schema.sql", encoding="utf-8") as it:
        opened = database(f"{folder}/t0", it.read())
    for way in ("whole", "apart"):
        with open(f"{folder}/script_{way}.jsonl", encoding="utf-8") as it:
            lines = it.read().splitlines()
        for times in (1, 50):
            sent, asks = conversation(program, folder, (), lines * times, opened)
            (elapsed, busy), answers = fastest(program, folder, (), sent, asks, said.runs)
            print(f"| lists {way} | {times} | {asks:,} | {elapsed:,.0f} | {busy:,.0f} | {kinds_of(answers)} |", flush=True)


def print_start(program, said):
    best = {}
    for _ in range(4 * said.runs):
        for what, words in (("the service", None), ("echo of lines (`cat`)", ["cat"])):
            start = time.perf_counter()
            pipe = Pipe(words) if words else service(program, CLINIC)
            pipe.say(begin="a", context={"Me": 1, "Today": 120})
            best[what] = min(best.get(what, 1e9), (time.perf_counter() - start) * 1e3)
            pipe.end()
    print("\n| from the start until the first line is answered | ms |\n|---|---|")
    for what, found in best.items():
        print(f"| {what} | {found:.1f} |", flush=True)


def print_memory(program, said):
    pipe, sent, done, row = service(program, CLINIC), 0, 0, []
    for limit in (said.lines // 1000, said.lines // 10, said.lines):
        while sent < limit:
            lines = []
            for _ in range(min(1000, (limit - sent) // 5)):
                name, first = f"r{done}", sent + len(lines)
                lines += [
                    line_of(begin=name, context={"Me": 1, "Today": 120}),
                    line_of(ask=name, query=COVERED),
                    line_of(told=first + 2, rows=[[1, 7], [1, 8]]),
                    line_of(ask=name, query=SERVED),
                    line_of(end=name),
                ]
                done += 1
            answers = pipe.ahead(b"".join(lines))
            expect(b"fault" in answers or b"blocked" in answers, False, "that a line is refused")
            sent += len(lines)
        row.append(f"| {sent:,} | {pipe.resident():,} |")
    pipe.end()
    print("\n| lines of requests that begin, ask, are told, ask and end | resident KiB |\n|---|---|")
    print("\n".join(row), flush=True)


def print_rows(program, said):
    """What one line takes of the processor after so many told rows, once each."""
    print("\n| told rows | the line that tells them, ms | by proof | by template | refuted |\n|---|---|---|---|---|")
    for many in (100, 1000, 3000, 100000):
        pipe = service(program, CLINIC)
        pipe.say(begin="a", context={"Me": 1, "Today": 120})
        line = pipe.say(ask="a", query=COVERED)["line"]
        cells = []
        for sent in [
            line_of(told=line, rows=[[1, patient] for patient in range(many)]),
            line_of(ask="a", query=f"SELECT Name FROM Patients WHERE PId = {many // 2}"),
            line_of(ask="a", query=f"SELECT Name FROM Patients WHERE PId = {many - 1}"),
            line_of(ask="a", query=f"SELECT Name FROM Patients WHERE PId = {many + 1}"),
        ]:
            before = pipe.seconds()
            answer = json.loads(pipe.trip(sent))
            taken = f"{(pipe.seconds() - before) * 1e3:.1f}"
            cells.append(f"{answer.get('allowed') or answer.get('blocked')}, {taken}" if "request" in answer else taken)
        pipe.end()
        print(f"| {many:,} | {' | '.join(cells)} |", flush=True)


PARTS = {"trips": print_trips, "ahead": print_ahead, "pages": print_pages, "start": print_start, "memory": print_memory, "rows": print_rows}


def main():
    reader = argparse.ArgumentParser(description=__doc__, formatter_class=argparse.RawDescriptionHelpFormatter)
    reader.add_argument("--program", help="the program to measure")
    reader.add_argument("--asks", type=int, default=20000)
    reader.add_argument("--runs", type=int, default=5)
    reader.add_argument("--lines", type=int, default=1000000)
    reader.add_argument("--parts", default=",".join(PARTS))
    said = reader.parse_args()
    program = os.path.abspath(said.program) if said.program else built()
    print(f"{processors()}; commit {told(['git', 'rev-parse', '--short', 'HEAD'])}; best of {said.runs} runs.")
    for part in said.parts.split(","):
        PARTS[part](program, said)


if __name__ == "__main__":
    main()
