#!/usr/bin/env python3
"""Measures what the greatest inputs cost `blockaid`, and how it ends where its output can't be written.

    bench/limits.py [--program FILE] [--inputs N,..] [--runs N] [--seconds N] [--memory MIB]

Prints two Markdown tables, which docs/LIMITS.md has. Of each input: how it ended, the processor's seconds of the whole process (the least of the
runs), its peak memory (the greatest of them), and the least stack of some sizes with which it ends alike. A run is ended after so many seconds, and has at
most so much memory; one that is ended so isn't measured further. It needs /usr/bin/time. Without --program it has the
repository's own `blockaid` proved and built first.
"""
import argparse
import contextlib
import datetime
import json
import mmap
import os
import re
import resource
import signal
import subprocess
import sys
import tempfile
import threading

from bench import built, expect, numbers, processors, write_lines, write_text

# The sizes of a stack that are tried, in KiB.
STACKS = [32, 64, 96, 128, 192, 256, 384, 512, 1_024, 2_048, 4_096, 8_192]
# The most bytes of a question, rows of a table, lines and requests of a script, asks of a request, steps.
QUESTION, ROWS, LINES, REQUESTS, ASKS, STEPS = 65_536, 100_000, 65_536, 8_192, 256, 100_000

USERS = "CREATE TABLE Users (UId INT PRIMARY KEY, Name TEXT NOT NULL);\n"
EVENTS = "CREATE TABLE Events (EId INT PRIMARY KEY, Title TEXT NOT NULL, Duration INT NOT NULL);\n"
ATTENDANCES = (
    "CREATE TABLE Attendances (UId INT NOT NULL REFERENCES Users (UId), EId INT NOT NULL REFERENCES Events (EId),"
    " At INT NOT NULL, PRIMARY KEY (UId, EId));\n"
)
STAFF = "CREATE TABLE Staff (Id INT PRIMARY KEY, Boss INT NOT NULL REFERENCES Staff (Id));\n"
OWN = (
    "PARAM MyUId INT;\n"
    "CREATE VIEW V1 AS SELECT UId, Name FROM Users;\n"
    "CREATE VIEW V2 AS SELECT UId, EId, At FROM Attendances WHERE UId = ?MyUId;\n"
    "CREATE VIEW V3 AS SELECT e.EId, e.Title, e.Duration FROM Events e JOIN Attendances a ON a.EId = e.EId WHERE a.UId = ?MyUId;\n"
)


class Input:
    """An input: its files, its words besides, what its last line must hold, and the status that it must end with."""

    def __init__(self, schema, policy, tables, script, wanted, words=(), status=0):
        self.schema, self.policy, self.tables, self.script = schema, policy, tables, script
        self.wanted, self.words, self.status = wanted, list(words), status
        self.is_check = isinstance(script, str)

    def write(self, folder):
        os.makedirs(f"{folder}/t0", exist_ok=True)
        write_text(f"{folder}/schema.sql", self.schema)
        write_text(f"{folder}/policy.sql", self.policy)
        for name, lines in self.tables.items():
            write_lines(f"{folder}/t0/{name}.csv", lines)
        if self.is_check:
            write_text(f"{folder}/proof.json", self.script)
        else:
            write_lines(f"{folder}/script.jsonl", map(json.dumps, self.script))

    def all_words(self):
        files = ["--schema", "schema.sql", "--policy", "policy.sql"]
        if self.is_check:
            return ["check", *files, "--proof", "proof.json", *self.words]
        return ["run", *files, "--tables", "t0", "--script", "script.jsonl", *self.words]


def users(rows):
    return ["UId,Name", *(f"{it},name{it}" for it in range(rows))]


def events(rows):
    return ["EId,Title,Duration", *(f"{it},title{it},{it % 7 * 10 + 10}" for it in range(rows))]


def attendances(pairs):
    return ["UId,EId,At", *(f"{user},{event},{at}" for at, (user, event) in enumerate(pairs))]


def request(*questions, context=None, name="r"):
    return [{"begin": name, "context": context or {}}, *({"ask": name, "query": it} for it in questions)]


def answered(rows, asks=1):
    return {"answered": asks, "blocked": 0, "memory": 0, "rows": rows, "unread": 0}


def blocked(asks=0, rows=0):
    return {"answered": asks, "blocked": 1, "memory": 0, "rows": rows, "unread": 0}


def nothing():
    return Input(USERS, "", {"Users": users(0)}, [], {"lines": 0})


def widest_head(rows):
    question = f"SELECT {', '.join(['UId, Name'] * 128)} FROM Users"
    return Input(USERS, "CREATE VIEW V AS SELECT UId, Name FROM Users;\n", {"Users": users(rows)}, request(question), answered(rows))


def widest_head_proved():
    """A view of each column, joined by the key."""
    views = "CREATE VIEW V1 AS SELECT EId, Title FROM Events;\nCREATE VIEW V2 AS SELECT EId, Duration FROM Events;\n"
    question = f"SELECT {', '.join(['Title, Duration'] * 128)} FROM Events"
    return Input(EVENTS, views, {"Events": events(2)}, request(question), answered(2))


def parts_covered():
    question = f"SELECT Name FROM Users WHERE UId IN ({', '.join(str(it) for it in range(32))})"
    return Input(USERS, "CREATE VIEW V AS SELECT UId, Name FROM Users;\n", {"Users": users(ROWS)}, request(question), answered(32))


def parts_refuted():
    question = f"SELECT Duration FROM Events WHERE EId IN ({', '.join(str(it) for it in range(32))})"
    return Input(EVENTS, "CREATE VIEW V AS SELECT EId, Title FROM Events;\n", {"Events": events(32)}, request(question), blocked())


# Attendances of one user, eight times. Not one of their columns is tied but to the table before it.
EIGHT = [chr(ord("a") + it) for it in range(8)]
CHAINED = "FROM " + ", ".join(f"Attendances {it}" for it in EIGHT) + " WHERE " + " AND ".join(
    f"{left}.UId = {right}.UId" for left, right in zip(EIGHT, EIGHT[1:])
)


def eight_covered():
    view = f"CREATE VIEW V AS SELECT {', '.join(f'{it}.UId, {it}.EId, {it}.At' for it in EIGHT)} {CHAINED};\n"
    tables = {"Users": users(1), "Events": events(2), "Attendances": attendances([(0, 0), (0, 1)])}
    return Input(USERS + EVENTS + ATTENDANCES, view, tables, request(f"SELECT a.At {CHAINED}"), answered(2))


def eight_searched():
    """The view hides a column of the last table, which the question asks for."""
    view = f"CREATE VIEW V AS SELECT {', '.join(f'{it}.UId, {it}.EId' for it in EIGHT)} {CHAINED};\n"
    tables = {"Users": users(1), "Events": events(1), "Attendances": attendances([(0, 0)])}
    return Input(USERS + EVENTS + ATTENDANCES, view, tables, request(f"SELECT h.At {CHAINED}"), None)


def eight_crossed(rows):
    view = f"CREATE VIEW V AS SELECT {', '.join(f'{it}.UId' for it in EIGHT)} FROM {', '.join(f'Users {it}' for it in EIGHT)};\n"
    question = f"SELECT a.UId FROM {', '.join(f'Users {it}' for it in EIGHT)}"
    return Input(USERS, view, {"Users": users(rows)}, request(question), answered(rows))


def eight_under_views():
    """The last of 128 views of the same join is the one that covers."""
    hidden = f"{', '.join(f'{it}.UId, {it}.EId' for it in EIGHT)} {CHAINED}"
    views = [f"CREATE VIEW V{it} AS SELECT {hidden} AND h.At = {it};\n" for it in range(127)]
    views.append(f"CREATE VIEW V127 AS SELECT {hidden};\n")
    tables = {"Users": users(1), "Events": events(1), "Attendances": attendances([(0, 0)])}
    return Input(USERS + EVENTS + ATTENDANCES, "".join(views), tables, request(f"SELECT h.EId {CHAINED}"), answered(1))


def self_join(rows):
    """All rows of a table meet each other, and one row is the answer."""
    view = "CREATE VIEW V AS SELECT UId, EId FROM Attendances;\nCREATE VIEW W AS SELECT a.UId, b.UId FROM Attendances a, Attendances b;\n"
    tables = {"Users": users(1), "Events": events(rows), "Attendances": attendances((0, it) for it in range(rows))}
    question = "SELECT a.UId FROM Attendances a, Attendances b WHERE a.UId = b.UId"
    return Input(USERS + EVENTS + ATTENDANCES, view, tables, request(question), answered(1))


def repeated_link(pairs, rows):
    """A link that has one pair of columns so often."""
    columns, others = ", ".join(["Boss"] * pairs), ", ".join(["Id"] * pairs)
    schema = f"CREATE TABLE Staff (Id INT PRIMARY KEY, Boss INT NOT NULL, FOREIGN KEY ({columns}) REFERENCES Staff ({others}));\n"
    return Input(schema, "", {"Staff": ["Id,Boss", *(f"{it},{it}" for it in range(rows))]}, [], {"lines": 0})


def scans(asks, rows):
    """The answers of a script are kept until the last one is found."""
    question = "SELECT UId, Name FROM Users"
    script = [line for it in range(asks // ASKS) for line in request(*[question] * ASKS, name=f"r{it}")]
    policy = "CREATE VIEW V AS SELECT UId, Name FROM Users;\n"
    asks -= asks % ASKS
    return Input(USERS, policy, {"Users": users(rows)}, script, answered(asks * rows, asks))


def views_covered():
    """The last view is the one that covers."""
    views = [f"CREATE VIEW V{it} AS SELECT UId, Name FROM Users WHERE UId < {it};\n" for it in range(127)]
    views.append("CREATE VIEW V127 AS SELECT UId, Name FROM Users;\n")
    return Input(USERS, "".join(views), {"Users": users(2)}, request("SELECT Name FROM Users"), answered(2))


def views_refuted():
    """No view shows a user whose number is past all bounds."""
    views = [f"CREATE VIEW V{it} AS SELECT UId, Name FROM Users WHERE UId < {it};\n" for it in range(128)]
    return Input(USERS, "".join(views), {"Users": users(2)}, request("SELECT Name FROM Users"), blocked())


def full_trace(question, wanted):
    """A request of as many asks as there may be, the last of them after a row of each other."""
    own = [f"SELECT * FROM Attendances WHERE UId = 0 AND EId = {it}" for it in range(ASKS - 1)]
    tables = {"Users": users(1), "Events": events(ASKS), "Attendances": attendances((0, it) for it in range(ASKS - 1))}
    return Input(USERS + EVENTS + ATTENDANCES, OWN, tables, request(*own, question, context={"MyUId": 0}), wanted)


def trace_proved():
    return full_trace(f"SELECT Title FROM Events WHERE EId = {ASKS - 2}", answered(ASKS, ASKS))


def trace_refuted():
    return full_trace(f"SELECT Title FROM Events WHERE EId = {ASKS - 1}", blocked(ASKS - 1, ASKS - 1))


def wide_entry(rows):
    """A question behind one whose answer has so many rows, each of which is an entry of the trace."""
    tables = {"Users": users(1), "Events": events(rows), "Attendances": attendances((0, it) for it in range(rows))}
    asks = ["SELECT * FROM Attendances WHERE UId = 0", "SELECT Title FROM Events WHERE EId = 0"]
    return Input(USERS + EVENTS + ATTENDANCES, OWN, tables, request(*asks, context={"MyUId": 0}), None)


def all_requests():
    script = [line for it in range(REQUESTS) for line in (*request("SELECT Name FROM Users WHERE UId = 0", name=f"r{it}"), {"end": f"r{it}"})]
    policy = "CREATE VIEW V AS SELECT UId, Name FROM Users;\n"
    return Input(USERS, policy, {"Users": users(1)}, script, {**answered(REQUESTS, REQUESTS), "requests": REQUESTS})


def all_lines():
    asks = LINES // REQUESTS - 1
    script = [line for it in range(REQUESTS) for line in request(*["SELECT Name FROM Users WHERE UId = 0"] * asks, name=f"r{it}")]
    policy = "CREATE VIEW V AS SELECT UId, Name FROM Users;\n"
    return Input(USERS, policy, {"Users": users(1)}, script, {**answered(REQUESTS * asks, REQUESTS * asks), "lines": LINES})


def all_rows(is_asked):
    tables = {"Users": users(ROWS), "Events": events(ROWS), "Attendances": attendances((it, it * 31 % ROWS) for it in range(ROWS))}
    script = request("SELECT UId, Name FROM Users", context={"MyUId": 0}) if is_asked else []
    return Input(USERS + EVENTS + ATTENDANCES, OWN, tables, script, answered(ROWS) if is_asked else {"lines": 0})


def deep_brackets():
    """64 conditions in 32,000 brackets, with spaces behind them up to the most bytes."""
    tests = " AND ".join(["UId = 1"] * 64)
    question = f"SELECT Name FROM Users WHERE {'(' * 32_000}{tests}{')' * 32_000}"
    return Input(
        USERS, "CREATE VIEW V AS SELECT UId, Name FROM Users;\n", {"Users": users(2)}, request(question.ljust(QUESTION)), answered(1)
    )


def long_line():
    """A script whose second line has nearly as many bytes as a file may."""
    script = request("SELECT Name FROM Users" + " " * 67_108_000)
    return Input(USERS, "", {"Users": users(1)}, script, {"unread": 1})


def greatest_schema():
    """64 tables of 32 columns, 16 keys and 16 links."""
    names = [f"T{it}" for it in range(64)]
    columns = [f"C{it}" for it in range(32)]
    text = "".join(
        f"CREATE TABLE {name} ({', '.join(f'{it} INT NOT NULL' for it in columns)}, "
        + ", ".join(f"UNIQUE ({it})" for it in columns[:16])
        + ", "
        + ", ".join(f"FOREIGN KEY ({it}) REFERENCES {names[(at + 1) % 64]} (C0)" for it in columns[16:])
        + ");\n"
        for at, name in enumerate(names)
    )
    tables = {name: [",".join(columns), ",".join("0" * 32)] for name in names}
    policy = "CREATE VIEW V AS SELECT C0 FROM T0;\n"
    return Input(text, policy, tables, request("SELECT C1 FROM T0"), None)


def spent(budget):
    return Input(
        STAFF, "", {"Staff": ["Id,Boss", "1,1"]}, request("SELECT Id FROM Staff"), blocked(), ["--budget", str(budget)]
    )


def longest_proof(steps):
    """Links one after another, which leave the branch open."""
    proof = {"context": {}, "entries": [], "goal": "SELECT Id FROM Staff", "steps": [["link", 0, 0, it] for it in range(steps)], "version": 1}
    return Input(STAFF, "", {}, json.dumps(proof, separators=(",", ":")), {"accepted": False, "open": 1}, status=1)


# Each input by what is greatest in it.
INPUTS = {
    "nothing": nothing,
    "256 columns of 10,000 rows": lambda: widest_head(10_000),
    "256 columns of 100,000 rows": lambda: widest_head(ROWS),
    "256 columns, by proof": widest_head_proved,
    "32 parts, covered": parts_covered,
    "32 parts, refuted": parts_refuted,
    "8 tables joined, covered": eight_covered,
    "8 tables joined, 128 views": eight_under_views,
    "8 tables joined, searched": eight_searched,
    "8 tables crossed, 5 rows each": lambda: eight_crossed(5),
    "8 tables crossed, 7 rows each": lambda: eight_crossed(7),
    "5,000 rows joined with themselves": lambda: self_join(5_000),
    "128 views, covered": views_covered,
    "128 views, refuted": views_refuted,
    "255 entries, by proof": trace_proved,
    "255 entries, refuted": trace_refuted,
    "1,000 rows in the trace": lambda: wide_entry(1_000),
    "9,984 answers of 1,000 rows": lambda: scans(10_000, 1_000),
    "8,192 requests": all_requests,
    "65,536 lines": all_lines,
    "3 tables of 100,000 rows": lambda: all_rows(False),
    "100,000 rows answered": lambda: all_rows(True),
    "64 conditions 32,000 deep": deep_brackets,
    "a line of 64 MiB": long_line,
    "64 tables, 1,024 keys and links": greatest_schema,
    "a link of one pair 10,000 times": lambda: repeated_link(10_000, 1_000),
    "2,000 steps spent": lambda: spent(2_000),
    "10,000 steps spent": lambda: spent(10_000),
    "100,000 steps spent": lambda: spent(STEPS),
    "a proof of 10,000 steps": lambda: longest_proof(10_000),
    "a proof of 100,000 steps": lambda: longest_proof(STEPS),
}


class Ran:
    """The end of a run: its status (below 0 a signal, None where it took too long), its processor seconds, its memory in KiB, the fronts of its
    output's last lines, the last one first."""

    def __init__(self, status, seconds, kib, last):
        self.status, self.seconds, self.kib, self.last = status, seconds, kib, last

    def end(self):
        if self.status is None:
            return "took too long"
        return signal.Signals(-self.status).name if self.status < 0 else f"status {self.status}"


def last_lines(path):
    """The fronts of the last two lines, of 64 KiB at most: a line can have half a gigabyte."""
    size = os.path.getsize(path)
    with open(path, "rb") as it, mmap.mmap(it.fileno(), 0, prot=mmap.PROT_READ) if size else contextlib.nullcontext(b"") as text:
        ends = [size]
        while len(ends) < 3 and ends[-1] > 0:
            ends.append(text.rfind(b"\n", 0, ends[-1] - 1) + 1)
        return [bytes(text[start : min(end, start + 65_536)]).rstrip(b"\n") for end, start in zip(ends, ends[1:])]


def end_program(timed):
    """Ends the program that `time` runs."""
    with open(f"/proc/{timed.pid}/task/{timed.pid}/children", encoding="ascii") as it:
        for pid in it.read().split():
            os.kill(int(pid), signal.SIGKILL)


def run(program, words, folder, given, stack=None):
    """Runs the program once, by `time`; or with a stack of so many KiB, and then without its seconds and its memory.

    (The peak that the system tells of a process is never below that of the process which started it, so this script may not be the one.)"""

    def limited():
        resource.setrlimit(resource.RLIMIT_AS, (given.memory << 20, given.memory << 20))
        if stack:
            resource.setrlimit(resource.RLIMIT_STACK, (stack << 10, stack << 10))

    late = threading.Event()
    timing = [] if stack else ["/usr/bin/time", "-f", "%U %S %M", "-o", f"{folder}/told"]
    with open(f"{folder}/out", "wb") as out:
        child = subprocess.Popen(
            [*timing, program, *words], cwd=folder, stdin=subprocess.DEVNULL, stdout=out, stderr=subprocess.DEVNULL, env={}, preexec_fn=limited
        )
        timer = threading.Timer(given.seconds, lambda: (late.set(), child.kill() if stack else end_program(child)))
        timer.start()
        status = child.wait()
        timer.cancel()
    seconds, kib = 0.0, 0
    if not stack:
        with open(f"{folder}/told", encoding="ascii") as it:
            user, system, most = it.read().splitlines()[-1].split()
        seconds, kib = float(user) + float(system), int(most)
    last = last_lines(f"{folder}/out")
    return Ran(None if late.is_set() else status, seconds, kib, last)


def least_stack(program, words, folder, given, wanted):
    """The least of the sizes with which the run ends alike, in KiB, as a cell."""
    low, high = 0, len(STACKS)
    while low < high:
        middle = (low + high) // 2
        ran = run(program, words, folder, given, STACKS[middle])
        if (ran.status, ran.last) == (wanted.status, wanted.last):
            high = middle
        else:
            low = middle + 1
    return f"{STACKS[low]:,}" if low < len(STACKS) else f"over {STACKS[-1]:,}"


def measure(program, name, given):
    """One line of the table of inputs."""
    case = INPUTS[name]()
    with tempfile.TemporaryDirectory() as folder:
        case.write(folder)
        words = case.all_words()
        runs = []
        while len(runs) < given.runs and (not runs or runs[-1].status == case.status):
            runs.append(run(program, words, folder, given))
        if runs[-1].status != case.status:
            return [name, runs[-1].end(), f"{runs[-1].seconds:.2f}", f"{runs[-1].kib / 1024:.0f}", ""]
        last = json.loads(runs[-1].last[0])
        expect({key: last.get(key) for key in case.wanted or {}}, case.wanted or {}, name)
        said = re.search(rb'"(?:by|blocked|unread)":"(\w+)"', (runs[-1].last + [b""])[1])
        end = said[1].decode() if said else runs[-1].end()
        seconds, kib = min(it.seconds for it in runs), max(it.kib for it in runs)
        return [name, end, f"{seconds:.2f}", f"{kib / 1024:.1f}", least_stack(program, words, folder, given, runs[-1])]


# The ways in which an output can't be written: what is done to a program's standard output before it starts.
def file_limit():
    """A file may have no byte, which the system tells by a signal."""
    resource.setrlimit(resource.RLIMIT_FSIZE, (0, 0))


def file_limit_told():
    """The same, where the caller has the signal ignored."""
    signal.signal(signal.SIGXFSZ, signal.SIG_IGN)
    file_limit()


def closed():
    os.close(1)


def full():
    os.dup2(os.open("/dev/full", os.O_WRONLY), 1)


def unread_pipe():
    """A pipe that nobody reads."""
    read, write = os.pipe()
    os.dup2(write, 1)
    os.close(read)
    os.close(write)


OUTPUTS = {
    "a limit of files' bytes": file_limit,
    "the same, its signal ignored": file_limit_told,
    "closed": closed,
    "a full device": full,
    "a pipe that nobody reads": unread_pipe,
}


def end_over(program, words, folder, prepare):
    with open(f"{folder}/out", "wb") as out:
        status = subprocess.run(
            [program, *words], cwd=folder, stdin=subprocess.DEVNULL, stdout=out, stderr=subprocess.DEVNULL, env={}, preexec_fn=prepare, check=False
        ).returncode
    return Ran(status, 0, 0, []).end()


def table(*columns):
    line(*columns)
    line(*["---"] * len(columns))


def line(*cells):
    print("| " + " | ".join(cells) + " |", flush=True)


def main():
    reader = argparse.ArgumentParser(description=__doc__, formatter_class=argparse.RawDescriptionHelpFormatter)
    reader.add_argument("--program", help="the program to measure")
    reader.add_argument("--inputs", type=numbers, default=list(range(len(INPUTS))), help="numbers of inputs, from 0")
    reader.add_argument("--runs", type=int, default=3)
    reader.add_argument("--seconds", type=int, default=120)
    reader.add_argument("--memory", type=int, default=4_096, help="MiB of address space")
    given = reader.parse_args()
    program = os.path.abspath(given.program) if given.program else built()
    print(f"{datetime.date.today()}, {processors()}; a run has at most {given.seconds} s and {given.memory:,} MiB\n")
    table("input", "ends with", "s", "MiB", "stack KiB")
    for name in (list(INPUTS)[it] for it in given.inputs):
        line(*measure(program, name, given))
    print()
    table("standard output", "ends with")
    with tempfile.TemporaryDirectory() as folder:
        case = nothing()
        case.write(folder)
        for name, prepare in OUTPUTS.items():
            line(name, end_over(program, case.all_words(), folder, prepare))


if __name__ == "__main__":
    sys.exit(main())
