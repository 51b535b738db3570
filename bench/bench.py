#!/usr/bin/env python3
"""Measures `blockaid` on generated inputs, and `sqlite3`, where it is installed, on the same import and selects.

    bench/bench.py [--program FILE] [--rows N,..] [--asks N,..] [--kinds KIND,..] [--sizes N,..] [--runs N]

Prints a Markdown table: seconds (the least of the runs, for the whole process) and peak memory (the greatest of the runs).
Without --program it has the repository's own `blockaid` proved and built first, and measures what was built.
The program's summary is compared with what the generated tables give, and its rows with those of sqlite3, where it ran.
"""
import argparse
import datetime
import itertools
import json
import os
import platform
import shutil
import subprocess
import sys
import tempfile
import time

HOME = os.path.dirname(os.path.dirname(os.path.abspath(__file__)))
TIME = "/usr/bin/time"
# Coprime to each number of rows, so that keys are distinct and not in order.
STEP = 7919

SCHEMA = """CREATE TABLE Users (UId INT PRIMARY KEY, Name TEXT NOT NULL);
CREATE TABLE Events (EId INT PRIMARY KEY, Title TEXT NOT NULL, Duration INT NOT NULL);
CREATE TABLE Attendances (UId INT NOT NULL REFERENCES Users (UId), EId INT NOT NULL REFERENCES Events (EId), At INT NOT NULL, PRIMARY KEY (UId, EId));
"""
POLICY = """PARAM MyUId INT;
CREATE VIEW V1 AS SELECT UId, Name FROM Users;
CREATE VIEW V2 AS SELECT EId, Title FROM Events;
CREATE VIEW V3 AS SELECT UId, EId, At FROM Attendances WHERE UId = ?MyUId;
"""
# A request has at most this many asks; a script of more has several requests.
ASKS_OF_REQUEST = 256


class Kind:
    """A kind of question: its text for a number, how many rows it has over tables of so many rows, whether it is answered, and the
    view that its policy has besides."""

    def __init__(self, question, rows_of_one, is_answered, view=""):
        self.question, self.rows_of_one, self.is_answered, self.view = question, rows_of_one, is_answered, view


# Joins along keys, by the number of their tables. `u` or `a` has the user's number.
JOINS = {
    2: "FROM Events e, Attendances a WHERE a.EId = e.EId",
    3: "FROM Users u, Attendances a, Events e WHERE a.UId = u.UId AND e.EId = a.EId",
    8: "FROM Users u, Attendances a, Events e, Attendances b, Events f, Users v, Attendances c, Events g"
    " WHERE a.UId = u.UId AND e.EId = a.EId AND b.UId = a.UId AND b.EId = e.EId AND f.EId = b.EId AND v.UId = b.UId"
    " AND c.UId = v.UId AND c.EId = f.EId AND g.EId = c.EId",
}


def joined(tables):
    """What one user attends, by a join of so many tables. One view shows it of everyone."""
    return Kind(
        lambda n, rows: f"SELECT e.Title, a.At {JOINS[tables]} AND a.UId = {n * STEP % rows}",
        lambda rows: 1,
        True,
        f"CREATE VIEW J AS SELECT e.Title, a.At, a.UId {JOINS[tables]};\n",
    )


def of_users(n, rows):
    """The names of 32 users: a union of as many parts."""
    numbers = ", ".join(str((32 * n + it) * STEP % rows) for it in range(32))
    return f"SELECT Name FROM Users WHERE UId IN ({numbers})"


def long_list(size):
    """A question of about so many bytes, with an IN list. From 33 constants on it has too many parts."""
    text = "SELECT Name FROM Users WHERE UId IN (1"
    return text + ", 7" * ((size - len(text) - 1) // 3) + ")"


def deep_brackets(size):
    """A question of about so many bytes, with brackets around its condition."""
    depth = (size - len("SELECT Name FROM Users WHERE UId = 1")) // 2
    return "SELECT Name FROM Users WHERE " + "(" * depth + "UId = 1" + ")" * depth


def joined_tests(size):
    """A question of about so many bytes, with conditions joined by AND. From 65 of them on a part has too many."""
    text = "SELECT Name FROM Users WHERE UId = 1"
    return text + " AND UId = 1" * ((size - len(text)) // len(" AND UId = 1"))


def many_sources(size):
    """A question of about so many bytes, with as many sources as columns that none of them has."""
    pairs = (size - len("SELECT x FROM Users")) // len(", x, Users")
    return "SELECT x" + ", x" * pairs + " FROM Users" + ", Users" * pairs


# Texts of questions, by what makes them long.
TEXTS = {"IN list": long_list, "brackets": deep_brackets, "AND": joined_tests, "sources": many_sources}


KINDS = {
    # One row by its key.
    "point": Kind(lambda n, rows: f"SELECT Name FROM Users WHERE UId = {n * STEP % rows}", lambda rows: 1, True),
    # Every row, in order.
    "scan": Kind(lambda n, rows: "SELECT Title, EId FROM Events", lambda rows: rows, True),
    # One's own row: the view of the request's user covers it.
    "own": Kind(lambda n, rows: "SELECT At FROM Attendances WHERE UId = 0", lambda rows: 1, True),
    # One row by a join along keys.
    "join2": joined(2),
    "join3": joined(3),
    "join8": joined(8),
    # 32 rows, each by its key.
    "union32": Kind(of_users, lambda rows: 32, True),
    # No view shows it.
    "blocked": Kind(lambda n, rows: f"SELECT Duration FROM Events WHERE EId = {n}", lambda rows: 0, False),
}

# More rows than this in all answers of a script are left out: the program keeps its answers until the last one is found.
MOST_ANSWERED = 2_000_000


def write_lines(path, lines):
    with open(path, "w", encoding="utf-8", newline="") as it:
        for line in lines:
            it.write(line + "\n")


def write_text(path, text):
    with open(path, "w", encoding="utf-8") as it:
        it.write(text)


def users(rows):
    return (f"{n * STEP % rows},name{n}" for n in range(rows))


def events(rows):
    return (f"{n * STEP % rows},title{n},{n % 7 * 10 + 10}" for n in range(rows))


def attendances(rows):
    return (f"{n * STEP % rows},{n * 31 % rows},{n}" for n in range(rows))


TABLES = [("Users", "UId,Name", users), ("Events", "EId,Title,Duration", events), ("Attendances", "UId,EId,At", attendances)]


def with_header(header, lines):
    yield header
    yield from lines


def make_tables(folder, rows):
    """Writes schema, policy with no view besides, and the table set, and for sqlite3 the same rows with no header."""
    os.makedirs(f"{folder}/t0")
    for table, header, lines in TABLES:
        write_lines(f"{folder}/t0/{table}.csv", with_header(header, lines(rows)))
        write_lines(f"{folder}/{table}.rows", lines(rows))
    write_text(f"{folder}/schema.sql", SCHEMA)
    write_text(f"{folder}/policy.sql", POLICY)


def as_sql(question):
    """A select of the question's answer: its rows in rising order, without repeats."""
    columns = question.split(" FROM ")[0].count(",") + 1
    order = ", ".join(str(it + 1) for it in range(columns))
    return f"{question.replace('SELECT', 'SELECT DISTINCT', 1)} ORDER BY {order};"


def requests_of(asks):
    return (asks + ASKS_OF_REQUEST - 1) // ASKS_OF_REQUEST


def lines_of(questions):
    """The lines of a script: a request of user 0 for each so many questions."""
    for n, question in enumerate(questions):
        name = f"r{n // ASKS_OF_REQUEST}"
        if n % ASKS_OF_REQUEST == 0:
            yield json.dumps({"begin": name, "context": {"MyUId": 0}})
        yield json.dumps({"ask": name, "query": question})


def make_scripts(folder, questions):
    """Writes the script, and for sqlite3 the same import, its constraints and selects."""
    write_lines(f"{folder}/script.jsonl", lines_of(questions))
    statements = ["PRAGMA foreign_keys = ON;", SCHEMA.rstrip(), ".mode csv"]
    statements += [f".import {table}.rows {table}" for table, _, _ in TABLES]
    statements += [as_sql(it) for it in questions]
    write_lines(f"{folder}/script.sql", statements)


def run(words, folder, given, out):
    """Runs a program once. Returns its status, the seconds that it took and the KiB of memory that it had at most."""
    report = f"{folder}/time"
    if os.path.exists(TIME):
        words = [TIME, "-q", "-o", report, "-f", "%M", *words]
    with open(given, "rb") as stdin, open(out, "wb") as stdout:
        begun = time.perf_counter()
        child = subprocess.Popen(words, cwd=folder, stdin=stdin, stdout=stdout)
        # Without `time` the memory of this script, from before the program was started, counts too.
        _, status, used = os.wait4(child.pid, 0)
        seconds = time.perf_counter() - begun
    child.returncode = os.WEXITSTATUS(status) if os.WIFEXITED(status) else 128 + os.WTERMSIG(status)
    if not os.path.exists(TIME):
        return child.returncode, seconds, used.ru_maxrss
    with open(report, encoding="utf-8") as it:
        return child.returncode, seconds, int(it.read().split()[-1])


def measure(words, folder, given, out, runs):
    """The least of the seconds and the greatest of the memory of some runs. What the last one wrote stays in `out`."""
    found = []
    for _ in range(runs):
        status, *figures = run(words, folder, given, out)
        expect(status, 0, f"the status of {words[0]}")
        found.append(figures)
    return min(it[0] for it in found), max(it[1] for it in found)


def expect(found, wanted, what):
    if found != wanted:
        sys.exit(f"bench: {what}: found {found}, wanted {wanted}")


def check_summary(path, asks, rows, is_answered):
    with open(path, "rb") as it:
        for line in it:
            pass
    summary = json.loads(line)
    answered = asks if is_answered else 0
    found = [summary[key] for key in ("answered", "blocked", "lines", "memory", "rows", "unread")]
    expect(found, [answered, asks - answered, asks + requests_of(asks), 0, rows, 0], "the summary")


def rows_printed(path):
    """The rows of all answers, one after another, each as a record of CSV."""
    with open(path, "rb") as it:
        answers = (line for line in map(json.loads, it) if "by" in line)
        for answer in answers:
            yield from (",".join(map(str, row)) for row in answer["rows"])


def check_rows(path, of_sqlite):
    with open(of_sqlite, encoding="utf-8", newline="") as it:
        records = (line.rstrip("\r\n") for line in it)
        for row, record in itertools.zip_longest(rows_printed(path), records):
            expect(row, record, "a row")


WORDS = ["run", "--schema", "schema.sql", "--policy", "policy.sql", "--tables", "t0", "--script", "script.jsonl"]


def cells_of(figures):
    cells = [cell for seconds, kib in figures for cell in (f"{seconds:.3f}", f"{kib / 1024:.1f}")]
    return cells + ["", ""] * (2 - len(figures))


def case(program, folder, name, rows, asks, runs):
    """One line of the table."""
    kind = KINDS[name]
    answered = asks * kind.rows_of_one(rows)
    write_text(f"{folder}/policy.sql", POLICY + kind.view)
    make_scripts(folder, [kind.question(n, rows) for n in range(asks)])
    out, of_sqlite = f"{folder}/out.jsonl", f"{folder}/out.csv"
    figures = [measure([program, *WORDS], folder, os.devnull, out, runs)]
    check_summary(out, asks, answered, kind.is_answered)
    if kind.is_answered and shutil.which("sqlite3"):
        figures.append(measure(["sqlite3", "-batch"], folder, f"{folder}/script.sql", of_sqlite, runs))
        check_rows(out, of_sqlite)
    return "| " + " | ".join([name, f"{rows:,}", f"{asks:,}", *cells_of(figures)]) + " |"


def seconds_of_texts(program, folder, text, asks, runs):
    make_scripts(folder, [text] * asks)
    return measure([program, *WORDS], folder, os.devnull, f"{folder}/out.jsonl", runs)[0]


def text_case(program, folder, name, size, runs):
    """One line of the table of texts: microseconds to read one question, over those that the rest of a run takes."""
    text = TEXTS[name](size)
    few, many = 1, max(2, min(4096, 8_000_000 // size))
    begun, ended = (seconds_of_texts(program, folder, text, asks, runs) for asks in (few, many))
    return f"| {name} | {len(text):,} | {(ended - begun) / (many - few) * 1e6:.1f} |"


def told(words):
    """What a command says, or nothing."""
    try:
        return subprocess.run(words, cwd=HOME, capture_output=True, text=True, check=True).stdout.strip()
    except (OSError, subprocess.CalledProcessError):
        return ""


def processors():
    model = platform.processor() or platform.machine()
    try:
        with open("/proc/cpuinfo", encoding="utf-8") as it:
            model = next((line.split(":")[1].strip() for line in it if line.startswith("model name")), model)
    except OSError:
        pass
    return f"{os.cpu_count()} processors, {model}"


def built():
    """The repository's proved program, which `blockaid` proves and builds where that is still to be done."""
    example = f"{HOME}/examples/first-run"
    words = [f"{HOME}/blockaid", "run", "--schema", f"{example}/schema.sql", "--policy", f"{example}/policy.sql"]
    words += ["--tables", f"{example}/t0", "--script", f"{example}/script.jsonl"]
    with open(f"{example}/expected.jsonl", "rb") as it:
        wanted = it.read()
    proved = {**os.environ, "BLOCKAID_PROVED": "1"}
    expect(subprocess.run(words, stdout=subprocess.PIPE, check=False, env=proved).stdout, wanted, "the example's lines")
    return f"{HOME}/out/blockaid"


def numbers(text):
    return [int(it) for it in text.split(",")]


def main():
    reader = argparse.ArgumentParser(description=__doc__, formatter_class=argparse.RawDescriptionHelpFormatter)
    reader.add_argument("--program", help="the program to measure")
    reader.add_argument("--rows", type=numbers, default=[1_000, 10_000, 100_000])
    reader.add_argument("--asks", type=numbers, default=[0, 1, 1_000, 10_000])
    reader.add_argument("--sizes", type=numbers, default=[100, 1_000, 8_000, 65_536], help="bytes of a question")
    reader.add_argument("--kinds", type=lambda text: text.split(","), default=list(KINDS))
    reader.add_argument("--runs", type=int, default=3)
    given = reader.parse_args()
    program = os.path.abspath(given.program) if given.program else built()
    sqlite = told(["sqlite3", "--version"]).split(" ")[0] or "not installed"
    commit = told(["git", "rev-parse", "--short", "HEAD"]) or "unknown"
    print(f"{datetime.date.today()}, {processors()}; commit {commit}; sqlite3 {sqlite}; least of {given.runs} runs.\n")
    print("| kind | rows of a table | asks | blockaid s | blockaid MiB | sqlite3 s | sqlite3 MiB |")
    print("|---|---|---|---|---|---|---|", flush=True)
    for rows in given.rows:
        with tempfile.TemporaryDirectory() as folder:
            make_tables(folder, rows)
            for name in given.kinds:
                for asks in given.asks:
                    if asks * KINDS[name].rows_of_one(rows) <= MOST_ANSWERED and (asks > 0 or name == given.kinds[0]):
                        print(case(program, folder, name, rows, asks, given.runs), flush=True)
    print("\n| text of a question | bytes | microseconds to read it |\n|---|---|---|", flush=True)
    with tempfile.TemporaryDirectory() as folder:
        make_tables(folder, 1)
        for name in TEXTS:
            for size in given.sizes:
                print(text_case(program, folder, name, size, given.runs), flush=True)


if __name__ == "__main__":
    main()
