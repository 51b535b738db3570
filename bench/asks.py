"""Questions that the search decides, and what one of them costs the program."""
import collections
import csv
import json
import os
import signal
import sqlite3
import subprocess
import threading
import time
from typing import NamedTuple

from bench import HOME, TIME, expect, write_lines
from smt import Problem
from sql import read_question, read_schema, read_views

# The most lines and requests of a script.
LINES, REQUESTS = 65_536, 8_192


class Ask(NamedTuple):
    """A question, what it stands on, and what is said of it: `proof`, `refuted`, `spent`, `stuck`, or nothing if that isn't known."""

    name: str
    schema: str
    policy: str
    tables: dict  # of rows of texts, by the tables' names
    context: dict
    before: list  # of questions that are answered before it
    question: str
    said: str
    budget: int = 2_000


class Ran(NamedTuple):
    """A run: its status, or none where it was ended, processor and elapsed seconds, and the greatest memory in KiB."""

    status: object
    used: float
    seconds: float
    kib: int


def read(path):
    with open(path, encoding="utf-8") as it:
        return it.read()


def rows_of(path):
    with open(path, encoding="utf-8", newline="") as it:
        return list(csv.reader(it))[1:]


def example(name, folder, said, budget=2_000):
    """The last question of a worked example."""
    home = f"{HOME}/crates/blockaid_cases/data/{folder}"
    schema = read(f"{home}/S")
    tables = {table: rows_of(f"{home}/t0/{table}.csv") for table in read_schema(schema)}
    begin, *asks = (json.loads(line) for line in read(f"{home}/F").splitlines())
    *before, question = (it["query"] for it in asks)
    return Ask(name, schema, read(f"{home}/P"), tables, begin["context"], before, question, said, budget)


def answer(ask, question):
    """The rows of a question over the tables, as sqlite3 finds them."""
    base = sqlite3.connect(":memory:")
    base.executescript(ask.schema)
    for table, rows in ask.tables.items():
        marks = ", ".join("?" * len(read_schema(ask.schema)[table].columns))
        base.executemany(f"INSERT INTO {table} VALUES ({marks})", rows)
    return sorted(set(base.execute(question)))


def problem(ask):
    """What a solver is asked."""
    schema = read_schema(ask.schema)
    entries = [(read_question(schema, it), list(row)) for it in ask.before for row in answer(ask, it)]
    return Problem(schema, read_views(schema, ask.policy), ask.context, entries, read_question(schema, ask.question))


def write_files(folder, ask):
    os.makedirs(f"{folder}/t0", exist_ok=True)
    write_lines(f"{folder}/schema.sql", [ask.schema])
    write_lines(f"{folder}/policy.sql", [ask.policy])
    for table, rows in ask.tables.items():
        header = [name for name, _ in read_schema(ask.schema)[table].columns]
        with open(f"{folder}/t0/{table}.csv", "w", encoding="utf-8", newline="") as it:
            csv.writer(it, lineterminator="\n").writerows([header, *rows])


def request(ask, is_asked):
    """The lines of a request, with the question or without it."""
    questions = [*ask.before, ask.question] if is_asked else ask.before
    yield json.dumps({"begin": "r", "context": ask.context})
    yield from (json.dumps({"ask": "r", "query": it}) for it in questions)
    yield json.dumps({"end": "r"})


def write_scripts(folder, ask, count, is_asked):
    """Writes so many requests into as many scripts as the limits ask for, alike with and without the question. Gives their names."""
    lines = list(request(ask, is_asked))
    most = min(REQUESTS, LINES // (len(ask.before) + 3))
    names = []
    for first in range(0, count, most):
        names.append(f"script{int(is_asked)}.{first}.jsonl")
        write_lines(f"{folder}/{names[-1]}", lines * min(most, count - first))
    return names


def run(words, folder, out, seconds, kib):
    """Runs a program, with at most so much memory. It is ended when it has had so many seconds."""
    report = f"{folder}/time"
    timed = [TIME, "-q", "-o", report, "-f", "%M"] if os.path.exists(TIME) else []
    limited = ["sh", "-c", f'ulimit -v {kib}; exec "$@"', "sh", *words]
    late = []
    with open(f"{folder}/{out}", "wb") as stdout:
        begun = time.perf_counter()
        child = subprocess.Popen([*timed, *limited], cwd=folder, stdin=subprocess.DEVNULL, stdout=stdout, start_new_session=True)
        timer = threading.Timer(seconds, end, [child.pid, late])
        timer.start()
        _, status, used = os.wait4(child.pid, 0)
        timer.cancel()
        elapsed = time.perf_counter() - begun
    child.returncode = os.waitstatus_to_exitcode(status)
    if late:
        return Ran(None, used.ru_utime + used.ru_stime, elapsed, late[0])
    most = int(read(report).split()[-1]) if timed else used.ru_maxrss
    return Ran(child.returncode, used.ru_utime + used.ru_stime, elapsed, most)


def end(pid, late):
    """Ends a process that was started here, with its children, and keeps the most KiB that the last of them had."""
    late.append(peak((read(f"/proc/{pid}/task/{pid}/children").split() or [pid])[-1]))
    os.killpg(pid, signal.SIGKILL)


def peak(pid):
    lines = read(f"/proc/{pid}/status").splitlines()
    return next((int(it.split()[1]) for it in lines if it.startswith("VmHWM")), 0)


class Program:
    """The program, and the most seconds and KiB of one run."""

    def __init__(self, path, seconds, kib):
        self.path, self.seconds, self.kib = path, seconds, kib

    def run(self, folder, ask, script):
        words = [self.path, "run", "--schema", "schema.sql", "--policy", "policy.sql", "--tables", "t0"]
        words += ["--script", script, "--budget", str(ask.budget)]
        return run(words, folder, "out.jsonl", self.seconds, self.kib)

    def used(self, folder, ask, count, is_asked):
        """The processor seconds of so many requests. Nothing where a run didn't end."""
        total = 0.0
        for script in write_scripts(folder, ask, count, is_asked):
            ran = self.run(folder, ask, script)
            if ran.status is None:
                return None
            expect(ran.status, 0, f"the status of {ask.name}")
            check_lines(folder, ask, is_asked)
            total += ran.used
        return total

    def cost(self, folder, ask, count, runs):
        """The processor seconds that the question adds to a request: the difference of scripts with it and without it, the least of
        some runs each. Nothing where a run didn't end."""
        least = [None, None]
        for _ in range(runs):
            for is_asked in (False, True):
                used = self.used(folder, ask, count, is_asked)
                if used is None:
                    return None
                least[is_asked] = min(used, least[is_asked] or used)
        return (least[True] - least[False]) / count

    def measure(self, folder, ask, most, runs):
        """How often it was asked, and what one costs. It is asked less often where one takes longer than 5 ms, and once where it
        takes longer than a second."""
        write_files(folder, ask)
        count, cost = 1, self.cost(folder, ask, 1, 1)
        if cost is not None and cost < 1:
            count = most if cost <= 0.005 else min(most, int(10 / cost))
            cost = self.cost(folder, ask, count, runs)
        return count, cost

    def once(self, folder, ask):
        """A request without the question, and one with it: how each ran. What the second wrote stays."""
        write_files(folder, ask)
        return [self.run(folder, ask, write_scripts(folder, ask, 1, is_asked)[0]) for is_asked in (False, True)]


def last_said(folder):
    """What the last question's line says, or nothing where it says that memory was wanting."""
    with open(f"{folder}/out.jsonl", "rb") as it:
        lines = [json.loads(line) for line in it]
    line = next((it for it in reversed(lines) if "request" in it), {})
    return line.get("by") or line.get("blocked") or line.get("unread") or "" if len(lines) > 2 and line is lines[-3] else ""


def check_lines(folder, ask, is_asked):
    """Every earlier question was answered, and of this one was said what is said of it. One that is proved leaves a template, which
    answers it when it is asked again."""
    with open(f"{folder}/out.jsonl", "rb") as it:
        *lines, summary = map(json.loads, it)
    requests, each = summary["requests"], len(ask.before) + is_asked
    questions = [it for it in lines if "request" in it]
    expect([len(questions), summary["memory"], summary["unread"]], [requests * each, 0, 0], f"lines of {ask.name}")
    if not is_asked:
        expect(summary["blocked"], 0, f"blocks before {ask.name}")
    elif ask.said:
        found = collections.Counter(it.get("by") or it.get("blocked") for it in questions[each - 1 :: each])
        if ask.said == "proof":
            found["proof"] += found.pop("template", 0)
        expect(dict(found), {ask.said: requests}, f"what is said of {ask.name}")
