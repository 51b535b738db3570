#!/usr/bin/env python3
"""Measures template files: what loading one costs, and what becomes of files that were changed at random.

    bench/templates.py [--program FILE] [--runs N] [--mutations N] [--seed N]

Prints two tables in Markdown. The first has the elapsed seconds, the processor's, and the greatest memory of a run over an empty script (the least, and the
greatest memory, of so many runs): without a template file; with files of 1, 1,000 and 8,192 templates of three steps, of which no two are equal; with one
template of 100,000 steps. The second says how often each end came of so many runs, each with a stored file that was changed at random: bytes set, left out,
put in and repeated, lines swapped or cut, numbers, names and lists of its JSON changed. Each must end with status 0, 3 or 7; where it ends with 0, each line
must be as without the file, but for what an answer is by; else the one line must tell a fault of the template file. What isn't so is printed, with the seed,
and the status is then 1. Then, of `gen`'s workload, the first line that a run with the file answers by template. Without --program it has the repository's own `blockaid` proved and built first.
"""
import argparse
import collections
import copy
import json
import os
import random
import re
import subprocess
import sys
import tempfile

from bench import built
from sessions import POLICY, SCHEMA, lines_of, write_tables
from workload import least

# The most templates of a file, and steps of one.
TEMPLATES, STEPS = 8_192, 100_000
NAMES = ["--schema", "S", "--policy", "P", "--tables", "t0", "--script", "F"]
REASON = re.compile(
    r"line \d+ (json|field (version|vars|goal|entries|condition|steps|keys)"
    r"|fault (branch|fact|rule|absurd|cond \d+|head \d+) step \d+|open \d+)"
)
STAFF = "CREATE TABLE Staff (Id INT PRIMARY KEY, Boss INT NOT NULL REFERENCES Staff (Id));\n"
SHOWN = "CREATE VIEW V AS SELECT Id FROM Staff;\n"


def write(path, text):
    with open(path, "w", encoding="utf-8", newline="\n") as it:
        it.write(text)


def folder_of(top, name, schema, policy, script):
    """A folder with these files, and the tables of the workload."""
    folder = f"{top}/{name}"
    os.mkdir(folder)
    write_tables(folder)
    write(f"{folder}/S", schema)
    write(f"{folder}/P", policy)
    write(f"{folder}/F", script)
    return folder


def compact(value):
    return json.dumps(value, separators=(",", ":"), ensure_ascii=False) + "\n"


def script_of(first, count, asks=3):
    """The script of so many requests of the workload, from a number on, with so many questions each."""
    return "".join(compact(line) for number in range(first, first + count) for line in lines_of(number, asks))


def stored(program, folder):
    """What `store` prints of the folder's script."""
    return subprocess.run([program, "store", *NAMES], cwd=folder, stdout=subprocess.PIPE, check=True).stdout.decode()


def unequal(line, count):
    """So many templates, each with a further condition of its own."""
    template = json.loads(line)
    atoms = template["condition"]
    lines = []
    for number in range(count):
        template["condition"] = [*atoms, ["<=", number, ["v", 5]]]
        lines.append(compact(template))
    return "".join(lines)


def longest():
    """One template, whose steps are links one after another and then a view and the goal."""
    steps = [["link", 0, 0, it] for it in range(STEPS - 2)]
    steps += [["view", 0, 0, 0, [0]], ["goal", 0, 0, [STEPS - 1]]]
    goal = {"parts": [{"conds": [], "from": ["Staff"], "head": [["c", 0, 0]]}]}
    return compact({"condition": [], "entries": [], "goal": goal, "steps": steps, "vars": [], "version": 1})


def print_loading(program, top, runs):
    print("\n| template file | bytes | elapsed s | processor s | MiB |\n|---|---|---|---|---|")
    empty = folder_of(top, "empty", SCHEMA, POLICY, "")
    learned = folder_of(top, "learned", SCHEMA, POLICY, script_of(0, 1, asks=2))
    line = stored(program, learned).splitlines()[0]
    staff = folder_of(top, "staff", STAFF, SHOWN, "")
    write(f"{staff}/t0/Staff.csv", "Id,Boss\n1,1\n")
    cases = [("none", empty, None), ("none, of the other schema", staff, None)]
    cases += [(f"{count:,} of three steps", empty, unequal(line, count)) for count in (1, 1_000, TEMPLATES)]
    cases.append((f"one of {STEPS:,} steps", staff, longest()))
    for name, folder, text in cases:
        words = [program, "run", *NAMES]
        if text is not None:
            write(f"{folder}/T", text)
            words += ["--load", "T"]
        seconds, elapsed, memory, _ = least(runs, words, folder)
        print(f"| {name} | {len(text or ''):,} | {elapsed:.3f} | {seconds:.3f} | {memory:.0f} |", flush=True)


# --- Changes at random

def changed_bytes(draw, text):
    data = bytearray(text.encode())
    for _ in range(draw.randint(1, 4)):
        at = draw.randrange(len(data) + 1)
        kind = draw.randrange(4)
        if kind == 0 and at < len(data):
            data[at] = draw.randrange(256)
        elif kind == 1:
            del data[at:at + draw.randint(1, 30)]
        elif kind == 2:
            data[at:at] = bytes(draw.randrange(256) for _ in range(draw.randint(1, 4)))
        else:
            data[at:at] = data[at:at + draw.randint(1, 200)]
    return bytes(data)


def changed_lines(draw, text):
    lines = text.splitlines(keepends=True)
    kind = draw.randrange(4)
    if kind == 0:
        draw.shuffle(lines)
    elif kind == 1:
        lines += draw.choices(lines, k=draw.randint(1, 5))
    elif kind == 2:
        lines = lines[:draw.randrange(len(lines) + 1)]
    else:
        lines = [it.replace("\n", draw.choice(["", "\r\n", "\n\n", " \n"])) for it in lines]
    return "".join(lines).encode()


def places(value, path=()):
    """The paths of all that stands in a JSON value."""
    found = [path]
    inside = value.items() if isinstance(value, dict) else enumerate(value) if isinstance(value, list) else ()
    for key, it in inside:
        found += places(it, (*path, key))
    return found


def new_value(draw, old, template):
    """Something in the place of a value of the template."""
    if isinstance(old, int) and draw.random() < 0.8:
        return draw.choice([old + 1, old - 1, 0, 1, 2, 5, 64, 2**32, 2**63, -1, 1.5])
    if isinstance(old, list) and draw.random() < 0.8:
        others = list(old)
        draw.shuffle(others)
        again = copy.deepcopy(old)
        return draw.choice([others, old[:-1], old[1:], [*old, *again[-1:]], [], [*old, *again]])
    if isinstance(old, dict) and draw.random() < 0.5:
        left = dict(old)
        key = draw.choice(list(left)) if left else "x"
        it = left.pop(key, 0)
        if draw.random() < 0.5:
            left[draw.choice(["x", "version", "row", "parts"])] = it
        return left
    of_text = ["INT", "TEXT", "c", "p", "v", "u", "=", "<", "<=", "<>", "is null", "goal", "view", "Events", "MyUId", ""]
    copies = [copy.deepcopy(template.get(it)) for it in ("goal", "steps")]
    return draw.choice([None, True, draw.choice(of_text), draw.randint(-3, 70), *copies])


def changed_json(draw, text):
    lines = text.splitlines(keepends=True)
    at = draw.randrange(len(lines))
    template = json.loads(lines[at])
    for _ in range(draw.randint(1, 3)):
        path = draw.choice([it for it in places(template) if it])
        inside = template
        for key in path[:-1]:
            inside = inside[key]
        inside[path[-1]] = new_value(draw, inside[path[-1]], template)
    lines[at] = compact(template)
    return "".join(lines).encode()


def without_by(text):
    """The lines, but for what an answer is by."""
    lines = [json.loads(it) for it in text.splitlines()]
    return [{key: it for key, it in line.items() if key != "by"} for line in lines]


def end_of(program, folder, plain):
    """How the run with the folder's template file ends, or that it ends as it must not."""
    done = subprocess.run(
        [program, "run", *NAMES, "--load", "T"], cwd=folder, capture_output=True, timeout=60, check=False
    )
    if done.returncode == 0:
        return "loaded" if without_by(done.stdout) == plain else "OTHER LINES"
    if done.returncode not in (3, 7) or done.stdout.count(b"\n") != 1:
        return f"STATUS {done.returncode}"
    fault = json.loads(done.stdout)
    if done.returncode == 7:
        return "too many" if fault.get("what") in ("templates", "bytes") else "OTHER FAULT"
    told = REASON.fullmatch(fault["reason"])
    if fault["file"] != "T" or told is None:
        return "OTHER FAULT"
    word = told[1].split()
    return " ".join(word[:2]) if word[0] == "field" else word[0]


def print_changes(program, top, count, seed):
    """The ends of runs with changed files; gives whether all are as they must be."""
    script = script_of(0, 6)
    folder = folder_of(top, "changed", SCHEMA, POLICY, script)
    text = stored(program, folder)
    plain = without_by(subprocess.run([program, "run", *NAMES], cwd=folder, stdout=subprocess.PIPE, check=True).stdout)
    draw = random.Random(seed)
    ends = collections.Counter()
    for number in range(count):
        change = draw.choice([changed_bytes, changed_lines, changed_json, changed_json])
        data = change(draw, text)
        with open(f"{folder}/T", "wb") as it:
            it.write(data)
        end = end_of(program, folder, plain)
        ends[end] += 1
        if end.isupper() or end.split()[0].isupper():
            print(f"change {number} of seed {seed}: {end}: {data[:2_000]!r}")
    print(f"\n| end of {count:,} changed files, seed {seed} | times |\n|---|---|")
    for end, times in sorted(ends.items()):
        print(f"| {end} | {times:,} |")
    return not any(it.split()[0].isupper() for it in ends)


def print_first(program, top):
    """Which line of a workload is the first that is answered by template, without its file and with it."""
    script = script_of(0, 100)
    folder = folder_of(top, "workload", SCHEMA, POLICY, script)
    write(f"{folder}/T", stored(program, folder))
    for more in ([], ["--load", "T"]):
        told = subprocess.run([program, "run", *NAMES, *more], cwd=folder, stdout=subprocess.PIPE, check=True).stdout
        lines = [json.loads(it) for it in told.splitlines()]
        by = collections.Counter(it["by"] for it in lines if "by" in it)
        first = next(it["line"] for it in lines if it.get("by") == "template")
        print(f"\n{' '.join(more) or 'Without a file'}: the first answer by template is that of line {first}; {dict(by)}")


def main():
    reader = argparse.ArgumentParser(description=__doc__, formatter_class=argparse.RawDescriptionHelpFormatter)
    reader.add_argument("--program", help="the program to measure")
    reader.add_argument("--runs", type=int, default=5)
    reader.add_argument("--mutations", type=int, default=10_000)
    reader.add_argument("--seed", type=int, default=1)
    given = reader.parse_args()
    program = os.path.abspath(given.program) if given.program else built()
    with tempfile.TemporaryDirectory() as top:
        print_loading(program, top, given.runs)
        print_first(program, top)
        is_so = print_changes(program, top, given.mutations, given.seed)
    sys.exit(0 if is_so else 1)


if __name__ == "__main__":
    main()
