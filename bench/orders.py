#!/usr/bin/env python3
"""Measures searches in two orders: where the late one ends that the first doesn't, and what it costs where the first ends at once.

    bench/orders.py [--program FILE] [--budgets N,..] [--requests N] [--runs N]

Runs each worked example of crates/blockaid_cases that is a run of the words alone with each budget (16, 32, 64, 256, 2000), in one order
and in two, and prints a table in Markdown: how many questions are spent in one order, and how many of these end otherwise in two.
Then the elapsed time of N requests (2000), each with a question that is refuted after few steps, in one order and in two, the least of
the runs (5). Without --program it has the repository's own `blockaid` proved and built first.
"""
import argparse
import collections
import json
import os
import subprocess
import tempfile
import time

from bench import HOME, built
from sessions import POLICY, SCHEMA, write_tables

CASES = f"{HOME}/crates/blockaid_cases/data"


def cases():
    """The folders of the examples that are runs whose words are but the four names and perhaps a budget."""
    for folder, _, files in sorted(os.walk(CASES)):
        if "words" in files and "F" in files:
            with open(f"{folder}/words", encoding="utf-8") as it:
                words = it.read().split("\n")
            if words[0] == "run" and not {"--load", "--workers", "--orders", "--proofs"} & set(words):
                yield folder


def ends(program, folder, budget, orders):
    """How each question of a script ends: by its line, what it is blocked by or what answers it."""
    words = [program, "run", "--schema", "S", "--policy", "P", "--tables", "t0", "--script", "F"]
    words += ["--budget", str(budget), "--orders", str(orders)]
    told = subprocess.run(words, cwd=folder, stdout=subprocess.PIPE, stderr=subprocess.DEVNULL, check=False).stdout
    found = {}
    for text in told.splitlines():
        line = json.loads(text)
        if "blocked" in line and "line" in line:
            found[line["line"]] = line["blocked"]
        elif "by" in line:
            found[line["line"]] = line["by"]
    return found


def tell_ends(program, budgets):
    print("| budget | questions spent in one order | of these in two orders |\n|---|---|---|")
    for budget in budgets:
        spent, otherwise = 0, collections.Counter()
        for folder in cases():
            one, two = (ends(program, folder, budget, orders) for orders in (1, 2))
            for line in (it for it, end in one.items() if end == "spent"):
                spent += 1
                otherwise[two.get(line)] += 1
        told = ", ".join(f"{kind} {count}" for kind, count in sorted(otherwise.items(), key=str))
        print(f"| {budget} | {spent} | {told} |")


def script_of(requests):
    """A script whose requests ask for the title of an event each that the user isn't known to attend, which is refuted."""
    lines = []
    for number in range(requests):
        name = f"q{number}"
        text = f"SELECT Title FROM Events WHERE EId = {number}"
        lines += [{"begin": name, "context": {"MyUId": 2}}, {"ask": name, "query": text}, {"end": name}]
    return "".join(json.dumps(line) + "\n" for line in lines)


def seconds(program, folder, orders):
    words = [program, "run", "--schema", "S", "--policy", "P", "--tables", "t0", "--script", "F", "--orders", str(orders)]
    begun = time.monotonic()
    subprocess.run(words, cwd=folder, stdout=subprocess.DEVNULL, check=True)
    return time.monotonic() - begun


def tell_times(program, requests, runs):
    print("| refuted questions | seconds in one order | in two | times |\n|---|---|---|---|")
    with tempfile.TemporaryDirectory() as folder:
        write_tables(folder)
        for name, text in (("S", SCHEMA), ("P", POLICY), ("F", script_of(requests))):
            with open(f"{folder}/{name}", "w", encoding="utf-8") as it:
                it.write(text)
        one, two = (min(seconds(program, folder, orders) for _ in range(runs)) for orders in (1, 2))
        print(f"| {requests} | {one:.3f} | {two:.3f} | {two / one:.2f} |")


def main():
    parser = argparse.ArgumentParser()
    parser.add_argument("--program")
    parser.add_argument("--budgets", default="16,32,64,256,2000")
    parser.add_argument("--requests", type=int, default=2000)
    parser.add_argument("--runs", type=int, default=5)
    given = parser.parse_args()
    program = os.path.abspath(given.program) if given.program else built()
    tell_ends(program, [int(it) for it in given.budgets.split(",")])
    print()
    tell_times(program, given.requests, given.runs)


if __name__ == "__main__":
    main()
