#!/usr/bin/env python3
"""Refuses each request for memory of some runs of `blockaid` in turn: that one alone, and it with all later ones.

    bench/refused_memory.py [--program FILE] [--workers N,..] [--cases TOPIC/NAME,..] [--most N]

A run is a worked example (a folder TOPIC/NAME of crates/blockaid_cases/data). The requests are refused by bench/refuse.c, which `cc` compiles and the
program is loaded with. Of each run with a refused request it tests that

- it ends with status 0 or 6, and by no signal;
- what it wrote is whole lines of compact JSON, each legal, and with status 0 the whole text without a line that says `memory`;
- each line is what the same script gives where the lines that found no memory don't stand in it, so that later lines of a request are as
  if such a line had not been. `template` and `proof` are one answer here: a proof whose template found no memory is made once more. Where
  several workers serve a script that publishes, a request may begin before the publish line or behind it: each is compared with what it
  gives alone, over the version that its begin line tells;
- the summary, where it was written, is that of the lines above it.

Prints a Markdown table, and each run that failed a test. Ends with 1 where there was one. --most bounds how many requests of each run are
refused, evenly spread. Without --program it has the repository's own `blockaid` proved and built first.
"""
import argparse
import collections
import json
import os
import platform
import shutil
import subprocess
import sys
import tempfile

HOME = os.path.dirname(os.path.dirname(os.path.abspath(__file__)))
DATA = os.path.join(HOME, "crates", "blockaid_cases", "data")
CASES = (
    "texts/covered_names,search/title_as_first_ask_is_refuted,search/cyclic_link_spends_the_budget,search/title_after_own_attendance,"
    "templates/second_request_by_template,keys/template_of_a_read,sessions/pinned_version_over_a_publish,proofs/checked_proofs_accepted"
)
# A run that takes longer than this many seconds is a failed one.
LONGEST = 60
SUMMARY = ["answered", "blocked", "lines", "memory", "requests", "rows", "unread"]


def compact(data):
    return json.dumps(data, separators=(",", ":"), sort_keys=True, ensure_ascii=False)


class Case:
    """A worked example, run in a folder of its own."""

    def __init__(self, program, shim, name, workers, root):
        self.program, self.shim, self.name, self.workers = program, shim, os.path.basename(name), workers
        self.folder = os.path.join(root, f"{self.name}-{workers}")
        shutil.copytree(os.path.join(DATA, name), self.folder)
        with open(os.path.join(self.folder, "words"), encoding="utf-8") as it:
            self.words = it.read().splitlines()
        self.is_run = self.words[:1] == ["run"]
        if self.is_run:
            if workers != 1:
                self.words += ["--workers", str(workers)]
            with open(os.path.join(self.folder, self.word("--script")), encoding="utf-8") as it:
                self.script = it.read().splitlines()
        self.texts = {}

    def word(self, option):
        return self.words[self.words.index(option) + 1]

    def run(self, at=0, goes_on=False, words=None):
        """The status and the output of a run, and how many requests for memory it made (None where it didn't come to its end)."""
        told = os.path.join(self.folder, "told")
        if os.path.exists(told):
            os.remove(told)
        more = {"LD_PRELOAD": self.shim, "REFUSE_TOLD": told, "REFUSE_AT": str(at)}
        if goes_on:
            more["REFUSE_ON"] = "1"
        ended = subprocess.run(
            ["env", *(f"{name}={value}" for name, value in more.items()), self.program, *(words or self.words)],
            cwd=self.folder, stdin=subprocess.DEVNULL, stdout=subprocess.PIPE, stderr=subprocess.DEVNULL, timeout=LONGEST,
        )
        count = None
        if os.path.exists(told):
            with open(told, encoding="ascii") as it:
                count = int(it.read())
        return ended.returncode, ended.stdout, count

    def lines_without(self, left_out):
        """What the script gives, by the number of each line that isn't left out, where those lines don't stand in it."""
        return self.lines_in([number for number in range(1, len(self.script) + 1) if number not in left_out])

    def lines_in(self, kept):
        """What the lines of these numbers give in this order, by one worker, each with its number in the whole script."""
        key = tuple(kept)
        if key not in self.texts:
            with open(os.path.join(self.folder, "kept"), "w", encoding="utf-8") as it:
                it.write("".join(self.script[number - 1] + "\n" for number in kept))
            words = self.words[: self.words.index("--workers")] if self.workers != 1 else list(self.words)
            words[words.index("--script") + 1] = "kept"
            status, text, _ = self.run(words=words)
            lines = [json.loads(line) for line in text.splitlines()[:-1]]
            if status != 0 or len(lines) != len(kept):
                raise ValueError(f"with the lines {key} alone the script ends with {status}")
            for number, line in zip(kept, lines):
                line["line"] = number
            self.texts[key] = dict(zip(kept, lines))
        return self.texts[key]

    def publishes(self):
        return any("publish" in json.loads(line) for line in self.script)

    def lines_by_request(self, left_out, versions):
        """The same by each request alone, which begins over the version of its begin line. Its script has at most one publish line."""
        found, requests, publishing = {}, {}, []
        for number, text in enumerate(self.script, 1):
            line = json.loads(text)
            if "publish" in line:
                publishing.append(number)
            else:
                requests.setdefault(line.get("begin", line.get("ask", line.get("end"))), []).append(number)
        for number in publishing[:1]:
            found[number] = {"line": number, "publish": json.loads(self.script[number - 1])["publish"], "version": 1}
        for numbers in requests.values():
            first = publishing if versions.get(numbers[0]) else []
            others = set(range(1, len(self.script) + 1)) - set(numbers) - set(first)
            order = first + [number for number in numbers if number not in left_out]
            found.update((number, line) for number, line in self.lines_in(order).items() if number not in others | set(first))
        return found

    def unbegun(self, memory):
        """The numbers of the lines whose request found no memory when it began."""
        found, begun = set(), {}
        for number, text in enumerate(self.script, 1):
            line = json.loads(text)
            if "begin" in line:
                begun[line["begin"]] = number in memory
            elif begun.get(line.get("ask", line.get("read", line.get("end")))):
                found.add(number)
        return found


def by_proof(line):
    """The line (None where none may stand), with each answer by template, also of a key's query, as one by proof."""
    by = line.get("by") if line else None
    if by is None:
        return line
    told = ["proof" if it == "template" else it for it in (by if isinstance(by, list) else [by])]
    return dict(line, by=told)


def same(line, wanted):
    """Whether a line is as it must be, where an answer by template is one by proof too."""
    return by_proof(line) == by_proof(wanted)


def summary_of(case, lines):
    counts = dict.fromkeys(SUMMARY, 0)
    counts["lines"] = len(case.script)
    counts["requests"] = sum("begin" in json.loads(it) for it in case.script)
    for line in lines:
        counts["answered"] += "by" in line
        counts["blocked"] += "blocked" in line
        counts["memory"] += "memory" in line
        counts["unread"] += "unread" in line
        counts["rows"] += len(line.get("rows", []))
    return counts


def fault_of_run(case, status, text):
    """What is wrong with what `run` wrote, or None."""
    lines = []
    for it in text.decode("utf-8").splitlines():
        lines.append(json.loads(it))
        if compact(lines[-1]) != it:
            return f"no compact line: {it}"
    summary = lines.pop() if lines and sorted(lines[-1]) == SUMMARY else None
    if summary is None and status == 0:
        return "status 0 without a summary"
    if summary is not None and (len(lines) != len(case.script) or summary != summary_of(case, lines)):
        return f"summary {compact(summary)}"
    memory = {number for number, line in enumerate(lines, 1) if line == {"line": number, "memory": True}}
    if memory and status == 0:
        return "status 0 with a line that found no memory"
    if not case.unbegun(memory) & set(range(1, len(lines) + 1)) <= memory:
        return "a line of a request that wasn't begun"
    left_out = memory | case.unbegun(memory)
    if case.workers != 1 and case.publishes():
        wanted = case.lines_by_request(left_out, {number: line.get("version") for number, line in enumerate(lines, 1)})
    else:
        wanted = case.lines_without(left_out)
    for number, line in enumerate(lines, 1):
        if number not in memory and not same(line, wanted.get(number)):
            return f"line {number} is {compact(line)}, not {compact(wanted.get(number))}"
    if status == 6 and summary is not None and not memory:
        return "status 6 with a whole text in which no line lacks memory"
    return None


def fault_of(case, status, text, whole):
    """What is wrong with the end of a run, or None."""
    if status not in (0, 6):
        return f"status {status}"
    if text and not text.endswith(b"\n"):
        return f"no whole line: {text!r}"
    if case.is_run:
        return fault_of_run(case, status, text)
    return None if text == whole or (status == 6 and not text) else f"text {text!r}"


def spread(count, most):
    """The numbers from 1 to count, or so many of them evenly spread."""
    if most is None or count <= most:
        return range(1, count + 1)
    return sorted({1 + (count - 1) * it // (most - 1) for it in range(most)})


def kind_of(status, text):
    if not text:
        return "no text"
    memory = text.count(b'"memory":true')
    if status == 0:
        return "status 0"
    return "memory lines" if memory and b'"answered":' in text else "front of the text"


def refuse_all(case, most):
    """Refuses the requests of a case in turn, and prints its lines of the table. Gives how many runs failed a test."""
    status, whole, count = case.run()
    if status == 2 and case.workers != 1:
        print(f"{case.name}: {case.workers} workers aren't taken", file=sys.stderr)
        return 0
    with open(os.path.join(case.folder, "expected"), "rb") as it:
        expected = it.read()
    is_as_wanted = whole == expected if case.workers == 1 else fault_of(case, status, whole, whole) is None
    if not is_as_wanted or count is None:
        print(f"{case.name}: without a refusal it ends with {status} and another text", file=sys.stderr)
        return 1
    failed = 0
    for goes_on in (False, True):
        kinds = collections.Counter()
        for at in spread(count, most):
            try:
                status, text, _ = case.run(at, goes_on)
                fault = fault_of(case, status, text, whole)
                kinds[kind_of(status, text)] += 1
            except (ValueError, subprocess.TimeoutExpired) as error:
                fault = str(error)
            if fault:
                failed += 1
                print(f"{case.name}, {case.workers} workers, request {at}{'..' * goes_on}: {fault}", file=sys.stderr)
        cells = [case.name, case.workers, count, "from there on" if goes_on else "alone", sum(kinds.values())]
        cells += [kinds[it] for it in ("status 0", "no text", "memory lines", "front of the text")]
        print("| " + " | ".join(map(str, cells)) + " |", flush=True)
    return failed


def built():
    """The repository's own program, built and proved if it isn't."""
    told = {"stdout": subprocess.DEVNULL, "stderr": subprocess.DEVNULL}
    subprocess.run([os.path.join(HOME, "blockaid"), "prove"], check=False, **told)
    return os.path.join(HOME, "out", "blockaid")


def main():
    words = argparse.ArgumentParser(description=__doc__, formatter_class=argparse.RawDescriptionHelpFormatter)
    words.add_argument("--program")
    words.add_argument("--workers", default="1,4")
    words.add_argument("--cases", default=CASES)
    words.add_argument("--most", type=int)
    words = words.parse_args()
    program = os.path.abspath(words.program) if words.program else built()
    failed = 0
    with tempfile.TemporaryDirectory() as root:
        shim = os.path.join(root, "refuse.so")
        source = os.path.join(HOME, "bench", "refuse.c")
        subprocess.run(["cc", "-O2", "-shared", "-fPIC", "-o", shim, source], check=True)
        print(f"{os.cpu_count()} processors, {platform.platform()}\n")
        print("| example | workers | requests | refused | runs | status 0 | 6, no text | 6, lines that say so | 6, a front of the text |")
        print("|---|---|---|---|---|---|---|---|---|")
        for name in words.cases.split(","):
            for workers in map(int, words.workers.split(",")):
                case = Case(program, shim, name, workers, root)
                if workers == 1 or case.is_run:
                    failed += refuse_all(case, words.most)
    print(f"\n{failed} runs failed a test.")
    return 1 if failed else 0


if __name__ == "__main__":
    sys.exit(main())
