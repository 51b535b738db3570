#!/usr/bin/env python3
"""What a gate costs, crate by crate: runs `rt ci` in a fresh clone of this repository's last commit, looks at the prover's
processes every two seconds, and prints a table of processor seconds: each crate's library or program (with its builds), its
tests, and its wrong bodies (the crate proved once more as their base, and each of them tried over it). Above the table stand the
run's last line, its minutes, and the processor minutes of all that it started. What ends within two seconds may be missed in a
row, and not in the sum.

Usage: bench/gate_cost.py [--clone FOLDER] [--log FILE]   (from nothing: an hour and more; nothing else should run beside it)"""
import argparse
import os
import resource
import shutil
import subprocess
import sys
import tempfile
import threading
import time

HOME = os.path.dirname(os.path.dirname(os.path.abspath(__file__)))
TICKS = os.sysconf("SC_CLK_TCK")
KINDS = ("library", "tests", "wrong bodies")


def words_of(process):
    """The words of a process, or none."""
    try:
        with open(f"/proc/{process}/cmdline", "rb") as file:
            return file.read().decode(errors="replace").split("\0")
    except OSError:
        return []


def seconds_of(process):
    """The process's start, which tells it from a later one with its number, and its processor seconds."""
    with open(f"/proc/{process}/stat", encoding="utf-8") as file:
        fields = file.read().rsplit(")", 1)[1].split()
    return fields[19], (int(fields[11]) + int(fields[12])) / TICKS


def look(clone, seen):
    """Notes what each prover's process of the clone, or of a wrong body, has taken so far."""
    for process in os.listdir("/proc"):
        words = words_of(process) if process.isdigit() else []
        if "rattle" not in os.path.basename(words[0] if words else "") or "--crate-name" not in words:
            continue
        try:
            folder = os.readlink(f"/proc/{process}/cwd")
            start, seconds = seconds_of(process)
        except OSError:
            continue
        is_edit = "rt-edit" in folder
        if is_edit or folder.startswith(clone):
            kind = "wrong bodies" if is_edit else "tests" if "--test" in words else "library"
            name = words[words.index("--crate-name") + 1]
            seen[process, start] = (name, kind, seconds)


def sums_of(seen):
    """Seconds by crate and kind."""
    sums = {}
    for name, kind, seconds in seen.values():
        row = sums.setdefault(name, dict.fromkeys(KINDS, 0.0))
        row[kind] += seconds
    return sums


def print_table(sums):
    print("| crate | library | tests | wrong bodies |\n|---|---|---|---|")
    for name, row in sorted(sums.items(), key=lambda it: -sum(it[1].values())):
        cells = " | ".join(f"{row[kind]:.0f}" if row[kind] >= 1 else "" for kind in KINDS)
        print(f"| `{name}` | {cells} |")
    minutes = " | ".join(f"{sum(row[kind] for row in sums.values()) / 60:.0f}" for kind in KINDS)
    print(f"| minutes | {minutes} |")


def main():
    parser = argparse.ArgumentParser(description=__doc__, formatter_class=argparse.RawDescriptionHelpFormatter)
    parser.add_argument("--clone", help="a folder for the clone, which stays; else a temporary one")
    parser.add_argument("--log", help="a file for what the gate prints, each line behind the minutes so far; "
                        "else it goes to standard error")
    given = parser.parse_args()
    clone = os.path.abspath(given.clone or tempfile.mkdtemp(prefix="gate-cost-"))
    subprocess.run(["git", "clone", "--quiet", HOME, clone], check=True)
    seen, is_done = {}, threading.Event()

    def watch():
        while not is_done.wait(2):
            look(clone, seen)

    watcher = threading.Thread(target=watch, daemon=True)
    watcher.start()
    begun, last = time.time(), ""
    log = open(given.log, "w", encoding="utf-8") if given.log else sys.stderr
    with subprocess.Popen(["bash", ".ci/run"], cwd=clone, stdin=subprocess.DEVNULL, stdout=subprocess.PIPE,
                          stderr=subprocess.STDOUT, text=True, errors="replace") as gate:
        for line in gate.stdout:
            print(f"{(time.time() - begun) / 60:6.1f} {line}", end="", file=log, flush=True)
            last = line.strip() or last
    is_done.set()
    watcher.join()
    used = resource.getrusage(resource.RUSAGE_CHILDREN)
    minutes, processor = (time.time() - begun) / 60, (used.ru_utime + used.ru_stime) / 60
    print(f"{last}; status {gate.returncode}; {minutes:.1f} minutes on {os.cpu_count()} processors, "
          f"{processor:.1f} processor minutes\n")
    print_table(sums_of(seen))
    if not given.clone:
        shutil.rmtree(clone, ignore_errors=True)
    return gate.returncode


if __name__ == "__main__":
    sys.exit(main())
