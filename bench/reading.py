#!/usr/bin/env python3
"""Measures how a question's text is read, alone: python3 bench/reading.py [--before FOLDER] [--runs N]

Proves and builds the program bench/programs/reading_bench.txt over ba_sql_query in a folder of its own, and prints a table in
Markdown, a line for each text that bench/bench.py reads: the instructions to read it, as valgrind's callgrind counts them,
and the processor time, each the difference of two runs by the further readings of the second.

With --before the same program is built over the crates of another clone too, such as one of an earlier commit, so that both
are measured on one machine. Of the times the least of so many runs (5 if it isn't said) is taken, one program's after the
other's.
"""

import argparse
import pathlib
import subprocess
import sys
import tempfile

from bench import TEXTS, processors
from built import HOME, build, microseconds

CRATES = ["ba_model", "ba_lex", "ba_grammar", "ba_sql_syntax", "ba_sql_query"]
SIZES = [100, 1_000, 8_000, 65_536]
TEXT = "SELECT Name FROM Users WHERE UId = 1"
MODEL = "use ba_model::{Column, Kind, List, Parameter, Schema, Str, Table};\n"
# As the names stood while the modules of ba_model were public.
MODULES = """use ba_model::list::List;
use ba_model::policy::Parameter;
use ba_model::schema::{Column, Kind, Schema, Table};
use ba_model::text::Str;
"""


def built(folder: str, clone: pathlib.Path) -> pathlib.Path:
    has_modules = "pub mod list;" in (clone / "crates/ba_model/src/lib.rt").read_text()
    instead = {MODEL: MODULES} if has_modules else {}
    uses = "ba_model ba_sql_query"
    return build(pathlib.Path(folder), "reading_bench", uses, CRATES, [TEXT, "1"], clone=clone, instead=instead)


def instructions_of(program: pathlib.Path, count: int, text: str) -> int:
    with tempfile.NamedTemporaryFile() as out:
        words = ["valgrind", "-q", "--tool=callgrind", f"--callgrind-out-file={out.name}", program, text, str(count)]
        subprocess.run(words, check=True, stdout=subprocess.DEVNULL)
        lines = pathlib.Path(out.name).read_text().splitlines()
    return next(int(line.split()[1]) for line in lines if line.startswith("totals:"))


def instructions(program: pathlib.Path, text: str) -> int:
    """Of one reading."""
    count = max(2, 200_000 // len(text))
    return (instructions_of(program, count + 1, text) - instructions_of(program, 1, text)) // count


def times(programs: list[pathlib.Path], text: str, runs: int) -> list[float]:
    """The microseconds of one reading by each program."""
    count = max(3, 20_000_000 // len(text))
    found = [[microseconds(program, [text], count, 1) for program in programs] for _ in range(runs)]
    return [min(it) for it in zip(*found)]


def line(programs: list[pathlib.Path], name: str, size: int, runs: int) -> str:
    text = TEXTS[name](size)
    counts = [instructions(it, text) for it in programs]
    cells = [f"{it:,}" for it in counts]
    if len(counts) > 1:
        cells.append(f"{(counts[-1] / counts[0] - 1) * 100:+.1f} %")
    cells += [f"{it:.1f}" for it in times(programs, text, runs)]
    return f"| {name} | {len(text):,} | " + " | ".join(cells) + " |"


def main() -> None:
    reader = argparse.ArgumentParser(description=__doc__, formatter_class=argparse.RawDescriptionHelpFormatter)
    reader.add_argument("--before", type=pathlib.Path, help="another clone, whose crates are measured too")
    reader.add_argument("--runs", type=int, default=5)
    given = reader.parse_args()
    clones = [given.before.resolve(), HOME] if given.before else [HOME]
    with tempfile.TemporaryDirectory() as first, tempfile.TemporaryDirectory() as second:
        programs = [built(folder, clone) for folder, clone in zip([first, second], clones)]
        print(f"{processors()}; least of {given.runs} runs.\n")
        heads = ["instructions before", "now", "by", "microseconds before", "now"] if given.before else ["instructions", "microseconds"]
        print("| text of a question | bytes | " + " | ".join(heads) + " |\n|" + "---|" * (len(heads) + 2), flush=True)
        for name in TEXTS:
            for size in SIZES:
                print(line(programs, name, size, given.runs), flush=True)


if __name__ == "__main__":
    sys.exit(main())
