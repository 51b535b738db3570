#!/usr/bin/env python3
"""Measures audits: of a generated workload, beside the run whose output is audited, and of outputs of nearly 64 MiB.

    bench/audits.py [--program FILE] [--requests N] [--runs N]

Prints tables in Markdown, of the least of the runs (3): processor seconds and the greatest memory of a whole process. A run over outputs of 64 MiB has 3 GiB of
address space at most. First the workload of `gen --seed 7` with N
requests (1000): `run`, `run --proofs`, and `audit` of what that printed. Then outputs that are made for it: answers of all 100,000 rows of a table, each row of which is
tested; and one line that is no answer, of as many small values, as many brackets or as long a text as fit. Each audit must end as it is to end, or for want of memory. Without --program it has
the repository's own `blockaid` proved and built first.
"""
import argparse
import datetime
import os
import subprocess
import tempfile

from bench import built, processors
from sessions import POLICY, SCHEMA, write_tables
from workload import gen, least, run

GREATEST = 67_108_864
SPACE = 3 << 20
ROWS = 100_000
WIDE_SCHEMA = "CREATE TABLE T (Id INT PRIMARY KEY, A TEXT NOT NULL, B INT NOT NULL);\n"
WIDE_POLICY = "CREATE VIEW V AS SELECT Id, A, B FROM T;\n"
BEGIN = '{"begin":"r0","line":1,"version":0}\n'


def given(command):
    return [command, "--schema", "S", "--policy", "P", "--tables", "t0", "--script", "F"]


def write(folder, name, text):
    with open(f"{folder}/{name}", "wb") as it:
        it.write(text if isinstance(text, bytes) else text.encode())


def status_of(words, folder):
    """Processor seconds, greatest memory in MiB, the status and the line of a run that need not end with status 0. (What this process holds would be counted too,
    were it the one that waits.)"""
    limited = ["sh", "-c", f'ulimit -v {SPACE} && exec "$@"', "sh", "/usr/bin/time", "-f", "%U %S %M", "-o", "used", *words]
    done = subprocess.run(limited, cwd=folder, stdout=subprocess.PIPE, stderr=subprocess.DEVNULL)
    with open(f"{folder}/used", encoding="utf-8") as it:
        user, system, memory = map(float, it.read().splitlines()[-1].split())
    return user + system, memory / 1024, done.returncode, done.stdout.decode()


def print_workload(program, said, folder):
    write_tables(folder)
    for name, text in (("S", SCHEMA), ("P", POLICY), ("F", run(gen(program, said.requests, "--print"))[3])):
        write(folder, name, text)
    print("\n| what | processor seconds | MiB | bytes printed |\n|---|---|---|---|")
    for what, more in (("`run`", []), ("`run --proofs`", ["--proofs"])):
        seconds, _, memory, text = least(said.runs, [program, *given("run"), *more], folder)
        print(f"| {what} | {seconds:.3f} | {memory:.0f} | {len(text):,} |", flush=True)
    write(folder, "O", text)
    seconds, _, memory, text = least(said.runs, [program, *given("audit"), "--output", "O"], folder)
    assert text.startswith(b'{"audited":true,'), text
    print(f"| `audit` of that | {seconds:.3f} | {memory:.0f} | {len(text):,} |", flush=True)


def answers():
    """So many answers of all rows as fit, in one request, and the script that asks for them."""
    rows = ",".join(f'[{i},"name{i}",{i * 7}]' for i in range(ROWS))
    line = '{"by":"cover","line":%d,"proof":[{"pairing":[0],"view":0}],"request":"r0","rows":[' + rows + '],"version":0}\n'
    many = GREATEST // (len(line) + 8)
    last = '{"answered":%d,"blocked":0,"lines":%d,"memory":0,"requests":1,"rows":%d,"unread":0}\n' % (many, many + 1, many * ROWS)
    return many, BEGIN + "".join(line % (i + 2) for i in range(many)) + last


def padded(front, piece, back):
    """One answer of a bit less than the greatest output, of so many pieces as fit."""
    return BEGIN + front + piece * ((GREATEST - len(BEGIN + front + back) - 1) // len(piece)) + back + "\n"


def print_great(program, said, folder):
    os.mkdir(f"{folder}/t0")
    write(folder, "t0/T.csv", "Id,A,B\n" + "".join(f"{i},name{i},{i * 7}\n" for i in range(ROWS)))
    many, text = answers()
    asks = '{"ask":"r0","query":"SELECT Id, A, B FROM T"}\n'
    front = '{"by":"cover","line":2,"proof":[],"request":"r0","rows":'
    print("\n| an output of 64 MiB | processor seconds | MiB | ends with |\n|---|---|---|---|")
    for what, output, wanted in (
        (f"{many} answers of {ROWS:,} rows", text, (0, '{"audited":true,')),
        ("rows of one number", padded(front + "[[0]", ",[0]", '],"version":0}'), (1, '"reason":"rows"')),
        ("numbers in place of rows", padded(front + "[0", ",0", '],"version":0}'), (1, '"reason":"shape"')),
        ("brackets", padded(front, "[", '],"version":0}'), (1, '"reason":"json"')),
        ("a text", padded(front + '[["', "x", '"]],"version":0}'), (1, '"reason":"rows"')),
        ("steps", padded('{"by":"proof","line":2,"proof":[["absurd",0]', ',["absurd",0]', '],"request":"r0","rows":[],"version":0}'), (1, '"reason":"by"')),
        ("line feeds", BEGIN + "\n" * (GREATEST - len(BEGIN)), (1, '"reason":"json"')),
    ):
        for name, part in (("S", WIDE_SCHEMA), ("P", WIDE_POLICY), ("F", '{"begin":"r0","context":{}}\n' + asks * many), ("O", output)):
            write(folder, name, part)
        done = [status_of([program, *given("audit"), "--output", "O"], folder) for _ in range(said.runs)]
        status, line = done[-1][2:]
        assert (status == 6 and not line) or (status == wanted[0] and wanted[1] in line), (what, status, line)
        print(f"| {what} | {min(it[0] for it in done):.2f} | {max(it[1] for it in done):.0f} | {line.strip() or 'status 6'} |", flush=True)


def main():
    parser = argparse.ArgumentParser(description=__doc__, formatter_class=argparse.RawDescriptionHelpFormatter)
    parser.add_argument("--program")
    parser.add_argument("--requests", type=int, default=1000)
    parser.add_argument("--runs", type=int, default=3)
    said = parser.parse_args()
    program = os.path.abspath(said.program) if said.program else built()
    print(f"{datetime.date.today()}, {processors()}, {said.requests:,} requests.")
    with tempfile.TemporaryDirectory() as folder:
        print_workload(program, said, folder)
    with tempfile.TemporaryDirectory() as folder:
        print_great(program, said, folder)


if __name__ == "__main__":
    main()
