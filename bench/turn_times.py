#!/usr/bin/env python3
"""Times calls on a turn of ba_turn: one thread alone, and several at once.

It builds a program in a folder of its own under /tmp, over the crate as it stands, and runs it.
Usage: bench/turn_times.py [ROUNDS]
"""

import pathlib
import shutil
import statistics
import subprocess
import sys
import tempfile

ROWS = [(1, 2_000_000), (2, 200_000), (4, 100_000), (16, 50_000)]

COUNT = """//! A value that keeps its calls.
ghost use Rattle.std.specs.Prelude.{◌≡◌, ◌-◌, ◌<◌, [], ◌∷◌, ◌++◌, vec_len, vec_capacity};

use ba_turn::Storied;
use std::alloc::{AllocError, Global};

#[derive(Drop)]
pub struct Count {
    history: Vec<u32>,
}

impl Storied for Count {
    type Opening = ();

    type Entry = u32;

    ghost opening = { λ _. tt };

    ghost history = { λ v. v.history.items };

    ghost room = { λ v. vec_capacity v.history - vec_len v.history };

    fn reserve(&mut self, calls: u32) -> Result<(), AllocError> {
        self.history.reserve(calls as usize)
    }
}

impl Count {
    pub fn new(alloc: Global) -> Count
        ensures { result.history.items ≡ [] }
    {
        Count {
            history: Vec::new(alloc),
        }
    }

    pub fn call(&mut self, entry: u32)
        requires { vec_len self.old.history < vec_capacity self.old.history }
        ensures history { self.new.history.items ≡ self.old.history.items ++ entry ∷ [] }
        ensures room { vec_capacity self.new.history ≡ vec_capacity self.old.history }
    {
        self.history.push_reserved(entry);
    }
}
"""

LANE = """//! Passes that know how many calls they may make.
ghost use Rattle.std.specs.Prelude.{◌≡◌, ◌+◌, ◌≤◌, ◌<◌, ◌^◌};
ghost use Rattle.ba_turn.specs.Passes.{known_by, IsFree};

use crate::count::Count;
use ba_turn::{Pass, Turn};
use std::sync::Wait;

#[derive(Drop)]
pub struct Lane<'a> {
    turn: &'a Turn<Count>,
    pass: Pass<Count, u32>,
    left: u32,
    ghost free: { IsFree turn.now pass },
    ghost enough: { left ≤ (known_by pass).left },
}

#[derive(Drop)]
pub struct Opener<'a> {
    turn: &'a Turn<Count>,
    pass: Pass<Count, u32>,
    left: u32,
    splits: u32,
    ghost free: { IsFree turn.now pass },
    ghost enough: { left ≤ (known_by pass).left },
    ghost first: { (known_by pass).number ≡ 0 },
    ghost few: { (known_by pass).splits ≡ splits },
}

impl<'a> Lane<'a> {
    fn step<R: Wait>(&mut self, rt: &R) {
        if self.left > 0 {
            let mut held = self.turn.take(rt, &mut self.pass);
            held.value().call(self.left);
            self.turn.put(&mut self.pass, held);
            self.left -= 1;
        }
    }

    pub fn run<R: Wait>(&mut self, rt: &R) {
        for _ in 0..self.left {
            self.step(rt);
        }
    }
}

impl<'a> Opener<'a> {
    pub fn new(turn: &'a Turn<Count>, pass: Pass<Count, u32>, left: u32) -> Opener<'a>
        requires free { IsFree turn.now pass }
        requires left { left ≤ (known_by pass).left }
        requires first { ((known_by pass).number ≡ 0) × ((known_by pass).splits ≡ 0) }
    {
        Opener {
            turn,
            pass,
            left,
            splits: 0,
        }
    }

    pub fn lane(&mut self, calls: u32) -> Option<Lane<'a>> {
        if calls > self.left || self.splits >= 1000 {
            return None;
        }
        let pass = self.turn.split(&mut self.pass, calls);
        self.left -= calls;
        self.splits += 1;
        Some(Lane {
            turn: self.turn,
            pass,
            left: calls,
        })
    }
}
"""

MAIN = """//! Prints the nanoseconds that a call takes. The arguments are the number of threads and the calls of each.
#![tactic(auto)]

mod count;
mod lane;

use ba_turn::Turn;
use count::Count;
use lane::{Lane, Opener};
use std::alloc::{AllocError, Global};
use std::env;
use std::sync::Wait;
use std::thread;
use std::thread::Threads;
use std::time::Instant;

fn lanes<'a>(
    alloc: Global,
    opener: &mut Opener<'a>,
    threads: u32,
    calls: u32,
) -> Result<Vec<Lane<'a>>, AllocError> {
    let mut lanes = Vec::new(alloc);
    for _ in 0..threads {
        if let Some(lane) = opener.lane(calls) {
            lanes.push(lane)?;
        }
    }
    Ok(lanes)
}

fn run_all<'a, R: Threads + Wait + Sync>(rt: &R, lanes: &mut [Lane<'a>]) {
    let threads = lanes.len();
    if threads > 0 {
        thread::for_each_mut(rt, lanes, threads, &|_, lane| lane.run(rt));
    }
}

fn number(words: Option<&String>) -> u32 {
    match words {
        Some(word) => word.as_str().parse::<u32>().unwrap_or(1),
        None => 1,
    }
}

fn main(rt: HostRuntime) -> anyhow::Result<()> {
    let alloc: Global = rt.alloc();
    let mut words = Vec::new(alloc);
    for word in env::args(&rt)? {
        words.push(word)?;
    }
    let threads = number(words.get(1)).min(64);
    let calls = number(words.get(2)).min(10_000_000);
    let allowance = threads.saturating_mul(calls);
    let (turn, pass) = Turn::new(alloc, Count::new(alloc), allowance)?;
    let mut opener = Opener::new(&turn, pass, allowance);
    let mut lanes = lanes(alloc, &mut opener, threads, calls)?;
    let start = Instant::now(&rt)?;
    run_all(&rt, lanes.as_mut_slice());
    let took = start.elapsed(&rt)?;
    let each = took.as_nanos() / (allowance.max(1) as u128);
    println!(rt; "{each}")?;
    Ok(())
}
"""


def build(repository: pathlib.Path, folder: pathlib.Path) -> pathlib.Path:
    """Writes the program's crate beside a copy of ba_turn, proves and builds it."""
    crates = folder / "crates"
    shutil.copytree(
        repository / "crates" / "ba_turn",
        crates / "ba_turn",
        ignore=shutil.ignore_patterns("out", "must-fail"),
    )
    source = crates / "turn_times" / "src"
    source.mkdir(parents=True)
    for name, text in (("count", COUNT), ("lane", LANE), ("main", MAIN)):
        (source / f"{name}.rt").write_text(text)
    shutil.copy(repository / "HANDLES", folder / "HANDLES")
    (folder / "crates.txt").write_text("ba_turn: atomic_table\nturn_times: ba_turn anyhow\n")
    subprocess.run(["git", "init", "-q"], cwd=folder, check=True)
    crate = crates / "turn_times"
    done = subprocess.run(["rt", "run"], cwd=crate, text=True, capture_output=True)
    program = crate / "out" / "turn_times"
    if done.returncode != 0 or not program.exists():
        sys.exit(done.stdout + done.stderr)
    return program


def main() -> None:
    rounds = int(sys.argv[1]) if len(sys.argv) > 1 else 5
    repository = pathlib.Path(__file__).resolve().parent.parent
    with tempfile.TemporaryDirectory(prefix="turn_times_") as folder:
        program = build(repository, pathlib.Path(folder))
        print("threads  calls each  ns a call (least, median, most)")
        for threads, calls in ROWS:
            times = [
                int(subprocess.run([program, str(threads), str(calls)], text=True, capture_output=True, check=True).stdout)
                for _ in range(rounds)
            ]
            print(f"{threads:7}  {calls:10}  {min(times)}, {statistics.median(times):.0f}, {max(times)}")


if __name__ == "__main__":
    main()
