"""Cells and times of the term heap, by a program that it builds in a fresh folder."""
import os
import pathlib
import shutil
import subprocess
import sys
import tempfile
import time

HALF, WHOLE = 250_000, 500_000
PROGRAM = """\
//! Loads, makes and compares lists of integers in a heap.
#![tactic(auto)]
ghost use Rattle.std.specs.Prelude.{◌≡◌, ◌+◌, ◌<◌, ◌≤◌, length, IfOk};
ghost use Rattle.kh_heap.specs.Heap.{most_cells, Holds};

use kh_heap::{Heap, HeapError, Ref};
use kh_term::{Term, Terms, int, list};
use std::alloc::Global;
use std::io;

// The list of so many integers.
fn numbers(alloc: Global, count: u32) -> Result<Term, HeapError> {
    let mut parts = Terms::new(alloc);
    for i in 0..count {
        parts.push(int(i as i128))?;
    }
    Ok(list(alloc, parts)?)
}

// One integer in front of another so many times.
fn consed(heap: &mut Heap, one: Ref, count: u32) -> Result<Ref, HeapError>
    requires room { length heap.old + count < most_cells }
    requires held { Holds heap.old one }
    ensures held { IfOk result (Holds heap.new) }
    ensures cells { length heap.new ≤ length heap.old + count }
{
    let mut made = one;
    'conses: for _ in 0..count {
        made = heap.cons(one, made)?;
    }
    Ok(made)
}

fn run(alloc: Global, line: &str) -> Result<u64, HeapError> {
    let Some((what, count)) = line.trim().split_once(' ') else {
        return Ok(0);
    };
    let Ok(count) = count.parse::<u32>() else {
        return Ok(0);
    };
    let mut heap = Heap::new(alloc);
    match what {
        "cons" => {
            let one = heap.int(1)?;
            let made = consed(&mut heap, one, count.min(1_000_000))?;
            Ok(heap.size(made))
        }
        "load" => {
            let r = heap.load(&numbers(alloc, count)?)?;
            Ok(1000 * heap.len() as u64 / heap.size(r).max(1))
        }
        _ => {
            let term = numbers(alloc, count)?;
            let first = heap.load(&term)?;
            let second = heap.load(&term)?;
            Ok(heap.equal(first, second) as u64)
        }
    }
}

fn main(rt: HostRuntime) -> io::Result<()> {
    for line in rt.lines(rt.alloc()) {
        match run(rt.alloc(), line?.as_str()) {
            Ok(answer) => println!(rt; "{answer}")?,
            Err(error) => println!(rt; "{error}")?,
        }
    }
    Ok(())
}
"""
INVARIANTS = """\
use Rattle.std.proofs.Common.{◌+◌, ◌≤◌, length}
use Rattle.kh_heap.specs.Heap.{Holds}
use Rattle.heaps.proofs.consed.Given as goal

abbrev pub invariant-conses : goal.invariant-conses
invariant-conses l = record {
  one : Holds l.heap l.one;
  made : Holds l.heap l.made;
  cells : length l.heap ≤ length l.fn.heap + l.counter
}
"""


def built(repository, folder):
    """The program, in a repository of its own beside copies of the crates that it stands on."""
    for name in ("kh_term", "kh_arena", "kh_heap"):
        shutil.copytree(repository / "crates" / name, folder / "crates" / name, ignore=shutil.ignore_patterns("out", "must-fail"))
    (folder / "crates.txt").write_text(
        "kh_term: sqlite_items itoa thiserror\nkh_arena:\nkh_heap: kh_term kh_arena sqlite_items thiserror\nheaps: kh_heap kh_term\n")
    program = folder / "crates/heaps"
    for name, text in (("src/main.rt", PROGRAM), ("proofs/consed/Invariants.antt", INVARIANTS)):
        (program / name).parent.mkdir(parents=True)
        (program / name).write_text(text)
    run = subprocess.run(["rt", "run"], cwd=program, stdin=subprocess.DEVNULL, capture_output=True, text=True)
    if run.returncode != 0:
        sys.exit(run.stdout + run.stderr)
    return program / "out/heaps"


def spent(program, what, count):
    """The least seconds of three runs, and what was said."""
    seconds = []
    for _ in range(3):
        begin = time.monotonic()
        run = subprocess.run([program], input=f"{what} {count}\n".encode(), capture_output=True)
        if run.returncode != 0:
            sys.exit(f"{what} {count:,}: status {run.returncode}, {run.stdout}")
        seconds.append(time.monotonic() - begin)
    return min(seconds), int(run.stdout)


def main(repository):
    with tempfile.TemporaryDirectory() as folder:
        program = built(pathlib.Path(repository), pathlib.Path(folder))
        none, _ = spent(program, "nothing", 0)
        for what, unit in (("load", "a list"), ("compare", "two equal lists"), ("cons", "a list")):
            half, _ = spent(program, what, HALF)
            whole, said = spent(program, what, WHOLE)
            print(f"{what} of {unit} of {WHOLE:,} elements: {WHOLE / (whole - none):,.0f} elements a second, "
                  f"{(whole - none) / (half - none):.2f} times as long as of {HALF:,}; answered {said}")


main(sys.argv[1])
