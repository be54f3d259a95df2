"""Times of the shared pointer and its bytes a node, beside those of `Rc`, by a program that it builds in a fresh folder."""
import os
import pathlib
import shutil
import subprocess
import sys
import tempfile
import time

SHARES = 1000
PROGRAM = """\
//! Makes and drops owners of one value, or keeps values of their own.
#![tactic(auto)]

use kh_shared::{NoMemory, Shared};
use std::alloc::Global;
use std::io;
use std::rc::Rc;

const OWNERS: usize = %d;

fn shares(alloc: Global, rounds: u32) -> Result<(), NoMemory> {
    let first = Shared::new(alloc, 7u64)?;
    let mut owners = Vec::new(alloc);
    for _ in 0..rounds {
        for _ in 0..OWNERS {
            owners.push(first.share())?;
        }
        owners.clear();
    }
    Ok(())
}

fn clones(alloc: Global, rounds: u32) -> Result<(), NoMemory> {
    let first = Rc::new(alloc, 7u64)?;
    let mut owners = Vec::new(alloc);
    for _ in 0..rounds {
        for _ in 0..OWNERS {
            owners.push(first.clone()?)?;
        }
        owners.clear();
    }
    Ok(())
}

fn shared_nodes(alloc: Global, rounds: u32) -> Result<(), NoMemory> {
    let mut nodes = Vec::new(alloc);
    for _ in 0..rounds {
        for _ in 0..OWNERS {
            nodes.push(Shared::new(alloc, 7u64)?)?;
        }
    }
    Ok(())
}

fn counted_nodes(alloc: Global, rounds: u32) -> Result<(), NoMemory> {
    let mut nodes = Vec::new(alloc);
    for _ in 0..rounds {
        for _ in 0..OWNERS {
            nodes.push(Rc::new(alloc, 7u64)?)?;
        }
    }
    Ok(())
}

fn run(alloc: Global, line: &str) -> Result<(), NoMemory> {
    let Some((what, rounds)) = line.trim().split_once(' ') else {
        return Ok(());
    };
    let Ok(rounds) = rounds.parse::<u32>() else {
        return Ok(());
    };
    match what {
        "share" => shares(alloc, rounds),
        "clone" => clones(alloc, rounds),
        "shared" => shared_nodes(alloc, rounds),
        "counted" => counted_nodes(alloc, rounds),
        _ => Ok(()),
    }
}

fn main(rt: HostRuntime) -> io::Result<()> {
    for line in rt.lines(rt.alloc()) {
        if run(rt.alloc(), line?.as_str()).is_err() {
            println!(rt; "out of memory")?;
        }
    }
    Ok(())
}
""" % SHARES


def built(repository, folder):
    """The program, in a repository of its own beside a copy of the pointer's crate."""
    crates = folder / "crates"
    shutil.copytree(repository / "crates/kh_shared", crates / "kh_shared", ignore=shutil.ignore_patterns("out", "must-fail"))
    (folder / "crates.txt").write_text("kh_shared:\npointers: kh_shared\n")
    program = crates / "pointers"
    (program / "src").mkdir(parents=True)
    (program / "src/main.rt").write_text(PROGRAM)
    run = subprocess.run(["rt", "run"], cwd=program, stdin=subprocess.DEVNULL, capture_output=True, text=True)
    if run.returncode != 0:
        sys.exit(run.stdout + run.stderr)
    return program / "out/pointers"


def spent(program, what, rounds):
    """The seconds and the peak of memory in bytes of a run."""
    begin = time.monotonic()
    child = subprocess.Popen([program], stdin=subprocess.PIPE)
    child.stdin.write(b"%s %d\n" % (what, rounds))
    child.stdin.close()
    _, status, usage = os.wait4(child.pid, 0)
    if status != 0:
        sys.exit(f"{what.decode()}: status {status}")
    return time.monotonic() - begin, usage.ru_maxrss * 1024


def main(repository):
    with tempfile.TemporaryDirectory() as folder:
        program = built(pathlib.Path(repository), pathlib.Path(folder))
        none, least = spent(program, b"share", 0)
        for what, name in ((b"share", "shares of a pointer"), (b"clone", "clones of an Rc")):
            seconds = spent(program, what, 100_000)[0] - none
            print(f"{name}, made and dropped: {100_000 * SHARES / seconds / 1e6:.0f} million a second")
        for what, name in ((b"shared", "a shared node of 8 bytes"), (b"counted", "an Rc of 8 bytes")):
            bytes_each = (spent(program, what, 2_000)[1] - least) / (2_000 * SHARES)
            print(f"{name}: {bytes_each:.0f} bytes, with its pointer in a list")


main(sys.argv[1])
