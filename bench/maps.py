"""Times of the shared map and its bytes an entry, by a program that it builds in a fresh folder."""
import os
import pathlib
import shutil
import subprocess
import sys
import tempfile
import time

HALF, WHOLE = 100_000, 200_000
PROGRAM = """\
//! Puts, takes and goes over the entries of a map.
#![tactic(auto)]

use kh_pmap::{NoMemory, PMap};
use std::alloc::Global;
use std::io;

type Numbers = PMap<u64, u64>;

// The keys below `count` in a mixed order, each once where 48,271 and `count` have no common divisor.
fn key_at(count: u32, i: u32) -> u64 {
    48_271 * i as u64 % (count as u64).max(1)
}

// A map of so many keys, with a share kept before each.
fn filled(alloc: Global, count: u32) -> Result<Numbers, NoMemory> {
    let mut map = PMap::new(alloc);
    for i in 0..count {
        let older = map.share();
        map = older.with(key_at(count, i), i as u64)?;
    }
    Ok(map)
}

// Takes each key out of the map, with a share kept before each.
fn emptied(full: &Numbers, count: u32) -> Result<Numbers, NoMemory> {
    let mut map = full.share();
    for i in 0..count {
        let older = map.share();
        map = older.without(&key_at(count, i))?;
    }
    Ok(map)
}

// How many entries are passed on the way from the first to the last.
fn steps(map: &Numbers) -> usize {
    let mut next = map.first();
    for step in 0..map.len() {
        match next {
            Some((key, _)) => next = map.next_after(key),
            None => return step,
        }
    }
    map.len()
}

fn run(alloc: Global, line: &str) -> Result<usize, NoMemory> {
    let Some((what, count)) = line.trim().split_once(' ') else {
        return Ok(0);
    };
    let Ok(count) = count.parse::<u32>() else {
        return Ok(0);
    };
    let map = filled(alloc, count)?;
    match what {
        "take" => Ok(emptied(&map, count)?.len()),
        "walk" => Ok(steps(&map)),
        _ => Ok(map.len()),
    }
}

fn main(rt: HostRuntime) -> io::Result<()> {
    for line in rt.lines(rt.alloc()) {
        match run(rt.alloc(), line?.as_str()) {
            Ok(count) => println!(rt; "{count}")?,
            Err(NoMemory) => println!(rt; "out of memory")?,
        }
    }
    Ok(())
}
"""


def built(repository, folder):
    """The program, in a repository of its own beside copies of the crates that it stands on."""
    for name in ("kh_shared", "kh_pmap"):
        shutil.copytree(repository / "crates" / name, folder / "crates" / name, ignore=shutil.ignore_patterns("out", "must-fail"))
    (folder / "crates.txt").write_text("kh_shared: libc\nkh_pmap: kh_shared\nmaps: kh_pmap\n")
    program = folder / "crates/maps"
    (program / "src").mkdir(parents=True)
    (program / "src/main.rt").write_text(PROGRAM)
    run = subprocess.run(["rt", "run"], cwd=program, stdin=subprocess.DEVNULL, capture_output=True, text=True)
    if run.returncode != 0:
        sys.exit(run.stdout + run.stderr)
    return program / "out/maps"


def spent(program, what, count, answer):
    """The least seconds of three runs, and the peak of memory in bytes."""
    seconds = []
    for _ in range(3):
        begin = time.monotonic()
        child = subprocess.Popen([program], stdin=subprocess.PIPE, stdout=subprocess.PIPE)
        child.stdin.write(f"{what} {count}\n".encode())
        child.stdin.close()
        said = child.stdout.read()
        _, status, usage = os.wait4(child.pid, 0)
        if (status, said) != (0, b"%d\n" % answer):
            sys.exit(f"{what} {count:,}: status {status}, {said}")
        seconds.append(time.monotonic() - begin)
    return min(seconds), usage.ru_maxrss * 1024


def main(repository):
    with tempfile.TemporaryDirectory() as folder:
        program = built(pathlib.Path(repository), pathlib.Path(folder))
        none, _ = spent(program, "put", 0, 0)
        puts = {count: spent(program, "put", count, count) for count in (HALF, WHOLE)}
        put = {count: puts[count][0] - none for count in puts}
        take = {count: spent(program, "take", count, 0)[0] - none - put[count] for count in puts}
        for name, each in (("with", put), ("without", take)):
            print(f"{name}, a share kept before each: {HALF / each[HALF]:,.0f} a second over {HALF:,} entries, "
                  f"{WHOLE / each[WHOLE]:,.0f} over {WHOLE:,}; one takes {each[WHOLE] / each[HALF] / 2:.2f} times as long")
        walk = spent(program, "walk", WHOLE, WHOLE)[0] - none - put[WHOLE]
        print(f"next_after {WHOLE:,} times in a row: {walk:.2f} s")
        print(f"bytes an entry of two numbers: {(puts[WHOLE][1] - puts[HALF][1]) / (WHOLE - HALF):.0f}")


main(sys.argv[1])
