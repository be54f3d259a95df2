"""Times of searches and of reading conditions, by a program that it builds in a fresh folder."""
import pathlib
import shutil
import subprocess
import sys
import tempfile
import time

SEARCHES = 100_000
HALF, WHOLE = 50_000, 100_000
CRATES = ("kh_counts", "kh_term", "kh_regexes", "kh_cond")
PROGRAM = """\
//! Searches names, and reads conditions.
#![tactic(auto)]

use kh_cond::read_cond;
use kh_regexes::{Patterns, RegexPatterns};
use kh_term::{NoMemory, Term, Terms, list, pair, word};
use std::alloc::Global;
use std::io;

const NAME: &[u8] = b"oak-tree-of-20-bytes";

// An engine with so many texts, of which the last is found in the name.
fn prepared(alloc: Global, count: u32) -> Result<RegexPatterns, NoMemory> {
    let mut patterns = RegexPatterns::new(alloc)?;
    for left in 0..count {
        let text = format!(in alloc; "^oak.*[0-9]{{2}}-bytes.{{0,{left}}}$")?;
        if patterns.count() == u32::MAX || patterns.prepare(text.as_str()).is_err() {
            return Err(NoMemory);
        }
    }
    Ok(patterns)
}

// Whether a text is found in the name, looked up as a judgement does.
fn is_found(patterns: &mut RegexPatterns, text: &str) -> Result<bool, NoMemory> {
    match patterns.find(text) {
        Some(id) if id < patterns.count() => patterns.matches(id, NAME),
        _ => Ok(false),
    }
}

fn searches(alloc: Global, texts: u32, count: u32) -> Result<u32, NoMemory> {
    let mut patterns = prepared(alloc, texts)?;
    let last = format!(in alloc; "^oak.*[0-9]{{2}}-bytes.{{0,{}}}$", texts.saturating_sub(1))?;
    let mut found = 0u32;
    for _ in 0..count {
        if is_found(&mut patterns, last.as_str())? {
            found = found.saturating_add(1);
        }
    }
    Ok(found)
}

// The condition that a node has so many names at once.
fn names(alloc: Global, count: u32) -> Result<Term, NoMemory> {
    let mut parts = Terms::new(alloc);
    for _ in 0..count {
        parts.push(word(alloc, "oak")?)?;
    }
    pair(alloc, word(alloc, "if_all")?, list(alloc, parts)?)
}

fn run(alloc: Global, line: &str) -> Result<u32, NoMemory> {
    let Some((what, count)) = line.trim().split_once(' ') else {
        return Ok(0);
    };
    let Ok(count) = count.parse::<u32>() else {
        return Ok(0);
    };
    match what {
        "one" => searches(alloc, 1, count),
        "many" => searches(alloc, 64, count),
        "read" => match read_cond(alloc, &names(alloc, count)?) {
            Ok(_) => Ok(count),
            Err(_) => Ok(0),
        },
        _ => {
            let _term = names(alloc, count)?;
            Ok(count)
        }
    }
}

fn main(rt: HostRuntime) -> io::Result<()> {
    for line in rt.lines(rt.alloc()) {
        match run(rt.alloc(), line?.as_str()) {
            Ok(count) => println!(rt; "{count}")?,
            Err(NoMemory) => println!(rt; "out of memory")?,
        }
    }
    Ok(())
}
"""


def built(repository, folder):
    """The program, in a repository of its own beside copies of the crates that it stands on."""
    listed = [line for line in (repository / "crates.txt").read_text().splitlines() if line.split(":")[0] in CRATES]
    for name in CRATES:
        shutil.copytree(repository / "crates" / name, folder / "crates" / name, ignore=shutil.ignore_patterns("out", "must-fail"))
    (folder / "crates.txt").write_text("\n".join([*listed, "conditions: kh_term kh_counts kh_regexes kh_cond", ""]))
    program = folder / "crates/conditions"
    (program / "src").mkdir(parents=True)
    (program / "src/main.rt").write_text(PROGRAM)
    run = subprocess.run(["rt", "run"], cwd=program, stdin=subprocess.DEVNULL, capture_output=True, text=True)
    if run.returncode != 0:
        sys.exit(run.stdout + run.stderr)
    return program / "out/conditions"


def spent(program, what, count):
    """The least seconds of three runs, each of which answers the count."""
    seconds = []
    for _ in range(3):
        begin = time.monotonic()
        run = subprocess.run([program], input=f"{what} {count}\n".encode(), capture_output=True)
        seconds.append(time.monotonic() - begin)
        if (run.returncode, run.stdout) != (0, b"%d\n" % count):
            sys.exit(f"{what} {count:,}: status {run.returncode}, {run.stdout}")
    return min(seconds)


def main(repository):
    with tempfile.TemporaryDirectory() as folder:
        program = built(pathlib.Path(repository), pathlib.Path(folder))
        one, many = (spent(program, what, SEARCHES) - spent(program, what, 0) for what in ("one", "many"))
        print(f"searches of a name of 20 bytes: {SEARCHES / one:,.0f} a second with 1 text in the list, "
              f"{SEARCHES / many:,.0f} with 64, ratio {many / one:.2f}")
        half, whole = (spent(program, "read", count) - spent(program, "build", count) for count in (HALF, WHOLE))
        print(f"a condition of {HALF:,} parts read in {half:.3f} s, of {WHOLE:,} in {whole:.3f} s, ratio {whole / half:.2f}")


main(sys.argv[1])
