"""Times of adding nodes below one parent, by a program that it builds in a fresh folder."""
import pathlib
import shutil
import subprocess
import sys
import tempfile
import time

HALF, WHOLE = 50_000, 100_000
PROGRAM = """\
//! Adds nodes below one parent.
#![tactic(auto)]

ghost use Rattle.std.specs.Prelude.{◌≡◌, ◌<◌};

use kh_term::{Bytes, Name, NoMemory, Path, Steps, Weight};
use kh_tree::{Payload, Tree, TreeError};
use std::alloc::Global;
use std::io;
use std::marker::Brand;
use std::sync::ledger::{Blank, Ledger};

#[derive(Clone, Copy, PartialEq, Eq, Drop)]
struct Proc(u32);

impl Weight for Proc {
    ghost weight_of = { λ _. 1 };

    fn weight(&self) -> u64 {
        1
    }
}

// A path of two names, the second of which is a number.
fn path(alloc: Global, number: u32) -> Result<Path, NoMemory> {
    let mut names = Vec::new(alloc);
    names.push(Name::Bin(Bytes::new(Vec::from_slice(alloc, b"n")?)))?;
    names.push(Name::Bin(Bytes::new(Vec::from_slice(alloc, &number.to_be_bytes())?)))?;
    Path::new(names).ok_or(NoMemory)
}

fn added<L: Ledger>(alloc: Global, count: u32, blank: Blank) -> Result<u64, TreeError>
    requires name { blank.name ≡ L.name }
    requires parts { blank.parts ≡ L.parts }
    requires some { 0 < blank.parts }
{
    let mut steps = Steps::<L>::new(blank);
    let mut tree: Tree<Proc> = Tree::new(alloc)?;
    for number in 0..count {
        let path = path(alloc, number)?;
        if tree.payload(&path).is_none() {
            tree = tree.add(&path, Payload::Empty, &mut steps)?;
        }
    }
    Ok(tree.node_count())
}

fn counted(alloc: Global, count: u32) -> Result<u64, TreeError> {
    added::<Brand>(alloc, count, Blank::new(1))
}

fn main(rt: HostRuntime) -> io::Result<()> {
    for line in rt.lines(rt.alloc()) {
        let Ok(count) = line?.as_str().trim().parse::<u32>() else {
            continue;
        };
        match counted(rt.alloc(), count) {
            Ok(nodes) => println!(rt; "{nodes}")?,
            Err(_) => println!(rt; "refused")?,
        }
    }
    Ok(())
}
"""
# The steps are counted by the blank that is handed in.
GHOSTS = """\
use Rattle.trees.proofs.counted.Given as goal

abbrev pub ghosts-added : goal.ghosts-added
ghosts-added a = record { name = a.blank.name; parts = a.blank.parts }
"""


def built(repository, folder):
    """The program, in a repository of its own beside copies of the crates that it stands on."""
    crates = ("kh_term", "kh_shared", "kh_pmap", "kh_tree")
    for name in crates:
        shutil.copytree(repository / "crates" / name, folder / "crates" / name, ignore=shutil.ignore_patterns("out", "must-fail"))
    lines = (repository / "crates.txt").read_text().splitlines()
    kept = [line for line in lines if line.split(":")[0] in crates]
    (folder / "crates.txt").write_text("\n".join(["kh_shared: libc", "trees: kh_term kh_tree"] + [line for line in kept if not line.startswith("kh_shared")]) + "\n")
    program = folder / "crates/trees"
    (program / "src").mkdir(parents=True)
    (program / "src/main.rt").write_text(PROGRAM)
    (program / "proofs/counted").mkdir(parents=True)
    (program / "proofs/counted/Invariants.antt").write_text(GHOSTS)
    run = subprocess.run(["rt", "run"], cwd=program, stdin=subprocess.DEVNULL, capture_output=True, text=True)
    if run.returncode != 0:
        sys.exit(run.stdout + run.stderr)
    return program / "out/trees"


def spent(program, count):
    """The least seconds of three runs."""
    seconds = []
    for _ in range(3):
        begin = time.monotonic()
        run = subprocess.run([program], input=f"{count}\n", capture_output=True, text=True)
        answer = count + 1 if count else 0
        if (run.returncode, run.stdout) != (0, f"{answer}\n"):
            sys.exit(f"add {count:,}: status {run.returncode}, {run.stdout}")
        seconds.append(time.monotonic() - begin)
    return min(seconds)


def main(repository):
    with tempfile.TemporaryDirectory() as folder:
        program = built(pathlib.Path(repository), pathlib.Path(folder))
        none = spent(program, 0)
        half, whole = (spent(program, count) - none for count in (HALF, WHOLE))
        print(f"add below one parent: {HALF / half:,.0f} a second over {HALF:,} nodes, {WHOLE / whole:,.0f} over {WHOLE:,}; "
              f"{WHOLE:,} take {whole / half:.2f} times as long")


main(sys.argv[1])
