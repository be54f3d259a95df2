"""Times of matching patterns over a tree, by a program that it builds in a fresh folder."""
import pathlib
import shutil
import subprocess
import sys
import tempfile
import time

HALF, WHOLE = 50_000, 100_000
PROGRAM = """\
//! Matches a pattern over a tree of so many nodes below one parent.
#![tactic(auto)]

ghost use Rattle.std.specs.Prelude.{◌≡◌, ◌<◌, length};

use kh_cond::{Component, Cond, PathPattern, Regex, prepare, push_pattern_texts};
use kh_regexes::{Patterns, PlainPatterns, PrepareError};
use kh_term::{Bytes, Name, NoMemory, Path, Steps, Texts, Weight};
use kh_tree::{Payload, Tree, TreeError};
use kh_walk::matching;
use std::alloc::Global;
use std::io;
use std::marker::Brand;
use std::sync::ledger::{Blank, Ledger};

#[derive(Clone, Copy, PartialEq, Eq, Drop)]
struct Proc(u32);

impl Weight for Proc {
    ghost weight_of = { λ _. 1 };

    fn weight(&self) -> u64 {
        1
    }
}

fn name(alloc: Global, bytes: &[u8]) -> Result<Name, NoMemory> {
    Ok(Name::Bin(Bytes::new(Vec::from_slice(alloc, bytes)?)))
}

// A path of `a` and a number.
fn path(alloc: Global, number: u32) -> Result<Path, NoMemory> {
    let mut names = Vec::new(alloc);
    names.push(name(alloc, b"a")?)?;
    names.push(name(alloc, &number.to_be_bytes())?)?;
    Path::new(names).ok_or(NoMemory)
}

fn filled<L: Ledger>(alloc: Global, count: u32, blank: Blank) -> Result<Tree<Proc>, TreeError>
    requires name { blank.name ≡ L.name }
    requires parts { blank.parts ≡ L.parts }
    requires some { 0 < blank.parts }
{
    let mut steps = Steps::<L>::new(blank);
    let mut tree: Tree<Proc> = Tree::new(alloc)?;
    for number in 0..count {
        let path = path(alloc, number)?;
        if tree.payload(&path).is_none() {
            tree = tree.add(&path, Payload::Empty, &mut steps)?;
        }
    }
    Ok(tree)
}

fn tree_of(alloc: Global, count: u32) -> Result<Tree<Proc>, TreeError> {
    filled::<Brand>(alloc, count, Blank::new(1))
}

// `any` is any names, `names` the name a and any name, `many` 32 times any names, `path` the names a and 0.
fn pattern(alloc: Global, what: &str) -> Result<PathPattern, NoMemory> {
    let mut components = Vec::new(alloc);
    match what {
        "any" => components.push(Component::Many(Regex::Any))?,
        "names" => {
            components.push(Component::One(Cond::Name(name(alloc, b"a")?)))?;
            components.push(Component::One(Cond::NameMatches(Regex::Any)))?;
        }
        "many" => {
            for _ in 0..32u32 {
                components.push(Component::Many(Regex::Any))?;
            }
        }
        _ => {
            components.push(Component::One(Cond::Name(name(alloc, b"a")?)))?;
            components.push(Component::One(Cond::Name(name(alloc, &0u32.to_be_bytes())?)))?;
        }
    }
    PathPattern::new(components).ok_or(NoMemory)
}

fn found<P: Patterns>(
    alloc: Global,
    tree: &Tree<Proc>,
    what: &str,
    patterns: &mut P,
) -> Result<usize, PrepareError>
    requires { length (P.texts patterns.old) ≡ 0 }
{
    let pattern = pattern(alloc, what)?;
    let mut texts = Texts::new(alloc);
    push_pattern_texts(alloc, &pattern, &mut texts)?;
    if texts.len() > 64 {
        return Err(PrepareError::NoMemory);
    }
    prepare(&texts, patterns)?;
    Ok(matching(alloc, tree, &pattern, patterns)?.len())
}

fn run(alloc: Global, line: &str) -> Option<usize> {
    let (what, count) = line.trim().split_once(' ')?;
    let tree = tree_of(alloc, count.parse::<u32>().ok()?).ok()?;
    let mut patterns = PlainPatterns::new(alloc, Vec::new(alloc)).ok()?;
    match what {
        "none" => Some(0),
        _ => found(alloc, &tree, what, &mut patterns).ok(),
    }
}

fn main(rt: HostRuntime) -> io::Result<()> {
    for line in rt.lines(rt.alloc()) {
        match run(rt.alloc(), line?.as_str()) {
            Some(count) => println!(rt; "{count}")?,
            None => println!(rt; "refused")?,
        }
    }
    Ok(())
}
"""
# The steps are counted by the blank that is handed in.
GHOSTS = """\
use Rattle.walks.proofs.tree_of.Given as goal

abbrev pub ghosts-filled : goal.ghosts-filled
ghosts-filled a = record { name = a.blank.name; parts = a.blank.parts }
"""
PREPARED = """\
use Rattle.std.proofs.Common.{◌≡◌, ℕ, List, ◌++◌, ap, ◌∙◌}
use Rattle.kh_cond.specs.Texts.{added, pattern_texts}
use Rattle.kh_walk.specs.Prepared.{lacking_in}
use Rattle.kh_walk.proofs.Prepares.{pattern_prepared}
use Rattle.walks.proofs.found.Goals as goal

pub matching-requires : goal.matching-requires
matching-requires g c =
    let old : List (List ℕ) = g.P.Patterns.texts c.args.patterns.now in
    let q = c.in_ok-pattern.pattern in
    let all = c.in_ok-push_pattern_texts.ensures.ok ∙ ap (λ ts. ts ++ pattern_texts q) c.new-texts.ensures in
    record { prepared = ap (λ known. lacking_in known q) (c.in_ok-prepare.ensures.texts ∙ ap (λ ts. old ++ added old ts) all) ∙ pattern_prepared old q }
"""
CRATES = ("kh_term", "kh_shared", "kh_pmap", "kh_tree", "kh_counts", "kh_regexes", "kh_cond", "kh_walk")


def built(repository, folder):
    """The program, in a repository of its own beside copies of the crates that it stands on."""
    for name in CRATES:
        shutil.copytree(repository / "crates" / name, folder / "crates" / name, ignore=shutil.ignore_patterns("out", "must-fail"))
    lines = (repository / "crates.txt").read_text().splitlines()
    kept = [line for line in lines if line.split(":")[0] in CRATES and not line.startswith("kh_shared")]
    (folder / "crates.txt").write_text("\n".join(["kh_shared: libc", "walks: kh_term kh_tree kh_regexes kh_cond kh_walk"] + kept) + "\n")
    program = folder / "crates/walks"
    (program / "src").mkdir(parents=True)
    (program / "src/main.rt").write_text(PROGRAM)
    for path, text in (("tree_of/Invariants.antt", GHOSTS), ("found/Answers.antt", PREPARED)):
        (program / "proofs" / path).parent.mkdir(parents=True)
        (program / "proofs" / path).write_text(text)
    run = subprocess.run(["rt", "run"], cwd=program, stdin=subprocess.DEVNULL, capture_output=True, text=True)
    if run.returncode != 0:
        sys.exit(run.stdout + run.stderr)
    return program / "out/walks"


def spent(program, what, count, answer):
    """The least seconds of three runs."""
    seconds = []
    for _ in range(3):
        begin = time.monotonic()
        run = subprocess.run([program], input=f"{what} {count}\n", capture_output=True, text=True)
        if (run.returncode, run.stdout) != (0, f"{answer}\n"):
            sys.exit(f"{what} {count:,}: status {run.returncode}, {run.stdout}")
        seconds.append(time.monotonic() - begin)
    return min(seconds)


def main(repository):
    with tempfile.TemporaryDirectory() as folder:
        program = built(pathlib.Path(repository), pathlib.Path(folder))
        none = {count: spent(program, "none", count, 0) for count in (HALF, WHOLE)}
        for what, name, more in (("any", "[{if_path_matches,any}]", 1), ("names", "[a,{if_name_matches,any}]", 0)):
            half, whole = (spent(program, what, count, count + more) - none[count] for count in (HALF, WHOLE))
            print(f"matching of {name}: {half:.3f} s over {HALF:,} nodes, {whole:.3f} s over {WHOLE:,}, {whole / half:.2f} times as long")
        for what, name, answer in (("many", "32 components of many levels", 0), ("path", "[a,b]", 1)):
            half, whole = (spent(program, what, count, answer) - none[count] for count in (HALF, WHOLE))
            print(f"matching of {name}: {half:.4f} s over {HALF:,} nodes, {whole:.4f} s over {WHOLE:,}")


main(sys.argv[1])
