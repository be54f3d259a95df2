"""Forms read and printed a second, by a program that it builds in a fresh folder."""
import pathlib
import shutil
import subprocess
import sys
import tempfile
import time

MILLIONS = (1, 10, 60)
FORM = rb"""{put,[stock,wood],#{1 => "abc",name => <<"oak and ash">>,x => [1,-250,{a,'b c'}|z]}}.
"""
PROGRAM = """\
//! Reads the forms of a text, and prints them.
#![tactic(auto)]

use kh_print::print;
use kh_read::text::{ReadError, read_form};
use kh_text_defs::Mode;
use std::alloc::{AllocError, Global};
use std::io;

const FORM: &[u8] = b"@FORM@";

// The form again and again, so many bytes and not one form more.
fn filled(alloc: Global, len: u32) -> Result<Vec<u8>, AllocError> {
    let mut text = Vec::new(alloc);
    for _ in 0..len as usize / FORM.len() {
        text.extend_from_slice(FORM)?;
    }
    Ok(text)
}

// How many forms there are, and with `printed` how long their texts are.
fn read_all(alloc: Global, text: &[u8], printed: bool) -> Result<usize, ReadError> {
    let mut at = 0;
    let mut len: usize = 0;
    for count in 0..text.len() {
        if text.len() < at {
            return Ok(count);
        }
        match read_form(alloc, text, at, Mode::Script)? {
            None => return Ok(if printed { len } else { count }),
            Some((term, end)) => {
                at = end;
                if printed {
                    match print(alloc, &term) {
                        Ok(shown) => len = len.saturating_add(shown.len()),
                        Err(_) => return Err(ReadError::NoMemory),
                    }
                }
            }
        }
    }
    Ok(len)
}

fn run(alloc: Global, line: &str) -> Result<usize, ReadError> {
    let Some((what, millions)) = line.trim().split_once(' ') else {
        return Ok(0);
    };
    let len = match millions.parse::<u32>() {
        Ok(millions) if millions < 1_000 => millions * 1_000_000,
        _ => return Ok(0),
    };
    let text = match filled(alloc, len) {
        Ok(text) => text,
        Err(_) => return Err(ReadError::NoMemory),
    };
    match what {
        "read" => read_all(alloc, text.as_slice(), false),
        "print" => read_all(alloc, text.as_slice(), true),
        _ => Ok(text.len()),
    }
}

fn main(rt: HostRuntime) -> io::Result<()> {
    for line in rt.lines(rt.alloc()) {
        match run(rt.alloc(), line?.as_str()) {
            Ok(count) => println!(rt; "{count}")?,
            Err(_) => println!(rt; "a fault")?,
        }
    }
    Ok(())
}
"""


def built(repository, folder):
    """The program, in a repository of its own beside copies of the crates that it stands on."""
    names = ("kh_term", "kh_text_defs", "kh_read", "kh_print")
    for name in names:
        shutil.copytree(repository / "crates" / name, folder / "crates" / name, ignore=shutil.ignore_patterns("out", "must-fail"))
    lines = [line for line in (repository / "crates.txt").read_text().splitlines() if line.split(":")[0] in names]
    (folder / "crates.txt").write_text("\n".join([*lines, "forms: kh_text_defs kh_read kh_print", ""]))
    program = folder / "crates/forms"
    (program / "src").mkdir(parents=True)
    text = FORM.decode().replace("\\", "\\\\").replace('"', '\\"').replace("\n", "\\n")
    (program / "src/main.rt").write_text(PROGRAM.replace("@FORM@", text))
    run = subprocess.run(["rt", "run"], cwd=program, stdin=subprocess.DEVNULL, capture_output=True, text=True)
    if run.returncode != 0:
        sys.exit(run.stdout + run.stderr)
    return program / "out/forms"


def spent(program, what, millions):
    """The least seconds of three runs, and what was answered."""
    seconds = []
    for _ in range(3):
        begin = time.monotonic()
        run = subprocess.run([program], input=f"{what} {millions}\n".encode(), capture_output=True)
        seconds.append(time.monotonic() - begin)
        if run.returncode != 0:
            sys.exit(f"{what} {millions}: status {run.returncode}")
    return min(seconds), int(run.stdout)


def main(repository):
    with tempfile.TemporaryDirectory() as folder:
        program = built(pathlib.Path(repository), pathlib.Path(folder))
        for millions in MILLIONS:
            none, length = spent(program, "make", millions)
            read, count = spent(program, "read", millions)
            both, shown = spent(program, "print", millions)
            if count != length // len(FORM):
                sys.exit(f"read {millions}: {count} forms")
            read -= none
            print(f"{millions} MB of forms: read at {length / read / 1e6:.1f} MB and {count / read:,.0f} forms a second; "
                  f"printed at {shown / max(both - none - read, 1e-9) / 1e6:.1f} MB a second")


if __name__ == "__main__":
    main(sys.argv[1])
