"""Runs the program as an operator would, over what goes wrong outside of it: closed streams, a second program, folders and disks that
fail, kills. Each row checks the status, the line on standard error and what the store holds afterwards. Needs root, strace, Linux."""
import contextlib
import os
import pwd
import random
import re
import shutil
import signal
import subprocess
import sys
import tempfile
import time

LOG = "khepri.l0"
FILES = ("khepri.s0", "khepri.l0", "khepri.s1", "khepri.l1")
PUT = b"{put,[a,b],-7}.\n"
GET = b"{get,[a,b]}.\n"
SYSTEM = r"(\(os error \d+\))?"


class Fault(Exception):
    """A row went otherwise than it should."""


def expect(what, got, wanted):
    if got != wanted:
        raise Fault(f"{what}: {got!r}, and not {wanted!r}")


def expect_line(errors, pattern):
    """Standard error holds exactly one line of this form."""
    text = errors.decode(errors="replace")
    if not re.fullmatch(pattern + "\n", text):
        raise Fault(f"standard error holds {text!r}, and not one line {pattern!r}")


@contextlib.contextmanager
def folder():
    """An empty folder that everyone may use."""
    with tempfile.TemporaryDirectory(prefix="khepri-host-") as made:
        os.chmod(made, 0o777)
        yield made


def as_nobody():
    nobody = pwd.getpwnam("nobody")
    os.setgroups([])
    os.setgid(nobody.pw_gid)
    os.setuid(nobody.pw_uid)


def run(program, script, where, before=None, words=("run",), stdin=None):
    """Runs the program; `before` is done in the new process first."""
    given = {"stdin": stdin} if stdin is not None else {"input": script}
    return subprocess.run([program, *words], cwd=where, stdout=subprocess.PIPE, stderr=subprocess.PIPE, preexec_fn=before,
                          timeout=600, check=False, **given)


def files_of(where):
    """What the four files hold, by name; None where there is none."""
    held = {}
    for name in FILES:
        path = os.path.join(where, name)
        held[name] = open(path, "rb").read() if os.path.isfile(path) else None
    return held


def files_after(program, script):
    with folder() as where:
        expect("a plain run", run(program, script, where).returncode, 0)
        return files_of(where)


def closed_streams(program):
    """A stream that is closed never becomes a file of the store."""
    held, empty = files_after(program, PUT), files_after(program, b"")
    for closed in ([0], [1], [2], [0, 1], [0, 2], [1, 2], [0, 1, 2]):
        def close(closed=closed):
            for stream in closed:
                os.close(stream)
        with folder() as where:
            ended = run(program, PUT + GET, where, close)
            got = files_of(where)
        what = f"with {closed} closed"
        # Without input there is no command; without output the first reply fails, when its put is safe.
        expect(f"{what}, the files", got, empty if 0 in closed else held)
        if 0 in closed:
            expect(what, (ended.returncode, ended.stdout), (0, b""))
        elif 1 in closed:
            expect(what, ended.returncode, 4)
        else:
            expect(what, (ended.returncode, ended.stdout), (0, b"ok.\n{ok,-7}.\n"))
        if closed == [1]:
            expect_line(ended.stderr, rf"khepri: standard output: write: [^:]+{SYSTEM}")


def two_programs(program):
    """While one program has the folder, another touches nothing and says why."""
    with folder() as where:
        first = subprocess.Popen([program, "run"], cwd=where, stdin=subprocess.PIPE, stdout=subprocess.PIPE, stderr=subprocess.PIPE)
        first.stdin.write(PUT)
        first.stdin.flush()
        expect("the first program", first.stdout.readline(), b"ok.\n")
        before = {name: (os.stat(os.path.join(where, name)).st_mtime_ns, held) for name, held in files_of(where).items()}
        second = run(program, b"{put,[a,b],1}.\n", where)
        expect("the second program", (second.returncode, second.stdout), (5, b""))
        expect_line(second.stderr, "khepri: another process has the store open")
        after = {name: (os.stat(os.path.join(where, name)).st_mtime_ns, held) for name, held in files_of(where).items()}
        expect("the files", after, before)
        rest, errors = first.communicate(GET, timeout=60)
        expect("the first program", (first.returncode, rest, errors), (0, b"{ok,-7}.\n", b""))
        expect("the next program", run(program, GET, where).stdout, b"{ok,-7}.\n")
    with folder() as where:
        other = run(program, b"", where, words=())
        expect("without a word", (other.returncode, other.stdout, os.listdir(where)), (7, b"", []))
        expect_line(other.stderr, "usage: khepri run")


def order_of_calls(program):
    """A reply is written when its record, and the gate that opens it, are each written and synced."""
    if shutil.which("strace") is None:
        raise Fault("strace isn't installed")
    with folder() as where:
        trace = os.path.join(where, "trace")
        run("strace", PUT, where, words=("-f", "-y", "-o", trace, "-e", "trace=write,pwrite64,fsync,fdatasync", program, "run"))
        lines = open(trace, encoding="utf-8", errors="replace").read().splitlines()
    calls = [found for line in lines if (found := re.search(r"(write|pwrite64|fsync|fdatasync)\((\d+)<([^>]*)>", line))]
    told = [("sync" if "sync" in it[1] else "write", os.path.basename(it[3]) if it[2] != "1" else "output") for it in calls]
    at = max((i for i, call in enumerate(told) if call == ("write", "output")), default=None)
    if at is None:
        raise Fault(f"no reply among the calls {told}")
    steps = [call for call in told[:at] if call[1] == LOG]
    expect("the calls on the log before the reply", steps[-4:], [("write", LOG), ("sync", LOG)] * 2)


def read_error(program):
    """A read that fails is no end of the input."""
    with folder() as where:
        place = os.open(where, os.O_RDONLY)
        ended = run(program, None, where, stdin=place)
        os.close(place)
    expect("a folder as input", (ended.returncode, ended.stdout), (3, b""))
    expect_line(ended.stderr, rf"khepri: standard input: read: Is a directory ?{SYSTEM}")


def folders(program):
    """A folder that may not be written or listed, and something else in a file's place, end the run with 5 before anything is taken."""
    for mode, pattern in ((0o555, rf"khepri: khepri\.[ls][01]: \w+: Permission denied ?{SYSTEM}"), (0o333, rf"khepri: \.: open: Permission denied ?{SYSTEM}")):
        with folder() as where:
            os.chmod(where, mode)
            ended = run(program, PUT, where, as_nobody)
            expect(f"a folder of mode {mode:o}", (ended.returncode, ended.stdout, os.listdir(where)), (5, b"", []))
            expect_line(ended.stderr, pattern)
    for name in FILES:
        with folder() as where:
            os.mkdir(os.path.join(where, name))
            ended = run(program, PUT, where)
            expect(f"a folder named {name}", (ended.returncode, ended.stdout), (5, b""))
            expect_line(ended.stderr, rf"khepri: {re.escape(name)}: \w+: Is a directory ?{SYSTEM}")
    with folder() as where:
        os.symlink("nowhere/log", os.path.join(where, LOG))
        ended = run(program, PUT, where)
        expect("a link to nowhere", (ended.returncode, ended.stdout), (5, b""))
        expect_line(ended.stderr, rf"khepri: {re.escape(LOG)}: \w+: No such file or directory ?{SYSTEM}")
    with folder() as where:
        open(os.path.join(where, LOG), "wb").close()
        os.link(os.path.join(where, LOG), os.path.join(where, "khepri.l1"))
        expect("two names of one file", run(program, PUT, where).returncode, 0)
        expect("two names of one file, opened again", run(program, GET, where).stdout, b"{ok,-7}.\n")


def damage(program):
    """Damage is told with the offset, and what to do."""
    with folder() as where:
        run(program, PUT, where)
        path = os.path.join(where, LOG)
        held = bytearray(open(path, "rb").read())
        held[4] = 0x21
        open(path, "wb").write(held)
        ended = run(program, GET, where)
        expect("damage", (ended.returncode, ended.stdout, open(path, "rb").read()), (1, b"{damaged,1,1}.\n", bytes(held)))
        expect_line(ended.stderr, "khepri: khepri.l0 is damaged: put the four files of a copy in place of these")


def value(program, where, count):
    """How many of the first so many puts of `script_of` the store holds, none of them left out in between."""
    ended = run(program, b"".join(b"{get,[n%d]}.\n" % i for i in range(count)), where)
    expect("the store opened again", ended.returncode, 0)
    there = [line.startswith(b"{ok,") for line in ended.stdout.splitlines()]
    held = sum(there)
    expect("a put without the ones before it", there, [True] * held + [False] * (count - held))
    return held


def script_of(first, count):
    return b"".join(b"{put,[n%d],%d}.\n" % (i, i) for i in range(first, first + count))


@contextlib.contextmanager
def small_disk(options):
    with folder() as where:
        subprocess.run(["mount", "-t", "tmpfs", "-o", options, "tmpfs", where], check=True)
        try:
            yield where
        finally:
            subprocess.run(["umount", where], check=True)


def fill(path, free):
    """Takes all that is left of a disk but for so many bytes."""
    with open(path, "wb", buffering=0) as filler:
        taken = 0
        with contextlib.suppress(OSError):
            while True:
                taken += filler.write(bytes(4096))
        filler.truncate(max(0, taken - free))


def full_disk(program):
    """On a disk that is full nothing is lost that was answered, whichever write it is that finds no room."""
    count, answered = 1000, set()
    # (so many files at most, the folder counted; the four of the store are made one after the other)
    for inodes in range(1, 5):
        with small_disk(f"size=1m,nr_inodes={inodes}") as where:
            ended = run(program, PUT, where)
            expect(f"a disk for {inodes - 1} files", (ended.returncode, ended.stdout), (5, b""))
            expect_line(ended.stderr, rf"khepri: khepri\.[ls][01]: \w+: No space left on device ?{SYSTEM}")
    # Where a page ends decides which byte of which write is the last; a first put of another length moves all behind it.
    for pages in range(3):
        for skew in range(1, 41, 3):
            with small_disk("size=64k") as where:
                expect("the first put", run(program, b"{put,[%s],1}.\n" % (b"f" * skew), where).returncode, 0)
                fill(os.path.join(where, "filler"), 4096 * pages)
                ended = run(program, script_of(0, count), where)
                done = ended.stdout.count(b"ok.\n")
                expect(f"{pages} pages free", (ended.returncode, ended.stdout), (5, b"ok.\n" * done))
                expect_line(ended.stderr, rf"khepri: khepri\.l0: \w+: No space left on device ?{SYSTEM}")
                os.remove(os.path.join(where, "filler"))
                held = value(program, where, done + 2)
                if held not in (done, done + 1):
                    raise Fault(f"{pages} pages free: {done} puts were answered, and {held} are there")
                answered.add(done)
    if len(answered) < 5:
        raise Fault(f"the disk was full after {sorted(answered)} puts alone")


def kills(program, times=200):
    """However often the program is killed, no put that was answered is missing, and none behind the one in doubt is there."""
    chance, at = random.Random(7), 0
    with folder() as where:
        for _ in range(times):
            child = subprocess.Popen([program, "run"], cwd=where, stdin=subprocess.PIPE, stdout=subprocess.PIPE, stderr=subprocess.DEVNULL)
            with contextlib.suppress(BrokenPipeError):
                child.stdin.write(script_of(at, 400))
                child.stdin.flush()
                time.sleep(chance.random() * 0.02)
            child.kill()
            output = child.stdout.read()
            child.wait()
            with contextlib.suppress(BrokenPipeError):
                child.stdin.close()
            child.stdout.close()
            done = at + output.count(b"\n")
            held = value(program, where, done + 2)
            if held not in (done, done + 1):
                raise Fault(f"{done} puts were answered before a kill, and {held} are there")
            at = held
    return at


def signals(program):
    """A reader that goes away, and a limit on the size of files, end the program as they end others, and leave the store whole."""
    def limit():
        import resource
        resource.setrlimit(resource.RLIMIT_FSIZE, (4096, 4096))
    with folder() as where:
        child = subprocess.Popen([program, "run"], cwd=where, stdin=subprocess.PIPE, stdout=subprocess.PIPE, stderr=subprocess.DEVNULL)
        child.stdin.write(PUT)
        child.stdin.flush()
        expect("a reader that goes away, its line", child.stdout.readline(), b"ok.\n")
        child.stdout.close()
        with contextlib.suppress(BrokenPipeError):
            child.stdin.write(script_of(0, 10))
            child.stdin.close()
        if child.wait(60) not in (-signal.SIGPIPE, 4):
            raise Fault(f"a reader that goes away: {child.returncode}")
        expect("the store afterwards", run(program, GET, where).stdout, b"{ok,-7}.\n")
    with folder() as where:
        ended = run(program, script_of(0, 1000), where, limit)
        done = ended.stdout.count(b"ok.\n")
        if ended.returncode not in (-signal.SIGXFSZ, 5) or done == 1000:
            raise Fault(f"a limit of 4,096 bytes: {ended.returncode} after {done} puts")
        held = value(program, where, 1000)
        if held not in (done, done + 1):
            raise Fault(f"a limit of 4,096 bytes: {done} puts were answered, and {held} are there")


def long_script(program):
    """A script of 60 MB through a pipe."""
    count = 60_000_000 // len(GET)
    with folder() as where:
        start = time.monotonic()
        ended = run(program, PUT + GET * count, where)
        seconds = time.monotonic() - start
    expect("a script of 60 MB", (ended.returncode, ended.stdout.count(b"\n")), (0, count + 1))
    return seconds


ROWS = (closed_streams, two_programs, order_of_calls, read_error, folders, damage, full_disk, kills, signals, long_script)


def main(program):
    with tempfile.TemporaryDirectory(prefix="khepri-program-") as place:
        # (where nobody may run it too)
        os.chmod(place, 0o755)
        copy = shutil.copy(program, os.path.join(place, "khepri"))
        os.chmod(copy, 0o755)
        faults = 0
        for row in ROWS:
            start = time.monotonic()
            try:
                row(copy)
                print(f"{row.__name__}: as it should be, {time.monotonic() - start:.1f} s", flush=True)
            except Fault as fault:
                faults += 1
                print(f"{row.__name__}: {fault}", flush=True)
    sys.exit(faults > 0)


if __name__ == "__main__":
    main(sys.argv[1])
