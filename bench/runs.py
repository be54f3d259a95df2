"""Runs of the program over scripts, each in a folder that holds its store."""
import collections
import os
import subprocess
import tempfile
import time

# A folder in memory where there is one: the program makes each put safe twice, and a disk takes some milliseconds for each time.
MEMORY = "/dev/shm"

Run = collections.namedtuple("Run", "seconds peak status output")


def new_folder():
    """A fresh folder, which is removed behind a `with`."""
    return tempfile.TemporaryDirectory(dir=MEMORY if os.access(MEMORY, os.W_OK) else None)


def run(program, script, folder):
    """The seconds, the peak of memory in bytes, the status and the output of a run over a script in a folder."""
    with tempfile.TemporaryFile() as source, tempfile.TemporaryFile() as sink:
        source.write(script)
        source.seek(0)
        begin = time.monotonic()
        child = subprocess.Popen([program, "run"], stdin=source, stdout=sink, cwd=folder)
        _, status, usage = os.wait4(child.pid, 0)
        seconds = time.monotonic() - begin
        sink.seek(0)
        return Run(seconds, usage.ru_maxrss * 1024, os.waitstatus_to_exitcode(status), sink.read())


def run_alone(program, script):
    """A run over a script in a fresh folder."""
    with new_folder() as folder:
        return run(program, script, folder)
