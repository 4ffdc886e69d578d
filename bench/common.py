"""What the benchmarks share: the built program, run over a script, with its time and its memory."""
import os
import subprocess
import sys
import tempfile
import threading
import time
from typing import NamedTuple

TOP = os.path.dirname(os.path.dirname(os.path.abspath(__file__)))
PROGRAM = os.path.join(TOP, "crates/session_cli/out/session_cli")


class Run(NamedTuple):
    """How a run ended; a status below 0 names the signal that ended it."""

    status: int
    seconds: float
    peak: int  # bytes of memory at most
    errors: int  # bytes on standard error


def program():
    """The path of the program: the first argument, or where a build leaves it."""
    path = sys.argv[1] if len(sys.argv) > 1 else PROGRAM
    if not os.access(path, os.X_OK):
        sys.exit(f"{path} isn't built: bin/toasterglen builds it")
    return path


class Watch(threading.Thread):
    """Reads the high-water mark of a child's memory until told to end.

    What the system tells after the child's end counts the memory of this process too, since the child
    began as its copy.
    """

    def __init__(self, pid):
        super().__init__()
        self.pid, self.peak, self.is_over = pid, 0, threading.Event()

    def run(self):
        while not self.is_over.wait(0.002):
            self.look()

    def look(self):
        with open(f"/proc/{self.pid}/status") as it:
            for line in it:
                if line.startswith("VmHWM:"):
                    self.peak = int(line.split()[1]) * 1024


def run(path, script):
    """Runs the program over the script, an open file; its output is let go."""
    with tempfile.TemporaryFile() as errors:
        begun = time.perf_counter()
        child = subprocess.Popen([path], stdin=script, stdout=subprocess.DEVNULL, stderr=errors)
        watch = Watch(child.pid)
        watch.look()
        watch.start()
        # the child stays in /proc until it is waited for
        os.waitid(os.P_PID, child.pid, os.WEXITED | os.WNOWAIT)
        seconds = time.perf_counter() - begun
        watch.is_over.set()
        watch.join()
        return Run(child.wait(), seconds, watch.peak, errors.seek(0, os.SEEK_END))


def run_bytes(path, script):
    """The same of a script in memory."""
    with tempfile.TemporaryFile() as it:
        it.write(script)
        it.seek(0)
        return run(path, it)
