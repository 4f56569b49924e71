"""Runs of the built program with faults, for tools/check-faults and tools/check-damage.

tools/faults.c is compiled and preloaded before the C library. What it does is given in the environment of a run.
"""
import collections
import multiprocessing
import os
import shutil
import signal
import struct
import subprocess
import sys

TOP = os.path.dirname(os.path.dirname(os.path.abspath(__file__)))
PROGRAM = os.path.join(TOP, "crates", "er_cli", "out", "er_cli")
PIECE = 4096

Ran = collections.namedtuple("Ran", "status out err counts")
Counts = collections.namedtuple("Counts", "requests refused reads writes needless")
COUNTS = struct.Struct("5Q")


def build(folder):
    """The compiled library."""
    library = os.path.join(folder, "faults.so")
    compiler = shutil.which("cc") or sys.exit("tools/faults.c: install a C compiler first (cc)")
    subprocess.run([compiler, "-O2", "-Wall", "-shared", "-fPIC", "-o", library, os.path.join(TOP, "tools", "faults.c"), "-ldl"], check=True)
    return library


class Runner:
    """Runs the analyzer with the library preloaded, one run at a time, over files in memory."""

    def __init__(self, program, library):
        self.program, self.library = program, library
        self.input, self.out, self.err, self.counts = (os.memfd_create(name) for name in ("input", "out", "err", "counts"))
        self.data = None

    def run(self, words, data, **faults):
        """What the program makes of the words and the input. A fault is a setting of the library: read=3 is FAULT_READ=3."""
        self._put(data)
        environment = {"LD_PRELOAD": self.library, "FAULT_COUNTS": "3"}
        environment.update(("FAULT_" + name.upper(), str(value)) for name, value in faults.items())
        places = [(os.POSIX_SPAWN_DUP2, file, k) for k, file in enumerate((self.input, self.out, self.err, self.counts))]
        child = os.posix_spawn(self.program, [self.program, *words], environment, file_actions=places,
                               setsigdef=[signal.SIGPIPE, signal.SIGXFSZ])
        status = os.waitstatus_to_exitcode(os.waitpid(child, 0)[1])
        counts = Counts(*COUNTS.unpack(os.pread(self.counts, COUNTS.size, 0)))
        return Ran(status, self._take(self.out), self._take(self.err), counts)

    def _put(self, data):
        if data is not self.data:
            os.ftruncate(self.input, 0)
            os.pwrite(self.input, data, 0)
            self.data = data
        os.lseek(self.input, 0, os.SEEK_SET)
        os.pwrite(self.counts, bytes(COUNTS.size), 0)

    @staticmethod
    def _take(file):
        """What the file holds, which is emptied."""
        text = os.pread(file, os.fstat(file).st_size, 0)
        os.ftruncate(file, 0)
        os.lseek(file, 0, os.SEEK_SET)
        return text


_runner = None


def _begin(program, library):
    global _runner
    signal.signal(signal.SIGTERM, signal.SIG_DFL)
    _runner = Runner(program, library)


def runner():
    """That of this process, one of the workers."""
    return _runner


def workers(program, library):
    """Some processes, each with a runner: more than there are processors, since each waits for the run that it started."""
    # (else they would outlive this process where it is ended from outside)
    signal.signal(signal.SIGTERM, lambda *_: sys.exit(1))
    return multiprocessing.get_context("fork").Pool(4 * len(os.sched_getaffinity(0)), _begin, (program, library))
