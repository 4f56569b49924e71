"""Copies of crates, in which the toolchain's command rt works: no run of it waits for another, and it changes nothing in the checkout.

rt is called as it is. Some versions of the toolchain (13f, not 13b) keep what is proved, by the checksums of all that was read: then a later run in any
checkout proves only what changed.
"""
import contextlib
import glob
import os
import re
import shutil
import signal
import subprocess
import tempfile
import threading
from concurrent.futures import ThreadPoolExecutor

TOP = os.path.dirname(os.path.dirname(os.path.abspath(__file__)))
# what a build does not read
NOT_COPIED = shutil.ignore_patterns("out", "must-fail", "wrong-bodies")
# the memory that a check takes at most, as seen
MEMORY = 2_000_000_000

running = set()
is_ending = threading.Event()


def read_crates():
    """For each crate of crates.txt its line, and the crates that it uses, directly or not, lowest first."""
    lines, below = {}, {}
    with open(f"{TOP}/crates.txt", encoding="utf-8") as it:
        for line in it:
            line = line.partition("#")[0].strip()
            if line:
                lines[line.partition(":")[0].split()[0]] = line

    def uses(name):
        if name not in below:
            own = [it for it in lines[name].partition(":")[2].split() if it in lines]
            below[name] = list(dict.fromkeys(low for it in own for low in [*uses(it), it]))
        return below[name]

    for name in lines:
        uses(name)
    return lines, below


def size_of(name):
    """How many bytes the functions of a crate have. The time of its proof roughly grows with them."""
    return sum(os.path.getsize(it) for it in glob.glob(f"{TOP}/crates/{name}/src/**/*.rt", recursive=True))


def lanes():
    """How many checks run at once: one for each processor, as far as there is memory."""
    with open("/proc/meminfo", encoding="utf-8") as it:
        free = 1024 * int(re.search(r"MemAvailable:\s+(\d+)", it.read())[1])
    return max(1, min(len(os.sched_getaffinity(0)), free // MEMORY))


@contextlib.contextmanager
def copy_of(lines, names):
    """A folder with these crates, at whose top rt can be called. It is removed at the end."""
    with tempfile.TemporaryDirectory(prefix="crates-") as top:
        # by which rt knows the top of a repository
        os.mkdir(f"{top}/.git")
        shutil.copy2(f"{TOP}/HANDLES", top)
        with open(f"{top}/crates.txt", "w", encoding="utf-8") as it:
            it.writelines(f"{lines[name]}\n" for name in names)
        for name in names:
            shutil.copytree(f"{TOP}/crates/{name}", f"{top}/crates/{name}", ignore=NOT_COPIED)
        yield top


def ci_from_nothing():
    """The arguments of the gate's command that take no finished proof: some versions of the toolchain keep proofs unless `--anew` is given, others never do."""
    shown = subprocess.run(["rt", "--help"], capture_output=True, text=True, check=False)
    return ["ci", "--anew"] if "--anew" in shown.stdout + shown.stderr else ["ci"]


@contextlib.contextmanager
def called(folder, *arguments):
    """Calls rt in a folder, and gives the process: its output, with errors among it, is in `stdout`, a line at a time."""
    how = {"stdin": subprocess.DEVNULL, "stdout": subprocess.PIPE, "stderr": subprocess.STDOUT, "text": True, "errors": "replace"}
    with subprocess.Popen(["rt", *arguments], cwd=folder, **how) as rt:
        running.add(rt)
        if is_ending.is_set():
            rt.terminate()
        try:
            yield rt
        finally:
            running.discard(rt)


def call(folder, *arguments):
    """Calls rt in a folder, and returns its status and its output."""
    with called(folder, *arguments) as rt:
        output = rt.communicate()[0]
        return rt.returncode, output


@contextlib.contextmanager
def ends_with_signals():
    """Ends each call of rt if a signal ends this command, or an error."""
    signals = (signal.SIGINT, signal.SIGTERM, signal.SIGHUP)
    for one in signals[1:]:
        signal.signal(one, signal.default_int_handler)
    try:
        yield
    except BaseException:
        for one in signals:
            signal.signal(one, signal.SIG_IGN)
        is_ending.set()
        for rt in list(running):
            rt.terminate()
        raise


@contextlib.contextmanager
def workers(count):
    """Threads for so many calls of rt at once, which all end if this ends early."""
    with ThreadPoolExecutor(count) as pool, ends_with_signals():
        yield pool
