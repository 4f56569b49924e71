"""What an installed package does, asked in a root of its own as a user who is not root. Each check gives pairs: what is due, and what came in its place, or nothing."""
import glob
import os
import re
import subprocess
import time

from fresh_root import LONGEST, TESTER, changes
from staging import TOP

HOME = f"/home/{TESTER}"
WORK, TEMPORARY = f"{HOME}/work", f"{HOME}/temporary"
EXAMPLES = "/usr/share/doc/eventracer/examples"
SHOP = f"{EXAMPLES}/shop/index.html"
COMMANDS = ("er_cli", "er_page", "er_record", "er_replay", "er_suite", "er_view")
# the names and values that completion offers after some words
COMPLETE = """
. /usr/share/bash-completion/completions/er_page
COMP_WORDS=(er_page "$@") COMP_CWORD=$#
_er_page
printf '%s\\n' "${COMPREPLY[@]}"
"""
MODULE = ("const { version, types } = require('eventracer/package.json');"
          "console.log(version, require('fs').existsSync(`/usr/share/nodejs/eventracer/${types}`), Object.keys(require('eventracer')).sort().join(' '))")
OPTION = re.compile(r"--[a-z][a-z-]*")
TRACES = len(glob.glob(f"{TOP}/examples/*.trace"))
EACH_TRACE = """
for trace in *.trace; do
  er_cli <"$trace" 2>/dev/null | cmp -s - "${trace%.trace}.report" || echo "$trace"
done
ls *.trace | wc -l >&2
"""
FILES = ["page.html", "page.names.json", "page.replay.json", "page.report", "page.trace", "replays"]


class Installed:
    """The commands of the package, in the folder of a user."""

    def __init__(self, root, version):
        self.root, self.version = root, version
        root.as_root("install", "-d", "-o", TESTER, "-g", TESTER, WORK, TEMPORARY)

    def run(self, *words, cwd=WORK, **how):
        return self.root.run(*words, cwd=cwd, **{"HOME": HOME, "TMPDIR": TEMPORARY, **how})

    def files(self, folder):
        """What is in a folder of the root."""
        path = self.root.path(folder)
        return sorted(os.listdir(path)) if os.path.isdir(path) else []

    def written(self):
        """What is written beside the folder of the user's work."""
        beside = {name: facts for name, facts in self.root.written().items() if not f"/{name}".startswith(WORK)}
        for folder in (HOME, TEMPORARY, "/tmp", "/var/tmp"):
            beside |= {f"{folder}/{name}": 0 for name in self.files(folder)}
        return beside

    # ---- the words of the commands

    def check_words(self):
        for name in COMMANDS:
            status, output, fault = self.run(name, "--version")
            yield f"{name} --version", None if status == 0 and not fault and output.startswith(f"eventracer {self.version}\n") and "\ncommit " in output else (status, output, fault)
            status, output, fault = self.run(name, "--help")
            yield f"{name} --help", None if status == 0 and not fault and output.startswith(f"usage: {name} ") and "--build" not in output else (status, output, fault)
            told = OPTION.findall(output)
            page = OPTION.findall(self.run("zcat", f"/usr/share/man/man1/{name}.1.gz")[1].replace("\\-", "-"))
            yield f"the manual page of {name} names each option", {*told} - {*page} or (None if told else "no options")

    def check_browser(self):
        """er_browser is Chromium by its words, and has a manual page of its own."""
        status, output, fault = self.run("er_browser", "--version")
        yield "er_browser --version is that of Chromium", None if status == 0 and output.startswith("Chromium ") else (status, output, fault)
        page = self.run("zcat", "/usr/share/man/man1/er_browser.1.gz")[1]
        yield "the manual page of er_browser names its variables", None if "ER_TRACES" in page and "ER_OPTIONS" in page else page

    def check_completion(self):
        """What bash offers for options, and for values that are words."""
        offered = self.run("bash", "-c", COMPLETE, "bash", "--kno")[1].split()
        yield "bash completes an option", None if offered == ["--known"] else offered
        offered = self.run("bash", "-c", COMPLETE, "bash", "--depth", "")[1].split()
        yield "bash completes a value", None if offered == ["globals", "objects"] else offered

    def check_module(self):
        """The interface for programs has the package's version, and TypeScript's declarations."""
        status, output, fault = self.run("node", "-e", MODULE, NODE_PATH="/usr/share/nodejs")  # where Debian's Node looks without it
        due = f"{self.version.split('~')[0]}.0 true EventRacerError attach judge list record replay"
        yield "require('eventracer')", None if status == 0 and output.strip() == due else (status, output, fault)

    def check_options(self):
        """The options that er_cli takes are in its help. For the other commands recorder/test/options.test.js compares them."""
        taken, told = OPTION.findall(self.run("er_cli", "word")[2]), OPTION.findall(self.run("er_cli", "--help")[1])
        yield "--help tells each option of the program", {*taken} - {*told} or (None if taken else "no options")

    def check_traces(self):
        status, differing, count = self.run("bash", "-c", EACH_TRACE, cwd=EXAMPLES)
        yield "each trace of examples/ gives its report", None if status == 0 and not differing and int(count) == TRACES else (differing, count)

    # ---- a page, from its recording to its races in the other order

    def check_page(self):
        seconds, status, output, fault = self.first_race()
        yield "the races of the shop", None if status == 1 and re.search(r"^\S+:\d+  `#offer` may not be in the page yet", output, re.M) else (status, output, fault)
        yield f"its files, the first race after {seconds:.1f} s", None if self.files(f"{WORK}/shop.races") == FILES else self.files(f"{WORK}/shop.races")
        status, output, fault = self.run("bash", "-c", "er_cli < page.trace | cmp - page.report", cwd=f"{WORK}/shop.races")
        yield "its report is that of its trace", None if status == 0 else (output, fault)
        self.run("rm", "page.html", cwd=f"{WORK}/shop.races")
        status, output, fault = self.run("er_view", "shop.races/page.trace")
        yield "its view", None if status == 1 and not fault and "page.html" in self.files(f"{WORK}/shop.races") else (status, output, fault)
        status, output, fault = self.run("er_replay", "shop.races/page.trace", "--race", "1")
        yield "a race in the other order", None if status == 0 and "found again" in output and "page.replay.json" in self.files(f"{WORK}/shop.races/page.replay") else (status, output, fault)

    def first_race(self):
        """The first command of README.md: the seconds to the first line of its list, its status and what it said."""
        start = time.monotonic()
        words = self.root.words(["er_page", SHOP], cwd=WORK, TMPDIR=TEMPORARY)
        with subprocess.Popen(words, stdin=subprocess.DEVNULL, stdout=subprocess.PIPE, stderr=subprocess.PIPE, text=True) as it:
            first = it.stdout.readline()
            seconds = time.monotonic() - start
            output, fault = it.communicate(timeout=LONGEST)
            return seconds, it.returncode, first + output, fault

    # ---- Chromium's own sandbox

    def check_sandbox(self):
        words = self.root.words(["er_record", SHOP, "sandbox.trace", "--do", "wait:2000"], cwd=WORK, TMPDIR=TEMPORARY)
        with subprocess.Popen(words, stdin=subprocess.DEVNULL, stdout=subprocess.DEVNULL, stderr=subprocess.PIPE, text=True) as it:
            seen = self.watch_renderers(it)
            fault = it.communicate(timeout=LONGEST)[1]
        yield "a page runs in Chromium's sandbox", None if seen and all(seen.values()) and "sandbox" not in fault else (seen, fault)
        status, output, fault = self.run("er_record", SHOP, "of-root.trace", user="root", HOME="/root")
        yield "a browser without its sandbox is told", None if status == 0 and "sandbox is off" in fault else (status, output, fault)

    def watch_renderers(self, recording):
        """Whether each process that runs a page was in the sandbox, once it had begun: cut off from the system's calls and from other processes."""
        seen = {}
        while recording.poll() is None:
            for number in filter(str.isdigit, os.listdir("/proc")):
                told = facts_of_renderer(number, self.root.path("/"))
                if told is not None:
                    seen[number] = told
            time.sleep(0.1)
        return seen

    # ---- what goes wrong

    def check_folders(self):
        """A home that is not there or takes no files, and current and temporary folders that take none."""
        for home in ("/nowhere", "/usr", None):
            status, output, fault = self.run("er_record", SHOP, "home.trace", HOME=home)
            yield f"with {home} as home", None if status == 0 and "home.trace" in self.files(WORK) else (status, output, fault)
        for words in (["er_page", SHOP], ["er_record", SHOP, "page.trace"], ["er_view", "page-gnome-docs-search.trace"]):
            yield f"{words[0]} in a folder that takes no files", refusal(self.run(*words, cwd=EXAMPLES), 5, "cannot be written")
        self.run("chmod", "a-w", "shop.races", f"{WORK}/shop.races/page.replay")
        yield "er_replay in a folder that takes no files", refusal(self.run("er_replay", "shop.races/page.trace", "--race", "1"), 5, "cannot be written")
        status, output, fault = self.run("er_record", SHOP, "temporary.trace", TMPDIR="/nowhere")
        yield "no temporary folder", None if status == 5 and "no temporary folder can be made" in fault else (status, output, fault)

    def check_no_browser(self):
        self.root.as_root("mount", "--bind", "/dev/null", "/usr/bin/chromium")
        before = self.files(WORK)
        for words in (["er_page", SHOP], ["er_record", SHOP, "none.trace"]):
            told = self.run(*words)
            yield f"{words[0]} without a browser", refusal(told, 10, "apt-get install chromium") or (None if self.files(WORK) == before else self.files(WORK))
        self.root.as_root("umount", "/usr/bin/chromium")

    def check_all(self):
        before = self.written()
        for check in (self.check_words, self.check_browser, self.check_completion, self.check_module, self.check_options, self.check_traces, self.check_page, self.check_sandbox, self.check_folders):
            yield from check()
        yield "nothing is written beside the current folder", changes(before, self.written()) or None
        yield from self.check_no_browser()


def refusal(told, status, words):
    """Nothing, where a command ended with this status and one line that has these words."""
    is_due = told[0] == status and not told[1] and words in told[2] and told[2].count("\n") == 1
    return None if is_due else told


def facts_of_renderer(number, top):
    """Whether a process that runs a page of this root's browser is in the sandbox; nothing of any other process."""
    try:
        with open(f"/proc/{number}/cmdline", "rb") as words, open(f"/proc/{number}/status", encoding="utf-8") as told:
            if b"--type=renderer" not in words.read() or not is_of(number, top, "mnt"):
                return None
            return "\nSeccomp:\t2\n" in told.read() and not is_of(number, top, "pid")
    except (OSError, ProcessLookupError):
        return None


def is_of(number, top, kind):
    """Whether a process is in the namespace of a kind that the first one of this root is in."""
    return os.stat(f"/proc/{number}/ns/{kind}").st_ino == os.stat(f"{top}proc/1/ns/{kind}").st_ino
