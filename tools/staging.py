"""Lays out what the package eventracer installs, in a folder: the files of a commit, the program, and what is made of both."""
import gzip
import hashlib
import io
import json
import os
import subprocess
import tarfile
import textwrap
import time

from completion import completion
from manual import OF_CHROMIUM, PURPOSES, manual

TOP = os.path.dirname(os.path.dirname(os.path.abspath(__file__)))
OWN = f"{TOP}/tools/debian"
SHARED, PROGRAM, DOCUMENTS, MANUALS = "usr/share/eventracer", "usr/lib/eventracer/er_cli", "usr/share/doc/eventracer", "usr/share/man/man1"
COMPLETIONS = "usr/share/bash-completion/completions"
# where Debian's Node finds the module eventracer
MODULE = "usr/share/nodejs/eventracer"
# of the commit: what the commands need, and what a reader does
PARTS = {SHARED: [*PURPOSES, "recorder"], DOCUMENTS: ["README.md", "docs", "examples", "recorder/README.md"]}
NOT_OF = {SHARED: ["recorder/test", "recorder/*.test.js", "recorder/run-tests", "recorder/README.md"], DOCUMENTS: []}


def run(*words, cwd=TOP, **more):
    return subprocess.run(words, cwd=cwd, check=True, stdout=subprocess.PIPE, text=True, **more).stdout


def read(path):
    with open(path, encoding="utf-8") as it:
        return it.read()


def write(path, text, mode=0o644):
    os.makedirs(os.path.dirname(path), exist_ok=True)
    with open(path, "w", encoding="utf-8") as it:
        it.write(text)
    os.chmod(path, mode)


def write_packed(path, text):
    """As gzip -9n writes it: no name, no time."""
    os.makedirs(os.path.dirname(path), exist_ok=True)
    with open(path, "wb") as it:
        it.write(gzip.compress(text.encode(), 9, mtime=0))


class Stage:
    """A folder in which the package is laid out, where Debian's tools look for it. `facts` are what its texts name: version, commit, time, maintainer, proof; and `tree`, whose files it takes."""

    def __init__(self, folder, program, facts):
        self.folder, self.top = folder, f"{folder}/debian/eventracer"
        self.program, self.facts = program, facts

    def path(self, name):
        return f"{self.top}/{name}"

    def lay_out(self):
        for target, names in PARTS.items():
            self.take(target, names, NOT_OF[target])
        self.take_program()
        for name in ("program", "version"):
            write(self.path(f"{SHARED}/tools/{name}"), self.told(name), 0o755)
        self.write_commands()
        self.write_module()
        self.write_documents()
        self.write_control()
        self.settle()

    def told(self, name):
        return read(f"{OWN}/{name}").format(**self.facts)

    def take(self, target, names, without):
        """Files of the commit, as they are in it."""
        os.makedirs(self.path(target), exist_ok=True)
        leave = [f":(exclude){name}" for name in without]
        packed = subprocess.run(["git", "archive", self.facts["tree"], "--", *names, *leave], cwd=TOP, check=True, stdout=subprocess.PIPE).stdout
        with tarfile.open(fileobj=io.BytesIO(packed)) as it:
            it.extractall(self.path(target))

    def take_program(self):
        """The program without what a debugger asks for, as dh_strip leaves it: names of this machine's folders go with it."""
        os.makedirs(os.path.dirname(self.path(PROGRAM)))
        run("strip", "--strip-unneeded", "--remove-section=.comment", "--remove-section=.note", "-o", self.path(PROGRAM), self.program)
        os.chmod(self.path(PROGRAM), 0o755)

    def write_commands(self):
        """The commands by their names, each with its manual page, which says what its --help says."""
        os.makedirs(self.path("usr/bin"))
        date = time.strftime("%Y-%m-%d", time.gmtime(self.facts["time"]))
        for name in PURPOSES:
            os.symlink(f"../share/eventracer/{name}", self.path(f"usr/bin/{name}"))
            told = self.help_of(name)
            write_packed(self.path(f"{MANUALS}/{name}.1.gz"), manual(name, told, self.facts["version"], date))
            if name != OF_CHROMIUM:
                write(self.path(f"{COMPLETIONS}/{name}"), completion(name, told))

    def help_of(self, name):
        if name == OF_CHROMIUM:
            return run("node", self.path(f"{SHARED}/recorder/help.js"), name)
        return run(self.path(f"usr/bin/{name}"), "--help")

    def write_module(self):
        """The interface for programs, with this version and TypeScript's declarations."""
        path = self.path(f"{SHARED}/recorder/package.json")
        facts = json.loads(read(path))
        major_minor = self.facts["version"].split("~")[0]
        run(f"{TOP}/tools/declarations", self.path(f"{SHARED}/recorder"))
        named = {"version": major_minor + ".0" * (2 - major_minor.count(".")), "types": "./index.d.ts"}
        named["exports"] = {**facts["exports"], ".": {"types": "./index.d.ts", "default": facts["exports"]["."]}}
        write(path, json.dumps({**facts, **named}, indent=2) + "\n")
        os.makedirs(os.path.dirname(self.path(MODULE)), exist_ok=True)
        os.symlink("../eventracer/recorder", self.path(MODULE))

    def write_documents(self):
        write(self.path(f"{DOCUMENTS}/copyright"), self.told("copyright"))
        write_packed(self.path(f"{DOCUMENTS}/changelog.gz"), self.changes())

    def changes(self):
        """docs/CHANGELOG.md's newest version in the form of Debian's changelogs."""
        version, lines = newest_changes(read(f"{TOP}/docs/CHANGELOG.md"))
        date = time.strftime("%a, %d %b %Y %H:%M:%S +0000", time.gmtime(self.facts["time"]))
        told = [f"eventracer ({self.facts['version']}) unstable; urgency=medium", ""]
        told += [textwrap.fill(line, 78, initial_indent="  * ", subsequent_indent="    ") for line in [*lines, "Earlier changes are in /usr/share/doc/eventracer/docs/CHANGELOG.md."]]
        return "\n".join([*told, "", f" -- {self.facts['maintainer']}  {date}", ""])

    def write_control(self):
        size = sum(1 if os.path.islink(path) else (os.path.getsize(path) + 1023) // 1024 for path in self.files())
        facts = {**self.facts, "libraries": self.libraries(), "size": size}
        write(self.path("DEBIAN/control"), read(f"{OWN}/control").format(**facts))
        sums = []
        for path in self.files():
            if not os.path.islink(path):
                with open(path, "rb") as it:
                    sums.append(f"{hashlib.md5(it.read()).hexdigest()}  {os.path.relpath(path, self.top)}\n")
        write(self.path("DEBIAN/md5sums"), "".join(sums))

    def libraries(self):
        """The packages of the libraries that the program loads, in the versions that it takes, as dpkg-shlibdeps finds them."""
        os.makedirs(self.path("DEBIAN"))  # by which dpkg-shlibdeps finds the package's folder
        write(f"{self.folder}/debian/control", "Source: eventracer\n\nPackage: eventracer\nArchitecture: amd64\n")
        return run("dpkg-shlibdeps", "-O", f"debian/eventracer/{PROGRAM}", cwd=self.folder).strip().partition("=")[2]

    def files(self):
        """All that is installed, in the order of the names."""
        found = [f"{folder}/{name}" for folder, _, names in os.walk(self.path("usr")) for name in names]
        return sorted(found)

    def settle(self):
        """Rights and times that hang on the commit alone."""
        for folder, folders, names in os.walk(self.top):
            for path in [folder, *(f"{folder}/{name}" for name in [*folders, *names])]:
                if not os.path.islink(path):
                    runs = os.path.isdir(path) or os.stat(path).st_mode & 0o100
                    os.chmod(path, 0o755 if runs else 0o644)
                os.utime(path, (self.facts["time"],) * 2, follow_symlinks=False)


def newest_changes(text):
    """The newest released version of docs/CHANGELOG.md, and the lines of what changed in it and since."""
    changes = []
    for part in text.split("\n## ")[1:]:
        head, *lines = part.splitlines()
        changes += [line.removeprefix("- ") for line in lines if line.startswith("- ")]
        if head.strip() != "Unreleased":
            return head.partition(" - ")[0].strip(), changes
    return "", changes
