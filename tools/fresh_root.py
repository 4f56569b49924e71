"""A root of its own, in which a package is installed, used and removed, and that goes with its process. It takes root's rights on this machine, on which nothing changes."""
import os
import shutil
import stat
import subprocess

from staging import TOP

LONGEST = 300
LONGEST_INSTALL = 3600
TESTER = "tester"
# folders that the machine's own users and programs beside Debian's have: the checkout and the toolchain are in one of them, or are hidden too
HIDDEN = ["/opt", "/srv", "/mnt", "/media", "/work", "/home", "/root", "/usr/local", "/tmp", "/var/tmp", "/run"]
# dpkg's own records, and those of what it calls
KEPT_BY_DPKG = ("var/lib/dpkg", "var/lib/apt", "var/cache", "var/log", "etc/ld.so.cache")
PREPARE = """
set -e
mount -t tmpfs none "$1"
cd "$1"
mkdir upper work root
"""
# the machine's own files below, and all that is written in a folder of memory above them
OF_MACHINE = """
mount -t overlay none -o lowerdir=/,upperdir="$1/upper",workdir="$1/work" root
for it in "${@:2}"; do [ ! -d "root$it" ] || mount -t tmpfs -o mode=1777 none "root$it"; done
# nothing is left out by this machine, and its manual pages are not listed anew
rm -rf root/etc/dpkg/dpkg.cfg.d root/var/lib/man-db/auto-update
"""
OF_ARCHIVE = """
mount --bind "$2" root
"""
ENTER = """
mkdir -p root/mnt
mount -t tmpfs none root/mnt
mkdir root/mnt/upper
mount --bind upper root/mnt/upper
mount --rbind /dev root/dev
mount -t proc none root/proc
cd root
pivot_root . .
umount -l .
cd /
useradd --create-home tester
echo ready
cat
"""


class NoRoot(Exception):
    """Why there is no root of its own here."""


class Failed(Exception):
    """What a command of root's said in the root, where it did not do what it is called for."""


class FreshRoot:
    """Either this machine's Debian, without what is in HIDDEN, or one that debootstrap makes in `archive`."""

    def __init__(self, folder, archive=None):
        self.archive = archive
        script, words = (OF_ARCHIVE, [archive]) if archive else (OF_MACHINE, [*HIDDEN, os.path.realpath(TOP)])
        begin = ["unshare", "--mount", "--pid", "--fork", "--kill-child", "--propagation", "private"]
        how = {"stdin": subprocess.PIPE, "stdout": subprocess.PIPE, "stderr": subprocess.PIPE, "text": True}
        self.holder = subprocess.Popen([*begin, "bash", "-c", PREPARE + script + ENTER, "fresh-root", folder, *words], **how)
        if self.holder.stdout.readline() != "ready\n":
            raise NoRoot(self.holder.communicate()[1].strip().replace("\n", "; ") or "no namespaces")
        with open(f"/proc/{self.holder.pid}/task/{self.holder.pid}/children", encoding="utf-8") as it:
            self.first = it.read().strip()

    def close(self):
        self.holder.communicate("")

    def path(self, name):
        """Where a file of the root is found from outside."""
        return f"/proc/{self.first}/root{name}"

    def write(self, name, source):
        shutil.copy(source, self.path(name))

    def words(self, words, user=TESTER, cwd="/", **env):
        """The words that run a command in there: as a user who is not root, unless `user` names another."""
        rights = ["setpriv", "--reuid", user, "--regid", user, "--clear-groups"] if user != "root" else []
        env = {"PATH": "/usr/sbin:/usr/bin:/sbin:/bin", "HOME": f"/home/{user}", "LANG": "C.UTF-8", **env}
        told = [f"{name}={value}" for name, value in env.items() if value is not None]
        return ["nsenter", "--target", self.first, "--mount", "--pid", *rights, "env", "-i", "-C", cwd, *told, *words]

    def run(self, *words, longest=LONGEST, **how):
        """Gives the status, and what came on standard output and standard error."""
        ran = subprocess.run(self.words(words, **how), stdin=subprocess.DEVNULL, capture_output=True, text=True, timeout=longest)
        return ran.returncode, ran.stdout, ran.stderr

    def as_root(self, *words):
        status, said, fault = self.run(*words, longest=LONGEST_INSTALL, user="root", HOME="/root", DEBIAN_FRONTEND="noninteractive")
        if status:
            raise Failed(f"{' '.join(words)}: {(fault or said).strip()[-500:]}")
        return said

    def written(self):
        """What is written in the root but by dpkg: each file, with its kind, rights, size and time, and each folder that nothing else has."""
        top = self.archive or self.path("/mnt/upper")
        found = {}
        for folder, folders, names in os.walk(top):
            for name in [*folders, *names]:
                path = f"{folder}/{name}"
                inside = os.path.relpath(path, top)
                if not inside.startswith(KEPT_BY_DPKG) and not self.is_below(path, inside):
                    found[inside] = facts_of(path)
        return found

    def is_below(self, path, inside):
        """A folder of the machine that the layer above has too, as something in it is written."""
        return not self.archive and os.path.isdir(path) and not os.path.islink(path) and os.path.isdir(f"/{inside}")


def facts_of(path):
    told = os.lstat(path)
    return (told.st_mode, 0, 0) if stat.S_ISDIR(told.st_mode) else (told.st_mode, told.st_size, told.st_mtime_ns)


def changes(before, after):
    """What is in one of both alone, or is another one."""
    return sorted(name for name in {*before, *after} if before.get(name) != after.get(name))


def new_debian(folder):
    """A Debian of this machine's release by debootstrap, with that of its security updates. It asks the archive."""
    with open("/etc/os-release", encoding="utf-8") as it:
        release = dict(line.strip().split("=", 1) for line in it if "=" in line)["VERSION_CODENAME"]
    ran = subprocess.run(["debootstrap", "--variant=minbase", release, folder], stdout=subprocess.DEVNULL, stderr=subprocess.PIPE, text=True)
    if ran.returncode:
        raise NoRoot(f"debootstrap: {ran.stderr.strip()[-300:]}")
    with open(f"{folder}/etc/apt/sources.list", "a", encoding="utf-8") as it:
        it.write(f"deb http://deb.debian.org/debian-security {release}-security main\n")
