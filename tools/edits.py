"""Edits of must-fail and wrong-bodies: whether one applies, which function it changes, and which of them one check can try together.

An edit of a function's body leaves what its callers know of it, its contract. So edits of the bodies of different functions, none of which names another of them, are tried by one check: each is refused if an error is in its own function, or in a proof file of that.
"""
import os
import re

# as many edits as one check is given at most
MOST_AT_ONCE = 10
HEAD = re.compile(r"^( *)(?:pub(?:\([a-z]+\))? )?(?:const )?fn (\w+)")
# what a line about a mutant begins with if the mutant is refused
REFUSED = "refused, as it must be"
# what a line has if only the name that the mutant removed was missed, which shows nothing about a contract
BY_NAME = "only because a proof file names"
# what says that something is not proved
OPEN = re.compile(r"\berror\b|is not proved")
# what says that a proof file names a thing which the edit took away, and nothing of a clause
NAME_ALONE = re.compile(r"has no field|is not in scope|has no `|was not admitted")


class Misfit(Exception):
    """The edit cannot be applied, and why."""


class Function:
    """A function of a crate: the file, its name, its text, and the lines on which it stands, from 1."""

    def __init__(self, path, name, first, lines):
        self.path, self.name, self.first, self.last = path, name, first, first + len(lines) - 1
        self.text = "\n".join(lines)

    def names(self, other):
        return re.search(rf"\b{other.name}\b", self.text) is not None

    def has_error(self, said):
        """Whether a check's words have an error in this function or in its proof, beside names that are gone."""
        for path, line, text in re.findall(r"(?m)^(?:note: )?(?:\./)?(\S+?):(\d+):\d+:(.*)$", said):
            if not OPEN.search(text):
                continue
            if path == self.path and self.first <= int(line) <= self.last:
                return True
            in_proof = path.startswith("proofs/") and self.name in path.split("/")
            if in_proof and not NAME_ALONE.search(text):
                return True
        return False


def pairs_of(edit):
    """The file, the old and the new text of each pair."""
    path, old, pairs = None, None, []
    with open(edit, encoding="utf-8") as it:
        lines = it.read().split("\n")
    for line in lines:
        key, _, text = line.partition(": ")
        if key == "file":
            path = text.strip()
        elif key == "old":
            old = text
        elif line.startswith("new:") and path and old:
            pairs.append((path, old, text))
            old = None
    if old is not None or not pairs:
        raise Misfit("it has no pair of old and new text")
    return pairs


def changed(pairs, crate):
    """The texts of the files that the pairs change, by path. A pair sees what the pairs before it wrote."""
    texts = {}
    for path, old, new in pairs:
        if path not in texts:
            with open(f"{crate}/{path}", encoding="utf-8") as it:
                texts[path] = it.read()
        count = texts[path].count(old)
        if count != 1:
            raise Misfit(f"its text is in {path} {count} times: {old.strip()}")
        texts[path] = texts[path].replace(old, new)
    return texts


def functions_in(path, text):
    """The functions of a file, in its order. In the layout of the sources each ends with the brace below its head."""
    found, lines = [], text.split("\n")
    for at, line in enumerate(lines):
        head = HEAD.match(line)
        if not head:
            continue
        end = next((n for n in range(at, len(lines)) if lines[n].startswith(head[1] + "}")), None)
        if end is not None:
            found.append(Function(path, head[2], at + 1, lines[at : end + 1]))
    return found


def function_of(edit, crate):
    """The one function whose body is all that the edit changes, or None."""
    pairs = pairs_of(edit)
    path = pairs[0][0]
    if any(it[0] != path for it in pairs) or not path.startswith("src/"):
        return None
    with open(f"{crate}/{path}", encoding="utf-8") as it:
        before = it.read().split("\n")
    after = changed(pairs, crate)[path].split("\n")
    lines = [n + 1 for n, (old, new) in enumerate(zip(before, after)) if old != new]
    if len(before) != len(after) or not lines:
        return None
    for function in functions_in(path, "\n".join(after)):
        if function.first < lines[0] and lines[-1] < function.last:
            inside = after[function.first - 1 : lines[0] - 1]
            return function if any(line.rstrip().endswith("{") for line in inside) else None
    return None


def fits(function, edit, batch, crate):
    """Whether the edit of this function can be tried by one check with those of the batch."""
    if len(batch) == MOST_AT_ONCE:
        return False
    if any(function.name == it.name or function.names(it) or it.names(function) for it, _ in batch):
        return False
    try:
        changed([pair for _, it in [*batch, (function, edit)] for pair in pairs_of(it)], crate)
    except Misfit:
        return False
    return True


def batches(edits, crate):
    """The edits in batches, each a list of functions with their edits, and those that are tried alone."""
    found, alone = [], []
    for edit in edits:
        function = function_of(edit, crate)
        if function is None:
            alone.append(edit)
            continue
        room = next((it for it in found if fits(function, edit, it, crate)), None)
        if room is None:
            room = []
            found.append(room)
        room.append((function, edit))
    alone += [it[0][1] for it in found if len(it) == 1]
    return [it for it in found if len(it) > 1], alone


def is_refused(line):
    """Whether the line about a mutant says that a contract refuses it."""
    return line.startswith(REFUSED) and BY_NAME not in line


def name_of(edit):
    return os.path.basename(edit).removesuffix(".edit")
