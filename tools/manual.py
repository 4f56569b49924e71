"""Manual pages out of what the commands print with --help: each option is in both."""
import re
from collections import Counter

PURPOSES = {
    "er_browser": "a browser for test suites that records each page load",
    "er_cli": "lists the races of a recorded page load",
    "er_page": "records a web page and lists its races",
    "er_record": "records the load of a web page as a trace",
    "er_replay": "runs a race of a recorded page in the other order",
    "er_suite": "lists the races of the page loads of a test suite",
    "er_view": "writes the view of a recorded page",
}
# its --help and --version are those of Chromium, so recorder/help.js has its text
OF_CHROMIUM = "er_browser"
SYNOPSIS = re.compile(r"(?:usage|   or): (.*)")
# what is explained starts with two spaces; its explanation comes after a gap, or in lines that are indented further
ENTRY = re.compile(r"  (\S.*?)(?:  +(\S.*))?")
FURTHER = re.compile(r"   +(\S.*)")
HEADING = re.compile(r"([A-Z][a-z ]+):")
# headings that are sections of a manual page of their own; the others are parts of OPTIONS
SECTIONS = ("Examples", "Exit status")


def escape(text):
    text = text.replace("\\", "\\e").replace("-", "\\-").replace('"', "\\(dq")
    return f"\\&{text}" if text[:1] in (".", "'") else text


class Help:
    """The parts of a text of --help: how the command is called, what its words do, and the sentences above and below."""

    def __init__(self, text):
        self.synopsis, self.above, self.entries, self.below = [], [], [], []
        lines = text.splitlines()
        begins = Counter(entry.start(2) for entry in map(ENTRY.fullmatch, lines) if entry and entry[2])
        self.column = begins.most_common(1)[0][0] if begins else 0
        for line in lines:
            self.take(line)

    def take(self, line):
        called, entry, further = (form.fullmatch(line) for form in (SYNOPSIS, ENTRY, FURTHER))
        if called:
            self.synopsis.append(called[1])
        elif heading := HEADING.fullmatch(line):
            if heading[1] != "Options":  # the section has this name
                self.entries.append((heading[1], None))
        elif further and self.entries:
            self.entries[-1][1].append(further[1])
        elif entry:
            self.entries.append(self.parts(line, entry))
        elif line:
            (self.below if self.entries else self.above).append(line)

    def parts(self, line, entry):
        """What is explained, and its explanation, which can come after one space, in the column of the others."""
        if not entry[2] and line[self.column - 1 : self.column] == " ":
            return line[: self.column].strip(), [line[self.column :]]
        return entry[1], [entry[2]] if entry[2] else []


def manual(name, text, version, date):
    """The manual page of a command whose --help is `text`."""
    told = Help(text)
    lines = [f'.TH {name.upper()} 1 "{date}" "eventracer {version}"', ".SH NAME", f"{name} \\- {PURPOSES[name]}", ".SH SYNOPSIS"]
    for called in told.synopsis:
        command, _, words = called.partition(" ")
        lines += [f".B {command}", escape(words), ".br"]
    lines.append(".SH DESCRIPTION")
    lines += [escape(line) for line in told.above] or [f"The command {name} {PURPOSES[name]}."]
    if told.entries:
        lines.append(".SH OPTIONS")
    for words, meaning in told.entries:
        if meaning is None:
            lines.append(f".SH {words.upper()}" if words in SECTIONS else f".SS {words}")
            continue
        lines += [".TP", f".B {escape(words)}", *map(escape, meaning)]
    if told.below:
        lines += [".SH NOTES", *map(escape, told.below)]
    others = [f".BR {other} (1)" for other in PURPOSES if other != name]
    lines += [".SH SEE ALSO", ",\n".join(others), ".PP", "The documents are in /usr/share/doc/eventracer, with README.md as the first of them."]
    return "\n".join(lines) + "\n"
