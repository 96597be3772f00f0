"""The manual pages: which there are, and what stands in each."""

import re
import subprocess

from lib.edits import ROOT, text_of
from lib.man.roff import block, code, entry, inline, plain, rendered, section, table, taken

# The languages, by their pages: the letter of docs/words, what a file is, sections of the documents, an example.
LANGUAGES = {
    "scenario": ("a", "steps of a host for shared virtual addressing, by numbers", [f"## {n}. " for n in range(1, 9)],
                 "first.sva"),
    "script": ("s", "a scenario with names, and with the answers that are expected", ["## 12. "], "held-back.svs"),
    "race": ("r", "a script that leaves open who comes first, and claims about it", ["## 13. "], "races/late-use.svr"),
    "driver": ("d", "the order of acts of a driver of an IOMMU", ["## 15. "], "judge/free-before-wait.svd"),
}
# What the documents say of a command apart from the tables of commands.
SAID = {
    "replay": ["## 8. ", "## 9. "], "storm": ["## 11. "], "show": ["### What the host keeps"],
    "why": ["### What holds a step back"], "chart": ["### The chart"], "explore": ["### The report"],
    "judge": ["### Verdicts"],
    **dict.fromkeys(("plain", "test", "trace"), ["### Lines that are wrong"]),
}
SORTS = {
    "heading": "Lines", "step": "Steps", "delivery": "Deliveries", "counts": "The last line", "place": "Letters",
    "sign": "Signs", "kind": "Kinds of message", "claim": "Claims", "joint": "Between atoms", "atom": "Atoms",
    "part": "What a device may do", "body": "Definitions and repeats", "setting": "Settings", "act": "Acts",
    "condition": "Conditions",
    "descriptor": "Descriptors", "answer": "Answers", "refused": "Refusals", "refusal": "Refusals", "cause": "Causes of line faults",
}
# An example's report is cut behind so many lines.
LINES = 30
NOTE = """Numbers of sections are those of docs/FORMAT.md: 1 to 8 are svahost-scenario(5), 12 is svahost-script(5), 13
svahost-race(5), 15 svahost-driver(5), and 16 svahost-audit(1). Documents and examples are in share/doc/svahost, below
the prefix."""


def format_text():
    """The numbered sections of the documents that docs/FORMAT.md points to, without what stands above the first."""
    texts = [text_of(f"{ROOT}/docs/{it}.md") for it in ("SCENARIOS", "SCRIPTS", "DRIVERS")]
    return "\n".join(it[it.index("\n## ") + 1:] for it in texts)


def lowered(text):
    """A text that begins with a small letter, as behind the name of a page."""
    return text[0].lower() + text[1:]


class Manual:
    """What all pages share: the program, its words about itself, its version and a date."""

    def __init__(self, program, date):
        self.program, self.date = program, date
        self.version = self.said("--version").split()[-1]
        self.short = self.said("-h")
        listed = self.short.partition("Commands:")[2].partition("\n\n")[0]
        self.commands = dict(re.findall(r"^  (\w+) +(.*)$", listed, re.M))
        if not self.commands:
            raise SystemExit(f"man: {program} -h names no command")

    def said(self, *words, text=""):
        """What the program prints."""
        run = subprocess.run([self.program, *words], input=text, capture_output=True, text=True, check=False)
        return run.stdout

    def page(self, name, number, about, parts, source):
        """A page: its parts are heads with lines that are made."""
        made = [f".\\\" made by scripts/man from {source}",
                f'.TH {name.upper()} {number} "{self.date}" "svahost {self.version}" "svahost"', ".nh",
                ".SH NAME", f"{code(name)} \\- {plain(about)}"]
        for head, lines in parts:
            made += ([f".SH {head}"] if head else []) + lines
        return "\n".join(without_doubles(made)) + "\n"

    def example(self, command, path):
        """An example, by a command, and what it prints."""
        text = text_of(f"{ROOT}/examples/{path}")
        told = self.said(command, text=text).rstrip("\n").split("\n")
        told = told[:LINES] + ["[..]"] * (len(told) > LINES)
        return block([f"$ svahost {command} < examples/{path}", *told])

    def languages(self, command):
        """The language that a command reads, by what `-h` says of it."""
        return [it for it in LANGUAGES if re.search(rf"\b{it}\b", self.commands[command])]


def without_doubles(lines):
    """Lines without a paragraph's macro right behind a head's."""
    heads = (".SH", ".SS", ".PP")
    return [line for before, line in zip([""] + lines, lines) if line != ".PP" or not before.startswith(heads)]


def options_in(said):
    """The options in what `-h` says, and its files."""
    made = []
    for it in re.finditer(r"^  +((?:-\S|\[)\S*(?: \S+)*)  +(\S.*)$", said, re.M):
        parts = [f"\\fI{plain(one[1:-1])}\\fR" if one[0] == "<" else f"\\fB{code(one)}\\fR" for one in it[1].split(" ")]
        made += entry(" ".join(parts), [inline(it[2])])
    return made


def place_of(lines, begin):
    """Which of the lines of section 10 begins so."""
    for at, line in enumerate(lines):
        if line.startswith(begin):
            return at
    raise SystemExit(f"man: no line of section 10 of docs/SCENARIOS.md begins with '{begin}'")


def statuses():
    """The table of statuses."""
    lines = section(format_text(), "## 10. ")
    at = place_of(lines, "| Status")
    return table(lines[at:taken(lines, at, lambda it: it.startswith("|"))])


def rows_about(command):
    """What the tables of commands say of one."""
    lines = section(format_text(), "## 10. ") + section(format_text(), "### The commands of scripts", 3)
    rows = [line.strip("| ").split(" | ", 1) for line in lines if line.startswith("| `svahost")]
    said = [row[1] for row in rows if re.match(rf"`svahost {command}\b", row[0])]
    said = [it for it in said if not re.fullmatch(r"of an? \w+: section \d+", it)]
    return [it for row in said for it in (".PP", inline(f"It prints {row}." if row[0] != "p" else f"It {row}."))]


def of_searches():
    """What section 10 says of options and files."""
    lines = section(format_text(), "## 10. ")
    return rendered(lines[place_of(lines, "**`--most"):place_of(lines, "**The script")])


def of_files():
    """What it says of files."""
    lines = section(format_text(), "## 10. ")
    return rendered(lines[place_of(lines, "**Files."):place_of(lines, "**Progress.")])


def see_also(*names):
    """The last part: other pages, by their names and numbers."""
    made = [f".BR {code(name)} ({number})" for name, number in names]
    return "SEE ALSO", [f"{it}," for it in made[:-1]] + made[-1:]
