"""Contracts as they stand in crates/*/src/**/*.rt, and definitions as they stand in crates/*/specs/*.antt."""

import functools
import os
import re
from glob import glob

from lib.edits import ROOT, text_of

HEAD = re.compile(r'^( *)(pub(?:\(\w+\))? )?(?:const |unsafe )*(?:extern "C" )?fn (\w+)', re.M)
OWNER = re.compile(r"^(?:impl\b(?:<[^{]*?>)? (?:[^{]*? for )?(?:\w+::)*(\w+)|(?:pub(?:\(\w+\))? )?trait (\w+))", re.M)
KIND = re.compile(r"^ *(?:pub(?:\(\w+\))? )?(?:struct|enum|trait|type|mod|const|static) (\w+)", re.M)
CLAUSE = re.compile(r"\s*(requires|ensures)(?: (\w+))? \{")
DEFINED = r"^(?:abbrev |unfoldable )*pub (?:abbrev |unfoldable )*(?:data |record )?{}(?= |$)"
INSIDE = r"^ +(?:pub )?(\w+) :"


class Function:
    """A function with its contract: its name with its type, whether it is public, what is said of it, its clauses."""

    def __init__(self, path, line, owner, name, words, clauses, is_law):
        self.path, self.line, self.name, self.words = path, line, name, words
        self.full = f"{owner}::{name}" if owner else name
        self.clauses, self.is_law = clauses, is_law
        self.is_public = self.is_of_trait = False

    @property
    def names(self):
        """What it may be called: its name, and with its module."""
        module = os.path.splitext(os.path.basename(self.path))[0]
        return {self.full, self.name, f"{module}::{self.full}"}

    @property
    def clause_names(self):
        return {name for word, name, _ in self.clauses if word == "ensures" and name}


def first_sentence(lines):
    """The first sentence of a comment's lines."""
    text = " ".join(it.strip() for it in lines)
    return re.split(r"(?<=[.:])(?: |$)", text.split("  ")[0])[0] if text else ""


def comment_above(lines, at):
    """The lines `///` above a line, attributes left out."""
    found = []
    while at > 0 and re.match(r" *(?:///|#\[)", lines[at - 1]):
        at -= 1
        found += [lines[at].strip()[3:]] if lines[at].strip().startswith("///") else []
    paragraph = []
    for line in reversed(found):
        if not line.strip():
            break
        paragraph.append(line)
    return paragraph


def closed_at(text, at):
    """Where the brace is closed that is open before `at`."""
    depth = 1
    while depth:
        depth += {"{": 1, "}": -1}.get(text[at], 0)
        at += 1
    return at


def contract_at(text, at):
    """The clauses of the function whose name ends at `at`, and where its body begins."""
    first = re.compile(r"^ *(?:requires|ensures)\b|^ *\{|;$|\{\}?$", re.M).search(text, at)
    at, clauses = first.start() if first else len(text), []
    while True:
        it = CLAUSE.match(text, at)
        if it is None:
            return clauses, at
        end = closed_at(text, it.end())
        clauses.append((it[1], it[2], re.sub(r"\s+", " ", text[it.end():end - 1]).strip()))
        at = end


@functools.lru_cache(maxsize=None)
def functions_in(path):
    """The functions of a file."""
    text, found = text_of(f"{ROOT}/{path}"), []
    lines = text.split("\n")
    owners = [(it.start(), text.find("\n}", it.start()), it[1] or it[2], it[0]) for it in OWNER.finditer(text)]
    for it in HEAD.finditer(text):
        line = text.count("\n", 0, it.start())
        owner = next((at for at in owners if at[0] < it.start() < at[1] and it[1]), None)
        clauses, body = contract_at(text, it.end())
        is_law = re.match(r"\s*\{\}", text[body:]) is not None
        words = first_sentence(comment_above(lines, line))
        function = Function(path, line + 1, owner and owner[2], it[3], words, clauses, is_law)
        function.is_of_trait = bool(owner and " for " in owner[3])
        is_in_trait = bool(owner and owner[3].startswith("pub trait"))
        function.is_public = it[2] == "pub " or function.is_of_trait or is_in_trait
        found.append(function)
    return found


def sources(crate, end):
    folder = "src" if end == "rt" else "specs"
    paths = glob(f"{ROOT}/crates/{crate}/{folder}/**/*.{end}", recursive=True)
    return sorted(os.path.relpath(it, ROOT) for it in paths)


@functools.lru_cache(maxsize=None)
def functions_of(crate):
    return [it for path in sources(crate, "rt") for it in functions_in(path)]


@functools.lru_cache(maxsize=None)
def kinds_of(crate):
    """The types, constants and modules of a crate."""
    return {it[1] for path in sources(crate, "rt") for it in KIND.finditer(text_of(f"{ROOT}/{path}"))}


@functools.lru_cache(maxsize=None)
def defined_in(path):
    """The names that a file of definitions defines, and the fields and constructors of these."""
    text = text_of(f"{ROOT}/{path}")
    return set(re.findall(DEFINED.replace("{}", r"(\w+)"), text, re.M)), set(re.findall(INSIDE, text, re.M))


@functools.lru_cache(maxsize=None)
def definitions_of(crate):
    """The definitions of a crate, with their fields and constructors."""
    found = set()
    for path in sources(crate, "antt"):
        found.update(*defined_in(path))
    return found


def definitions(name, crates):
    """The definitions of this name in these crates: each one's file, and its text with the comment above it."""
    pattern = re.compile(DEFINED.replace("{}", re.escape(name)), re.M)
    for path in [path for crate in crates for path in sources(crate, "antt")]:
        text = text_of(f"{ROOT}/{path}")
        it = pattern.search(text)
        if it:
            start = it.start()
            for line in reversed(text[:start].rstrip("\n").split("\n")):
                if not line.startswith("--"):
                    break
                start -= len(line) + 1
            yield path, text[start:].split("\n\n")[0].rstrip()
