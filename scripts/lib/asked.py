"""What scripts/by-hand/without-proofs said of edits, as .ci/without-proofs keeps it: a line for each, CRATE/EDIT, its
kind, a short checksum of what that rests on, and the goal; and what .ci/one-way says of those that are proved.

The checksum has the edit, all of its crate and the definitions of the crates below, by which the clauses are meant. It
leaves out the code below and the kit: each function is asked about with the others taken at their clauses, and an
answer is about what these say of a wrong body. Where a clause below says less than before, or another kit's search
proves more, an answer may be another one, and is asked for by --anew. That is right enough for what no gate goes by; a
sum of all that lies below would have all asked again at each change there, three hours of a processor."""

import functools
import os
import re
from pathlib import Path

from lib.edits import ROOT, below, files_below, more_edits, must_fail, text_of, uses
from lib.refusals import sum_of, text_sum

ASKED, ONE_WAY = ".ci/without-proofs", ".ci/one-way"
# The kinds of answers that are kept.
PROVED, FALSE, INVARIANT, OPEN, FORM = KEPT = ("proved", "false", "invariant", "open", "form")
HEAD = """\
# What scripts/by-hand/without-proofs said of edits without what of their function's written proof doesn't fit:
# CRATE/EDIT, the kind, a checksum of what that rests on (scripts/lib/asked.py), and the goal. It takes these over, and
# with --keep writes them. They spare time, and are no evidence.
"""


@functools.lru_cache(maxsize=None)
def text_below(crate):
    """The checksum of a crate's text, and of the definitions of all below it."""
    paths = [it for name in sorted(below(crate, uses())) for it in files_below(f"{ROOT}/crates/{name}/specs", ".antt")]
    return sum_of(text_sum(crate).encode(), *(text_of(it).encode() for it in paths))


def key_of(edit):
    """A short checksum of what an answer on an edit rests on."""
    return sum_of(text_below(edit.crate).encode(), repr(edit.pairs).encode())[:12]


def text_at(file):
    """The text of a file of .ci/, nothing where it isn't there."""
    return text_of(f"{ROOT}/{file}") if os.path.exists(f"{ROOT}/{file}") else ""


def rows_of(text, count=4):
    """The words of each line of such a text, at most so many, in its order."""
    lines = (line.strip() for line in text.splitlines())
    return [line.split(None, count - 1) for line in lines if line and not line.startswith("#")]


def kept_in(text):
    """Of each edit that the text has: its kind, the checksum and the goal."""
    return {name: (kind, key, "".join(goal)) for name, kind, key, *goal in (it for it in rows_of(text) if len(it) > 2)}


def kept():
    """What is kept now."""
    path = Path(ROOT, ASKED)
    return kept_in(path.read_text(encoding="utf-8")) if path.exists() else {}


def is_kept(found, edit):
    """Whether what was found has this edit, with all that the answer rests on as it is now."""
    return found.get(f"{edit.crate}/{edit.name}", ("", ""))[1] == key_of(edit)


def write(found):
    """Keeps these, and what is kept of other edits that are there."""
    path, rows = f"{ROOT}/{ASKED}", {name: it for name, it in {**kept(), **found}.items() if is_there(name)}
    with open(f"{path}.new", "w", encoding="utf-8") as it:
        it.write(HEAD + "".join(f"{' '.join([name, *row]).strip()}\n" for name, row in sorted(rows.items())))
    os.replace(f"{path}.new", path)


@functools.lru_cache(maxsize=None)
def edits_of(crate):
    """The names of the edits of a crate that turn functions."""
    return {it.name for it in [*must_fail(crate), *more_edits(crate)] if it.function} if crate in uses() else set()


def is_there(name):
    crate, _, edit = name.partition("/")
    return edit in edits_of(crate)


def faults_of(asked, one_way):
    """What is wrong with texts of the two files, a line for each fault."""
    rows, reasons = rows_of(asked), rows_of(one_way, 2)
    for file, name in [*((ASKED, it[0]) for it in rows), *((ONE_WAY, it[0]) for it in reasons)]:
        if not is_there(name):
            yield f"{file}: there is no edit {name}"
    for name, *rest in rows:
        if len(rest) < 2 or rest[0] not in KEPT or not re.fullmatch("[0-9a-f]{12}", rest[1]):
            yield f"{ASKED}: {name} has no kind, or no checksum"
    names = [it[0] for it in rows]
    if names != sorted(set(names)):
        yield f"{ASKED}: its lines aren't in their order, or two are of one edit"
    for name, *why in reasons:
        if not why:
            yield f"{ONE_WAY}: why {name} may be proved isn't said"
        if [*names, name].index(name) < len(names) and rows[names.index(name)][1] != PROVED:
            yield f"{ONE_WAY}: {name} isn't proved, by {ASKED}"


def found_plants():
    """How many mistakes there are in small texts of their own, each in one, and how many of them are told."""
    name = next(f"{crate}/{it}" for crate in uses() for it in sorted(edits_of(crate)))
    row, gone = f"{name} {FALSE} {'0' * 12}\n", "sva_step/not_there"
    texts = [(it, "") for it in (row.replace(name, gone), row.replace(FALSE, "fals"), row * 2)]
    texts += [(row, it) for it in (f"{gone} why\n", f"{name}\n", f"{name} why\n")]
    return len(texts), sum(any(faults_of(*it)) for it in texts)
