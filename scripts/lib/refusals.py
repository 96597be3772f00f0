"""What is kept of edits that were tried: of each crate a checksum of all that its refusals stand on. `scripts/more-edits --kept FILE` doesn't try the edits of a
crate again whose checksum stands in the file: the kit, with its libraries, the crates.txt lines, texts and proofs of the crate and of all below it, and of the crates
that judge it from above, the edits that are tried, and the scripts that try them. It spares time, and is no evidence: who writes the file can write any sum."""

import functools
import hashlib
import os
import shutil
import subprocess
from pathlib import Path

from lib.edits import PARTS, ROOT, below, must_fail, text_of, uses

# By whose text it is decided what is an edit, what is a refusal, and what is kept.
JUDGES = ["scripts/more-edits", "scripts/lib/edits.py", "scripts/lib/again.py", "scripts/lib/copies.py", "scripts/lib/refusals.py"]


def sum_of(*texts):
    """The checksum of texts, each told from the next."""
    found = hashlib.sha256()
    for it in texts:
        found.update(len(it).to_bytes(8, "big") + it)
    return found.hexdigest()


@functools.lru_cache(maxsize=None)
def kit():
    """The logic by which the kit's checker judges, and its file WHAT, which names all that the kit was made of, and which `rt` has in its own sums. Kits that have
    one logic may have other contracts in their libraries."""
    folder = os.path.dirname(os.path.dirname(os.path.realpath(shutil.which("rt"))))
    said = subprocess.run(["rt", "version"], capture_output=True, check=True).stdout
    return sum_of(said.partition(b" ")[2], Path(folder, "WHAT").read_bytes()).encode()


@functools.lru_cache(maxsize=None)
def text_sum(name):
    """The checksum of a crate's line in crates.txt, its text and its proofs."""
    files = [f"{at}/{it}" for part in PARTS for at, _, files in os.walk(f"{ROOT}/crates/{name}/{part}") for it in files]
    named = [text for it in sorted(files) for text in (os.path.relpath(it, ROOT).encode(), Path(it).read_bytes())]
    return sum_of(repr(uses()[name]).encode(), *named)


def key_of(crate, edits):
    """The checksum of all on which it rests that each of these edits of a crate is refused."""
    named = uses()
    stands_on = {crate} | {it for edit in edits for it in edit.by}
    stands_on |= {it for name in stands_on for it in below(name, named)}
    # An edit of must-fail/ may stand in a check beside these, as one of a function that has none of them.
    tried = [repr((it.name, it.pairs, it.by, it.only)).encode() for it in [*edits, *must_fail(crate)]]
    judges = [text_of(f"{ROOT}/{it}").encode() for it in JUDGES]
    return sum_of(kit(), *judges, *(text_sum(it).encode() for it in sorted(stands_on)), *tried)


def read(file):
    """What is kept: of each crate the checksum, and how many edits were refused."""
    if not os.path.exists(file):
        return {}
    rows = [line.split() for line in Path(file).read_text(encoding="utf-8").splitlines() if line and not line.startswith("#")]
    return {name: (key, int(count)) for name, count, key in rows}


def write(file, kept):
    """Keeps this, in place of what was kept."""
    head = "".join(f"# {it}\n" for it in HEAD)
    rows = "".join(f"{name} {count} {key}\n" for name, (key, count) in sorted(kept.items()))
    with open(f"{file}.new", "w", encoding="utf-8") as it:
        it.write(head + rows)
    os.replace(f"{file}.new", file)


HEAD = [
    "Of each crate: how many of its further edits were refused, each of those that .ci/more-edits names, and a checksum of all on which that",
    "stands (scripts/lib/refusals.py). Where it is the present one, the gate doesn't try them again. `scripts/more-edits --keep` writes it. It",
    "spares time, and is no evidence: delete it, and all are tried.",
]
