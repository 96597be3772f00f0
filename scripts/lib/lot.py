"""Which edits a run of `scripts/more-edits --lot HASH` tries: those of two crates that the hash draws, of all that
have edits. What was refused before says nothing here. Of those that stand in no function, each of which wants a check
of its own, often by a crate above, it draws a few, so that a lot's cost is bounded: on average it has 46 edits of
functions, many of which are tried in one check, and two of the others."""

import hashlib

from lib.edits import more_edits, uses

CRATES = 2
# How many of a crate's edits that stand in no function.
MOST_ALONE = 6


def drawn(lot, names, count):
    """So many of these names as a hash draws them, or all."""
    return sorted(names, key=lambda it: hashlib.sha256(f"{lot} {it}".encode()).digest())[:count]


def edits_by(lot):
    """The edits that a hash draws, by crates."""
    found = {}
    for crate in drawn(lot, [it for it in uses() if more_edits(it)], CRATES):
        alone = drawn(lot, [it.name for it in more_edits(crate) if not it.function], MOST_ALONE)
        found[crate] = [it for it in more_edits(crate) if it.function or it.name in alone]
    return found


def words_for(found):
    """Which edits these are, in words."""
    return "; ".join(f"{crate}, {len(edits)} of its {len(more_edits(crate))}" for crate, edits in found.items())
