"""Acts as a text, a line for each, which stands between whoever reads a log and the slices: `audit --acts` writes it of
a log, and audit takes it in place of one. So another kernel, unit or tracer needs a script that writes these lines:

    @LINE SECONDS CPU KIND ..    LINE is what a report names; LINE and SECONDS never fall

with the kinds, and what stands behind them, of acts.py; a device or a domain that isn't known is `-`, or a SID -1. The
text begins with `@`. Behind its first line one that begins with `#`, and a blank one, says nothing."""

import re

from . import descriptors
from .acts import Spool
from .facts import Facts
from .lines import Refused, blocks, number
from .reading import LAST_SPACE, MOST_PAGES

BEGINNING = b"@"
HEAD = re.compile(r"@(\d{1,15}) (\d{1,12}\.\d{1,9}) (\d{1,9}) (\w+) (\S[^\n]*)")
SUBMIT = re.compile(r"(\d{1,15}) (drain|-) (?:at (\S+) )?(0x[0-9a-f]+ 0x[0-9a-f]+(?: \+ 0x[0-9a-f]+ 0x[0-9a-f]+)*)")
BITS = {"pasid": 20, "sid": 16, "did": 16, "frame": 52}


def is_text(stream):
    """Whether a stream of bytes begins as a text of acts; nothing of it is taken."""
    return stream.peek(1).startswith(BEGINNING)


def below(bits):
    """What reads a number of so many bits."""

    def value(word, at):
        read = number(word, at)
        if read >> bits:
            raise Refused("line %d: no number of %d bits: %s" % (at, bits, word))
        return read

    return value


def access(word, at):
    """What a page may be used for."""
    if word not in ("r", "w"):
        raise Refused("line %d: r or w is wanted: %s" % (at, word))
    return word


def of_pages(most):
    """What reads a count, of one to so many."""

    def count(word, at):
        read = number(word, at)
        if not 0 < read <= most:
            raise Refused("line %d: not 1 to %d: %s" % (at, most, word))
        return read

    return count


def unless(word, value, reader):
    """What reads a thing, or this word, which is this value."""
    return lambda found, at: value if found == word else reader(found, at)


def name(word, _at):
    """A domain, by any word."""
    return word


PAGE = below(LAST_SPACE.bit_length() - 1)
PASID, SID, DID, FRAME = (below(BITS[each]) for each in ("pasid", "sid", "did", "frame"))
PAGES, ALL_PAGES = of_pages(MOST_PAGES), of_pages(LAST_SPACE)
KINDS = {
    "map": (name, PAGE, PAGES, FRAME, access),
    "clear": (name, PAGE, ALL_PAGES),
    "domain": (name, DID, PASID),
    "tag": (DID, PASID, SID),
    "untag": (DID, PASID, SID),
    "bind": (unless("-", None, SID), PASID, DID),
    "gone": (PASID, unless("-1", -1, SID)),
    "drain": (PASID, unless("-1", -1, SID)),
    "stop": (SID, PASID),
    "stopped": (SID, PASID),
    "pasidfree": (PASID,),
    "pgdfree": (name,),
    "free": (FRAME, PAGES),
    "release": (SID, PAGE, PAGES),
}


class Acts:
    """A text of acts that is read, as a Reading is."""

    def __init__(self, note):
        self.note, self.spool, self.facts = note, Spool(), Facts()
        self.lines = self.acts = 0
        self.lengths = {}  # by the number of a submission: its descriptors, or 0 where it has no end
        self.last = None  # line, seconds, CPU of the last act
        self._open = {}  # number of a submission that isn't done -> its descriptors
        self._units, self._is_given_back = set(), False

    def submissions(self):
        """How many submissions have an end."""
        return sum(map(bool, self.lengths.values()))

    def is_flushed(self):
        """The domains are what the text says."""
        return False

    def has_units(self):
        """Whether a submission says at which unit it is."""
        return bool(self._units)

    def decoded(self, q0, q1):
        """The descriptor of two words that were read."""
        return descriptors.decode(q0, q1)

    def take(self, stream):
        """Reads a whole text, a stream of bytes."""
        last, at = (0, 0.0), 0
        for block in blocks(stream):
            if not block.endswith("\n"):
                raise Refused("line %d has no end: the text is cut off" % (at + 1 + block.count("\n")))
            for line in block.split("\n")[:-1]:
                at += 1
                if line.startswith("#") or not line.strip():
                    continue
                found = HEAD.fullmatch(line)
                if not found:
                    raise Refused("line %d: @LINE SECONDS CPU KIND .. is wanted" % at)
                now = int(found[1]), float(found[2])
                if now[0] < last[0] or now[1] < last[1]:
                    raise Refused("line %d: its LINE or SECONDS are below those above" % at)
                last = now
                self._take((*now, int(found[3])), found[4], found[5], at)
        self.lines = at
        if self._open:
            self.note["submissions unfinished at the end of the log"] += len(self._open)
        if not self._is_given_back:
            self.note["no page is given back in this log"] = 1

    def _take(self, where, kind, rest, at):
        """An act, at line `at`."""
        self.last = where
        if kind == "submit":
            self._submit(where, rest, at)
            return
        if kind == "done":
            self._done(where, number(rest, at), at)
            return
        readers = KINDS.get(kind)
        if readers is None:
            raise Refused("line %d: no act: %s" % (at, kind))
        words = rest.split()
        if len(words) != len(readers):
            raise Refused("line %d: %s has %d words behind it, not %d" % (at, kind, len(readers), len(words)))
        values = [reader(word, at) for reader, word in zip(readers, words)]
        self.acts += 1
        self._learn(where, kind, values)
        self.spool.add((*where, kind, *values))

    def _learn(self, where, kind, values):
        """What an act says of the whole text."""
        if kind == "domain":
            self.facts.domain(where[0], values[0], tuple(values[1:]))
        elif kind == "tag":
            self.facts.device(tuple(values[:2]), values[2])
        self._is_given_back |= kind in ("free", "release")

    def _submit(self, where, rest, at):
        """Descriptors that are queued at once."""
        found = SUBMIT.fullmatch(rest)
        if not found:
            raise Refused("line %d: NUMBER drain or -, and pairs of words with + are wanted" % at)
        wanted = int(found[1])
        if wanted in self.lengths:
            raise Refused("line %d: submission %d was there" % (at, wanted))
        pairs = [[number(word, at) for word in pair.split()] for pair in found[4].split(" + ")]
        self._units |= {found[3]} - {None}
        self.lengths[wanted], self._open[wanted] = 0, len(pairs)
        self.spool.add((*where, "begin", wanted, int(found[2] == "drain")))
        for q0, q1 in pairs:
            if descriptors.decode(q0, q1) is None:
                raise Refused("line %d: no such descriptor: 0x%x" % (at, q0))
            self.spool.add((*where, "word", wanted, q0, q1, found[3] or ""))

    def _done(self, where, wanted, at):
        """The wait of a submission is done."""
        if wanted not in self._open:
            raise Refused("line %d: no submission %d that isn't done" % (at, wanted))
        self.lengths[wanted] = self._open.pop(wanted)
        self.acts += 2
        self.spool.add((*where, "done", wanted))
