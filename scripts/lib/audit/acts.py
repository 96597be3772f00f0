"""Acts: what the lines of a log come to. They are kept in a file meanwhile, since what a domain is, and whether a
submission comes to its end, is known only at the end of the log.

An act is a tuple (line, seconds, CPU, kind, ..), with

    map      domain, page, count, frame, r or w     the pages from there on lead to the frames from there on
    clear    domain, page, count                    they lead nowhere
    domain   domain, DID, PASID                     by which its invalidations go
    tag, untag   DID, PASID, SID                    the device has a device-TLB for these, or no more
    submit   a Submission                           where the queue's tail is written
    done     its number                             its wait is done
    bind     SID or None, PASID, DID                the device may use the PASID
    gone     PASID, SID or -1                       the PASID's entry is cleared
    drain    PASID, SID or -1                       page requests were awaited
    stop, stopped    SID, PASID                     the device is to stop; it has
    pasidfree, pgdfree, free                        a PASID, a space, frames (from, count) are another owner's
    release                                         pages (SID of a device, page, count) are their driver's again

Numbers are of 20 bits for a PASID, 16 for DID and SID, 52 for a page and a frame; a count is 1 to 2^22."""

import marshal
import tempfile

IN_MEMORY = 1 << 12  # acts that are kept before they are written out
LENGTH = 8  # bytes that say how many are written


class Submission:
    """Descriptors that were queued at once, and the wait behind them."""

    __slots__ = ("number", "line", "drain", "descriptors", "words", "unit")

    def __init__(self, number, line, drain):
        self.number, self.line, self.drain = number, line, drain
        self.descriptors, self.words, self.unit = [], [], None


class Spool:
    """Acts, kept in order in a file that is gone with the process; the first ones of a short log in memory."""

    def __init__(self):
        self._file, self._some = None, []

    def add(self, act):
        """Keeps an act. It has numbers, texts and None alone."""
        self._some.append(act)
        if len(self._some) >= IN_MEMORY:
            self._file = self._file or tempfile.TemporaryFile()
            text = marshal.dumps(self._some)
            self._file.write(len(text).to_bytes(LENGTH, "big") + text)
            self._some = []

    def __iter__(self):
        if self._file:
            self._file.seek(0)
            while length := self._file.read(LENGTH):
                yield from marshal.loads(self._file.read(int.from_bytes(length, "big")))
        yield from self._some


def played(read):
    """The acts of a log that was read, in order: each submission at its last descriptor, and none without an end;
    each domain by its name."""
    opened = {}
    is_flushed = read.is_flushed()
    for act in read.spool:
        kind = act[3]
        if kind == "word":
            number = act[4]
            submission = opened.get(number)
            if submission:
                descriptor = read.decoded(act[5], act[6])
                submission.descriptors.append(descriptor)
                submission.words.append((act[5], act[6]))
                if descriptor.kind not in ("iec", "context"):
                    submission.unit = act[7]
                if len(submission.words) == read.lengths[number]:
                    del opened[number]
                    yield (*act[:3], "submit", submission)
        elif kind == "begin":
            if read.lengths[act[4]]:
                opened[act[4]] = Submission(act[4], act[0], act[5])
        elif kind in ("flushed domain", "flushed tag"):
            if is_flushed:
                yield (*act[:3], kind[8:], *named(act[4:], act[0], read.facts, kind))
        elif kind in ("domain", "map", "clear", "pgdfree") and read.facts.has_turns():
            yield (*act[:4], *named(act[4:], act[0], read.facts, kind))
        else:
            yield act


def named(rest, line, facts, kind):
    """The rest of an act, with the name that its domain has at this line."""
    return rest if kind == "flushed tag" else (facts.name(rest[0], line), *rest[1:])


def text_of(act, has_units):
    """An act as a line of text: @LINE SECONDS CPU KIND .., with the unit of a submission where there are several."""
    kind, rest = act[3], act[4:]
    if kind == "submit":
        words = " + ".join("0x%x 0x%x" % each for each in rest[0].words)
        at = "at %s " % rest[0].unit if has_units and rest[0].unit is not None else ""
        said = "%d %s %s%s" % (rest[0].number, "drain" if rest[0].drain else "-", at, words)
    elif kind == "map":
        said = "%s 0x%x %d 0x%x %s" % rest
    elif kind == "clear":
        said = "%s 0x%x %d" % rest
    elif kind == "free":
        said = "0x%x %d" % rest
    elif kind in ("tag", "untag"):
        said = "%d %d 0x%x" % rest
    else:
        said = " ".join("-" if each is None else str(each) for each in rest)
    return "@%d %.6f %d %s %s" % (*act[:3], kind, said)
