"""Has a model do what a scenario says, and holds what it does against what svahost says of it.

The rules are these, behind each line of a scenario that stands behind `race`:
- A device reaches the frame to which the page leads now, or one of which svahost says that it may still be used there.
- It writes a page that is for reading only where svahost says that it may still be written there.
- It reaches a page that is there, unless something older may still be used.
- What an access of it doesn't reach the unit records as a fault. (Of a device that asks for translations it needn't.)
- What a device keeps is as what it reaches.
And of the run as a whole, in which a line stands for each act that was seen: each line is permitted, so that a wait is
done only behind the answers to the invalidations before it, which covered what they had to; and where the scenario is
safe, it is safe."""

import collections

from texts import descriptors_of

Difference = collections.namedtuple("Difference", "line what")


def covers(ranges, first, count):
    """Whether ranges of pages cover these."""
    at, end = first, first + count
    for begin, size in sorted(ranges):
        if begin <= at < begin + size:
            at = begin + size
    return at >= end


class Run:
    def __init__(self, scenario, model, kind, svahost):
        self.scenario, self.model, self.kind, self.svahost = scenario, model, kind, svahost
        self.leads, self.entries, self.older = {}, {}, collections.defaultdict(set)
        self.log, self.differences, self.looks, self.forbidden = list(scenario.head), [], 0, 0
        self.line, self.behind, self.finished = 0, 0, set()

    def differs(self, what):
        self.differences.append(Difference(self.line, what))

    def all(self):
        """Takes all lines, and looks behind each of them."""
        self.model.fresh(self.kind)
        for line in self.scenario.before:
            self.line = line.number
            self.act(line.words)
        self.look()
        for self.behind, line in enumerate(self.scenario.behind, 1):
            self.line = line.number
            self.act(line.words)
            self.look()
        return self

    def text(self):
        return "\n".join(self.log) + "\n"

    # -- acts

    def act(self, words):
        name, rest = words[0], [int(word) if word.isdigit() else word for word in words[1:]]
        if name not in ("submit", "await", "ask", "deliver") or words[1] in ("start", "stopped"):
            self.log.append(" ".join(words))
        if name == "pte":
            self.page(*rest)
        elif name == "entry":
            self.enter(*rest)
        elif name == "submit":
            self.submit(rest[0], words)
        elif name == "await" and words[1] == "wait":
            self.await_wait(rest[1])
        elif name == "ask":
            self.reach(rest[0], rest[2], True)

    def page(self, space, page, frame, access=None):
        frame = None if frame == "none" else frame
        if (space, page) in self.leads:
            self.older[page].add(self.leads[space, page])
        self.leads[space, page] = (frame, access)
        self.model.page(space, page, frame, access)

    def enter(self, endpoint, pasid, space):
        space = None if space == "none" else space
        for page in self.scenario.pages:
            self.older[page].add(self.now(endpoint, page))
        if pasid == 1:
            self.entries[endpoint] = space
        self.model.entry(endpoint, pasid, space)

    def now(self, endpoint, page):
        """Where a page leads for an endpoint: (frame, access), or (None, None)."""
        return self.leads.get((self.entries.get(endpoint), page), (None, None))

    # -- invalidations

    def submit(self, endpoint, words):
        """Submits, has the device answer what it is told, and writes down in which order all was seen."""
        self.log.append(" ".join(words))
        self.finished.discard(endpoint)
        left = descriptors_of(words[2:])
        self.model.submit(endpoint, left)
        told = []
        while True:
            self.see_done(endpoint, left)
            others = [it for it in range(2) if it != endpoint and self.model.told(it)]
            if self.model.told(endpoint):
                told.append(self.model.told(endpoint)[0])
                whole = self.see_told(endpoint, left, told)
                self.see_done(endpoint, left)
                if whole:
                    self.log += [f"finish {endpoint}", f"deliver invalidated {endpoint}"]
                self.model.answer(endpoint)
            elif others:
                self.model.answer(others[0])
            else:
                break
        if self.model.refused():
            self.differs("the unit refuses a descriptor")

    def see_told(self, endpoint, left, told):
        """The device was told something: whether that is all of the next descriptor for it, and then it is written down."""
        at = next((n for n, it in enumerate(left) if it[0] in ("range", "pasid")), None)
        if at is None:
            return False
        pages = [(page, 1) for page in self.scenario.pages]
        _, _, *of = left[at]
        wanted = [(of[0] >> of[1] << of[1], 1 << of[1])] if of else pages
        if not all(covers(told, *it) for it in wanted):
            return False
        self.log += [f"pump {endpoint}"] * (at + 1) + [f"deliver invalidate {endpoint}"]
        del left[: at + 1]
        told.clear()
        return True

    def see_done(self, endpoint, left):
        """Looks whether the last wait is done. If so, all descriptors have left the queue."""
        waits = any(it[0] == "wait" for it in left)
        if endpoint not in self.finished and waits and self.model.done(endpoint):
            self.log += [f"pump {endpoint}"] * len(left) + [f"await wait {endpoint}"]
            self.finished.add(endpoint)
            left.clear()

    def await_wait(self, endpoint):
        if endpoint not in self.finished:
            self.differs("the wait is never done")

    # -- accesses

    def look(self):
        for endpoint in self.scenario.entered:
            for page, (frame, write) in sorted(self.model.holds(endpoint).items()):
                self.judge(endpoint, page, frame, write, "is kept by the device")
            for page in self.scenario.pages:
                self.reach(endpoint, page, True)
                if self.now(endpoint, page)[1] == "r":
                    self.reach(endpoint, page, False)

    def reach(self, endpoint, page, write):
        """An access of the device."""
        self.model.faults(endpoint)
        frame = self.model.dma(endpoint, page, write)
        if self.kind == "ats":
            self.log += [f"ask {endpoint} 1 {page}", f"deliver request {endpoint}", f"deliver completion {endpoint}"]
        elif frame is None and page not in self.model.faults(endpoint):
            self.differs(f"page {page} isn't reached, and no fault is recorded")
        if frame is not None:
            self.judge(endpoint, page, frame, write, "is written" if write else "is read")
        elif self.must_be(endpoint, page, write):
            self.differs(f"page {page} isn't {'written' if write else 'read'}, and it is there")

    def judge(self, endpoint, page, frame, write, how):
        self.looks += 1
        present, access = self.now(endpoint, page)
        if frame != present:
            if not self.svahost.may(self.scenario, self.behind, "free", frame):
                self.differs(f"frame {frame} of page {page} {how}, and no endpoint may use it any more")
        elif write and access == "r" and not self.svahost.may(self.scenario, self.behind, "freeze", frame):
            self.differs(f"frame {frame} of page {page}, which is for reading, {how}, and may not be written any more")

    def must_be(self, endpoint, page, write):
        """Whether the page is there, and nothing older may still be used in its place."""
        present, access = self.now(endpoint, page)
        if present is None or write and access == "r":
            return False
        older = {frame for frame, _ in self.older[page] if frame is not None}
        may = any(self.svahost.may(self.scenario, self.behind, "free", frame) for frame in older - {present})
        return not may and (present, "r") not in self.older[page]


def judged(runs, svahost):
    """Holds the runs of devices that are told invalidations, line by line, against `judge --run`."""
    told = [run for run in runs if run.kind == "ats"]
    for run, verdict in zip(told, svahost.verdicts([run.text() for run in told], run=True)):
        safe = run.scenario.wanted == "safe"
        if not verdict.startswith("nothing wrong") and (safe or not verdict.startswith("unsafe")):
            run.differences.append(Difference(0, f"svahost says of what was seen: {verdict}"))
