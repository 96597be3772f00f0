"""Random small races."""

from host import Host
from openings import held, unbinding
from propose import Proposer, text_of
from propose_claims import claims
from race_words import PLACES
from world import refused

REFUSALS_OF = {
    "drop": (3, 12), "map": (3, 6, 8), "unmap": (3, 7), "unmapr": (3, 41, 42), "bind": (3, 17, 10), "look": (8,),
    "unbind": (13, 14, 17), "advance": (13, 17, 15), "pump": (17,), "serve": (17,), "reset": (17,),
    "take": (35, 36), "answer": (36, 37, 8), "ask": (18,), "use": (18, 20, 21), "end": (23,), "evict": (20,),
    "fault": (18, 25, 26), "finish": (27, 28), "quit": (30, 31), "deliver": (32, 33), "bearer": (43,), "space": ()}
ANSWERS_OF = {
    "space": ["space $S", "space _"], "drop": ["gone"], "map": ["frame $F", "frame _"],
    "unmap": ["free $F", "withheld $F", "withheld _", "free _"],
    "unmapr": ["range free 1", "range withheld 1", "range withheld _"],
    "bind": ["binding $B pasid _", "binding _ pasid $P"],
    "unbind": ["stopping", "quiet"], "advance": ["draining", "invalidating", "quiet", "released"],
    "pump": ["idle", "itag $T", "itag _", "blocked", "wait done"], "serve": ["empty", "job", "part"],
    "reset": ["resetting"], "take": ["job binding $B group $G pages _", "job binding _ group _ pages 2"],
    "answer": ["success 0", "success 1", "success _", "invalid", "failure", "dropped"], "ask": ["tag $T", "tag _"],
    "use": ["use $U frame $F", "use _ frame $F"], "end": ["ended", "dead"], "evict": ["evicted"],
    "fault": ["group $G", "group _"], "finish": ["sent 1"], "quit": ["marker"],
    "deliver": ["started", "stopping", "reset", "held", "none", "full", "dropped", "taken", "answered", "stale",
                "completion", "freed 1", "freed _", "queued", "marked", "reset done"],
    "look": ["free", "mapped", "withheld"], "bearer": ["bearer $S bindings _", "bearer none"]}
# which lines give a number for a place
GIVES = {"S": ("space", "bearer"), "B": ("bind", "take"), "P": ("bind",), "F": ("map", "use", "unmap"), "U": ("use",),
         "G": ("fault", "take"), "V": ("pump",),
         "M": ("bind", "unbind", "pump", "reset", "answer", "ask", "fault", "finish", "quit")}
RACING = ("map map unmap unmap unmap unmapr bind unbind advance advance reset reset drop space look "
          "bearer ask ask ask use use use end evict fault fault fault quit finish deliver deliver pump serve take "
          "answer").split()
ASKED = "look look advance bearer quit evict ask unmap bind drop pump finish deliver fault use".split()
OPENING = {"reset": 0.5, "drop": 0.1, "space": 0.3, "unmap": 1, "look": 0, "bearer": 0, "deliver": 2}


class RaceProposer(Proposer):
    """Proposes the lines of a race as text."""

    def __init__(self, rng, host):
        super().__init__(rng, host, "all")
        self.weights = [weight * OPENING.get(kind, 1) for kind, weight in zip(self.kinds, self.weights)]
        self.base, self.span = 16, 4
        self.named = []  # (name, step's first word) of every line
        self.texts = []

    def fresh(self, letters, kind):
        name = letters + str(len(self.named))
        self.named.append((name, kind))
        return name

    def race(self):
        """The text of a race."""
        rng = self.rng
        self.open()
        lines = self.draft(rng.choice([1, 2, 2, 3, 3, 4]))
        body = []
        for kind, name, heading in lines:
            if heading:
                body.append("thread " + heading)
            is_try = rng.random() < 0.2
            step = self.words(kind)
            body.append((name + ": " if name else "") + ("try " if is_try else "") + step)
        body += self.extras()
        text = "\n".join(self.texts + ["race"] + body) + "\n"
        asked = [self.words(rng.choice(ASKED)) for _ in range(6)]
        found = [self.claim() for _ in range(rng.randint(1, 4))] + claims(rng, text, asked)
        return text + "\n".join(found) + "\n"

    def open(self):
        """The lines before the race: a bound space, and some accepted steps."""
        host, rng = self.host, self.rng
        self.texts = ["config %d %d %d" % (len(host.units), host.frames, host.workers)]
        chance = rng.random()
        if chance < 0.2 and host.frames > 1:
            first = rng.choice([held, held, unbinding])(rng)
        else:
            first = [("space",), ("map", 0, 16, rng.choice("rw"))]
            first += [("bind", endpoint, 0) for endpoint in range(len(host.units)) if rng.random() < 0.9]
        for step in first:
            self.add(step)
        for number in list(host.messages):
            if rng.random() < 0.9 and host.may_deliver(number) is None:
                self.add(("deliver", number))
        for _ in range(rng.choice([0, 0, 2, 4, 7, 12, 20])):
            step = Proposer.step(self)
            if host.refusal(step) is None:
                self.add(step)

    def add(self, step):
        answer = self.host.step(step)
        name = self.fresh("n", step[0]) if self.rng.random() < 0.6 else None
        expected = " => " + answer if self.rng.random() < 0.2 else ""
        self.texts.append((name + ": " if name else "") + text_of(step) + expected)

    def draft(self, count):
        """The steps of the lines behind `race`: kind, name and heading of each."""
        rng, lines, heading = self.rng, [], None
        chain = rng.random() < 0.1
        kinds = ["unbind"] + ["advance"] * 3 if chain else [rng.choice(RACING) for _ in range(count)]
        for kind in kinds[:max(count, 2)]:
            changes = rng.random() < 0.35
            heading = rng.choice(["one", "two", "host"]) if changes else None
            lines.append((kind, self.fresh("r", kind) if rng.random() < 0.7 else None, heading))
        return lines

    def extras(self):
        rng, lines = self.rng, []
        if rng.random() < 0.3:
            verdicts = rng.sample(["success", "invalid", "failure"], rng.randint(1, 2))
            lines.append("workers " + " ".join(verdicts))
        for endpoint in range(len(self.host.units)):
            words = []
            for word in ("asks", "uses", "faults"):
                if rng.random() < 0.15:
                    words += [str(rng.choice([1, 1, 1, 2]) if len(self.host.units) == 1 else 1), word]
            if rng.random() < 0.12:
                words.append("evicts")
            if words and rng.random() < 0.6:
                words += ["pages"] + [str(16 + page) for page in rng.sample(range(4), rng.randint(1, 2))]
            if rng.random() < 0.15:
                words.append("silent")
            if words:
                lines.append("device %d %s" % (endpoint, " ".join(words)))
        return lines

    def name_for(self, place):
        names = [name for name, kind in self.named if kind in GIVES[place]]
        return self.rng.choice(names) if names else None

    def words(self, kind):
        """A step of a kind, with a name at some places."""
        rng = self.rng
        if kind == "deliver":
            return self.delivery()
        step = (kind,) + getattr(self, kind)()
        words = text_of(step).split(" ")
        for at, place in enumerate(PLACES[kind].split(), 1):
            name = self.name_for(place) if place in GIVES and at < len(words) else None
            if name and words[at] != "new" and rng.random() < 0.6:
                words[at] = name if place != "V" or rng.random() < 0.5 else "{%s}" % name
            elif place == "E":
                words[at] = str(rng.randrange(len(self.host.units)))
        if kind in ("advance", "unbind") and words[1].isdigit():
            words[1] = str(self.any_of(self.host.bindings))
        return " ".join(words)

    def delivery(self):
        rng, name = self.rng, self.name_for("M")
        chance = rng.random()
        if name and chance < 0.4:
            return "deliver " + name
        if chance < 0.5:
            return "deliver " + rng.choice(["next", "last"])
        if chance < 0.6:
            return "deliver %d" % rng.randrange(self.host.next["message"] + 2)
        kind = rng.choice("start stop completion invalidate response request invalidated page-request marker".split())
        return "deliver %s %d" % (kind, rng.randrange(len(self.host.units)))

    # claims

    def claim(self):
        rng = self.rng
        ands = []
        for _ in range(rng.choice([1, 1, 2, 2, 3])):
            ands.append(("not " if rng.random() < 0.25 else "") + self.atom())
        text = ands[0]
        for each in ands[1:]:
            text += (" and " if rng.random() < 0.8 else " or ") + each
        return rng.choice(["", "ends "]) + rng.choice(["never", "always", "sometimes"]) + " " + text

    def atom(self):
        rng, named, chance = self.rng, self.named, self.rng.random()
        if chance < 0.2 and named:
            return "done " + rng.choice(named)[0]
        if chance < 0.4 and named:
            name, kind = rng.choice(named)
            return "%s is %s" % (name, self.answer_of(kind))
        if chance < 0.55:
            kind = rng.choice(list(ANSWERS_OF))
            return "times %d %s" % (rng.choice([0, 1, 1, 1, 2, 2, 3]), self.answer_of(kind))
        if chance < 0.75:
            frame = self.name_for("F") if rng.random() < 0.5 else None
            at = rng.choice([" %d", " at %d"]) % rng.randrange(len(self.host.units)) if rng.random() < 0.5 else ""
            return "usable " + (frame or str(rng.randrange(self.host.frames))) + at
        kind = rng.choice(list(ANSWERS_OF) + ["look", "look", "advance", "bearer", "quit", "evict", "ask"])
        return self.words(kind) + " => " + self.answer_of(kind)

    def answer_of(self, kind):
        rng = self.rng
        if REFUSALS_OF[kind] and rng.random() < 0.2:
            return refused(rng.choice(REFUSALS_OF[kind]))
        words = rng.choice(ANSWERS_OF[kind]).split(" ")
        for at, word in enumerate(words):
            if word.startswith("$"):
                words[at] = self.number_for(kind, word[1])
        return " ".join(words)

    def number_for(self, kind, place):
        """A name or a small number for a place of an answer."""
        names = [name for name, of in self.named if of in GIVES.get(place, ()) or place == "T" and of == kind]
        if names and self.rng.random() < 0.5:
            return self.rng.choice(names)
        least = 1 if place == "P" else 0
        return str(self.rng.randrange(least, max(least + 1, self.host.frames if place == "F" else 2)))


def race(rng):
    """The text of a random race."""
    endpoints = rng.choice([1, 1, 1, 2])
    host = Host(endpoints, rng.choice([1, 2, 3, 4]), rng.choice([1, 1, 2]))
    return RaceProposer(rng, host).race()
