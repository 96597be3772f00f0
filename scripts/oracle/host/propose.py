"""Proposes random steps that the model's present state makes likely to be accepted."""

from world import LIVE, LOST, PAGE_END

LIMITS = [0, 1, 31, 32, 33, 63, 64, 511, 512, PAGE_END - 1, PAGE_END, PAGE_END + 1, (1 << 64) - 1]
KINDS = {
    "space": 3, "drop": 1, "map": 12, "unmap": 4, "unmapr": 2, "bind": 5, "unbind": 2, "advance": 7, "pump": 12,
    "serve": 8, "reset": 1, "take": 6, "answer": 6, "ask": 10, "use": 8, "end": 6, "evict": 2, "fault": 10,
    "finish": 9, "quit": 3, "deliver": 40, "look": 1, "bearer": 1}
# what is done more often (or less, below 1) in scenarios of a kind, to reach deep states
PROFILES = {
    "all": {},
    "resets": {"reset": 8, "deliver": 0.7},
    "ranges": {"unmapr": 8, "map": 3},
    "page requests": {"fault": 4, "serve": 2, "take": 2, "answer": 2},
    "few deliveries": {"deliver": 0.3},
    "translations": {"ask": 3, "use": 3, "deliver": 2, "evict": 0.2, "unmap": 0.3, "unmapr": 0.2, "reset": 0.1,
                     "end": 0.2, "map": 3},
    "unbinding": {"unbind": 4, "advance": 4, "bind": 3, "quit": 5},
    "full tables": {"ask": 6, "fault": 6, "use": 6, "end": 0.1, "serve": 0.2, "deliver": 0.6, "reset": 0.1},
    "full queues": {"unmap": 6, "map": 5, "pump": 0.4, "reset": 0.1},
    "all itags": {"unmap": 5, "map": 5, "pump": 8, "finish": 0.05, "deliver": 0.3, "reset": 0.02},
    "spaces": {"space": 30, "bind": 15, "drop": 0.1, "unbind": 0.2, "reset": 0.1},
    "pages": {"map": 60, "unmap": 0.1, "unmapr": 0.1, "drop": 0.01},
}


class Proposer:
    def __init__(self, rng, host, profile):
        self.rng, self.host = rng, host
        factors = PROFILES[profile]
        self.kinds = list(KINDS)
        self.weights = [KINDS[kind] * factors.get(kind, 1) for kind in self.kinds]
        self.span = rng.choice([4, 16, 40, 80, 600])
        self.base = rng.choice([0, 16, 64, 512, 1000, PAGE_END - self.span])

    def step(self):
        """A step: mostly one that is accepted, sometimes whatever it is."""
        wants_accepted = self.rng.random() < 0.88
        for _ in range(6):
            kind = self.rng.choices(self.kinds, self.weights)[0]
            step = (kind,) + getattr(self, kind)()
            if not wants_accepted or self.host.refusal(step) is None:
                break
        return self.spoilt(step) if self.rng.random() < 0.03 else step

    def probes(self):
        """Steps of all kinds that are refused now: which of several causes is told?"""
        for kind in self.kinds * 2:
            step = (kind,) + getattr(self, kind)()
            step = self.spoilt(step) if self.rng.random() < 0.5 else step
            if self.host.refusal(step) is not None:
                yield step

    def spoilt(self, step):
        """The step with some of its numbers at limits."""
        places = [place for place, word in enumerate(step) if isinstance(word, int)]
        if not places:
            return step
        words = list(step)
        for place in self.rng.sample(places, self.rng.randint(1, len(places))):
            words[place] = self.rng.choice(LIMITS)
        if step[0] == "finish":
            words[2] &= 0xffffffff
        return tuple(words)

    # choices

    def any_of(self, these, otherwise=0):
        these = list(these)
        return self.rng.choice(these) if these else otherwise

    def endpoint(self):
        return self.rng.randrange(len(self.host.units))

    def page(self):
        return self.base + self.rng.randrange(self.span)

    def a_space(self):
        return self.any_of(self.host.spaces)

    def mapped(self, space):
        return self.any_of(self.host.spaces.get(space, ()), self.page())

    def pasid(self, endpoint):
        device = self.host.endpoints[endpoint]
        return self.any_of(device.pasids if self.rng.random() < 0.95 else range(1, 5), 1)

    def page_under(self, endpoint, pasid):
        """Mostly a page that the PASID's space maps."""
        spaces = [each[1] for each in self.host.bindings.values() if each[0] == endpoint and each[2] == pasid]
        return self.mapped(spaces[0]) if spaces and self.rng.random() < 0.8 else self.page()

    def access(self):
        return self.rng.choice("rw")

    # steps

    def space(self):
        return ()

    def drop(self):
        return (self.a_space(),)

    def map(self):
        return (self.a_space(), self.page(), self.access())

    def unmap(self):
        space = self.a_space()
        page = self.mapped(space)
        if self.rng.random() < 0.4:
            return (space, page)
        pages, count = self.host.spaces.get(space, ()), 1
        while page + count in pages and count < 49 and self.rng.random() < 0.95:
            count += 1
        return (space, page, count if self.rng.random() < 0.97 else self.rng.choice([0, 48, 49]))

    def unmapr(self):
        space, order = self.a_space(), self.rng.choice([0, 1, 2, 3, 4, 5, 9, 9, 10] + list(range(10)))
        return (space, self.mapped(space) >> order << order, order)

    def bind(self):
        return (self.endpoint(), self.a_space())

    def unbind(self):
        return (self.any_of(b for b, each in self.host.bindings.items() if each[3] in (LIVE, LOST)),)

    def advance(self):
        return (self.any_of(b for b, each in self.host.bindings.items() if self.rng.random() < 0.1
                            or each[3] not in (LIVE, LOST)),)

    def pump(self):
        """Mostly at a unit whose head may go."""
        busy = [number for number, unit in enumerate(self.host.units) if unit.queue
                and not (unit.queue[0][0] == "wait" and unit.itags)]
        return (self.any_of(busy, self.seldom()) if self.rng.random() < 0.95 else self.endpoint(),)

    def serve(self):
        busy = [number for number, unit in enumerate(self.host.units) if unit.requests]
        return (self.any_of(busy, self.seldom()) if self.rng.random() < 0.95 else self.endpoint(),)

    def seldom(self):
        """An endpoint, but mostly one that isn't there, so that something else is tried."""
        return self.endpoint() if self.rng.random() < 0.1 else len(self.host.units)

    def reset(self):
        return (self.endpoint(),)

    def take(self):
        return (self.rng.randrange(self.host.workers),)

    def answer(self):
        full = [number for number, job in enumerate(self.host.hands) if job]
        return (self.any_of(full), self.rng.choice(["success"] * 6 + ["invalid", "invalid", "failure"]))

    def ask(self):
        endpoint = self.endpoint()
        pasid = self.pasid(endpoint)
        return (endpoint, pasid, self.page_under(endpoint, pasid))

    def a_held(self, endpoint):
        return self.any_of(self.host.endpoints[endpoint].held, (self.pasid(endpoint), self.page()))

    def use(self):
        endpoint = self.endpoint()
        return (endpoint,) + self.a_held(endpoint) + (self.access(),)

    def end(self):
        endpoint = self.endpoint()
        return (endpoint, self.any_of(self.host.endpoints[endpoint].uses))

    def evict(self):
        endpoint = self.endpoint()
        return (endpoint,) + self.a_held(endpoint)

    def fault(self):
        endpoint = self.endpoint()
        begun = [(index, group[0]) for index, group in self.host.endpoints[endpoint].groups.items()
                 if group[1] == "unfinished" or self.rng.random() < 0.03]
        group, pasid = "new", self.pasid(endpoint)
        if begun and self.rng.random() < 0.6:
            group, pasid = self.rng.choice(begun)
        page = self.page_under(endpoint, pasid) if self.rng.random() < 0.4 else self.page()
        return (endpoint, pasid, page, self.rng.choice(["r", "w", "rw"]), group, self.rng.choice(["more", "last"]))

    def finish(self):
        endpoint = self.endpoint()
        taken = list(self.host.endpoints[endpoint].taken)
        idle = [itag for itag in taken if not self.host.endpoints[endpoint].taken[itag][2]]
        if not idle or self.rng.random() < 0.2:
            idle = taken
        itags = self.rng.sample(idle, self.rng.randint(0, min(4, len(idle))))
        return (endpoint, sum(1 << itag for itag in itags), self.rng.choice([1, 1, 1, 1, 2, 3, 8, 8, 0, 9]))

    def quit(self):
        endpoint = self.endpoint()
        stopping = [p for p, state in self.host.endpoints[endpoint].pasids.items() if state == "stopping"]
        return (endpoint, self.any_of(stopping, self.pasid(endpoint)))

    def deliver(self):
        numbers = list(self.host.messages)
        if not numbers:
            return (self.rng.randrange(self.host.next["message"] + 1),)
        if self.rng.random() < 0.5:
            return (self.rng.choice(numbers[:4]),)
        return (self.any_of(number for number in numbers if self.rng.random() < 0.02
                            or self.host.may_deliver(number) is None),)

    def look(self):
        return (self.rng.randrange(self.host.frames + (self.rng.random() < 0.1)),)

    def bearer(self):
        return (self.any_of((each[2] for each in self.host.bindings.values()), self.rng.randrange(34)),)


def text_of(step):
    """The line of a step."""
    words = ["%08x" % word if step[0] == "finish" and place == 2 else str(word) for place, word in enumerate(step)]
    return " ".join(words)
