"""svahost's own host as a driver: the acts that its steps are (FORMAT 15).

Acts are told by the step, its answer, and what it changed; nothing here knows a rule of the host.
"""

from propose import text_of
from world import DRAINING, INVALIDATING, LIVE, STOPPING


def usable(host, frame):
    """The translations to this frame that an endpoint may still use: each one's endpoint, and its words."""
    found = []
    for number, device in enumerate(host.endpoints):
        held = [("held translation", page, pasid) for (pasid, page), (to, _) in device.held.items() if to == frame]
        running = [("running use", use[1], use[0]) for use in device.uses.values() if use and use[2] == frame]
        coming = []
        for endpoint, kind, fields in host.messages.values():
            if (endpoint, kind) == (number, "completion") and fields[1:3] == (frame, True):
                pasid, page, is_doomed = device.tags.get(fields[0], (None, None, True))
                coming += [] if is_doomed else [("completion in flight", page, pasid)]
        found += [(number, "%s of page %d (PASID %d)" % each) for each in held + running + coming]
    return found


def live(host):
    return {number: each for number, each in host.bindings.items() if each[3] == LIVE}


def mapped(host):
    return {(space, page): to for space, pages in host.spaces.items() for page, to in pages.items()}


class AsDriver:
    """The lines of the steps that were followed, and what endpoints are at in them, by the order in which it began."""

    def __init__(self, config, gives_early):
        """Whether a frame is given away where it is withheld, and not when it is free, is asked of `gives_early`."""
        self.lines, self.gives_early, self.given = ["config %d %d %d" % config], gives_early, set()
        self.uses = [[] for _ in range(config[0])]
        self.taken = [[] for _ in range(config[0])]
        self.leak = None  # the line that gives a frame away too early, and what may be said of it

    def act(self, text, *words):
        self.lines.append(text % words)

    def follow(self, step, answer, before, after):
        """A step that was accepted. Its acts, in the order in which a host does them."""
        name, *words = step
        did = {"pump": ("itag", "wait"), "serve": ("part", "job")}
        if name in ("ask", "evict", "quit", "fault") or name in did and answer.startswith(did[name]):
            self.lines.append(text_of(step))
        own = getattr(self, "of_" + name, None)
        if own:
            own(*words, answer=answer, before=before, after=after)
        self.of_bindings(before, after)
        self.of_pages(before, after)
        if name == "answer" and answer != "dropped":
            endpoint, binding, index, _ = before.hands[words[0]]
            self.act("respond %d %d %d %s", endpoint, before.bindings[binding][2], index, answer.split()[0])
        self.of_queues(before, after)
        self.of_owners(before, after)

    # what an endpoint does, and what comes

    def of_use(self, endpoint, pasid, page, _access, answer, **_):
        self.act("use %d %d %d", endpoint, pasid, page)
        self.uses[endpoint].append(int(answer.split()[1]))

    def of_end(self, endpoint, slot, **_):
        """A use that a reset cut off isn't there any more."""
        if slot in self.uses[endpoint]:
            self.act("end %d %d", endpoint, self.uses[endpoint].index(slot))
            self.uses[endpoint].remove(slot)

    def of_finish(self, endpoint, vector, _count, **_):
        itag = vector.bit_length() - 1
        self.act("finish %d %d", endpoint, self.taken[endpoint].index(itag))
        self.taken[endpoint].remove(itag)

    def of_reset(self, endpoint, **_):
        """No translation is given from then on, and the endpoint is told."""
        self.act("close %d", endpoint)
        self.act("reset %d", endpoint)

    def of_deliver(self, message, answer, before, after):
        endpoint, kind, _ = before.messages[message]
        alike = [number for number, each in before.messages.items() if each[:2] == (endpoint, kind)]
        self.act("deliver %s %d %d", kind, endpoint, sum(number < message for number in alike))
        if answer == "reset":
            self.uses[endpoint], self.taken[endpoint] = [], []
        if answer == "taken":
            self.taken[endpoint] += set(after.endpoints[endpoint].taken) - set(before.endpoints[endpoint].taken)

    # what the host does

    def of_advance(self, binding, before, **_):
        """What is awaited before a binding goes on."""
        endpoint, _, pasid, stage, _, cookie = before.bindings[binding]
        if stage == STOPPING:
            self.act("await stopped %d %d", endpoint, pasid)
        if stage in (DRAINING, INVALIDATING):
            self.act("await w%d", cookie)
        if stage == DRAINING:
            self.act("await groups %d %d", endpoint, pasid)

    def of_bindings(self, before, after):
        """Entries of PASID tables, and what endpoints are told of PASIDs."""
        for number in sorted(live(before).keys() - live(after).keys()):
            endpoint, _, pasid, _, _, _ = before.bindings[number]
            self.act("entry %d %d none", endpoint, pasid)
            if after.bindings[number][3] == STOPPING:
                self.act("stop %d %d", endpoint, pasid)
        for number in sorted(live(after).keys() - live(before).keys()):
            endpoint, space, pasid, _, _, _ = after.bindings[number]
            self.act("entry %d %d %d", endpoint, pasid, space)
            self.act("start %d %d", endpoint, pasid)

    def of_pages(self, before, after):
        """Entries of page tables. A page that a step takes out it doesn't map again."""
        was, is_now = mapped(before), mapped(after)
        for space, page in sorted(was.keys() - is_now.keys()):
            self.act("pte %d %d none", space, page)
        for space, page in sorted(is_now.keys() - was.keys()):
            frame, writes = is_now[space, page]
            self.act("pte %d %d %d %s", space, page, frame, "w" if writes else "r")

    def of_queues(self, before, after):
        """What was put into the invalidation queues, and units that are open again. A line bears its wait's name."""
        for endpoint, (was, unit) in enumerate(zip(before.units, after.units)):
            if unit.is_open and not was.is_open:
                self.act("open %d", endpoint)
            new = unit.queue[len(was.queue):]
            words = {"range": "range %d %d %d", "pasid": "pasid %d"}
            said = ["wait" + " drain" * each[2] if each[0] == "wait" else words[each[0]] % each[1:] for each in new]
            names = ["w%d: " % each[1] for each in new if each[0] == "wait"]
            if new:
                self.act("%ssubmit %d %s", names[0], endpoint, " + ".join(said))

    def of_owners(self, before, after):
        """PASIDs, frames and tables that are given away."""
        for number in before.bindings.keys() - after.bindings.keys():
            endpoint, _, pasid, _, _, _ = before.bindings[number]
            self.act("free pasid %d %d", pasid, endpoint)
        self.given -= {frame for frame, _ in mapped(after).values()}
        for frame in sorted(after.free - before.free - self.given):
            self.act("free %d", frame)
        for frame in sorted(after.withheld.keys() - before.withheld.keys()):
            if self.gives_early():
                self.give_early(frame, after)
        for space in before.spaces.keys() - after.spaces.keys():
            self.act("free space %d", space)

    def give_early(self, frame, after):
        """A frame has another owner from now on, though it is withheld."""
        self.act("free %d", frame)
        self.given.add(frame)
        found = usable(after, frame)
        if found and not self.leak:
            finding = "endpoint %d may still use frame %d, which has another owner: %s"
            self.leak = (len(self.lines), {finding % (endpoint, frame, words) for endpoint, words in found})
