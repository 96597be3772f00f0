"""The whole model: the link's permitted order and its deliveries (MODEL 12, FORMAT 5), and the step of any name."""

from endpoint_steps import Endpoints, bits
from world import LIVE, LOST, MOST_HELD, QUIET, STOPPING, refused

DOWN = ("start", "stop", "reset", "completion", "invalidate", "response")


def decode(scope):
    """The range (first page, order) that a code names, or None where it stands for all pages (2.4, 3.8)."""
    page, is_set = scope
    if not is_set:
        return page, 0
    ones = 0
    while page >> ones & 1:
        ones += 1
    return (page >> (ones + 1) << (ones + 1), ones + 1) if ones <= 8 else None


def covers(pasid, span, of, page):
    """An invalidation covers its 2^k pages, or all, of its own binding (section 7)."""
    return pasid == of and (span is None or span[0] <= page < span[0] + (1 << span[1]))


class Host(Endpoints):

    def step(self, step):
        """Takes a step (name, argument, ..): its answer. A refused step changes nothing."""
        self.sent = ()
        number = getattr(self, "may_" + step[0])(*step[1:])
        return refused(number) if number else getattr(self, "do_" + step[0])(*step[1:])

    def refusal(self, step):
        return getattr(self, "may_" + step[0])(*step[1:])

    # the permitted order of the link (section 12)

    @staticmethod
    def stays_behind(kind, fields, older):
        """Whether a message has to stay behind an older one, of this kind, of its endpoint."""
        if kind == "marker" or kind == "page-request" and fields[5]:
            return older == "page-request"
        if kind in ("start", "stop", "reset"):
            return older in DOWN and older != "completion"
        return kind == "reset-done"

    def may_deliver(self, number):
        if number not in self.messages:
            return 32
        endpoint, kind, fields = self.messages[number]
        for other, (at, older, _) in self.messages.items():
            if other < number and at == endpoint and self.stays_behind(kind, fields, older):
                return 33
        return None

    def do_deliver(self, number):
        endpoint, kind, fields = self.messages.pop(number)
        return getattr(self, "on_" + kind.replace("-", "_"))(endpoint, *fields)

    # what comes to the endpoint

    def on_start(self, endpoint, pasid):
        self.endpoints[endpoint].pasids[pasid] = "on"
        return "started"

    def on_stop(self, endpoint, pasid):
        self.endpoints[endpoint].pasids[pasid] = "stopping"
        return "stopping"

    def on_reset(self, endpoint):
        """The endpoint clears itself; a running use becomes dead, and its slot stays taken (3.12)."""
        device = self.endpoints[endpoint]
        dead = dict.fromkeys(device.uses)
        device.__init__()
        device.uses = dead
        self.send(endpoint, "reset-done")
        return "reset"

    def on_completion(self, endpoint, tag, frame, reads, writes):
        device = self.endpoints[endpoint]
        pasid, page, is_doomed = device.tags.pop(tag, (None, None, True))
        if is_doomed:
            return "dropped"
        if not reads:
            return "none"
        if (pasid, page) not in device.held and len(device.held) == MOST_HELD:
            return "full"
        device.held[pasid, page] = (frame, writes)
        return "held"

    def on_invalidate(self, endpoint, itag, pasid, scope):
        """It is taken at once: what it covers goes, requests out are doomed, running uses noted (section 11)."""
        device, span = self.endpoints[endpoint], scope and decode(scope)
        device.held = {key: entry for key, entry in device.held.items() if not covers(pasid, span, *key)}
        for tag, (of, page, is_doomed) in device.tags.items():
            device.tags[tag] = (of, page, is_doomed or covers(pasid, span, of, page))
        noted = frozenset(slot for slot, use in device.uses.items() if use and covers(pasid, span, *use[:2]))
        device.taken[itag] = (pasid, span, noted)
        return "taken"

    def on_response(self, endpoint, _pasid, index, code):
        device = self.endpoints[endpoint]
        _, state, _ = device.groups.pop(index)
        assert state != "unfinished", "can't occur"
        device.is_disabled = device.is_disabled or code == 15
        return "stale" if state == "stale" else "answered"

    # what comes to the unit and the host; but for the reset-done it is dropped at a unit in reset

    def on_request(self, endpoint, tag, pasid, page):
        """Answered from the space of the binding that asked, if it is Live and maps the page (section 8)."""
        if not self.units[endpoint].is_open:
            return "dropped"
        _, space, _, stage, _, _ = self.bindings[self.bearer_at(endpoint, pasid)]
        found = self.spaces[space].get(page) if stage == LIVE else None
        self.send(endpoint, "completion", tag, found[0] if found else 0, bool(found), bool(found and found[1]))
        return "completion"

    def on_invalidated(self, endpoint, vector, count):
        """An ITag is freed by the last of as many completions as the first one counts (2.6)."""
        unit = self.units[endpoint]
        if not unit.is_open:
            return "dropped"
        freed = 0
        for itag in bits(vector):
            if itag in unit.itags:
                wanted, come = unit.itags.pop(itag)
                wanted, come = wanted or count or 8, come + 1
                freed += come == wanted
                if come < wanted:
                    unit.itags[itag] = (wanted, come)
        return "freed %d" % freed

    def on_page_request(self, endpoint, *fields):
        unit = self.units[endpoint]
        if not unit.is_open:
            return "dropped"
        unit.requests += (fields,)
        assert len(unit.requests) <= 32, "can't overflow (3.16)"
        return "queued"

    def on_marker(self, endpoint, pasid):
        if not self.units[endpoint].is_open:
            return "dropped"
        number = self.bearer_at(endpoint, pasid)
        _, space, _, stage, _, _ = self.bindings[number]
        assert stage == STOPPING, "can't occur"
        self.bindings[number] = (endpoint, space, pasid, stage, True, None)
        return "marked"

    def on_reset_done(self, endpoint):
        """ITags are free, the unit's waits are ended, stages are moved, the unit is open (section 10)."""
        unit = self.units[endpoint]
        unit.itags, unit.is_open, unit.front = {}, True, unit.submitted
        self.settle(endpoint, lambda _: True)
        for number, (at, _, _, stage, _, _) in list(self.bindings.items()):
            if at == endpoint and stage not in (QUIET, LOST):
                self.set_stage(number, LOST if stage == LIVE else QUIET)
        return "reset done"
