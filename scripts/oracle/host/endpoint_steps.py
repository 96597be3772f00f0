"""The steps of an endpoint (FORMAT 3, MODEL 8, 9 and 11)."""

from host_steps import Workers
from world import CREDITS, INDEXES, PAGE_END, SLOTS, TAGS, lowest


def bits(vector):
    """Bit T of an ITag Vector stands for ITag T (2.5)."""
    return [itag for itag in range(32) if vector >> itag & 1]


class Endpoints(Workers):

    def out_of_range(self, endpoint, page=0):
        """2 and 5, by which the steps of an endpoint begin."""
        if endpoint >= len(self.endpoints):
            return 2
        return 5 if page >= PAGE_END else None

    def may_begin(self, endpoint, pasid, page):
        """2, 5 and 18, by which `ask` and `use` begin."""
        bad = self.out_of_range(endpoint, page)
        return bad or (None if self.endpoints[endpoint].state_of(pasid) == "on" else 18)

    def may_ask(self, endpoint, pasid, page):
        bad = self.may_begin(endpoint, pasid, page)
        if bad:
            return bad
        return 19 if len(self.endpoints[endpoint].tags) == TAGS else None

    def do_ask(self, endpoint, pasid, page):
        device = self.endpoints[endpoint]
        tag = lowest(device.tags, TAGS)
        device.tags[tag] = (pasid, page, False)
        self.send(endpoint, "request", tag, pasid, page)
        return "tag %d" % tag

    def may_use(self, endpoint, pasid, page, access):
        bad = self.may_begin(endpoint, pasid, page)
        if bad:
            return bad
        device = self.endpoints[endpoint]
        if (pasid, page) not in device.held:
            return 20
        if access == "w" and not device.held[pasid, page][1]:
            return 21
        return 22 if len(device.uses) == SLOTS else None

    def do_use(self, endpoint, pasid, page, _access):
        """A use copies binding, page, frame and write flag (section 8)."""
        device = self.endpoints[endpoint]
        slot = lowest(device.uses, SLOTS)
        device.uses[slot] = (pasid, page) + device.held[pasid, page]
        return "use %d frame %d" % (slot, device.uses[slot][2])

    def may_end(self, endpoint, slot):
        if endpoint >= len(self.endpoints):
            return 2
        return None if slot in self.endpoints[endpoint].uses else 23

    def do_end(self, endpoint, slot):
        device = self.endpoints[endpoint]
        use = device.uses.pop(slot)
        for itag, (pasid, scope, noted) in device.taken.items():
            device.taken[itag] = (pasid, scope, noted - {slot})
        return "ended" if use else "dead"

    def may_evict(self, endpoint, pasid, page):
        bad = self.out_of_range(endpoint, page)
        if bad:
            return bad
        return None if (pasid, page) in self.endpoints[endpoint].held else 20

    def do_evict(self, endpoint, pasid, page):
        del self.endpoints[endpoint].held[pasid, page]
        return "evicted"

    def may_fault(self, endpoint, pasid, page, _access, group, _end):
        bad = self.out_of_range(endpoint, page)
        if bad:
            return bad
        device = self.endpoints[endpoint]
        state = device.state_of(pasid)
        if state == "off" or group == "new" and state != "on":
            return 18
        if device.outstanding() >= CREDITS:
            return 24
        if group != "new" and device.groups.get(group, ())[:2] != (pasid, "unfinished"):
            return 25
        return 26 if device.is_disabled else None

    def do_fault(self, endpoint, pasid, page, access, group, end):
        device = self.endpoints[endpoint]
        index = lowest(device.groups, INDEXES) if group == "new" else group
        count = device.groups[index][2] if group != "new" else 0
        device.groups[index] = (pasid, "awaiting" if end == "last" else "unfinished", count + 1)
        self.send(endpoint, "page-request", pasid, index, page, "r" in access, "w" in access, end == "last")
        return "group %d" % index

    def may_finish(self, endpoint, vector, count):
        if endpoint >= len(self.endpoints):
            return 2
        taken = self.endpoints[endpoint].taken
        if not vector or any(itag not in taken for itag in bits(vector)):
            return 27
        if any(taken[itag][2] for itag in bits(vector)):
            return 28
        return None if 1 <= count <= 8 else 29

    def do_finish(self, endpoint, vector, count):
        for itag in bits(vector):
            del self.endpoints[endpoint].taken[itag]
        for _ in range(count):
            self.send(endpoint, "invalidated", vector, count % 8)
        return "sent %d" % count

    def may_quit(self, endpoint, pasid):
        if endpoint >= len(self.endpoints):
            return 2
        device = self.endpoints[endpoint]
        if device.state_of(pasid) != "stopping":
            return 30
        is_busy = (any(group[:2] == (pasid, "unfinished") for group in device.groups.values())
                   or any(tag[0] == pasid for tag in device.tags.values())
                   or any(use and use[0] == pasid for use in device.uses.values()))
        return 31 if is_busy else None

    def do_quit(self, endpoint, pasid):
        """Groups that await their response become stale; the marker is the last of this PASID (2.9, 3.10)."""
        device = self.endpoints[endpoint]
        del device.pasids[pasid]
        for index, (of, _, count) in device.groups.items():
            if of == pasid:
                device.groups[index] = (of, "stale", count)
        self.send(endpoint, "marker", pasid)
        return "marker"
