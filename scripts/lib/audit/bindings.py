"""Slices of PASIDs, and of their tables: from where the PASID's entry goes at a device to where the PASID, or the
space's memory, is given back."""

from .pages import MOST_ACTS

STOPS = "stops of a PASID that its device's driver is taken to have awaited before the tear-down"


class Binding:
    """A PASID at a device. An act is (line, text, seconds, CPU, submission), as one of a page."""

    def __init__(self, did, spaces):
        self.did, self.spaces = did, spaces
        self.acts, self.is_gone, self.has_table = [], False, True

    def put(self, where, text, number=None):
        """An act more."""
        if len(self.acts) < MOST_ACTS:
            self.acts.append((where[0], text, where[1], where[2], number))


class Bindings:
    """All of them, by (SID, PASID). What ends goes to `found`."""

    def __init__(self, facts, options, found, note):
        self.facts, self.found, self.note = facts, found, note
        self.as_if, self.has_stops = options.as_if, options.stops
        self.bound, self.pending = {}, {}
        self.known = {(sid, tag[1]) for tag, sids in facts.devices.items() for sid in sids}

    def bind(self, where, sid, pasid, did):
        """The device may use the PASID. What it was before is over."""
        if sid is None:
            self.note["PASIDs whose device is not known, not judged"] += 1
            return
        old = self.bound.get((sid, pasid))
        if old and old.is_gone and self.as_if:
            self._end("PASID", (sid, pasid), "as if given back", where, "free pasid 1 0")
        spaces = {name for name, tag in self.facts.tags.items() if tag == (did, pasid)}
        self.bound[sid, pasid] = Binding(did, spaces)

    def stop(self, where, text, sid, pasid):
        """A marker of the device's driver."""
        if one := self.bound.get((sid, pasid)):
            one.put(where, text)

    def gone(self, where, pasid, sid):
        """The PASID's entry goes at the device. Those of its devices at which it was there."""
        one = self.bound.get((sid, pasid))
        if not one or one.is_gone:
            return set()
        one.is_gone = True
        if self.has_stops and not any(act[1] == "stop 0 1" for act in one.acts):
            for text in ("stop 0 1", "await stopped 0 1"):
                one.put((0, *where[1:]), text)
            self.note[STOPS] += 1
        one.put(where, "entry 0 1 none")
        return {sid}

    def drain(self, where, pasid, sid):
        """Its page requests were looked for in the queue, and awaited."""
        if one := self.bound.get((sid, pasid)):
            one.put(where, "await queue 0 1")
            one.put(where, "await groups 0 1")

    def submitted(self, where, submission):
        """Descriptors are queued: those of a PASID whose entry is gone are acts of it, with the waits among them."""
        for descriptor in submission.descriptors:
            if descriptor.kind == "pdevtlb" and (descriptor.sid, descriptor.pasid) not in self.known:
                told = descriptor.sid, descriptor.pasid
                words = "a device-TLB invalidation of device 0x%x and PASID %d, which are not bound: left out" % told
                self.note.of_line(submission.line, words)
        touched = []
        for who, one in self.bound.items():
            if not one.is_gone:
                continue
            texts = [text for each in submission.descriptors if (text := self._text(submission, each, who, one))]
            if texts and submission.drain or any(not text.startswith("wait") for text in texts):
                last = "wait drain" if submission.drain else "wait"
                text = "submit 0 " + " + ".join([*dict.fromkeys(texts), last])
                one.put(where, text, submission.number)
                touched.append(who)
        self.pending[submission.number] = touched

    def _text(self, submission, descriptor, who, one):
        """What a descriptor is in the PASID's driver, or nothing."""
        kind, scope = descriptor.kind, descriptor.scope
        if kind == "wait":
            return "wait fence" if descriptor.fence else "wait"
        if kind not in ("piotlb", "pdevtlb", "entry"):
            return None
        if descriptor.pasid != who[1] and not (kind == "entry" and scope != 1):
            return None
        if kind == "pdevtlb":
            return "pasid 1" if descriptor.sid == who[0] and descriptor.is_whole() else None
        is_everywhere = kind == "entry" and scope == 3
        if descriptor.did != one.did and not is_everywhere:
            if descriptor.pasid == who[1]:
                self.note.wrong_did(submission.line, who[1], descriptor.did, one.did)
            return None
        if kind == "entry":
            return "entry 1"
        return "iotlb 1" if descriptor.is_whole() else None

    def done(self, where, numbers):
        """Waits are done."""
        for number in numbers:
            for who in self.pending.pop(number, ()):
                if one := self.bound.get(who):
                    one.put(where, "await", number)

    def pasid_gone(self, where, pasid):
        """The PASID is given back."""
        for who in sorted((each for each in self.bound if each[1] == pasid), key=str):
            self._end("PASID", who, "given back", where, "free pasid 1 0")
            del self.bound[who]

    def table_gone(self, where, name):
        """The space's memory is given back."""
        for who in sorted(self.bound, key=str):
            one = self.bound[who]
            if name in one.spaces and one.has_table:
                self._end("table", who, "given back", where, "free space 0")
                one.has_table = False

    def _end(self, kind, who, how, where, text):
        acts = [*self.bound[who].acts, (where[0], text, where[1], where[2], None)]
        self.found.ended_pasid(kind, who, how, acts)

    def left(self, where):
        """What is not given back before the log ends is judged as if it were, or noted. `where` is the last act."""
        if self.as_if:
            for who in sorted(self.bound, key=str):
                if self.bound[who].is_gone:
                    self._end("PASID", who, "as if given back", where, "free pasid 1 0")
        elif self.bound:
            self.note["PASIDs not given back in this log"] += len(self.bound)
