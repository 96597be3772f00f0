"""Slices of pages: all that touches one page at one device, from where it leads to a frame to where that is given
back, or where the page is clean: cleared, and covered by invalidations of the unit and then of the device, submitted
behind the clearing, that are done. There a `free` is put, so that `safe` says that nothing is left.

Left out is what only holds the device back: acts on other pages, invalidations from before the clearing."""

import collections

DONE = -1  # an invalidation that is done; else it has the number of its submission, or None where there is none
MOST_ACTS = 256  # of a slice: a longer one is cut off
FEW = 1 << 16  # from so many pages on those that are mapped are looked through


class Slice:
    """The acts on a page at a device, while it leads to one frame. An act is (line, text of a driver, seconds, CPU,
    submission): of `await` and `submit` the submission's number, else None."""

    __slots__ = (
        "domain", "sid", "page", "frame", "acts", "is_near", "is_mapped", "unit", "device", "entry", "is_gone"
    )

    def __init__(self, domain, sid, page, frame):
        self.domain, self.sid, self.page, self.frame = domain, sid, page, frame
        self.acts, self.is_near, self.is_mapped = [], False, True
        self.unit = self.device = self.entry = None
        self.is_gone = False

    def key(self):
        """What it is of: device, domain, page, frame."""
        return self.sid, self.domain.name, self.page, self.frame

    def put(self, act, skew):
        """An act more; it is near the one before where it is of another CPU, and less than the skew behind."""
        if self.acts:
            last = self.acts[-1]
            if last[3] != act[3] and act[2] - last[2] < skew:
                self.is_near = True
        if len(self.acts) < MOST_ACTS:
            self.acts.append(act)

    def cleared(self):
        """What was invalidated doesn't count any more."""
        self.is_mapped = self.is_gone = False
        self.unit = self.device = self.entry = None

    def is_clean(self):
        """Whether all that has to be invalidated is."""
        return self.unit == DONE and self.device == DONE and (not self.is_gone or self.entry == DONE)


class Domain:
    """A domain, or a process' space: its pages, and the slices of them."""

    def __init__(self, name, tag, sids):
        self.name, self.tag, self.sids = name, tag, sids  # of all devices that ever had its tag
        self.frames = {}  # page -> frame
        self.maybe = {}  # of a process: pages that were told cleared and may be mapped still, as behind a fork
        self.slices = {}  # (SID, page, frame) -> slice
        self.dirty = collections.defaultdict(dict)  # page -> (SID, frame) -> slices that aren't mapped

    def pasid(self):
        """Its PASID; 0 where it has none, or isn't known."""
        return self.tag[1] if self.tag else 0

    def dirty_in(self, descriptor):
        """The slices that aren't mapped, of the pages of a descriptor."""
        first, order = descriptor.first, descriptor.order
        if order < 32 and 1 << order < len(self.dirty):
            some = [self.dirty[page] for page in range(first, first + (1 << order)) if page in self.dirty]
        else:
            some = [there for page, there in self.dirty.items() if descriptor.covers(page)]
        return [each for there in some for each in there.values()]


class Pages:
    """All slices of pages. What ends goes to `found`."""

    def __init__(self, facts, options, found, note):
        self.facts, self.found, self.note = facts, found, note
        self.skew = options.skew
        self.domains = {}
        self.lost = collections.defaultdict(set)  # tag -> devices that it has no more
        self.of_frame = {}  # frame -> its slices
        self.maybe_at = collections.defaultdict(set)  # frame -> (domain, page) that may be mapped there
        self.pending = {}  # number of a submission -> slices that it is in

    def domain(self, name):
        """The domain of this name."""
        known = self.domains.get(name)
        if known is None:
            tag = self.facts.tags.get(name)
            known = self.domains[name] = Domain(name, tag, sorted(self.facts.devices.get(tag, ())))
        return known

    def devices(self, domain):
        """The devices that have it now."""
        lost = self.lost.get(domain.tag)
        return [sid for sid in domain.sids if sid not in lost] if lost else domain.sids

    def _begun(self, domain, sid, page, frame):
        one = Slice(domain, sid, page, frame)
        domain.slices[sid, page, frame] = one
        self.of_frame.setdefault(frame, []).append(one)
        return one

    def _clear(self, one, where, text="pte 0 16 none"):
        one.put((where[0], text, where[1], where[2], None), self.skew)
        one.cleared()
        one.domain.dirty[one.page][one.sid, one.frame] = one

    def _clean_page(self, one):
        """The slice is no more among those that wait for an invalidation."""
        there = one.domain.dirty.get(one.page)
        if there:
            there.pop((one.sid, one.frame), None)
            if not there:
                del one.domain.dirty[one.page]

    def _end(self, one, how, where):
        del one.domain.slices[one.sid, one.page, one.frame]
        self._clean_page(one)
        at_frame = self.of_frame[one.frame]
        at_frame.remove(one)
        if not at_frame:
            del self.of_frame[one.frame]
        one.acts.append((where[0], "free 0", where[1], where[2], None))
        self.found.ended_page(one, how, where)

    # ---- acts

    def map(self, where, name, page, count, frame, prot):
        """Pages lead to frames now."""
        domain = self.domain(name)
        devices = self.devices(domain)
        act = where[0], "pte 0 16 0 " + prot, where[1], where[2], None
        for each in range(count):
            self._map_one(domain, devices, page + each, frame + each, act)
        if not devices:
            self.note["pages mapped where no device with a device-TLB is known, not judged"] += count

    def _map_one(self, domain, devices, page, frame, act):
        old = domain.frames.get(page, frame)
        if old != frame:
            for sid in domain.sids:
                if one := domain.slices.get((sid, page, old)):
                    self._clear(one, (act[0], act[2], act[3]))
        domain.frames[page] = frame
        if domain.maybe:
            self._forget(domain, page)
        for sid in devices:
            one = domain.slices.get((sid, page, frame)) or self._begun(domain, sid, page, frame)
            one.is_mapped, one.is_gone = True, False
            if not one.acts or one.acts[-1][1] != act[1]:
                one.put(act, self.skew)
            self._clean_page(one)

    def _forget(self, domain, page):
        frame = domain.maybe.pop(page, None)
        if frame is not None:
            self.maybe_at[frame].discard((domain, page))

    def clear(self, where, name, page, count):
        """Pages lead nowhere any more; those of a process may be mapped still."""
        domain = self.domain(name)
        pages = range(page, page + count)
        if count >= FEW:
            pages = sorted(each for each in {*domain.frames, *domain.maybe} if page <= each < page + count)
        for each in pages:
            frame = domain.frames.pop(each, None)
            if frame is None:
                frame = self._again(domain, each, where)
            if frame is None:
                self.note["pages cleared whose map was not seen, not judged"] += 1
                continue
            if domain.pasid():
                domain.maybe[each] = frame
                self.maybe_at[frame].add((domain, each))
            for sid in domain.sids:
                if one := domain.slices.get((sid, each, frame)):
                    self._clear(one, where)

    def _again(self, domain, page, where):
        """A page that may be mapped still is cleared once more: its slices begin here. Its frame, or None."""
        frame = domain.maybe.get(page)
        if frame is not None:
            for sid in self.devices(domain):
                self._maybe_mapped(domain, sid, page, frame, where)
        return frame

    def _maybe_mapped(self, domain, sid, page, frame, where):
        if (sid, page, frame) not in domain.slices:
            one = self._begun(domain, sid, page, frame)
            one.put((where[0], "pte 0 16 0 w", where[1], where[2], None), self.skew)

    def gone(self, where, pasid, sid, fresh):
        """The entry of the PASID goes at the device; `fresh` are those of it at which it was there."""
        some = [each for each in self.domains.values() if each.tag and each.tag[1] == pasid]
        for domain in some:
            devices = [each for each in self.devices(domain) if each in fresh]
            for page, frame in sorted(domain.maybe.items()):
                for each in devices:
                    self._maybe_mapped(domain, each, page, frame, where)
            for one in sorted(domain.slices.values(), key=Slice.key):
                if one.sid == sid and not one.is_gone:
                    self._clear(one, where, "entry 0 1 none")
                    one.is_gone = True
        for tag in self.facts.devices:
            if tag[1] == pasid:
                self.lost[tag] |= fresh

    def table_gone(self, name):
        """The space's memory is given back: what comes at its address later is another one."""
        domain = self.domain(name)
        domain.frames.clear()
        for page in list(domain.maybe):
            self._forget(domain, page)
        if not domain.slices:
            del self.domains[name]

    def submitted(self, where, submission):
        """Descriptors are queued: those that touch a slice are acts of it, with the waits among them."""
        hits, waits = collections.defaultdict(list), []
        for at, descriptor in enumerate(submission.descriptors):
            if descriptor.kind == "wait":
                waits.append((at, "wait fence" if descriptor.fence else "wait"))
            elif descriptor.kind in KINDS:
                self._touch(submission, at, descriptor, hits)
        some = hits
        if submission.drain and waits:
            some = {one: hits.get(one, []) for domain in self.domains.values() for there in domain.dirty.values()
                    for one in there.values()}
        last = "wait drain" if submission.drain else "wait"
        for one, touched in some.items():
            words = [text for _, text in sorted(touched + waits)] if waits else [text for _, text in touched]
            text = "submit 0 " + " + ".join([*dict.fromkeys(words), last])
            one.put((where[0], text, where[1], where[2], submission.number), self.skew)
        self.pending[submission.number] = list(some)

    def _touch(self, submission, at, descriptor, hits):
        for domain in self.domains.values():
            if domain.dirty and domain.tag and self._is_of(submission, descriptor, domain):
                for one in domain.dirty_in(descriptor):
                    if descriptor.kind in OF_DEVICES and descriptor.sid != one.sid:
                        continue
                    hits[one].append((at, KINDS[descriptor.kind]))
                    self._mark(one, descriptor.kind, submission.number)

    def _is_of(self, submission, descriptor, domain):
        """Whether a descriptor is of what goes by the domain's tag. A right PASID with a wrong DID is noted."""
        kind, scope, (did, pasid) = descriptor.kind, descriptor.scope, domain.tag
        if kind in ("piotlb", "pdevtlb") and descriptor.pasid != pasid or kind == "devtlb" and pasid:
            return False
        if kind == "entry" and scope == 1 and descriptor.pasid != pasid:
            return False
        is_everywhere = kind in OF_DEVICES or kind == "iotlb" and scope == 1 or kind == "entry" and scope == 3
        if not is_everywhere and descriptor.did != did:
            if kind == "piotlb" and pasid:
                self.note.wrong_did(submission.line, pasid, descriptor.did, did)
            return False
        return True

    def _mark(self, one, kind, number):
        """What is invalidated of a slice. A device that was flushed before its unit may take the old translation from
        there again, so that counts only with or behind the unit's."""
        if kind == "entry":
            one.entry = one.entry if one.entry == DONE else number
        elif kind not in OF_DEVICES:
            one.unit = one.unit if one.unit == DONE else number
        elif one.unit in (DONE, number) or one.is_gone:
            one.device = one.device if one.device == DONE else number
        else:
            self.note["device invalidations with none of the unit before them, which end no slice"] += 1

    def done(self, where, numbers):
        """Waits are done: those of these submissions, in their order."""
        for number in numbers:
            for old in sorted(self.pending.pop(number, ()), key=lambda each: str(each.key())):
                domain = self.domains.get(old.domain.name)
                one = domain and domain.slices.get((old.sid, old.page, old.frame))
                if one is None:
                    continue
                one.put((where[0], "await", where[1], where[2], number), self.skew)
                if one.is_mapped:
                    continue
                one.unit = DONE if one.unit == number else one.unit
                one.device = DONE if one.device == number else one.device
                one.entry = DONE if one.entry == number else one.entry
                if one.is_clean():
                    self._end(one, "clean", where)

    def free(self, where, frame, count):
        """Frames are another owner's."""
        self.found.freed(where, frame, count)
        some = range(frame, frame + count)
        if len(self.of_frame) + len(self.maybe_at) < count:
            some = sorted(each for each in {*self.of_frame, *self.maybe_at} if each in some)
        for each in some:
            for domain, page in list(self.maybe_at.pop(each, ())):
                domain.maybe.pop(page, None)
            for one in sorted(self.of_frame.get(each, ()), key=Slice.key):
                self._given_back(one, where)

    def _given_back(self, one, where):
        last = one.acts[-1]
        if last[3] != where[2] and where[1] - last[2] < self.skew:
            one.is_near = True
        self._end(one, "given back", where)

    def release(self, where, sid, page, count):
        """A driver's unmapping has returned: the pages' frames are the driver's again, whatever device asked."""
        for domain in list(self.domains.values()):
            if sid in domain.sids and not domain.pasid():
                for each in range(page, page + count):
                    for one in list(domain.dirty.get(each, {}).values()):
                        self._given_back(one, where)

    def left(self):
        """What is not judged, since the log ends before."""
        for domain in self.domains.values():
            for one in domain.slices.values():
                self.note["pages still mapped at the end of the log" if one.is_mapped else
                          "pages cleared, not invalidated and not given back at the end of the log"] += 1


KINDS = {
    "iotlb": "iotlb 1 16 0",
    "piotlb": "iotlb 1 16 0",
    "devtlb": "range 1 16 0",
    "pdevtlb": "range 1 16 0",
    "entry": "entry 1",
}
OF_DEVICES = ("devtlb", "pdevtlb")
