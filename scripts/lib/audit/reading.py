"""Reads a log: its lines to acts, and what refuses it."""

import collections
import re
from array import array

from . import descriptors
from .acts import Spool
from .facts import Facts
from .lines import LINE, LOST, MAY_BE_LOST, SILENT, Refused, blocks, device_in
from .lines import field, fields, number, place_of, pointer

PAGE = 12  # bits of an offset
MOST_PAGES = 1 << 22  # of one event: each is taken by itself
MOST_OPEN = 4  # submissions of a task, one within the other
MOST_ORDER = 18  # of a block of frames
MOST_DIGITS = 13  # of a frame
FRAMES = 9  # frees are looked at by blocks of 2^9 frames: in one of which no page led to a frame none counts
WRITE = 2  # of prot
LAST_SPACE = 1 << 52  # no page is above

ENTRIES = re.compile(r"# entries-in-buffer/entries-written: (\d+)/(\d+)")
MISSED = re.compile(r"# svahost: probe (\w+) hits \d+ missed ([1-9]\d*)$")
HAS_ATS = re.compile(r"# svahost: device (\S+) ats=1$")
END = re.compile(r"# svahost: end (\d{1,12}) events$")
NEEDED = ("imap", "iunmap", "teardown", "pasidfree", "pgdfree", "setupfl")  # probes whose missed hits refuse a log
WORDS = re.compile(r"(\S+): (0x[0-9a-f]+) (0x[0-9a-f]+) (0x[0-9a-f]+) (0x[0-9a-f]+)$")
RANGE = re.compile(r"iova=0x([0-9a-f]+) - 0x([0-9a-f]+)")
FREED = re.compile(r"pfn=0x([0-9a-f]+) order=(\d+)")
DID = re.compile(r"\bdid (\d+)")
PASID = re.compile(r"\[(\d+)\] type|pasid (\d+)")
FRAME = re.compile(r"PFN map va=0x([0-9a-f]{1,16}) pfn=0x([0-9a-f]{1,13})\s*$")
STOP = re.compile(r"svahost: (stop|stopped) sid=0x([0-9a-f]+) pasid=(\d+)")
UNMAPPED = re.compile(r"dma_addr=(?:0x)?([0-9a-f]{1,16}) size=(\d{1,12})\b")

GIVEN_BACK = {"free": "mm_page_free", "alloc": "mm_page_alloc", "unmap": "dma_unmap"}
CACHED = 1 << 12  # texts of cache tags whose facts are kept


class Handlers(dict):
    """What takes a line of an event, by the event's name; None passes it over."""

    def __init__(self, known, prefixes):
        super().__init__(known)
        self.prefixes = prefixes

    def __missing__(self, name):
        self[name] = found = next((taken for prefix, taken in self.prefixes if name.startswith(prefix)), None)
        return found


class Reading:
    """A log that is read. `take` reads it; then `spool`, `facts` and `lengths` say what was found, and `note` what was
    left out. `free_at` says when a frame is another owner's: `free`, when it is given back; `alloc`, when it is given
    out; `unmap`, when the driver's unmapping has returned. With `is_whole` each free is kept."""

    def __init__(self, free_at, is_whole, note):
        self.note, self.spool, self.facts = note, Spool(), Facts()
        self.lines = self.acts = 0
        self.lengths = array("I")  # by the number of a submission: its descriptors, or 0 where it has no end
        self.last = None  # line, seconds, CPU of the last act
        self._is_whole, self._free_at = is_whole, free_at
        self._flushed = Facts()  # what invalidations say of domains, where the kernel has no cache tags
        self._flushed_tags = {}
        self._seen = set()
        self._events, self._told, self._is_recorded, self._with_ats = 0, None, False, set()
        self._stacks = collections.defaultdict(list)  # place -> its open submissions: [number, descriptors, line]
        self._begun = set()
        self._cleared, self._asked = {}, {}  # place -> pages that are clear at its next line; what it is to map
        self._context, self._spaces, self._assigned = {}, {}, {}
        self._devices = {}  # pointer of a device -> SID
        self._where = {}  # page -> the domain, or the set of domains, that have it mapped
        self._blocks, self._unassigned = set(), False
        self._heads, self._tags, self._units = {}, {}, set()

    def submissions(self):
        """How many submissions have an end."""
        return sum(map(bool, self.lengths))

    def is_flushed(self):
        """Whether what domains are is taken from their invalidations."""
        return self.facts is self._flushed

    def has_units(self):
        """Whether descriptors of several units were read."""
        return len(self._units) > 1

    def decoded(self, q0, q1):
        """The descriptor of two words that were read."""
        return descriptors.decode(q0, q1)

    def take(self, stream):
        """Reads a whole log, a stream of bytes."""
        handlers, last, at = self._handlers(), 0.0, 0
        for block in blocks(stream):
            if not block.endswith("\n"):
                raise Refused("line %d has no end: the log is cut off" % (at + 1 + block.count("\n")))
            is_lossy = any(word in block for word in MAY_BE_LOST)
            for pid, cpu, flags, time, name, rest, other in LINE.findall(block):
                at += 1
                if is_lossy and LOST.search(rest or other):
                    raise Refused("line %d: events were lost: record again with a larger buffer" % at)
                if not time:
                    self._aside(other, at)
                    continue
                seconds = float(time)
                if seconds < last:
                    words = "line %d is earlier than the line above: sort by time, and record with one clock"
                    raise Refused(words % at)
                last = seconds
                self._events += 1
                handler = handlers[name]
                if handler:
                    handler((at, seconds, int(cpu)), pid, flags, rest, name)
        self.lines = at
        self._finish()

    def _handlers(self):
        given_back = GIVEN_BACK[self._free_at]
        of_frames = {} if self._free_at == "unmap" else {given_back: self._free}
        return Handlers(
            {
                "qis": self._begin,
                "qi_submit": self._word,
                "qir": self._end,
                "iotlbsync": self._syncs,
                "fqflush": self._syncs,
                "svabind": self._binds,
                "svainv": self._notified,
                "setupfl": self._set_up,
                "teardown": self._torn_down,
                "drain": self._drained,
                "pasidfree": self._pasid_free,
                "pgdfree": self._table_free,
                "tracing_mark_write": self._marker,
                "imap": self._to_map,
                "iunmap": self._to_unmap,
                "map": self._map,
                "unmap": self._unmap,
                "prq_report": self._page_request,
                **of_frames,
            },
            [("cache_tag_", self._cache_tag), *([] if of_frames else [(given_back, self._driver_has)])],
        )

    def _aside(self, text, at):
        """A line that is no event: a comment, a blank one, or none of a trace."""
        if text.startswith("#"):
            self._comment(text, at)
            return
        self._events += bool(text)
        if text.strip() and not SILENT.match(text):
            raise Refused("line %d is no line of a trace" % at)

    def _comment(self, text, at):
        if found := ENTRIES.match(text):
            if found[1] != found[2]:
                told = at, found[1], found[2]
                raise Refused("line %d: %s of %s events are there: record again with a larger buffer" % told)
        elif found := MISSED.match(text):
            if found[1] in NEEDED:
                raise Refused("line %d: %s hits of %s were missed: record again" % (at, found[2], found[1]))
        elif found := HAS_ATS.match(text):
            sid = device_in(found[1])
            self._with_ats |= set() if sid is None else {sid}
        elif found := END.match(text):
            self._told = int(found[1])
        elif text == "# svahost: record 2":
            self._is_recorded = True

    def _add(self, where, is_needed, *what):
        """Counts an act, and keeps it where it is needed, or all are."""
        self.acts += 1
        self.last = where
        if is_needed or self._is_whole:
            self.spool.add((*where, *what))

    # ---- submissions

    def _begin(self, where, pid, flags, rest, _name):
        at, _, cpu = where
        place = place_of(pid, cpu, flags)
        self._settle(place, where)
        self._seen.add("qis")
        serial, stack = len(self.lengths), self._stacks[place]
        self.lengths.append(0)
        self.spool.add((*where, "begin", serial, field("opt", fields(rest), at) & 1))
        stack.append([serial, 0, at])
        self._begun.add(place)
        if len(stack) > MOST_OPEN:
            raise Refused("line %d: submission of line %d has no end: qir is missing" % (at, stack[0][2]))

    def _word(self, where, pid, flags, rest, _name):
        at, _, cpu = where
        self._seen.add("qi_submit")
        found = WORDS.search(rest)
        if not found:
            raise Refused("line %d: four words are wanted" % at)
        unit, q0, q1 = found[1], number(found[2], at), number(found[3], at)
        self._units.add(unit)
        head = self._heads.get(q0)
        if head is None:
            head = descriptors.decode(q0, 0)
            if head is None:
                raise Refused("line %d: no such descriptor: 0x%x" % (at, q0))
            if len(self._heads) < CACHED:
                self._heads[q0] = head
        place = place_of(pid, cpu, flags)
        stack = self._stacks.get(place)
        if not stack:
            known = place in self._begun
            self.note["descriptors outside of a submission (a probe was missed), left out" if known else
                      "descriptors before the first submission of their task, left out"] += 1
            return
        submission = stack[-1]
        submission[1] += 1
        self.spool.add((*where, "word", submission[0], q0, q1, unit))
        self._learn(where, place, head)

    def _learn(self, where, place, head):
        """What an invalidation says of the domain whose flush it is in."""
        what, address = self._context.get(place, ("", ""))
        if "cache_tag_" in self._seen or what != "dom" or head.kind not in ("iotlb", "devtlb"):
            return
        self._seen.add("flushed")
        if head.kind == "iotlb" and head.scope > 1:
            self._flushed_tags[address] = head.did, 0
            self._flushed.domain(where[0], address, (head.did, 0))
            self.spool.add((*where, "flushed domain", address, head.did, 0))
        elif head.kind == "devtlb" and address in self._flushed_tags:
            tag = self._flushed_tags[address]
            self._flushed.device(tag, head.sid)
            self.spool.add((*where, "flushed tag", *tag, head.sid))

    def _end(self, where, pid, flags, _rest, _name):
        stack = self._stacks.get(place_of(pid, where[2], flags))
        if stack:
            serial, length, _ = stack.pop()
            if length:
                self.lengths[serial] = length
                self.acts += 1
                self._add(where, True, "done", serial)

    # ---- what domains are

    def _syncs(self, where, pid, flags, rest, _name):
        place = place_of(pid, where[2], flags)
        self._settle(place, where)
        self._context[place] = "dom", pointer("dom", fields(rest), where[0])

    def _cache_tag(self, where, pid, flags, rest, name):
        at, _, cpu = where
        place = place_of(pid, cpu, flags)
        self._settle(place, where)
        self._seen.add("cache_tag_")
        cut = rest.find(" [")
        head = rest[:cut] if cut >= 0 else rest
        known = self._tags.get(head)
        if known is None:
            did, pasid = DID.search(head), PASID.search(head)
            if not did or not pasid:
                raise Refused("line %d: did and PASID are wanted" % at)
            known = (int(did[1]), int(pasid[1] or pasid[2])), device_in(head) if "devtlb" in head else None
            if len(self._tags) < CACHED:
                self._tags[head] = known
        tag, sid = known
        if sid is not None:
            is_new = "unassign" not in name
            if is_new:
                self.facts.device(tag, sid)
            # (where nothing was ever unassigned a tag says nothing new)
            self._unassigned |= not is_new or tag[1] != 0
            self._add(where, self._unassigned, "tag" if is_new else "untag", *tag, sid)
        what, address = self._context.get(place, ("", ""))
        is_assigned = name == "cache_tag_assign" and tag[1]
        if what and ("flush" in name or is_assigned and what == "mm"):
            self.facts.domain(at, address, tag)
            self._add(where, False, "domain", address, *tag)
        if is_assigned and sid is not None:
            self._assigned[place] = sid, tag

    # ---- processes

    def _binds(self, where, pid, flags, rest, _name):
        space = pointer("mm", fields(rest), where[0])
        self._context[place_of(pid, where[2], flags)] = "mm", space
        self._spaces[pid] = space

    def _set_up(self, where, pid, flags, rest, _name):
        at, _, cpu = where
        told = fields(rest)
        device, pasid, did = pointer("dev", told, at), field("pasid", told, at), field("did", told, at)
        if pasid:
            sid, tag = self._assigned.get(place_of(pid, cpu, flags), (None, None))
            if tag == (did, pasid):
                self._devices[device] = sid
            self._add(where, True, "bind", self._devices.get(device), pasid, did)

    def _notified(self, where, pid, flags, rest, _name):
        at, _, cpu = where
        told = fields(rest)
        space, start, end = pointer("mm", told, at), field("start", told, at), field("end", told, at)
        self._context[place_of(pid, cpu, flags)] = "mm", space
        first, last = start >> PAGE, min(end + (1 << PAGE) - 1 >> PAGE, LAST_SPACE)
        self._add(where, True, "clear", space, first, max(1, last - first))

    def _of_device(self, where, rest, what):
        """An act of a PASID at a device; one that isn't known is nobody's."""
        told = fields(rest)
        pasid = field("pasid", told, where[0])
        if pasid:
            device = pointer("dev", told, where[0])
            if self._devices.get(device) is None:
                self.note["tear-downs and drains of a device that is not known, left out"] += 1
            self._add(where, True, what, pasid, self._devices.get(device, -1))

    def _torn_down(self, where, _pid, _flags, rest, _name):
        self._of_device(where, rest, "gone")

    def _drained(self, where, _pid, _flags, rest, _name):
        self._of_device(where, rest, "drain")

    def _pasid_free(self, where, _pid, _flags, rest, _name):
        self._add(where, True, "pasidfree", field("pasid", fields(rest), where[0]))

    def _table_free(self, where, _pid, _flags, rest, _name):
        self._add(where, True, "pgdfree", pointer("mm", fields(rest), where[0]))

    def _marker(self, where, pid, _flags, rest, _name):
        if (found := FRAME.search(rest)) and pid in self._spaces:
            frame = int(found[2], 16)
            self._blocks.add(frame >> FRAMES)
            self._add(where, True, "map", self._spaces[pid], int(found[1], 16) >> PAGE, 1, frame, "w")
        if found := STOP.match(rest):
            self._add(where, True, found[1], int(found[2], 16), int(found[3]))

    def _page_request(self, _where, _pid, _flags, _rest, _name):
        self.note["page requests, left out: the search makes them"] += 1

    # ---- pages

    def _settle(self, place, where):
        """A range of an unmapping is clear where its task comes to its next line: a flush may come before `unmap`."""
        pages = self._cleared.pop(place, None)
        if pages:
            self._add(where, True, "clear", *pages)

    def _chunk(self, at, place, told, kind):
        """A kernel cuts one mapping by sizes of pages: the first piece has its address. What is asked for is (domain,
        r or w, from, to)."""
        domain, start = pointer("dom", told, at), field("iova", told, at)
        size = field("pgsz", told, at) * field("n", told, at) if "pgsz" in told and "n" in told else 0
        size = size if size >> PAGE else 0
        prot = "w" if "prot" not in told or field("prot", told, at) & WRITE else "r"
        old = self._asked.get((place, kind))
        if kind == "unmap" and size:
            self._cleared[place] = domain, start >> PAGE, min(size >> PAGE, MOST_PAGES)
        if size and old and old[0] == domain and old[2] < start == old[3]:
            self._asked[place, kind] = *old[:3], start + size
        else:
            self._asked[place, kind] = domain, prot, start, start + size

    def _to_map(self, where, pid, flags, rest, _name):
        self._chunk(where[0], place_of(pid, where[2], flags), fields(rest), "map")

    def _to_unmap(self, where, pid, flags, rest, _name):
        place = place_of(pid, where[2], flags)
        self._settle(place, where)
        self._chunk(where[0], place, fields(rest), "unmap")

    def _pages_in(self, rest, at):
        found = RANGE.search(rest)
        if not found:
            raise Refused("line %d: iova= is missing" % at)
        first, end = int(found[1], 16) >> PAGE, int(found[2], 16) >> PAGE
        if not 0 < end - first <= MOST_PAGES:
            raise Refused("line %d: not 1 to %d pages" % (at, MOST_PAGES))
        return first, end

    def _asked_for(self, place, kind, first):
        """What the probe beside this event asked for at this page, once, or None."""
        asked = self._asked.get((place, kind))
        return self._asked.pop((place, kind)) if asked and asked[2] >> PAGE == first else None

    def _map(self, where, pid, flags, rest, _name):
        at, _, cpu = where
        first, end = self._pages_in(rest, at)
        asked = self._asked_for(place_of(pid, cpu, flags), "map", first)
        if not asked:
            raise Refused("line %d: map without its domain: imap and iunmap are wanted" % at)
        domain, there = asked[0], self._where
        for page in range(first, end):
            old = there.setdefault(page, domain)
            if isinstance(old, set):
                old.add(domain)
            elif old != domain:
                there[page] = {old, domain}
        frame = field("paddr", fields(rest), at) >> PAGE
        self._blocks.update(range(frame >> FRAMES, (frame + end - first - 1 >> FRAMES) + 1))
        self._add(where, True, "map", domain, first, end - first, frame, asked[1])

    def _unmap(self, where, pid, flags, rest, _name):
        at, _, cpu = where
        place = place_of(pid, cpu, flags)
        self._settle(place, where)
        first, end = self._pages_in(rest, at)
        asked = self._asked_for(place, "unmap", first)
        domain = asked[0] if asked else self._only(first, at)
        for page in range(first, end):
            old = self._where.get(page)
            if isinstance(old, set):
                old.discard(domain)
            if old == domain or old == set():
                del self._where[page]
        if not asked or asked[3] == asked[2]:
            self._add(where, True, "clear", domain, first, end - first)

    def _only(self, page, at):
        """The one domain that has this page mapped: of an unmapping whose probe was missed."""
        there = self._where.get(page, ())
        some = [there] if isinstance(there, str) else list(there)
        if len(some) != 1:
            raise Refused("line %d: unmap without its domain: imap and iunmap are wanted" % at)
        self.note["domains of an unmap that were found by its address alone"] += 1
        return some[0]

    def _free(self, where, _pid, _flags, rest, _name):
        self._seen.add("free")
        found = FREED.search(rest)
        if not found:
            raise Refused("line %d: pfn= and order= are wanted" % where[0])
        digits, order = found.groups()
        if len(digits) > MOST_DIGITS or len(order) > 2 or int(order) > MOST_ORDER:
            raise Refused("line %d: no such pfn or order" % where[0])
        frame, count = int(digits, 16), 1 << int(order)
        self.acts += 1
        self.last = where
        first, last, known = frame >> FRAMES, frame + count - 1 >> FRAMES, self._blocks
        if first in known or last > first and any(each in known for each in range(first, last + 1)) or self._is_whole:
            self.spool.add((*where, "free", frame, count))

    def _driver_has(self, where, _pid, _flags, rest, _name):
        self._seen.add("free")
        sid, found = device_in(rest), UNMAPPED.search(rest)
        if sid is not None and found:
            start = int(found[1], 16)
            count = (start + int(found[2]) - 1 >> PAGE) - (start >> PAGE) + 1
            self._add(where, True, "release", sid, start >> PAGE, min(max(count, 1), MOST_PAGES))
        else:
            self.note["unmappings of a driver without dma_addr= and size=, left out"] += 1

    # ---- the end

    def _finish(self):
        """What refuses a log that was read, and what it lacks."""
        if self._is_recorded and self._told != self._events:
            told = self._events, "no end" if self._told is None else self._told
            raise Refused("the log has %d events, and its recorder wrote %s: it was cut" % told)
        if "flushed" in self._seen and "cache_tag_" not in self._seen:
            self.facts = self._flushed
            self.acts += self.facts.count
            words = "no cache tags in this kernel: the devices of a domain are taken from what is flushed with it"
            self.note[words] = 1
        known = set().union(*self.facts.devices.values())
        for sid in sorted(self._with_ats - known):
            self.note["no cache tag of device 0x%x, which has ATS on: nothing of it is judged" % sid] = 1
        left = sum(len(stack) for stack in self._stacks.values())
        if left:
            self.note["submissions unfinished at the end of the log"] += left
        for event, what in (("qis", "submissions"), ("qi_submit", "descriptors")):
            if event not in self._seen:
                raise Refused("no event %s: no %s can be seen" % (event, what))
        if "free" not in self._seen:
            self.note["no page is given back in this log"] = 1
