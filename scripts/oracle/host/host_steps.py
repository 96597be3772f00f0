"""The steps of the host, of its units and workers (FORMAT 3).

Of each step `may_STEP` gives the number of the first refusal whose cause holds, or None, and `do_STEP` the effect of
the accepted step and its answer. Refusals 38 and 39 can't be reached by a scenario.
"""

from world import (DRAINING, INVALIDATING, ITAGS, LIVE, LOST, MOST_PAGES, MOST_PASID, MOST_SPACES, PAGE_END, PLACES,
                   QUIET, STOPPING, World, lowest)

CODES = {"success": 0, "invalid": 1, "failure": 15}
ANSWERS = {0: "success", 1: "invalid", 15: "failure"}


def encode(page, order):
    """One address field and the bit S name 2^k aligned pages (2.4): (page, s)."""
    return (page, False) if order == 0 else (page | ((1 << (order - 1)) - 1), True)


class Spaces(World):
    """Spaces, frames and unmapping (section 6)."""

    def may_space(self):
        return 4 if len(self.spaces) == MOST_SPACES else None

    def do_space(self):
        number = self.give("space")
        self.spaces[number] = {}
        return "space %d" % number

    def may_drop(self, space):
        if space not in self.spaces:
            return 3
        return 12 if self.bindings_of(space) else None

    def do_drop(self, space):
        self.free |= {frame for frame, _ in self.spaces.pop(space).values()}
        return "gone"

    def may_map(self, space, page, _access):
        if space not in self.spaces:
            return 3
        if page >= PAGE_END:
            return 5
        if page in self.spaces[space]:
            return 6
        if len(self.spaces[space]) == MOST_PAGES:
            return 9
        return None if self.free else 8

    def do_map(self, space, page, access):
        frame = self.take_frame()
        self.spaces[space][page] = (frame, access == "w")
        return "frame %d" % frame

    def may_unmap(self, space, page, count=1):
        if space not in self.spaces:
            return 3
        if not 1 <= count <= 48:
            return 29
        if page + count > PAGE_END:
            return 5
        if any(each not in self.spaces[space] for each in range(page, page + count)):
            return 7
        return self.lacks_room(space, count + 1)

    def do_unmap(self, space, page, count=1):
        pages = range(page, page + count)
        frames = [self.spaces[space][each][0] for each in pages]
        awaited = self.submit_unmapping(space, [(each, 0) for each in pages])
        self.unmap_pages(space, pages, awaited)
        return " ".join(["withheld" if awaited else "free"] + [str(frame) for frame in frames])

    def may_unmapr(self, space, page, order):
        if space not in self.spaces:
            return 3
        if order > 9:
            return 40
        if page + (1 << order) > PAGE_END:
            return 5
        if page % (1 << order):
            return 41
        if not self.mapped_in(space, page, order):
            return 42
        return self.lacks_room(space, 2)

    def do_unmapr(self, space, page, order):
        pages = self.mapped_in(space, page, order)
        awaited = self.submit_unmapping(space, [(page, order)])
        self.unmap_pages(space, pages, awaited)
        return "range %s %d" % ("withheld" if awaited else "free", len(pages))

    def mapped_in(self, space, page, order):
        return [each for each in self.spaces[space] if page <= each < page + (1 << order)]

    def is_wait_done(self, endpoint, cookie):
        return cookie < self.units[endpoint].front

    def lacks_room(self, space, descriptors):
        """16, where a unit that is to get descriptors hasn't the room for all of them."""
        for _, (endpoint, _, _, stage, _, _) in self.bindings_of(space):
            unit = self.units[endpoint]
            gets_some = unit.is_open and stage in (LIVE, STOPPING, DRAINING)
            if gets_some and len(unit.queue) + descriptors > PLACES:
                return 16
        return None

    def submit_unmapping(self, space, ranges):
        """By the table of section 6: what each unit gets, and what the frames wait for there."""
        awaited = set()
        for _, (endpoint, _, pasid, stage, _, cookie) in self.bindings_of(space):
            unit = self.units[endpoint]
            if stage == INVALIDATING and not self.is_wait_done(endpoint, cookie):
                awaited.add((endpoint, cookie if unit.is_open else "reset"))
            elif stage in (LIVE, STOPPING, DRAINING) and not unit.is_open:
                awaited.add((endpoint, "reset"))
            elif stage in (LIVE, STOPPING, DRAINING):
                unit.queue += tuple(("range", pasid, page, order) for page, order in ranges)
                awaited.add((endpoint, self.submit_wait(endpoint, False)))
        return frozenset(awaited)

    def submit_wait(self, endpoint, is_drain):
        cookie, unit = self.give("cookie"), self.units[endpoint]
        unit.queue += (("wait", cookie, is_drain),)
        unit.submitted = cookie + 1
        return cookie

    def unmap_pages(self, space, pages, awaited):
        for page in pages:
            frame, _ = self.spaces[space].pop(page)
            if awaited:
                self.withheld[frame] = awaited
            else:
                self.free |= {frame}

    def may_look(self, frame):
        return None if frame < self.frames else 8

    def do_look(self, frame):
        return "free" if frame in self.free else "withheld" if frame in self.withheld else "mapped"


class Bindings(Spaces):
    """Bindings and their stages (section 5)."""

    def pasid_for(self, space):
        """The PASID that the space bears, else the lowest that no space bears (section 4)."""
        borne = {each[1]: each[2] for each in self.bindings.values()}
        return borne.get(space) or lowest(borne.values(), MOST_PASID + 1, 1)

    def may_bind(self, endpoint, space):
        if endpoint >= len(self.units):
            return 2
        if space not in self.spaces:
            return 3
        if not self.units[endpoint].is_open:
            return 17
        if any(each[0] == endpoint for _, each in self.bindings_of(space)):
            return 10
        return 11 if self.pasid_for(space) is None else None

    def do_bind(self, endpoint, space):
        pasid, number = self.pasid_for(space), self.give("binding")
        self.bindings[number] = (endpoint, space, pasid, LIVE, False, None)
        self.send(endpoint, "start", pasid)
        return "binding %d pasid %d" % (number, pasid)

    def may_unbind(self, binding):
        if binding not in self.bindings:
            return 13
        endpoint, _, _, stage, _, _ = self.bindings[binding]
        if stage not in (LIVE, LOST):
            return 14
        return 17 if stage == LIVE and not self.units[endpoint].is_open else None

    def do_unbind(self, binding):
        endpoint, _, pasid, stage, _, _ = self.bindings[binding]
        if stage == LOST:
            self.set_stage(binding, QUIET)
            return "quiet"
        self.set_stage(binding, STOPPING)
        self.send(endpoint, "stop", pasid)
        return "stopping"

    def has_open_group(self, binding):
        """A group that is filed in part or whole and not answered; a reset drops those in hands (section 5)."""
        jobs = list(self.jobs) + [job for job in self.hands if job]
        return any(key[1] == binding for key in self.parts) or any(job[1] == binding for job in jobs)

    def may_advance(self, binding):
        if binding not in self.bindings:
            return 13
        endpoint, _, _, stage, marked, cookie = self.bindings[binding]
        if stage == QUIET:
            return None
        unit = self.units[endpoint]
        if not unit.is_open:
            return 17
        is_due = {STOPPING: lambda: marked, INVALIDATING: lambda: self.is_wait_done(endpoint, cookie),
                  DRAINING: lambda: self.is_wait_done(endpoint, cookie) and not self.has_open_group(binding)}
        if stage not in is_due or not is_due[stage]():
            return 15
        places = {STOPPING: 1, DRAINING: 2, INVALIDATING: 0}[stage]
        return 16 if len(unit.queue) + places > PLACES else None

    def do_advance(self, binding):
        endpoint, _, pasid, stage, _, _ = self.bindings[binding]
        if stage == STOPPING:
            self.set_stage(binding, DRAINING, self.submit_wait(endpoint, True))
            return "draining"
        if stage == DRAINING:
            self.units[endpoint].queue += (("pasid", pasid),)
            self.set_stage(binding, INVALIDATING, self.submit_wait(endpoint, False))
            return "invalidating"
        if stage == INVALIDATING:
            self.set_stage(binding, QUIET)
            return "quiet"
        del self.bindings[binding]
        return "released"

    def may_bearer(self, pasid):
        return None if 1 <= pasid <= MOST_PASID else 43

    def do_bearer(self, pasid):
        spaces = [each[1] for each in self.bindings.values() if each[2] == pasid]
        return "bearer %d bindings %d" % (spaces[0], len(spaces)) if spaces else "bearer none"

    def may_reset(self, endpoint):
        if endpoint >= len(self.units):
            return 2
        return None if self.units[endpoint].is_open else 17

    def do_reset(self, endpoint):
        """The unit is closed, its queues are emptied, its groups and queued jobs dropped (section 10)."""
        unit = self.units[endpoint]
        unit.is_open, unit.queue, unit.requests = False, (), ()
        self.parts = {key: filed for key, filed in self.parts.items() if key[0] != endpoint}
        self.jobs = tuple(job for job in self.jobs if job[0] != endpoint)
        self.opened = tuple(key for key in self.opened if key[0] != endpoint)
        self.send(endpoint, "reset")
        return "resetting"


class Units(Bindings):
    """The invalidation queue and the page request queue as software works on them (sections 7 and 9)."""

    def may_pump(self, endpoint):
        if endpoint >= len(self.units):
            return 2
        return None if self.units[endpoint].is_open else 17

    may_serve = may_pump

    def head_stays(self, endpoint):
        """Why the head isn't taken: "idle", "blocked", or None where it may go (section 7; 3.13, 3.14)."""
        unit = self.units[endpoint]
        if not unit.queue:
            return "idle"
        head = unit.queue[0]
        if head[0] == "wait":
            return "blocked" if unit.itags or head[2] and unit.requests else None
        return "blocked" if len(unit.itags) == ITAGS else None

    def do_pump(self, endpoint):
        stays, unit = self.head_stays(endpoint), self.units[endpoint]
        if stays:
            return stays
        head, unit.queue = unit.queue[0], unit.queue[1:]
        if head[0] == "wait":
            unit.front = head[1] + 1
            self.settle(endpoint, lambda cookie: cookie == head[1])
            return "wait done"
        itag = lowest(unit.itags, ITAGS)
        unit.itags[itag] = (None, 0)
        self.send(endpoint, "invalidate", itag, head[1], encode(*head[2:]) if head[0] == "range" else None)
        return "itag %d" % itag

    def do_serve(self, endpoint):
        """The head is filed under the binding here that bears its PASID; the last request makes a job."""
        unit = self.units[endpoint]
        if not unit.requests:
            return "empty"
        pasid, index, *asked, last = unit.requests[0]
        unit.requests = unit.requests[1:]
        key = (endpoint, self.bearer_at(endpoint, pasid), index)
        filed = self.parts.pop(key, ()) + (tuple(asked),)
        if key not in self.opened:
            self.opened += (key,)
        if last:
            self.jobs += (key + (filed,),)
            return "job"
        self.parts[key] = filed
        return "part"


class Workers(Units):
    """Jobs and replies (section 9)."""

    def may_take(self, worker):
        if worker >= self.workers:
            return 34
        if self.hands[worker]:
            return 35
        return None if self.jobs else 36

    def do_take(self, worker):
        self.hands[worker], self.jobs = self.jobs[0], self.jobs[1:]
        _, binding, index, filed = self.hands[worker]
        return "job binding %d group %d pages %d" % (binding, index, len(filed))

    def code_for(self, job, verdict):
        """The rule of replies, by the job's binding at the time of the answer; None where it is dropped."""
        endpoint, binding, _, _ = job
        stage = self.bindings[binding][3] if binding in self.bindings else None
        if not self.units[endpoint].is_open or stage in (LOST, QUIET, None):
            return None
        assert stage != INVALIDATING, "can't occur"
        return CODES[verdict] if stage == LIVE else CODES["invalid"]

    def may_answer(self, worker, verdict):
        if worker >= self.workers:
            return 34
        job = self.hands[worker]
        if not job:
            return 36
        if self.code_for(job, verdict) != CODES["success"]:
            return None
        pages = self.spaces[self.bindings[job[1]][1]]
        if any(writes and page in pages and not pages[page][1] for page, _, writes in job[3]):
            return 37
        wanted = {page for page, _, _ in job[3] if page not in pages}
        if len(wanted) > len(self.free):
            return 8
        return 9 if len(pages) + len(wanted) > MOST_PAGES else None

    def do_answer(self, worker, verdict):
        job, code = self.hands[worker], self.code_for(self.hands[worker], verdict)
        self.opened = tuple(key for key in self.opened if key != job[:3])
        self.hands[worker] = None
        if code is None:
            return "dropped"
        endpoint, binding, index, filed = job
        _, space, pasid, _, _, _ = self.bindings[binding]
        mapped = self.map_asked(space, filed) if code == CODES["success"] else 0
        self.send(endpoint, "response", pasid, index, code)
        return "success %d" % mapped if code == CODES["success"] else ANSWERS[code]

    def map_asked(self, space, filed):
        """Each page that isn't mapped, in the order of first filing; writable if any request for it has W."""
        pages, mapped = self.spaces[space], 0
        for page in dict.fromkeys(page for page, _, _ in filed):
            if page not in pages:
                pages[page] = (self.take_frame(), any(writes for each, _, writes in filed if each == page))
                mapped += 1
        return mapped
