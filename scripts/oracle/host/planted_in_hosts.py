"""Wrong readings of the rules of hosts and races, each of which has to be found by chance."""

import endpoint_steps
import host_steps
import races
from endpoint_steps import Endpoints
from host import Host
from host_steps import Bindings, Spaces, Units, Workers
from race_moments import Moment
from trying import Reading
from world import INVALIDATING, QUIET, STOPPING, World


def never_behind(*kinds):
    """Messages of these kinds overtake all."""
    return lambda old: lambda kind, fields, older: kind not in kinds and old(kind, fields, older)


def doom_forgotten(old):
    def on_completion(self, endpoint, tag, *fields):
        tags = self.endpoints[endpoint].tags
        if tag in tags:
            tags[tag] = tags[tag][:2] + (False,)
        return old(self, endpoint, tag, *fields)
    return on_completion


def uses_not_noted(old):
    def on_invalidate(self, endpoint, itag, *fields):
        answer = old(self, endpoint, itag, *fields)
        taken = self.endpoints[endpoint].taken
        taken[itag] = taken[itag][:2] + (frozenset(),)
        return answer
    return on_invalidate


def wait_passes(old):
    """A wait looks at no ITag."""
    def head_stays(self, endpoint):
        unit = self.units[endpoint]
        if unit.queue and unit.queue[0][0] == "wait":
            return "blocked" if unit.queue[0][2] and unit.requests else None
        return old(self, endpoint)
    return head_stays


def drain_passes(old):
    """A wait with drain looks at no page request."""
    def head_stays(self, endpoint):
        unit = self.units[endpoint]
        if unit.queue and unit.queue[0][0] == "wait":
            return "blocked" if unit.itags else None
        return old(self, endpoint)
    return head_stays


def freed_at_once(old):
    return lambda self, space, pages, awaited: old(self, space, pages, frozenset())


def of_one_unit(old):
    """Frames wait for the first unit alone."""
    return lambda self, space, pages, awaited: old(self, space, pages, frozenset(sorted(awaited, key=str)[:1]))


def settled_by_any(old):
    """What is over at one unit is over at all."""
    return lambda self, endpoint, is_over: [old(self, each, is_over) for each in range(len(self.units))]


def quiet_bears_none(old):
    """A quiet binding bears its PASID no more."""
    def pasid_for(self, space):
        kept = self.bindings
        self.bindings = {number: each for number, each in kept.items() if each[3] != QUIET}
        found = old(self, space)
        self.bindings = kept
        return found
    return pasid_for


def highest(taken, end, begin=0):
    return next((label for label in reversed(range(begin, end)) if label not in taken), None)


def freed_by_the_first(old):
    """The first completion of an ITag frees it."""
    def on_invalidated(self, endpoint, vector, _count):
        return old(self, endpoint, vector, 1)
    return on_invalidated


def disables_nothing(old):
    return lambda self, endpoint, pasid, index, code: old(self, endpoint, pasid, index, 1 if code == 15 else code)


def held_goes_first(old):
    """20 goes before 18."""
    def may_use(self, endpoint, pasid, page, access):
        number = old(self, endpoint, pasid, page, access)
        return 20 if number == 18 and (pasid, page) not in self.endpoints[endpoint].held else number
    return may_use


def keeps_itags(old):
    """A reset leaves the ITags busy."""
    def on_reset_done(self, endpoint):
        itags = self.units[endpoint].itags
        answer = old(self, endpoint)
        self.units[endpoint].itags = itags
        return answer
    return on_reset_done


def invalidated_frees(old):
    """An unmapping doesn't wait for a binding that is Invalidating."""
    def submit_unmapping(self, space, ranges):
        kept = self.bindings
        self.bindings = {number: each for number, each in kept.items() if each[3] != INVALIDATING}
        awaited = old(self, space, ranges)
        self.bindings = kept
        return awaited
    return submit_unmapping


OF_STEPS = [
    Reading("a Start, Stop or Reset overtakes what goes down", Host, "stays_behind",
            never_behind("start", "stop", "reset")),
    Reading("a marker or a last page request overtakes page requests", Host, "stays_behind",
            never_behind("marker", "page-request")),
    Reading("a reset-done overtakes all", Host, "stays_behind", never_behind("reset-done")),
    Reading("a doomed completion is held", Host, "on_completion", doom_forgotten),
    Reading("an invalidation notes no uses", Host, "on_invalidate", uses_not_noted),
    Reading("a wait passes with an ITag busy", Units, "head_stays", wait_passes),
    Reading("a wait with drain passes with page requests in the queue", Units, "head_stays", drain_passes),
    Reading("what is unmapped is free at once", Spaces, "unmap_pages", freed_at_once),
    Reading("a frame waits for one unit alone", Spaces, "unmap_pages", of_one_unit),
    Reading("a wait that is done settles the frames of other units too", World, "settle", settled_by_any),
    Reading("an unmapping leaves out a binding that is Invalidating", Spaces, "submit_unmapping", invalidated_frees),
    Reading("the PASID of a quiet binding is free", Bindings, "pasid_for", quiet_bears_none),
    Reading("the highest free ITag is taken, and the highest PASID", host_steps, "lowest", lambda old: highest),
    Reading("the highest free tag is taken, and the highest slot", endpoint_steps, "lowest", lambda old: highest),
    Reading("the first completion frees an ITag", Host, "on_invalidated", freed_by_the_first),
    Reading("Response Failure disables nothing", Host, "on_response", disables_nothing),
    Reading("NotHeld goes before NotStarted", Endpoints, "may_use", held_goes_first),
    Reading("a reset frees no ITags", Host, "on_reset_done", keeps_itags),
    Reading("a drained binding goes on with a group open", Bindings, "has_open_group", lambda old: lambda *_: False),
    Reading("an answer is what the worker says at each stage", Workers, "code_for",
            lambda old: lambda self, job, verdict: old(self, job, verdict) and host_steps.CODES[verdict]),
]


def stops_unasked(old):
    """A binding drains before its endpoint has said that it has stopped."""
    def may_advance(self, binding):
        if binding in self.bindings and self.bindings[binding][3] == STOPPING:
            self.bindings[binding] = self.bindings[binding][:4] + (True, None)
        return old(self, binding)
    return may_advance


# each is of a host that leaks, or that does what nobody may do
AS_DRIVER = [
    Reading("a binding drains though its endpoint hasn't stopped", Bindings, "may_advance", stops_unasked),
    *(each for each in OF_STEPS if each.name in (
        "stays_behind", "on_completion", "on_invalidate", "head_stays", "unmap_pages", "settle", "submit_unmapping",
        "pasid_for", "has_open_group")),
]


def spares_no_budget(old):
    return lambda self, step, line=None, budgets=None: old(self, step, line)


def ends_too_early(old):
    """Workers need do nothing."""
    return lambda self: ((who, False, step, after) for who, _, step, after in old(self))


def as_of_ends(old):
    def is_witness(moment, claim):
        is_end = not any(must for _, must, _, _ in moment.moves())
        return is_end and old(moment, claim)
    return is_witness


def last_untold(old):
    return lambda search: old(search)[:-1]


OF_RACES = [
    Reading("workers need do nothing", Moment, "moves_of_workers", ends_too_early),
    Reading("a silent endpoint has to act", Moment, "is_silent", lambda old: lambda *_: False),
    Reading("each endpoint may be silent", Moment, "is_silent", lambda old: lambda *_: True),
    Reading("a budget isn't spent", Moment, "after", spares_no_budget),
    Reading("`always` is `sometimes`", races, "is_witness",
            lambda old: lambda moment, claim: moment.holds(claim.condition)),
    Reading("each claim is of ends", races, "is_witness", as_of_ends),
    Reading("a literal is its atom", races, "is_true",
            lambda old: lambda moment, literal: moment.is_true(literal.atom)),
    Reading("the last literal that is never true isn't told", races, "never_true", last_untold),
    Reading("nothing is usable", Moment, "is_usable", lambda old: lambda *_: False),
    Reading("a device may do nothing by itself", Moment, "leave", lambda old: lambda *_: ()),
    Reading("an endpoint must do nothing", Moment, "duties", lambda old: lambda *_: ()),
    Reading("a wait passes with an ITag busy", Units, "head_stays", wait_passes),
    Reading("what is unmapped is free at once", Spaces, "unmap_pages", freed_at_once),
]
