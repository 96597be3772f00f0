"""The open world of `svahost judge`, written from docs/FORMAT.md, section 15, and docs/MODEL.md alone, as an
independent reading of them.

A World is everything that a moment has: memory, locks, the place of each thread, and a Port for each endpoint with
its unit and its part of the link. `need` says what an act lacks (None where it is permitted), `do` does it.
A translation is (frame, w, freed, frozen): the last two say what became of the frame since the page led to it.
"""
import barriers
import loose
import overflows
from units import Unit, below, is_fence, is_refused, of_unit, own, send, share, strike, takes

UP = {'request', 'invalidated', 'page-request', 'marker', 'status', 'reset-done', 'passed'}
NON_POSTED = {'request', 'completion'}          # "Posted are all but a request and a completion"
ITAGS, PLACES = 32, 64        # no other limit of MODEL, section 13, is one here


class Settings:
    """The first word of each is the one that holds where the line is missing."""
    pairs = {'link': ('free', 'posted'), 'waits': ('fence', 'plain'), 'drain': ('empty', 'arrived'),
             'caches': ('off', 'on'), 'stopped': ('marker', 'status', 'known'), 'enables': ('kept', 'cleared'),
             'timeouts': ('off', 'on', 'stop'), 'order': ('queue', 'loose')}
    platforms = {'vt-d': ('posted', 'plain', 'arrived', 'on', 'loose'),
                 'free': ('free', 'fence', 'empty', 'off', 'queue')}
    flags = {'refuses': 'drain', 'allow': 'no-group'}   # "two settings are no pair"

    def __init__(self):
        self.said = frozenset()                 # which of the flags are said, by their first words
        self.places = None                      # how many places a page request queue has; None, where that isn't said
        for name, words in self.pairs.items():
            setattr(self, name, words[0])


class Port:
    """One endpoint, its unit, and the messages between the two, oldest first. Whatever a part holds is replaced when it
    changes, and never changed in place: so a copy is cheap."""

    def __init__(self, budget=(0, 0, 0), number=0):
        self.unit, self.number = Unit(), number
        self.entry, self.last = {}, {}          # PASID -> space: in memory; where each led last since it was freed
        self.answers, self.resets = frozenset(), 0   # PASIDs of which an answer to a stop has come; resets not done
        self.remains = ()                       # what the event has left of an earlier owner: (PASID, what)
        self.filed = ()                         # (PASID, index, group, whole, space)
        self.kept_entry, self.kept = {}, {}
        self.on, self.held, self.tags = {}, {}, {}   # tags: tag -> (PASID, page, doomed)
        self.uses, self.taken = (), ()          # (slot, PASID, page, translation); (ITag, PASID, scope, slots noted)
        self.groups, self.disabled, self.budget = {}, False, budget   # index -> (PASID, group, finished)
        self.link, self.begun = (), 0           # begun: how many groups were
        self.drains = ()                        # (PASID, its name, and what it noted: tags, indices, slots)
        self.ats = self.pri = self.mastering = True
        self.gone = False

    def copy(self):
        new = Port.__new__(Port)
        new.__dict__.update(self.__dict__)
        new.remains, new.unit = (), self.unit.copy()
        return new


for _name in Unit.parts:
    setattr(Port, _name, of_unit(_name))


class World:
    def copy(self):
        new = World.__new__(World)
        new.__dict__.update(self.__dict__)
        new.ports = [p.copy() for p in self.ports]
        share(new.ports, self.units)
        return new


def put(table, key, value):
    return {**table, key: value}


def without(table, *keys):
    return {k: v for k, v in table.items() if k not in keys}


def drop(sequence, i, *instead):
    return sequence[:i] + instead + sequence[i + 1:]


def lowest(used):
    return next(n for n in range(len(used) + 1) if n not in used)


def covers(scope, page):
    """`pasid P` covers all pages (None); a range the aligned 2^K pages of which PAGE is one."""
    return scope is None or page >> scope[1] == scope[0] >> scope[1]


# ---------------------------------------------------------------------------------------------- the link

def stays_behind(newer, older, posted):
    """MODEL, section 12, and the setting `link posted`."""
    new, old = newer[0], older[0]
    if new == 'reset-done':                     # 3. overtakes no older message to or from its endpoint
        return True
    if (new in UP) != (old in UP):
        return False
    if new == 'marker' or new == 'page-request' and newer[4]:
        if old == 'page-request':               # 1. overtakes no older page request. A marker isn't one
            return True
    if new in ('start', 'stop', 'barrier', 'reset') and old != 'completion':
        return True                             # 2. no older message to that endpoint but a completion
    return posted and old not in NON_POSTED


def may_deliver(port, i, settings):
    return not any(stays_behind(port.link[i], older, settings.link == 'posted') for older in port.link[:i])


def place(port, kind, n):
    """Where the message of this kind is of which n are older."""
    found = [i for i, m in enumerate(port.link) if m[0] == kind]
    return found[n] if n < len(found) else None


def deliver(world, port, i, settings):
    m = port.link[i]
    port.link = drop(port.link, i)
    if is_lost(port, m[0]):
        port.resets -= m[0] == 'reset'
    else:
        ARRIVES[m[0]](world, port, m, settings)


def is_lost(port, kind):
    """What goes down to an endpoint that is gone is dropped."""
    return port.gone and kind not in UP


def request_arrives(world, port, m, settings):
    _, tag, p, page, own = m
    if port.closed:                             # "a request that comes to it is lost"
        return
    tr = translate(world, port, p, page, settings)
    port.link += ('completion', tag, p if own else None, page if own else None, tr, own),


def translate(world, port, p, page, settings):
    """The unit reads entry and page in one event; with `caches on` it keeps what it read. Without an entry, kept or
    in memory, it uses no translation that it keeps."""
    if settings.caches == 'off':
        return world.pte.get((port.entry.get(p), page))
    space = port.kept_entry.get(p, port.entry.get(p))
    if space is None:
        return None
    port.kept_entry = put(port.kept_entry, p, space)
    if (p, page) not in port.kept and (space, page) in world.pte:
        port.kept = put(port.kept, (p, page), world.pte[space, page])
    return port.kept.get((p, page))


def completion_arrives(world, port, m, settings):
    _, tag, p, page, tr, own = m
    if not own or tag not in port.tags:         # out no more since a reset: dropped
        return
    doomed = port.tags[tag][2]
    port.tags = without(port.tags, tag)
    port.drains = barriers.without(port.drains, barriers.TAGS, tag)
    if not doomed and tr:
        port.held = put(without(port.held, (p, page)), (p, page), tr)   # "in place of one of the same" page


def invalidate_arrives(world, port, m, settings):
    """Taken at once: held ones go, requests out are doomed, running uses are noted (MODEL, section 11). An endpoint
    whose ATS is off drops it, and never answers it."""
    if not port.ats:
        return
    _, itag, p, scope = m
    port.held = {(q, page): tr for (q, page), tr in port.held.items() if q != p or not covers(scope, page)}
    port.tags = {tag: (q, page, doomed or q == p and covers(scope, page))
                 for tag, (q, page, doomed) in port.tags.items()}
    noted = frozenset(u[0] for u in port.uses if u[1] == p and covers(scope, u[2]))
    port.taken += (itag, p, scope, noted),


def invalidated_arrives(world, port, m, settings):
    if not port.closed and m[1] in port.busy:
        free_itags(world, port, {m[1]})


def free_itags(world, port, itags):
    """A wait "covers what stands behind the wait before it, and is done when the invalidations among these are"."""
    port.busy, port.covered = port.busy - itags, port.covered - itags
    loose.answered(port, itags)
    waiting, port.plain = port.plain, ()
    for wait, left, drain in waiting:
        if left <= itags:
            wait_is_over(world, port, wait, drain)
        else:
            port.plain += (wait, left - itags, drain),


def wait_is_over(world, port, wait, drain):
    """"A wait with `drain` is done once its invalidations are, and all is written that had been received by then"."""
    if drain and any(len(one) > 1 for one in port.received):
        port.received += (wait,),
    else:
        world.undone -= {wait}


def write(world, port, settings):
    """The oldest page request that was received; the waits right behind it drained nothing else."""
    one, port.received = port.received[0], port.received[1:]
    overflows.queue(world, port, one, settings)
    while port.received and len(port.received[0]) == 1:
        world.undone -= {port.received[0][0]}
        port.received = port.received[1:]


def start_arrives(world, port, m, settings):
    port.on = put(port.on, m[1], 'on')


def stop_arrives(world, port, m, settings):
    """"Under a PASID that was off when its stop came nothing begins, and the endpoint answers all the same."""
    port.on = put(port.on, m[1], 'stopping' if port.on.get(m[1]) in ('on', 'stopping') else 'off')


def reset_arrives(world, port, m, settings):
    """MODEL 3.12: clears cache, tags, taken invalidations, groups, PASIDs and the disabled flag; uses are dead."""
    forget_all(port)
    port.disabled = False
    port.ats = port.pri = port.mastering = settings.enables == 'kept'
    port.link += ('reset-done',),


def forget_all(port):
    """Nothing is left of what an endpoint had; what it has sent may still come."""
    port.held, port.tags, port.groups, port.on = {}, {}, {}, {}
    port.taken, port.uses, port.drains = (), (), ()
    port.link = tuple(orphan(x) for x in port.link)


def orphan(m):
    """A request or completion of before the reset: nobody knows any more for which page that one is."""
    if m[0] == 'completion':
        return m[:2] + (None, None, m[4], False)
    return m[:-1] + (False,) if m[0] == 'request' else m


def reset_done_arrives(world, port, m, settings):
    port.resets -= 1


def response_arrives(world, port, m, settings):
    port.groups = without(port.groups, m[2])
    port.drains = barriers.without(port.drains, barriers.INDICES, m[2])
    if m[4]:
        port.disabled = True                    # Response Failure


def page_request_arrives(world, port, m, settings):
    if port.closed:
        return
    one = m[1:5] + (port.number,)
    if settings.drain == 'arrived':
        port.received += one,
    else:
        overflows.queue(world, port, one, settings)


def answer_arrives(world, port, m, settings):
    if not port.closed or m[0] == 'status':     # "What arrives is dropped, but a status and a reset-done"
        port.answers |= {m[1]}                  # two that have come are one


ARRIVES = {'request': request_arrives, 'completion': completion_arrives, 'invalidate': invalidate_arrives,
           'invalidated': invalidated_arrives, 'start': start_arrives, 'stop': stop_arrives, 'reset': reset_arrives,
           'reset-done': reset_done_arrives, 'response': response_arrives, 'page-request': page_request_arrives,
           'marker': answer_arrives, 'status': answer_arrives, 'barrier': barriers.arrives, 'passed': barriers.is_passed}


# ---------------------------------------------------------------------------------------------- the unit

def may_go(port, one, settings):
    """"A descriptor may go where an ITag is free for its invalidation; a fence, where all before it is done; and
    one with `drain`, where `drain empty` holds, once the page request queue is empty, and where `refuses drain` holds,
    never."""
    if one[0] in ('range', 'pasid'):
        return len(port.busy) < ITAGS
    if one[0] != 'wait':
        return True
    if is_refused(one, settings) or is_fence(one, settings) and port.busy:
        return False
    return not (one[1] and settings.drain == 'empty' and port.prq)


def may_pump(port, settings):
    """In the order of the queue its head is taken."""
    return settings.order == 'queue' and takes(port) and bool(port.queue) and may_go(port, port.queue[0], settings)


def pump(world, port, settings):
    head, port.queue = port.queue[0], port.queue[1:]
    if head[0] in ('range', 'pasid'):
        port.covered |= {send(world, port, head)}
    elif head[0] != 'wait':
        strike(world, port, head)
    elif port.covered:
        port.plain, port.covered = port.plain + ((head[3], port.covered, head[1]),), frozenset()
    else:
        wait_is_over(world, port, head[3], head[1])


def skip(world, port):
    """"Takes the head out", or the first that wasn't sent; "it is never done, but a wait counts as done"."""
    n = loose.unsent(port.queue)[0]
    head, port.queue = port.queue[n], drop(port.queue, n)
    if head[0] == 'wait':
        world.undone -= {head[3]}


# ---------------------------------------------------------------------------------------------- the host

def disown(port, p, new_space=None):
    """PASID p has another owner from now on: what is still there of it is of an earlier one (rule 2)."""
    port.answers -= {p}                         # "an answer to a stop that has come is dropped"
    flying = [m[0] for m in port.link if m[0] in ('start', 'stop', 'status') and m[1] == p and not is_lost(port, m[0])]
    port.remains = [word for word, there in (
        ('held translation', any(q == p for q, _ in port.held)),
        ('running use', any(u[1] == p for u in port.uses)),
        ('request that is out', any(q == p and not doomed for q, _, doomed in port.tags.values())),
        ('start in flight', 'start' in flying), ('stop in flight', 'stop' in flying),
        ('page request that the unit has received', any(r[0] == p for r in own(port, port.received))),
        ('page request in the queue', any(r[0] == p for r in own(port, port.prq))),
        ('status in flight', 'status' in flying),
        ('entry', p in port.entry and new_space is None),
        ('kept entry', p in port.kept_entry), ('kept translation', any(q == p for q, _ in port.kept)),
        ('filed group', any(g[0] == p and g[3] for g in port.filed)),
        ('on', p in port.on)) if there]
    port.remains = tuple((p, word) for word in port.remains)
    port.link = tuple(m[:-1] + (True,) if m[0] in ('page-request', 'marker') and m[1] == p else m for m in port.link)
    port.last = without(port.last, p)


def set_entry(port, p, space):
    """"Where P led to another space before and wasn't freed since, P has another owner from now on."""
    if space is None:
        port.entry = without(port.entry, p)
        return
    if port.last.get(p, space) != space:
        disown(port, p, space)
    port.entry, port.last = put(port.entry, p, space), put(port.last, p, space)


def replace(port, p, space):
    """"The PASID table entry leads to the space, for the owner that P has, whatever it led to before"."""
    port.entry, port.last = put(port.entry, p, space), put(port.last, p, space)


def mark(world, frame, which):
    """`free` (2) and `freeze` (3): whatever leads to the frame now led to it before."""
    def marked(tr):
        return tr[:which] + (True,) + tr[which + 1:] if tr and tr[0] == frame else tr
    world.pte = {k: marked(t) for k, t in world.pte.items()}
    for port in world.ports:
        port.held = {k: marked(t) for k, t in port.held.items()}
        port.kept = {k: marked(t) for k, t in port.kept.items()}
        port.uses = tuple(u[:3] + (marked(u[3]),) for u in port.uses)
        port.link = tuple(m[:4] + (marked(m[4]), m[5]) if m[0] == 'completion' else m for m in port.link)


def reopen(world, port):
    """"The invalidation queue is empty, all ITags are free, all waits are done"."""
    world.undone -= {d[3] for d in port.queue if d[0] == 'wait'} | {x[0] for x in port.plain + port.received}
    port.closed, port.queue, port.plain, port.received = False, (), (), ()
    port.busy, port.covered, port.stalled = frozenset(), frozenset(), False


def close(world, port):
    """Nothing is received, queued or filed any more; a wait that drained what had been received stays undone."""
    port.closed, port.prq = True, ()
    for other in below(world, port):
        other.filed = ()
    port.received = tuple(one for one in port.received if len(one) == 1)


def serve(world, port):
    """Files the oldest page request in its group: one of its endpoint, PASID and index that isn't whole yet, or a new
    one. The group is "of the space that its PASID had when its last page request was filed"."""
    p, i, gid, last, sender = port.prq[0]
    port.prq = port.prq[1:]
    port = world.ports[sender]
    for n, (q, j, other, whole, _) in enumerate(port.filed):
        if (q, j) == (p, i) and not whole:
            port.filed = port.filed[:n] + ((p, i, other, last, port.last.get(p)),) + port.filed[n + 1:]
            return
    port.filed += (p, i, gid, last, port.last.get(p)),


def is_meant(group, p):
    return p is None or group[0] == p


def respond_all(port, p, failure):
    """"Answers each whole group (of P) that is filed, the oldest first, by one event."""
    for q, i, gid, whole, _ in port.filed:
        if whole and is_meant((q,), p):
            port.link += ('response', q, i, gid, failure),
    port.filed = tuple(g for g in port.filed if not (g[3] and is_meant(g, p)))


def discard(port, p):
    port.filed = tuple(g for g in port.filed if g[3] or not is_meant(g, p))


def respond(port, p, i, failure):
    """Answers group I of PASID P: the first that is filed so. Where none is, it is sent for none."""
    gid = None
    for n, group in enumerate(port.filed):
        if group[:2] == (p, i):
            gid, port.filed = group[2], drop(port.filed, n)
            break
    port.link += ('response', p, i, gid, failure),


# ---------------------------------------------------------------------------------------------- the endpoint

def is_on(port, p):
    """"A PASID is on from its start up to the `quit` that answers its stop."""
    return port.on.get(p) in ('on', 'stopping')


def may_access(port, p):
    """May it send memory requests that need a translation?"""
    return is_on(port, p) and port.ats and port.mastering


def may_finish(port, n, lies):
    return n < len(port.taken) and (lies or not port.taken[n][3])


def finish(port, n):
    port.link += ('invalidated', port.taken[n][0]),
    port.taken = drop(port.taken, n)


def end(port, n):
    slot, port.uses = port.uses[n][0], drop(port.uses, n)
    port.drains = barriers.without(port.drains, barriers.SLOTS, slot)
    port.taken = tuple((itag, p, scope, noted - {slot}) for itag, p, scope, noted in port.taken)


def may_quit(port, p, awaits):
    """needs a stop that has come, and no group, request or use of the PASID to end"""
    if port.on.get(p) not in ('stopping', 'off'):
        return False
    if any(g[0] == p and (awaits or not g[2]) for g in port.groups.values()):
        return False
    return not any(t[0] == p for t in port.tags.values()) and not any(u[1] == p for u in port.uses)


def quit(port, p, settings):
    port.on = without(port.on, p)
    if settings.stopped == 'known':
        port.answers |= {p}
    else:
        port.link += (settings.stopped, p, False),


def may_fault(port, p, group):
    """With page requests off no group begins; one that has begun goes on."""
    if port.disabled:
        return False
    if group == 'new':
        return is_on(port, p) and port.pri
    return group in port.groups and port.groups[group][0] == p and not port.groups[group][2]


def fault(world, port, p, group, last):
    if group == 'new':
        group, port.begun = lowest(port.groups), port.begun + 1
        port.groups = put(port.groups, group, (p, port.begun, last))
    else:
        q, gid, _ = port.groups[group]
        port.groups = put(port.groups, group, (q, gid, last))
    port.link += ('page-request', p, group, port.groups[group][1], last, False),


def ask(port, p, page):
    tag = lowest(port.tags)
    port.tags = put(port.tags, tag, (p, page, False))
    port.link += ('request', tag, p, page, True),


def use(port, p, page):
    slot = lowest([u[0] for u in port.uses])
    port.uses += (slot, p, page, port.held[p, page]),
