"""Barriers: an endpoint drains a PASID, and doesn't stop it (docs/DRIVERS.md, section 15, "Barriers").

One that has come is (PASID, its name, tags, indices, slots): what was under way of its PASID then and hasn't gone
since. Its name is the line that sent it, with the thread of that.
"""

TAGS, INDICES, SLOTS = 2, 3, 4


def name_of(line):
    return line.thread, line.serial


def arrives(world, port, m, settings):
    """It notes each request that is out, each group and each use of its PASID."""
    _, p, name = m
    port.drains += (p, name, frozenset(tag for tag, its in port.tags.items() if its[0] == p),
                    frozenset(i for i, its in port.groups.items() if its[0] == p),
                    frozenset(its[0] for its in port.uses if its[1] == p)),


def is_passed(world, port, m, settings):
    """The host sees that it is, by what isn't on its way any more."""


def without(drains, which, gone):
    """What has gone holds none of them up any more."""
    return tuple(its[:which] + (its[which] - {gone},) + its[which + 1:] for its in drains)


def unended(port, awaits, i):
    """A group that it noted has to end as before the PASID is quit."""
    return awaits or not port.groups[i][2]


def may_pass(port, n, awaits):
    if n >= len(port.drains):
        return False
    _, _, tags, indices, slots = port.drains[n]
    return not tags and not slots and not any(unended(port, awaits, i) for i in indices)


def send_passed(port, settings, p, name):
    if settings.stopped != 'known':             # else the host knows it at once
        port.link += ('passed', p, name),


def do_pass(port, n, settings):
    p, name = port.drains[n][:2]
    port.drains = port.drains[:n] + port.drains[n + 1:]
    send_passed(port, settings, p, name)


def is_awaited(name, p, thread, q):
    """Those of the thread, and those from before all threads."""
    return p == q and name[0] in (thread, '')


def all_passed(port, p, thread):
    """None is on its way, nor its answer, and the endpoint is at none."""
    flying = [(m[2], m[1]) for m in port.link if m[0] in ('barrier', 'passed')]
    return not any(is_awaited(name, q, thread, p) for name, q in flying + [(its[1], its[0]) for its in port.drains])
