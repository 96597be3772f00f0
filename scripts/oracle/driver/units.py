"""A unit, and the endpoints below one (docs/DRIVERS.md, "Endpoints below one unit")."""
import world as w


class Unit:
    """What endpoints below one unit have together. Whatever it holds is replaced when it changes."""
    parts = ('closed', 'queue', 'busy', 'sent', 'plain', 'covered', 'received', 'prq', 'stalled', 'aborted',
             'overflowed')

    def __init__(self):
        self.closed, self.queue, self.busy = False, (), frozenset()
        self.sent = {}                          # ITag -> the endpoint to which its invalidation was sent
        self.plain, self.covered = (), frozenset()   # (wait, ITags, drain); the ITags behind the last such wait
        self.received = ()           # (PASID, index, group, last, endpoint), or (wait,) that drains what stands before
        self.prq = ()                           # (PASID, index, group, last, endpoint)
        self.stalled, self.aborted = False, frozenset()   # aborted: the waits that were, at a time-out
        self.overflowed = False                 # was a page request dropped since `resume`, for want of a place?

    def copy(self):
        new = Unit.__new__(Unit)
        new.__dict__.update(self.__dict__)
        return new


def of_unit(name):
    """What an endpoint has of its unit."""
    return property(lambda port: getattr(port.unit, name), lambda port, value: setattr(port.unit, name, value))


def share(ports, units):
    """Endpoints of one unit have the same one: that of the lowest."""
    for port, unit in zip(ports, units):
        port.unit = ports[unit].unit


def below(world, port):
    """The endpoints below the unit of one, itself too."""
    return [other for other in world.ports if other.unit is port.unit]


def struck(world, port, named):
    """Of which endpoints what the unit keeps goes: of the one that is named, or of each below it."""
    return below(world, port) if named is None else [world.ports[named]]


def own(port, requests):
    """The page requests that the endpoint has sent, of those of its unit."""
    return [one for one in requests if len(one) > 1 and one[4] == port.number]


def takes(port):
    return not port.closed and not port.stalled


def is_fence(one, settings):
    return one[0] == 'wait' and (settings.waits == 'fence' or one[2])


def is_refused(one, settings):
    return one[0] == 'wait' and one[1] and 'refuses' in settings.said


def send(world, port, one):
    """Sends an invalidation to its endpoint, under the lowest free ITag."""
    itag, port = w.lowest(port.busy), world.ports[one[3]]
    port.busy, port.sent = port.busy | {itag}, w.put(port.sent, itag, port.number)
    port.link += ('invalidate', itag, one[1], one[2]),
    return itag


def strike(world, port, one):
    """What the unit keeps goes at once."""
    for it in struck(world, port, one[-1]):
        if one[0] == 'entry':
            it.kept_entry = w.without(it.kept_entry, one[1])
        else:
            it.kept = {(p, page): tr for (p, page), tr in it.kept.items() if p != one[1] or not w.covers(one[2], page)}
