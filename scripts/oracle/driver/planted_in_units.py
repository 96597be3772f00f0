"""Wrong readings of endpoints below one unit, each of which has to be found by chance, in small drivers in which there
are some."""

import reading
import timeouts
import units
import world
from make import together
from trying import Reading


def nothing(old):
    return lambda *words: None


def itself(old):
    """What is said of each endpoint below the unit is of one."""
    return lambda moment, port: [port]


def is_ignored(old):
    """`of F` says nothing."""
    return lambda words: (old(words)[0], None)


def its_alone(old):
    """What is invalidated of the unit is that of the line's endpoint."""
    return lambda moment, port, named: [port]


def each_below(old):
    """Where an endpoint is named too, that of each goes."""
    return lambda moment, port, named: old(moment, port, None)


def own_waits(old):
    """`await wait E` is of what was submitted at E."""
    return lambda driver, e, other: e == other


def all_of_unit(old):
    """A page request of another endpoint is the endpoint's."""
    return lambda port, requests: [one for one in requests if len(one) > 1]


def filed_at_unit(old):
    """The oldest page request is filed for the endpoint of the line."""
    def serve(moment, port):
        port.prq = (port.prq[0][:4] + (port.number,),) + port.prq[1:]
        old(moment, port)
    return serve


def sent_by_unit(old):
    """An invalidation that was sent to another endpoint runs out at this one."""
    def may_expire(port, itag, settings, silent):
        port = port.copy()
        port.sent = {itag: port.number for itag in port.busy}
        return old(port, itag, settings, silent)
    return may_expire


def never(old):
    return lambda *words: False


FLUSH, KEPT, TIMED, REQUESTS = (together(theme) for theme in ('flush', 'kept', 'time-outs', 'requests'))

OF_UNITS = [
    Reading('each endpoint has a unit of its own', world, 'share', nothing, FLUSH),
    Reading('a page request of another endpoint isn\'t in the queue', world, 'share', nothing, REQUESTS),
    Reading('another endpoint\'s time-out aborts no wait', world, 'share', nothing, TIMED),
    Reading('`of F` is ignored', reading, 'of_other', is_ignored, FLUSH),
    Reading('what the unit keeps of another endpoint stays', units, 'struck', its_alone, KEPT),
    Reading('what the unit keeps of each goes, where one is named', units, 'struck', each_below, KEPT),
    Reading('`await groups E` and `close E` are of E\'s groups alone', world, 'below', itself, REQUESTS),
    Reading('`await wait E` is of what was submitted at E', reading.Driver, 'are_below_one', own_waits, FLUSH),
    Reading('a page request of another endpoint is its own', world, 'own', all_of_unit, REQUESTS),
    Reading('a page request is filed where the line is', world, 'serve', filed_at_unit, REQUESTS),
    Reading('what was sent to another endpoint runs out', timeouts, 'may_expire', sent_by_unit, TIMED),
    Reading('what shares a unit comes apart', reading.Driver, 'shares_units', never, FLUSH),
]
