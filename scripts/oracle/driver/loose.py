"""Units that take descriptors out of order (docs/DRIVERS.md, "Out of order"). What was sent and isn't answered yet
keeps its place in the queue, as ('sent', ITag)."""
import world as w
from units import is_fence, is_refused, send, strike, takes

SENT = 'sent'


def is_loose(settings):
    return settings.order == 'loose'


def is_unsent(one):
    return one[0] != SENT


def unsent(queue):
    """What stands in the queue and wasn't sent, each by its place."""
    return [n for n, one in enumerate(queue) if is_unsent(one)]


def kind(one):
    return {'range': 'device', 'pasid': 'device'}.get(one[0], one[0])


BARS = {'device': ('iotlb',), 'iotlb': ('entry',), 'entry': (), 'wait': ()}


def bars(earlier, one, settings):
    """"A fence bars all behind it, and so does a wait that the unit refuses; an IOTLB invalidation one in an endpoint,
    that of an entry one in the IOTLB.\""""
    if earlier[0] == 'wait':
        return bars_all(earlier, settings)
    return earlier[0] in BARS[kind(one)]


def bars_all(one, settings):
    return is_fence(one, settings) or is_refused(one, settings)


def undone(queue, n, settings):
    """Of what a wait covers, what isn't done: a wait covers what stands behind the wait before it; a fence all before
    it. What was sent isn't done before it is answered."""
    waits = [i for i in range(n) if queue[i][0] == 'wait']
    begins = 0 if is_fence(queue[n], settings) or not waits else waits[-1] + 1
    return queue[begins:n]


def may_take(port, settings, n):
    """The descriptor at this place, which none before it bars."""
    if not is_loose(settings) or not takes(port) or n not in unsent(port.queue):
        return False
    one = port.queue[n]
    if any(bars(earlier, one, settings) for earlier in port.queue[:n] if is_unsent(earlier)):
        return False
    return w.may_go(port, one, settings) and not (one[0] == 'wait' and undone(port.queue, n, settings))


def take(world, port, settings, n):
    one = port.queue[n]
    if kind(one) == 'device':
        itag = send(world, port, one)
        port.queue = w.drop(port.queue, n, (SENT, itag))
        return
    port.queue = w.drop(port.queue, n)
    if one[0] == 'wait':
        w.wait_is_over(world, port, one[3], one[1])
    else:
        strike(world, port, one)


def answered(port, itags):
    """What was answered, or ran out of time, keeps its place no more."""
    port.queue = tuple(one for one in port.queue if is_unsent(one) or one[1] not in itags)


def takes_some(port, settings):
    return any(may_take(port, settings, n) for n in range(len(port.queue)))


# ---------------------------------------------------------------------------------------------- time-outs

def fetched(port, settings):
    """The unit has fetched all up to what bars all behind it, and a fence too."""
    for n, one in enumerate(port.queue):
        if is_unsent(one) and bars_all(one, settings):
            return port.queue[:n + is_fence(one, settings)]
    return port.queue


def abort_fetched(port, settings):
    """The waits among these are aborted, and stand in the queue no more."""
    waits = [one for one in fetched(port, settings) if one[0] == 'wait']
    port.queue = tuple(one for one in port.queue if one not in waits)
    return [one[3] for one in waits]
