"""Wrong readings of units that take descriptors out of order, each of which has to be found by chance, in small drivers
in which there are some."""

import loose
import world
from make import unordered
from trying import Reading


def bars_less(kind):
    """Nothing bars this kind but a fence."""
    return lambda old: lambda earlier, one, settings: old(earlier, one, settings) and (
        loose.kind(one) != kind or earlier[0] == 'wait')


def bars_more(kind, *others):
    """This kind is barred by others too."""
    return lambda old: lambda earlier, one, settings: old(earlier, one, settings) or (
        loose.kind(one) == kind and loose.kind(earlier) in others)


def of_waits(which):
    """Of what bars all behind it this alone does."""
    return lambda old: lambda one, settings: which(one, settings)


def of_none(old):
    return lambda queue, n, settings: ()


def but_sent(old):
    """What was sent is done."""
    return lambda queue, n, settings: tuple(one for one in old(queue, n, settings) if loose.is_unsent(one))


def of_all(old):
    """A wait covers all before it."""
    return lambda queue, n, settings: queue[:n]


def of_its_own(old):
    """A fence covers what stands behind the wait before it, as another wait."""
    def undone(queue, n, settings):
        one = queue[n]
        return old(queue[:n] + (one[:2] + (False,) + one[3:],), n, settings)
    return undone


def head_alone(old):
    return lambda port, settings, n: n == 0 and old(port, settings, n)


def both_ways(old):
    """The head is taken without a place too."""
    def may_pump(port, settings):
        may = loose.is_loose(settings) and loose.may_take(port, settings, 0)
        return may or old(port, settings)
    return may_pump


def stays(old):
    """What was answered keeps its place."""
    return lambda port, itags: None


def nothing_kept(old):
    """What was sent keeps no place."""
    def take(moment, port, settings, n):
        old(moment, port, settings, n)
        port.queue = tuple(one for one in port.queue if loose.is_unsent(one))
    return take


def skips_sent(old):
    """`skip` takes out the head, also where that was sent."""
    def skip(moment, port):
        if loose.is_unsent(port.queue[0]):
            old(moment, port)
        else:
            port.queue = port.queue[1:]
    return skip


def all_of_queue(old):
    """All that stands in the queue was fetched."""
    return lambda port, settings: port.queue


def without_fence(old):
    return lambda port, settings: tuple(one for one in old(port, settings) if not world.is_fence(one, settings))


def none_fetched(old):
    return lambda port, settings: ()


def head_decides(old):
    """An invalidation runs out as soon as the head can't be taken."""
    return lambda port, settings: loose.may_take(port, settings, 0)


PLACES, KEPT, LATE = (unordered(theme) for theme in ('places', 'kept', 'late'))

OF_LOOSE = [
    Reading('an invalidation in an endpoint goes ahead of one in the IOTLB', loose, 'bars', bars_less('device'), KEPT),
    Reading('one in the IOTLB goes ahead of one of an entry', loose, 'bars', bars_less('iotlb'), PLACES),
    Reading('an invalidation in an endpoint awaits that of an entry', loose, 'bars', bars_more('device', 'entry'),
            PLACES),
    Reading('that of an entry awaits what stands before it', loose, 'bars', bars_more('entry', 'iotlb', 'device'),
            PLACES),
    Reading('one awaits others of its kind', loose, 'bars', bars_more('device', 'device'), PLACES),
    Reading('what stands behind a fence is taken', loose, 'bars_all', of_waits(world.is_refused), PLACES),
    Reading('what stands behind a refused wait is taken', loose, 'bars_all', of_waits(world.is_fence), PLACES),
    Reading('a wait leaves ahead of what it covers', loose, 'undone', of_none, KEPT),
    Reading('a wait doesn\'t wait for what was sent', loose, 'undone', but_sent, KEPT),
    Reading('a wait waits for all before it', loose, 'undone', of_all, PLACES),
    Reading('a fence covers what another wait would', loose, 'undone', of_its_own, PLACES),
    Reading('the head alone is taken', loose, 'may_take', head_alone, PLACES),
    Reading('the head is taken without its place', world, 'may_pump', both_ways, PLACES),
    Reading('what was answered keeps its place', loose, 'answered', stays, PLACES),
    Reading('what was sent keeps no place', loose, 'take', nothing_kept, PLACES),
    Reading('`skip` takes out what was sent', world, 'skip', skips_sent, PLACES),
    Reading('a wait behind a fence is aborted', loose, 'fetched', all_of_queue, LATE),
    Reading('a fence that was fetched isn\'t aborted', loose, 'fetched', without_fence, LATE),
    Reading('a wait that was fetched isn\'t aborted', loose, 'fetched', none_fetched, LATE),
    Reading('an invalidation runs out though a later one may go', loose, 'takes_some', head_decides, PLACES),
]
