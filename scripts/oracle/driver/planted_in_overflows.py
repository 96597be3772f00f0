"""Wrong readings of page request queues that overflow, each of which has to be found by chance, in small drivers whose
queues have places."""

import overflows
import world
from make import filled
from trying import Reading


def never(old):
    return lambda *words: False


def nothing(old):
    return lambda *words: None


def one_more(old):
    """There is a place more than is said."""
    return lambda port: old(port) - 1


def by_count(old):
    """As soon as there is a place again, something comes into it."""
    def is_full(port, settings):
        return settings.places is not None and overflows.counted(port) >= settings.places
    return is_full


def each(old):
    """The unit answers each page request that it drops."""
    return lambda moment, port, one: old(moment, port, one[:3] + (True,) + one[4:])


def at_the_line(old):
    """It answers at the endpoint that the line names."""
    return lambda moment, port, one: old(moment, port, one[:4] + (port.number,))


def failing(old):
    """It answers by Response Failure."""
    def answer(moment, port, one):
        sender = moment.ports[one[4]]
        count = len(sender.link)
        old(moment, port, one)
        sender.link = sender.link[:count] + tuple(m[:4] + (True,) for m in sender.link[count:])
    return answer


def its_own(old):
    """Of a shared queue each endpoint has places of its own."""
    return lambda port: sum(one[4] == port.number for one in port.prq)


def cleared_by_opening(old):
    def reopen(moment, port):
        old(moment, port)
        port.overflowed = False
    return reopen


def cleared_by_closing(old):
    def close(moment, port):
        old(moment, port)
        port.overflowed = False
    return close


QUEUE, CLEAR, DRAIN, SHARED = (filled(theme) for theme in ('queue', 'clear', 'drain', 'shared'))

OF_OVERFLOWS = [
    Reading('a page request queue has room for any number', overflows, 'is_full', never, QUEUE),
    Reading('it has a place more', overflows, 'counted', one_more, QUEUE),
    Reading('an overflow ends with the next place', overflows, 'is_full', by_count, QUEUE),
    Reading('each page request that is dropped is answered', overflows, 'answer', each, QUEUE),
    Reading('none that is dropped is answered', overflows, 'answer', nothing, QUEUE),
    Reading('one that is dropped is answered by Response Failure', overflows, 'answer', failing, QUEUE),
    Reading('`resume` clears no overflow', overflows, 'clear', nothing, CLEAR),
    Reading('`open` clears one', world, 'reopen', cleared_by_opening, CLEAR),
    Reading('`close` clears one', world, 'close', cleared_by_closing, CLEAR),
    Reading('what is written finds a place', overflows, 'is_full', never, DRAIN),
    Reading('the unit answers at the endpoint of the line', overflows, 'answer', at_the_line, SHARED),
    Reading('each endpoint has places of its own', overflows, 'counted', its_own, SHARED),
]
