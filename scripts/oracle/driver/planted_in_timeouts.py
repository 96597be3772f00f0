"""Wrong readings of invalidations that aren't answered in time, each of which has to be found by chance, in small
drivers in which there are some."""

import search
import timeouts
import world
from make import timed
from trying import Reading


def of_its_own(old):
    """Of the waits that are out those alone are aborted that await this invalidation."""
    return lambda port, itag: [wait for wait, left, _ in port.plain if itag in left]


def none(old):
    return lambda *words: []


def nothing(old):
    return lambda *words: None


def never(old):
    return lambda *words: False


def always(old):
    return lambda *words: True


def stays_busy(old):
    """The next wait covers it too."""
    def free_itag(port, itag):
        port.covered = port.busy
    return free_itag


def covered_stay(old):
    """What a wait that was aborted had covered the next one covers no more."""
    def free_itag(port, itag):
        port.busy, port.covered = port.busy - {itag}, port.covered - {itag}
    return free_itag


def as_if_silent(value):
    return lambda old: lambda port, itag, silent: old(port, itag, value)


def completions_late(old):
    """A completion that is on its way is too late."""
    return lambda port, itag, silent: old(port, itag, silent) and not ('invalidated', itag) in port.link


def too_early(old):
    """It runs out while the unit could take something."""
    def may_expire(port, itag, settings, silent):
        port = port.copy()
        port.queue = ()
        return old(port, itag, settings, silent)
    return may_expire


def though_stopped(old):
    """At a unit that has stopped a further one runs out."""
    def may_expire(port, itag, settings, silent):
        port = port.copy()
        port.queue, port.stalled = () if port.stalled else port.queue, False
        return old(port, itag, settings, silent)
    return may_expire


def opened_stopped(old):
    """A unit that is opened again takes nothing, as before."""
    def reopen(moment, port):
        stalled = port.stalled
        old(moment, port)
        port.stalled = stalled
    return reopen


def isnt_told(old):
    """A wait that was aborted is done, as others are."""
    def abort(moment, port, waits):
        moment.undone -= set(waits)
    return abort


def is_awaited(old):
    """A wait that was aborted is awaited for ever."""
    def abort(moment, port, waits):
        port.aborted = port.aborted | set(waits)
    return abort


def of_any(old):
    """`failed` is of any wait at the unit."""
    return lambda port, waits: bool(port.aborted)


def of_first(old):
    """`failed` is of the first await above in the thread."""
    return lambda last, line: frozenset([line]) if None in last else last


def needs_not(old):
    """That an invalidation runs out of time needn't ever be."""
    return lambda driver, moment: (words for words in old(driver, moment) if words[0] != 'expire')


WAITS, SHARED, STOPPED, LOST = (timed(theme) for theme in ('waits', 'shared', 'stopped', 'lost'))

OF_TIMEOUTS = [
    Reading('another wait that is out isn\'t aborted', timeouts, 'waits_out', of_its_own, LOST),
    Reading('a wait that is out isn\'t aborted', timeouts, 'waits_out', none, WAITS),
    Reading('the fence at the head isn\'t aborted', timeouts, 'fence_at_head', none, WAITS),
    Reading('the ITag stays busy', timeouts, 'free_itag', stays_busy, WAITS),
    Reading('what an aborted wait covered stays covered', timeouts, 'free_itag', covered_stay, LOST),
    Reading('an invalidation that ran out is answered later', timeouts, 'forget', nothing, WAITS),
    Reading('it runs out though the endpoint answers', timeouts, 'is_answered', as_if_silent(True), WAITS),
    Reading('what a silent endpoint has taken never runs out', timeouts, 'is_answered', as_if_silent(False), WAITS),
    Reading('a completion that is on its way is too late', timeouts, 'is_answered', completions_late, WAITS),
    Reading('it runs out while the unit could take something', timeouts, 'may_expire', too_early, WAITS),
    Reading('at a unit that has stopped another runs out', timeouts, 'may_expire', though_stopped, STOPPED),
    Reading('no unit stops at a time-out', timeouts, 'has_to_stop', never, STOPPED),
    Reading('each unit stops at a time-out', timeouts, 'has_to_stop', always, WAITS),
    Reading('a unit that has stopped isn\'t resumed', timeouts, 'resume', nothing, STOPPED),
    Reading('a unit that is opened again has stopped still', world, 'reopen', opened_stopped, STOPPED),
    Reading('a wait that was aborted is done', timeouts, 'abort', isnt_told, WAITS),
    Reading('a wait that was aborted is awaited for ever', timeouts, 'abort', is_awaited, WAITS),
    Reading('`failed` is of any wait at the unit', timeouts, 'has_failed', of_any, SHARED),
    Reading('`failed` is of the first await', timeouts, 'behind_await', of_first, WAITS),
    Reading('no invalidation has to run out', search, 'duties', needs_not, WAITS),
]
