"""Wrong readings of what is turned on and off, of devices that are gone, and of lines that are written out, each of
which has to be found by chance, in small drivers that have such lines."""

import branches
import controls
import reading
import search
import world
import written
from make import make_written, small
from trying import Reading


def held_stays(old):
    """ATS that goes off keeps what is held."""
    def turn_ats(port, on):
        kept = port.held
        old(port, on)
        port.held = kept
    return turn_ats


def requests_stay(old):
    """A request that is out as ATS goes off is answered as any."""
    def turn_ats(port, on):
        kept = port.tags
        old(port, on)
        port.tags = kept
    return turn_ats


def uses_end(old):
    """With ATS each use that runs ends."""
    def turn_ats(port, on):
        old(port, on)
        port.uses = port.uses if on else ()
    return turn_ats


def as_if(name, value):
    """A port is looked at, or changed, as if it had this."""
    def planted(old):
        def function(*words):
            port = next(one for one in words if isinstance(one, world.Port))
            kept = getattr(port, name)
            setattr(port, name, value)
            try:
                return old(*words)
            finally:
                setattr(port, name, kept)
        return function
    return planted


def asks_all_on(old):
    """A host that turns page requests on forgets that a response has failed, wherever they were on."""
    def turn_pri(port, on):
        old(port, on)
        port.disabled = port.disabled and not on
    return turn_pri


def failure_stays(old):
    def turn_pri(port, on):
        kept = port.disabled
        old(port, on)
        port.disabled = kept
    return turn_pri


def forgets_at_once(old):
    """It is forgotten as they go off."""
    def turn_pri(port, on):
        port.disabled = port.disabled and on
        port.pri = on
    return turn_pri


def none_goes_on(old):
    """With page requests off no group goes on."""
    return lambda port, p, group: port.pri and old(port, p, group)


def begins_all_the_same(old):
    return as_if('pri', True)(old)


def needs_master(old):
    """A page request needs bus mastering."""
    return lambda port, p, group: port.mastering and old(port, p, group)


def resets(value):
    """Behind a reset all is on, or off, whatever the setting says."""
    def planted(old):
        def reset_arrives(moment, port, m, settings):
            old['reset'](moment, port, m, settings)
            port.ats = port.pri = port.mastering = value
        return {**old, 'reset': reset_arrives}
    return planted


def keeps(name):
    """An endpoint that goes keeps this."""
    def planted(old):
        def leave(port):
            kept = getattr(port, name)
            old(port)
            setattr(port, name, kept)
        return leave
    return planted


def sent_is_lost(old):
    """What it has sent is gone with it."""
    def leave(port):
        old(port)
        port.resets -= sum(m[0] == 'reset-done' for m in port.link)
        port.link = tuple(m for m in port.link if m[0] not in world.UP)
    return leave


def never_lost(kind):
    return lambda old: lambda port, its: its != kind and old(port, its)


def has_no_groups(old):
    """A response to an endpoint that is gone has to find its group."""
    def of_messages(moment, e, port):
        return as_if('gone', False)(old)(moment, e, port)
    return of_messages


def goes_twice(old):
    return {**old, 'gone': lambda driver, port, device, words, line: True}


def leaves_never(old):
    return lambda driver, moment: (each for each in old(driver, moment) if each[0][0] != 'gone')


def leaves_at_last(old):
    """A device that may leave has to."""
    def duties(driver, moment):
        yield from old(driver, moment)
        yield from (['gone', e] for e, device in driver.devices.items() if device.leaves)
    return duties


def any_is_gone(old):
    """`if gone` asks whether any endpoint is."""
    def is_met(moment, words):
        return any(port.gone for port in moment.ports) if words[0] == 'gone' else old(moment, words)
    return is_met


def gone_to_the_host(old):
    """`if gone` holds once nothing of the endpoint is on its way up."""
    def is_met(moment, words):
        return controls.is_seen_gone(moment.ports[words[1]]) if words[0] == 'gone' else old(moment, words)
    return is_met


def within_words(old):
    """A parameter is replaced wherever its letters stand."""
    def put(word, names, given):
        for name, its in zip(names, given):
            word = word.replace(name, its)
        return word
    return put


def first_given(old):
    return lambda word, names, given: old(word, names, given[:1] * len(names))


def from_behind(old):
    return lambda word, names, given: old(word, names, given[::-1])


def invalidates_always(old):
    return {**old, 'invalidate': as_if('ats', True)(old['invalidate'])}


def gone_at_once(old):
    return lambda port: port.gone


def loses_all(old):
    return lambda port, kind: port.gone


def once_too_few(old):
    return lambda lines, times: old(lines, times - 1)


def once(old):
    return lambda lines, times: lines


OF_TRANSLATIONS, OF_REQUESTS, OF_MESSAGES, OF_LOOKS = (
    small(theme) for theme in ('translations', 'requests', 'messages', 'looks'))

OF_CONTROLS = [
    Reading('ATS that goes off keeps what is held', controls, 'turn_ats', held_stays, OF_TRANSLATIONS),
    Reading('a request that is out as ATS goes off is answered', controls, 'turn_ats', requests_stay, OF_TRANSLATIONS),
    Reading('with ATS each use ends', controls, 'turn_ats', uses_end, OF_TRANSLATIONS),
    Reading('an invalidation is answered though ATS is off', world, 'ARRIVES', invalidates_always, OF_TRANSLATIONS),
    Reading('a translation is asked for though ATS is off', world, 'may_access', as_if('ats', True), OF_TRANSLATIONS),
    Reading('a use begins though mastering is off', world, 'may_access', as_if('mastering', True), OF_TRANSLATIONS),
    Reading('an idle endpoint may have requests out', controls, 'is_idle', as_if('tags', {}), OF_TRANSLATIONS),
    Reading('at an idle endpoint uses may run', controls, 'is_idle', as_if('uses', ()), OF_TRANSLATIONS),
    Reading('behind each reset all is on', world, 'ARRIVES', resets(True), OF_TRANSLATIONS),
    Reading('behind each reset all is off', world, 'ARRIVES', resets(False), OF_TRANSLATIONS),
    Reading('an endpoint that goes keeps its uses', controls, 'leave', keeps('uses'), OF_TRANSLATIONS),
    Reading('an endpoint that goes keeps what it holds', controls, 'leave', keeps('held'), OF_TRANSLATIONS),
    Reading('a page request needs mastering', world, 'may_fault', needs_master, OF_REQUESTS),
    Reading('a group begins though page requests are off', world, 'may_fault', begins_all_the_same, OF_REQUESTS),
    Reading('with page requests off no group goes on', world, 'may_fault', none_goes_on, OF_REQUESTS),
    Reading('a failure is forgotten where page requests were on', controls, 'turn_pri', asks_all_on, OF_REQUESTS),
    Reading('a failure is never forgotten', controls, 'turn_pri', failure_stays, OF_REQUESTS),
    Reading('a failure is forgotten as page requests go off', controls, 'turn_pri', forgets_at_once, OF_REQUESTS),
    Reading('an endpoint that goes has its groups to end', controls, 'leave', keeps('groups'), OF_REQUESTS),
    Reading('a response finds no group where the endpoint is gone', search, 'of_messages', has_no_groups, OF_REQUESTS),
    Reading('an endpoint that goes has invalidations to answer', controls, 'leave', keeps('taken'), OF_MESSAGES),
    Reading('what an endpoint sent goes with it', controls, 'leave', sent_is_lost, OF_MESSAGES),
    Reading('an invalidation is taken by an endpoint that is gone', world, 'is_lost', never_lost('invalidate'),
            OF_MESSAGES),
    Reading('a stop is taken by an endpoint that is gone', world, 'is_lost', never_lost('stop'), OF_MESSAGES),
    Reading('a start is taken by an endpoint that is gone', world, 'is_lost', never_lost('start'), OF_MESSAGES),
    Reading('what an endpoint that is gone has sent is dropped', world, 'is_lost', loses_all, OF_MESSAGES),
    Reading('an endpoint goes twice', reading, 'MAY', goes_twice, OF_MESSAGES),
    Reading('no endpoint goes by itself', search, 'liberties', leaves_never, OF_MESSAGES),
    Reading('an endpoint that may go has to', search, 'duties', leaves_at_last, OF_MESSAGES),
    Reading('what is on its way up isn\'t awaited', controls, 'is_seen_gone', gone_at_once, OF_MESSAGES),
    Reading('`if gone` is of any endpoint', branches, 'is_met', any_is_gone, OF_LOOKS),
    Reading('`if gone` awaits what is on its way up', branches, 'is_met', gone_to_the_host, OF_LOOKS),
    Reading('a parameter is replaced within a word', written, 'put', within_words, make_written),
    Reading('each parameter is the first word', written, 'put', first_given, make_written),
    Reading('the last word is the first parameter', written, 'put', from_behind, make_written),
    Reading('lines are repeated once too few', written, 'repeated', once_too_few, make_written),
    Reading('lines are written out once', written, 'repeated', once, make_written),
]
