"""Wrong readings of barriers, each of which has to be found by chance, in small drivers that have some."""

import barriers
import search
import world
from make import drained
from trying import Reading


def not_held_up(which):
    """What was under way of this sort holds no barrier up."""
    def planted(old):
        def may_pass(port, n, awaits):
            kept = port.drains
            port.drains = tuple(its[:which] + (frozenset(),) + its[which + 1:] for its in kept)
            try:
                return old(port, n, awaits)
            finally:
                port.drains = kept
        return may_pass
    return planted


def of_all(old):
    """What came behind it holds it up too."""
    def may_pass(port, n, awaits):
        if not old(port, n, awaits):
            return False
        p = port.drains[n][0]
        groups = any(its[0] == p and (awaits or not its[2]) for its in port.groups.values())
        return not groups and not any(t[0] == p for t in port.tags.values()) and not any(u[1] == p for u in port.uses)
    return may_pass


def of_any_pasid(old):
    """What is under way of any PASID holds it up."""
    def arrives(moment, port, m, settings):
        port.drains += (m[1], m[2], frozenset(port.tags), frozenset(port.groups), frozenset(u[0] for u in port.uses)),
    return {**old, 'barrier': arrives}


def stops(old):
    """A barrier stops the PASID: nothing begins under it any more."""
    def arrives(moment, port, m, settings):
        old['barrier'](moment, port, m, settings)
        port.on = world.without(port.on, m[1])
    return {**old, 'barrier': arrives}


def answered_at_once(old):
    """It is answered as it comes."""
    def arrives(moment, port, m, settings):
        barriers.send_passed(port, settings, m[1], m[2])
    return {**old, 'barrier': arrives}


def forgets_none(old):
    """What has gone holds it up for ever."""
    return lambda drains, which, gone: drains


def of_any_thread(old):
    return lambda name, p, thread, q: p == q


def of_own_alone(old):
    return lambda name, p, thread, q: p == q and name[0] == thread


def of_each_pasid(old):
    return lambda name, p, thread, q: old(name, q, thread, q)


def says_it_always(old):
    """Where stops are known at once an answer is sent all the same."""
    def send_passed(port, settings, p, name):
        port.link += ('passed', p, name),
    return send_passed


def known_at_once(old):
    return lambda port, settings, p, name: None


def overtakes(old):
    """A barrier overtakes what goes down."""
    return lambda newer, older, posted: old(('invalidate',) + newer[1:] if newer[0] == 'barrier' else newer, older, posted)


def answers_wait(old):
    """The answer stays behind all."""
    return lambda newer, older, posted: newer[0] == 'passed' or old(newer, older, posted)


def needs_not(old):
    """No endpoint has to pass one."""
    return lambda e, port: (words for words in old(e, port) if words[0] != 'pass')


def outlasts(old):
    """It outlasts a reset, and an endpoint that is gone."""
    def forget_all(port):
        kept = port.drains
        old(port)
        port.drains = kept
    return forget_all


def never_lost(old):
    """One to an endpoint that is gone comes there."""
    return lambda port, kind: kind != 'barrier' and old(port, kind)


def always(old):
    return lambda *words: True


def of_the_last(old):
    """Each group has ended with its last request."""
    return lambda port, awaits, i: not port.groups[i][2]


USES, ASKS, GROUPS, TWO, ANSWERS, ORDER = (
    drained(theme) for theme in ('uses', 'asks', 'groups', 'two', 'answers', 'order'))

OF_BARRIERS = [
    Reading('a use holds no barrier up', barriers, 'may_pass', not_held_up(barriers.SLOTS), USES),
    Reading('a request holds no barrier up', barriers, 'may_pass', not_held_up(barriers.TAGS), ASKS),
    Reading('a group holds no barrier up', barriers, 'may_pass', not_held_up(barriers.INDICES), GROUPS),
    Reading('what came behind it holds a barrier up', barriers, 'may_pass', of_all, ANSWERS),
    Reading('an answered group alone has ended', barriers, 'unended', always, GROUPS),
    Reading('a group has ended with its last request', barriers, 'unended', of_the_last, GROUPS),
    Reading('what is of another PASID holds it up', world, 'ARRIVES', of_any_pasid, TWO),
    Reading('a barrier stops the PASID', world, 'ARRIVES', stops, ASKS),
    Reading('it is answered as it comes', world, 'ARRIVES', answered_at_once, USES),
    Reading('what has gone holds it up for ever', barriers, 'without', forgets_none, USES),
    Reading('one awaits those of any thread', barriers, 'is_awaited', of_any_thread, TWO),
    Reading('one awaits those of its own thread alone', barriers, 'is_awaited', of_own_alone, ANSWERS),
    Reading('one awaits those of any PASID', barriers, 'is_awaited', of_each_pasid, TWO),
    Reading('an answer is sent where it is known at once', barriers, 'send_passed', says_it_always, ASKS),
    Reading('each is known at once', barriers, 'send_passed', known_at_once, ASKS),
    Reading('a barrier overtakes what goes down', world, 'stays_behind', overtakes, ORDER),
    Reading('its answer overtakes nothing', world, 'stays_behind', answers_wait, GROUPS),
    Reading('no endpoint has to pass one', search, 'of_endpoint', needs_not, ASKS),
    Reading('it outlasts a reset', world, 'forget_all', outlasts, USES),
    Reading('one comes to an endpoint that is gone', world, 'is_lost', never_lost, USES),
]
