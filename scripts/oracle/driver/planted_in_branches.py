"""Wrong readings of branches in drivers, each of which has to be found by chance."""

import branches
import reading
import search
from trying import Reading


def not_ignored(old):
    return lambda world, words: old(world, [x for x in words if x != 'not'])


def at_endpoint_0(old):
    """What is looked at is endpoint 0's."""
    return lambda world, words: old(world, words[:1] + [0 for _ in words[1:2]] + words[2:])


def of_any_pasid(old):
    return lambda world, words: old(world, words[:2] if words[0] in ('filed', 'queued') else words)


def of_pasid_1(old):
    return lambda world, words: old(world, words[:2] + [1] if words[0] in ('present', 'stopped') else words)


def with_parts(word, *names):
    """`word` looks at these parts of a port alone, or at these too."""
    def planted(old):
        def is_met(world, words):
            if words[0] != word:
                return old(world, words)
            there = [one for name in names for one in getattr(world.ports[words[1]], name)]
            pasids = [one if isinstance(one, int) else one[0] for one in there if isinstance(one, int) or len(one) > 1]
            return any(pasid in words[2:] or len(words) == 2 for pasid in pasids)
        return is_met
    return planted


def whole_alone(old):
    """`filed` asks for whole groups."""
    def is_met(world, words):
        if words[0] != 'filed':
            return old(world, words)
        return any(one[3] and (one[0] in words[2:] or len(words) == 2) for one in world.ports[words[1]].filed)
    return is_met


def is_or_was_set(old):
    """A flag stays set."""
    def do(driver, world, words, line=None):
        if words[0] != 'clear':
            old(driver, world, words, line)
    return do


def takes_answers(old):
    """`if stopped` takes the answer, as `await stopped` does."""
    def do(driver, world, words, line=None):
        old(driver, world, words, line)
        if words[0] == 'if' and words[-3:-2] == ['stopped']:
            world.ports[words[-2]].answers -= {words[-1]}
    return do


def clear_at_race(old):
    def before_race(driver):
        moment, were, ended = old(driver)
        if moment:
            moment.flags = frozenset()
        return moment, were, ended
    return before_race


def no_event(old):
    """An `if` is looked at with the line above it."""
    def taken(driver, world, words, line=None, thread=None, cost=None):
        new = old(driver, world, words, line, thread, cost)
        while thread and new.pos[thread] < len(driver.by_thread[thread]):
            line = driver.by_thread[thread][new.pos[thread]]
            if line.words[0] != 'if':
                break
            new = old(driver, new, line.words, line, thread)
        return new
    return taken


def waits(old):
    """An `if` waits until it finds what it has to."""
    def need(driver, world, words, line=None):
        if words[0] == 'if' and not branches.finds(world, line.looks):
            return 'await wait'
        return old(driver, world, words, line)
    return need


def past_is_taken(old):
    """A line that its thread is past was taken."""
    def need_of_await(driver, world, words, line):
        kept = world.gone
        if line and line.awaited:
            named = line.awaited[0]
            is_past = world.pos[driver.threads.index(named.thread)] > named.index
            world.gone = kept | ({named} if is_past else set())
        lacks = old(driver, world, words, line)
        world.gone = kept
        return lacks
    return need_of_await


def linked(yes_first, no_first):
    """What each branch goes on with: functions of its lines, of the other's first line, and of what stands behind."""
    def planted(_):
        def link(nodes, behind=None, under=()):
            for line, yes, no in reversed(nodes):
                line.under, line.next, line.other = under, behind, behind
                if line.words[0] == 'if':
                    line.other = link(no, no_first(behind), under + ((line.index, False),)) if no else behind
                    line.next = yes_first(link, yes, line.other, behind, under + ((line.index, True),))
                behind = line
            return behind
        return link
    return planted


OF_BRANCHES = [
    Reading('`not` says nothing', branches, 'finds', not_ignored),
    Reading('each condition is of endpoint 0', branches, 'is_met', at_endpoint_0),
    Reading('`filed` and `queued` are of any PASID', branches, 'is_met', of_any_pasid),
    Reading('`present` and `stopped` are of PASID 1', branches, 'is_met', of_pasid_1),
    Reading('`filed` asks for whole groups', branches, 'is_met', whole_alone),
    Reading('what stands in the queue is filed', branches, 'is_met', with_parts('filed', 'filed', 'prq')),
    Reading('what is filed stands in the queue', branches, 'is_met', with_parts('queued', 'filed', 'prq')),
    Reading('what is received stands in the queue', branches, 'is_met', with_parts('queued', 'received', 'prq')),
    Reading('a kept entry is present', branches, 'is_met', with_parts('present', 'entry', 'kept_entry')),
    Reading('a PASID that is on is present', branches, 'is_met', with_parts('present', 'on')),
    Reading('a flag stays set', search, 'do', is_or_was_set),
    Reading('flags are clear at `race`', search, 'before_race', clear_at_race),
    Reading('a look takes the answer to a stop', search, 'do', takes_answers),
    Reading('an `if` is no event', search, 'taken', no_event),
    Reading('an `if` waits', search, 'need', waits),
    Reading('a line that its thread is past was taken', reading, 'need_of_await', past_is_taken),
    Reading('behind the first branch `else` is gone too', branches, 'link',
            linked(lambda link, yes, no, behind, under: link(yes, no, under), lambda behind: behind)),
    Reading('an empty branch ends its thread', branches, 'link',
            linked(lambda link, yes, no, behind, under: link(yes, behind, under) if yes else None, lambda behind: behind)),
    Reading('a thread ends with `else`', branches, 'link',
            linked(lambda link, yes, no, behind, under: link(yes, behind, under), lambda behind: None)),
    Reading('line by line each branch is gone', search, 'is_past', lambda old: lambda world, thread, line: False),
]
