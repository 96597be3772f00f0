"""Invalidations that are not answered in time (docs/DRIVERS.md, "Time-outs"; crates/sva_open/specs/Units.antt)."""
import loose
import world as w

FAILED_OF = 'an await of a wait above in this thread, the last on each way to here'


def is_answered(port, itag, silent):
    """Is it answered, or may it be? Of a silent endpoint a completion that is on its way counts alone."""
    if ('invalidated', itag) in port.link:
        return True
    on_its_way = any(m[0] == 'invalidate' and m[1] == itag for m in port.link)
    return not silent and (on_its_way or any(taken[0] == itag for taken in port.taken))


def may_expire(port, itag, settings, silent):
    """"Time is long: before, the unit takes all that it can.\""""
    if settings.timeouts == 'off' or not w.takes(port):
        return False
    if w.may_pump(port, settings) or loose.takes_some(port, settings):
        return False
    return itag in port.busy and port.sent[itag] == port.number and not is_answered(port, itag, silent)


def expire(world, port, itag, settings):
    """Its ITag is free, and nothing of it is left. Waits that the unit has taken are aborted, and so is a fence at the
    head; out of order, all that it has fetched."""
    forget(port, itag)
    if loose.is_loose(settings):
        aborted = loose.abort_fetched(port, settings)
        port.busy -= {itag}
        loose.answered(port, {itag})
    else:
        waits, fence = waits_out(port, itag), fence_at_head(port, settings)
        port.queue, aborted = port.queue[len(fence):], waits + fence
        free_itag(port, itag)
        port.plain = tuple((wait, left - {itag}, drain) for wait, left, drain in port.plain if wait not in waits)
    abort(world, port, aborted)
    port.stalled = has_to_stop(settings)


def forget(port, itag):
    port.taken = tuple(one for one in port.taken if one[0] != itag)
    port.link = tuple(m for m in port.link if m[0] not in ('invalidate', 'invalidated') or m[1] != itag)


def free_itag(port, itag):
    """What stays out has no wait behind it any more: the next one covers it."""
    port.busy -= {itag}
    port.covered = port.busy


def waits_out(port, itag):
    """Those that have left the queue and await an invalidation, whichever, and whoever submitted them."""
    return [wait for wait, _, _ in port.plain]


def fence_at_head(port, settings):
    head = port.queue[0] if port.queue else (None,)
    is_fence = head[0] == 'wait' and (settings.waits == 'fence' or head[2])
    return [head[3]] if is_fence else []


def abort(world, port, waits):
    """They are awaited no more, and `failed` tells them from those that are done."""
    port.aborted = port.aborted | set(waits)
    world.undone -= set(waits)


def has_to_stop(settings):
    return settings.timeouts == 'stop'


def resume(port):
    port.stalled = False


# ---------------------------------------------------------------------------------------------- `if failed`

def find_failed(nodes, wrong, last=frozenset([None])):
    """Of each `if failed` in these lines which `await` of waits was the last: `last` has what may be the last above
    them; told is what may be the last behind them."""
    for line, yes, no in nodes:
        if line.awaited and line.awaited[1]:
            last = behind_await(last, line)
        elif line.words[0] == 'if':
            if line.words[-1] == 'failed':
                its, = last if len(last) == 1 else [None]
                line.looks = look(line, its)
                if its is None:
                    wrong.append((line.number, 'failed', FAILED_OF))
            last = behind_if(line, last, (yes, find_failed(yes, wrong, last)), (no, find_failed(no, wrong, last)))
    return last


def behind_if(line, last, *branches):
    """What may be the last behind an `if`. Where it asks whether waits were aborted, and the branch for that awaits
    others last, which it submits itself, `failed` is of these, whichever branch was gone: the other awaits none, so on it
    none was aborted."""
    (retry, tried), (_, kept) = reversed(branches) if 'not' in line.words else branches
    if line.words[-1] == 'failed' and kept == last and len(tried) == 1 and tried != last:
        its, = tried
        if its and is_within(its.awaited[0], retry):
            return tried
    return tried | kept


def is_within(line, nodes):
    return any(line is own or is_within(line, yes) or is_within(line, no) for own, yes, no in nodes)


def behind_await(last, line):
    return frozenset([line])


def look(line, its):
    """What an `if` looks at: whether waits of a line were aborted."""
    if its is None:
        return line.words
    named, waits = its.awaited
    return line.words[:-1] + ['failed', named.words[1], frozenset(waits)]


def has_failed(port, waits):
    return not port.aborted.isdisjoint(waits)
