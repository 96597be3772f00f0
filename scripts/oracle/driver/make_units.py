"""Drivers by chance in which endpoints stand below one unit: a page is invalidated at several by one line, page
requests of several stand in one queue, and what one leaves unanswered aborts the waits of another."""

from make_branches import branched, mend
from make_timeouts import looked


def shared(m):
    """Two or three endpoints, and which of them share a unit."""
    m.ends = m.one(2, 2, 2, 3)
    m.below = m.one((0, 1), (1, 0)) if m.ends == 2 else m.one((0, 1), (0, 2), (2, 1), (2, 0, 1))
    return 'unit ' + ' '.join(str(e) for e in m.below)


def some_below_one(m, text):
    """The same text, where each endpoint has a unit of its own, with some that share one."""
    lines = text.split('\n')
    ends = int(lines[0].split()[1])
    if ends < 2 or any(x.startswith('unit ') for x in lines):
        return text
    below = range(ends) if ends < 3 or m.chance(0.3) else m.rng.sample(range(ends), 2)
    at = 2 if lines[1:] and lines[1].startswith('platform') else 1
    return '\n'.join(lines[:at] + ['unit ' + ' '.join(str(e) for e in below)] + lines[at:])


def any_below(m):
    return m.one(*m.below)


def of_other(m, e):
    """`of F` behind a descriptor of a line at E, or nothing."""
    return m.one('', '', f' of {any_below(m) if e in m.below else e}')


def flushed(m, e):
    """One line for several endpoints, of which one may be forgotten; awaited at any of them."""
    some = [m.one('range 1 16 0', 'range 1 16 0', 'pasid 1') + f' of {f}' * (f != e or m.chance(0.3))
            for f in (m.below if e in m.below else (e,)) if m.chance(0.85)]
    some = m.one([], [], ['iotlb 1 16 0' + of_other(m, e)], ['entry 1' + of_other(m, e)]) + some
    lines = [f'submit {e} ' + ' + '.join(some + ['wait' + m.one('', '', '', ' fence', ' drain')])]
    return lines + [f'await wait {any_below(m) if e in m.below else e}']


def unmapped(m):
    lines = ['pte 0 16 none'] * m.chance(0.9) + flushed(m, m.e())
    return lines + m.one(['free 0'], ['free 0'], ['freeze 0'], flushed(m, m.e()) + ['free 0'])


def timed(m):
    """A flush that looks whether its wait was aborted, or doesn't."""
    e = any_below(m)
    lines = ['pte 0 16 none'] + flushed(m, e)
    return lines + m.one(['free 0'], looked(m, e, 0), looked(m, any_below(m), 0), [f'resume {any_below(m)}', 'free 0'])


def of_requests(m):
    e, f = m.e(), any_below(m)
    of = m.one('', ' 1')
    return m.one(f'serve {f}', f'serve {e}', f'respond {e} 1 0 success', f'respond all {e} success',
                 f'await queue {f}{of}', f'await groups {f}{of}', f'await groups {f}', f'discard {e}', f'close {f}',
                 f'open {f}', f'write {f}', f'submit {e} wait drain', f'await wait {f}', f'skip {f}', f'stop {e} 1',
                 f'await stopped {e} 1', f'free pasid 1 {e}', f'deliver page-request {e}')


def requests(m):
    e, f = any_below(m), any_below(m)
    drained = [f'submit {e} wait drain', f'await wait {f}', f'await queue {f}' + m.one('', ' 1'), f'await groups {f}']
    ended = [f'stop {e} 1', f'await stopped {e} 1', f'entry {e} 1 none'] + drained + [f'free pasid 1 {e}']
    return m.one(drained, ended, ended, [of_requests(m) for _ in range(m.one(2, 3, 4, 5))])


def given_away(m):
    return [m.one('free 0', 'free 0', 'freeze 0')]


THEMES = {'flush': unmapped, 'kept': given_away, 'time-outs': timed, 'requests': requests}


def settings(m, theme):
    chances = (('link posted', .3), ('waits plain', .4), ('drain arrived', .3 if theme == 'requests' else .05),
               ('caches on', {'flush': .4, 'kept': .95}.get(theme, .05)), ('stopped known', .2), ('refuses drain', .05),
               (f'timeouts {m.one("on", "stop")}', .95 if theme == 'time-outs' else .05))
    return [setting for setting, p in chances if m.chance(p)]


def device(m, e, theme):
    parts = {'flush': m.one('1 asks', '', ''), 'kept': m.one('1 asks', '1 asks', ''),
             'time-outs': m.one('silent', 'silent', '1 asks', '', 'leaves'),
             'requests': m.one('', '', 'awaits', '1 faults pages 16')}[theme]
    return [f'device {e} {parts}'] if parts else []


def begun(m, e, theme):
    """What an endpoint holds, or has asked for."""
    lines = [f'entry {e} 1 {m.one(0, 0, 0, 1)}', f'start {e} 1', f'deliver start {e}']
    if theme == 'requests':
        last = m.one('last', 'last', 'more')
        sent = [f'fault {e} 1 16 r new {last}'] + [f'deliver page-request {e}'] * m.chance(0.8)
        return lines + m.one([], sent, sent)
    held = [f'ask {e} 1 16', f'deliver request {e}', f'deliver completion {e}']
    if theme == 'kept':
        return lines + held
    out = [f'submit {e} range 1 17 0 + wait', f'pump {e}'] if theme == 'time-outs' else []
    return lines + m.one([], held, held) + m.one([], [], out)


def struck(m):
    """Nothing is held any more, the page is gone, and some of what the unit keeps goes."""
    e = m.e()
    its = m.one('iotlb 1 16 0', 'iotlb 1', 'entry 1') + of_other(m, e)
    off = [f'ats {f} {on}' for f in range(m.ends) for on in ('off', 'on')]
    none = [f'entry {f} 1 none' for f in range(m.ends) if m.chance(0.3)]
    return off + ['pte 0 16 none'] + none + [f'submit {e} {its}', f'pump {e}']


def make_units(m, theme=None):
    theme = theme or m.one(*THEMES)
    unit = shared(m)
    text = [f'config {m.ends} 4 1'] + settings(m, theme) + [unit]
    text += [x for e in range(m.ends) for x in device(m, e, theme)]
    text += ['workers success'] * (theme == 'requests' and m.chance(0.4))
    text += ['pte 0 16 0 w'] + [x for e in range(m.ends) for x in begun(m, e, theme)]
    text += (struck(m) if theme == 'kept' else []) + ['race']
    for name in 'ab'[:m.one(1, 1, 1, 2)]:
        lines = [x for x in THEMES[theme](m) if m.chance(0.96) or x.split()[0] in ('if', 'else', 'end')]
        if theme == 'requests':
            lines.insert(m.rng.randrange(len(lines) + 1), of_requests(m))
        text += [f'thread {name}'] + mend(branched(m, lines) if m.chance(0.1) else lines)
    return '\n'.join(text) + '\n'
