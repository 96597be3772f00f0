"""Drivers by chance in which a host sends barriers: endpoints that use, ask or have groups, before a barrier comes and
behind it, and threads of which each awaits its own."""

from make_branches import branched, mend
from reading import CODES


def act_of_barriers(m):
    e, p = m.e(), m.p()
    return m.one(f'barrier {e} {p}', f'barrier {e} {p}', f'await passed {e} {p}')


def of_uses(m, e):
    """What an endpoint is at as the race begins, where each of these acts is permitted; and its budget."""
    held = [f'ask {e} 1 16', f'deliver request {e}', f'deliver completion {e}']
    used = held + [f'use {e} 1 16']
    return m.one((used, ''), (used, ''), (used, '1 uses'), (held, '1 uses'), (used + [f'use {e} 1 16'], ''))


def of_asks(m, e):
    asked = [f'ask {e} 1 16']
    return m.one((asked, ''), (asked, '1 asks'), ([], '1 asks'), (asked + [f'deliver request {e}'], ''),
                 (asked + [f'ask {e} 1 16'], ''))


def of_groups(m, e):
    more, last = [f'fault {e} 1 16 r new more'], [f'fault {e} 1 16 r new last']
    come = [f'deliver page-request {e}']
    return m.one((more, ''), (last, ''), (last, ''), ([], '1 faults'), (more, '1 faults'), (last + come, ''),
                 (last + come + [f'serve {e}'], ''))


def of_two(m, e):
    """The same of another PASID, which isn't drained."""
    its, budget = m.one(of_uses, of_asks, of_groups)(m, e)
    other = [f'entry {e} 2 0', f'start {e} 2', f'deliver start {e}']
    return other + [x.replace(' 1 16', ' 2 16') for x in its] * m.chance(0.8), budget


def of_answers(m, e):
    """A barrier that has come, or is passed, before the race; also where something came behind it."""
    sent = [f'barrier {e} 1']
    come = sent + [f'deliver barrier {e}']
    passes = [f'pass {e}']
    its, budget = m.one(of_uses, of_asks, of_groups)(m, e)
    return m.one((sent, budget), (come, budget), (come + passes, budget), (come + its, budget), (its + come, budget),
                 (come + its + passes, budget))


def end(m, e):
    """What tells how soon it is reached, or that something is left."""
    off = [f'ats {e} off', f'pte 0 16 none']
    return m.one([f'respond {e} 1 7 success'], [f'respond {e} 1 7 success'], ['free 0'], [f'free pasid 1 {e}'], [],
                 [f'stop {e} 1', f'await stopped {e} 1', f'free pasid 1 {e}'], off + ['free 0'])


def answered(m, e):
    """How a group is answered, by lines."""
    return m.one([], [], [f'respond all {e} {m.one(*CODES)}'], [f'serve {e}', f'respond {e} 1 0 {m.one(*CODES)}'])


def drained(m, e):
    p = m.one(1, 1, 1, 1, 2)
    lines = [f'barrier {e} 1'] + answered(m, e) + m.one([], [], [f'barrier {e} {p}'], [f'stop {e} 1'], [f'start {e} 1'],
                                                        [f'mastering {e} off'], [f'reset {e}'], [f'gone {e}'])
    return lines + [f'await passed {e} {p}'] + end(m, e)


def off_first(m, e):
    """Nothing is held any more, and what runs is awaited."""
    off = [f'ats {e} off', 'pte 0 16 none']
    way = [f'barrier {e} 1', f'await passed {e} 1']
    return m.one(off + way, way + off, off) + ['free 0']


def on_its_way(m, e):
    """Behind what is on its way down already."""
    first = m.one([f'start {e} 1'], [f'stop {e} 1'], [f'reset {e}'], [f'submit {e} pasid 1 + wait'])
    return first + [f'barrier {e} 1', f'await passed {e} 1'] + end(m, e)


def awaited(m, e):
    """One that other lines sent is awaited, if it is this thread's, or from before."""
    return [f'await passed {e} {m.one(1, 1, 1, 2)}'] + end(m, e)


THEMES = {'uses': (of_uses, (drained, drained, off_first)), 'asks': (of_asks, (drained,)),
          'groups': (of_groups, (drained,)), 'two': (of_two, (drained, drained, awaited)),
          'answers': (of_answers, (awaited, awaited, drained)), 'order': (of_asks, (on_its_way,))}


def settings(m):
    stopped = f'stopped {m.one("status", "known", "known")}'
    chances = (('link posted', .3), ('waits plain', .1), ('drain arrived', .1), (stopped, .5), ('allow no-group', .1))
    return [setting for setting, p in chances if m.chance(p)]


def make_barriers(m, theme=None):
    theme = theme or m.one(*THEMES)
    its, recipes = THEMES[theme]
    m.ends = m.one(1, 1, 1, 2)
    head, devices, before = settings(m), [], ['pte 0 16 0 w']
    for e in range(m.ends):
        acts, budget = its(m, e)
        acts = [x for x in acts if not x.startswith('serve')] if 'drain arrived' in head else acts
        before += [f'entry {e} 1 0', f'start {e} 1', f'deliver start {e}'] + acts
        parts = [budget, m.one('awaits', 'awaits', 'silent', 'leaves', *[''] * 6)]
        devices += [f'device {e} ' + ' '.join(x for x in parts if x)] if any(parts) else []
    workers = [f'workers {m.one(*CODES)}'] if m.chance(0.4) else []
    text = [f'config {m.ends} 4 1'] + head + devices + workers + before + ['race']
    threads = [m.one(*recipes)(m, m.e())]
    threads += [m.one(drained, awaited)(m, m.e())] * m.chance(0.7 if theme in ('two', 'answers') else 0.2)
    for name, lines in zip('ab', threads):
        lines = [x for x in lines if m.chance(0.96)]
        text += [f'thread {name}'] + mend(branched(m, lines) if m.chance(0.06) else lines)
    return '\n'.join(text) + '\n'
