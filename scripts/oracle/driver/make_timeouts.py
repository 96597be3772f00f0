"""Drivers by chance in which invalidations run out of time: silent and gone devices, ATS that is off, and threads that
share a unit's queue, of which some look whether their wait failed."""

import re

from make_branches import branched, mend


def act_of_timeouts(m):
    e = m.e()
    return m.one(f'resume {e}', f'expire {e} {m.one(0, 0, 1)}', f'skip {e}')


def wait(m):
    return 'wait' + m.one('', '', '', ' fence')


def flushed(m, e):
    what = m.one('range 1 16 0', 'range 1 16 0', 'pasid 1', 'range 1 16 0 + range 1 17 0')
    return [f'submit {e} {what} + {wait(m)}', f'await wait {e}']


def looked(m, e, frame):
    """What is done where a wait failed, and where it didn't: it is tried again, or a frame stays, or is free."""
    again = m.one([], [f'resume {e}']) + flushed(m, e)
    free, other = [f'free {frame}'], [f'respond {e} 1 7 success']
    told = m.one([], free, again + free, again, ['set failed-1'], other)
    if m.chance(0.3):
        return ['if not failed'] + free + ['else'] + told + ['end']
    return ['if failed'] + told + m.one(['else'] + free, ['else', 'mark'], []) + ['end']


def unmapped(m, e):
    lines = ['pte 0 16 none'] * m.chance(0.8) + flushed(m, e)
    return lines + m.one(['free 0'], looked(m, e, 0), looked(m, e, 0), [f'resume {e}', 'free 0'],
                         [f'resume {e}', f'submit {e} wait', f'await wait {e}'])


def flushed_alone(m, e):
    """Another thread at the same unit."""
    what = m.one('range 2 16 0', 'pasid 2', 'iotlb 1', 'range 1 17 0')
    lines = [f'submit {e} {what} + {wait(m)}', f'await wait {e}']
    return lines + m.one([], [], looked(m, e, 1), [f'resume {e}'])


def waited_alone(m, e):
    """A wait that covers what another thread submitted, if anything."""
    return [f'submit {e} {wait(m)}', f'await wait {e}'] + m.one([], looked(m, e, 1))


def named(m, e):
    """Two waits, of which one is looked at."""
    first, second = (f'submit {e} {m.one("range 1 16 0 + ", "")}{wait(m)}' for _ in 'ab')
    looks = m.one([f'await w{m.one(1, 2)}'], ['await w1', 'await w2'], ['await w2', 'await w1'])
    return ['w1: ' + first, 'w2: ' + second] + looks + looked(m, e, 0)


def many(m, e):
    """More invalidations than there are ITags: the unit can take no more, or may yet."""
    n = m.one(30, 31, 31)
    return [f'submit {e} ' + ' + '.join(['range 1 16 0'] * n + [wait(m)]), f'await wait {e}']


def waited_twice(m, e):
    """What the first wait covered the second one covers, if the first was aborted."""
    lines = ['pte 0 16 none'] + flushed(m, e)
    again = [f'resume {e}'] * m.chance(0.3) + [f'submit {e} {wait(m)}', f'await wait {e}']
    return lines + m.one(again + ['free 0'], again + ['free 0'], again + looked(m, e, 0))


def stopped(m, e):
    """What a unit that has stopped takes; and how it goes on."""
    on = m.one([f'resume {e}'], [f'close {e}', f'open {e}'], [], [f'resume {e}', f'resume {e}'], [f'skip {e}'])
    return flushed(m, e)[:m.one(1, 2, 2)] + on + flushed(m, e) + m.one(['free 0'], [], on)


THEMES = {'waits': (unmapped, unmapped, named), 'shared': (unmapped, named), 'stopped': (stopped, unmapped),
          'lost': (unmapped, waited_twice, waited_twice)}
OTHERS = {'waits': (flushed_alone,), 'shared': (flushed_alone, waited_alone, named), 'stopped': (flushed_alone,),
          'lost': (flushed_alone,)}


def settings(m, theme):
    said = m.one('on', 'on', 'on', 'stop', 'stop', 'off')
    found = ['timeouts ' + ('stop' if theme == 'stopped' else said)]
    chances = (('link posted', .3), ('waits plain', .9 if theme == 'lost' else .6), ('drain arrived', .1),
               ('caches on', .05), ('enables cleared', .1), ('refuses drain', .05))
    return found + [setting for setting, p in chances if m.chance(p)]


def begun(m, e, theme):
    """What the endpoint holds, or what is out already; and whether it answers. What is lost was dropped, and what comes
    behind it is answered."""
    held = [f'ask {e} 1 16', f'deliver request {e}', f'deliver completion {e}']
    if theme == 'lost':
        out = [f'submit {e} range 1 17 0' + m.one('', '', f' + {wait(m)}'), f'pump {e}', f'deliver invalidate {e}']
        return [f'ats {e} off'] + out + [f'ats {e} on'] + m.one(held, held, [])
    out = [f'submit {e} range 1 {m.one(16, 17)} 0 + {wait(m)}', f'pump {e}']
    out += [f'deliver invalidate {e}'] * m.chance(0.5)
    lost = m.one([], [f'ats {e} off'], [f'gone {e}'])
    return m.one([], held, held, held) + m.one([], [], lost + out, out, out + lost)


def device(m, e, theme):
    parts = [m.one('1 asks', '1 asks 1 uses', '1 uses', '', '', '')]
    parts += [m.one('silent', 'silent', 'leaves', '', '')] if theme != 'lost' or m.chance(0.2) else []
    parts += [m.one('lies', '', '', '', '', '')]
    words = ' '.join(x for x in parts if x)
    return [f'device {e} {words}'] if words else []


def make_timeouts(m, theme=None):
    theme = theme or m.one(*THEMES)
    m.ends = m.one(1, 1, 1, 2)
    before = ['pte 0 16 0 w'] + [x for e in range(m.ends)
                                 for x in [f'entry {e} 1 0', f'start {e} 1', f'deliver start {e}'] + begun(m, e, theme)]
    threads = [m.one(*THEMES[theme])(m, m.e())]
    threads += [m.one(*OTHERS[theme])(m, m.e())] * m.chance(0.9 if theme == 'shared' else 0.15)
    if m.chance(0.03):
        threads = [many(m, 0)]
    text = [f'config {m.ends} 4 1'] + settings(m, theme)
    text += [x for e in range(m.ends) for x in device(m, e, theme)] + before
    text += [m.one(f'expire {m.e()} 0', f'resume {m.e()}')] * m.chance(0.1) + ['race']
    for name, lines in zip('ab', threads):
        lines = [x for x in lines if m.chance(0.96) or x.split()[0] in ('if', 'else', 'end') or ': ' in x]
        for _ in range(m.one(0, 0, 0, 1)):
            lines.insert(m.rng.randrange(len(lines) + 1), act_of_timeouts(m))
        lines = [re.sub(r'\bw([12])\b', rf'{name}\1', x) for x in lines]
        text += [f'thread {name}'] + mend(branched(m, lines) if m.chance(0.05) else lines)
    return '\n'.join(text) + '\n'
