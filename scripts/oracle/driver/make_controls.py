"""Drivers by chance in which a host turns ATS, page requests and bus mastering on and off, and devices leave."""

from make_branches import branched, mend
from reading import CODES

CONTROLS = ('ats', 'ats', 'pri', 'mastering')


def turned(m, e):
    return f'{m.one(*CONTROLS)} {e} {m.one("off", "off", "on")}'


def act_of_controls(m):
    """A line that turns something on or off, or looks whether a device is idle or gone."""
    e = m.e()
    return m.one(turned(m, e), turned(m, e), turned(m, e), f'await idle {e}', f'await gone {e}', f'gone {e}')


def of_translations(m, e):
    """What an endpoint is at as the race begins, where each of these acts is permitted; and its budget."""
    asked = [f'ask {e} 1 16']
    answered = asked + [f'deliver request {e}']
    held = answered + [f'deliver completion {e}']
    used = held + [f'use {e} 1 16']
    pumped = [f'submit {e} range 1 16 0 + wait', f'pump {e}']
    return m.one(([], '1 asks 1 uses'), ([], '1 asks'), (asked, ''), (asked, '1 uses'), (answered, ''),
                 (answered, '1 uses'), (held, ''), (held, '1 uses'), (used, ''), (used, ''), (pumped, ''),
                 (held + pumped, ''), (used + pumped, ''))


def of_requests(m, e):
    """The same of page requests."""
    more, last = [f'fault {e} 1 16 r new more'], [f'fault {e} 1 16 r new last']
    filed = last + [f'deliver page-request {e}', f'serve {e}']
    failed = filed + [f'respond {e} 1 0 failure']
    told, half = failed + [f'deliver response {e}'], filed + more + failed[3:] + [f'deliver response {e}']
    return m.one(([], '1 faults'), (more, ''), (more, ''), (more, '1 faults'), (last, ''), (last, '1 faults'),
                 (filed, ''), (filed, '1 faults'), (failed, '1 faults'), (told, ''), (told, ''), (told, '1 faults'),
                 (half, ''), (half, ''))


def of_messages(m, e):
    """The same of what is on its way."""
    stop = [f'stop {e} 1', f'deliver stop {e}', f'quit {e} 1']
    pumped = [f'submit {e} range 1 16 0 + wait', f'pump {e}']
    reset = [f'reset {e}', f'deliver reset {e}']
    return m.one(([f'stop {e} 1'], ''), ([f'start {e} 1'], '1 asks'), ([f'reset {e}'], ''), (reset, ''), (stop, ''),
                 (pumped + [f'deliver invalidate {e}', f'finish {e}'], ''), (pumped, ''))


def flushed(m, e, what='pasid 1'):
    return [f'submit {e} {what} + wait', f'await wait {e}']


def released(m, e):
    """ATS goes off ahead of the device's invalidation, behind it, or in its place."""
    off, flush = [f'ats {e} off'], flushed(m, e)
    return [f'pte 0 16 none'] + m.one(off + flush, flush + off, off, off + flushed(m, e, 'iotlb 1')) + ['free 0']


def reset(m, e):
    """No master any more, idle, blocked; reset, and what was on is on again."""
    off = [f'mastering {e} off', f'await idle {e}'] + m.one([], [f'pri {e} off'])
    on = m.one([f'ats {e} on', f'pri {e} on', f'mastering {e} on'], [], [])
    on += [f'entry {e} 1 0', f'start {e} 1', f'ask {e} 1 16']
    return m.one(off, []) + [f'entry {e} 1 none'] + m.one([], flushed(m, e)) + [f'reset {e}', f'await reset {e}'] + on


def removed(m, e):
    """The host sees that a device is gone, and gives its PASID away."""
    seen = m.one([f'gone {e}'], []) + m.one([f'await gone {e}'], [f'await gone {e}'], [])
    return seen + [f'entry {e} 1 none'] + m.one([], flushed(m, e)) + m.one([f'free pasid 1 {e}'], ['free 0'],
                                                                         [f'start {e} 1', f'free pasid 1 {e}'])


def looked(m, e):
    """Where a device is gone its invalidation is left out, or else isn't."""
    way, gone = flushed(m, e), m.one([], [], [f'gone {e}'])
    ways = m.one(['else'] + way, way, ['set x', 'else'] + way)
    look = [f'if {m.one("", "not ")}gone {m.one(e, m.e())}']
    return ['pte 0 16 none'] + gone + look + ways + ['end', 'free 0']


def requested(m, e):
    """Page requests off and on, beside those that are sent and answered."""
    off, on, stop = [f'pri {e} off'], [f'pri {e} on'], [f'stop {e} 1', f'await stopped {e} 1']
    drained = [f'submit {e} wait drain', f'await wait {e}', f'await queue {e}', f'await groups {e}']
    answered = m.one([f'serve {e}', f'respond {e} 1 0 {m.one(*CODES)}'], [f'respond all {e} {m.one(*CODES)}'], drained)
    sent = [f'fault {e} 1 16 r new last']
    return m.one(on + sent, on + sent, off + on + sent, off + on, off + sent, off + stop, off + stop,
                 off + answered + on, answered + off + on, off + drained + [f'free pasid 1 {e}'], answered + on,
                 [f'mastering {e} off'] + sent, [f'mastering {e} off'] + sent, off)


def asked(m, e):
    """What a device does behind that, by lines."""
    off = m.one([f'ats {e} off'], [f'mastering {e} off'], [f'ats {e} off', f'ats {e} on'], [f'pri {e} off'])
    return off + [m.one('ask', 'ask', 'use') + f' {e} 1 16'] + m.one([], flushed(m, e))


def idled(m, e):
    off = [f'mastering {e} off', f'await idle {e}', 'pte 0 16 none']
    return off + m.one([], [f'ats {e} off'], flushed(m, e)) + ['free 0']


def waiting(m, e):
    """What a host waits for, though the device may be gone."""
    return m.one([f'await reset {e}'], flushed(m, e), flushed(m, e), [f'stop {e} 1', f'await stopped {e} 1'],
                 [f'await gone {e}'], [f'gone {e}'], [f'free pasid 1 {e}'], [f'await gone {e}', f'free pasid 1 {e}'])


# what endpoints are at, and orders that a host has then
THEMES = {'translations': (of_translations, (released, released, idled, asked, reset, removed)),
          'requests': (of_requests, (requested, requested, requested, removed)),
          'messages': (of_messages, (waiting, waiting, waiting, removed)),
          'looks': (of_translations, (looked,))}


def thread(m, recipes):
    e = m.e()
    lines = [x for x in m.one(*recipes)(m, e) if m.chance(0.95)]
    for _ in range(m.one(0, 0, 0, 1, 2)):
        lines.insert(m.rng.randrange(len(lines) + 1), act_of_controls(m) if m.chance(0.8) else m.host())
    return mend(branched(m, lines) if m.chance(0.1) else lines)


def settings(m):
    stopped = f'stopped {m.one("status", "known")}'
    chances = (('link posted', .3), ('waits plain', .2), ('drain arrived', .1), ('caches on', .1), (stopped, .6),
               ('enables cleared', .4), ('allow no-group', .15))
    return [setting for setting, p in chances if m.chance(p)]


def make_controls(m, theme=None):
    m.ends = m.one(1, 1, 1, 1, 2, 2, 3)
    its, recipes = THEMES[theme or m.one('translations', 'translations', 'requests', 'requests', 'messages', 'looks')]
    head, devices, before = settings(m), [], ['pte 0 16 0 w']
    for e in range(m.ends):
        acts, budget = its(m, e) if e == 0 or m.chance(0.3) else ([], '')
        acts = [x for x in acts if not x.startswith('serve')] if 'drain arrived' in head else acts
        before += [f'entry {e} 1 0', f'start {e} 1', f'deliver start {e}'] + acts
        parts = [budget, m.one('leaves', '', ''), m.one('awaits', 'silent', *[''] * 10)]
        devices += [f'device {e} ' + ' '.join(x for x in parts if x)] if any(parts) else []
    if m.chance(0.15):
        before += m.one([f'gone {m.e()}'], [turned(m, m.e())], [turned(m, m.e()), turned(m, m.e())])
    workers = [f'workers {m.one(*CODES)}'] if m.chance(0.1) else []
    text = [f'config {m.ends} 4 1'] + head + devices + workers + before + ['race']
    threads = [thread(m, recipes) for _ in range(m.one(1, 1, 1, 2))]
    for name, lines in zip('ab', threads):
        text += [f'thread {name}'] + lines
    return '\n'.join(text) + '\n'
