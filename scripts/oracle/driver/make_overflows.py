"""Drivers by chance in which a page request queue has places: threads that serve it, answer, drop what is left of groups
and clear an overflow, in this order or another, below one unit too."""

from make_branches import branched, mend


def any_of(m):
    return m.one(*range(m.ends))


def served(m):
    e = any_of(m)
    return m.one([f'serve {e}'], [f'serve {e}'], [f'serve {e}', f'respond all {e} success'])


def cleared(m):
    """What clears an overflow, or means to."""
    e, f = any_of(m), any_of(m)
    lines = m.one([f'discard {e}', f'resume {f}'], [f'discard {e}', f'resume {f}'], [f'resume {f}', f'discard {e}'], [f'resume {f}'],
                  [f'close {e}', f'open {e}'])
    looked = m.one(f'if overflow {e}', f'if overflow {e}', f'if not overflow {e}')
    return m.one(lines, lines, [looked] + lines + ['end'], [looked, 'mark', 'else'] + lines + ['end'])


def drained(m):
    e = any_of(m)
    return [f'submit {e} wait drain', f'await wait {e}'] + m.one([], [f'await queue {e}'], [f'await groups {e}'])


def ended(m):
    e = any_of(m)
    return [f'stop {e} 1', f'await stopped {e} 1', f'entry {e} 1 none'] + drained(m) + m.one([], [f'discard {e}']) + [f'free pasid 1 {e}']


def seen(m):
    """What is seen of an overflow behind what clears it, or doesn't."""
    e = any_of(m)
    lines = m.one([f'resume {e}'], [f'resume {e}'], [f'close {e}', f'open {e}'], [f'close {e}'], [])
    return lines + [m.one(f'if overflow {e}', f'if not overflow {e}'), 'mark', 'end']


THEMES = {'clear': (seen,), 'queue': (served, served, cleared), 'drain': (served, drained, cleared, ended), 'shared': (served, served, cleared, drained)}


def begun(m, e):
    """Page requests that have come, or are on their way; of a group that is whole, or isn't."""
    lines = [f'entry {e} 1 0', f'start {e} 1', f'deliver start {e}']
    for _ in range(m.one(1, 2, 2, 3)):
        lines += [f'fault {e} 1 16 r {m.one("new", "new", 0, 1)} {m.one("last", "last", "more")}']
        lines += [f'deliver page-request {e}'] * m.chance(0.8)
        lines += [f'write {e}'] * m.chance(0.6 if m.writes else 0)
        lines += [f'serve {e}'] * m.chance(0.2) + [f'deliver response {e}'] * m.chance(0.2)
    return lines


def permitted(m, head, lines):
    """Those that are permitted where they stand, one after another."""
    from reading import Driver, need
    import search
    driver = Driver('\n'.join(head))
    world, left = driver.start(), []
    for text in lines:
        driver.read(0, text.split())
        line = driver.lines.pop()
        after = None if need(driver, world, line.words, line) else search.taken(driver, world, line.words, line)
        if after is not None and not search.findings(after):
            world = after
            left.append(text)
    return left


def make_overflows(m, theme=None):
    theme = theme or m.one(*THEMES)
    m.ends = 2 if theme == 'shared' else 1
    m.writes = theme == 'drain' or m.chance(0.4)
    head = [f'config {m.ends} 4 1', f'places {m.one(1, 1, 1, 2, 2, 3)}'] + ['unit 0 1'] * (m.ends == 2)
    head += ['drain arrived'] * m.writes + [s for s, p in (('link posted', .3), ('stopped known', .2), ('allow no-group', .1)) if m.chance(p)]
    head += [f'device {e} {m.one("1 faults pages 16", "1 faults pages 16", "2 faults pages 16", "awaits")}' for e in range(m.ends)
             if m.chance(0.7)]
    head += ['workers success'] * m.chance(0.3)
    text = head + permitted(m, head, [x for e in range(m.ends) for x in begun(m, e)]) + ['race']
    for name in 'ab'[:m.one(1, 1, 1, 2)]:
        lines = [x for _ in range(m.one(1, 2, 2, 3)) for x in m.one(*THEMES[theme])(m)]
        lines = [x for x in lines if m.chance(0.96) or x.split()[0] in ('if', 'else', 'end')]
        text += [f'thread {name}'] + mend(branched(m, lines) if m.chance(0.1) else lines)
    return '\n'.join(text) + '\n'
