"""Drivers by chance in which a unit takes descriptors out of order: batches of several, waits among them, places that
are taken ahead of others, and what a device may ask for between two of them."""

from make_timeouts import looked


def loosened(m, text):
    """The same text with `order loose`: each `pump E` names a place, mostly the head."""
    lines = text.split('\n')
    if any(x.startswith(('order', 'platform')) for x in lines):
        return text
    lines[1:1] = ['order loose']
    return '\n'.join(f'{x} {m.one(0, 0, 0, 0, 1)}' if x.split()[:1] == ['pump'] and len(x.split()) == 2 else x
                     for x in lines)


def wait(m, theme):
    drain = ' drain' if theme == 'places' and m.chance(0.25) else ''
    return 'wait' + drain + m.one('', '', '', ' fence')


def one(m, theme, kinds=('range 1 16 0', 'range 1 16 0', 'pasid 1', 'iotlb 1', 'iotlb 1 16 0', 'entry 1')):
    return wait(m, theme) if m.chance(0.3) else m.one(*kinds)


def batch(m, theme, most):
    return ' + '.join(one(m, theme) for _ in range(m.rng.randrange(1, most + 1)))


def act(m):
    """What may come next at a unit that has taken some."""
    n = m.rng.randrange(6)
    return m.one(*[f'pump 0 {n}'] * 8, 'deliver invalidate 0', 'finish 0', 'deliver invalidated 0', 'skip 0',
                 'expire 0 0', 'expire 0 1', f'submit 0 {batch(m, "places", 2)}', 'resume 0', 'pump 0', 'ats 0 off',
                 'ats 0 on')


def places(m):
    """A queue of which one place after the other is taken, before `race`; and last one that need not be permitted."""
    m.head = head(m, 'places')
    before = ['pte 0 16 0 w', 'entry 0 1 0', 'start 0 1', 'deliver start 0', f'submit 0 {batch(m, "places", 6)}']
    if m.chance(0.3):
        before[-1:-1] = ['fault 0 1 16 r new last', 'deliver page-request 0']
    before = m.permitted(before, m.one(2, 6, 12, 20), lambda: act(m))
    before += [act(m)] * m.chance(0.6)
    return m.head + before + ['race'] + m.one(['mark'], [f'submit 0 {batch(m, "places", 2)}'], ['skip 0'], ['skip 0'])


def kept(m):
    """A page is gone, or a table: which order of what invalidates it leaves nothing behind?"""
    asks = m.one(1, 1, 1, 2, 2)
    before = ['pte 0 16 0 w', 'pte 1 17 1 w', 'entry 0 1 0', 'start 0 1', 'deliver start 0']
    before += ['ask 0 1 16', 'deliver request 0', 'deliver completion 0'][:m.one(2, 3, 3, 3)]
    change = m.one(['pte 0 16 none'], ['pte 0 16 none'], ['replace 0 1 1'], ['entry 0 1 none'])
    which = ['iotlb 1', m.one('range 1 16 0', 'pasid 1')]
    which = ['entry 1'] * (change != ['pte 0 16 none'] or m.chance(0.3)) + which
    if m.chance(0.35):
        m.rng.shuffle(which)
    which = [x for x in which if m.chance(0.85)]
    lines = change + submitted(m, which) + ['await wait 0']
    lines += m.one(['free 0'], ['free 0'], ['free space 0'], ['freeze 0'])
    return head(m, 'kept') + [f'device 0 {asks} asks pages 16'] + before + ['race'] + lines


def submitted(m, which):
    """In one line or several, with waits between."""
    found, line = [], []
    for x in which:
        line += [x] + [wait(m, 'kept')] * m.chance(0.2)
        if m.chance(0.25):
            found, line = found + [line], []
    return [f'submit 0 {" + ".join(x)}' for x in found + [line + [wait(m, 'kept')]]]


def late(m):
    """Invalidations that nobody answers, and waits that are awaited out of order."""
    lines = [f'submit 0 {batch(m, "late", 3)} + wait' for _ in range(m.one(1, 2, 2))] + ['await wait 0']
    if m.chance(0.4):
        lines[0:0] = ['pte 0 16 none']
    lines += m.one([], ['free 0'], looked(m, 0, 0))
    lost = m.one([], [], ['ats 0 off', 'submit 0 range 1 17 0', 'pump 0 0', 'deliver invalidate 0', 'ats 0 on'])
    device = m.one(['device 0 silent'], [], ['device 0 1 asks silent'])
    before = ['pte 0 16 0 w', 'entry 0 1 0', 'start 0 1', 'deliver start 0'] + lost
    before += m.one([], ['ask 0 1 16', 'deliver request 0', 'deliver completion 0'])
    return head(m, 'late') + device + before + ['race'] + lines


def head(m, theme):
    chances = (('waits plain', .75), ('link posted', .3), ('drain arrived', .3 if theme == 'places' else .1),
               ('caches on', .95 if theme == 'kept' else .2), ('refuses drain', .3 if theme == 'places' else 0),
               (f'timeouts {m.one("on", "on", "stop")}', {'late': .95, 'places': .3}.get(theme, 0)),
               ('order loose', .95))
    return ['config 1 4 1'] + [setting for setting, p in chances if m.chance(p)]


THEMES = {'places': places, 'kept': kept, 'late': late}


def make_loose(m, theme=None):
    m.ends = 1
    return '\n'.join(THEMES[theme or m.one(*THEMES)](m)) + '\n'
