"""Small drivers by chance: mapped pages, started PASIDs and cached translations, and then orders that drivers have."""

import pathlib

import search
import written
from branches import is_of_block
from make_barriers import act_of_barriers, make_barriers
from make_controls import act_of_controls, make_controls
from make_loose import loosened, make_loose
from make_overflows import make_overflows
from make_timeouts import make_timeouts
from make_units import make_units, some_below_one
from make_written import folded
from make_branches import Blocks, branched, make_looks, mend, taken_in_block, with_branches
from reading import CODES, KINDS, Driver, need
from world import Settings

EXAMPLES = sorted(pathlib.Path(__file__).parents[3].glob('examples/judge/**/*.svd'))

PAGES, PASIDS, SPACES = (16, 16, 17, 18, '0x10', '0x11'), (1, 1, 1, 1, 2, 0), (0, 0, 0, 1)
# by scripts/words --write: act.await
AWAITED = set("""wait stopped passed queue groups reset idle gone""".split())


class Maker:
    def __init__(self, rng):
        self.rng = rng
        self.ends = rng.choices((1, 2, 3), (45, 40, 15))[0]
        text = '\n'.join([f'config {self.ends} 4 1'] + self.settings())
        self.head = (some_below_one(self, text) if self.chance(0.65) else text).split('\n')

    def one(self, *words):
        return self.rng.choice(words)

    def chance(self, p):
        return self.rng.random() < p

    def budget(self):
        return self.one(0, 1, 1, 1, 1, 2)

    def settings(self):
        pairs = ('link posted', 'waits plain', 'drain arrived', 'caches on', 'order loose')
        found = [f'platform {self.one("vt-d", "vt-d", "free")}'] if self.chance(0.2) else []
        found += [s for s in pairs if self.chance(0.35)]
        found += [self.one('stopped status', 'stopped known')] if self.chance(0.5) else []
        chances = (('refuses drain', .15), ('allow no-group', .2), ('enables cleared', .1),
                   (f'timeouts {self.one("on", "stop")}', .12), (f'places {self.one(1, 2)}', .1))
        return found + [s for s, p in chances if self.chance(p)]

    def devices(self):
        found = []
        for e in range(self.ends):
            parts = [f'{self.budget()} {what}' for what in ('asks', 'uses', 'faults') if self.chance(0.45)]
            parts += [word for word, p in (('evicts', .12), ('silent', .12), ('lies', .15), ('awaits', .3),
                                           ('leaves', .06))
                      if self.chance(p)]
            parts += [f'pages {self.page()}'] if self.chance(0.15) else []
            if parts:
                found.append(f'device {e} ' + ' '.join(parts))
        if self.chance(0.5):
            found.append('workers ' + ' '.join(c for c in CODES if self.chance(0.5)) or 'success')
        return [x if x != 'workers ' else 'workers success' for x in found]

    def e(self):
        return self.rng.randrange(self.ends)

    def p(self):
        return self.one(*PASIDS)

    def page(self):
        return self.one(*PAGES)

    def setup(self):
        """What leads to a started PASID and, perhaps, a cached translation."""
        found = []
        for e in range(self.ends):
            for p in {self.p(), self.p()}:
                s = self.one(*SPACES)
                found += [f'pte {s} {self.page()} {self.rng.randrange(3)} {self.one("r", "w", "w")}'
                          for _ in range(self.one(1, 1, 2))]
                found += [f'entry {e} {p} {s}'] if self.chance(0.9) else []
                found += [f'start {e} {p}', f'deliver start {e}'] if self.chance(0.9) else []
        return found

    def descriptors(self):
        p, page, k = self.p(), self.page(), self.one(0, 0, 1, 2)
        found = [self.one(f'range {p} {page} {k}', f'range {p} {page} {k}', f'pasid {p}', f'iotlb {p}',
                          f'iotlb {p} {page} {k}', f'entry {p}') for _ in range(self.one(0, 1, 1, 2))]
        found += ['wait' + self.one('', '', ' drain') + self.one('', '', ' fence')] if self.chance(0.8) else []
        if self.chance(0.1):
            found.append(self.one('wait', f'range {p} {page} {k}'))
        return ' + '.join(found or ['wait'])

    def pte(self):
        f = self.one('none', 'none', '0 w', '1 w', '0 r', '1 r')
        return f'pte {self.one(*SPACES)} {self.page()} {f}'

    def host(self):
        """One act of the host."""
        e, p = self.e(), self.p()
        return self.one(
            self.pte(), self.pte(), f'entry {e} {p} {self.one("none", "none", 0, 1)}', f'start {e} {p}',
            f'stop {e} {p}', f'replace {e} {p} {self.one(0, 1)}', f'skip {e}', f'skip {e}', 'mark',
            f'reset {e}', f'submit {e} {self.descriptors()}', f'submit {e} {self.descriptors()}',
            f'submit {e} {self.descriptors()}', f'await stopped {e} {p}', f'await queue {e}' + self.one('', f' {p}'),
            f'await groups {e}' + self.one('', f' {p}', f' {p}'), f'await reset {e}', f'free {self.rng.randrange(2)}',
            f'respond all {e} ' + self.one('', f'{p} ') + self.one(*CODES), f'discard {e}' + self.one('', f' {p}'),
            f'free domain {self.one(0, 1)}',
            f'free {self.rng.randrange(2)}',
            f'freeze {self.rng.randrange(2)}', f'free pasid {p} {e}', f'free space {self.one(0, 1)}', f'serve {e}',
            f'respond {e} {p} {self.one(0, 0, 1)} {self.one(*CODES)}', f'close {e}', f'open {e}',
            self.one('lock l', 'unlock l'), act_of_controls(self), act_of_barriers(self), f'resume {e}')

    def other(self):
        """One act of an endpoint, a unit or the link."""
        e, p, page = self.e(), self.p(), self.page()
        kind = self.one(*KINDS)
        n = self.one('', '', ' 0', ' 1')
        return self.one(
            f'ask {e} {p} {page}', f'ask {e} {p} {page}', f'use {e} {p} {page}', f'evict {e} {p} {page}', f'end {e}{n}',
            f'finish {e}{n}', f'pass {e}{n}', f'quit {e} {p}', f'pump {e}', f'pump {e} {self.one(0, 0, 1, 2)}',
            f'write {e}',
            f'forget {e} {p}' + self.one('', f' {page}'), f'expire {e} {self.one(0, 0, 1)}',
            f'fault {e} {p} {page} {self.one("r", "w", "rw")} {self.one("new", "new", 0)} {self.one("more", "last")}',
            *[f'deliver {kind} {e}{n}'] * 6)

    def recipe(self):
        """Orders that drivers have, whole, so that what comes behind them is reached."""
        e, p, page, f = self.e(), self.p(), self.page(), self.rng.randrange(2)
        wait = [f'await wait {e}']
        unmap = [f'pte 0 {page} none', f'submit {e} range {p} {page} {self.one(0, 1)} + wait'] + wait + [f'free {f}']
        cached = [f'pte 0 {page} none', f'submit {e} iotlb {p} + range {p} {page} 0 + wait'] + wait + [f'free {f}']
        stop = [f'stop {e} {p}', f'await stopped {e} {p}', f'entry {e} {p} none', f'submit {e} wait drain'] + wait + [
            f'await groups {e} {p}', f'submit {e} entry {p} + iotlb {p} + pasid {p} + wait'] + wait + [
            self.one(f'free pasid {p} {e}', f'entry {e} {p} 1', 'free space 0')]
        reset = [f'entry {e} {p} none', f'close {e}', f'reset {e}', f'await reset {e}', f'open {e}', f'start {e} {p}']
        page_requests = [f'serve {e}', f'respond {e} {p} 0 {self.one(*CODES)}', f'serve {e}',
                         self.one(f'respond {e} {p} {self.one(0, 1)} success', f'respond all {e} success')]
        shared = [f'pte 0 {page} {f} r', f'submit {e} range {p} {page} 0 + wait'] + wait + [f'freeze {f}']
        tables = [f'entry {e} {p} none', f'submit {e} entry {p} + iotlb {p} + pasid {p} + wait'] + wait
        tables += ['free space 0']
        found = self.one(unmap, cached, stop, stop, reset, reset, page_requests, page_requests, shared, tables,
                         self.replaced(e, p, page, f), self.skipped(e, p, page, f), self.skipped(e, p, page, f),
                         self.drained(e, p), self.drained(e, p), self.unmapped_twice(e, p, page))
        return [x for x in found if self.chance(0.88)]

    def replaced(self, e, p, page, f):
        """A new table for the same owner, and the old one goes."""
        flushed = [f'submit {e} entry {p} + iotlb {p} + pasid {p} + wait', f'await wait {e}']
        return [f'pte 1 {page} 2 w', f'replace {e} {p} 1'] + flushed + [self.one(f'free {f}', 'free space 0')]

    def drained(self, e, p):
        """An unbinding that drains what the unit has received, ahead of its look at the queue or behind it."""
        drain = [f'submit {e} wait fence + pasid {p} + wait{self.one("", " drain", " drain")}', f'await wait {e}']
        look = [f'await queue {e} {p}', f'await groups {e}' + self.one('', f' {p}')]
        gone = self.one([], ['free domain 0'], [f'discard {e}']) + [self.one(f'free pasid {p} {e}', f'entry {e} {p} 1')]
        stop = [f'stop {e} {p}', f'await stopped {e} {p}', f'entry {e} {p} none']
        return stop + self.one(drain + look, look + drain) + gone

    def unmapped_twice(self, e, p, page):
        """Two batches, of which the later wait alone is awaited."""
        later = f'submit {e} {self.one("", "entry 1 + ")}wait'
        first = [f'pte 0 {page} none', f'submit {e} range {p} {page} 0 + wait']
        return first + [later, f'await wait {e}', f'free {self.rng.randrange(2)}']

    def skipped(self, e, p, page, f):
        """A descriptor is taken out of the queue: a wait that the unit refuses, or what stands before it."""
        what = self.one(f'range {p} {page} 0 + wait drain', f'pasid {p} + wait + wait', 'wait drain')
        waits = [f'submit {e} {what}', f'skip {e}'] + self.one([], [f'skip {e}']) + [f'await wait {e}']
        return self.one([], [f'pte 0 {page} none']) + waits + [self.one(f'free {f}', f'stop {e} {p}')]

    def thread(self):
        lines = self.recipe() if self.chance(0.6) else []
        for _ in range(self.one(0, 1, 2) if lines else self.one(1, 2, 3, 4)):
            lines.insert(self.rng.randrange(len(lines) + 1), self.host() if self.chance(0.8) else self.other())
        return lines[:8]

    def permitted(self, lines, tries, more):
        """`lines`, and of random acts those that are permitted and safe behind them (a few are left in though)."""
        lines = list(lines)
        driver = Driver('\n'.join(self.head + lines))
        world = driver.start()
        for line in driver.lines:
            world = search.taken(driver, world, line.words, line, 0)
        for _ in range(tries):
            act = more()
            if act.startswith('await wait') or not act:
                continue
            driver = Driver('\n'.join(self.head + lines + [act]))
            line = driver.lines[-1]
            if need(driver, world, line.words, line) is None:
                after = search.taken(driver, world, line.words, line, 0)
                if not search.findings(after):
                    world, lines = after, lines + [act]
                elif self.chance(0.02):         # what stands behind it is no matter
                    return lines + [act] + [self.host() for _ in range(self.one(0, 0, 0, 1, 2))]
            elif self.chance(0.001):
                return lines + [act]
            if len(lines) > 16:
                break
        return lines


def make_driver(rng):
    m = Maker(rng)
    m.head += m.devices()
    before = m.permitted(m.setup(), m.one(0, 6, 20, 30), lambda: m.other() if m.chance(0.8) else m.host())
    threads = [m.thread() for _ in range(m.one(1, 1, 1, 1, 2, 2, 3))]
    if m.chance(0.25):
        before, threads = with_branches(m, m.head, before, threads)
    threads = [mend(lines) for lines in threads]
    text = m.head + before + ['race']
    if len(threads) > 1 and m.chance(0.4):
        signal(m, *threads[:2])
    for name, lines in zip('abc', threads):
        text += [f'thread {name}'] * (len(threads) > 1 or m.chance(0.3)) + name_one(m, lines, name)
    return '\n'.join(text) + '\n'


def signal(m, first, other):
    """One thread goes on behind a mark of the other, which stands above it."""
    first.insert(m.rng.randrange(len(first) + 1), 'is_so: mark')
    other.insert(m.rng.randrange(len(other) + 1), 'await is_so')


def name_one(m, lines, name):
    """Sometimes a thread awaits a named line of its own."""
    at = [i for i, x in enumerate(lines) if ':' not in x and not is_of_block(x.split())]
    if not at or not m.chance(0.2):
        return lines
    i = m.rng.choice(at)
    k = m.rng.randrange(i, len(lines)) + 1
    return lines[:i] + [f'{name}{name}: {lines[i]}'] + lines[i + 1:k] + [f'await {name}{name}'] + lines[k:]


def make_mutant(rng):
    """An example with up to four lines left out, doubled, moved, changed or added, and other settings."""
    lines = [' '.join(words) for _, words in written.out(rng.choice(EXAMPLES).read_text(encoding='utf-8'))]
    m = Maker(rng)
    m.ends = int(lines[0].split()[1])
    settings = ('platform', 'unit', 'places', *Settings.pairs, *Settings.flags)
    head, rest = lines[:1], [x for x in lines[1:] if x.split()[0] not in settings]
    old = [x for x in lines[1:] if x not in rest]
    settings = old if m.chance(0.6) else m.settings() + [x for x in old if x.split()[0] == 'unit']
    for _ in range(m.one(0, 1, 1, 2, 3, 4)):
        rest = mutated(m, rest)
    rest = [x for x in rest if not x.startswith('await wait')] if m.chance(0.02) else rest
    return '\n'.join(head + settings + kept_valid(m, rest)) + '\n'


def mutated(m, lines):
    lines, i = list(lines), m.rng.randrange(len(lines))
    what = m.one('drop', 'drop', 'double', 'swap', 'add', 'add', 'device', 'workers', 'branch', 'branch')
    if lines[i].split()[0] in ('race', 'thread', 'device', 'workers') and what in ('drop', 'double', 'swap'):
        return lines
    if what == 'drop':
        lines.pop(i)
    elif what == 'double':
        lines.insert(m.rng.randrange(i, len(lines)) + 1, lines[i].split(': ')[-1])
    elif what == 'swap' and i + 1 < len(lines) and lines[i + 1].split()[0] not in ('race', 'thread'):
        lines[i:i + 2] = [lines[i + 1], lines[i]]
    elif what == 'add':
        lines.insert(i, m.host() if m.chance(0.75) else m.other())
    elif what == 'branch':
        k = next((k for k in range(i, len(lines)) if lines[k].split()[0] in ('race', 'thread')), len(lines))
        k = m.rng.randrange(i, k + 1)
        lines[i:k] = branched(m, lines[i:k])
    elif what in ('device', 'workers'):
        lines = [x for x in lines if not x.startswith(what)]
        lines = [x for x in m.devices() if x.startswith(what)] + lines
    return lines


def kept_valid(m, lines):
    """Without awaits of what isn't there above, and without what is of no block, as these lines are wrong; each block is
    ended. Sometimes awaits of names alone are left out."""
    found, threads, raced, names = [], {None: Blocks()}, False, set()
    heading = 'thread host'
    for x in lines:
        words = x.split()
        if words[0] == 'race':
            raced = True
            found += threads[None].ended()
        if words[0] == 'thread':
            heading = x
        name = words.pop(0)[:-1] if words[0].endswith(':') else None
        if words[0] == 'await' and words[1] not in AWAITED | names:
            continue
        if name and is_of_block(words) or not threads.setdefault(heading if raced else None, Blocks()).takes(words):
            continue
        names |= {name}
        found.append(x)
    if m.chance(0.03):
        return [x for x in lines if x.split()[0] != 'await' or x.split()[1] in AWAITED]
    for heading, blocks in threads.items():
        ends = blocks.ended()
        found += ([heading] if heading and ends else []) + ends
    return found


def act_of_groups(m):
    return m.one(
        f'fault 0 1 16 r new {m.one("more", "last")}', f'fault 0 1 16 r {m.one(0, 0, 1)} {m.one("more", "last")}',
        'deliver page-request 0' + m.one('', '', ' 1'), 'deliver page-request 0', 'write 0', 'serve 0', 'serve 0',
        f'respond 0 1 {m.one(0, 0, 1)} {m.one(*CODES)}', 'deliver response 0', 'discard 0', 'close 0', 'open 0',
        'reset 0',
        'deliver reset 0', 'deliver reset-done 0', 'start 0 1', 'deliver start 0', 'deliver response 0')


def line_of_groups(m):
    return m.one(
        'serve 0', 'serve 0', f'respond 0 1 {m.one(0, 0, 1)} success', 'await queue 0', 'await groups 0 1', 'write 0',
        'respond all 0 success', 'discard 0', 'await groups 0', 'submit 0 wait drain', 'await wait 0', 'free domain 0',
        f'fault 0 1 16 r new {m.one("more", "last")}', 'deliver response 0', 'close 0', 'open 0', 'reset 0',
        'await reset 0', 'start 0 1', 'stop 0 1', 'await stopped 0 1', 'free pasid 1 0')


def make_drained(m):
    """An unbinding that drains, in some order, and another owner; or a drain beside page requests alone."""
    is_end = m.chance(0.5)
    looks = [f'await queue 0{m.one("", " 1")}', f'await groups 0{m.one("", " 1")}']
    drain = [f'submit 0 wait{m.one(" drain", " drain", " drain", "")}', 'await wait 0']
    lines = ['stop 0 1', 'await stopped 0 1', 'entry 0 1 none'] + m.one(drain + looks, drain + looks, looks + drain)
    lines = [x for x in lines + ['free pasid 1 0'] if m.chance(0.95)] if is_end else drain + m.one([], looks)
    lines = branched(m, lines) if m.chance(0.25) else lines
    head = ['config 1 4 1', 'link posted', 'drain arrived'] + m.one([], ['waits plain'])
    head += ['device 0 1 faults pages 16'] + m.one([], ['workers success'])
    head += ['entry 0 1 0', 'start 0 1', 'deliver start 0']
    head += [] if is_end else ['fault 0 1 16 r new last', 'deliver page-request 0']
    return head + ['race'] + mend(lines)


def make_filed(m):
    """A group that was filed, whole or not, and by which it may not be served any more."""
    head = ['config 1 4 1', 'workers success', 'entry 0 1 0', 'start 0 1', 'deliver start 0']
    head += [f'fault 0 1 16 r new {m.one("more", "last")}', 'deliver page-request 0', 'serve 0']
    head += ['stop 0 1', 'deliver stop 0', 'quit 0 1', 'deliver marker 0', 'entry 0 1 none']
    looks = m.one([], ['await groups 0'], ['await groups 0 1'], ['discard 0'])
    lines = looks + m.one(['free pasid 1 0'], ['entry 0 1 1'], ['free domain 0'])
    return head + ['race'] + (branched(m, lines) if m.chance(0.25) else lines)


def make_groups(rng):
    """Page requests, early answers and resets: groups that are gone, and what is left of them."""
    m = Maker(rng)
    m.ends = 1
    if m.chance(0.3):
        return '\n'.join(m.one(make_drained, make_drained, make_filed)(m)) + '\n'
    m.head = ['config 1 4 1'] + [x for x in m.settings() if 'caches' not in x]
    m.head += [f'device 0 {m.one(0, 1, 1, 2)} faults' + m.one('', '', '', ' silent', ' awaits') + ' pages 16']
    m.head += [f'workers {m.one(*CODES)}'] if m.chance(0.3) else []
    before = m.permitted(['start 0 1', 'deliver start 0'], m.one(0, 10, 25, 40), lambda: act_of_groups(m))
    text = m.head + before + ['race']
    for name in 'ab'[:m.one(1, 1, 2)]:
        lines = [line_of_groups(m) for _ in range(m.one(1, 2, 3, 4, 5))]
        text += [f'thread {name}'] + mend(branched(m, lines) if m.chance(0.25) else lines)
    return '\n'.join(text) + '\n'


def make_apart(rng):
    """One thread that goes through two endpoints, or leaves one out; of which one may hold a translation, or ask."""
    m = Maker(rng)
    m.ends = 2
    text = ['config 2 4 1'] + m.settings()
    text += [f'device {e} 1 asks{m.one("", " evicts")} pages 16' for e in m.one((), (0,), (1,), (0, 1))]
    text += ['pte 0 16 0 w'] + [x for e in (0, 1) for x in (f'entry {e} 1 0', f'start {e} 1', f'deliver start {e}')]
    text += [f'{act} {e}{page}' for e in m.one((), (0,), (1,), (0, 1))
             for act, page in (('ask', ' 1 16'), ('deliver request', ''), ('deliver completion', ''))]
    early = m.one([], [], ['early: submit 1 wait'])
    lines = ['pte 0 16 none']
    for e in m.one((0, 1), (1, 0), (0, 1), (0,), (1,)):
        lines += [f'submit {e} range 1 16 0 + wait'] + [f'await wait {e}'] * m.chance(0.8)
    lines += ['await early'] * len(early) + ['free 0']
    lines = m.one(lines, lines, ['lock a'] + lines + ['unlock a'], ['if f', 'mark', 'end'] + lines)
    lines = [x for x in lines if x in ('if f', 'end') or m.chance(0.95)]
    other = ['thread b', 'mark'] * m.chance(0.15)
    return '\n'.join(text + early + ['race'] + mend(lines) + other) + '\n'


def make_any(rng):
    made = rng.choice((make_mutant, make_mutant, make_driver, make_driver, make_groups, make_looks, make_looks,
                       make_controls, make_apart, make_timeouts, make_units, make_barriers, make_overflows, make_loose,
                       make_loose))
    with_maker = make_looks, make_controls, make_timeouts, make_units, make_barriers, make_overflows, make_loose
    text = made(Maker(rng) if made in with_maker else rng)
    text = loosened(Maker(rng), text) if rng.random() < 0.2 else text
    text = some_below_one(Maker(rng), text) if rng.random() < 0.7 else text
    return folded(Maker(rng), text) if rng.random() < 0.12 else text


def small(theme):
    """What makes small drivers in which something is turned on and off."""
    return lambda rng: make_controls(Maker(rng), theme)


def timed(theme):
    """What makes small drivers in which an invalidation may run out of time."""
    return lambda rng: make_timeouts(Maker(rng), theme)


def drained(theme):
    """What makes small drivers in which an endpoint drains a PASID."""
    return lambda rng: make_barriers(Maker(rng), theme)


def filled(theme):
    """What makes small drivers in which a page request queue may overflow."""
    return lambda rng: make_overflows(Maker(rng), theme)


def unordered(theme):
    """What makes small drivers in which a unit takes descriptors out of order."""
    return lambda rng: make_loose(Maker(rng), theme)


def together(theme):
    """What makes small drivers in which endpoints stand below one unit."""
    return lambda rng: make_units(Maker(rng), theme)


def make_written(rng):
    """Small drivers with definitions and repeats."""
    m = Maker(rng)
    return folded(m, make_controls(m))


class Lister:
    """A long list of acts that are permitted and safe, and last one that needn't be."""

    def __init__(self, rng):
        self.m = Maker(rng)
        self.m.head += [x for x in self.m.devices() if x.startswith('device')]
        self.driver = Driver('\n'.join(self.m.head))
        for device in self.driver.devices.values():
            device.budget, device.pages, device.pasids = (9, 9, 9), [16, 17, 18], [1, 2]
            device.evicts = True
        self.world, self.lines = self.driver.start(), []

    def try_act(self, text, last=False):
        self.driver.read(0, text.split())
        line = self.driver.lines.pop()
        line.serial = len(self.lines)
        if last:
            self.lines.append(text)
        elif need(self.driver, self.world, line.words, line) is None:
            after = search.taken(self.driver, self.world, line.words, line)
            if not search.findings(after):
                self.world = after
                self.lines.append(text)

    def act(self):
        """Rather what the others may do now than any act."""
        m, w = self.m, self.world
        if m.chance(0.55):
            acts = list(search.duties(self.driver, w)) + [a for a, _ in search.liberties(self.driver, w)]
            return ' '.join(str(x) for x in m.rng.choice(acts))
        filed = [(e, g) for e, port in enumerate(w.ports) for g in port.filed]
        if filed and m.chance(0.2):
            e, (p, i, *_) = m.rng.choice(filed)
            return f'respond {e} {p} {i} {m.one(*CODES)}'
        text = m.host() if m.chance(0.7) else m.other()
        is_late = text.startswith(('free space', 'free pasid', 'free domain', 'close'))
        return text if not is_late or m.chance(0.4) else m.other()


def make_long_list(rng):
    x = Lister(rng)
    for text in x.m.setup():
        x.try_act(text)
    for _ in range(x.m.one(30, 60, 120, 200)):
        x.try_act(x.act())
    for _ in range(4):
        x.try_act(x.act(), last=True)
    lines = x.lines
    for _ in range(x.m.one(0, 0, 1, 2, 3)):
        lines = taken_in_block(x.m, x.m.head, lines)
    if x.m.chance(0.3):
        at = rng.randrange(len(lines) + 1)
        lines = kept_valid(x.m, lines[:at] + ['race'] + x.m.one([], ['thread a']) + lines[at:])
    return '\n'.join(x.m.head + lines) + '\n'
