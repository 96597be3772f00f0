"""Branches in drivers by chance: lines that stand in blocks, flags that another thread sets, and what is looked at."""

import branches
import search
from reading import CODES, Driver

FLAGS = ('x', 'x', 'x', 'y-2')


class Blocks:
    """The blocks of a thread that are open, and in which of them each endpoint's last wait above was submitted."""

    def __init__(self):
        self.open, self.begun, self.waits = [], 0, {}

    def takes(self, words):
        """May a line stand here? Then it does."""
        if branches.is_of_block(words):
            if not self.open or words == ['else'] and not self.open[-1][1]:
                return False
            begun, _ = self.open.pop()
            self.open += [(begun, False)] if words == ['else'] else []
        elif words[:2] == ['await', 'wait']:
            return set(self.waits.get(words[2], [None])) <= set(self.open)
        elif words[0] == 'if':
            self.begun += 1
            self.open.append((self.begun, True))
        elif words[0] == 'submit' and 'wait' in words:
            self.waits[words[1]] = tuple(self.open)
        return True

    def ended(self):
        found, self.open = ['end'] * len(self.open), []
        return found


def mend(lines):
    """Leaves out what may not stand in a thread, and ends each block."""
    blocks = Blocks()
    return [x for x in lines if blocks.takes(x.split(': ')[-1].split())] + blocks.ended()


def look(m):
    """A line that looks at something."""
    e, p = m.e(), m.p()
    of = m.one('', f' {p}')
    return 'if ' + m.one('', 'not ') + m.one(m.one(*FLAGS), m.one(*FLAGS), f'present {e} {p}', f'present {e} {p}',
                                             f'stopped {e} {p}', f'filed {e}{of}', f'filed {e}{of}', f'queued {e}{of}',
                                             f'overflow {e}')


def flag(m):
    return m.one('set', 'set', 'clear') + ' ' + m.one(*FLAGS)


def some(m, most):
    return [m.one(m.host(), m.host(), flag(m)) for _ in range(m.rng.randrange(most + 1))]


def branched(m, lines, depth=0):
    """Lines of which some stand in a block, or in blocks."""
    i = m.rng.randrange(len(lines) + 1)
    k = m.rng.randrange(i, len(lines) + 1)
    inside, behind = lines[i:k], lines[k:]
    if depth < 2 and m.chance(0.4):
        inside = branched(m, inside, depth + 1)
    if depth < 2 and m.chance(0.25):
        behind = branched(m, behind, depth + 1)
    other = m.one([], ['else'] + some(m, 2), ['else'] + some(m, 1))
    block = ['else'] + inside if m.chance(0.2) else inside + other
    return lines[:i] + [look(m)] + block + ['end'] + behind


def with_branches(m, head, before, threads):
    """Blocks in threads, and in what stands before `race`; and flags that are set and cleared in any of them."""
    before = taken_in_block(m, head, before) if m.chance(0.3) else before
    before = before + m.one([], [], [flag(m)])
    found = []
    for lines in threads:
        lines = list(lines)
        for _ in range(m.one(0, 0, 1)):
            lines.insert(m.rng.randrange(len(lines) + 1), flag(m))
        found.append(branched(m, lines) if m.chance(0.75) else lines)
    return before, found


def taken_in_block(m, head, lines):
    """The same acts, of which some stand in a branch that is gone."""
    depth, outside = 0, [0]
    for n, x in enumerate(lines, 1):
        depth += x.startswith('if ') - (x == 'end')
        outside += [n] * (depth == 0)
    i, k = sorted((m.rng.choice(outside), m.rng.choice(outside)))
    line = look(m)
    moment, _, ended = search.before_race(Driver('\n'.join(head + lines[:i])))
    if ended:
        return lines
    if branches.finds(moment, Driver('\n'.join(head + [line, 'end'])).lines[0].looks):
        other = m.one([], ['else'] + some(m, 2))
        return lines[:i] + [line] + lines[i:k] + other + ['end'] + lines[k:]
    return lines[:i] + [line] + some(m, 2) + ['else'] + lines[i:k] + ['end'] + lines[k:]


# ---- looks that tell by themselves which way was gone

def make_looks(m):
    """A thread that looks, up to three endpoints at which there is something to see, and other threads that change it."""
    m.ends = m.one(1, 2, 2, 3)
    stopped, is_received = m.one('known', 'marker', 'status'), m.chance(0.3)
    settings = [f'stopped {stopped}'] + ['drain arrived'] * is_received + m.one([], ['link posted'])
    settings += ['caches on'] if m.chance(0.3) else []
    settings += ['workers ' + m.one(*CODES)] if m.chance(0.1) else []
    before, there = [], []
    for e, p in [(e, p) for e in range(m.ends) for p in (1, 2)[:m.one(1, 2)]]:
        before += to_see(m, e, p, stopped, is_received, there)
    if m.chance(0.6):
        before += m.one(['set x'], ['set x'], ['set x', 'clear x'], ['set y-2'])
        there += ['x'] * len(there)
    threads = [ways(m, there, 0)] + [[change(m) for _ in range(m.one(1, 1, 2, 3))] for _ in range(m.one(0, 1, 1, 2))]
    threads = [mend(branched(m, lines) if m.chance(0.15) else lines) for lines in threads]
    if m.chance(0.08):
        threads[0] = unmended(m, threads[0])
    elif m.chance(0.3):
        await_one(m, threads)
    found = [f'config {m.ends} 4 1'] + settings + before + ['race']
    for name, lines in zip(m.one('abc', 'cab'), threads):
        found += [f'thread {name}'] + lines
    return '\n'.join(found) + '\n'


def unmended(m, lines):
    """With a part of a block too many, or one that lacks; or a wait that a branch may have submitted."""
    lines = m.one(lines, ['submit 0 wait'] + lines)
    at = [i for i, x in enumerate(lines) if branches.is_of_block(x.split())]
    i, k = sorted((m.rng.randrange(len(lines) + 1), m.rng.randrange(len(lines) + 1)))
    if m.chance(0.5):
        return lines[:i] + m.one(['submit 0 wait'], []) + lines[i:k] + ['await wait 0'] + lines[k:]
    if at and m.chance(0.5):
        i = m.rng.choice(at)
        return lines[:i] + lines[i + 1:]
    return lines[:i] + [m.one('else', 'end')] + lines[i:]


def await_one(m, threads):
    """A line of the first thread is awaited, below it or in another thread."""
    lines = threads[0]
    i = m.rng.choice([i for i, x in enumerate(lines) if not branches.is_of_block(x.split())])
    other = m.rng.randrange(len(threads))
    k = m.rng.randrange(0 if other else i + 1, len(threads[other]) + 1)
    threads[other][k:k] = ['await its', 'respond 0 1 4 success']
    lines[i] = 'its: ' + lines[i]


def to_see(m, e, p, stopped, is_received, there):
    """What there is of a PASID: an entry, kept or not, an answer to a stop, a page request that waits, a group that is
    filed. Each of these acts is permitted. What there is to be looked at is added to `there`."""
    found = m.one([], [f'entry {e} {p} 0'], [f'entry {e} {p} 0'])
    there += [f'present {e} {p}']
    if m.chance(0.25):
        return found
    found += [f'start {e} {p}', f'deliver start {e}']
    what = m.one('nothing', 'stop', 'stop', 'page request', 'page request', 'page request', 'ask')
    there += {'stop': [f'stopped {e} {p}'] * 2, 'ask': [f'present {e} {p}'] * 2}.get(what, [])
    if what == 'ask':
        found += [f'entry {e} {p} 0', f'ask {e} {p} 16', f'deliver request {e}', f'entry {e} {p} none'][:m.one(3, 4, 4)]
    if what == 'page request':
        there += [f'{it} {e}{of}' for it in ('filed', 'queued') for of in ('', f' {p}', f' {3 - p}')]
    if what == 'stop':
        found += [f'stop {e} {p}', f'deliver stop {e}', f'quit {e} {p}']
        found += [f'deliver {stopped} {e}'] if stopped != 'known' else []
    if what == 'page request':
        found += [f'fault {e} {p} 16 r new {m.one("more", "last", "last")}', f'deliver page-request {e}']
        more = ([f'write {e}'] if is_received else []) + [f'serve {e}']
        found += more[:m.rng.randrange(len(more) + 1)]
    return found


def ways(m, there, depth):
    """A look, mostly at what there is, and of which each way mostly ends in a response for no group, by its number."""
    def way():
        if depth < 2 and m.chance(0.25):
            return ways(m, there, depth + 1)
        told = f'respond {m.e()} 1 {m.rng.randrange(5, 500)} success'
        return m.one([], [told], [told], [told], [change(m), told], [change(m)])
    line = f'if {m.one("", "", "not ")}{m.rng.choice(there)}' if m.chance(0.6) else look(m)
    inside = [line] + way() + ['end'] if m.chance(0.15) else []
    if line.startswith('if stopped') and m.chance(0.4):
        inside = [line.replace('if', 'await')]
    return [line] + inside + way() + m.one([], ['else'] + way(), ['else'] + way()) + ['end'] + m.one([], [], way())


def change(m):
    e, p = m.e(), m.p()
    return m.one(
        flag(m), 'set x', 'clear x', 'clear x', f'entry {e} {p} none', f'entry {e} {p} 0', f'serve {e}', f'respond all {e} success', f'discard {e}',
        f'respond {e} {p} 0 success', f'stop {e} {p}', f'await stopped {e} {p}', f'close {e}', f'write {e}',
        f'await queue {e}', f'await groups {e}', f'deliver page-request {e}', 'mark')
