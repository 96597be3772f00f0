"""Reads a driver, and says what each act needs and does (docs/FORMAT.md, section 15)."""
import barriers
import branches
import controls
import loose
import overflows
import timeouts
import world as w
import written
from world import Port, Settings, World

# by scripts/words --write: kind/d
KINDS = """start stop reset completion invalidate response request invalidated page-request marker status
    barrier passed reset-done""".split()
# by scripts/words --write: place.CODE
CODES = """success invalid failure""".split()
NEEDS = {
    'submit': 'submit needs an open unit with room for all descriptors', 'close': 'close needs an open unit',
    'open': 'open needs a closed unit', 'skip': 'skip needs a descriptor in the queue',
    'await wait': 'await needs the wait done',
    'await stopped': 'await needs an answer to the stop', 'await reset': 'await needs each reset done',
    'await passed': 'await needs each barrier passed',
    'pass': 'pass needs a barrier that has come, and nothing older of its PASID to end',
    'await queue': 'await needs an empty page request queue',
    'await queue P': 'await needs no page request of the PASID in the queue',
    'await groups': 'await needs each whole group answered',
    'expire': 'expire needs timeouts, an open unit that can take no more, and that ITag out with no completion coming',
    'write': 'write needs a page request that the unit has received',
    'serve': 'serve needs a page request in the queue', 'lock': 'lock needs a free lock',
    'unlock': 'unlock needs a taken lock',
    'deliver': 'deliver needs such a message in flight, behind none that it may not overtake',
    'pump': 'pump without a place needs order queue, an open unit, and a descriptor at the head that may go',
    'pump N': 'pump with a place needs order loose, an open unit, and a descriptor there that none before it bars',
    'forget': 'forget needs the entry kept by the unit',
    'forget PAGE': 'forget needs the translation kept by the unit',
    'ask': 'ask needs the PASID, ATS and bus mastering on at the endpoint',
    'use': 'use needs the PASID, ATS and bus mastering on at the endpoint, and a held translation of the page',
    'evict': 'evict needs a held translation of the page', 'end': 'end needs a use that runs',
    'finish': 'finish needs an invalidation that has come, with no older use of what it covers',
    'quit': 'quit needs a stop that has come, and no group, request or use of the PASID to end',
    'fault new': 'fault needs the PASID and page requests on at the endpoint, and no Response Failure since',
    'fault G': 'fault needs that group of the PASID unfinished, and no Response Failure since page requests came on',
    'gone': 'gone needs an endpoint that is there',
    'await gone': 'await needs the endpoint gone, and nothing of it on its way up',
    'await idle': 'await needs no translation request out and no use that runs'}


OF_ENDPOINTS = ('stopped', 'passed', 'queue', 'groups', 'reset', 'idle', 'gone')
WAIT_ABOVE = 'an endpoint at which a line above in this thread submits a wait'
ON_EACH_WAY = 'an endpoint whose last wait above in this thread is submitted on each way to here'


class Line:
    """An act of the file: its number, its name, its words, its thread and its place there; with which line the thread
    goes on behind it, or the other one behind an `if`; and the branches in which it stands."""

    def __init__(self, number, name, words, thread, serial):
        self.number, self.name, self.words, self.thread = number, name, words, thread
        self.serial, self.index, self.awaited = serial, 0, None
        self.next, self.other, self.under = None, None, ()
        self.looks = words                      # of an `if`, what it looks at; `failed` says in the file not where


class Device:
    def __init__(self):
        self.budget, self.pages = (0, 0, 0), None
        self.evicts = self.silent = self.lies = self.awaits = self.leaves = False


class Driver:
    """A file: settings, devices, workers, the lines before `race`, and threads behind it."""

    def __init__(self, text):
        self.settings, self.devices, self.workers = Settings(), {}, None
        self.threads, self.heading, self.raced, self.lines, self.items = [''], None, False, [], {'': []}
        for number, words in written.out(text):
            self.read(number, words)
        self.by_thread = [[] for _ in self.threads]
        for line in self.lines:
            thread = self.by_thread[self.threads.index(line.thread)]
            line.index = len(thread)
            thread.append(line)
        self.wrong = []                         # (number of a line, word, what was wanted)
        trees = [branches.tree(self.items[name], self.wrong) for name in self.threads]
        self.first = [branches.link(nodes) for nodes in trees]
        for line in self.lines:
            self.find_awaited(line)
        for nodes in trees:
            timeouts.find_failed(nodes, self.wrong)
        self.named = {line.awaited[0] for line in self.lines if line.awaited}
        self.branches = any(line.words[0] == 'if' for line in self.lines)
        self.find_pages()

    def read(self, number, words):
        first = words[0]
        if first == 'config':
            self.ports, self.frames = int(words[1]), int(words[2])
            self.devices = {e: Device() for e in range(self.ports)}
            self.units = list(range(self.ports))    # the lowest endpoint below the unit of each
        elif first == 'platform':
            set_platform(self.settings, words[1])
        elif first in Settings.pairs:
            setattr(self.settings, first, words[1])
        elif first in Settings.flags:
            self.settings.said |= {first}
        elif first == 'places':
            self.settings.places = int(words[1])
        elif first == 'unit':
            self.share([int(x) for x in words[1:]])
        elif first == 'race':
            self.raced = True
        elif first == 'workers':
            self.workers = words[1:]
        elif first == 'device':
            self.read_device(self.devices[int(words[1])], words[2:])
        elif first == 'thread':
            self.heading = words[1]
        elif branches.is_of_block(words):
            self.items[self.thread_of(['if'])].append((number, first))
        else:
            name = words.pop(0)[:-1] if first.endswith(':') else None
            line = Line(number, name, numbers(words), self.thread_of(words), len(self.lines))
            self.lines.append(line)
            self.items[line.thread].append(line)

    def share(self, endpoints):
        for e in endpoints:
            self.units[e] = min(endpoints)

    def shares_units(self):
        return self.units != list(range(self.ports))

    def are_below_one(self, e, other):
        return self.units[e] == self.units[other]

    def read_device(self, device, words):
        while words:
            if words[0] == 'pages':
                device.pages = [int(x, 0) for x in words[1:]]
                return
            if words[0].isdigit():
                which = ('ask', 'use', 'fault').index(words[1].rstrip('s'))
                budget = list(device.budget)
                budget[which] = int(words[0])
                device.budget, words = tuple(budget), words[2:]
            else:
                setattr(device, words[0], True)
                words = words[1:]

    def thread_of(self, words):
        """Before the first heading a line is of the thread of its role; the lines before `race` are one thread."""
        name = '' if not self.raced else self.heading or role(words)
        if name not in self.threads:
            self.threads.append(name)
            self.items[name] = []
        return name

    def find_awaited(self, line):
        """Of `await wait E` the last line above in this thread that submitted a wait to E's unit; of a name its line."""
        if line.words[0] != 'await' or line.words[1] in OF_ENDPOINTS:
            return
        if line.words[1] == 'wait':
            above = [x for x in self.by_thread[self.threads.index(line.thread)][:line.index]
                     if x.words[0] == 'submit' and self.are_below_one(x.words[1], line.words[2]) and waits_of(x)]
            if above and branches.stands_in(line, above[-1]):
                line.awaited = (above[-1], waits_of(above[-1]))
            else:
                self.wrong.append((line.number, line.words[2], ON_EACH_WAY if above else WAIT_ABOVE))
        else:
            named = next(x for x in self.lines if x.name == line.words[1])
            line.awaited = (named, waits_of(named))

    def place(self, thread, line):
        """Where a line stands in its thread; None stands behind all."""
        return line.index if line else len(self.by_thread[thread])

    def find_pages(self):
        """Its `pages`, or those of the `pte` lines that lead to a frame; under the PASIDs that lines start at it."""
        mapped = sorted({x.words[2] for x in self.lines if x.words[0] == 'pte' and x.words[3] != 'none'})
        for e, device in self.devices.items():
            device.pages = mapped if device.pages is None else sorted(set(device.pages))
            device.pasids = sorted({x.words[2] for x in self.lines if x.words[:2] == ['start', e]})

    def start(self):
        new = World()
        new.ports, new.units = [Port(self.devices[e].budget, e) for e in range(self.ports)], tuple(self.units)
        w.share(new.ports, new.units)
        new.settings, new.pte = self.settings, {}
        new.pos = tuple(self.place(t, line) for t, line in enumerate(self.first))
        new.flags, new.gone = frozenset(), frozenset()
        new.freed_spaces, new.locks, new.undone = (), frozenset(), frozenset()
        new.freed_domains, new.has_workers = (), self.workers is not None
        return new


def set_platform(settings, name):
    """Each setting but `stopped`, which is the device's."""
    for pair, word in zip(('link', 'waits', 'drain', 'caches', 'order'), Settings.platforms[name]):
        setattr(settings, pair, word)


def numbers(words):
    return [int(x, 0) if x[0].isdigit() else x for x in words]


def role(words):
    if words[0] == 'deliver':
        return 'link'
    if words[0] in ('pump', 'write', 'forget', 'expire'):
        return f'unit {words[1]}'
    if words[0] in ('ask', 'use', 'evict', 'end', 'finish', 'pass', 'quit', 'fault', 'gone'):
        return f'endpoint {words[1]}'
    return 'host'


def descriptors(line):
    """The descriptors of a `submit` line: (kind, PASID, scope, endpoint), ('entry', P, endpoint) or ('wait', drain,
    fence, its name). The endpoint of what the unit keeps is None, where none is named."""
    found, words = [], ' '.join(str(x) for x in line.words[2:]).split(' + ')
    for n, text in enumerate(words):
        d, named = of_other(numbers(text.split()))
        if d[0] == 'wait':
            found.append(('wait', 'drain' in d, 'fence' in d, (line.serial, n)))
        elif d[0] == 'entry':
            found.append(('entry', d[1], named))
        else:
            named = line.words[1] if named is None and d[0] != 'iotlb' else named
            found.append((d[0], d[1], tuple(d[2:4]) if len(d) > 2 else None, named))
    return found


def of_other(words):
    """The words of a descriptor before `of F`, and F, or None."""
    return (words[:-2], words[-1]) if len(words) > 2 and words[-2] == 'of' else (words, None)


def waits_of(line):
    return [d[3] for d in descriptors(line) if d[0] == 'wait'] if line.words[0] == 'submit' else []


# ---------------------------------------------------------------------------------------------- acts

def optional(words, at, missing=0):
    return words[at] if len(words) > at else missing


def may_deliver(driver, port, device, words, line):
    i = w.place(port, words[1], optional(words, 3))
    return i is not None and w.may_deliver(port, i, driver.settings)


def may_forget(driver, port, device, words, line):
    return tuple(words[2:4]) in port.kept if len(words) > 3 else words[2] in port.kept_entry


def may_pump(driver, port, device, words, line):
    return loose.may_take(port, driver.settings, words[2]) if len(words) > 2 else w.may_pump(port, driver.settings)


# What an act needs, by FORMAT's table of what is told; an act that isn't here needs nothing. Of a line that submits no
# wait nothing is told.
MAY = {
    'deliver': may_deliver, 'forget': may_forget,
    'submit': lambda d, port, device, x, line: not port.closed and len(port.queue) + len(descriptors(line)) <= w.PLACES,
    'close': lambda d, port, device, x, line: not port.closed,
    'open': lambda d, port, device, x, line: port.closed,
    'skip': lambda d, port, device, x, line: bool(loose.unsent(port.queue)),
    'write': lambda d, port, device, x, line: bool(port.received) and len(port.received[0]) > 1,
    'serve': lambda d, port, device, x, line: bool(port.prq),
    'expire': lambda d, port, device, x, line: timeouts.may_expire(port, x[2], d.settings, bool(line) or device.silent),
    'pump': may_pump,
    'ask': lambda d, port, device, x, line: w.may_access(port, x[2]),
    'use': lambda d, port, device, x, line: w.may_access(port, x[2]) and (x[2], x[3]) in port.held,
    'evict': lambda d, port, device, x, line: (x[2], x[3]) in port.held,
    'end': lambda d, port, device, x, line: optional(x, 2) < len(port.uses),
    'finish': lambda d, port, device, x, line: w.may_finish(port, optional(x, 2), device.lies),
    'quit': lambda d, port, device, x, line: w.may_quit(port, x[2], device.awaits),
    'pass': lambda d, port, device, x, line: barriers.may_pass(port, optional(x, 2), device.awaits),
    'fault': lambda d, port, device, x, line: w.may_fault(port, x[2], x[5]),
    'gone': lambda d, port, device, x, line: not port.gone}


def need(driver, world, words, line=None):
    """What the act lacks, by the key of NEEDS; None where it is permitted now."""
    verb = words[0]
    if verb == 'await':
        return need_of_await(driver, world, words, line)
    if verb in ('lock', 'unlock'):
        return verb if (words[1] in world.locks) == (verb == 'lock') else None
    if verb not in MAY or verb == 'respond':
        return None
    e = words[2] if verb == 'deliver' else words[1]
    if MAY[verb](driver, world.ports[e], driver.devices[e], words, line):
        return None
    if verb == 'fault':
        return 'fault new' if words[5] == 'new' else 'fault G'
    if verb == 'pump' and len(words) > 2:
        return 'pump N'
    return 'forget PAGE' if verb == 'forget' and len(words) > 3 else verb


def need_of_await(driver, world, words, line):
    what = words[1]
    if line.awaited:
        named, waits = line.awaited
        if named in world.gone and not world.undone.intersection(waits):
            return None
        return 'await wait' if waits else 'await mark'
    port = world.ports[words[2]]
    if what == 'stopped':
        ok = words[3] in port.answers
    elif what == 'queue' and len(words) > 3:
        ok, what = not any(r[0] == words[3] for r in port.prq), 'queue P'
    elif what == 'queue':
        ok = not port.prq
    elif what == 'groups' and len(words) > 3:
        ok = not any(g[3] and w.is_meant(g, words[3]) for g in port.filed)
    elif what == 'groups':
        ok = not any(g[3] for other in w.below(world, port) for g in other.filed)
    elif what == 'passed':
        ok = barriers.all_passed(port, words[3], line.thread)
    elif what == 'idle':
        ok = controls.is_idle(port)
    elif what == 'gone':
        ok = controls.is_seen_gone(port)
    else:
        ok = port.resets == 0
    return None if ok else 'await ' + what


def do(driver, world, words, line=None):
    """Does a permitted act in place."""
    verb = words[0]
    if verb in ('mark', 'if'):
        return
    if verb == 'pte':
        where = words[1], words[2]
        world.pte = w.without(world.pte, where)
        if words[3] != 'none':
            world.pte = w.put(world.pte, where, (words[3], words[4] == 'w', False, False))
    elif verb == 'lock' or verb == 'unlock':
        world.locks = world.locks ^ {words[1]}
    elif verb in ('set', 'clear'):
        world.flags = world.flags - {words[1]} | ({words[1]} if verb == 'set' else set())
    elif verb == 'free' and words[1] == 'pasid':
        w.disown(world.ports[words[3]], words[2])
    elif verb == 'free' and words[1] == 'space':
        world.freed_spaces += words[2],
    elif verb == 'free' and words[1] == 'domain':
        world.freed_domains += words[2],
    elif verb == 'free' or verb == 'freeze':
        w.mark(world, words[1], 2 if verb == 'free' else 3)
    elif verb == 'await':
        if words[1] == 'stopped':
            world.ports[words[2]].answers -= {words[3]}
    elif verb == 'deliver':
        port = world.ports[words[2]]
        w.deliver(world, port, w.place(port, words[1], optional(words, 3)), driver.settings)
    elif verb == 'respond' and words[1] == 'all':
        w.respond_all(world.ports[words[2]], words[3] if len(words) > 4 else None, words[-1] == 'failure')
    else:
        do_at(driver, world, world.ports[words[1]], words, line)


def do_at(driver, world, port, words, line):
    verb, p = words[0], words[2] if len(words) > 2 else None
    if verb == 'entry':
        w.set_entry(port, p, None if words[3] == 'none' else words[3])
    elif verb == 'replace':
        w.replace(port, p, words[3])
    elif verb in ('start', 'stop', 'reset'):
        port.link += (verb, p),
        port.resets += verb == 'reset'
        port.answers -= {p} if verb == 'stop' else set()
    elif verb == 'submit':
        port.queue += tuple(descriptors(line))
        world.undone = world.undone | set(waits_of(line))
    elif verb == 'close':
        w.close(world, port)
    elif verb == 'open':
        w.reopen(world, port)
    elif verb == 'serve':
        w.serve(world, port)
    elif verb == 'write':
        w.write(world, port, driver.settings)
    elif verb == 'discard':
        w.discard(port, p)
    elif verb == 'respond':
        w.respond(port, p, words[3], words[4] == 'failure')
    elif verb == 'pump' and len(words) > 2:
        loose.take(world, port, driver.settings, p)
    elif verb == 'pump':
        w.pump(world, port, driver.settings)
    elif verb == 'skip':
        w.skip(world, port)
    elif verb == 'forget':
        if len(words) > 3:
            port.kept = w.without(port.kept, (p, words[3]))
        else:
            port.kept_entry = w.without(port.kept_entry, p)
    elif verb == 'ask' or verb == 'use':
        getattr(w, verb)(port, p, words[3])
    elif verb == 'evict':
        port.held = w.without(port.held, (p, words[3]))
    elif verb == 'end' or verb == 'finish':
        getattr(w, verb)(port, p or 0)
    elif verb == 'quit':
        w.quit(port, p, driver.settings)
    elif verb == 'barrier':
        port.link += (verb, p, barriers.name_of(line)),
    elif verb == 'pass':
        barriers.do_pass(port, p or 0, driver.settings)
    elif verb == 'fault':
        w.fault(world, port, p, words[5], words[6] == 'last')
    elif verb in ('ats', 'pri', 'mastering'):
        controls.turn(port, verb, p == 'on')
    elif verb == 'gone':
        controls.leave(port)
    elif verb == 'expire':
        timeouts.expire(world, port, p, driver.settings)
    elif verb == 'resume':
        timeouts.resume(port)
        overflows.clear(port)
