"""What the host, its units, the endpoints and the link keep.

Written from docs/MODEL.md and docs/FORMAT.md alone, as an independent reading of them; sections are of MODEL where
nothing else is said. Values in the tables are immutable, so that a world is copied table by table.
"""

MOST_SPACES, MOST_PAGES, PAGE_END = 64, 1024, 1 << 36
MOST_PASID, ITAGS, TAGS, SLOTS, INDEXES = 32, 32, 32, 16, 32
PLACES, CREDITS, MOST_HELD = 64, 32, 64

LIVE, STOPPING, DRAINING, INVALIDATING, QUIET, LOST = (
    "live", "stopping", "draining", "invalidating", "quiet", "lost")

REFUSALS = """BadConfig NoSuchEndpoint NoSuchSpace TooManySpaces PageRange Mapped NotMapped NoFrame SpaceFull
    AlreadyBound NoPasid StillBound NoSuchBinding NotLive NotYet QueueFull Resetting NotStarted NoTag NotHeld ReadOnly
    NoUseSlot NoSuchUse NoCredit NoSuchGroup PriDisabled NotPending InUse BadCount NotStopping Busy NoSuchMessage
    Overtakes NoSuchWorker HandsFull NoJob BadVerdict NumbersSpent OutOfMemory BadOrder NotAligned NothingMapped
    BadPasid""".split()


def refused(number):
    """The answer to a refused step (FORMAT 6)."""
    return "refused %d %s" % (number, REFUSALS[number - 1])


def lowest(taken, end, begin=0):
    """The lowest free label (section 4); None where all are borne."""
    return next((label for label in range(begin, end) if label not in taken), None)


class Table:
    """A record of named fields; its dicts are copied with it, everything else is immutable."""
    dicts = ()

    def copy(self):
        twin = object.__new__(type(self))
        twin.__dict__.update(self.__dict__)
        for name in self.dicts:
            twin.__dict__[name] = self.__dict__[name].copy()
        return twin

    def key(self):
        """All that is kept, as a value that can be compared and hashed."""
        return tuple([frozenset(value.items()) if isinstance(value, dict) else value
                      for value in self.__dict__.values()])


class Unit(Table):
    """A remapping unit: its invalidation queue, its ITags and its page request queue (sections 7, 9, 10)."""
    dicts = ("itags",)

    def __init__(self):
        self.is_open = True
        self.queue = ()     # ("range", pasid, page, order), ("pasid", pasid) or ("wait", cookie, is_drain)
        self.itags = {}     # ITag -> (completions that it takes, None before the first one; those that came)
        self.requests = ()  # the page request queue: (pasid, index, page, r, w, last), oldest first
        self.front = 0      # waits with a cookie below it are done
        self.submitted = 0  # one more than the greatest cookie of a wait that was submitted here


class Endpoint(Table):
    """What an endpoint keeps (sections 8, 9 and 11)."""
    dicts = ("pasids", "held", "tags", "uses", "taken", "groups")

    def __init__(self):
        self.pasids = {}    # PASID -> "on" or "stopping"; the others are off
        self.held = {}      # (pasid, page) -> (frame, may be written)
        self.tags = {}      # request tag -> (pasid, page, is doomed)
        self.uses = {}      # use slot -> (pasid, page, frame, may be written), or None for a dead use
        self.taken = {}     # ITag -> (pasid, range or None for all pages, the uses that it noted)
        self.groups = {}    # index -> (pasid, "unfinished" or "awaiting" or "stale", page requests)
        self.is_disabled = False

    def state_of(self, pasid):
        return self.pasids.get(pasid, "off")

    def outstanding(self):
        """The page requests that count against the allocation (3.16)."""
        return sum(count for _, _, count in self.groups.values())


def items(table):
    return frozenset(table.items())


class World:
    """One host with its endpoints, units, workers and link."""

    def __init__(self, endpoints, frames, workers):
        self.frames, self.workers = frames, workers
        self.units = [Unit() for _ in range(endpoints)]
        self.endpoints = [Endpoint() for _ in range(endpoints)]
        self.spaces = {}    # S -> {page: (frame, may be written)}
        self.bindings = {}  # B -> (endpoint, space, pasid, stage, marker is noted, cookie of its wait)
        self.free = frozenset(range(frames))
        self.withheld = {}  # frame -> the set of (endpoint, cookie or "reset") that it waits for
        self.parts = {}     # (E, B, index) -> the filed requests (page, r, w) of a group that goes on
        self.opened = ()    # the open groups, those of each unit in the order of their first filing
        self.jobs = ()      # queued jobs, oldest first: (E, B, index, requests)
        self.hands = [None] * workers
        self.messages = {}  # number -> (endpoint, kind, fields); a dict keeps the order of sending
        self.next = {"space": 0, "binding": 0, "cookie": 0, "message": 0}
        self.sent = ()      # the numbers of the messages that the last step sent

    def copy(self):
        twin = object.__new__(type(self))
        twin.__dict__.update(self.__dict__)
        twin.units = [unit.copy() for unit in self.units]
        twin.endpoints = [endpoint.copy() for endpoint in self.endpoints]
        twin.spaces = {number: pages.copy() for number, pages in self.spaces.items()}
        for name in ("bindings", "withheld", "parts", "hands", "messages", "next"):
            setattr(twin, name, getattr(self, name).copy())
        return twin

    def key(self, with_numbers=False):
        """All that is kept; the numbers of messages only where they count (FORMAT 13, reading 13)."""
        lanes = [[] for _ in self.units]
        for number, (endpoint, kind, fields) in self.messages.items():
            lanes[endpoint].append((kind, fields, number if with_numbers else None))
        opened, counters = sorted(self.opened, key=lambda group: group[0]), list(self.next.values())
        return (tuple([unit.key() for unit in self.units]), tuple([each.key() for each in self.endpoints]),
                frozenset([(number, frozenset(pages.items())) for number, pages in self.spaces.items()]),
                items(self.bindings), self.free, items(self.withheld), items(self.parts), tuple(opened), self.jobs,
                tuple(self.hands), tuple([tuple(lane) for lane in lanes]), tuple(counters))

    # labels

    def give(self, counter):
        """The next number of a counter (section 13)."""
        number = self.next[counter]
        self.next[counter] = number + 1
        return number

    def send(self, endpoint, kind, *fields):
        number = self.give("message")
        self.messages[number] = (endpoint, kind, fields)
        self.sent += (number,)

    def bindings_of(self, space):
        """The unreleased bindings of a space: (number, record), in rising order of units."""
        found = [(number, each) for number, each in self.bindings.items() if each[1] == space]
        return sorted(found, key=lambda item: item[1][0])

    def bearer_at(self, endpoint, pasid):
        """The binding at this endpoint which bears the PASID."""
        return next(number for number, each in self.bindings.items() if each[0] == endpoint and each[2] == pasid)

    def set_stage(self, binding, stage, cookie=None):
        endpoint, space, pasid, _, _, _ = self.bindings[binding]
        self.bindings[binding] = (endpoint, space, pasid, stage, False, cookie)

    # frames

    def take_frame(self):
        frame = min(self.free)
        self.free -= {frame}
        return frame

    def settle(self, endpoint, is_over):
        """Frames wait no longer for what is over at a unit; one that waits for nothing else is free (section 6)."""
        for frame, awaited in list(self.withheld.items()):
            left = frozenset(each for each in awaited if each[0] != endpoint or not is_over(each[1]))
            self.withheld[frame] = left
            if not left:
                del self.withheld[frame]
                self.free |= {frame}

    def counts(self):
        mapped = self.frames - len(self.free) - len(self.withheld)
        return "free %d mapped %d withheld %d" % (len(self.free), mapped, len(self.withheld))
