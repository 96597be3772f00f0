"""QEMU's VT-d unit: its tables in memory, its queue of invalidations, its faults. By the names of Intel's specification
of VT-d, section "Register Descriptions", and what stands there of tables and descriptors."""

import struct

from devices import RINGS

BASE, QUEUE, STATUS, SPARE, FRAMES = 0xFED90000, 0x110000, 0x120000, 0x1000000, 0x400000
ROOT, RING_FRAME = 0x100000, 0x800000
CAP, ECAP, GCMD, GSTS, RTADDR, FSTS, IQH, IQT, IQA = 0x08, 0x10, 0x18, 0x1C, 0x20, 0x34, 0x80, 0x88, 0x90
ENABLE, SET_ROOT, QUEUED = 1 << 31, 1 << 30, 1 << 26
IQE = 1 << 4
MODES = ("legacy", "second", "first")


def frame_at(frame):
    return FRAMES + (frame << 12)


def coded(page, order):
    """A range of 2^order pages as a device-TLB invalidation has it: its address, with S in bit 0."""
    return page << 12 if order == 0 else (page >> order << order | (1 << order - 1) - 1) << 12 | 1


class Unit:
    """The unit in one of three modes: `legacy`, or scalable with tables of the second stage or of the first one."""

    def __init__(self, machine, mode):
        self.machine, self.mode, self.scalable = machine, mode, mode != "legacy"
        self.width = 32 if self.scalable else 16
        self.spare, self.tables, self.waits, self.contexts = SPARE, {}, 0, {}
        self.tail, self.records = 0, []

    def page(self):
        """A page of memory for a table, all zero."""
        self.spare += 0x1000
        self.machine.memory[self.spare : self.spare + 0x1000] = bytes(0x1000)
        return self.spare

    # -- tables

    def table(self, space):
        """The table of a space; a new one leads to the card's rings."""
        if space not in self.tables:
            self.tables[space] = self.page()
            self.map(space, RINGS, RING_FRAME, True)
        return self.tables[space]

    def map(self, space, page, place, write):
        """The page leads to a place in memory, or, with None, nowhere."""
        machine, at = self.machine, self.table(space)
        up = 0x27 if self.mode == "first" else 3
        for level in (27, 18, 9):
            at += (page >> level & 511) * 8
            if not machine.load(at):
                machine.store(at, self.page() | up)
            at = machine.load(at) & ~0xFFF
        at += (page & 511) * 8
        access = (5 | (2 if write else 0)) if self.mode == "first" else (3 if write else 1)
        machine.store(at, 0 if place is None else place | access)

    def context(self, sid):
        """The place of a function's context entry, or, in scalable mode, of its entry for requests without a PASID."""
        if sid in self.contexts:
            return self.contexts[sid]
        machine, at = self.machine, ROOT + (sid >> 8) * 16 + (8 if self.scalable and sid & 0x80 else 0)
        if not machine.load(at):
            machine.store(at, self.page() | 1)
        at = (machine.load(at) & ~0xFFF) + (sid & (0x7F if self.scalable else 0xFF)) * self.width
        if self.scalable:
            folder, entries = self.page(), self.page()
            machine.store(folder, entries | 1)
            machine.store(at, folder | 4 | 1, 0, 0, 0)
            at = entries
        self.contexts[sid] = at
        return at

    def enter(self, sid, space, domain):
        """The function's requests are translated by the table of the space, or, with None, not at all."""
        machine, at = self.machine, self.context(sid)
        if space is None:
            machine.store(at, *[0] * (8 if self.scalable else 2))
        elif self.mode == "legacy":
            machine.store(at, self.table(space) | 4 | 1, domain << 8 | 2)
        elif self.mode == "second":
            machine.store(at, self.table(space) | 2 << 6 | 2 << 2 | 1, domain, 0)
        else:
            machine.store(at, 1 << 6 | 2 << 2 | 1, domain, self.table(space), 0)

    # -- the queue

    def start(self):
        """The unit translates from now on, and takes descriptors."""
        write = self.machine.write
        write(BASE + IQT, 0, 8)
        write(BASE + IQA, QUEUE | (1 << 11 if self.scalable else 0), 8)
        write(BASE + GCMD, QUEUED)
        write(BASE + RTADDR, ROOT | (1 << 10 if self.scalable else 0), 8)
        write(BASE + GCMD, QUEUED | SET_ROOT)
        self.put([(1 | 1 << 4, 0), (2 | 1 << 4, 0)])
        self.ring()
        self.machine.end()
        write(BASE + GCMD, QUEUED | ENABLE)
        if self.machine.read(BASE + GSTS) & (ENABLE | QUEUED) != ENABLE | QUEUED:
            raise RuntimeError("the unit doesn't translate")

    def places(self):
        return 4096 // self.width

    def put(self, descriptors):
        """Writes descriptors of two words each into the queue. The unit doesn't know of them yet."""
        for low, high in descriptors:
            struct.pack_into("<QQ", self.machine.memory, QUEUE + self.tail * self.width, low, high)
            if self.scalable:
                struct.pack_into("<QQ", self.machine.memory, QUEUE + self.tail * self.width + 16, 0, 0)
            self.tail = (self.tail + 1) % self.places()

    def ring(self):
        """Tells the unit where the queue ends. What that does may need an answer of a device: see Machine.begin."""
        self.machine.begin(f"writeq {BASE + IQT:#x} {self.tail * self.width:#x}")

    def wait(self, flags=1 << 5):
        """A wait descriptor with a status word of its own, and the place of that."""
        self.waits += 1
        at = STATUS + self.waits * 8
        self.machine.store(at, 0)
        return (5 | flags | self.waits << 32, at), at

    def written(self, at):
        """Whether the status of the wait with this place was written."""
        return self.machine.load(at) != 0

    def head(self):
        return self.machine.read(BASE + IQH, 8) // self.width

    def stopped(self):
        """Whether the unit has stopped at a descriptor that it refuses (Invalidation Queue Error)."""
        return bool(self.machine.read(BASE + FSTS) & IQE)

    def recover(self):
        """Has the unit go on behind the descriptor that it refuses: that one becomes another, as drivers do it."""
        at = QUEUE + self.head() * self.width
        struct.pack_into("<QQ", self.machine.memory, at, 1 | 1 << 4, 0)
        self.machine.write(BASE + FSTS, IQE)
        self.ring()

    # -- faults

    def faults(self):
        """Takes the faults that were recorded: (function, page)."""
        machine, found = self.machine, []
        if not self.records:
            cap = machine.read(BASE + CAP, 8)
            self.records = [BASE + (cap >> 24 & 0x3FF) * 16 + index * 16 for index in range((cap >> 40 & 0xFF) + 1)]
        for at in self.records:
            low, high = machine.ask_all([f"readq {at:#x}", f"readq {at + 8:#x}"])
            if high >> 63:
                found.append((high & 0xFFFF, low >> 12))
                machine.ask_all([f"writel {at + 12:#x} {1 << 31:#x}", f"writel {BASE + FSTS:#x} 0x3"])
        return found
