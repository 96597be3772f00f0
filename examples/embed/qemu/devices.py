"""Two kinds of devices under QEMU's unit. Edu reads and writes by addresses that the unit translates, access by access.
Ats is a network card whose rings this test runs itself, by the vhost-user protocol: it asks the unit for translations,
keeps them, uses them by itself, is told of invalidations, and answers them when it likes."""

import os
import socket
import struct

EDU_BUFFER, EDU_RUN, EDU_OUT = 0x40000, 1, 2
COMMON, NOTIFY, MISS, UPDATE, INVALIDATE = 1, 2, 1, 2, 3
FEATURES = 1 << 30 | 1 << 32 | 1 << 33  # protocol features, version 1, behind a unit
PROTOCOL = 1 << 3 | 1 << 5  # answers, requests of our own
RINGS = 0x80000  # the page where the card's rings stand, in each space
STARTS = {1: FEATURES, 15: PROTOCOL, 17: 1}


class Edu:
    """QEMU's device for lessons: DMA by registers, a tenth of a second behind the start."""

    tells = False  # it isn't told of invalidations, and keeps nothing

    def __init__(self, sid, bar):
        self.sid, self.bar, self.machine = sid, bar, None
        self.words = ["-device", f"edu,addr={sid >> 3:#x},dma_mask=0xffffffffffff"]

    def sockets(self):
        return []

    def start(self, machine):
        self.machine = machine
        machine.write(machine.config(self.sid, 0x10), self.bar)
        machine.write(machine.config(self.sid, 0x04), 6, 2)

    def run(self, source, target, command):
        """One DMA of eight bytes."""
        registers = ((0x80, source), (0x88, target), (0x90, 8), (0x98, command | EDU_RUN))
        self.machine.step(101, [f"writeq {self.bar + at:#x} {value:#x}" for at, value in registers])
        while self.machine.read(self.bar + 0x98, 8) & EDU_RUN:
            self.machine.step(10)

    def fetch(self, address):
        """Reads what is there into the device's buffer."""
        self.run(address, EDU_BUFFER, 0)

    def put(self, address):
        """Writes the device's buffer there."""
        self.run(EDU_BUFFER, address, EDU_OUT)


class Ats:
    """A card with ATS. `held` is what it keeps: page to (place in memory, whether it may write)."""

    tells = True

    def __init__(self, sid, bar, folder):
        self.sid, self.bar, self.machine, self.path = sid, bar, None, f"{folder}/vhost-{sid:x}"
        self.waiting = socket.socket(socket.AF_UNIX)
        self.waiting.bind(self.path)
        self.waiting.listen(1)
        self.main = self.own = None
        self.regions, self.held, self.asked, self.told, self.at_once = [], {}, [], [], True
        bus = sid >> 8
        self.words = ["-device", f"pcie-root-port,id=port{bus},addr={bus + 3:#x},chassis={bus},slot={bus}"]
        self.words += ["-chardev", f"socket,id=vhost{bus},path={self.path}"]
        self.words += ["-netdev", f"vhost-user,id=net{bus},chardev=vhost{bus},queues=1"]
        options = "ats=on,iommu_platform=on,disable-legacy=on,mrg_rxbuf=off,romfile="
        self.words += ["-device", f"virtio-net-pci,bus=port{bus},netdev=net{bus},{options}"]

    # -- the protocol, vhost-user

    def sockets(self):
        return [it for it in (self.waiting, self.main, self.own) if it is not None]

    def ready(self, it):
        """One of the sockets has something."""
        if it is self.waiting:
            self.main = it.accept()[0]
            it.close()
            self.waiting = None
        elif it is self.own:
            request, _, size = struct.unpack("<III", self.exactly(it, 12))
            self.asked.append((request, struct.unpack("<Q", self.exactly(it, size))[0]))
        else:
            self.take()

    def exactly(self, it, size):
        got = b""
        while len(got) < size:
            more = it.recv(size - len(got))
            if not more:
                raise ConnectionError("QEMU has let go of its device")
            got += more
        return got

    def take(self):
        """Takes a message of QEMU, and answers it, but for an invalidation, whose answer is our own choice."""
        head, files, _, _ = socket.recv_fds(self.main, 12, 16)
        if len(head) < 12:
            head += self.exactly(self.main, 12 - len(head))
        request, flags, size = struct.unpack("<III", head)
        body = self.exactly(self.main, size)
        if request == 21:
            self.own = socket.socket(fileno=files.pop(0))
        for file in files:
            os.close(file)
        if request == 22:
            self.translation(body)
        elif request == 5:
            count = struct.unpack_from("<I", body)[0]
            self.regions = [struct.unpack_from("<QQQQ", body, 8 + 32 * n) for n in range(count)]
        if request in STARTS:
            self.say(request, STARTS[request])
        elif request == 11:
            self.main.sendall(struct.pack("<IIIII", 11, 5, 8, struct.unpack_from("<I", body)[0], 0))
        elif flags & 8 and request != 22:
            self.say(request, 0)

    def say(self, request, number):
        self.main.sendall(struct.pack("<IIIQ", request, 5, 8, number))

    def translation(self, body):
        """QEMU tells a translation that was asked for, or has one invalidated."""
        address, size, place, access, kind = struct.unpack_from("<QQQBB", body)
        if kind == UPDATE:
            for start, length, base, _ in self.regions:
                if base <= place < base + length:
                    self.held[address >> 12] = (start + place - base, access == 3)
            self.say(22, 0)
        elif kind == INVALIDATE:
            first, count = address >> 12, size >> 12
            self.held = {page: it for page, it in self.held.items() if not first <= page < first + count}
            self.told.append((first, count))
            if self.at_once:
                self.answer()

    def answer(self):
        """Answers the invalidation that was told: none of what it covers is used any more."""
        self.say(22, 0)

    def ask(self, page, write):
        """Asks the unit for a translation: its place in memory, or None."""
        self.held.pop(page, None)
        body = struct.pack("<QQQBB6x", page << 12, 0x1000, 0, 3 if write else 1, MISS)
        self.own.sendall(struct.pack("<III", 1, 9, len(body)) + body)
        self.machine.wait(lambda: self.asked, 10)
        self.asked.pop(0)
        return self.held.get(page)

    # -- the card as the guest's driver sees it, virtio

    def start(self, machine):
        """Brings the card up, with ATS on. Its rings' page is mapped by then."""
        self.machine = machine
        bus = self.sid >> 8
        machine.bridge((bus + 3) << 3, bus, self.bar)
        bar = machine.config(self.sid, 0x20)
        machine.write(bar, self.bar)
        machine.write(bar + 4, 0)
        machine.write(machine.config(self.sid, 0x04), 6, 2)
        (ats,) = machine.capability(self.sid, 0x0F, extended=True)
        machine.write(machine.config(self.sid, ats + 6), 0x8000, 2)
        for at in machine.capability(self.sid, 0x09):
            if machine.read(machine.config(self.sid, at + 3), 1) == COMMON:
                common = self.bar + machine.read(machine.config(self.sid, at + 8))
        self.negotiate(common)

    def negotiate(self, common):
        write = self.machine.write
        for status in (0, 1, 3):
            write(common + 0x14, status, 1)
        for select, bits in ((0, 0), (1, 3)):
            write(common + 0x08, select)
            write(common + 0x0C, bits)
        write(common + 0x14, 11, 1)
        for queue in (0, 1):
            write(common + 0x16, queue, 2)
            write(common + 0x18, 8, 2)
            for at, place in ((0x20, 0), (0x28, 0x400), (0x30, 0x600)):
                write(common + at, (RINGS << 12) + 0x800 * queue + place)
                write(common + at + 4, 0)
            write(common + 0x1C, 1, 2)
        write(common + 0x14, 15, 1)
        self.machine.wait(lambda: RINGS in self.held, 5)
        if RINGS not in self.held:
            raise ConnectionError(f"the card didn't start: its status is {self.machine.read(common + 0x14, 1):#x}")

    def close(self):
        for it in self.sockets():
            it.close()
