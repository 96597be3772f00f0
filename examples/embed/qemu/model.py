"""QEMU's unit and two kinds of its devices, by the calls that rules.py makes of any model. To hold another model to the
rules write a class with these calls; nothing else of this folder but rules.py, texts.py and the .svd files is needed then.

    fresh(kind)                       an empty world whose endpoints are of this kind; all caches are empty
    page(space, page, frame, access)  the page leads to the frame, by `r` or `w`; nowhere, with None. A store in memory alone
    entry(endpoint, pasid, space)     the PASID's entry leads to the space, or nowhere. The same
    submit(endpoint, descriptors)     puts descriptors in at once, as ("range", 1, 16, 0) or ("wait",). Comes back once the
                                      unit has done them, has refused one, or waits for a device
    told(endpoint)                    the invalidations that the device has been told and hasn't answered: (first, count)
    answer(endpoint)                  the device answers the oldest. Comes back as submit does
    done(endpoint)                    whether the last wait that was submitted there is done, as a driver would see it
    dma(endpoint, page, write)        an access to the page, by a translation that the device hasn't: the frame, or None
    holds(endpoint)                   the translations that the device keeps: page to (frame, whether it may write)
    faults(endpoint)                  the pages of accesses that the unit has recorded as faults since it was asked last
    refused()                         whether the unit has stopped at a descriptor"""

import time

from devices import Ats, Edu, RINGS
from machine import Machine, has_qtest_clock, options_of, scratch
from unit import RING_FRAME, Unit, coded, frame_at

FRAMES_SEEN, NOBODY, LATE = 16, 0x77, 0.01
ALL_PAGES = 0x7FFFFFFFFFFFF001
STAMP = 0x5EED5EED5EED5EED
KINDS = ("edu", "ats")


class Cannot(Exception):
    """What a scenario asks for can't be said to this model."""


def device_words(program, mode):
    """The unit's options in this version of QEMU, or Cannot."""
    have = options_of(program, "intel-iommu")
    words = "intel-iommu,device-iotlb=on,aw-bits=48,intremap=off"
    if mode == "legacy":
        return words
    for wanted in [("x-scalable-mode", "scalable-mode")] + [("x-flts", "fsts")] * (mode == "first"):
        named = [name for name in wanted if name in have]
        if not named:
            raise Cannot(f"this version has no option {' or '.join(wanted)}")
        words += f",{named[0]}=on"
    return words


class Qemu:
    def __init__(self, program, mode, folder):
        folder = scratch(folder, f"{mode}")
        options = device_words(program, mode)
        self.mode = mode
        self.devices = {
            "edu": [Edu(0x18, 0xFE000000), Edu(0x20, 0xFE100000)],
            "ats": [Ats(0x300, 0xFE200000, folder), Ats(0x400, 0xFE400000, folder)],
        }
        all_devices = self.devices["edu"] + self.devices["ats"]
        words = ["-machine", "q35,memory-backend=ram", "-device", options]
        words += [word for device in all_devices for word in device.words]
        self.machine = Machine(program, words, folder, self.devices["ats"], has_qtest_clock(program))
        try:
            self.unit = Unit(self.machine, mode)
            self.kind, self.waits = "edu", {}
            for device in all_devices:
                self.unit.enter(device.sid, "rings", NOBODY)
            self.unit.start()
            for device in all_devices:
                device.start(self.machine)
            for device in self.devices["ats"]:
                device.at_once = False
            self.load_stamps()
        except BaseException:
            self.close()
            raise

    def close(self):
        self.machine.close()
        for device in self.devices["ats"]:
            device.close()

    def load_stamps(self):
        self.machine.store(RING_FRAME + 0xF00, STAMP)
        for device in self.devices["edu"]:
            device.fetch((RINGS << 12) + 0xF00)

    # -- the calls

    def fresh(self, kind):
        self.kind, self.waits = kind, {}
        self.spaces = {}
        for _ in range(self.unit.places()):
            if not self.unit.stopped():
                break
            self.unit.recover()
            self.settle_all()
        self.unit.tables = {key: it for key, it in self.unit.tables.items() if key == "rings"}
        everywhere = self.devices["edu"] + self.devices["ats"]
        for device in everywhere:
            self.unit.enter(device.sid, None, 0)
        wait, place = self.unit.wait()
        gone = [(3 | device.sid << 32, ALL_PAGES) for device in self.devices["ats"]]
        self.unit.put([(1 | 1 << 4, 0), (2 | 1 << 4, 0), *gone, wait])
        self.unit.ring()
        self.settle_all()
        if not self.unit.written(place):
            raise RuntimeError("the unit doesn't take a global invalidation")
        for device in self.devices["ats"]:
            device.held.clear()
        self.unit.faults()

    def page(self, space, page, frame, access):
        self.unit.map(space, page, None if frame is None else frame_at(frame), access == "w")

    def entry(self, endpoint, pasid, space):
        if pasid != 1:
            raise Cannot("no device of QEMU makes requests with a PASID here")
        if space is not None:
            self.spaces[endpoint] = space
        self.unit.enter(self.device(endpoint).sid, space, self.domain(endpoint, 1))

    def submit(self, endpoint, descriptors):
        words = []
        for descriptor in descriptors:
            if descriptor[0] == "wait":
                flags = 1 << 5 | (1 << 6 if "fence" in descriptor else 0) | (1 << 7 if "drain" in descriptor else 0)
                word, self.waits[endpoint] = self.unit.wait(flags)
                words.append(word)
            else:
                words.append(self.words(self.device(endpoint), endpoint, descriptor))
        self.send(words)

    def told(self, endpoint):
        return list(self.device(endpoint).told) if self.device(endpoint).tells else []

    def answer(self, endpoint):
        self.reply(self.device(endpoint))

    def done(self, endpoint):
        return self.unit.written(self.waits[endpoint])

    def dma(self, endpoint, page, write):
        device = self.device(endpoint)
        if device.tells:
            before = device.held.get(page)
            place = device.ask(page, write)
            if place is None and before is not None:
                device.held[page] = before
            return self.frame(place) if place else None
        return self.written_to(device, page) if write else self.read_from(device, page)

    def holds(self, endpoint):
        device = self.device(endpoint)
        held = device.held.items() if device.tells else ()
        return {page: (self.frame(it), it[1]) for page, it in held if page != RINGS}

    def faults(self, endpoint):
        return [page for sid, page in self.unit.faults() if sid == self.device(endpoint).sid]

    def refused(self):
        return self.unit.stopped()

    # -- how

    def device(self, endpoint):
        return self.devices[self.kind][endpoint]

    def domain(self, endpoint, pasid):
        """The domain of a PASID: that of the space to which its entry led last. The standard asks for one for each."""
        return self.spaces[endpoint] + 1 if pasid == 1 and endpoint in self.spaces else NOBODY

    def words(self, device, endpoint, descriptor):
        """A descriptor's two words. PASID 1 stands for requests without one: they have no PASID, or 0 in the tables."""
        name, pasid, *of = descriptor
        own, domain = self.domain(endpoint, 1) << 16, self.domain(endpoint, pasid) << 16
        number = (0 if pasid == 1 else pasid) << 32
        if name in ("range", "pasid"):
            if pasid != 1:
                raise Cannot("no device of QEMU makes requests with a PASID here")
            return 3 | device.sid << 32, coded(*of) if of else ALL_PAGES
        if name == "entry" and self.mode == "legacy":
            return 1 | 3 << 4 | domain | device.sid << 32, 0
        if name == "entry":
            return 7 | 1 << 4 | own | number, 0
        # What was translated by the first stage goes by PASID, what was by the second one by domain alone.
        kind = 6 | own | number if self.mode == "first" else 2 | domain
        return kind | (3 if of else 2) << 4, of[0] >> of[1] << of[1] << 12 | of[1] if of else 0

    def send(self, words):
        self.unit.put(words)
        self.unit.ring()
        self.settle()

    def settle(self):
        """Until the unit has done what it can, or a device has been told something."""
        ats = self.devices["ats"]
        self.machine.wait(lambda: self.machine.answers or any(device.told for device in ats), 10)
        if self.machine.answers:
            self.machine.end()
        else:
            time.sleep(LATE)

    def settle_all(self):
        """The same, and the devices answer all that they are told, until the unit has nothing more to do."""
        self.settle()
        while any(device.told for device in self.devices["ats"]):
            for device in self.devices["ats"]:
                if device.told:
                    self.reply(device)

    def reply(self, device):
        device.told.pop(0)
        device.answer()
        self.settle()

    def frame(self, it):
        return (it[0] - frame_at(0)) >> 12

    def written_to(self, device, page):
        """The frame into which a write of the device goes."""
        for frame in range(FRAMES_SEEN):
            self.machine.store(frame_at(frame) + 16, 0)
        device.put((page << 12) + 16)
        reached = [frame for frame in range(FRAMES_SEEN) if self.machine.load(frame_at(frame) + 16)]
        return reached[0] if reached else None

    def read_from(self, device, page):
        """The frame that a read of the device finds: it writes what it read into a page that is always there."""
        for frame in range(FRAMES_SEEN):
            self.machine.store(frame_at(frame) + 8, 0xF00D + frame)
        self.machine.store(RING_FRAME + 0xE00, 0)
        device.fetch((page << 12) + 8)
        device.put((RINGS << 12) + 0xE00)
        found = self.machine.load(RING_FRAME + 0xE00) - 0xF00D
        device.fetch((RINGS << 12) + 0xF00)
        return found if 0 <= found < FRAMES_SEEN else None
