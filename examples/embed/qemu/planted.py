"""Wrong models, made of the right one: what a unit, or a device, could do wrong. Each has to be found by a scenario, by
something that isn't said of the right one."""

from rules import Run, judged


class Wrong:
    """Has all calls of the model; those that are wrong are below."""

    tried = ("told",)

    def __init__(self, model):
        self.model = model

    def __getattr__(self, name):
        return getattr(self.model, name)


class IotlbForgotten(Wrong):
    """a unit that does nothing at an invalidation of its own translations:"""

    def submit(self, endpoint, descriptors):
        self.model.submit(endpoint, [it for it in descriptors if it[0] != "iotlb"])


class OtherDomain(Wrong):
    """a unit that invalidates another domain:"""

    def submit(self, endpoint, descriptors):
        self.model.submit(endpoint, [(it[0], 2, *it[2:]) if it[0] == "iotlb" else it for it in descriptors])


class OtherPage(Wrong):
    """a unit that invalidates the next page of its own translations:"""

    def submit(self, endpoint, descriptors):
        changed = [(*it[:2], it[2] + 1, 0) if it[0] == "iotlb" and len(it) > 2 else it for it in descriptors]
        self.model.submit(endpoint, changed)


class MaskForgotten(Wrong):
    """a unit that invalidates one page of a range of its own translations:"""

    tried = ("range-of-eight",)

    def submit(self, endpoint, descriptors):
        changed = [(*it[:3], 0) if it[0] == "iotlb" and len(it) > 2 else it for it in descriptors]
        self.model.submit(endpoint, changed)


class DeviceForgotten(Wrong):
    """a unit that doesn't tell the device:"""

    def submit(self, endpoint, descriptors):
        self.model.submit(endpoint, [it for it in descriptors if it[0] not in ("range", "pasid")])


class RangeHalved(Wrong):
    """a unit that tells the device half of the range:"""

    tried = ("range-of-eight",)

    def submit(self, endpoint, descriptors):
        self.model.submit(endpoint, [(*it[:3], it[3] - 1) if it[0] == "range" else it for it in descriptors])


class OtherDevice(Wrong):
    """a unit that tells another device:"""

    def submit(self, endpoint, descriptors):
        own = [it for it in descriptors if it[0] not in ("range", "pasid")]
        self.model.submit(1 - endpoint, [it for it in descriptors if it[0] in ("range", "pasid")])
        while self.model.told(1 - endpoint):
            self.model.answer(1 - endpoint)
        self.model.submit(endpoint, own)


class DoneAtOnce(Wrong):
    """a unit whose wait is done before the device has answered:"""

    def done(self, endpoint):
        return True


class NeverDone(Wrong):
    """a unit whose wait is never done:"""

    tried = ("wait-alone",)

    def done(self, endpoint):
        return False


class EntryForgotten(Wrong):
    """a unit that keeps an entry which is invalidated:"""

    tried = ("entry-gone",)

    def submit(self, endpoint, descriptors):
        self.model.submit(endpoint, [it for it in descriptors if it[0] != "entry"])


class TableCopied(Wrong):
    """a unit that goes on by a copy of the table:"""

    def page(self, space, page, frame, access):
        if frame is not None:
            self.model.page(space, page, frame, access)


class AccessForgotten(Wrong):
    """a unit that lets a page be written which is for reading:"""

    tried = ("read-only",)

    def page(self, space, page, frame, access):
        self.model.page(space, page, frame, access and "w")


class NotThereKept(Wrong):
    """a unit that keeps that a page isn't there:"""

    tried = ("mapped-late",)

    def page(self, space, page, frame, access):
        if page != 17:
            self.model.page(space, page, frame, access)


class DeviceKeeps(Wrong):
    """a device that answers, and keeps its translation:"""

    kept = None

    def holds(self, endpoint):
        self.kept = self.kept or self.model.holds(endpoint)
        return self.kept


ALL = [
    IotlbForgotten, OtherDomain, OtherPage, MaskForgotten, DeviceForgotten, RangeHalved, OtherDevice, DoneAtOnce, NeverDone,
    EntryForgotten, TableCopied, AccessForgotten, NotThereKept, DeviceKeeps,
]


def said(model, scenario, kind, svahost):
    run = Run(scenario, model, kind, svahost).all()
    judged([run], svahost)
    return [(line, what) for line, what in run.differences]


def found(wrong, model, svahost, scenarios):
    """What tells the wrong model from the right one, in words; None where nothing does."""
    for scenario in scenarios:
        if scenario.name not in wrong.tried:
            continue
        for kind in ("ats", "edu"):
            right = said(model, scenario, kind, svahost)
            new = [it for it in said(wrong(model), scenario, kind, svahost) if it not in right]
            if new:
                return f"{scenario.name}, {kind}, line {new[0][0]}: {new[0][1]}" if new[0][0] else f"{scenario.name}, {kind}: {new[0][1]}"
    return None
