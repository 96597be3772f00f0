"""What Intel's specification of VT-d says of the queue itself, which svahost hasn't: it has no wrong descriptor, no head
and no tail. Each check has a name, and the section by whose words its answer is wanted."""

from unit import BASE, FSTS, IQE, IQT

CONTEXT, WAIT, STATUS_WRITE = 1 | 1 << 4, 5, 1 << 5


def empty(unit, differs):
    """Invalidation Queue Head, Tail: a queue that was done is empty"""
    place = give(unit, [])
    if not unit.written(place):
        differs("a wait alone isn't done")
    if unit.head() != unit.tail:
        differs("the head isn't the tail behind it")


def full(unit, differs):
    """Invalidation Queue Tail: all places but one may be given at once"""
    place = give(unit, [(CONTEXT, 0)] * (unit.places() - 2))
    if not unit.written(place):
        differs("the last of a full queue isn't done")


def round_the_end(unit, differs):
    """Invalidation Queue Address: behind the last place comes the first"""
    for _ in range(3):
        if not unit.written(give(unit, [(CONTEXT, 0)] * (unit.places() // 2))):
            differs("a batch isn't done that goes round the end")


def silent(unit, differs):
    """Invalidation Wait Descriptor: without SW no status is written"""
    wait, place = unit.wait(1 << 6 | 1 << 4)
    settle(unit, [(wait[0] & ~(1 << 5), wait[1])])
    if unit.written(place):
        differs("a status is written by a wait without SW")
    if unit.stopped():
        differs("a wait with FN and IF is refused")


def each_its_own(unit, differs):
    """Invalidation Wait Descriptor: each wait writes its own data at its own place"""
    waits = [unit.wait() for _ in range(8)]
    settle(unit, [descriptor for descriptor, _ in waits])
    for (low, _), place in waits:
        if unit.machine.load(place) != low >> 32:
            differs("a wait's status isn't its data")


def fence_alone(unit, differs):
    """Invalidation Wait Descriptor: FN alone is a fence"""
    settle(unit, [(WAIT | 1 << 6, 0)])
    if unit.stopped():
        differs("a wait with FN alone is refused")


def refuses(name, low, high=0):
    """A check of a descriptor that has to be refused: the unit stops there, and nothing behind it is done."""

    def check(unit, differs):
        before = unit.head()
        place = give(unit, [(CONTEXT, 0), (low, high), (CONTEXT, 0)])
        if not unit.stopped():
            differs("it isn't refused")
        elif unit.written(place):
            differs("a wait behind it is done")
        elif unit.head() != (before + 1) % unit.places():
            differs("the head isn't at it")
        else:
            goes_on(unit, place, differs)

    check.__doc__ = f"Invalidation Queue Error: {name}"
    return check


def goes_on(unit, place, differs):
    """With the descriptor replaced and the error cleared, what is behind is done."""
    unit.recover()
    unit.machine.end()
    if not unit.written(place):
        differs("behind a refused descriptor that was replaced the unit doesn't go on")


def tail_beyond(unit, differs):
    """Invalidation Queue Tail: a tail that no descriptor begins at, in a queue of wide ones, is refused"""
    if not unit.scalable:
        return
    unit.machine.write(BASE + IQT, unit.tail * unit.width + 16, 8)
    if not unit.stopped():
        differs("the tail is taken")
    unit.machine.write(BASE + FSTS, IQE)
    unit.machine.write(BASE + IQT, unit.tail * unit.width, 8)


def settle(unit, descriptors):
    unit.put(descriptors)
    unit.ring()
    unit.machine.end()


def give(unit, descriptors):
    """Submits descriptors and a wait: the place of its status."""
    wait, place = unit.wait()
    settle(unit, [*descriptors, wait])
    return place


CHECKS = {
    "empty": empty,
    "full": full,
    "round-the-end": round_the_end,
    "silent": silent,
    "each-its-own": each_its_own,
    "fence-alone": fence_alone,
    "no-such-type": refuses("type 15 is none", 15),
    "type-zero": refuses("type 0 is none", 0),
    "reserved-low": refuses("a reserved bit of a wait", WAIT | STATUS_WRITE | 1 << 20, 0x1F0000),
    "reserved-high": refuses("a status address that isn't aligned", WAIT | STATUS_WRITE, 0x1F0002),
    "iotlb-kind-zero": refuses("granularity 0 of an IOTLB invalidation", 2),
    "context-kind-zero": refuses("granularity 0 of a context invalidation", 1),
    "reserved-device": refuses("a reserved bit of a device-TLB invalidation", 3, 2),
    "tail-beyond": tail_beyond,
}


def all_of(model):
    """Each check with what differs: (name, [(line, what)])."""
    for name, check in CHECKS.items():
        model.fresh("edu")
        differences = []
        check(model.unit, lambda what, section=check.__doc__: differences.append((0, f"{what} ({section})")))
        yield name, differences
