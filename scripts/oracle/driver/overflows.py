"""A page request queue that has places, and what finds no room in it (docs/DRIVERS.md, "Overflow"; from the definitions'
meaning, crates/sva_open/specs/Units.antt)."""


def queue(world, port, one, settings):
    """A page request comes into the queue, or is dropped where there is no room."""
    if not is_full(port, settings):
        port.prq += one,
        return
    port.overflowed = True
    answer(world, port, one)


def is_full(port, settings):
    """Without the line there is room for any number."""
    return settings.places is not None and (port.overflowed or counted(port) >= settings.places)


def counted(port):
    """What stands in the queue of the unit, whoever sent it."""
    return len(port.prq)


def answer(world, port, one):
    """The unit answers the last page request of a group by itself, to the endpoint that sent it."""
    p, i, gid, last, sender = one
    if last:
        world.ports[sender].link += ('response', p, i, gid, False),


def clear(port):
    port.overflowed = False
