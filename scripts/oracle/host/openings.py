"""Beginnings of scenarios that lead to a limit; random steps go on from there."""


def bound(rng, pages, first=16):
    """A space with pages, bound at endpoint 0, and its start delivered."""
    steps = [("space",)] + [("map", 0, first + page, rng.choice("rw")) for page in range(pages)]
    return steps + [("bind", 0, 0), ("deliver", 0)]


def cache_of(rng):
    """60 to 66 translations are asked for, and most of them held."""
    steps = bound(rng, 70)
    for turn in range(rng.randint(60, 66)):
        steps += [("ask", 0, 1, 16 + turn), ("deliver", 1 + 2 * turn), ("deliver", 2 + 2 * turn)]
    return steps


def space_of(rng):
    """A space that has almost as many pages as may be."""
    return bound(rng, rng.randint(1020, 1024))


def pasids(rng, endpoints):
    """Spaces that bear almost all PASIDs."""
    count = rng.randint(30, 33)
    steps = [("space",)] * count
    return steps + [("bind", rng.randrange(endpoints), space) for space in range(count)]


def queue_of(rng):
    """An unbinding beside a queue with hardly any room."""
    steps = bound(rng, 63)
    count = rng.randint(12, 16)
    steps += [("unmap", 0, 16, 47), ("unmap", 0, 63, count - 2), ("unbind", 0)]
    return steps + [("deliver", 1), ("quit", 0, 1), ("deliver", 2)]


def itags_of(rng):
    """Almost all ITags of a unit are busy."""
    return bound(rng, 48) + [("unmap", 0, 16, 48)] + [("pump", 0)] * rng.randint(29, 33)


def groups_of(rng):
    """Almost all page requests of an endpoint are outstanding, and some of them filed."""
    steps = bound(rng, 4)
    count = rng.randint(25, 33)
    for turn in range(count):
        steps.append(("fault", 0, 1, 14 + rng.randrange(8), rng.choice(["r", "w", "rw"]), "new", "last"))
    numbers = list(range(1, count + 1))
    for number in sorted(rng.sample(numbers, rng.randint(0, count))):
        steps.append(("deliver", number))
    return steps + [("serve", 0)] * rng.randint(0, count)


def unbinding(rng):
    """A binding that is Draining or Invalidating, with an older unmapping before it."""
    steps = bound(rng, 2) + [("unmap", 0, 16), ("unbind", 0), ("deliver", 1), ("quit", 0, 1), ("deliver", 2)]
    steps += [("advance", 0), ("pump", 0), ("deliver", 3), ("finish", 0, 1, 1), ("deliver", 4), ("pump", 0),
              ("pump", 0), ("advance", 0), ("pump", 0), ("deliver", 5), ("finish", 0, 1, 3), ("deliver", 6),
              ("deliver", 7), ("deliver", 8), ("pump", 0), ("advance", 0)]
    return steps[:rng.randint(len(steps) - 18, len(steps))]


def invalidating(rng):
    """A binding that is Invalidating, at an endpoint that still has a translation of it."""
    steps = bound(rng, 2) + [("ask", 0, 1, 16), ("deliver", 1), ("deliver", 2), ("unbind", 0), ("deliver", 3)]
    return steps + [("quit", 0, 1), ("deliver", 4), ("advance", 0), ("pump", 0), ("advance", 0)]


def held(rng):
    """A translation that is held, and perhaps used."""
    steps = bound(rng, 2) + [("ask", 0, 1, 16), ("deliver", 1), ("deliver", 2)]
    return steps + [("use", 0, 1, 16, "r")] * rng.randint(0, 2)


def opening(rng, endpoints):
    """The first steps of a scenario: mostly none."""
    chance = rng.random()
    if chance < 0.55:
        return []
    if chance < 0.58:
        return space_of(rng)
    if chance < 0.66:
        return pasids(rng, endpoints)
    return rng.choice([cache_of, queue_of, itags_of, groups_of, unbinding])(rng)
