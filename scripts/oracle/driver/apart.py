"""A driver endpoint by endpoint (docs/DRIVERS.md, "Endpoint by endpoint"): which comes apart, and what each endpoint's
own driver is."""
import copy

import search
from branches import CONDITIONS
from reading import Device
from world import Port


def comes_apart(driver, world):
    """Two endpoints or more, no shared unit, one thread alone with lines left, and no look at an endpoint."""
    looks = any(line.words[0] == 'if' and set(line.words[1:3]) & set(CONDITIONS) for line in driver.lines)
    threads = list(search.of_threads(driver, world))
    return driver.ports > 1 and not driver.shares_units() and not looks and len(threads) < 2


def endpoint_of(line):
    """The endpoint at which a line does something, or None."""
    words = line.words
    verb = words[0]
    if verb == 'await' and line.awaited:
        named, waits = line.awaited
        return named.words[1] if waits else None
    if verb == 'free':
        return words[3] if words[1] == 'pasid' else None
    if verb in ('pte', 'freeze', 'mark', 'lock', 'unlock', 'set', 'clear', 'if'):
        return None
    if verb == 'respond' and words[1] == 'all' or verb in ('deliver', 'await'):
        return words[2]
    return words[1]


def cut(line):
    """A line at another endpoint does nothing; one that awaits another line's waits there awaits that line alone."""
    if line.awaited:
        line.awaited = line.awaited[0], []
    else:
        line.words = ['mark']


def slice_of(driver, world, endpoint):
    """The driver of an endpoint, and its moment at `race`: at the others there is nothing, and they do nothing."""
    driver, world = copy.deepcopy((driver, world))
    for line in [line for line in driver.lines if endpoint_of(line) not in (None, endpoint)]:
        cut(line)
    driver.devices = {e: device if e == endpoint else Device() for e, device in driver.devices.items()}
    world.ports = [port if e == endpoint else Port(number=e) for e, port in enumerate(world.ports)]
    return driver, world


def search_apart(driver, world, most):
    """(is each safe, or None where one was cut off; their moments together; what one of them shows)."""
    moments, shown, all_safe = 0, set(), True
    for e in range(driver.ports):
        verdict, events, _, _ = search.search(*slice_of(driver, world, e), most, shown=shown)
        if verdict == 'cut':
            return None, 0, shown
        moments += events if verdict == 'safe' else 0
        all_safe = all_safe and verdict == 'safe'
    return all_safe, moments, shown
