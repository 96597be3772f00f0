"""Wrong readings of what a driver is endpoint by endpoint, each of which has to be found by chance."""

import apart
from trying import Reading


def never(old):
    return lambda driver, world: False


def threads_too(old):
    """A driver with several threads comes apart."""
    return lambda driver, world: driver.ports > 1


def lines_stay(old):
    """A line at another endpoint does what it does."""
    return lambda line: None


def waits_stay(old):
    return lambda line: None if line.awaited else old(line)


def frames_stay_taken(old):
    """A line that gives a frame away is left out of an endpoint's driver."""
    return lambda line: -1 if line.words[0] == 'free' else old(line)


def first_alone(old):
    """The first endpoint's driver speaks for all."""
    def search_first(driver, world, most):
        ports, driver.ports = driver.ports, 1
        try:
            return old(driver, world, most)
        finally:
            driver.ports = ports
    return search_first


OF_APART = [
    Reading('no driver comes apart', apart, 'comes_apart', never),
    Reading('each driver of several endpoints comes apart', apart, 'comes_apart', threads_too),
    Reading('a line at another endpoint does what it does', apart, 'cut', lines_stay),
    Reading('a wait at another endpoint is awaited', apart, 'cut', waits_stay),
    Reading('what an endpoint\'s driver frees isn\'t freed', apart, 'endpoint_of', frames_stay_taken),
    Reading('the first endpoint\'s driver speaks for all', apart, 'search_apart', first_alone),
]
