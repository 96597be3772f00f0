"""svahost's own host by chance, as a driver: each of its acts is permitted and each moment safe, as `judge --run` has
it; and where frames are given away when they are withheld, the first one that an endpoint may still use is told.
    try_as_driver.py PROGRAM TRIALS|--planted SEED
"""

import pathlib
import random
import re
import subprocess
import sys

sys.path.insert(1, str(pathlib.Path(__file__).parents[1]))
import planted_in_hosts
import trying
from as_driver import AsDriver
from host import Host
from openings import invalidating
from propose import Proposer
from world import MOST_SPACES

PROFILES = ["all", "resets", "page requests", "unbinding", "translations", "few deliveries", "ranges"]
# how often a frame is given away when it is withheld
EARLY = [0, 0, 0.02, 0.2, 1]


def one_by_one(step):
    """A `finish` of the lowest of its ITags alone, by one completion: an act of a driver completes one."""
    return step[:2] + (step[2] & -step[2], 1) if step[0] == "finish" else step


def steps(rng, host):
    """Random steps, of which some are refused; one list in eight begins where a binding is Invalidating."""
    proposer = Proposer(rng, host, rng.choice(PROFILES))
    proposer.span = rng.choice([4, 4, 16, 60])
    if rng.random() < 0.125:
        proposer.base = 16
        yield from invalidating(rng)
    for _ in range(rng.randint(50, 600)):
        yield one_by_one(proposer.step())


def driver(rng):
    """A random list of steps that are accepted, as acts."""
    config = (rng.choice([1, 2, 2, 3]), rng.choice([2, 4, 8, 40]), rng.randint(1, 2))
    early, host = rng.choice(EARLY), Host(*config)
    told = AsDriver(config, lambda: rng.random() < early)
    for step in steps(rng, host):
        if host.refusal(step) is not None or step == ("space",) and host.next["space"] == MOST_SPACES:
            continue
        before = host.copy()
        told.follow(step, host.step(step), before, host)
        if told.leak:
            break
    return told


def wanted(told):
    """The first lines that may be printed, and the kind of them."""
    if told.leak:
        line, findings = told.leak
        return {"unsafe at line %d: %s" % (line, finding) for finding in findings}, "given away early"
    events = len(told.lines) - 1
    return {"nothing wrong in any of %d event%s" % (events, "s" * (events != 1))}, "right"


def up_to(lines, first):
    """The lines up to the one that is told of."""
    line = re.search(r"line (\d+): ", first)
    return "\n".join(lines[:int(line[1])] if line else lines) + "\n"


def trial(program, seed, is_short=True):
    """The kind of a list of steps by chance, what is wrong with it, if something is, and its acts."""
    told = driver(random.Random(seed))
    text = "\n".join(told.lines) + "\n"
    ran = subprocess.run([program, "judge", "--run"], input=text, capture_output=True, text=True, check=False)
    first, (lines, kind) = ran.stdout.split("\n")[0], wanted(told)
    if first in lines:
        return kind, None, None
    fault = "wanted %s, and the program says %s" % (" or ".join(sorted(lines)), first)
    return kind, fault, up_to(told.lines, first) if is_short else text


if __name__ == "__main__":
    sys.exit(trying.main("the own host as a driver", trial, planted_in_hosts.AS_DRIVER))
