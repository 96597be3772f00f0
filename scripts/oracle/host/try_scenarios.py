"""Scenarios by chance: what `svahost replay`, `check` and `show` print, and what the model does, byte for byte.
    try_scenarios.py PROGRAM TRIALS|--planted SEED
"""

import pathlib
import random
import subprocess
import sys

sys.path.insert(1, str(pathlib.Path(__file__).parents[1]))
import planted_in_hosts
import trying
from host import Host
from openings import opening
from propose import PROFILES, Proposer, text_of
from scenario import check, report
from show import show_text


def scenario(rng, profile):
    """The lines of a random scenario."""
    endpoints = rng.choice([1, 1, 2, 2, 2, 3, 8])
    frames = rng.choice([1, 2, 4, 8, 16, 64, 200, 4096])
    steps = opening(rng, endpoints)
    if profile == "pages" or len(steps) > 1000:
        frames = 4096
    elif steps or profile.startswith(("full", "all itags")):
        frames = max(frames, 64)
    config = (endpoints, frames, rng.randint(1, 4))
    host = Host(*config)
    for step in steps:
        host.step(step)
    proposer = Proposer(rng, host, profile)
    length = rng.choice([1400, 2000]) if profile == "pages" else rng.randint(20, 400)
    for _ in range(length):
        step = proposer.step()
        steps.append(step)
        host.step(step)
        if rng.random() < 0.02:
            steps += proposer.probes()
    return ["config %d %d %d" % config] + [text_of(step) for step in steps]


def spoil(rng, text):
    """Sometimes the text with a few bytes changed: mostly a line fault."""
    data = bytearray(text)
    for _ in range(rng.randint(1, 3)):
        place = rng.randrange(len(data))
        change = rng.randrange(3)
        if change == 0:
            data[place] = rng.choice(b"0123456789 abrwx\r\n#")
        elif change == 1:
            del data[place]
        else:
            data.insert(place, rng.choice(b"0 19fa\r\n#\x00\xff"))
    return bytes(data)


def replay(program, text):
    """The report; the status is 1 of a line fault or BadConfig, and else 0 (FORMAT 10)."""
    ran = subprocess.run([program, "replay"], input=text, stdout=subprocess.PIPE, check=False)
    is_fault = ran.stdout.startswith(b"line ") or ran.stdout == b"refused 1 BadConfig\n"
    return ran.stdout if ran.returncode == is_fault else b"status %d" % ran.returncode


def said_by(program, command, text):
    return subprocess.run([program, command], input=text, stdout=subprocess.PIPE, check=False).stdout


def differs(program, text, has_fault):
    """Whether the report, the count of steps, or what is kept after the last step isn't the model's."""
    if replay(program, text) != report(text).encode():
        return True
    if said_by(program, "check", text) != check(text).encode():
        return True
    return not has_fault and said_by(program, "show", text) != show_text(text).encode()


def smallest(program, text, has_fault):
    """Leaves lines out as long as the two still differ."""
    lines = text.split(b"\n")
    size = max(1, len(lines) // 2)
    while size:
        place = 1
        while place < len(lines):
            fewer = b"\n".join(lines[:place] + lines[place + size:])
            if differs(program, fewer, has_fault):
                lines = lines[:place] + lines[place + size:]
            else:
                place += size
        size //= 2
    return b"\n".join(lines)


def trial(program, seed, is_short=True):
    """The kind of a scenario by chance, what is wrong with it, if something is, and its text, made short."""
    rng = random.Random(seed)
    profile = rng.choice([name for name in PROFILES if name != "pages" or rng.random() < 0.1])
    text = ("\n".join(scenario(rng, profile)) + "\n").encode()
    is_spoilt = rng.random() < 0.1
    text = spoil(rng, text) if is_spoilt else text
    kind = "spoilt" if is_spoilt else profile
    if not differs(program, text, is_spoilt):
        return kind, None, None
    text = smallest(program, text, is_spoilt) if is_short else text
    return kind, "the program and the model differ", text.decode("latin-1")


if __name__ == "__main__":
    sys.exit(trying.main("scenarios", trial, planted_in_hosts.OF_STEPS))
