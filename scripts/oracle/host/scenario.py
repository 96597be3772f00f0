"""Scenarios: reading (FORMAT 1 to 3) and the report (FORMAT 8)."""

import re
import sys

from host import Host
from world import refused

WORDS = {
    "space": "", "drop": "N", "map": "N N rw", "unmap": "N N [N]", "unmapr": "N N N", "bind": "N N", "unbind": "N",
    "advance": "N", "pump": "N", "serve": "N", "reset": "N", "take": "N", "answer": "N verdict", "ask": "N N N",
    "use": "N N N rw", "end": "N N", "evict": "N N N", "fault": "N N N access group end", "finish": "N vector N",
    "quit": "N N", "deliver": "N", "look": "N", "bearer": "N"}
CHOICES = {"rw": ("r", "w"), "verdict": ("success", "invalid", "failure"), "access": ("r", "w", "rw"),
           "end": ("more", "last")}


class Fault(Exception):
    """A line fault (FORMAT 2): its line and its cause."""


def number(word):
    """Decimal digits without a leading zero, below 2^64; None for any other word."""
    if re.fullmatch(b"0|[1-9][0-9]{0,19}", word) and int(word) < 1 << 64:
        return int(word)
    return None


def value(word, place):
    """What a word says at its place; None where it isn't what the place asks for."""
    if place in ("N", "[N]"):
        return number(word)
    if place == "vector":
        return int(word, 16) if re.fullmatch(b"[0-9a-f]{8}", word) else None
    if place == "group":
        return "new" if word == b"new" else number(word)
    text = word.decode("latin-1")
    return text if text in CHOICES[place] else None


def read_words(words, places, line):
    least = len([place for place in places if place != "[N]"])
    if not least <= len(words) <= len(places):
        raise Fault(line, "WordCount")
    values = tuple(value(word, place) for word, place in zip(words, places))
    if None in values:
        raise Fault(line, "BadWord")
    return values


def parse(text):
    """The config (E, N, W) and the steps of a scenario; a Fault for the earliest faulty line."""
    lines = text.split(b"\n")
    if lines[-1] == b"":
        lines.pop()
    if len(text) > 1 << 20 or len(lines) > 1 << 16:
        raise Fault(0, "TooLarge")
    config, steps = None, []
    for line, content in enumerate(lines, 1):
        if not content or content.startswith(b"#"):
            continue
        first, *words = content.split(b" ")
        name = first.decode("latin-1")
        if config is None:
            if name != "config":
                raise Fault(line, "NoConfig")
            config = read_words(words, ["N"] * 3, line)
        elif name not in WORDS:
            raise Fault(line, "UnknownStep")
        else:
            steps.append((name,) + read_words(words, WORDS[name].split(), line))
    if config is None:
        raise Fault(len(lines) + 1, "NoConfig")
    return config, steps


def fits(endpoints, frames, workers):
    return 1 <= endpoints <= 8 and 1 <= frames <= 4096 and 1 <= workers <= 4


def report(text):
    """The report of `svahost replay`."""
    try:
        config, steps = parse(text)
    except Fault as fault:
        return "line %d %s\n" % fault.args
    if not fits(*config):
        return refused(1) + "\n"
    host = Host(*config)
    answers = [host.step(step) for step in steps]
    return "".join(answer + "\n" for answer in answers + [host.counts()])


def check(text):
    """What `svahost check` prints (FORMAT 10): no limit of the config is checked."""
    try:
        return "steps %d\n" % len(parse(text)[1])
    except Fault as fault:
        return "line %d %s\n" % fault.args


if __name__ == "__main__":
    sys.stdout.write(report(sys.stdin.buffer.read()))
