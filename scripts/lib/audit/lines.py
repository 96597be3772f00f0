"""The text of a log, as tracefs, `trace-cmd report` or bpftrace print it: `TASK-PID [CPU] FLAGS SECONDS: EVENT: REST`.

    line: SP* TASK "-" PID SP+ ["(" TGID ")" SP+] "[" CPU "]" SP+ [FLAGS SP+] SECONDS ":" SP+ EVENT ":" SP* REST "\\n"

TASK may have blanks and `-`; SECONDS have a point; FLAGS are 4 to 6 characters. A line that begins with `#` is a
comment, and a blank one, or one that begins with `cpus=` or `version = ` and a digit, says nothing."""

import re

BLOCK = 1 << 18  # bytes that are read at once
LONGEST = 1 << 20  # bytes of a line
MOST = 1 << 64  # above each number

LINE = re.compile(
    r"^(?:(?!#) *\S[^\n]*?-(\d+) +(?:\( *[\d-]+\) +)?\[(\d+)\] +(?:([A-Za-z.\d#*]{4,6}) +)?"
    r"(\d{1,12}\.\d{1,9}): +(\w+): *([^\n]*)|([^\n]*))\n",
    re.M,
)
LOST = re.compile(r"\[LOST .*EVENTS\]|EVENTS DROPPED|\bLOST \d+ EVENTS")
MAY_BE_LOST = ("LOST", "DROPPED")
SILENT = re.compile(r"(cpus=|version = )\d")
DEVICE = re.compile(r"([0-9a-f]{4}):([0-9a-f]{2}):([0-9a-f]{2})\.([0-7])")
FIELD = re.compile(r"(?<!\S)(\w+)=(0x[0-9a-f]+|\d+)(?!\S)")
INTERRUPTS = frozenset("hHsZz")  # the third flag: within an interrupt


class Refused(Exception):
    """Why a log can't be judged."""


def blocks(stream):
    """The text of a stream of bytes, in pieces of whole lines. The last piece lacks its end where the text does."""
    rest = b""
    while data := stream.read(BLOCK):
        cut = data.rfind(b"\n") + 1
        if cut:
            yield (rest + data[:cut]).decode("latin-1")
            rest = data[cut:]
        else:
            rest += data
        if len(rest) > LONGEST:
            break
    if rest:
        yield rest.decode("latin-1")


def place_of(pid, cpu, flags):
    """Where a line is from, within which lines follow one another: a task, of task 0 each CPU, and its interrupts."""
    third = flags[2:3]
    return pid, cpu if pid == "0" else "", third if third in INTERRUPTS else ""


def number(word, at):
    """The number that a word of line `at` is, below 2^64: decimal, or hexadecimal behind 0x."""
    try:
        value = int(word, 0)
    except ValueError:
        raise Refused("line %d: no number: %s" % (at, word)) from None
    if value >= MOST:
        raise Refused("line %d: no number of 64 bits: %s" % (at, word))
    return value


def fields(rest):
    """What stands behind each NAME= between blanks, as its text; of one that stands twice the first."""
    return dict(reversed(FIELD.findall(rest)))


def pointer(name, told, at):
    """The pointer NAME= of these fields of line `at`, as its text: it is a name and no more."""
    word = told.get(name, "")
    if not word.startswith("0x"):
        raise Refused("line %d: %s= is missing" % (at, name))
    return word


def field(name, told, at):
    """The number NAME= of these fields of line `at`."""
    if name not in told:
        raise Refused("line %d: %s= is missing" % (at, name))
    return number(told[name], at)


def device_in(text):
    """The number (SID) of the first device that a text names, as 0000:01:00.0, or None."""
    found = DEVICE.search(text)
    return found and int(found[2], 16) << 8 | int(found[3], 16) << 3 | int(found[4]) if found else None
