"""The command line of scripts/audit, and the way of a log through it."""

import argparse
import gc
import os
import sys

from . import acts, judging, report, texts
from .lines import Refused
from .notes import Notes
from .reading import GIVEN_BACK, Reading
from .shapes import SETTINGS
from .slicing import sliced

ROOT = os.path.dirname(os.path.dirname(os.path.dirname(os.path.dirname(os.path.abspath(__file__)))))
RANKS = (0, 5, 4, 1)  # statuses, the worst last
MICROSECOND = 1e-6


def program():
    """The program that `rt ci` leaves built, or else ./svahost."""
    built = os.path.join(ROOT, "crates/sva_cli/out/sva_cli")
    return built if os.access(built, os.X_OK) else os.path.join(ROOT, "svahost")


def count(word):
    """A whole number from 0 on."""
    value = int(word)
    if value < 0:
        raise ValueError(word)
    return value


def microseconds(word):
    """A time from 0 on, in seconds."""
    value = float(word) * MICROSECOND
    if not 0 <= value < 1:
        raise ValueError(word)
    return value


def options(words):
    """What the words of a command line say."""
    told = "judges what a machine's trace says (docs/DRIVERS.md, section 16)"
    reader = argparse.ArgumentParser(prog="audit", description=told)
    reader.add_argument("logs", nargs="+", metavar="LOG", help="what record-iommu wrote, or --acts; - is standard input")
    reader.add_argument("--free-at", choices=list(GIVEN_BACK), default="free", help="when a frame is another owner's")
    reader.add_argument("--as-if", action="store_true", help="judge a PASID that isn't given back as if it were")
    reader.add_argument("--no-stops", dest="stops", action="store_false", help="no stop is taken for awaited")
    reader.add_argument("--skew", type=microseconds, default=2 * MICROSECOND, metavar="US",
                        help="microseconds within which acts of two CPUs have no order (2)")
    reader.add_argument("--asks", type=count, default=3, help="translations that a device may ask for (3)")
    reader.add_argument("--uses", type=count, default=1, help="uses of them that it may begin (1)")
    reader.add_argument("--most", type=count, default=200000, help="moments that are looked at for a shape (200000)")
    reader.add_argument("--platform", metavar="FILE", help="a file of settings, in place of those of VT-d")
    reader.add_argument("--out", metavar="DIR", help="write each shape as a driver; of one log")
    reader.add_argument("--acts", action="store_true", help="print the acts that were read, and judge nothing")
    reader.add_argument("--svahost", default=program(), metavar="PROGRAM", help="the program that judges")
    said = reader.parse_args(words)
    if said.out and len(said.logs) > 1:
        reader.error("--out is of one log")
    said.settings = SETTINGS
    if said.platform:
        with open(said.platform, encoding="utf-8") as file:
            lines = (line.partition("#")[0].strip() for line in file)
            said.settings = [line for line in lines if line]
    return said


def read_log(stream, said, note):
    """Reads a log, or a text of acts."""
    read = texts.Acts(note) if texts.is_text(stream) else Reading(said.free_at, said.acts, note)
    read.take(stream)
    return read


def audit(name, stream, said, judge):
    """What is said of a log, and the status; with --out its shapes are written."""
    note = Notes()
    try:
        read = read_log(stream, said, note)
    except Refused as error:
        return ["%s: refused: %s" % (name, error)], 1
    if said.acts:
        return (acts.text_of(act, read.has_units()) for act in acts.played(read)), 0
    told, rows, status = report.report(name, read, sliced(read, said), judge, judging.witness)
    if said.out:
        report.write_shapes(said.out, name, rows)
    return told, status


def say(told):
    """Prints lines, as long as somebody reads them."""
    try:
        for line in told:
            print(line)
        sys.stdout.flush()
    except BrokenPipeError:
        os.dup2(os.open(os.devnull, os.O_WRONLY), sys.stdout.fileno())


def main(words):
    """Audits each log: the worst status, or 2 where a file can't be read, or 3 where nothing judges."""
    gc.disable()  # acts are many and in no cycles
    try:
        said = options(words)
        judge, worst = judging.Judge(said.svahost, said.most), 0
        for log in said.logs:
            with sys.stdin.buffer if log == "-" else open(log, "rb") as stream:
                told, status = audit(os.path.basename(log), stream, said, judge)
            say(told)
            worst = max(worst, status, key=RANKS.index)
    except OSError as error:
        print("audit: %s: %s" % (error.filename, error.strerror), file=sys.stderr)
        return 2
    except judging.Broken as error:
        print("audit: %s" % error, file=sys.stderr)
        return 3
    return worst
