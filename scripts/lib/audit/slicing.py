"""The acts of a log, in order, to slices of pages, PASIDs and tables."""

from . import acts
from .bindings import Bindings
from .pages import Pages
from .shapes import Found


def sliced(read, options):
    """The shapes of a log that was read."""
    found = Found(options)
    pages = Pages(read.facts, options, found, read.note)
    bindings = Bindings(read.facts, options, found, read.note)
    takes = takers(pages, bindings)
    last, opened = read.last, {}
    for act in acts.played(read):
        where, kind = act[:3], act[3]
        if found.is_waiting():
            found.go_on(where[1])
        if kind == "submit":
            opened[act[4].number] = act[4].unit
            pages.submitted(where, act[4])
            bindings.submitted(where, act[4])
        elif kind == "done":
            numbers = done_by(act[4], opened)
            pages.done(where, numbers)
            bindings.done(where, numbers)
        elif kind in takes:
            takes[kind](where, *act[4:])
    bindings.left(last)
    found.go_on(None)
    pages.left()
    return found


def done_by(number, opened):
    """The submissions that are done when the wait of this one is: its own, and all that its unit was given before it.
    They are taken out of those that are open, which has each one's unit, in the queue's order."""
    if number not in opened:
        return []
    numbers = []
    for each in list(opened):
        if opened[each] == opened[number]:
            numbers.append(each)
        if each == number:
            break
    for each in numbers:
        del opened[each]
    return numbers


def takers(pages, bindings):
    """What takes an act, by its kind."""

    def gone(where, pasid, sid):
        """The entry of a PASID goes, for its pages too."""
        pages.gone(where, pasid, sid, bindings.gone(where, pasid, sid))

    def table_gone(where, name):
        """The table of a space goes."""
        pages.table_gone(name)
        bindings.table_gone(where, name)

    return {
        "map": pages.map,
        "clear": pages.clear,
        "free": pages.free,
        "release": pages.release,
        "tag": lambda _, did, pasid, sid: pages.lost[did, pasid].discard(sid),
        "untag": lambda _, did, pasid, sid: pages.lost[did, pasid].add(sid),
        "bind": bindings.bind,
        "stop": lambda where, sid, pasid: bindings.stop(where, "stop 0 1", sid, pasid),
        "stopped": lambda where, sid, pasid: bindings.stop(where, "await stopped 0 1", sid, pasid),
        "gone": gone,
        "drain": bindings.drain,
        "pasidfree": bindings.pasid_gone,
        "pgdfree": table_gone,
    }
