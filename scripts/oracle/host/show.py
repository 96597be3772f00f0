"""What the host keeps, as `svahost show` prints it (FORMAT 12)."""

import sys

from host import Host, decode
from scenario import parse
from world import DRAINING, INVALIDATING

VERDICTS = {0: "success", 1: "invalid", 15: "failure"}


def row(label, number, text):
    return "%-11s %s" % ("%s %d" % (label, number) if number is not None else label, text)


def way(reads, writes):
    return ("r" if reads else "") + ("w" if writes else "") or "-"


def pages_of(scope):
    """The pages of a range (first page, order), or of None."""
    if scope is None:
        return "all pages"
    page, order = scope
    return "page %d" % page if order == 0 else "pages %d..%d" % (page, page + (1 << order) - 1)


def entry(pasid, page, frame, writes):
    return "pasid %d page %d frame %d%s" % (pasid, page, frame, " w" if writes else "")


def filed(requests):
    return ", ".join("%d %s" % (page, way(reads, writes)) for page, reads, writes in requests)


def show_spaces(host):
    for number, pages in sorted(host.spaces.items()):
        for page, (frame, writes) in sorted(pages.items()):
            yield row("space", number, "page %d frame %d%s" % (page, frame, " w" if writes else ""))
        if not pages:
            yield row("space", number, "no pages")
    for frame, awaited in sorted(host.withheld.items()):
        waits = ["unit %d %s" % (unit, "end of reset" if what == "reset" else "wait %d" % what)
                 for unit, what in sorted(awaited, key=lambda each: each[0])]
        yield row("frame", frame, "withheld: " + ", ".join(waits))
    for number, (endpoint, space, pasid, stage, marked, cookie) in sorted(host.bindings.items()):
        if stage in (DRAINING, INVALIDATING):
            stage = "%s wait %d" % (stage, cookie)
        stage = "marked" if marked else stage
        yield row("binding", number, "endpoint %d space %d pasid %d %s" % (endpoint, space, pasid, stage))


def show_endpoint(number, device):
    states = {"unfinished": "collecting"}
    texts = ["pasid %d %s" % each for each in sorted(device.pasids.items())]
    texts += ["cached " + entry(*key, *held) for key, held in sorted(device.held.items())]
    texts += ["tag %d pasid %d page %d%s" % (tag, pasid, page, " doomed" if is_doomed else "")
              for tag, (pasid, page, is_doomed) in sorted(device.tags.items())]
    texts += ["use %d %s" % (slot, entry(*use) if use else "dead") for slot, use in sorted(device.uses.items())]
    for itag, (pasid, scope, noted) in sorted(device.taken.items()):
        uses = " uses {%s}" % ",".join(str(slot) for slot in sorted(noted)) if noted else ""
        texts.append("itag %d pasid %d %s%s" % (itag, pasid, pages_of(scope), uses))
    texts += ["group %d pasid %d %s %d" % (index, pasid, states.get(state, state), count)
              for index, (pasid, state, count) in sorted(device.groups.items())]
    if device.is_disabled:
        texts.append("page requests disabled")
    return [row("endpoint", number, text) for text in texts]


def show_unit(number, unit, host):
    texts = ["%s, waits done below %d" % ("open" if unit.is_open else "in reset", unit.front)]
    for kind, *words in unit.queue:
        if kind == "wait":
            texts.append("queued wait %d%s" % (words[0], " drain" if words[1] else ""))
        else:
            texts.append("queued %s of pasid %d" % (pages_of(tuple(words[1:]) or None), words[0]))
    for itag, (wanted, come) in sorted(unit.itags.items()):
        texts.append("itag %d busy%s" % (itag, ", %d of %d" % (come, wanted) if wanted else ""))
    for pasid, index, page, reads, writes, last in unit.requests:
        texts.append("page-request pasid %d group %d page %d %s %s" % (
            pasid, index, page, way(reads, writes), "last" if last else "more"))
    whole = {job[:3]: job[3] for job in list(host.jobs) + [job for job in host.hands if job]}
    for key in host.opened:
        if key[0] == number:
            state = "part" if key in host.parts else "whole"
            requests = host.parts.get(key) or whole[key]
            texts.append("group %d binding %d %s: %s" % (key[2], key[1], state, filed(requests)))
    return [row("unit", number, text) for text in texts]


def message_text(kind, fields):
    if kind in ("start", "stop", "marker"):
        return "%s pasid %d" % (kind, *fields)
    if kind == "completion":
        return "%s tag %d frame %d %s" % (kind, fields[0], fields[1], way(*fields[2:]))
    if kind == "invalidate":
        return "%s itag %d pasid %d %s" % (kind, fields[0], fields[1], pages_of(fields[2] and decode(fields[2])))
    if kind == "response":
        return "%s pasid %d group %d %s" % (kind, fields[0], fields[1], VERDICTS[fields[2]])
    if kind == "request":
        return "%s tag %d pasid %d page %d" % (kind, *fields)
    if kind == "invalidated":
        return "%s %08x count %d" % (kind, *fields)
    if kind == "page-request":
        return "%s pasid %d group %d page %d %s %s" % (kind, *fields[:3], way(*fields[3:5]),
                                                       "last" if fields[5] else "more")
    return kind


def show_messages(host):
    for number, (endpoint, kind, fields) in host.messages.items():
        behind = [other for other, (at, older, _) in host.messages.items()
                  if other < number and at == endpoint and host.stays_behind(kind, fields, older)]
        state = "behind %d" % behind[0] if behind else "may be delivered"
        yield row("message", number, "endpoint %d %s, %s" % (endpoint, message_text(kind, fields), state))


def show(host):
    """All lines of `svahost show`."""
    lines = list(show_spaces(host))
    for number, device in enumerate(host.endpoints):
        lines += show_endpoint(number, device)
    for number, unit in enumerate(host.units):
        lines += show_unit(number, unit, host)
    jobs = [("job", None, job) for job in host.jobs]
    jobs += [("worker", worker, job) for worker, job in enumerate(host.hands) if job]
    for label, number, (endpoint, binding, index, requests) in jobs:
        lines.append(row(label, number, "endpoint %d binding %d group %d: %s" % (endpoint, binding, index,
                                                                                 filed(requests))))
    lines += show_messages(host)
    return "\n".join(lines + [row("frames", None, host.counts())]) + "\n"


def show_text(text):
    """What `show` prints of a scenario without faults."""
    config, steps = parse(text)
    host = Host(*config)
    for step in steps:
        host.step(step)
    return show(host)


if __name__ == "__main__":
    sys.stdout.write(show_text(sys.stdin.buffer.read()))
