"""Slices to drivers (docs/DRIVERS.md, section 15): names are canonical, so that equal slices are one *shape*, which is
judged once. Each is endpoint 0, PASID 1, page 16, frame 0, space 0."""

import collections

from .pages import MOST_ACTS

SETTINGS = ("platform vt-d", "stopped status")
PAGES = "config 1 %d 1\n%sdevice 0 %d asks %d uses pages 16"
OTHERS = "config 1 %d 1\nworkers success\n%sdevice 0 1 asks 1 uses 1 faults pages 16"
MOST_SHAPES = 4096
BEGUN = ("entry 0 1 0", "start 0 1", "deliver start 0", "race")


class Shape:
    """Slices that are one driver: how many, and the first of them. Where `said` is their verdict none is judged."""

    def __init__(self, kind, how, said=None):
        self.kind, self.how, self.said = kind, how, said
        self.text, self.line_of = "", []  # the driver, and of each of its lines the log's line, or 0
        self.count, self.order, self.who, self.acts = 0, None, None, None

    def first_lines(self):
        """The log's lines of the first slice's acts, each once."""
        return list(dict.fromkeys(act[0] for act in self.acts if act[0]))


class Found:
    """All shapes. A clean slice is kept until the skew is over: a free of its frame by another CPU may have come
    before its end."""

    def __init__(self, options):
        self.options = options
        self.shapes, self.near = {}, 0
        self._count = 0
        self._ended = collections.deque()  # clean slices that ended just now: [order, slice, how, seconds, CPU]
        self._of_frame = collections.defaultdict(list)

    def ended_page(self, one, how, where):
        """A slice of a page has ended."""
        self._count += 1
        if how != "clean" or not self.options.skew:
            self._take("page", how, one.key(), one.acts, one.is_near, self._count)
            return
        ended = [self._count, one, how, where[1], where[2]]
        self._ended.append(ended)
        self._of_frame[one.frame].append(ended)

    def ended_pasid(self, kind, who, how, acts):
        """A slice of a PASID or a table has ended."""
        self._count += 1
        self._take(kind, how, who, acts, False, self._count)

    def freed(self, where, frame, count):
        """Frames are given back: a slice that was clean just before on another CPU may have ended by this."""
        if not self._of_frame:
            return
        for each in [each for each in self._of_frame if frame <= each < frame + count]:
            for ended in self._of_frame.pop(each):
                if where[1] - ended[3] < self.options.skew and where[2] != ended[4]:
                    one = ended[1]
                    one.acts[-1] = where[0], "free 0", where[1], where[2], None
                    one.is_near, ended[2] = True, "given back"

    def is_waiting(self):
        """Whether a slice has ended just now."""
        return bool(self._ended)

    def go_on(self, seconds):
        """The log is at this time: what ended too long before is taken."""
        ended = self._ended
        while ended and (seconds is None or not seconds - ended[0][3] < self.options.skew):
            order, one, how, _, _ = last = ended.popleft()
            there = self._of_frame.get(one.frame)
            if there and last in there:
                there.remove(last)
                if not there:
                    del self._of_frame[one.frame]
            self._take("page", how, one.key(), one.acts, one.is_near, order)

    def _take(self, kind, how, who, acts, is_near, order):
        self.near += is_near
        if len(acts) > MOST_ACTS:
            shape = self._shape((kind, "too long"), "cut off: more than %d acts" % MOST_ACTS)
        else:
            key = kind, how, is_near and driver(kind, acts, self.options, True)[0] or numbered(acts)
            shape = self.shapes.get(key) or self._shape(key, None)
        shape.count += 1
        if shape.order is None or order < shape.order:
            shape.order, shape.who, shape.acts = order, who, acts
            shape.text, shape.line_of = driver(kind, acts, self.options, is_near)

    def _shape(self, key, said):
        """The shape of this key; where there are too many, one for all that are further ones."""
        if key not in self.shapes and len(self.shapes) >= MOST_SHAPES:
            key, said = (key[0], "further ones"), "cut off: more than %d shapes" % MOST_SHAPES
        return self.shapes.setdefault(key, Shape(key[0], key[1], said))


def numbered(acts):
    """What acts are but for lines, times and the numbers of submissions, which are counted from 0."""
    names, told = {}, []
    for _, text, _, _, number in acts:
        if number is None:
            told.append(text)
        elif text != "await":
            names[number] = len(names)
            told.append(text)
        elif number in names:
            told.append(names[number])
    return tuple(told)


def lines_of(kind, acts):
    """The lines of a slice that stand before `race`, and those behind it, each (text, act)."""
    names, head, body = {}, [], []
    for act in acts:
        text, number = act[1], act[4]
        if number is not None and text != "await":
            names[number] = "w%d" % len(names)
            body.append(("%s: %s" % (names[number], text), act))
        elif number is not None:
            if number in names:
                body.append(("await " + names[number], act))
        elif text.startswith("pte") and not text.endswith("none") and not body:
            head.append(text)
        else:
            body.append((text, act))
    return head if kind == "page" else ["pte 0 16 0 w"], body


def driver(kind, acts, options, is_near):
    """The driver of a slice, and of each of its lines the line of the log, or 0."""
    head, body = lines_of(kind, acts)
    settings = "".join(line + "\n" for line in options.settings)
    frames = 2 if is_near else 1
    if kind == "page":
        above = PAGES % (frames, settings, options.asks, options.uses)
    else:
        above = OTHERS % (frames, settings)
    text = above.split("\n") + head + list(BEGUN)
    lines, line_of = [line for line, _ in body], [act[0] for _, act in body]
    if is_near:
        lines, line_of = by_threads(body, options.skew)
    return "\n".join(text + lines) + "\n", [0] * len(text) + line_of


def by_threads(body, skew):
    """A thread for each CPU, in which an act awaits those of other CPUs that are earlier by the skew or more. So a
    search takes each order that the log permits. A submission is awaited by the line behind it, as to await its own
    name is to await its wait."""
    text, line_of = [], []
    submitted = {line.split(":")[0]: at for at, (line, _) in enumerate(body) if ": submit" in line}
    cpus = list(dict.fromkeys(act[3] for _, act in body))
    for cpu in cpus:
        text.append("thread cpu%d" % cpu)
        line_of.append(0)
        awaited = {}
        for at, (line, act) in enumerate(body):
            if act[3] != cpu:
                continue
            for other in cpus:
                past = [i for i, (_, each) in enumerate(body) if each[3] == other and each[2] < act[2] - skew]
                if other != cpu and past and awaited.get(other, -1) < past[-1]:
                    awaited[other] = past[-1]
                    text.append("await a%d" % past[-1])
                    line_of.append(0)
            added = lines_in_thread(line, at, submitted)
            text += added
            line_of += [act[0]] * len(added)
    return text, line_of


def lines_in_thread(line, at, submitted):
    """The lines of act number `at` in its thread."""
    name, _, rest = line.partition(": ")
    if rest:
        return ["s%d: %s" % (at, rest), "a%d: freeze 1" % at]
    if line.startswith("await w"):
        line = "await s%d" % submitted[line[6:]]
    return ["a%d: %s" % (at, line)]
