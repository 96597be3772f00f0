"""What is said of a log: counts, notes, the shapes with the worst first, and the verdict."""

import collections
import os

RANKS = {"unsafe": 0, "stuck": 1, "cut": 2, "safe": 3}
KINDS = ("page", "PASID", "table")


def plural(count, word):
    """A count of things."""
    return "%d %s%s" % (count, word, "" if count == 1 else "s")


class Row:
    """A shape with its verdict."""

    def __init__(self, shape, said):
        self.shape, self.said, self.verdict = shape, said[0], said[0].split()[0]
        self.is_bad = self.verdict in ("unsafe", "stuck")
        self.lines = said

    def place(self):
        """Where it stands: the worst first, of these that of most slices, of these that of the first line."""
        shape = self.shape
        return RANKS.get(self.verdict, 4), -shape.count, shape.acts[0][0], shape.order

    def heading(self):
        """What it is of."""
        return "%s, %s: %s" % (plural(self.shape.count, self.shape.kind), self.shape.how, self.said)

    def first(self):
        """The first of its slices."""
        who = self.shape.who
        if self.shape.kind == "page":
            name = "device 0x%x, page 0x%x, frame 0x%x" % (who[0], who[2], who[3])
        else:
            name = "device 0x%x, PASID %d" % who
        return "  first: %s, lines %s" % (name, " ".join(map(str, self.shape.first_lines())))


def rows_of(found, judge):
    """The shapes with their verdicts, the worst first."""
    shapes = found.shapes.values()
    said = judge.judge([shape.text for shape in shapes if not shape.said])
    return sorted((Row(shape, [shape.said] if shape.said else said[shape.text]) for shape in shapes), key=Row.place)


def counts_of(rows):
    """A line of verdicts for each kind of slice that there is."""
    total = collections.Counter()
    for row in rows:
        total[row.shape.kind, row.verdict] += row.shape.count
    told = []
    for kind in KINDS:
        some = [(verdict, total[kind, verdict]) for verdict in RANKS if total[kind, verdict]]
        words = ["%d %s" % (count, "cut off" if verdict == "cut" else verdict) for verdict, count in some]
        told += ["%s: %s" % (plural(sum(count for _, count in some), kind), ", ".join(words))] if some else []
    return told


def verdict_of(rows, note):
    """The last line, and the status."""
    if any(row.is_bad for row in rows):
        return "verdict: unsafe", 4
    if not rows or any(row.verdict == "cut" for row in rows):
        return "verdict: " + ("cut off" if rows else "nothing judged"), 5
    some = [plural(count, word) for word in ("page", "PASID") if (count := note.sum_of(word + "s"))]
    return "verdict: safe" + ("; not judged: " + " and ".join(some) if some else ""), 0


def report(name, read, found, judge, witness):
    """What is printed of a log that was read, the rows, and the status."""
    rows = rows_of(found, judge)
    told = ["%s: %s, %s, %s" % (name, plural(read.lines, "line"), plural(read.acts, "act"),
                                plural(read.submissions(), "submission"))]
    told += counts_of(rows)
    told += ["note: " + text for text in read.note.texts()]
    if found.near:
        told.append("note: slices with acts of two CPUs within the skew, judged in each order: %d" % found.near)
    for at, row in enumerate(rows):
        told += ["shape %d: %s" % (at, row.heading()), row.first()]
        if row.is_bad:
            told += ["  | " + line for line in witness(row.lines, row.shape.line_of)]
    last, status = verdict_of(rows, read.note)
    return told + [last], rows, status


def write_shapes(folder, name, rows):
    """Writes the driver of each shape to FOLDER/shape-I.svd."""
    os.makedirs(folder, exist_ok=True)
    for at, row in enumerate(rows):
        with open(os.path.join(folder, "shape-%d.svd" % at), "w", encoding="utf-8") as file:
            first = "%s of %s, %s" % (plural(row.shape.count, row.shape.kind), name, row.shape.how)
            file.write("# %s: %s\n%s" % (first, row.said, row.shape.text))
