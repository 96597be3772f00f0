"""From the Markdown of the documents to the macros of man."""

import re

HEADING = re.compile(r"(#{2,3}) (?:\d+\. )?(.*)")
ITEM = re.compile(r"(- |\d+\. )(.*)")
# What begins a line that isn't of a paragraph.
OTHER = re.compile(r"\||```|#{2,3} |- |\d+\. |<!--")


def plain(text, hyphen="-"):
    """A text that stands for itself."""
    for sign, name in (("\\", "\\e"), ("'", "\\(aq"), ("`", "\\(ga"), ("^", "\\(ha"), ("~", "\\(ti"), ("-", hyphen)):
        text = text.replace(sign, name)
    return re.sub(r"^\.", r"\\&.", text, flags=re.M)


def code(text):
    """A text as it is typed."""
    return plain(text, "\\-")


def inline(text):
    """Words of a paragraph: code and what is bold are bold, and of a link its text stands there."""
    text = re.sub(r"\[((?:[^]`]|`[^`]*`)*)\]\([^)]*\)", r"\1", " ".join(text.split()))
    made, around = "", "\\fR"
    for it in re.finditer(r"`([^`]*)`|\*\*|(?<!\w)\*(?=\w)([^*]*)(?<=\w)\*|[^`*]+|.", text):
        if it[1] is not None:
            made += f"\\fB{code(it[1])}{around}"
        elif it[2] is not None:
            made += f"\\fI{plain(it[2])}{around}"
        elif it[0] == "**":
            around = "\\fB" if around == "\\fR" else "\\fR"
            made += around
        else:
            made += plain(it[0])
    return "\\&" + made if made.startswith((".", "\\(aq")) else made


def block(lines):
    """Lines as they stand."""
    return [".PP", ".RS 4", ".nf", *("\\&" + code(line) if line.strip() else "" for line in lines), ".fi", ".RE"]


def entry(tag, text):
    """A tag that is made, and what is said of it, as lines that are made."""
    return [".TP", tag, *text]


def cells(line):
    return [cell.strip() for cell in line.strip().strip("|").split("|")]


def table(lines):
    """A table: the first column is what the others are said of, each by its head where there are several."""
    heads, made = cells(lines[0]), []
    for row in (cells(line) for line in lines[2:]):
        said = [(head, cell) for head, cell in zip(heads[1:], row[1:]) if cell]
        texts = [inline(cell) if len(heads) == 2 else f"\\fI{plain(head)}:\\fR {inline(cell)}" for head, cell in said]
        apart = [line for text in texts for line in (".br", text)][1:]
        made += entry(inline(row[0]), apart or ["\\&"])
    return made


def taken(lines, at, is_of):
    """How far the lines from this one on are of one thing."""
    end = at
    while end < len(lines) and is_of(lines[end]):
        end += 1
    return end


def item(lines, at):
    """An item of a list, and where it ends. What is deeper stands within it."""
    mark = ITEM.match(lines[at])
    deep = " " * len(mark[1])
    end = taken(lines, at + 1, lambda it: it.startswith(deep) or not it.strip())
    own = [mark[2], *(line[len(deep):] for line in lines[at + 1:end])]
    made = rendered(own)
    if made[:1] == [".PP"]:
        del made[0]
    tag = "\\(bu 2" if mark[1] == "- " else f"{mark[1].strip()} 4"
    return [f".IP {tag}", made[0], *([".RS 4", *made[1:], ".RE"] if made[1:] else [])], end


def rendered(lines):
    """Lines of Markdown, as lines for man."""
    made, at = [], 0
    while at < len(lines):
        line, end = lines[at], at + 1
        heading = HEADING.match(line)
        if heading:
            made += [f".SH {plain(heading[2]).upper()}" if heading[1] == "##" else f".SS {inline(heading[2])}"]
        elif line.startswith("```"):
            end = taken(lines, at + 1, lambda it: not it.startswith("```")) + 1
            made += block(lines[at + 1:end - 1])
        elif line.startswith("    "):
            end = taken(lines, at, lambda it: it.startswith("    ") or not it.strip())
            made += block([it[4:] for it in "\n".join(lines[at:end]).rstrip().split("\n")])
        elif line.startswith("|"):
            end = taken(lines, at, lambda it: it.startswith("|"))
            made += table(lines[at:end])
        elif ITEM.match(line):
            some, end = item(lines, at)
            made += some
        elif line.strip() and not line.startswith("<!--"):
            end = taken(lines, at + 1, lambda it: it.strip() and not OTHER.match(it))
            made += [".PP", inline("\n".join(lines[at:end]))]
        at = end
    return made


def section(text, begin, level=None):
    """The lines of a document's section that begins so, its heading first; of an inner one by `level`, ###."""
    lines = text.split("\n")
    marks = "## " if level is None else ("## ", "### ")
    for at, line in enumerate(lines):
        if line.startswith(begin):
            return lines[at:taken(lines, at + 1, lambda it: not it.startswith(marks))]
    raise SystemExit(f"man: no section of docs/SCENARIOS.md, SCRIPTS.md and DRIVERS.md begins with '{begin}'")
