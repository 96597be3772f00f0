"""What stands of words and forms in documents, in the help, and in the model in Python: triples, as in code.py."""

import functools
import itertools
import re

from lib.words.code import FIELDS, words_in
from lib.words.table import WORD, expanded, is_one_of

# How two tables of the model write a field, and any other one.
IN_MODEL = {"WORDS": ({"r|w": "rw", "V": "verdict", "A": "access", "G": "group", "L": "end", "VECTOR": "vector", "[COUNT]": "[N]"}, "N"),
            "PLACES": ({"r|w": "w", "V": "w", "A": "w", "L": "w", "G": "G", "VECTOR": "V", "PAGE": "page", **{it: it for it in "SBEUPMF"}}, "n")}


def section(text, begin, end):
    """From where to where a part of a document stands: from this text up to that."""
    start = text.find(begin)
    stop = text.find(end, start + 1)
    return (start, stop if stop >= 0 else len(text)) if start >= 0 else (0, 0)


def cells(text, begin, end, columns):
    """The cells of the tables of a part of a document, in columns whose heads begin so, each with its place."""
    start, stop = section(text, begin, end)
    heads, at = [], start
    for line in text[start:stop].splitlines(keepends=True):
        if not line.startswith("|"):
            heads = []
        else:
            parts = line.rstrip("\n")[1:-1].split("|")
            places = itertools.accumulate([at + 1, *(len(part) + 1 for part in parts)])
            if not heads:
                heads = [part.strip() for part in parts]
            elif set(line.strip()) - set("|-:"):
                yield from ((part, place) for head, part, place in zip(heads, parts, places) if head.startswith(columns))
        at += len(line)


def written(row, language, table):
    """How a document may write a row's form."""
    form, choices = row.form, {it.first: it.words for it in table.of("place", language)}
    if row.first == "device" and language == "r":
        form = "device E " + " ".join(f"[{part.form}]" for part in table.of("part", "r"))
    if row.sort == "counts":
        yield f"`{form.partition('=> ')[2]}`"
    yield f"`{form}`"
    yield ", ".join(f"`{it}`" for it in sorted(expanded(form), key=len))
    for tokens in (row.tokens, [*row.tokens[:-1], "|".join(choices.get(row.tokens[-1], row.tokens[-1:]))]):
        first = next((at for at, token in enumerate(tokens) if "|" in token), None)
        if first is not None:
            head, words = " ".join(tokens[:first]), tokens[first].split("|")
            others = [" or ".join(f"`{it}`" if WORD.fullmatch(it) else it for it in token.split("|")) for token in tokens[first + 1:]]
            yield ", ".join([" or ".join([f"`{head} {words[0]}`", *(f"`{it}`" for it in words[1:])]), *others])
            yield ", ".join([f"`{head} {words[0]}`", *(f"`{it}`" for it in words[1:-1])]) + f" or `{words[-1]}`"
            yield ", ".join(f"`{head} {it}`" for it in words)


@functools.lru_cache(maxsize=64)
def ways_of(rows, language, table, before):
    """All ways to write these rows, the longest first; also with a word before the form."""
    ways = [(way.replace("`", "`" + more, 1), row) for row in rows for way in written(row, language, table) for more in {before, ""}]
    return sorted(ways, key=lambda it: -len(it[0]))


def forms_in_cells(found, rows, language, table, before=""):
    """The forms of rows that stand in cells; and what else stands there in backticks, but for single words of the table:
    that has a `?`."""
    for cell, at in found:
        for way, row in ways_of(tuple(rows), language, table, before):
            while way in cell:
                place = cell.index(way)
                yield row.form, at + place, at + place + len(way)
                cell = cell.replace(way, "\0" * len(way), 1)
        for it in re.finditer(r"`([^`]*)`", cell):
            if it[1] not in table.vocabulary and re.search(r"(?<![\w-])[a-z]{2}", it[1]):
                yield f"? {it[1]}", at + it.start(), at + it.end()


def forms_in_text(text, part, rows, language, table):
    """The forms of rows wherever a part of a document has them."""
    start, stop = section(text, *part)
    for row, way in {(row, way): None for row in rows for way in written(row, language, table)}:
        way = r"\s+".join(re.escape(word) for word in way.split(" "))
        yield from ((row.form, it.start(), it.end()) for it in re.compile(way).finditer(text, start, stop))


def forms_in_help(text, part, rows, others, table):
    """The forms that a part of the help has: at the beginning of lines, in backticks, where it is of several words or a
    condition, and with another word `for` some of a form's. One of no row, nor of others, has a `?`; so has a row of which not all words stand there, where it has one of several."""
    start, stop = section(text, *part)
    said, choices = {}, {it.first: it.words for it in table.of("place")}
    alone = {row.form for row in rows if row.sort == "condition"}
    for it in re.finditer(r"^    (\S+(?: \S+)*)((?:  .*)?\n(?: {20,}.*\n)*)", text[start:stop], re.M):
        forms = it[1].split(", ") + [way for way in re.findall(r"`(?:NAME: )?([^`]+)`", it[2]) if " " in way or way in alone]
        forms += [it[1].removesuffix(old) + word for word, old in re.findall(r"`(\w+)` for ([\w ]+):", it[2])]
        for form in forms:
            fit = [row for row in rows if is_one_of(form, row, table)]
            for key in [*fit, *(token for row in fit for token in row.tokens if token in choices)]:
                said.setdefault(key, set()).update(re.findall(r"[\w-]+", form), re.findall(r"`(\w+)`", it[2]))
            if fit or not any(is_one_of(form, row, table) for row in others):
                yield from ((item, start + it.start(), start + it.end(1)) for item in [row.form for row in fit] or [f"? {form}"])
    for key, words in said.items():
        wanted = {key, *choices[key]} if key in choices and key not in words else set() if key in choices else {*key.words}
        name = key if key in choices else key.form
        yield from ((f"? {name} without {word}", start, start) for word in sorted(wanted - words - {name}))


def told_in_cells(text, part, column):
    """The texts in backticks in a column, without the word that is near. Each stands for its last letter."""
    for cell, at in cells(text, *part, column):
        for it in re.finditer(r"`([^`]*?)(?: \([\w-]+\?\))?`", cell):
            yield it[1], at + it.end(1) - 1, at + it.end(1)


def kebab(name):
    return re.sub("(?<!^)(?=[A-Z])", "-", name).lower()


def kinds_with_ways(text):
    """The kinds of message with their ways, by the table of SCENARIOS."""
    for cell, at in cells(text, "## 4. Messages", "## 5.", ("Kind",)):
        way = re.compile(r"\| (\w+) ").search(text, at + len(cell))
        bare = re.sub(r"\(.*?\)", lambda it: " " * len(it[0]), cell)
        yield from ((f"{kebab(it[0])} {way[1]}", at + it.start(), at + it.end()) for it in re.finditer(r"[A-Z]\w+", bare))


def kinds_in_help(text):
    """The kinds of message in the help's list of what steps send."""
    start, stop = section(text, "\nThese steps send a message", "\nThey are numbered")
    return [(kebab(it[1]), it.start(), it.end()) for it in re.compile(r"\b([A-Z][a-zA-Z]+):(?= `)").finditer(text, start, stop)]


def names_in_answers(text, path):
    """Behind which word of an answer which number may have a name: of expecting.rt, of Expect.antt, and of the model."""
    letters = {**FIELDS, "Itag": "T", "Tag": "T", "Group": "I", "G": "I"}
    pattern = {"rt": r'is\(word, b"(\w+)"\) \{\s*return Some\(Field::(\w+)\)', "antt": r'word \(codes "(\w+)"\) then Some (\w+)',
               "py": r'"(\w+)": "(\w)"'}[path.rpartition(".")[2]]
    start, stop = section(text, "BEFORE = {", "}") if path.endswith(".py") else (0, len(text))
    for it in re.compile(pattern).finditer(text, start, stop):
        yield f"{it[1]} {letters.get(it[2], it[2])}", it.start(), it.end()


def near_steps(text):
    """The words of FIRST_WORDS among which a step is looked for that is near to a word."""
    first, end = map(int, re.search(r"near\(&FIRST_WORDS\[(\d+)\.\.(\d+)\]", text).groups())
    return list(words_in("FIRST_WORDS", text, True))[first:end]


def numbers_of_refusals(text, path):
    """The refusals with their numbers: by their order in code and in the model, and as they stand in a definition."""
    if path.endswith(".antt"):
        pattern = r"^number_of (?P<name>\w+) = (?P<no>\d+)"
        return [(f"{it['no']} {it['name']}", it.start(), it.end()) for it in re.finditer(pattern, text, re.M)]
    start, stop = section(text, "pub enum Refusal {", "\n}") if path.endswith(".rt") else section(text, "REFUSALS = ", ".split")
    pattern = r"(?<![\w.])[A-Z][a-z]\w+(?=,$)" if path.endswith(".rt") else r"\b[A-Z][a-z]\w+"
    names = re.compile(pattern, re.M).finditer(text, start, stop)
    return [(f"{number} {it[0]}", it.start(), it.end()) for number, it in enumerate(names, 1)]


def block_in_python(name, text):
    """From where to where a list, a table or a function stands."""
    start = re.compile(rf"^( *)(?:def )?{name}\b.*", re.M).search(text)
    end = re.compile(rf"^ {{0,{len(start[1])}}}(?=[^\s)}}\]])", re.M).search(text, start.end())
    return start.end(1), end.start() if end else len(text)


def words_in_python(name, text):
    """The words of the texts in it."""
    start, end = block_in_python(name, text)
    bare = re.sub(r'"""[^"]*"""|#.*', lambda it: " " * len(it[0]), text[:end])
    for it in re.compile(r"\"([^\"\n]*)\"|'([^'\n]*)'").finditer(bare, start):
        for word in re.finditer(r"(?<![\w{])[a-z][a-z-]*(?![\w}:(\[])", it[1] or it[2] or ""):
            yield word[0], it.start() + 1 + word.start(), it.start() + 1 + word.end()


def quoted(text, words):
    """Those of some words that stand in quotes."""
    for word in words:
        yield from ((word, it.start(), it.end()) for it in re.finditer(rf"(?<=['\"]){word}(?=['\"])", text))


def needs_in_python(text):
    """The texts of what an act needs."""
    for it in re.compile(r"'([a-z]+ (?:with(?:out)? a place )?needs [^']*)'").finditer(text, *block_in_python("NEEDS", text)):
        yield it[1], it.end(1) - 1, it.end(1)


def as_in_model(row, name):
    fields, other = IN_MODEL[name]
    return " ".join([row.first, *(fields.get(token, other) for token in row.tokens[1:])])


def fields_in_python(name, text):
    for it in re.compile(r'"(\w+)": "([^"]*)"').finditer(text, *block_in_python(name, text)):
        yield f"{it[1]} {it[2]}".strip(), it.start(), it.end()
