"""The table of words, docs/words: its lines, the words of some of them, and their forms."""

import functools
import itertools
import re

TABLE = "docs/words"
SORTS = """heading body step delivery counts place sign kind claim joint atom part setting act condition descriptor answer refused refusal
    cause command""".split()
WORD = re.compile(r"--[a-z]+|[a-z][a-z-]*")


class Row:
    """A line of the table."""

    def __init__(self, number, text):
        columns = re.split(r"  +", text)
        self.number, self.is_whole = number, len(columns) == 4
        self.languages, sort, self.marked_form, self.meaning = (columns + [""] * 4)[:4]
        self.sort, _, self.role = sort.partition(" ")
        self.marked = re.findall(r"([a-z-]+)!", self.marked_form)
        self.form = self.marked_form.replace("!", "")
        self.tokens = self.form.split(" ")
        parts = [part for token in self.tokens for part in token.strip("[]").split("|")]
        if self.sort == "sign":
            self.words = parts
        elif self.sort in ("refusal", "cause"):
            self.words = parts[-1:]
        else:
            self.words = [it for it in parts if WORD.fullmatch(it)]
        # what it is found by: its first word, or of a place the letter
        self.first = parts[0] if self.sort == "place" else self.words[0] if self.words else ""
        self.fields = " ".join(self.tokens[1:])

    def without_last(self):
        """The same line without the last thing of its form."""
        return Row(self.number, f"{self.languages}  {self.sort} {self.role}".rstrip() + f"  {self.marked_form.rpartition(' ')[0]}  {self.meaning}")


def rows_in(text):
    lines = [(number, line.rstrip()) for number, line in enumerate(text.splitlines(), 1)]
    return [Row(number, line) for number, line in lines if line and not line.startswith("#")]


class Table:
    """Lines of the table, or all."""

    def __init__(self, rows):
        self.rows, self.by_sort = rows, {}
        for row in rows:
            self.by_sort.setdefault(row.sort, []).append(row)
        self.select = functools.lru_cache(maxsize=None)(self.selected)
        self.vocabulary = {word for row in rows for word in row.words}

    def of(self, sort, language="", role=""):
        return [row for row in self.by_sort.get(sort, ()) if language in row.languages and role in ("", row.role)]

    def term(self, term):
        """The words of SORT, SORT/LANGUAGE, SORT@ROLE or SORT=FIELDS, the first ones of lines; of SORT.WORD, those behind
        this one, where * is any and % leaves out those of settings that hold by themselves; of !SORT, those that no name
        is; or a word in quotes."""
        if term[0] == "'":
            return [term.strip("'")]
        pattern = r"(!?)(\w*)(?:/(\w))?(?:@(\w+))?(?:\.([\w*%-]+))?(?:=(.+))?"
        is_marked, sort, language, role, behind, fields = re.fullmatch(pattern, term).groups(default="")
        if is_marked:
            return [word for row in self.rows if sort in ("", row.sort) and language in row.languages for word in row.marked]
        rows = self.of(sort, language, role)
        if behind:
            rows = [row for row in rows if behind in ("*", "%", row.first)]
            starts = [sort != "place" if behind != "%" else 1 + ("|" in row.form) for row in rows]
            return [word for row, start in zip(rows, starts) for word in row.words[start:]]
        return [row.first for row in rows if row.first and fields.replace("_", " ") in ("", row.fields)]

    def selected(self, terms):
        """The words of some terms, each once: behind `+` those of the next one too, behind `-` without them."""
        found, sign = {}, "+"
        for term in terms.split():
            if term in ("+", "-"):
                sign = term
                continue
            words = dict.fromkeys(self.term(term))
            found = {**found, **words} if sign == "+" else {it: None for it in found if it not in words}
        return list(found)

    def faults(self):
        """What is wrong with the table itself: the number of the line, and what."""
        seen = set()
        for row in self.rows:
            if not row.is_whole or not re.fullmatch(r"a?s?r?d?|-", row.languages) or row.sort not in SORTS:
                yield row.number, "no line of languages, sort, form and meaning"
            for it in ((language, row.sort, row.form) for language in row.languages):
                if it in seen:
                    yield row.number, f"'{row.form}' stands twice"
                seen.add(it)


def expanded(form):
    """A form with what is in brackets, and without; and with each of several things of which one isn't a word."""
    parts = re.split(r"(\[[^]]*\])", form)
    choices = [("", part[1:-1]) if part.startswith("[") else (part,) for part in parts]
    whole = {" ".join(" ".join(one).split()) for one in itertools.product(*choices)}
    ways = [[token.split("|") if re.search(r"[A-Z]", token) else [token] for token in it.split()] for it in whole]
    return {" ".join(one) for way in ways for one in itertools.product(*way)}


def is_one_of(form, row, table):
    """Is a form what a row allows, with one of several words in their place, or in that of a letter?"""
    choices = {it.first: it.words for it in table.of("place")}
    tokens, wanted = form.split(), [choices.get(token, [token]) + token.split("|") for token in row.tokens]
    return len(tokens) == len(wanted) and all(token in some for token, some in zip(tokens, wanted))


def without_letters(form):
    """A form with `#` for each thing that stands for something else."""
    return " ".join("#" if re.fullmatch("[A-Z]+", token) else token for token in form.split())


def named_in_answers(table):
    """Behind which word of an answer a name may stand for which number, by the answers: all numbers but counts."""
    pairs = [pair for row in table.of("answer") for pair in zip(row.tokens, row.tokens[1:])]
    named = [pair for pair in pairs if WORD.fullmatch(pair[0]) and re.fullmatch("[SFBPTUI]", pair[1])]
    return list(dict.fromkeys(" ".join(pair) for pair in named))
