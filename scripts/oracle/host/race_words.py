"""Reads a race (FORMAT 12 and 13): names, lines, threads, devices and claims.

It takes right texts alone: which lines are wrong is not its subject.
"""

import re

# by scripts/words --write: kind/s
KINDS = """start stop reset completion invalidate response request invalidated page-request marker
    reset-done""".split()
# the place of each word of a step: S, B, P, F, U, G, M and V (a vector) may be names
PLACES = {
    "space": "", "drop": "S", "map": "S page w", "unmap": "S page n", "unmapr": "S page n", "bind": "E S",
    "unbind": "B", "advance": "B", "pump": "E", "serve": "E", "reset": "E", "take": "n", "answer": "n w",
    "ask": "E P page", "use": "E P page w", "end": "E U", "evict": "E P page", "fault": "E P page w G w",
    "finish": "E V n", "quit": "E P", "deliver": "M", "look": "F", "bearer": "P"}
# by scripts/words --write: step@endpoint
ENDPOINT_STEPS = """ask use end evict fault finish quit""".split()
# by the last word before it, the place of a name in an answer
BEFORE = {"space": "S", "bearer": "S", "frame": "F", "free": "F", "withheld": "F", "binding": "B", "pasid": "P",
          "use": "U", "group": "G", "itag": "T", "tag": "T"}
# no name is one of these; by scripts/words --write: answer + answer.* + refused
ANSWER_WORDS = set("""space gone frame free withheld range binding stopping draining invalidating quiet
    released idle itag blocked wait empty part job resetting success invalid failure dropped tag use
    ended dead evicted group sent marker mapped started reset none full held taken answered stale
    completion freed queued marked bearer pasid done pages bindings refused""".split())
NAME = re.compile(r"([a-z][A-Za-z0-9_-]*)(?:\.([0-9]+))?")


class Name:
    """A word that stands for a number of an answered line: the nth one, by its place."""

    def __init__(self, text, place):
        found = NAME.fullmatch(text)
        self.name, self.nth, self.place = found[1], int(found[2] or 1), place


class Taken:
    """A line that was taken: the answer and the messages that it sent."""

    def __init__(self, answer, sent=(), first=None):
        self.answer, self.sent = answer, sent
        self.first = first  # the number that the next message had

    def number(self, place, nth):
        """The number that its name stands for (FORMAT 12, Names), or None."""
        words = self.answer.split(" ")
        if place == "M":
            return self.sent[nth - 1] if nth <= len(self.sent) else None
        if words[0] == "refused":
            return None
        if words[0] in ("free", "withheld") and place == "F":
            numbers = words[1:]
        else:
            numbers = [word for before, word in zip(words, words[1:]) if BEFORE.get(before) == place]
        return int(numbers[nth - 1]) if nth <= len(numbers) and numbers[nth - 1].isdigit() else None


class Line:
    """A line of a thread, or one before the race."""

    def __init__(self, at, name, is_try, words, expected=None):
        self.at, self.name, self.is_try, self.words, self.expected = at, name, is_try, words, expected
        self.step = read_step(words)
        self.thread = role_of(words)
        self.endpoint = int(words[1]) if words[0] in ENDPOINT_STEPS else None


def role_of(words):
    """The role of a step (FORMAT 3), which is the thread of its line."""
    if words[0] in ("pump", "serve"):
        return "unit " + words[1]
    if words[0] in ("take", "answer"):
        return "worker " + words[1]
    if words[0] in ENDPOINT_STEPS:
        return "endpoint " + words[1]
    return "link" if words[0] == "deliver" else "host"


def read_word(word, place):
    if place == "w":
        return word
    if place == "V":
        return read_vector(word)
    if word == "new":
        return word
    if word.startswith("0x"):
        return int(word, 16)
    return int(word) if word.isdigit() else Name(word, place)


def read_vector(word):
    """Eight hexadecimal digits, or a list of ITags and names."""
    if re.fullmatch("[0-9a-f]{8}", word):
        return int(word, 16)
    parts = word.strip("{}").split(",")
    return [int(part) if part.isdigit() else Name(part, "T") for part in parts]


def read_step(words):
    """(name, word, ..) where a word may be a Name, a list of ITags, or a way to find a message."""
    name, *rest = words
    if name == "deliver" and rest[0] in ("next", "last"):
        return (name, ("find", rest[0], None))
    if name == "deliver" and rest[0] in KINDS:
        return (name, ("find", rest[0], int(rest[1])))
    step = (name,) + tuple(read_word(word, place) for word, place in zip(rest, PLACES[name].split()))
    return step + (1,) if name == "unmap" and len(rest) == 2 else step


def read_answer(words):
    """An ANSWER: words of answers, numbers, `_`, and names, each by the last word before it."""
    read, before = [], None
    for word in words:
        is_name = NAME.fullmatch(word) and word not in ANSWER_WORDS
        read.append(Name(word, BEFORE[before]) if is_name else word)
        before = word if word in ANSWER_WORDS else before
    return read


def read_atom(words):
    if words[0] == "done":
        return ("done", words[1])
    if words[0] == "times":
        return ("times", int(words[1]), read_answer(words[2:]))
    if words[0] == "usable":
        return ("usable", read_word(words[1], "F"), int(words[-1]) if len(words) > 2 else None)
    if words[1] == "is":
        return ("is", words[0], read_answer(words[2:]))
    arrow = words.index("=>")
    return ("step", read_step(words[:arrow]), read_answer(words[arrow + 1:]))


def split(words, at):
    parts = [[]]
    for word in words:
        if word == at:
            parts.append([])
        else:
            parts[-1].append(word)
    return parts


class Literal:
    """An atom, or that it isn't so, in a claim."""

    def __init__(self, words, at, of_ends):
        self.text, self.at, self.of_ends = " ".join(words), at, of_ends
        self.is_not = words[0] == "not"
        self.atom = read_atom(words[self.is_not:])


class Claim:
    def __init__(self, at, words):
        self.text = " ".join(words)
        self.of_ends = words[0] == "ends"
        self.kind, *rest = words[self.of_ends:]
        # an `or` of `and`s
        self.condition = [[Literal(part, at, self.of_ends) for part in split(each, "and")]
                          for each in split(rest, "or")]


class Device:
    """What an endpoint may do beside its lines."""

    def __init__(self, words):
        self.endpoint, self.pages = int(words[0]), None
        budget = {word: int(words[place - 1]) for place, word in enumerate(words) if word in ("asks", "uses", "faults")}
        self.budget = tuple(budget.get(word, 0) for word in ("asks", "uses", "faults"))
        self.evicts, self.silent = "evicts" in words, "silent" in words
        if "pages" in words:
            rest = words[words.index("pages") + 1:]
            self.pages = [int(word, 0) for word in rest if word != "silent"][:1024]


class Race:
    """A race as it stands in its text."""

    def __init__(self, text):
        self.before, self.lines, self.claims, self.workers, self.devices = [], [], [], ["success"], {}
        self.config, heading, behind = None, None, False
        for at, content in enumerate(text.split("\n"), 1):
            words = [word for word in content.split(" ") if word]
            comment = next((place for place, word in enumerate(words) if word.startswith("#")), len(words))
            words = words[:comment]
            if not words:
                continue
            if self.config is None:
                self.config = tuple(int(word) for word in words[1:])
            elif words == ["race"]:
                behind = True
            elif words[0] == "thread":
                heading = " ".join(words[1:])
            elif not self.read_other(at, words):
                self.read_line(at, words, behind, heading)
        self.pages = self.named_pages()
        atoms = [literal.atom for claim in self.claims for every in claim.condition for literal in every]
        self.literals = self.beside_others()
        self.counted = [(atom[1], atom[2]) for atom in atoms if atom[0] == "times"]
        self.asks_numbers = any(atom[0] == "step" and atom[1][0] == "deliver" for atom in atoms)

    def read_other(self, at, words):
        if words[0] == "workers":
            self.workers = words[1:]
        elif words[0] == "device":
            self.devices[int(words[1])] = Device(words[1:])
        elif words[0] in ("ends", "never", "always", "sometimes"):
            self.claims.append(Claim(at, words))
        return words[0] in ("workers", "device", "ends", "never", "always", "sometimes")

    def read_line(self, at, words, behind, heading):
        name = None
        if words[0].endswith(":"):
            name, words = words[0][:-1], words[1:]
        is_try = words[0] == "try"
        words = words[is_try:]
        expected = words[words.index("=>") + 1:] if "=>" in words else None
        words = words[:words.index("=>")] if "=>" in words else words
        line = Line(at, name, is_try, words, expected)
        line.thread = heading or line.thread
        (self.lines if behind else self.before).append(line)

    def beside_others(self):
        """The literals that stand beside others, with `and` between: each once, by its words, of ends apart."""
        found = {}
        for claim in self.claims:
            for literal in [each for every in claim.condition if len(every) > 1 for each in every]:
                found.setdefault((literal.text, literal.of_ends), literal)
        return found

    def named_pages(self):
        """The pages that the race's lines name, each once."""
        pages = []
        for line in self.before + self.lines:
            place = PLACES[line.words[0]].split()
            if "page" in place:
                pages.append(line.step[1 + place.index("page")])
        return list(dict.fromkeys(pages))[:1024]
