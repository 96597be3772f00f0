"""What stands of words and forms in code and in definitions.

A text is looked at by a function that gives triples: an item, which is a word or a form, and from where to where it stands."""

import fnmatch
import functools
import re

from lib.words.table import expanded

# What a field of a driver's line is, by the function that reads it; what a field of a scenario's line is, by the method,
# and of a number by its name; and what a field of a script's line is.
READ_AT = {"endpoint": "E", "pasid": "P", "some_pasid": "[P]", "page": "PAGE", "space": "S", "frame": "F", "index": "I", "order": "K",
           "fails": "CODE", "access": "r|w", "asked": "r|w|rw", "last": "more|last", "kind": "KIND", "older": "[N]", "on": "on|off",
           "itag": "T", "place": "N", "of": "[of F]"}
READ_AS = {"access": "r|w", "verdict": "V", "flags": "A", "group": "G", "is_last": "L", "vector": "VECTOR"}
NUMBERS = {"space": "S", "page": "PAGE", "endpoint": "E", "binding": "B", "pasid": "P", "frame": "F", "order": "K",
           "worker": "W", "slot": "U", "message": "M", "count": "COUNT", "endpoints": "E", "frames": "N", "workers": "W"}
FIELDS = {"Endpoint": "E", "Worker": "W", "Space": "S", "Binding": "B", "Pasid": "P", "Page": "PAGE", "Frame": "F",
          "Slot": "U", "Group": "G", "Itags": "VECTOR", "Message": "M", "Count": "COUNT", "MaybeCount": "[COUNT]",
          "Order": "K", "Access": "r|w", "Flags": "A", "Last": "L", "Verdict": "V"}
# What may stand behind the name of an arm, up to its text.
ARM = r'(?: \w+\)|\([^)]*\))? =>?\s*(?:\{\s*)?(?:codes )?"'


@functools.lru_cache(maxsize=256)
def blocks_of(text, is_rust):
    """The functions and constants of code, or the definitions of a text of these: names, and from where to where they stand."""
    if not is_rust:
        heads = list(re.finditer(r"^(?:(?:abbrev|unfoldable|pub) )*(\w+) : ", text, re.M))
        ends = [it.start() for it in heads[1:]] + [len(text)]
        return [(head[1], head.start(), end) for head, end in zip(heads, ends)]
    found = []
    for head in re.finditer(r"^( *)(?:pub(?:\(\w+\))? )?(fn|const|static) (\w+)", text, re.M):
        ends = [";\n"] if head[2] != "fn" else [f"\n{head[1]}}}\n", f"\n{head[1]}{{}}\n"]
        ends = [end for end in (text.find(it, head.end()) for it in ends) if end >= 0]
        found.append((head[3], head.start(), min(ends, default=len(text))))
    return found


def literals(text, is_rust, start, end):
    """The texts that stand in a part of code or of definitions."""
    pattern = r'(?<!codes )(?<!\w)b?"((?:[^"\\]|\\.)*)"' if is_rust else r'codes "([^"]*)"'
    return [(it[1], it.start(1), it.end(1)) for it in re.compile(pattern).finditer(text, start, end)]


def words_in(name, text, is_rust):
    """The words of the texts in the blocks of this name; * in it is any."""
    for block, start, end in blocks_of(text, is_rust):
        if fnmatch.fnmatchcase(block, name):
            for literal, at, _ in literals(text, is_rust, start, end):
                for word in re.finditer(r"[A-Za-z][A-Za-z-]*|=>|[+_]", literal.replace("\\n", "  ")):
                    yield word[0], at + word.start(), at + word.end()


def words_of_arm(name, arm, text, is_rust):
    """The words that stand alone in what a function or a definition says of an arm, as `a claim, never or always`."""
    one = re.compile(r"(?:^|, | or | and )(?:N )?([a-z][a-z-]*|\+|=>)(?: P \.\.)?(?=$|, | or | and )")
    for start, end in ((start, end) for block, start, end in blocks_of(text, is_rust) if block == name):
        for said in re.compile(rf'(?:::|\.)({arm}){ARM}([^":]*)').finditer(text, start, end):
            yield from ((it[1], said.start(2) + it.start(1), said.start(2) + it.end(1)) for it in one.finditer(said[2]))


def arms_of(name, text, is_rust):
    """The arms of a function or a definition of this name."""
    for block, start, end in blocks_of(text, is_rust):
        yield from re.findall(rf"(?:::|\.)(\w+){ARM}", text[start:end]) if block == name else ()


def forms_of_scenarios(letters, forms):
    """The forms of forms.rt of sva_grammar, by the words for which letters.rt calls its functions. One that wants more words
    than it reads has `..`."""
    calls = {function: word for word, function in re.findall(r'begins_with\(b"(\w+)"\) \{\s*return (\w+)\(', letters)}
    let = re.compile(r"let \(?(\w+)[^=]*= (if words\.has\(\d\) \{ )?words\.(\w+)\((\d?)\)")
    for name, start, end in blocks_of(forms, True):
        word, fields = {**calls, "counts_in": "config"}.get(name), {}
        for it in let.finditer(forms, start, end):
            field = NUMBERS.get(it[1], "?") if it[3] in ("number", "one_number") else READ_AS.get(it[3], "?")
            fields[int(it[4] or 1)] = f"[{field}]" if it[2] else field
        counts = re.search(r"words\.(?:exactly|either)\((?:\d, )?(\d)\)", forms[start:end])
        is_whole = not counts or int(counts[1]) == len(fields) + 1
        if word:
            yield " ".join([word, *(fields[at] for at in sorted(fields))]) + ("" if is_whole else " .."), start, end


def forms_of_scripts(text, is_rust):
    """The forms of places.rt or of Places.antt of sva_script."""
    pattern = (r'is\(step, b"(\w+)"\) \{\s*return Some\(&\[([^]]*)\]' if is_rust
               else r'step \(codes "(\w+)"\) then Some (?:\[\]|\(([^)]*)\[\]\))')
    for it in re.finditer(pattern, text):
        names = re.findall(r"\w+", (it[2] or "").replace("Field::", ""))
        yield " ".join([it[1], *(FIELDS.get(name, "?") for name in names)]), it.start(), it.end()


def texts_of_answers(text):
    """The forms of the answers, by answer_text of Texts.antt."""
    clause = re.compile(r"^answer_text [^=]*=((?:.|\n {2,})*)", re.M)
    for start, end in ((start, end) for block, start, end in blocks_of(text, False) if block == "answer_text"):
        for it in clause.finditer(text, start, end):
            parts = re.findall(r'codes "([^"]*)"|(decimal)|(frames_text)', it[1])
            yield "".join(words or ("#" if number else " # ..") for words, number, _ in parts), it.start(), it.end()


class DriverLines:
    """How the lines of a driver are read, by the functions of sva_driver_words."""
    NEXT = re.compile(
        r"(?P<end>judge_end|ends_at)\(words, (?P<count>\d+)\)"
        r"|\b(?P<field>(?!word_)\w+)_(?:at|by)\((?:config, )?words, (?P<at>\d+)"
        r'|if (?P<cond>!?says|!?has_word)\(words, (?P<place>\d+)(?:, b"(?P<word>[\w-]+)")?\) \{'
        r"|(?P<name>is_name|is_flag|place_of)\(word_at\(words, (?P<named>\d+)\)"
        r"|(?P<call>\w+)\([^()]*\bwords\b(?:, (?P<from>\d+))?")

    def __init__(self, texts):
        self.bodies = {}
        for text, (name, start, end) in ((text, block) for text in texts for block in blocks_of(text, True)):
            if "\n{\n" in text[start:end] and name != "ends_at":
                self.bodies[name] = text[text.index("\n{\n", start) + 1:end]

    @staticmethod
    def closed(body, start):
        """Where a block ends that begins here."""
        depth = 0
        for at in range(start, len(body)):
            depth += (body[at] == "{") - (body[at] == "}")
            if depth == 0:
                return at
        return len(body)

    def body_from(self, name, place):
        """The body of a function, that of one which reads from a place `at` on with the places themselves."""
        body = self.bodies[name]
        return re.sub(r"\bat\b(?: \+ (\d+))?", lambda it: str(int(place) + int(it[1] or 0)), body) if place else body

    def walk(self, body, fields):
        """All ways through a body: the fields that are read, by their places."""
        at, found = 0, []
        while it := self.NEXT.search(body, at):
            at = it.end()
            if it["end"]:
                fields = {**fields, "end": int(it["count"])}
            elif it["field"]:
                fields = {**fields, int(it["at"]): READ_AT.get(it["field"], "?")}
            elif it["cond"]:
                end = self.closed(body, at - 1)
                inner, at = body[at:end], end + 1
                if not inner.strip().startswith("return Err("):
                    found += self.walk(inner, {**fields, int(it["place"]): it["word"]} if it["word"] else fields)
                    if body.startswith(" else {", at):
                        return found + self.walk(body[at + 7:self.closed(body, at + 6)], fields)
            elif it["name"]:
                fields = {**fields, int(it["named"]): "L" if it["name"] == "is_name" else "NAME"}
            elif it["call"] in self.bodies:
                return found + self.walk(self.body_from(it["call"], it["from"]), fields)
        return found + [fields]

    def forms(self, word, function):
        """The forms of the lines, or descriptors, that begin with a word. One that doesn't end behind its last field has `..`."""
        for fields in self.walk(self.bodies.get(function, ""), {}):
            end = fields.pop("end", None)
            is_whole = end in (None, len(fields) + 1) and sorted(fields) == list(range(1, len(fields) + 1))
            form = " ".join([word, *(fields[at] for at in sorted(fields))])
            yield from expanded(form if is_whole else form + " ..")
