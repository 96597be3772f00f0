"""The edits that the prover has to refuse, as they stand in the repository, for scripts/more-edits and scripts/edits.

An edit of crates/NAME/must-fail/ is a file EDIT.edit, as `rt ci` reads it: a line `file: PATH`, then pairs of lines `old: TEXT` and `new: TEXT`. Each
old text stands once in its file. A line `# WORDS` says which rule it turns.

Those of crates/NAME/more-edits/ stand together, all that turn src/X.rt in src/X.edits, and so those of specs/ and proofs/; and so those of test-edits/, which tests
have to refuse (scripts/by-hand/tests-refuse). Such a file begins with
    file: src/X.rt
    by: CRATE CRATE ..    if need be: the crates above that are to refuse its edits where the crate's own check doesn't, in the order in which they are tried
    only: FUNCTION ..     if need be: the functions that are to refuse its edits, each of which has to, so that no other is proved with them
and has a block for each edit:
    # the rule that it turns, in a line of words
    edit: NAME
    only: FUNCTION ..     if need be: those that are to refuse this one, of the first of the crates above where there are some; and `by:` for it alone
    old: TEXT
    new: TEXT             one pair or more
    file: PATH            if need be: the pairs behind it, up to the end of the block, are of this file; ../CRATE/PATH is one of another crate"""

import functools
import os
import re

ROOT = os.path.dirname(os.path.dirname(os.path.dirname(os.path.abspath(__file__))))
PARTS = ("src", "specs", "proofs")
# The crates and edits that the gate tries by scripts/more-edits.
GATE = f"{ROOT}/.ci/more-edits"


@functools.lru_cache(maxsize=None)
def text_of(path):
    with open(path, encoding="utf-8") as it:
        return it.read()


def lines_of(path):
    """The lines of a file, without comments and empty ones."""
    lines = (line.partition("#")[0].strip() for line in text_of(path).splitlines())
    return [line for line in lines if line]


@functools.lru_cache(maxsize=None)
def uses():
    """What each crate of the repository names, by crates.txt."""
    found = {}
    for line in lines_of(f"{ROOT}/crates.txt"):
        head, _, names = line.partition(":")
        found[head.split()[0]] = names.split()
    return found


def below(crate, named, found=None):
    """The crates of the repository on which one stands, each once."""
    found = [] if found is None else found
    for name in named[crate]:
        if name in named and name not in found:
            found.append(name)
            below(name, named, found)
    return found


class Edit:
    """An edit: its rule, pairs of texts, each of a file, and the crates, or functions of its own, that judge it; and the function in which the last of
    them stands, if all are of one file of code."""

    def __init__(self, crate, name, rule, pairs, by=(), only=()):
        self.crate, self.name, self.rule, self.pairs, self.by, self.only = crate, name, rule, pairs, list(by), list(only)
        self.folder, self.file, self.function, self.of = f"{ROOT}/crates/{crate}", pairs[0][0] if pairs else "", None, self
        if pairs and {file for file, _, _ in pairs} == {self.file} and self.file.startswith("src/"):
            self.function = self.place(len(pairs) - 1, function_at)

    def place(self, number, at):
        """What `at` finds where the old text of a pair stands, or None where that doesn't stand in its file once."""
        file, old, _ = self.pairs[number]
        before = self.applied({}, self.pairs[:number])
        whole = None if before is None or not old else before.get(file) or self.text(file)
        return at(whole, whole.index(old) + len(old)) if whole and whole.count(old) == 1 else None

    def text(self, file):
        path = os.path.normpath(f"{self.folder}/{file}")
        return text_of(path) if os.path.exists(path) else ""

    def applied(self, texts, pairs=None):
        """These texts of files with the edit's, or None where one of its old texts doesn't stand in its file once."""
        texts = dict(texts)
        for file, old, new in self.pairs if pairs is None else pairs:
            text = texts.get(file, None) or self.text(file)
            if not old or text.count(old) != 1:
                return None
            texts[file] = text.replace(old, new)
        return texts

    def turns(self):
        """The names of what its pairs turn, each once: functions, or constants and types beside them, or definitions."""
        found = {}
        for number, (file, _, new) in enumerate(self.pairs):
            is_code, made = file.endswith(".rt"), re.search(r"\bconst (\w+)", new)
            kind, name = (is_code and self.place(number, function_at)) or (None, self.place(number, item_at if is_code else definition_at))
            name = name or is_code and made and made.group(1)
            if name:
                found["::".join([kind, name] if kind else [*module_of(file), name])] = None
        return list(found)

    def is_public(self):
        """Whether it is of a public function, which others may call."""
        return bool(self.function and self.place(len(self.pairs) - 1, is_public_at))

    def path(self):
        """The name by which the checker is asked for the edit's function."""
        kind, name = self.function
        return "::".join([kind, name] if kind is not None else [*module_of(self.file), name])

    def is_of(self, told):
        """Whether a name that the checker tells is that of the edit's function. A method stands there by its type, in whatever file its `impl` is."""
        kind, name = self.function
        parts = told.split("::")[1:]
        return parts[-2:] == [kind, name] if kind is not None else parts == [*module_of(self.file), name]


def module_of(file):
    """The names of the module whose file this is."""
    path = re.sub(r"^(\.\./\w+/)?(src|specs|proofs)/|\.\w+$", "", file)
    return [it for it in path.split("/") if it not in ("lib", "main", "mod", "Lib")]


def function_at(text, end):
    """The function in whose text a place stands, or None: the type of its impl, if it has one (with the trait's name behind, as the checker writes it), and
    its name."""
    found = head_at(text, end)
    return found and found[:2]


def is_public_at(text, end):
    """Whether a place stands in the text of a function that is public: `pub`, or of a trait."""
    found = head_at(text, end)
    return bool(found and found[2])


def head_at(text, end):
    """What `function_at` tells, with whether the function is public. A function ends with a brace below its first letter, as `rt fmt` has it."""
    kind, is_of_trait, found, last = None, False, None, ""
    for line in text[:end].splitlines():
        if found and last == ("}" if found[0] is None else "    }"):
            found = None
        last = line
        impl = re.match(r"impl\b(?:<.*?>)?\s+(?:([A-Z]\w*)(?:<.*?>)?\s+for\s+)?([A-Za-z]\w*)", line)
        if impl:
            kind, is_of_trait = impl.group(2) + (impl.group(1) or ""), bool(impl.group(1))
        elif line.startswith("}"):
            kind = None
        name = re.match(r'\s*(pub(?:\([a-z]+\))?\s+)?(?:const\s+|extern "C"\s+)?fn\s+(\w+)', line)
        if name:
            is_inside = line[0] == " "
            is_public = (name.group(1) or "").strip() == "pub" or is_inside and is_of_trait
            found = (kind if is_inside else None), name.group(2), is_public
    return found


@functools.lru_cache(maxsize=None)
def functions_of(crate):
    """The functions of a crate by the names that the checker has for them, behind the crate's, each with its count of lines: those beside one another in a file,
    and methods, which stand by their type. Left out are those of traits, and those with an attribute, as where they call one another."""
    files = {os.path.relpath(it, f"{ROOT}/crates/{crate}"): text_of(it) for it in files_below(f"{ROOT}/crates/{crate}/src", ".rt")}
    at = {kind: module_of(file) for file, text in files.items() for kind in re.findall(r"^(?:pub(?:\([a-z]+\))?\s+)?(?:struct|enum)\s+(\w+)", text, re.M)}
    found = {}
    for file, text in files.items():
        place, last, inside = module_of(file), "", None
        for line in text.splitlines():
            if re.match(r"(pub(\([a-z]+\))? )?(impl|trait|macro_rules|mod)\b.*\{$", line):
                kind = re.match(r"impl\b(?:<.*?>)?\s+([A-Z]\w*)(?:<.*>)?\s*\{$", line)
                place = [*at[kind.group(1)], kind.group(1)] if kind and kind.group(1) in at else None
            elif line.startswith("}"):
                place = module_of(file)
            name = re.match(r"(    )?(?:pub(?:\([a-z]+\))?\s+)?(?:const\s+)?fn\s+(\w+)", line)
            if name:
                is_one = place is not None and bool(name.group(1)) == (place != module_of(file)) and not last.lstrip().startswith("#[")
                inside = "::".join([*place, name.group(2)]) if is_one else None
            if inside:
                found[inside] = found.get(inside, 0) + 1
            last = line
    return found


def item_at(text, end):
    """The constant or type in whose text a place stands, or None: the last whose first line is above."""
    found = re.findall(r"^(?:pub(?:\([a-z]+\))?\s+)?(?:const|static|struct|enum)\s+(\w+)", text[: end], re.M)
    return found[-1] if found else None


def definition_at(text, end):
    """The definition in whose text a place stands, or None: the last whose first line is above, each of which begins at the left edge."""
    found = None
    for line in text[:end].splitlines():
        name = re.match(r"(?:(?:abbrev|pub|record|data|unfolding|unfoldable)\s+)*([^\s(){}:=]+)", line)
        if name and not re.match(r"--|use\b|infix", line):
            found = name.group(1)
    return found


def pairs_of(lines, file):
    """The pairs of these lines, each with its file: that of the last `file:` above it."""
    pairs = []
    for line in lines:
        word, _, text = line.partition(": ")
        if word == "file":
            file = text.strip()
        elif word in ("old", "old:"):
            pairs.append((file, text, ""))
        elif word in ("new", "new:") and pairs:
            pairs[-1] = (*pairs[-1][:2], text)
    return pairs


def word_of(lines, word):
    """What stands behind a word in the first line that begins with it."""
    return next((line[len(word) :].strip() for line in lines if line.startswith(word)), "")


def files_below(folder, end):
    return sorted(f"{at}/{it}" for at, _, files in os.walk(folder) for it in files if it.endswith(end))


def must_fail(crate):
    """The edits that `rt ci` tries."""
    found = []
    for path in files_below(f"{ROOT}/crates/{crate}/must-fail", ".edit"):
        lines = text_of(path).splitlines()
        found.append(Edit(crate, os.path.basename(path)[: -len(".edit")], word_of(lines, "#"), pairs_of(lines, "")))
    return found


class Refused:
    """What must not compile: a file of no-compile/, by its name, its rule and the file that it changes, which is none where it is code above the crate."""

    def __init__(self, crate, path):
        lines = text_of(path).splitlines()
        self.crate, self.name = crate, os.path.basename(path)[: -len(".txt")]
        self.rule, self.file = word_of(lines[:1], "# "), word_of(lines, "file:")


def no_compile(crate):
    """What scripts/no-compile tries of a crate."""
    return [Refused(crate, path) for path in files_below(f"{ROOT}/crates/{crate}/no-compile", ".txt")]


def planted():
    """The wrong outcomes that the gate's scripts plant in their own runs, each by the words that name it, by script."""
    found = {}
    for script in ("refused-memory", "cuts"):
        told = re.findall(r'^    (?:    )?"([^"]+)": (?:lambda|refused|behind_a_refusal|unrefused|unmet)\b', text_of(f"{ROOT}/scripts/{script}"), re.M)
        found[script] = list(dict.fromkeys(told))
    found["released"] = re.findall(r"^ .*\bplants '([^']+)'", text_of(f"{ROOT}/scripts/released"), re.M)
    found["embedded"] = re.findall(r"^#(?:el)?if PLANT == \d+ /\* (.+) \*/$", text_of(f"{ROOT}/scripts/embedded.c"), re.M)
    return found


def blocks_of(path):
    """The lines of a file of more-edits/: of its head, and of each block, which begins with its line of words, or with its name where it has none."""
    blocks, is_rule = [[]], False
    for line in text_of(path).splitlines():
        if line.startswith("# ") or line.startswith("edit:") and not is_rule:
            blocks.append([])
        is_rule = line.startswith("# ") or is_rule and not line.startswith("edit:")
        blocks[-1].append(line)
    return blocks


def edits_in(crate, folder):
    """The edits of a folder of a crate."""
    found = []
    for path in files_below(f"{ROOT}/crates/{crate}/{folder}", ".edits"):
        head, *blocks = blocks_of(path)
        file = word_of(head, "file:")
        for lines in blocks:
            by, only = ((word_of(lines, it) or word_of(head, it)).split() for it in ("by:", "only:"))
            found.append(Edit(crate, word_of(lines, "edit:"), word_of(lines, "#"), pairs_of(lines, file), by, only))
    return found


def more_edits(crate):
    """The edits of more-edits/."""
    return edits_in(crate, "more-edits")


def once(crate, others):
    """One edit of more-edits/ for each public function that has none in must-fail/ and none of these."""
    found = {(it.file, it.function): None for it in [*must_fail(crate), *others] if it.function}
    for it in more_edits(crate):
        if it.is_public():
            found.setdefault((it.file, it.function), it)
    return [it for it in found.values() if it]


def named(names, is_once):
    """The edits of more-edits/ that these names mean, by crates: CRATE/EDIT means that one, CRATE all of its edits, or `once` beside those that are named."""
    found = {}
    # (those that are named come first, whatever their order)
    for crate, edit in sorted((name.partition("/")[::2] for name in names), key=lambda it: not it[1]):
        some = [it for it in more_edits(crate) if edit in ("", it.name)]
        if not some:
            raise LookupError(f"there is no edit {crate}/{edit}" if edit else f"{crate} has none")
        there = found.setdefault(crate, [])
        some = once(crate, there) if is_once and not edit else some
        there.extend(it for it in some if it.name not in [other.name for other in there])
    return found
