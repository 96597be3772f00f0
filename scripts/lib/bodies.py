"""What wrong bodies and rules could do, and by what each is refused: .ci/bodies, for scripts/edits.

A line is `WORDS | REF REF ..`; a line `= THEME` is above those of a theme. The file says what a REF may be."""

import functools
import glob
import os
import re

from lib.edits import GATE, ROOT, edits_in, files_below, lines_of, more_edits, must_fail, named, no_compile, text_of
from lib.edits import uses

BODIES = ".ci/bodies"

# By what a body is refused, the strongest first: that is where it counts.
GATES, COMPILER, BY_HAND, PLANTED = "Edits of the gate", "Must not compile", "Edits by hand", "Tests, planted by hand"
RUNS, LAWS, UNSEEN, NOTHING = "Tests and runs", "Laws and clauses", "Not seen yet", "By nothing"
MANNERS = [GATES, COMPILER, BY_HAND, PLANTED, RUNS, LAWS, UNSEEN, NOTHING]


class Body:
    """A wrong body or rule: its theme, its words, by what it is refused, and why it isn't."""

    def __init__(self, theme, line):
        words, _, behind = line.partition("|")
        refs, _, self.why = behind.partition("nothing:")
        self.theme, self.words, self.refs, self.is_none = theme, words.strip(), refs.split(), "nothing:" in behind

    def manner(self):
        """By what it is refused, of those that are there the strongest; None where nothing is named."""
        found = [manner_of(it) for it in self.refs] + [NOTHING] * self.is_none
        return min((it for it in found if it), key=MANNERS.index, default=None)


def bodies_of(text):
    """The bodies of a text such as .ci/bodies."""
    theme, found = None, []
    # (a line that begins with blanks goes on with the one above it)
    for line in re.sub(r"\n +(?=\S)", " ", text).splitlines():
        if line.startswith("= "):
            theme = line[2:].strip()
        elif line.strip() and not line.startswith("#"):
            found.append(Body(theme, line))
    return found


@functools.lru_cache(maxsize=None)
def together():
    """The edits that the gate tries together, by crates."""
    return named(lines_of(GATE), True)


@functools.lru_cache(maxsize=None)
def names_of(crate):
    """By what manner each name of a crate refuses."""
    gate = {it.name for it in together().get(crate, ())}
    found = {it: LAWS for it in functions(crate)}
    found.update(dict.fromkeys(tests(crate), RUNS))
    found.update((it.name, PLANTED) for it in edits_in(crate, "test-edits"))
    found.update((it.name, GATES if it.name in gate else BY_HAND) for it in more_edits(crate))
    found.update((it.name, COMPILER) for it in no_compile(crate))
    found.update((it.name, GATES) for it in must_fail(crate))
    return found


def sources(crate):
    return [text_of(it) for it in files_below(f"{ROOT}/crates/{crate}/src", ".rt")]


def functions(crate):
    return {it for text in sources(crate) for it in re.findall(r"^ *(?:pub )?fn (\w+)", text, re.M)}


def tests(crate):
    return {it for text in sources(crate) for it in re.findall(r"#\[test\]\s+fn (\w+)", text)}


def has_clause(crate, function, clause):
    """Whether a function of a crate has a clause: it stands between its name and the brace that opens its body."""
    heads = (it for text in sources(crate) for it in re.findall(rf"\bfn {function}\b.*?\n *\{{\n", text, re.S))
    return any(re.search(rf"\bensures {clause} \{{", it) for it in heads)


@functools.lru_cache(maxsize=None)
def manner_of(ref):
    """By what manner a name refuses, or None where nothing has it."""
    found = kind_of(ref.rstrip("?"))
    return UNSEEN if found and ref.endswith("?") else found


def kind_of(name):
    """What has this name: by what manner that refuses, or None."""
    crate, _, name_there = name.partition("/")
    if crate in ("runs", "examples"):
        return RUNS if glob.glob(f"{ROOT}/{glob.escape(name)}.s*") else None
    if crate == "scripts":
        return RUNS if os.path.isfile(f"{ROOT}/{name}") else None
    if crate not in uses():
        return None
    function, _, clause = name_there.partition(":")
    if clause:
        return LAWS if has_clause(crate, function, clause) else None
    return names_of(crate).get(function)


def faults_of(bodies):
    """What is wrong with some bodies, a line for each fault."""
    for it in bodies:
        if not it.theme:
            yield f"{it.words}: stands below no theme"
        if not it.words:
            yield f"{' '.join(it.refs)}: has no words"
        if not it.refs and not it.is_none:
            yield f"{it.words}: by what it is refused isn't named"
        if it.is_none and not it.why.strip():
            yield f"{it.words}: why nothing refuses it isn't said"
        if [other.words for other in bodies].count(it.words) > 1:
            yield f"{it.words}: stands there twice"
        yield from (f"{it.words}: there is no {ref}" for ref in it.refs if not manner_of(ref))


def plants(text):
    """Texts in each of which a line has a mistake: a wrong name in the place of one of each manner, of a clause, a run
    and a script, and a line without a name, a reason or words, and one that stands there twice."""
    named = [it for body in bodies_of(text) for it in body.refs]
    refs = {manner_of(it): it for it in named}
    refs.update((kind, it) for it in named for kind in (":", "runs/", "scripts/") if kind in it)
    for ref in refs.values():
        yield f"{text}= Planted\nA name that isn't there. | {ref.rstrip('?')}_not_there\n"
    yield f"{text}= Planted\nNothing is named. |\n"
    yield f"{text}= Planted\nNo reason. | nothing:\n"
    yield f"{text}= Planted\n| {next(iter(refs.values()))}\n"
    yield text + next(it for it in text.splitlines(keepends=True) if " | " in it)


def found_plants(text):
    """How many mistakes are planted in a copy of the text, and how many of them are told."""
    before = len(list(faults_of(bodies_of(text))))
    all_of = list(plants(text))
    return len(all_of), sum(len(list(faults_of(bodies_of(it)))) > before for it in all_of)


def bodies_table(text):
    """How many bodies there are of each theme, by what they are refused."""
    bodies = bodies_of(text)
    lines = [f"| Theme | All | {' | '.join(MANNERS)} |", f"|---{'|---' * (1 + len(MANNERS))}|"]
    for theme in [*dict.fromkeys(it.theme for it in bodies), None]:
        some = [it.manner() for it in bodies if theme in (it.theme, None)]
        counts = " | ".join(str(some.count(it) or "") for it in MANNERS)
        lines.append(f"| {theme or 'All'} | {len(some)} | {counts} |")
    return "".join(f"{line}\n" for line in lines)
