"""Makes the pages: of the program, of its commands, of the languages, and of the scripts that judge a machine."""

import os
import re
import subprocess
import sys

from lib.edits import ROOT, text_of
from lib.man import pages
from lib.man.pages import LANGUAGES, NOTE, SAID, SORTS, lowered, see_also
from lib.man.roff import block, code, entry, inline, plain, rendered, section
from lib.words.table import TABLE, rows_in

SCRIPT = """`./svahost` is the script of the repository, which builds and proves the program. An installed program isn't
built anew."""
DOCUMENTS = "docs/SCENARIOS.md, SCRIPTS.md, DRIVERS.md"
HELP = f"svahost help, {DOCUMENTS} and examples/"


def named(page):
    """A page by its name and number, as in `svahost-judge(1)`."""
    return re.fullmatch(r"(.*)\((\d)\)", page).groups()


def synopsis(manual, command):
    """How a command is called: what `-h` says of it."""
    usage = re.search(r"^Usage: svahost (.*)$", manual.said(command, "-h"), re.M)[1]
    name, _, rest = usage.partition(" ")
    words = [f"\\fB{code('svahost ' + name)}\\fR", *(f"\\fI{plain(it)}\\fR" for it in rest.split())]
    return " ".join(words)


def command_page(manual, command):
    about, languages = manual.commands[command], manual.languages(command)
    text, said = pages.format_text(), []
    for begin in SAID.get(command, ()):
        said += rendered(section(text, begin, 3 if begin.startswith("###") else None))
    if command in ("explore", "judge"):
        begin = {"explore": "## 13. ", "judge": "## 15. "}[command]
        inner = "\n".join(section(text, begin))
        said += rendered(section(inner, "### The command", 3)) + [".SS Options and files"] + pages.of_searches()
    else:
        said += [".SS Files"] + pages.of_files()
    example = [line for it in languages[:1] for line in manual.example(command, LANGUAGES[it][3])]
    others = [f"svahost-{it}(5)" for it in languages] + ["svahost(1)"]
    return manual.page(f"svahost-{command}", 1, lowered(about), [
        ("SYNOPSIS", [synopsis(manual, command)]),
        ("DESCRIPTION", [inline(about + "."), *pages.rows_about(command)]),
        ("OPTIONS", pages.options_in(manual.said(command, "-h"))),
        *parts_of(said),
        ("EXIT STATUS", pages.statuses()),
        ("EXAMPLES", example),
        ("NOTES", [inline(NOTE)]),
        see_also(*map(named, others)),
    ], HELP)


def parts_of(lines):
    """Lines that begin with a head of their own or with an inner one, as parts."""
    return [("DETAILS" if lines[0].startswith(".SS") else "", lines)] if lines else []


def main_page(manual):
    """The page of the program, by all of its help."""
    text = manual.said("help", "all")
    about = manual.short.partition("\n")[0]
    commands = [line for name, what in manual.commands.items()
                for line in entry(f"\\fB{code('svahost-' + name)}\\fR(1)", [inline(what)])]
    languages = [line for name, row in LANGUAGES.items()
                 for line in entry(f"\\fB{code('svahost-' + name)}\\fR(5)", [inline(row[1])])]
    return manual.page("svahost", 1, lowered(about), [
        ("SYNOPSIS", "\n.br\n".join(synopsis(manual, it) for it in manual.commands).split("\n")),
        ("COMMANDS", commands),
        ("LANGUAGES", languages),
        ("OPTIONS", pages.options_in(manual.short)),
        ("DESCRIPTION", rendered(text.split("\n"))),
        ("EXIT STATUS", pages.statuses()),
        ("NOTES", [inline(NOTE), ".PP", inline(SCRIPT)]),
        see_also(*(("svahost-" + it, 1) for it in (*manual.commands, "audit", "record-iommu")),
                 *(("svahost-" + it, 5) for it in LANGUAGES)),
    ], HELP)


def words_of(letter):
    """The words of a language, by their sorts, each form with what it means."""
    made, last = [], ""
    for row in rows_in(text_of(f"{ROOT}/{TABLE}")):
        if letter not in row.languages:
            continue
        head = SORTS[row.sort]
        made += [f".SS {head}"] * (head != last) + entry(inline(f"`{row.form}`"), [inline(row.meaning)])
        last = head
    return made


def language_page(manual, name):
    letter, about, sections, example = LANGUAGES[name]
    text = pages.format_text()
    readers = [it for it in manual.commands if name in manual.languages(it)]
    said = [line for begin in sections for line in rendered(section(text, begin))]
    shown = block(text_of(f"{ROOT}/examples/{example}").rstrip("\n").split("\n"))
    return manual.page(f"svahost-{name}", 5, about, [
        ("DESCRIPTION", [inline(f"A {name} is a text: {about}. These read it: {', '.join(readers)}. "
                                "First stand all words, and then the rules.")]),
        ("WORDS", words_of(letter)),
        ("", said),
        ("EXAMPLES", [inline(f"examples/{example}:"), *shown]),
        ("NOTES", [inline(NOTE)]),
        see_also(*(("svahost-" + it, 1) for it in readers), *(("svahost-" + it, 5) for it in LANGUAGES if it != name)),
    ], f"docs/words, {DOCUMENTS} and examples/")


AUDIT = """Did a machine give a page, a PASID or a table away before the device had let go of it? It reads what
svahost-record-iommu(1) wrote. It stands outside the proof."""


def audit_page(manual):
    """The page of scripts/audit, by its help."""
    said = subprocess.run([sys.executable, f"{ROOT}/scripts/audit", "--help"], capture_output=True, text=True,
                          check=True, env={**os.environ, "COLUMNS": "200", "NO_COLOR": "1"}).stdout
    usage = re.sub(r"^usage: audit", "svahost-audit", " ".join(said.partition("\n\n")[0].split()))
    options = re.sub(r"\n {20,}", "  ", said.partition("options:")[2] or said.partition("optional arguments:")[2])
    return manual.page("svahost-audit", 1, "judges what a machine's trace says", [
        ("SYNOPSIS", [plain(usage, "\\-")]),
        ("DESCRIPTION", [inline(AUDIT)]),
        ("OPTIONS", pages.options_in(options)),
        ("", rendered(section(pages.format_text(), "## 16. "))),
        ("NOTES", [inline(NOTE)]),
        see_also(("svahost-record-iommu", 1), ("svahost-judge", 1), ("svahost-driver", 5)),
    ], "scripts/audit --help and docs/DRIVERS.md")


def record_page(manual):
    """The page of scripts/record-iommu, by what stands at its head."""
    head = re.match(r"#!.*\n((?:#.*\n)*)", text_of(f"{ROOT}/scripts/record-iommu"))[1]
    lines = [line[2:] for line in head.splitlines()]
    at = next(at for at, line in enumerate(lines) if line.startswith("    "))
    about = " ".join(lines[:at]).replace("scripts/audit", "svahost-audit(1)")
    return manual.page("svahost-record-iommu", 1, "records what a machine's IOMMU maps and unmaps", [
        ("SYNOPSIS", [plain(lines[at].strip().replace("scripts/", "svahost-"), "\\-")]),
        ("DESCRIPTION", [inline(about), ".PP", inline(" ".join(lines[at + 1:]))]),
        see_also(("svahost-audit", 1)),
    ], "scripts/record-iommu")


def all_pages(manual):
    """Each page by its file's name."""
    made = {"man1/svahost.1": main_page(manual), "man1/svahost-audit.1": audit_page(manual),
            "man1/svahost-record-iommu.1": record_page(manual)}
    made |= {f"man1/svahost-{it}.1": command_page(manual, it) for it in manual.commands}
    return made | {f"man5/svahost-{it}.5": language_page(manual, it) for it in LANGUAGES}
