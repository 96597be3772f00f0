"""Completions for zsh and fish, made of what the program says of itself."""

import re

from lib.man.pages import LANGUAGES

HELP = "Help on a command, or on a topic"


class Option:
    """An option of a command: its words, what stands behind it, and what it does."""

    def __init__(self, words, value, text):
        self.words, self.value, self.text = words, value, text
        self.long = words[-1]


def options_of(said):
    """The options that `-h` lists."""
    found = re.findall(r"^  +((?:-\w, )?--[a-z-]+)(?: <([^>]+)>)?  +(.*)$", said, re.M)
    return [Option(words.split(", "), value, text) for words, value, text in found]


def ends_of(manual, command):
    """Which letters stand behind `sv` in the names of its files; none where it takes no file."""
    if not re.search(r"^Usage: .*FILE", manual.said(command, "-h"), re.M):
        return []
    letters = [LANGUAGES[it][0] for it in manual.languages(command)]
    return [letter for it in letters for letter in it.replace("s", "as")]


def helped(manual):
    """What help is on: the commands, and the topics that the short help names."""
    topics = re.search(r"^  svahost help (.*,.*) or (\w+)$", manual.short, re.M)
    return [*manual.commands, *topics[1].split(", "), topics[2]]


def in_quotes(text, signs):
    """A text in single quotes of a shell, with a backslash before some signs."""
    return re.sub(rf"([{re.escape(signs)}])", r"\\\1", text).replace("'", "'\\''")


def zsh_option(it):
    value = "=" if it.value else ""
    shown = f"[{in_quotes(it.text, '[]:')}]" + (f":{in_quotes(it.value, ':')}: " if it.value else "")
    if len(it.words) == 1:
        return f"'{it.long}{value}{shown}'"
    return f"'(- *)'{{{','.join(it.words)}}}'{shown}'"


def zsh(manual):
    """The completion for zsh."""
    yield "#compdef svahost"
    yield "# made by scripts/completions of what the program says of itself"
    yield "_svahost() {"
    yield "  local -a commands=("
    yield from (f"    '{name}:{in_quotes(text, ':')}'" for name, text in manual.commands.items())
    yield f"    'help:{in_quotes(HELP, ':')}'"
    yield "  )"
    yield "  if (( CURRENT == 2 )); then"
    yield "    _describe -t commands command commands"
    yield f"    _arguments {' '.join(map(zsh_option, options_of(manual.short)))}"
    yield "    return"
    yield "  fi"
    yield "  local command=$words[2]"
    yield "  (( CURRENT-- ))"
    yield "  shift words"
    yield "  case $command in"
    for name in manual.commands:
        words = [zsh_option(it) for it in options_of(manual.said(name, "-h"))]
        ends = ends_of(manual, name)
        words += [f"'*:file:_files -g \"*.sv[{''.join(ends)}]\"'"] if ends else []
        yield f"    {name}) _arguments {' '.join(words)} ;;"
    yield f"    help) compadd {' '.join(helped(manual))} ;;"
    yield "  esac"
    yield "}"
    yield '_svahost "$@"'


def fish(manual):
    """The completion for fish."""
    yield "# made by scripts/completions of what the program says of itself"
    yield "complete -c svahost -f"
    for name, text in manual.commands.items():
        yield f"complete -c svahost -n __fish_use_subcommand -a {name} -d '{fish_text(text)}'"
    yield f"complete -c svahost -n __fish_use_subcommand -a help -d '{fish_text(HELP)}'"
    yield f"complete -c svahost -n '__fish_seen_subcommand_from help' -a '{' '.join(helped(manual))}'"
    for it in options_of(manual.short):
        yield f"complete -c svahost -n __fish_use_subcommand {fish_option(it)}"
    for name in manual.commands:
        behind = f"complete -c svahost -n '__fish_seen_subcommand_from {name}'"
        yield from (f"{behind} {fish_option(it)}" for it in options_of(manual.said(name, "-h")))
        yield from (f"{behind} -k -a '(__fish_complete_suffix .sv{end})'" for end in ends_of(manual, name))


def fish_text(text):
    return text.replace("\\", "\\\\").replace("'", "\\'")


def fish_option(it):
    short = [f"-s {word[1]}" for word in it.words if len(word) == 2]
    return " ".join([*short, f"-l {it.long[2:]}", *(["-x"] if it.value else []), f"-d '{fish_text(it.text)}'"])
