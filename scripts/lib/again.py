"""A second wrong body of a function in the same check, for scripts/more-edits: an edit of a copy of the function under another name, with a copy of its proof."""

import os
import re

from .edits import ROOT, Edit, files_below, function_at, functions_of, text_of


class Again(Edit):
    """An edit at a copy of its function: what it adds to the ends of files, and to which edit it goes back."""

    def __init__(self, edit, name, added):
        super().__init__(edit.crate, edit.name, edit.rule, [])
        self.of, self.file, self.function, self.added = edit, edit.file, (edit.function[0], name), added

    def applied(self, texts, pairs=None):
        texts = dict(texts)
        for file, text in self.added.items():
            texts[file] = (texts.get(file) or self.text(file)) + text
        return texts


def again(edit, number):
    """The edit at a copy of its function, the first, second and so on; None where its pairs aren't all in that, or it is a trait's, or has an attribute."""
    kind, name = edit.function
    places = [it for it in functions_of(edit.crate) if edit.is_of(f"{edit.crate}::{it}")]
    header, uses, body = source_of(edit.text(edit.file), edit.function)
    if len(places) != 1 or not body or kind and not re.match(r"impl\b(?:<.*?>)?\s+[A-Z]\w*(?:<.*>)?\s*\{$", header.rstrip("\n")):
        return None
    for _, old, new in edit.pairs:
        if body.count(old) != 1:
            return None
        body = body.replace(old, new)
    called = f"{name}_again_{number}"
    body = re.sub(rf"\bfn {name}\b", f"fn {called}", body, count=1)
    added = {edit.file: "\n" + (f"{header}{uses}{body}}}\n" if kind else body)}
    place = places[0].split("::")
    for path in files_below(f"{ROOT}/crates/{edit.crate}/proofs/{'/'.join(place)}", ".antt"):
        file = f"proofs/{'/'.join([*place[:-1], called])}/{os.path.basename(path)}"
        names = rf"\b(Rattle\.{edit.crate}\.(?:proofs|specs\.contracts)\.{re.escape('.'.join(place))})(?!\w)"
        added[file] = re.sub(names, rf"\1_again_{number}", text_of(path))
    return Again(edit, called, added)


def source_of(text, function):
    """The first line of the impl in which a function stands, if it does; what that names in ghost; and the function's own text, nothing where it isn't found."""
    lines = text.splitlines(keepends=True)
    header, end = "", 0
    for at, line in enumerate(lines):
        end += len(line)
        if line.startswith("impl"):
            header = line
        elif line.startswith("}"):
            header = ""
        head = re.match(r"( *)(?:pub(?:\([a-z]+\))? )?(?:const )?fn (\w+)", line)
        if head and head.group(2) == function[1] and function_at(text, end) == function and not lines[at - 1].lstrip().startswith("#["):
            last = next((it for it in range(at, len(lines)) if lines[it].rstrip("\n") in (head.group(1) + "}", head.group(1) + "{}")), None)
            begin = next((it for it in range(at, -1, -1) if lines[it].startswith("impl")), 0)
            close = next((it for it in range(at, len(lines)) if lines[it].startswith("}")), len(lines))
            uses = "".join(it for it in lines[begin:close] if it.startswith("    ghost use "))
            return header, uses, "".join(lines[at : last + 1]) if last else ""
    return "", "", ""
