"""Small copies of the repository, in which an edit is tried by the crates above."""

import os
import re
import shutil
import subprocess

from lib.edits import ROOT, below, text_of, uses


class Copy:
    """A small copy of the repository, with what is built: some crates, and those on which they stand."""

    def __init__(self, room, names):
        self.room, self.changed, self.proved = room, [], set()
        self.crates = list(dict.fromkeys(it for name in names for it in [*below(name, uses()), name]))
        for name in self.crates:
            shutil.copytree(f"{ROOT}/crates/{name}", f"{room}/crates/{name}", ignore=shutil.ignore_patterns("must-fail", "more-edits", "test-edits", "no-compile"))
        shutil.copy(f"{ROOT}/HANDLES", room)
        with open(f"{room}/crates.txt", "w", encoding="utf-8") as it:
            it.writelines(line for line in text_of(f"{ROOT}/crates.txt").splitlines(keepends=True) if re.split("[ :]", line)[0] in self.crates)

    def put(self, crate, texts):
        """Puts these texts, of files of a crate and others, in the place of those that stand in the repository, and the former ones back."""
        paths = {os.path.normpath(f"crates/{crate}/{file}"): text for file, text in texts.items()}
        for path in self.changed:
            paths.setdefault(path, text_of(f"{ROOT}/{path}"))
        for path, text in paths.items():
            if path.split("/")[1] in self.crates:
                with open(f"{self.room}/{path}", "w", encoding="utf-8") as it:
                    it.write(text)
        self.changed = [path for path in paths if path.split("/")[1] in self.crates]

    def run(self, crate, *words):
        """What `rt` said in a crate, and its status."""
        # (`rt try` proves nothing, and takes no number of jobs)
        words, cwd = [f"{ROOT}/scripts/rt", *words, *(() if words[0] == "try" else ("--jobs", "1"))], f"{self.room}/crates/{crate}"
        ran = subprocess.run(words, cwd=cwd, stdin=subprocess.DEVNULL, stdout=subprocess.PIPE, stderr=subprocess.STDOUT, text=True, errors="replace")
        return ran.returncode, ran.stdout
