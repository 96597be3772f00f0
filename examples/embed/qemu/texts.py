"""The scenarios: drivers of svahost, one order of a host's acts each, and what svahost says of them."""

import collections
import os
import subprocess

Line = collections.namedtuple("Line", "number words")


def numbers(words):
    return [int(word) if word.isdigit() else word for word in words]


def descriptors_of(words):
    """The descriptors of a submit, as ("range", 1, 16, 0) or ("wait", "drain")."""
    found = [[]]
    for word in numbers(words):
        if word == "+":
            found.append([])
        else:
            found[-1].append(word)
    return [tuple(it) for it in found]


class Scenario:
    """A file: the verdict that its first comment begins with, the lines before `race`, and those behind it."""

    def __init__(self, path):
        self.path, self.name = path, os.path.basename(path)[: -len(".svd")]
        with open(path) as file:
            lines = file.read().splitlines()
        self.wanted = lines[0].split()[1].rstrip(":,")
        self.head, self.before, self.behind = [], [], []
        part = self.before
        for number, text in enumerate(lines, 1):
            words = text.split("#")[0].split()
            if not words:
                continue
            if words[0] in ("config", "platform", "device", "link", "waits", "drain", "caches", "stopped"):
                self.head.append(" ".join(words))
            elif words[0] == "race":
                part = self.behind
            else:
                part.append(Line(number, words))
        acts = [line.words for line in self.before + self.behind]
        self.entered = sorted({int(words[1]) for words in acts if words[0] == "entry"})
        self.pages = sorted({int(words[2]) for words in acts if words[0] == "pte"})
        self.frames = sorted({int(words[3]) for words in acts if words[0] == "pte" and words[3] != "none"})

    def question(self, behind, last):
        """The driver with so many of the lines behind race, but for what gives frames away, and a last one."""
        lines = [line.words for line in self.behind[:behind] if line.words[0] not in ("free", "freeze")]
        texts = self.head + [" ".join(line.words) for line in self.before] + ["race"]
        return "\n".join(texts + [" ".join(words) for words in lines] + [last]) + "\n"


class Svahost:
    """The program, asked of many texts at once."""

    def __init__(self, program, folder):
        self.program, self.folder, self.known = program, folder, {}

    def verdicts(self, texts, run=False):
        """The first line of what `judge`, or `judge --run`, says of each text."""
        paths = []
        for index, text in enumerate(texts):
            paths.append(f"{self.folder}/{'run' if run else 'judged'}-{index}.svd")
            with open(paths[-1], "w") as file:
                file.write(text)
        if not paths:
            return []
        words = [self.program, "judge", "--jobs", "1"] + (["--run"] if run else []) + paths
        # With one file the report alone is printed; so one more stands behind it.
        said = subprocess.run(words + paths[-1:], capture_output=True, text=True)
        found = {}
        for line in said.stdout.splitlines():
            path, _, verdict = line.partition(": ")
            found.setdefault(path, verdict)
        if set(found) < set(paths):
            raise RuntimeError(f"svahost judge says: {said.stderr or said.stdout}")
        return [found[path] for path in paths]

    def learn(self, scenarios):
        """Asks for each scenario, behind each of its lines, of each frame, whether an endpoint may still use it, and
        whether it may still write it."""
        asked = []
        for it in scenarios:
            for behind in range(len(it.behind) + 1):
                for frame in it.frames:
                    asked += [(it.name, behind, word, frame, it.question(behind, f"{word} {frame}"))
                              for word in ("free", "freeze")]
        for (*key, text), verdict in zip(asked, self.verdicts([text for *_, text in asked])):
            if not verdict.startswith(("safe", "unsafe")):
                raise RuntimeError(f"svahost says of {key}: {verdict}")
            self.known[tuple(key)] = verdict.startswith("unsafe")

    def may(self, scenario, behind, word, frame):
        """Whether an endpoint may use (`free`) or write (`freeze`) a frame to which no page leads any more."""
        return self.known[scenario.name, behind, word, frame]
