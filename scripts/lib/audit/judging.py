"""Verdicts: each driver that differs is judged once, by `svahost judge`."""

import os
import re
import subprocess
from concurrent.futures import ThreadPoolExecutor

SEEN = (0, 4, 5, 8)  # statuses of `judge` that come with a verdict
AWAITS = re.compile(r"# (\S+), line (\d+): (await .*)$")
WAITS = re.compile(r"# (\S+), line (\d+), (waits.*)$")
EVENT = re.compile(r"(.*?)\s+# (.*)$")
LINE = re.compile(r"line (\d+)$")


class Broken(Exception):
    """Why there is no verdict: the program can't be run, or doesn't take a driver."""


class Judge:
    """The program, and what it said of each driver until now."""

    def __init__(self, program, most, jobs=None):
        self.program, self.most = program, most
        self.jobs = jobs or os.cpu_count() or 1
        self._said = {}

    def judge(self, texts):
        """What is said of each of these drivers: by its text the lines of the report."""
        new = [text for text in dict.fromkeys(texts) if text not in self._said]
        with ThreadPoolExecutor(self.jobs) as pool:
            self._said.update(zip(new, pool.map(self._one, new)))
        return {text: self._said[text] for text in texts}

    def _one(self, text):
        command = [self.program, "judge", "--most", str(self.most)]
        try:
            done = subprocess.run(command, input=text, capture_output=True, text=True, check=False)
        except OSError as error:
            raise Broken("%s: %s" % (self.program, error.strerror)) from None
        if done.returncode not in SEEN or not done.stdout:
            told = (done.stderr or done.stdout or "it said nothing").strip().split("\n")[-1]
            raise Broken("%s judge: %s" % (self.program, told))
        return done.stdout.splitlines()


def witness(said, line_of):
    """The events of a report's witness, behind `# race`: of a line of the host which line of the log it is of, and of
    another event who acts."""
    at = next((i for i, line in enumerate(said) if line.strip() == "# race"), len(said) - 1)
    told = []
    for line in said[at + 1 :]:
        if found := AWAITS.match(line) or WAITS.match(line):
            act, who = found[3], "line " + found[2]
        elif found := EVENT.match(line):
            act, who = found[1], found[2]
        else:
            continue
        of_host = LINE.search(who)
        if of_host:
            of_log = line_of[int(of_host[1]) - 1]
            who = "log line %d" % of_log if of_log else "assumed"
        told.append("%-44s %s" % (act, who))
    return told
