#!/usr/bin/env python3
"""A dialogue with svahost over a pipe, in which the partner is killed and the dialogue goes on.

    trace_live.py [PROGRAM]              the dialogue below; PROGRAM is svahost where none is named
    trace_live.py --speed N [PROGRAM]    how many lines a second are asked and answered, one after the other

For a test of your own take the class Partner: Partner("svahost", "config 1 4 1").ask("space").answer is "space 0"."""

import collections
import subprocess
import sys
import time

Row = collections.namedtuple("Row", "line step answer messages")


class WrongLine(Exception):
    """A line that svahost can't read, as it tells it. Nothing was run of it, and the dialogue can go on."""


class Partner:
    """A run of `svahost trace --live`. Where it has gone it is started again, and told all lines so far: the same lines
    have the same rows."""

    def __init__(self, program, config):
        self.program, self.lines, self.rows, self.process, self.starts = program, [config], [], None, 0

    def start(self):
        """Starts the program, and brings it to where the dialogue is."""
        self.close()
        self.starts += 1
        pipe = subprocess.PIPE
        self.process = subprocess.Popen([self.program, "trace", "--live"], stdin=pipe, stdout=pipe)
        self.send(self.lines[:1])
        # Some hundred lines in one go: so both pipes have room, and the program reads seldom.
        for at in range(0, len(self.rows), 200):
            self.send(self.lines[at + 1 : at + 201])
            for row in self.rows[at : at + 200]:
                if self.row() != row:
                    raise RuntimeError(f"not {row!r} once more: is it another program?")

    def send(self, lines):
        self.process.stdin.write("".join(f"{line}\n" for line in lines).encode())
        self.process.stdin.flush()

    def row(self):
        """The next row. One without an end is none: the program has gone in the middle of it."""
        row = self.process.stdout.readline()
        if not row.endswith(b"\n"):
            raise EOFError
        return row[:-1].decode("utf-8", "replace")

    def text(self, line):
        """The row of a line, as it is printed."""
        words = line.split()
        # Such a line has no row, and one would wait for it for ever.
        if not words or words[0].startswith("#") or words[:2] == ["end", "=>"] or "\n" in line:
            raise ValueError(f"{line!r} is no step")
        row = self.said(line)
        # The config has no row either, but where something is wrong with it.
        if not self.rows and row.startswith(("line 1:", "refused 1 ")):
            raise ValueError(f"{self.lines[0]!r}: {row}")
        self.lines.append(line)
        self.rows.append(row)
        return row

    def said(self, line):
        """Sends a line and takes its row. Where the program has gone it is started again, three times at most."""
        for _ in range(4):
            try:
                if self.process is None:
                    self.start()
                self.send([line])
                return self.row()
            except (BrokenPipeError, EOFError):
                self.close()
        raise RuntimeError(f"svahost ends at {line!r}, again and again")

    def ask(self, line):
        """The row of a line, by its columns."""
        row = self.text(line)
        columns = row.split("\t")
        if len(columns) < 3:
            raise WrongLine(row)
        return Row(int(columns[0]), columns[1], columns[2], columns[3] if len(columns) > 3 else "")

    def end(self):
        """Ends the dialogue: the row of the counts, and the program's status."""
        self.process.stdin.close()
        counts = self.row()
        return counts, self.process.wait()

    def close(self):
        """Lets go of the program, which is killed if it hasn't ended."""
        if self.process is None:
            return
        self.process.kill()
        for stream in (self.process.stdin, self.process.stdout):
            try:
                stream.close()
            except BrokenPipeError:
                pass
        self.process.wait()
        self.process = None


BEFORE = [
    "s: space", "m: map s 16 w", "b: bind 0 s", "deliver b", "ask 0 b 16", "deliver request 0", "deliver completion 0",
    "u: use 0 b 16 w", "unmap s 16", "p: pump 0", "deliver p",
]
BEHIND = [
    "finish 0 p 1", "end 0 u", "f: finish 0 p 1", "deliver f", "pump 0", "look m", "mapp s 16 w", "map s 16 w",
]


def dialogue(program):
    partner = Partner(program, "config 1 4 1")
    for line in BEFORE:
        print(partner.text(line))
    partner.process.kill()
    partner.process.wait()
    print(f"-- the partner was killed behind {len(partner.rows)} rows")
    for line in BEHIND:
        print(partner.text(line))
    counts, status = partner.end()
    print(counts)
    print(f"-- started {partner.starts} times; status {status}")


def speed(count, program):
    partner = Partner(program, "config 1 4 1")
    partner.text("space")
    begun = time.monotonic()
    for number in range(count):
        partner.said("unmap 0 16" if number % 2 else "map 0 16 w")
    print(f"{count / (time.monotonic() - begun):.0f} lines a second")
    partner.end()


if __name__ == "__main__":
    if sys.argv[1:2] == ["--speed"]:
        speed(int(sys.argv[2]), *sys.argv[3:] or ["svahost"])
    else:
        dialogue(*sys.argv[1:] or ["svahost"])
