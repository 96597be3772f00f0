#!/usr/bin/env python3
"""Holds QEMU's emulated Intel VT-d unit to the rules of svahost.

    hold.py [--svahost PROGRAM] [--qemu PROGRAM] [--mode MODE ..] [--planted] [--verbose] [SCENARIO ..]

Each scenario (NAME.svd beside this file) is done on the unit by two kinds of devices, in each mode that this version of
QEMU has, and each difference from what svahost says of it is told. Those of known.txt are counted apart. Then what the
standard says of the queue itself is tried (queue.py). With --planted wrong models are tried instead: each has to be found.
The last line counts; the status is 0 where nothing is wrong."""

import argparse
import collections
import fnmatch
import glob
import os
import sys
import tempfile

import machine
import planted
import queues
from model import KINDS, Cannot, Qemu
from rules import Run, judged
from texts import Scenario, Svahost
from unit import MODES

HERE = os.path.dirname(os.path.abspath(__file__))
Known = collections.namedtuple("Known", "first last mode kind scenario what reason")


def known():
    """The table of known differences: a row for each, of columns that two blanks or more keep apart."""
    rows = []
    with open(f"{HERE}/known.txt") as file:
        for line in file.read().splitlines():
            if line.strip() and not line.startswith(("#", "    ")):
                rows.append([word.strip() for word in line.split("  ") if word.strip()] + [""])
            elif line.startswith("    "):
                rows[-1][-1] += line.strip() + " "
    return [Known(*(tuple(map(int, it.split("."))) for it in row[0].split("-")), *row[1:]) for row in rows]


class Count:
    """What was tried, and what of it was wrong. A known difference that isn't seen any more is wrong too."""

    def __init__(self, version, verbose):
        self.version, self.verbose, self.tried, self.right, self.known, self.wrong = version, verbose, 0, 0, 0, 0
        self.table = [it for it in known() if it.first <= version <= it.last]
        self.met = set()

    def row_of(self, mode, kind, name, what):
        for row in self.table:
            names = ((mode, row.mode), (kind, row.kind), (name, row.scenario), (what, row.what))
            if all(fnmatch.fnmatch(it, pattern) for it, pattern in names):
                return row
        return None

    def take(self, mode, kind, name, differences):
        """A run with these differences: (line, what)."""
        self.tried += 1
        rows = [self.row_of(mode, kind, name, what) for _, what in differences]
        self.met.update(row for row in rows if row)
        if not differences:
            self.right += 1
        elif all(rows):
            self.known += 1
        else:
            self.wrong += 1
        if self.verbose and not differences:
            print(f"{mode} {kind} {name}: as wanted")
        for (line, what), row in zip(differences, rows):
            print(f"{mode} {kind} {name}{f', line {line}' if line else ''}: {what}{': known' if row else ': WRONG'}")

    def end(self, modes, whole):
        """The last line. Where all was run, each row of the table has to have been met."""
        for row in self.table if whole else ():
            if row not in self.met and any(fnmatch.fnmatch(mode, row.mode) for mode in modes):
                print(f"known.txt has a difference that wasn't seen: {row.mode} {row.kind} {row.scenario}: {row.what}")
                self.wrong += 1
        print(f"{self.tried} tried, {self.right} as wanted, {self.known} known differences, {self.wrong} wrong")
        return 1 if self.wrong or not self.tried else 0


def learn(svahost, scenarios):
    """Asks svahost all that is asked of the scenarios, and says how much that forbids."""
    texts = []
    for it in scenarios:
        with open(it.path) as file:
            texts.append(file.read())
    wrong = 0
    for it, verdict in zip(scenarios, svahost.verdicts(texts)):
        if verdict.split()[0] != it.wanted:
            print(f"{it.name}: svahost says {verdict!r}: WRONG")
            wrong += 1
    svahost.learn(scenarios)
    forbidden = sum(not may for may in svahost.known.values())
    print(f"svahost: {len(scenarios)} scenarios, {len(svahost.known)} questions, of which {forbidden} forbid something")
    return wrong


def model_of(program, mode, folder):
    """The unit in this mode, or None, and why."""
    try:
        return Qemu(program, mode, folder), None
    except (Cannot, machine.Gone, ConnectionError) as reason:
        return None, reason


def hold(arguments, svahost, scenarios, folder):
    version = machine.version(arguments.qemu)
    print(f"QEMU {'.'.join(map(str, version))}, time {'by qtest' if machine.has_qtest_clock(arguments.qemu) else 'as it is'}")
    count, modes = Count(version, arguments.verbose), []
    count.wrong += learn(svahost, scenarios)
    for mode in arguments.mode:
        model, reason = model_of(arguments.qemu, mode, folder)
        if model is None:
            print(f"{mode}: skipped: {reason}")
            continue
        modes.append(mode)
        try:
            runs = [Run(it, model, kind, svahost).all() for kind in KINDS for it in scenarios]
            judged(runs, svahost)
            for run in runs:
                count.take(mode, run.kind, run.scenario.name, run.differences)
            for name, differences in queues.all_of(model) if not arguments.scenario else ():
                count.take(mode, "queue", name, differences)
            print(f"{mode}: {sum(run.looks for run in runs)} accesses and kept translations were looked at")
        finally:
            model.close()
    return count.end(modes, not arguments.scenario)


def plant(arguments, svahost, scenarios, folder):
    """Tries each wrong model until a scenario tells it from a right one."""
    learn(svahost, scenarios)
    model = Qemu(arguments.qemu, arguments.mode[0], folder)
    found = 0
    try:
        for wrong in planted.ALL:
            told = planted.found(wrong, model, svahost, scenarios)
            found += told is not None
            print(f"planted: {wrong.__doc__} {told or 'NOT FOUND'}")
    finally:
        model.close()
    print(f"{len(planted.ALL)} planted, {found} found")
    return 0 if found == len(planted.ALL) else 1


def main():
    parser = argparse.ArgumentParser(description=__doc__, formatter_class=argparse.RawDescriptionHelpFormatter)
    parser.add_argument("--svahost", default="svahost", help="the program, not the script ./svahost")
    parser.add_argument("--qemu", default="qemu-system-x86_64")
    parser.add_argument("--mode", action="append", choices=MODES)
    parser.add_argument("--planted", action="store_true")
    parser.add_argument("--verbose", action="store_true")
    parser.add_argument("scenario", nargs="*")
    arguments = parser.parse_args()
    arguments.mode = arguments.mode or list(MODES)
    paths = [f"{HERE}/{name}.svd" for name in arguments.scenario] or sorted(glob.glob(f"{HERE}/*.svd"))
    with tempfile.TemporaryDirectory() as folder:
        svahost, scenarios = Svahost(arguments.svahost, folder), [Scenario(path) for path in paths]
        return (plant if arguments.planted else hold)(arguments, svahost, scenarios, folder)


if __name__ == "__main__":
    sys.exit(main())
