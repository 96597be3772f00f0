"""Tries what is made by chance, and says where the program and the model differ; or, with readings that are planted in
the model, whether that is found.

    TRY PROGRAM TRIALS SEED
    TRY PROGRAM --planted SEED
"""

import collections
import contextlib
import multiprocessing
import os
import sys

MOST_OF_PLANTED = 4000
# What each process that looks for readings is handed: they are forked, so each plants them in a model of its own.
LOOKED_FOR = {}


class Reading:
    """A wrong reading: a function of the model that another takes the place of, made of it; and what makes the texts in
    which it is looked for, where these aren't those of all trials."""

    def __init__(self, words, owner, name, made, maker=None):
        self.words, self.owner, self.name, self.made = words, owner, name, made
        self.its = {"maker": maker} if maker else {}

    @contextlib.contextmanager
    def planted(self):
        kept = self.owner.__dict__[self.name]
        old = kept.__func__ if isinstance(kept, staticmethod) else kept
        new = self.made(old)
        setattr(self.owner, self.name, staticmethod(new) if isinstance(kept, staticmethod) else new)
        try:
            yield
        finally:
            setattr(self.owner, self.name, kept)


def try_all(kind, trial, program, trials, seed):
    """Tries so many, says what differs, and how many were tried and what they came to: 1 where one is wrong."""
    came, wrong = collections.Counter(), 0
    for number in range(trials):
        what, fault, text = trial(program, "%s-%d" % (seed, number))
        came[what] += 1
        if fault:
            wrong += 1
            print("by-chance: %s %s-%d: %s; the smallest text:\n%s" % (kind, seed, number, fault, text), flush=True)
    print("by-chance: %s: %s" % (kind, ", ".join("%s %d" % each for each in sorted(came.items()))))
    print("by-chance: %s: %d tried, %d wrong" % (kind, trials, wrong))
    return 1 if wrong or not trials else 0


def is_found(trial, program, seed, its):
    """Whether a text tells the model from the program. One that leads where the model says that nothing leads, to what
    isn't kept, or to what is no word, tells them apart too; any other fault in it ends the run."""
    for number in range(MOST_OF_PLANTED):
        try:
            if trial(program, "%s-%d" % (seed, number), is_short=False, **its)[1]:
                return True
        except (AssertionError, KeyError, StopIteration, ValueError, IndexError, TypeError):
            return True
    return False


def is_planted_found(number):
    """Whether the reading of that number is found, once it is planted."""
    reading = LOOKED_FOR["readings"][number]
    with reading.planted():
        return is_found(LOOKED_FOR["trial"], LOOKED_FOR["program"], LOOKED_FOR["seed"], reading.its)


def find_planted(kind, trial, program, seed, readings):
    """Plants each reading, several beside one another: 1 where one isn't found."""
    LOOKED_FOR.update(trial=trial, program=program, seed=seed, readings=readings)
    found = 0
    with multiprocessing.get_context("fork").Pool(os.cpu_count()) as pool:
        for reading, is_there in zip(readings, pool.imap(is_planted_found, range(len(readings)))):
            found += is_there
            if not is_there:
                print("by-chance: %s: not found: %s" % (kind, reading.words), flush=True)
    print("by-chance: %s: %d planted, %d found" % (kind, len(readings), found))
    return 0 if found == len(readings) else 1


def main(kind, trial, readings):
    program, what, seed = sys.argv[1:]
    if what == "--planted":
        return find_planted(kind, trial, program, seed, readings)
    return try_all(kind, trial, program, int(what), seed)
