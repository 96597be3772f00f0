"""Races by chance: what `svahost explore` reports, and what the model finds; and each witness step by step.
    try_races.py PROGRAM TRIALS|--planted SEED
"""

import pathlib
import random
import sys

sys.path.insert(1, str(pathlib.Path(__file__).parents[1]))
import planted_in_hosts
import trying
from compare_races import Said, differences, differences_where_cut, explore
from propose_race import race
from race_words import Race
from races import Search, outcome

MOST = 1200         # moments that are looked at
MOST_LISTS = 3000   # lists of moves that are gone one by one


def compare(program, text, most):
    """Whether the search was whole or cut off, and what differs."""
    output, status = explore(program, text, most)
    if output.startswith("cut off"):
        return "cut off", []
    if not output.startswith("whole"):
        return "no search", [output.split("\n")[0]]
    said, search = Said(output), Search(Race(text), most)
    found = differences(program, output, status, search)
    lists = Search(Race(text), MOST_LISTS, merges=False)
    if lists.is_whole and outcome(lists) != outcome(search):
        found.append("the lists of moves, one by one, come to something else")
    if said.moments > 1:
        fewer = said.moments * 2 // 3
        found += differences_where_cut(*explore(program, text, fewer), fewer, search)
    return "whole, and list by list" if lists.is_whole else "whole", found


def differs(program, text, most):
    try:
        kind, found = compare(program, text, most)
    except (AssertionError, KeyError, ValueError, IndexError, StopIteration, TypeError, AttributeError):
        return False
    return kind.startswith("whole") and bool(found)


def smallest(program, text, most):
    """Leaves lines out as long as the two still differ."""
    lines, place = text.split("\n"), 1
    while place < len(lines):
        fewer = "\n".join(lines[:place] + lines[place + 1:])
        if differs(program, fewer, most):
            lines.pop(place)
            if place > 1:
                place -= 1
        else:
            place += 1
    return "\n".join(lines)


def trial(program, seed, is_short=True):
    """What a search by chance came to, what is wrong with it, if something is, and the race, made short."""
    text = race(random.Random(seed))
    kind, faults = compare(program, text, MOST)
    if not faults:
        return kind, None, None
    return kind, faults[0][:300], smallest(program, text, MOST) if is_short else text


if __name__ == "__main__":
    sys.exit(trying.main("races", trial, planted_in_hosts.OF_RACES))
