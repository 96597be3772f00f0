"""Branches of a driver: in which blocks a line stands, with which line a thread goes on behind it, and what an `if` finds
(docs/FORMAT.md, section 15, "Branches")."""

import timeouts

# by scripts/words --write: condition
CONDITIONS = """present stopped filed queued gone overflow failed""".split()


def is_of_block(words):
    """`else`, and `end` by itself: `end E` is an endpoint's act."""
    return words in (['else'], ['end'])


def tree(items, wrong):
    """The lines of a thread, an `if` with the lines of its two branches: (line, yes, no). Items are its lines, and with
    their numbers `else` and `end`, as they stand. What is wrong with these is added: (number, word, what was wanted)."""
    found = []
    open_blocks, into = [], found               # ((the `if`, its branches), what goes on behind its `end`, is it `else`)
    for item in items:
        if not isinstance(item, tuple):
            node = (item, [], [])
            into.append(node)
            if item.words[0] == 'if':
                open_blocks.append((node, into, False))
                into = node[1]
        elif not open_blocks:
            wrong.append((*item, 'an if above in this thread'))
        elif item[1] == 'end':
            _, into, _ = open_blocks.pop()
        elif open_blocks[-1][2]:
            wrong.append((*item, 'no second else'))
        else:
            node, behind, _ = open_blocks.pop()
            open_blocks.append((node, behind, True))
            into = node[2]
    wrong += [(node[0].number, 'if', 'an end below in this thread') for node, _, _ in open_blocks]
    return found


def link(nodes, behind=None, under=()):
    """Of each line with which line its thread goes on, and in which branches it stands; `behind` comes behind them all.
    The first of them is told."""
    for line, yes, no in reversed(nodes):
        line.under, line.next, line.other = under, behind, behind
        if line.words[0] == 'if':
            line.next = link(yes, behind, under + ((line.index, True),))
            line.other = link(no, behind, under + ((line.index, False),))
        behind = line
    return behind


def stands_in(line, other):
    """Does a line stand in each branch in which another one stands?"""
    return set(other.under) <= set(line.under)


def is_met(world, words):
    """Whether a condition holds: the words behind `if` and `not`."""
    what, pasid = words[0], words[2] if len(words) > 2 else None
    if what not in CONDITIONS:
        return what in world.flags
    port = world.ports[words[1]]
    if what == 'failed':
        return timeouts.has_failed(port, pasid)
    if what == 'gone':
        return port.gone
    if what == 'overflow':
        return port.overflowed
    if what == 'present':
        return pasid in port.entry
    if what == 'stopped':
        return pasid in port.answers
    there = port.filed if what == 'filed' else port.prq
    return any(pasid in (None, one[0]) for one in there)


def finds(world, words):
    """Whether an `if` that looks at this goes on in its first branch."""
    is_not = words[1] == 'not'
    return is_met(world, words[2:] if is_not else words[1:]) != is_not


def goes_on(world, line):
    """The line with which the thread goes on behind a line, or None."""
    return line.next if line.words[0] != 'if' or finds(world, line.looks) else line.other
