"""A driver's lines as they are written out: definitions, calls and repeats (docs/DRIVERS.md, section 15). A line keeps
the number that it has in the file."""


def out(text):
    """(number, words) of each line that has words."""
    lines = []
    for number, raw in enumerate(text.split('\n'), 1):
        words = raw.split('#')[0].split()
        if words:
            lines.append((number, words))
    return written(lines, {})


def written(lines, known):
    """The lines without definitions, which are added to `known` as they come, and with what calls and repeats say."""
    found, at = [], 0
    while at < len(lines):
        number, words = lines[at]
        at += 1
        if words[0] == 'def':
            behind = end_of(lines, at)
            known[words[1]] = words[2:], written(lines[at:behind], known)
            at = behind + 1
        elif words[0] == 'repeat':
            behind = end_of(lines, at)
            found += repeated(written(lines[at:behind], known), int(words[1]))
            at = behind + 1
        elif words[0] == 'call':
            found += called(*known[words[1]], words[2:])
        else:
            found.append((number, words))
    return found


def end_of(lines, at):
    """Where the `end` stands of the block whose lines begin there."""
    depth = 1
    while depth:
        words = lines[at][1]
        depth += is_block(words) - (words == ['end'])
        at += 1
    return at - 1


def is_block(words):
    """Does an `end` belong to it? An `if` may have a name."""
    its = words[1:] if words[0].endswith(':') else words
    return its[:1] in (['if'], ['repeat'], ['def'])


def repeated(lines, times):
    return lines * times


def called(names, lines, given):
    """A body, each whole word `$x` replaced."""
    return [(number, [put(word, names, given) for word in words]) for number, words in lines]


def put(word, names, given):
    return given[names.index(word)] if word in names else word
