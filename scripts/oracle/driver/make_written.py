"""Definitions, calls and repeats in drivers by chance: some lines of a text stand in a body, or are repeated."""

from world import Settings

HEADS = {'config', 'platform', 'race', 'thread', 'device', 'workers', 'places', 'unit', 'def', *Settings.pairs, *Settings.flags}
PARAMETERS = ('$x', '$xy', '$x-1', '$e')
OTHERS = {'16': '17', '17': '16', '0x10': '0x11', 'on': 'off', 'off': 'on', 'x': 'y-2', 'success': 'invalid'}
BEGIN = ('if', 'repeat')


def its_words(line):
    words = line.split()
    return words[1:] if words[0].endswith(':') else words


def own_words(line):
    """How many words of a line are no parameters: its name and its verb, what is called, and how often it is repeated."""
    return len(line.split()) - len(its_words(line)) + (2 if its_words(line)[0] in ('call', 'repeat') else 1)


def behind(lines, at, most):
    """Behind which lines, from a place on, whole blocks end, and acts alone stand before."""
    found, depth = [], 0
    for n in range(at, min(len(lines), at + most)):
        words = its_words(lines[n])
        if words[0] in HEADS or words == ['else'] and depth == 0:
            break
        depth += (words[0] in BEGIN) - (words == ['end'])
        if depth < 0:
            break
        if depth == 0:
            found.append(n + 1)
    return found


def some_lines(m, lines):
    """Some lines that may stand in a body: from where on, and up to where."""
    at = m.rng.randrange(len(lines))
    ends = behind(lines, at, m.one(1, 2, 4, 8))
    return (at, m.rng.choice(ends)) if ends else None


def is_named(lines):
    return any(x.split()[0].endswith(':') for x in lines)


def with_repeat(m, lines):
    """Lines that are equal are written once, or some lines are repeated."""
    equal = [n for n in range(1, len(lines)) if lines[n] == lines[n - 1] and behind(lines, n, 1)]
    if equal and m.chance(0.8):
        n = m.rng.choice(equal)
        return lines[:n - 1] + ['repeat 2', lines[n], 'end'] + lines[n + 1:]
    place = some_lines(m, lines)
    if not place:
        return lines
    i, k = place
    times = 1 if is_named(lines[i:k]) else m.one(1, 1, 2, 2, 3)
    return lines[:i] + [f'repeat {times}'] + lines[i:k] + ['end'] + lines[k:]


def with_definition(m, lines, name):
    """Some lines stand in a body, with parameters for some of their words, and are called: once, or twice, then perhaps
    with other words."""
    place = some_lines(m, lines)
    if not place:
        return lines
    i, k = place
    body = lines[i:k]
    words = sorted({w for x in body for w in x.split()[own_words(x):] if w != '+'})
    outer = [w for w in words if w.startswith('$')]   # of a body that these lines stood in
    others = [w for w in words if w not in outer]
    given = outer + m.rng.sample(others, max(0, min(len(words), m.one(0, 1, 1, 2, 2, 3, 4)) - len(outer)))
    parameters = dict(zip(given, m.rng.sample(PARAMETERS, len(given))))
    call = [f'call {name} ' + ' '.join(given)]
    if not is_named(body) and m.chance(0.4):
        is_free = m.chance(0.5) and not any(x.startswith('await wait') for x in body)
        call += [f'call {name} ' + ' '.join(OTHERS.get(w, w) if is_free else w for w in given)]
    made = [' '.join(['def', name] + [parameters[w] for w in given])]
    made += [' '.join(parameters.get(w, w) if n >= own_words(x) else w for n, w in enumerate(x.split())) for x in body]
    made.append('end')
    lines = lines[:i] + call + lines[k:]
    above = [n for n, x in enumerate(lines) if n <= i and x.split()[0] in HEADS and x.split()[0] != 'config']
    at = m.rng.choice(above) if above and not any(x.startswith('call') for x in body) and m.chance(0.5) else None
    return placed(lines, made, i if at is None else at)


def placed(lines, made, at):
    """The definition stands above, in no block, and below those that are called in it."""
    depth, best = 0, 1
    for n, x in enumerate(lines[:at + 1]):
        words = its_words(x)
        if depth == 0 and n:
            best = n
        depth += (words[0] in BEGIN or words[0] == 'def') - (words == ['end'])
    return lines[:best] + made + lines[best:]


def folded(m, text):
    """The same, or a like driver with definitions, calls and repeats."""
    lines = text.rstrip('\n').split('\n')
    for name in ('d', 'flush-1')[:m.one(1, 1, 2)]:
        lines = with_repeat(m, lines) if m.chance(0.4) else lines
        lines = with_definition(m, lines, name) if m.chance(0.8) else lines
    return '\n'.join(lines) + '\n'
