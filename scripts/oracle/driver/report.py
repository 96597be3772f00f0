"""What `safe in all N moments` goes on with, and what stands below it: the budgets, what of them can't be made, the
settings, what wasn't asked, and what never happened; and what `--run` says where there is a `race`."""

UNTRIED = ', but no endpoint ever held a translation or sent a page request'
NTH = ('first', 'second', 'third')
KEEPS = 'with caches on one may leave an entry kept, one a translation, and one meet both'


def is_tried(shown):
    return any(what in ('translation', 'page request') for what, _ in shown)


def below_safe(driver, shown):
    """Where `shown` is what the moments showed, all together."""
    found = [within(driver, e) for e in sorted(driver.devices)]
    s = driver.settings
    found += [f'with link {s.link}, waits {s.waits}, drain {s.drain}, caches {s.caches}, stopped {s.stopped}'
              + f', order {s.order}'
              + ', enables cleared' * (s.enables == 'cleared')
              + f', timeouts {s.timeouts}' * (s.timeouts != 'off') + ', refuses drain' * ('refuses' in s.said)
              + ', allow no-group' * ('allow' in s.said) + (f', places {s.places}' if s.places else '') + ''.join(f', unit {text}' for text in shared(driver))]
    others = not_asked(s)
    found += ['not asked: ' + ', '.join(others)] if others else []
    found += [line for e in sorted(driver.devices) for line in ask_not_made(driver, e)]
    return found + (nevers(driver, shown) if is_tried(shown) else [])


def shared(driver):
    """The endpoints below each unit that is shared, in words."""
    below = [[str(e) for e in range(driver.ports) if driver.units[e] == unit] for unit in range(driver.ports)]
    return [' '.join(endpoints) for endpoints in below if len(endpoints) > 1]


def not_asked(s):
    """What leaves more open than a setting that holds; `link free` isn't told."""
    kinder = {'waits plain': s.waits == 'fence', 'drain arrived': s.drain == 'empty', 'caches on': s.caches == 'off',
              'stopped status': s.stopped == 'marker',
              'stopped known': s.stopped == 'marker' or s.stopped == 'status' and s.link == 'posted',
              'order loose': s.order == 'queue'}
    return [word for word, so in kinder.items() if so]


def ask_not_made(driver, e):
    """Of an endpoint with a budget, where there are caches: the next ask, where there are fewer than three."""
    budget = driver.devices[e].budget
    asks = budget[0] + sum(x.words[:2] == ['ask', e] for x in driver.lines)
    if driver.settings.caches == 'off' or not any(budget) or asks >= 3:
        return []
    return [f'not asked: a {NTH[asks]} ask at endpoint {e}: {KEEPS}']


def behind_race(driver):
    return '; the orders behind race were not searched' if driver.raced else ''


def nevers(driver, shown):
    """What never happened, although a budget or a line allows it."""
    found = []
    for e in sorted(driver.devices):
        for n, verb, what, text in ((0, 'ask', 'translation', 'holds a translation'),
                                    (1, 'use', 'use', 'uses a translation'),
                                    (2, 'fault', 'page request', 'sends a page request')):
            may = driver.devices[e].budget[n] or any(x.words[:2] == [verb, e] for x in driver.lines)
            if may and (what, e) not in shown:
                found.append(f'never: endpoint {e} {text}')
    for line in driver.lines:
        verb, frame = (line.words + [None])[:2]
        is_behind = line not in driver.by_thread[0]
        if is_behind and verb in ('free', 'freeze') and isinstance(frame, int) and ('frame', frame) not in shown:
            does = 'gives away' if verb == 'free' else 'freezes'
            found.append(f'never: a translation to frame {frame}, which line {line.number} {does}, at any endpoint')
    return found + untaken(driver, shown)


def untaken(driver, shown):
    """Where lines look, the numbers of those behind `race` that no list takes, and which none before it has."""
    were = driver.begun | {x.number for x in driver.lines if ('line', x.serial) in shown}
    left = [x.number for x in driver.lines if x not in driver.by_thread[0] and x.number not in were]
    left = [str(number) for number in dict.fromkeys(left)]
    if not driver.branches or not left:
        return []
    if len(left) == 1:
        return [f'never: line {left[0]} is taken']
    return [f'never: lines {", ".join(left[:-1])} and {left[-1]} are taken']


def within(driver, e):
    device = driver.devices[e]
    asks, uses, faults = device.budget
    text = f'within endpoint {e}: {count(asks, "ask")}, {count(uses, "use")}, {count(faults, "fault")}'
    text += ''.join(f', {word}' for word in ('evicts', 'silent', 'lies', 'awaits', 'leaves') if getattr(device, word))
    if not any(device.budget):
        return text
    if not device.pasids:                       # "which needs a PASID for each of the three"
        return text + '; none can be made: no line starts a PASID there'
    if (asks or faults) and not device.pages:
        text += '; no ask or fault can be made: it has no page'
    asked = any(x.words[:2] == ['ask', e] for x in driver.lines)
    if uses and not asked and not (asks and device.pages):
        text += '; no use can be made: nothing asks there'
    return text


def count(n, what):
    return f'{n} {what}' + 's' * (n != 1)
