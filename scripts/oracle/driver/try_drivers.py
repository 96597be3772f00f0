"""Drivers by chance: what `svahost judge` says, and what the model finds; and each witness event by event. A fifth are
long lists for `judge --run`.
    try_drivers.py PROGRAM TRIALS|--planted SEED
"""

import pathlib
import random
import re
import subprocess
import sys

sys.path.insert(1, str(pathlib.Path(__file__).parents[1]))
import all_findings
import apart
import branches
import planted_in_apart
import planted_in_barriers
import planted_in_branches
import planted_in_controls
import planted_in_drivers
import planted_in_findings
import planted_in_loose
import planted_in_overflows
import planted_in_timeouts
import planted_in_units
import reading
import search
import trying
from make import make_any, make_long_list
from reading import Driver, need
from report import UNTRIED, behind_race, below_safe, count, is_tried
from world import Settings

MOST = 300          # moments that the program looks at; of one text in twelve 2400
MOST_LISTS = 3000   # lists of events that are gone one by one
NAMES = {'wrong': 'an act not permitted', 'leak': 'unsafe before race', 'run not': 'run not permitted'}
HEADS = {'config', 'workers', 'device', 'unit', 'places', *Settings.pairs, *Settings.flags}   # what no act begins
STATUSES = {'safe': 0, 'apart': 0, 'unsafe': 4, 'leak': 4, 'stuck': 4, 'cut': 5, 'wrong': 1, 'right': 0}


def most_of(text):
    return MOST if len(text) % 12 else 8 * MOST


def ask_program(program, text, *options):
    """The report, or its status where that isn't the one of its first line."""
    done = subprocess.run([program, 'judge', *options], input=text, capture_output=True, text=True, check=False)
    if done.returncode == STATUSES.get(told(done.stdout)[0]):
        return done.stdout
    return f'status {done.returncode}\n{done.stdout}'


def told(report):
    """(kind, number, text) of the first line of a report."""
    first = report.split('\n')[0]
    for kind, pattern in (('safe', rf'safe in all (\d+) moments?((?:{UNTRIED})?)$'),
                          ('apart', rf'safe in all (\d+) moments?, endpoint by endpoint((?:{UNTRIED})?)$'),
                          ('unsafe', r'unsafe in (\d+) events?: (.*)$'),
                          ('leak', r'unsafe at line (\d+): (.*)$'),
                          ('right', r'nothing wrong in any of (\d+) events?(.*)$'),
                          ('stuck', r'stuck in (\d+) events?: (.*), waits for ever$'),
                          ('cut', r'cut off at \d+ moments?: safe in each list of fewer than (\d+) events?()$'),
                          ('wrong', r'line (\d+): (.*)$')):
        m = re.match(pattern, first)
        if m:
            return kind, int(m.group(1)), m.group(2)
    return 'strange', 0, first


def compare(text, report, by_lists=True):
    """What differs, or None; and the kind of the verdict."""
    driver = Driver(text)
    if driver.wrong:
        return compare_wrong(driver, report), 'wrong lines'
    kind, number, rest = told(report)
    world, were, ended = search.before_race(driver)
    if ended:
        return compare_ended(ended, report), kind
    shown = set()
    verdict, events, texts, counts = search.search(driver, world, 2 * most_of(text), shown=shown)
    if kind == 'apart' or apart.comes_apart(driver, world):
        fault = compare_apart(driver, world, report, (verdict, shown), most_of(text))
        if fault or kind == 'apart':
            if not fault and by_lists and verdict != 'cut':
                fault = compare_lists(driver, world, verdict, events, shown)
            return fault, 'endpoint by endpoint'
    if verdict == 'cut' or kind == 'cut':
        return compare_cut(verdict, events, kind, number, counts), 'cut off'
    fault = compare_lists(driver, world, verdict, events, shown) if by_lists else None
    if fault or kind != verdict:
        return fault or f'kind: program {kind} {number} {rest}, model {verdict} {events} {texts}', kind
    if kind == 'safe':
        if (rest == '') != is_tried(shown):
            return f'program {rest}, model {sorted(shown)}', kind
        if report.split('\n')[1:-1] != below_safe(driver, shown):
            return f'below safe: {report.split(chr(10))[1:-1]}, model {below_safe(driver, shown)}', kind
        return None if number >= events else f'moments: program {number}, model {events}', kind
    if number != events:
        return f'{kind}: program {number}, model {events} events', kind
    fault = compare_before(were, report.split('\n'))
    return fault or replay(driver, world, report, kind, rest), kind


def compare_lists(driver, world, verdict, events, shown):
    """The same by each list of events, with no visited set, where these are few."""
    shown_in_lists = set()
    lists = search.search(driver, world, MOST_LISTS, merges=False, shown=shown_in_lists)
    if lists[0] != 'cut' and (lists[0] != verdict or verdict != 'safe' and lists[1] != events):
        return f'the lists of events, one by one, come to something else: {lists[:3]}'
    if lists[0] == 'safe' and shown_in_lists != shown:
        return f'the lists of events, one by one, show something else: {shown_in_lists ^ shown}'
    return None


def compare_apart(driver, world, report, whole, most):
    """Where each endpoint's own driver is safe, that is said, with the moments of all; and the whole is safe, and shows
    no more."""
    kind, number, rest = told(report)
    if not apart.comes_apart(driver, world):
        return 'the driver doesn\'t come apart'
    safe, moments, shown = apart.search_apart(driver, world, 2 * most if kind == 'apart' else most // 2)
    if kind != 'apart':
        return f'program {kind} {number}, and each endpoint is safe' if safe else None
    if safe is None:
        return None
    if not safe or whole[0] not in ('safe', 'cut') or not whole[1] <= shown:
        return f'endpoint by endpoint {safe} {sorted(shown)}, as a whole {whole}'
    if (rest == '') != is_tried(shown) or report.split('\n')[1:-1] != below_safe(driver, shown):
        return f'below endpoint by endpoint: {report}, model {below_safe(driver, shown)}'
    return None if number >= moments else f'moments: program {number}, model {moments}'


def compare_ended(ended, report):
    """A line that isn't permitted where it stands, or behind which something is wrong, is told alone."""
    kind, line, texts = ended
    if kind == 'unsafe':
        wanted = [f'unsafe at line {line.number}: {text}\n' for text in texts]
    else:
        wanted = [f"line {line.number}: '{line.words[0]}': wanted an act that is permitted now"
                  + (f': {texts[0]}\n' if texts[0] else '\n')]
    return None if report in wanted else f'line by line: program {report!r}, model {wanted}'


def compare_wrong(driver, report):
    """Each line that is wrong is told as it is read, and behind all of them each block that isn't ended; one that is
    written out several times is told once."""
    ends = sorted(each for each in driver.wrong if each[1] == 'if')
    others = sorted((each for each in driver.wrong if each not in ends), key=lambda each: each[0])
    once = [each for n, each in enumerate(others) if each[0] not in [other[0] for other in others[:n]]]
    wanted = [f"line {number}: '{word}': wanted {what}" for number, word, what in once + sorted(set(ends))]
    return None if report.split('\n') == wanted + [''] else f'wrong lines: program {report!r}, model {wanted}'


def compare_cut(verdict, events, kind, number, counts):
    """A search that was cut off may still not contradict the other one; and the model has no more moments."""
    if kind == 'cut' and verdict == 'unsafe' and events < number:
        return f'cut: program safe below {number}, model unsafe in {events}'
    if kind == 'cut' and number > len(counts) and verdict != 'cut':
        return f'cut: program at {number}, and the model ends at {len(counts)}'
    if verdict == 'cut' and kind == 'unsafe' and number < events:
        return f'cut: program unsafe in {number}, model safe below {events}'
    return None if kind in ('cut', 'unsafe') else f'program {kind} {number}, and the model was cut off'


# ---------------------------------------------------------------------------------------------- witnesses

def compare_before(were, lines):
    """The acts before `race` are those that were taken: one that only waits, or looks, stands as a comment."""
    above = [x for x in lines[1:lines.index('# race')] if x.split()[0] not in HEADS]
    acts = [x for x in above if x[0] != '#' or re.match(r'# line \d+: ', x)]
    for act, (line, found) in zip(acts, were):
        told_there = re.match(r'# line (\d+): (.*)$', act)
        words = reading.numbers((told_there[2] if told_there else act).split(': ')[0].split())
        is_so = told_there and int(told_there[1]) == line.number or not told_there and found is None
        if not is_so or words[:2] != line.words[:2] or found is not None and act != told_of_look(f'line {line.number}', line, found):
            return f'before race: {act!r}, model {line.words}'
    return None if len(acts) == len(were) else f'before race: program {len(acts)} acts, model {len(were)}'


def told_of_look(who, line, found):
    return f'# {who}: {" ".join(str(x) for x in line.words)}: {"yes" if found else "no"}'


def replay(driver, world, report, kind, rest):
    """Each event of the witness is to be permitted, and the last one to bring the finding."""
    lines = report.split('\n')
    events = lines[lines.index('# race') + 1:]
    for event in events:
        if not event.strip():
            continue
        if search.findings(world):
            return f'witness goes on behind an unsafe moment: {event}'
        after = follow(driver, world, event)
        if isinstance(after, str):
            return after
        world = after
    if kind == 'unsafe':
        texts = search.reported(world) if search.findings(world) else []
        return None if rest in texts else f'finding: program {rest}, model {texts}'
    return replay_stuck(driver, world, lines, rest)


def replay_stuck(driver, world, lines, rest):
    if search.findings(world):
        return 'stuck, but unsafe'
    if search.followers(driver, world)[1]:
        return 'stuck, but somebody must act'
    waiting = {f'{driver.threads[t]}, line {line.number}' for t, line in search.of_threads(driver, world)}
    at_timeout = ' has stopped at a time-out'
    stalled = {f'# unit of endpoint {e}{at_timeout}' for e, port in enumerate(world.ports) if port.stalled}
    if stalled != {x for x in lines if x.endswith(at_timeout)}:
        return f'stopped units: model {sorted(stalled)}'
    said = {rest} | {x[2:-len(', waits too')] for x in lines if x.endswith(', waits too')}
    return None if waiting == said else f'waits: program {said}, model {waiting}'


def follow(driver, world, event):
    """The moment after an event of a witness, or what is wrong with it."""
    waited = re.match(r'# (.*), line (\d+): (.*)$', event)
    words, _, who = event.partition(' # ') if not waited else (waited.group(3), '', f'{waited[1]}, line {waited[2]}')
    words = reading.numbers(words.split(': ')[0].split())
    if ', line ' in who:
        thread, _, number = who.strip().rpartition(', line ')
        for t, line in search.of_threads(driver, world):
            if driver.threads[t] == thread and line.number == int(number):
                lacks = need(driver, world, line.words, line)
                if lacks:
                    return f'not permitted: {event}: {lacks}'
                is_look = line.words[0] == 'if'
                if words[:2] != line.words[:2] or (is_look or words[0] in ('set', 'clear')) and words != line.words:
                    return f'other words: {event}'
                found = is_look and branches.finds(world, line.looks)
                if is_look and event != told_of_look(f'{thread}, line {number}', line, found):
                    return f'the other branch: {event}'
                return search.taken(driver, world, line.words, line, t)
        return f'not the next line: {event}'
    return follow_other(driver, world, words, who.strip(), event)


def follow_other(driver, world, words, who, event):
    acts = [(a, None) for a in search.duties(driver, world)] + list(search.liberties(driver, world))
    for act, cost in acts:
        if plain(act) == plain(words) and need(driver, world, act) is None and who == actor(words, act):
            return search.taken(driver, world, act, cost=cost)
    return f'nobody may: {event}'


def actor(words, act):
    kind = reading.role(words)
    return 'worker' if kind == 'host' else kind


def plain(act):
    """An act without what may be left out or isn't read: N of 0, page and way of a page request, and the code."""
    act = list(act)
    if act[0] in ('end', 'finish', 'pass') and act[2:] == [0] or act[0] == 'deliver' and act[3:] == [0]:
        act.pop()
    if act[0] == 'fault':
        act[3:5] = []
    if act[0] == 'respond' and act[4] == 'invalid':
        act[4] = 'success'                      # "`success` (with which `invalid` is one here)"
    return act


# ---------------------------------------------------------------------------------------------- lists for --run

def compare_run(text, report):
    driver = Driver(text)
    if driver.wrong:
        return compare_wrong(driver, report), 'wrong lines'
    _, were, ended = search.one_by_one(driver, driver.lines)
    if ended:
        return compare_ended(ended, report), ended[0]
    wanted = f'nothing wrong in any of {count(len(were), "event")}{behind_race(driver)}\n'
    return None if report == wanted else f'run: program {report!r}, model {wanted!r}', 'right'


def tried(program, text, is_list, by_lists=True):
    """What differs, or None; and the kind of the verdict."""
    if is_list:
        fault, kind = compare_run(text, ask_program(program, text, '--run'))
        return fault, 'run ' + kind
    fault, kind = compare(text, ask_program(program, text, '--most', str(most_of(text))), by_lists)
    return fault or compare_all(program, text) if kind == 'unsafe' else fault, kind


def compare_all(program, text):
    """The same of all findings, of one driver in three."""
    if len(text) % 3:
        return None
    driver = Driver(text)
    report = ask_program(program, text, '--all', '--most', str(most_of(text)))
    return all_findings.compare(driver, search.before_race(driver)[0], report, 2 * most_of(text), replay)


def smallest(program, text, is_list):
    """Leaves lines out as long as the two still differ."""
    lines, place = text.split('\n'), 1
    while place < len(lines):
        fewer = lines[:place] + lines[place + 1:]
        try:
            differs = tried(program, '\n'.join(fewer), is_list)
            is_so = differs[0] and differs[1] not in ('wrong', 'strange', 'run not')
        except (AssertionError, KeyError, ValueError, IndexError, StopIteration, TypeError):
            is_so = False
        lines, place = (fewer, max(1, place - 1)) if is_so else (lines, place + 1)
    return '\n'.join(lines)


def trial(program, seed, is_short=True, maker=None):
    """The kind of a verdict, what is wrong with it, if something is, and the driver, made short. Where a reading is
    planted the lists of events tell nothing more: they are gone by the same reading."""
    rng = random.Random(seed)
    is_list = not maker and rng.random() < 0.2
    text = maker(rng) if maker else make_long_list(rng) if is_list else make_any(rng)
    fault, kind = tried(program, text, is_list, by_lists=is_short)
    kind = NAMES.get(kind, kind)
    if not fault:
        return kind, None, None
    return kind, fault, smallest(program, text, is_list) if is_short else text


if __name__ == '__main__':
    sys.exit(trying.main('drivers', trial, planted_in_apart.OF_APART + planted_in_findings.OF_FINDINGS
                         + planted_in_barriers.OF_BARRIERS + planted_in_controls.OF_CONTROLS
                         + planted_in_branches.OF_BRANCHES + planted_in_timeouts.OF_TIMEOUTS
                         + planted_in_units.OF_UNITS + planted_in_overflows.OF_OVERFLOWS + planted_in_loose.OF_LOOSE
                         + planted_in_drivers.OF_DRIVERS))
