"""Wrong readings of the rules of drivers, each of which has to be found by chance."""

import loose
import reading
import report
import search
import world
from trying import Reading


def without_rank(rank):
    """Findings of a rank are passed over."""
    return lambda old: lambda moment: [each for each in old(moment) if each[0][0] != rank]


def overtakes(*kinds):
    """Messages of these kinds overtake all."""
    return lambda old: lambda newer, older, posted: newer[0] not in kinds and old(newer, older, posted)


def never_posted(old):
    return lambda newer, older, posted: old(newer, older, False)


def fences(old):
    """Each wait is a fence."""
    def may_pump(port, settings):
        is_wait = port.queue and port.queue[0][0] == 'wait'
        return old(port, settings) and not (is_wait and port.busy)
    return may_pump


def drains_nothing(old):
    def may_pump(port, settings):
        kept, port.prq = port.prq, ()
        may = old(port, settings)
        port.prq = kept
        return may
    return may_pump


def frozen_is_freed(old):
    return lambda moment, frame, which: old(moment, frame, 2)


def uses_spared(old):
    """An invalidation may be completed while a use runs that it covers."""
    return lambda port, n, lies: old(port, n, True)


def keeps_nothing(old):
    def translate(moment, port, p, page, settings):
        return moment.pte.get((port.entry.get(p), page))
    return translate


def needs_no_duty(old):
    return lambda driver, moment: (old(driver, moment)[0], False)


def quits_at_once(old):
    return lambda port, p, awaits: old(port, p, False)


def first_owner_stays(old):
    """Where an entry leads doesn't tell the owner."""
    def set_entry(port, p, space):
        port.entry = world.without(port.entry, p) if space is None else world.put(port.entry, p, space)
    return set_entry


def replaced_by_entry(old):
    """An entry that is replaced is another owner's where it leads to another space."""
    return lambda port, p, space: world.set_entry(port, p, space)


def skips_what_goes(old):
    """What is taken out of a queue is what the unit would take."""
    may = old['skip']
    return {**old, 'skip': lambda driver, port, device, words, line: may(driver, port, device, words, line)
            and world.may_pump(port, driver.settings)}


def skipped_is_undone(old):
    """A wait that is taken out of a queue is never done."""
    def skip(moment, port):
        port.queue = port.queue[1:]
    return skip


def skipped_is_all(old):
    """With its head the whole queue goes."""
    def skip(moment, port):
        while loose.unsent(port.queue):
            old(moment, port)
    return skip


def refuses_nothing(old):
    def may_pump(port, settings):
        kept, settings.said = settings.said, settings.said - {'refuses'}
        may = old(port, settings)
        settings.said = kept
        return may
    return may_pump


def allows_any(old):
    """Where a response may find no group it may find any."""
    return lambda group, gid, may_lack: None if may_lack else old(group, gid, may_lack)


def allows_none(old):
    return lambda group, gid, may_lack: old(group, gid, False)


def asks_no_mark(old):
    """A line that submits nothing needn't be taken to be awaited."""
    def need_of_await(driver, moment, words, line):
        if line and line.awaited and not line.awaited[1]:
            return None
        return old(driver, moment, words, line)
    return need_of_await


def none_without_pasid(old):
    """Under PASID 0 nothing is ever on."""
    return lambda port, p: p != 0 and old(port, p)


def digits_are_decimal(old):
    return lambda words: old([x.replace('0x', '') if isinstance(x, str) else x for x in words])


def drains_by_word_alone(old):
    """A wait with `drain` is done once its invalidations are."""
    return lambda moment, port, wait, drain: old(moment, port, wait, False)


def drains_what_comes_later(old):
    """It is done once nothing at all is left that was received."""
    def write(moment, port):
        port.prq, port.received = port.prq + port.received[:1], port.received[1:]
        if all(len(one) == 1 for one in port.received):
            moment.undone -= {one[0] for one in port.received}
            port.received = ()
    return write


def writes_at_once(old):
    """What comes stands in the queue."""
    def arrives(moment, port, m, settings):
        if not port.closed:
            port.prq += m[1:5] + (port.number,),
    return {**old, 'page-request': arrives}


def covers_all_before(old):
    """A wait covers all that is out, and not its own alone."""
    def pump(moment, port, settings):
        port.covered = port.busy
        old(moment, port, settings)
    return pump


def awaits_each_group(old):
    def need_of_await(driver, moment, words, line):
        if not (line and line.awaited) and words[1] == 'groups' and moment.ports[words[2]].filed:
            return 'await groups'
        return old(driver, moment, words, line)
    return need_of_await


def answers_what_is_filed(old):
    """`respond all` answers also what isn't whole."""
    def respond_all(port, p, failure):
        port.filed = tuple(g[:3] + (True,) + g[4:] for g in port.filed)
        old(port, p, failure)
    return respond_all


def without(*texts):
    """Findings with one of these words are passed over."""
    return lambda old: lambda moment: [each for each in old(moment) if not any(text in each[1] for text in texts)]


def groups_by_index(old):
    """Nothing tells two groups of one index apart."""
    def fault(moment, port, p, group, last):
        port.begun = 0
        old(moment, port, p, group, last)
    return fault


def sets_nothing(old):
    return lambda settings, name: None


def by_itself_alone(old):
    """Lines that ask at an endpoint don't count."""
    def ask_not_made(driver, e):
        kept, driver.lines = driver.lines, []
        found, driver.lines = old(driver, e), kept
        return found
    return ask_not_made


def leaks_refused(old):
    """A line before `race` behind which something is wrong is told as one that isn't permitted."""
    def before_race(driver):
        moment, were, ended = old(driver)
        return moment, were, ended and ('not', ended[1], ended[2])
    return before_race


def order_of_threads(old):
    """`--run` takes thread by thread."""
    return lambda driver, lines: old(driver, sorted(lines, key=lambda line: driver.threads.index(line.thread)))


def never_shows(what):
    return lambda old: lambda moment: (each for each in old(moment) if each[0] != what)


OF_DRIVERS = [
    Reading('a freed frame may be used', search, 'findings', without_rank(0)),
    Reading('a frozen frame may be written', search, 'findings', without_rank(1)),
    Reading('what is of an earlier owner may be there', search, 'findings', without_rank(2)),
    Reading('a PASID may be used for an earlier owner', search, 'findings', without_rank(3)),
    Reading('a freed table may be walked', search, 'findings', without_rank(4)),
    Reading('a response may find another group', search, 'findings', without_rank(5)),
    Reading('groups of one index are one group', world, 'fault', groups_by_index),
    Reading('a Start, Stop or Reset overtakes what goes down', world, 'stays_behind',
            overtakes('start', 'stop', 'reset')),
    Reading('a marker overtakes page requests', world, 'stays_behind', overtakes('marker')),
    Reading('a posted link is a free one', world, 'stays_behind', never_posted),
    Reading('each wait is a fence', world, 'may_pump', fences),
    Reading('a wait with drain looks at no page request', world, 'may_pump', drains_nothing),
    Reading('a frozen frame is a freed one', world, 'mark', frozen_is_freed),
    Reading('each endpoint lies', world, 'may_finish', uses_spared),
    Reading('each unit keeps nothing', world, 'translate', keeps_nothing),
    Reading('nobody has to act', search, 'followers', needs_no_duty),
    Reading('no endpoint awaits its groups', world, 'may_quit', quits_at_once),
    Reading('an entry for another space is no new owner', world, 'set_entry', first_owner_stays),
    Reading('an entry that is replaced is a new owner\'s', world, 'replace',
            replaced_by_entry),
    Reading('`skip` takes out only what may go', reading, 'MAY', skips_what_goes),
    Reading('a wait that is skipped isn\'t done', world, 'skip', skipped_is_undone),
    Reading('`skip` empties a queue', world, 'skip', skipped_is_all),
    Reading('no unit refuses a drain', world, 'may_pump', refuses_nothing),
    Reading('where no group is allowed any group is', search, 'wrong_response', allows_any),
    Reading('a response always has a group', search, 'wrong_response', allows_none),
    Reading('a mark needn\'t be taken to be awaited', reading, 'need_of_await', asks_no_mark),
    Reading('a wait drains nothing that was received', world, 'wait_is_over', drains_by_word_alone),
    Reading('a drain covers what comes behind it', world, 'write', drains_what_comes_later),
    Reading('what comes stands in the queue', world, 'ARRIVES', writes_at_once),
    Reading('a wait covers all before it', world, 'pump', covers_all_before),
    Reading('a group that isn\'t whole is awaited', reading, 'need_of_await', awaits_each_group),
    Reading('a group that isn\'t whole is answered with all', world, 'respond_all', answers_what_is_filed),
    Reading('a worker serves for anybody', search, 'findings', without('filed group of an earlier')),
    Reading('a worker serves by what is gone', search, 'findings', without('by the domain of')),
    Reading('what is received may be anybody\'s', search, 'findings', without('that the unit has received')),
    Reading('PASID 0 is never on', world, 'is_on', none_without_pasid),
    Reading('hexadecimal pages are decimal', reading, 'numbers', digits_are_decimal),
    Reading('a platform sets nothing', reading, 'set_platform', sets_nothing),
    Reading('each platform was asked for', report, 'not_asked', lambda old: lambda settings: []),
    Reading('no ask by a line is one', report, 'ask_not_made', by_itself_alone),
    Reading('a leak before `race` is a line that isn\'t permitted', search, 'before_race', leaks_refused),
    Reading('`--run` takes the lines thread by thread', search, 'one_by_one', order_of_threads),
    Reading('no use is ever told', search, 'shows', never_shows('use')),
    Reading('no page request is ever told', search, 'shows', never_shows('page request')),
    Reading('no translation leads to a frame', search, 'shows', never_shows('frame')),
    Reading('each line is taken', report, 'untaken', lambda old: lambda driver, shown: []),
    Reading('no line is taken', search, 'taken_by', lambda old: lambda driver, moment, new: ()),
]
