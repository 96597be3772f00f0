"""The report of `svahost explore` beside what the model finds, and each witness step by step."""

import re
import subprocess

import races
from propose import text_of
from scenario import report

CUT_OFF = r"cut off at (\d+) moments?, (\d+) ends?: all lists of fewer than (\d+) moves? were tried$"


class Said:
    """What a report says."""

    def __init__(self, text):
        lines = text.splitlines()
        found = re.match(r"whole: (\d+) moments?, (\d+) ends?$", lines[0])
        self.is_whole = bool(found)
        self.moments, self.ends = (int(found[1]), int(found[2])) if found else (None, None)
        heads = [at for at, line in enumerate(lines) if line.startswith("witness ")] + [len(lines)]
        self.texts, self.claims, self.never_true, self.witnesses = [], [], [], {}
        for line in lines[1:heads[0]]:
            end = re.fullmatch(r"end \d+: (.*) \((\d+) moments?\)", line)
            if end:
                self.texts.append((end[1], int(end[2])))
            elif re.match("(ends )?never true: ", line):
                self.never_true.append(line)
            else:
                claim = re.fullmatch(r"(.*): (holds|fails|unknown)(?:, witness (\d+))?", line)
                self.claims.append((claim[1], claim[2], claim[3] and int(claim[3])))
        for begin, end in zip(heads, heads[1:]):
            head = re.fullmatch(r"witness (\d+): (\d+) steps?", lines[begin])
            self.witnesses[int(head[1])] = (int(head[2]), lines[begin + 1:end])


def plural(count, word):
    return "%d %s%s" % (count, word, "" if count == 1 else "s")


def rebuilt(said):
    """The report by the rules of FORMAT 13, of what it says."""
    lines = ["whole: %s, %s" % (plural(said.moments, "moment"), plural(said.ends, "end"))]
    for place, (text, count) in enumerate(said.texts, 1):
        lines.append("end %d: %s (%s)" % (place, text, plural(count, "moment")))
    number = 0
    for claim, verdict, witness in said.claims:
        number += bool(witness)
        lines.append("%s: %s%s" % (claim, verdict, ", witness %d" % number if witness else ""))
    lines += said.never_true
    for number in range(1, number + 1):
        steps, scenario = said.witnesses[number]
        lines += ["witness %d: %s" % (number, plural(steps, "step"))] + scenario
    return "\n".join(lines) + "\n"


def explore(program, text, most):
    ran = subprocess.run([program, "explore", "--most", str(most)], input=text.encode(), stdout=subprocess.PIPE,
                         check=False)
    return ran.stdout.decode(), ran.returncode


def replay(program, text):
    return subprocess.run([program, "replay"], input=text.encode(), stdout=subprocess.PIPE, check=False).stdout.decode()


def follow(race, lines, steps):
    """The moments that the moves of a witness lead to in the model; says what is wrong with it."""
    first = races.first_moment(race)
    comments = [at for at, line in enumerate(lines) if line.startswith("# ") and line != "# before the race"]
    before = [line for line in lines[1:comments[0] if comments else None] if not line.startswith("#")]
    has_heading = "# before the race" in lines
    if len(before) != len(race.before) or len(comments) != steps or has_heading != bool(before):
        return [], "counts of steps"
    if lines[0] != "config %d %d %d" % race.config or len(lines) != 1 + has_heading + len(before) + 2 * steps:
        return [], "lines"
    moments = [first]
    for at in comments:
        who, step = lines[at][2:], lines[at + 1]
        moments = [after() for moment in moments for mover, _, move, after in moment.moves()
                   if mover == who and text_of(move) == step]
        if not moments:
            return [], "no such move: %s: %s" % (who, step)
    return moments, None


def check_witness(program, race, claim, steps, lines):
    """What is wrong with a witness, or None."""
    text = "\n".join(lines) + "\n"
    if replay(program, text) != report(text.encode()):
        return "replay of the witness differs"
    moments, fault = follow(race, lines, steps)
    if fault:
        return fault
    for moment in moments:
        is_end = not any(must for _, must, _, _ in moment.moves())
        if races.is_witness(moment, claim) and (is_end or not claim.of_ends):
            return None
    return "the witness doesn't lead to such a moment"


def differences(program, output, status, search):
    """Where the report and the model differ."""
    said = Said(output)
    found = [] if rebuilt(said) == output else ["the report isn't as FORMAT 13 has it"]
    if (said.moments, said.ends) != (search.moments, search.ends):
        found.append("moments, ends: program %s %s, model %d %d" % (said.moments, said.ends, search.moments,
                                                                   search.ends))
    counts = {end: count for end, (count, _) in search.texts.items()}
    if dict(said.texts) != counts or len(said.texts) != len(counts):
        found.append("ends: program %s, model %s" % (sorted(said.texts), sorted(counts.items())))
    else:
        depths = [search.texts[end][1] for end, _ in said.texts]
        if depths != sorted(depths):
            found.append("order of ends: %s" % depths)
    found += differences_of_claims(program, said, search)
    if said.never_true != races.never_true(search):
        found.append("never true: program %s, model %s" % (said.never_true, races.never_true(search)))
    fails = any(verdict == "fails" for _, verdict, _ in said.claims)
    if status != (4 if fails else 0):
        found.append("status %d" % status)
    return found


def differences_where_cut(output, status, most, search):
    """Where a search that was cut off contradicts the whole one."""
    lines = output.splitlines()
    head = re.match(CUT_OFF, lines[0])
    if not head or int(head[1]) != most or int(head[2]) > search.ends:
        return [lines[0]]
    deep, said, found = int(head[3]), Said("whole: 0 moments, 0 ends\n" + "\n".join(lines[1:])), []
    for (text, holds, depth), (_, verdict, witness) in zip(races.verdicts(search), said.claims):
        steps = said.witnesses[witness][0] if witness else None
        is_right = steps == depth and verdict == ("holds" if holds else "fails") if witness else (
            verdict == "unknown" and (depth is None or depth >= deep))
        if not is_right:
            found.append("cut off at %d: %s: %s %s, whole %s" % (most, text, verdict, steps, depth))
    if said.never_true:
        found.append("cut off at %d: %s" % (most, said.never_true[0]))
    verdict = 4 if any(each[1] == "fails" for each in said.claims) else 5
    if status != (verdict if any(each[1] == "unknown" for each in said.claims) or verdict == 4 else 0):
        found.append("status %d" % status)
    return found


def differences_of_claims(program, said, search):
    found, mine = [], races.verdicts(search)
    if len(mine) != len(said.claims):
        return ["count of claims"]
    for claim, (text, verdict, witness), (own, holds, depth) in zip(search.race.claims, said.claims, mine):
        steps, lines = said.witnesses.get(witness, (None, None))
        if (text, verdict, steps) != (own, "holds" if holds else "fails", depth):
            found.append("%s: program %s %s, model %s %s" % (text, verdict, steps, holds, depth))
        elif lines:
            fault = check_witness(program, search.race, claim, steps, lines)
            if fault:
                found.append("%s, witness %d: %s" % (text, witness, fault))
    return found
