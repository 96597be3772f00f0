"""Claims of a moment that a random walk through the race came to: some of them have long witnesses."""

from propose import text_of
from race_words import Race
from races import first_moment


def walk(rng, race):
    """A moment, and the answers on the way to it."""
    moment, answers = first_moment(race), []
    for _ in range(rng.randint(1, 25)):
        moves = list(moment.moves())
        if not moves:
            break
        _, _, step, after = rng.choice(moves)
        answers.append(moment.host.copy().step(step))
        moment = after()
    return moment, answers


def vague(rng, answer):
    """The answer, sometimes with `_` for a number."""
    return " ".join("_" if word.isdigit() and rng.random() < 0.2 else word for word in answer.split(" "))


def true_atom(rng, moment, answers, texts):
    """An atom that is true at the moment."""
    chance, named = rng.random(), list(moment.names.items())
    if chance < 0.2 and named:
        name, taken = rng.choice(named)
        return rng.choice(["done " + name, "%s is %s" % (name, vague(rng, taken.answer))])
    if chance < 0.4 and answers:
        answer = rng.choice(answers)
        return "times %d %s" % (rng.randint(1, answers.count(answer)), vague(rng, answer))
    if chance < 0.55:
        usable = [(frame, at) for frame in range(moment.host.frames) for at in range(len(moment.host.units))
                  if moment.is_usable(frame, at)]
        if usable:
            frame, at = rng.choice(usable)
            return rng.choice(["usable %d" % frame, "usable %d %d" % (frame, at), "usable %d at %d" % (frame, at)])
    if chance < 0.7 and moment.host.messages:
        step = ("deliver", rng.choice(list(moment.host.messages)))
        return "%s => %s" % (text_of(step), moment.host.copy().step(step))
    text = rng.choice(texts)
    step = moment.resolve(Race("config 1 1 1\nrace\n" + text).lines[0].step)
    if step is None:
        return "not %s => free" % text
    return "%s => %s" % (text, vague(rng, moment.host.copy().step(step)))


def claims(rng, text, texts):
    """Some claims, each of a walk of its own; `texts` are steps that they may ask for."""
    race, found = Race(text), []
    for _ in range(rng.randint(1, 3)):
        moment, answers = walk(rng, race)
        atoms = [true_atom(rng, moment, answers, texts) for _ in range(rng.choice([1, 2, 2, 3]))]
        kind = rng.choice(["sometimes", "sometimes", "never", "ends sometimes", "ends never"])
        found.append("%s %s" % (kind, " and ".join(atoms)))
    return found
