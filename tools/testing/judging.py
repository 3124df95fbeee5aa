"""Whether properties hold of the outs of a document, and where they first don't."""

from typing import NamedTuple, Tuple

from testing.evaluation import evaluator


class Failure(NamedTuple):
    """A property doesn't hold: at which tick that is known, since which tick it is asked, and in words."""

    tick: int
    since: int
    said: str


class Truth(NamedTuple):
    """A formula over the outs as they stand: its values by time, and the values of the outs that it names."""

    values: Tuple[int, ...]
    named: Tuple[Tuple[str, Tuple[int, ...]], ...]

    def said(self, at):
        """Returns the values of its outs at the time of an index, in words."""
        return ", ".join(f"{name} = {values[at]}" for name, values in dict(self.named).items())


def truth_of(formula, standing):
    """Returns the values of a formula after each time of a document."""
    named = {it.text: standing.column(it.port, it.delay) for it in formula.ports}
    evaluate = evaluator(formula.tree)
    names, count = [*named], len(standing.times)
    rows = zip(*named.values()) if names else [()] * count
    values = tuple([evaluate(dict(zip(names, row))) for row in rows])
    return Truth(values, tuple((name, tuple(column)) for name, column in named.items()))


def failure_of(it, standing):
    """Returns where a property first doesn't hold of the outs of a document, or nothing."""
    truths = [truth_of(formula, standing) for formula in it.formulas]
    return JUDGES[it.word](it, standing, *truths)


def with_values(said, *values):
    """Returns what is said, with the values of outs, if there are some."""
    told = "; ".join(filter(None, values))
    return f"{said}: {told}" if told else said


def always(it, standing, truth):
    """Judges `always NAME: E`."""
    return one_time(it, standing, truth, lambda value: not value, "is 0")


def never(it, standing, truth):
    """Judges `never NAME: E`."""
    return one_time(it, standing, truth, bool, "isn't 0")


def one_time(it, standing, truth, is_wrong, what):
    """Returns the first time at which a formula has a wrong value."""
    for at, (time, value) in enumerate(zip(standing.times, truth.values)):
        if is_wrong(value):
            return Failure(time, time, with_values(f"`{it.formulas[0].text}` {what} at {time}", truth.said(at)))
    return None


def within(it, standing, asked, given):
    """Judges `within N of E: F`. What is still to come at the end of the document is no failure."""
    following = None  # the next time at which F holds, from the last time on
    found = None
    for at in reversed(range(len(standing.times))):
        time = standing.times[at]
        following = time if given.values[at] else following
        limit = time + it.number
        if asked.values[at] and limit < standing.until and (following is None or following > limit):
            found = at
    if found is None:
        return None
    time = standing.times[found]
    said = f"`{it.formulas[0].text}` holds at {time}, and `{it.formulas[1].text}` at no time until {time + it.number}"
    last = max(at for at, other in enumerate(standing.times) if other <= time + it.number)
    return Failure(time + it.number, time, with_values(said, asked.said(found), given.said(last)))


def until(it, standing, kept, ended):
    """Judges `E until F`: if F never holds, E must hold to the end of the document."""
    for at, time in enumerate(standing.times):
        if ended.values[at]:
            return None
        if not kept.values[at]:
            said = f"`{it.formulas[0].text}` is 0 at {time}, before `{it.formulas[1].text}` holds"
            return Failure(time, time, with_values(said, kept.said(at), ended.said(at)))
    return None


JUDGES = {"always": always, "never": never, "within": within, "until": until}
