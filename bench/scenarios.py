#!/usr/bin/env python3
"""Writes documents in which all slots of a task come into use at once, and counts these slots in their records.

  bench/scenarios.py [--program PROGRAM] [--count N] [--seed N] [--planted FAULT]

The documents of cases/need/scenarios/ and cases/need/last_task/ are tried first, then the one with the most slots, and
then 2,000 that are drawn: a task at any place among up to 15 others, most of which read it. A plain formula writes the
task's scenario (`scenario_of`), and so must `need`. It must be canonical and have no overrun. Then the steps of its
record are read, with what `replay --ranked` says that each hears. After the task's last release each of its slots must
be the current one, a kept one, or claimed for an instance that hasn't ended.

A planted fault of the formula must be found: `late` (each reader occurs a firing late) or `short` (each group has a
firing too few). Prints each fault with its document, and last the counts; the exit status is 0 only if there is no
fault.
"""

import os
import re
import sys
from collections import Counter
from concurrent.futures import ProcessPoolExecutor
from dataclasses import dataclass
from functools import partial
from pathlib import Path
from typing import Optional

TOP = Path(__file__).resolve().parent.parent
sys.path[:0] = [str(TOP / "tools"), str(TOP / ".ci")]
sys.dont_write_bytecode = True

from checking.releases import Taken, is_of_releaser, standing_claims  # noqa: E402
from comparing import Wrong, must  # noqa: E402
from compiled import answered, same_lines  # noqa: E402
from ending import Ended  # noqa: E402
from program import read_as_answer  # noqa: E402
from running import parser_of  # noqa: E402
from scenario_texts import LATE, SHORT, drawn_document, scenario_of, with_the_most_slots  # noqa: E402

BY_HAND = TOP / "cases" / "need" / "scenarios", TOP / "cases" / "need" / "last_task"
TASK = re.compile(r"(?m)^\s*task (\w+)")


@dataclass(frozen=True)
class Trial:
    """A document, the place of the task whose scenario is written, and the scenario if it was written by hand."""

    name: str
    text: str
    place: int
    wanted: Optional[str] = None


@dataclass(frozen=True)
class Tried:
    """What came of a trial: how many slots are in use, how many rows the scenario has, and the fault, if any."""

    slots: int
    rows: int
    fault: Optional[str] = None


def trials_by_hand():
    """Returns the trials whose scenarios were written by hand."""
    found = []
    for folder in BY_HAND:
        task = (folder / "words").read_text().split()[-1]
        for file in sorted(folder.glob("*.dbp")):
            text = file.read_text()
            found.append(Trial(file.stem, text, TASK.findall(text).index(task), Path(f"{file}.stdout").read_text()))
    if not found:
        sys.exit(f"{BY_HAND} have no scenarios")
    return found


def drawn_trial(seed, number):
    """Returns the trial of a number."""
    drawing = drawn_document(f"{seed} {number}")
    return Trial(f"document {number}", drawing.text(), drawing.writer)


def steps_of(program, text):
    """Returns the steps of the record of a document, with what they hear when they are replayed."""
    record = answered(program, ["sim", "--record"], text.encode()).decode()
    scripted = f"{text[: -len('done') - 1]}script\n{record}done\n"
    replayed = answered(program, ["replay", "--ranked"], scripted.encode()).decode()
    cut = [line.partition(" -> ") for line in replayed.splitlines()]
    steps = [Taken(number, step, heard) for number, (step, _, heard) in enumerate(cut, 1)]
    same_lines("\n".join(step.text for step in steps), record, "the steps that `replay` prints")
    return steps


def after_last_batch(steps, scenario):
    """Returns the steps up to the end of the batch in which the task occurs for the last time."""
    aims = [at for at, step in enumerate(steps) if step.words[:2] == ["aim", scenario.task]]
    must(len(aims) == scenario.firings, f"{scenario.task} is aimed {len(aims)} times and not {scenario.firings}")
    served = (at for at, step in enumerate(steps) if at > aims[-1] and not is_of_releaser(step.words[0]))
    return steps[: next(served, len(steps))]


def heard_slots(steps, reader):
    """Returns the slots that the claims of a task name, as its only instance hears them."""
    claims = [step.text for step in steps if step.words[:2] == ["claim", reader]]
    heard = [int(step.heard.split()[1]) for step in steps if step.words == ["hear", reader]]
    return dict(zip(claims, heard[1:]))


def compare_slots(steps, scenario):
    """Ends with a fault unless all slots of the task are in use after the batch of its last firing."""
    past, task = after_last_batch(steps, scenario), scenario.task
    slots = [0] * scenario.longest + [int(step.words[2]) for step in past if step.words[:2] == ["aim", task]]
    ended = Counter(step.words[1] for step in past if step.words[0] == "end")
    claims = [it for it in standing_claims(past, task) if it.instance > ended[it.reader]]
    for it in claims:
        heard = heard_slots(steps, it.reader)[it.step.text]
        must(heard == it.slot, f"`{it.step.text}` names slot {it.slot}, and {it.reader} hears {heard}")
    current, kept, claimed = slots[-1], slots[-1 - scenario.longest : -1], [it.slot for it in claims]
    uses = f"{current} is current, {kept} are kept, {claimed} are claimed"
    must({current, *kept, *claimed} == {*range(scenario.slots)}, f"of {scenario.slots} slots of {task} {uses}")


def try_scenario(program, planted, trial):
    """Returns the counts of a trial that has no fault."""
    form = answered(program, ["form"], trial.text.encode())
    scenario = scenario_of(form, trial.place, planted)
    text = scenario.text.encode()
    if not planted:
        written = answered(program, ["need", scenario.task], trial.text.encode()).decode()
        same_lines(written, scenario.text, "what `need` writes")
    same_lines(answered(program, ["form"], text).decode(), scenario.text, "the canonical text of the scenario")
    answered(program, ["sim"], text)
    slots = int(answered(program, ["plan"], text).splitlines()[trial.place].split(b",")[4])
    must(slots == scenario.slots, f"{scenario.task} has {slots} slots and not {scenario.slots}")
    compare_slots(steps_of(program, scenario.text), scenario)
    if trial.wanted:
        same_lines(scenario.text, trial.wanted, "the scenario")
    return Tried(slots, scenario.firings)


def tried(program, planted, trial):
    """Returns what comes of a trial."""
    try:
        with read_as_answer(program):
            return try_scenario(program, planted, trial)
    except (Wrong, Ended) as fault:
        return Tried(0, 0, str(fault))


def main():
    """Tries all documents, and returns the exit status."""
    parser = parser_of(__doc__)
    parser.add_argument("--count", type=int, default=2000, help="documents that are drawn (2000)")
    parser.add_argument("--seed", type=int, default=1, help="what they are drawn from (1)")
    parser.add_argument("--planted", choices=(LATE, SHORT), help="a fault of the formula, which must be found (none)")
    options = parser.parse_args()
    drawn = [drawn_trial(options.seed, number) for number in range(options.count)]
    trials = [*trials_by_hand(), Trial("the largest", with_the_most_slots(), 0), *drawn]
    with ProcessPoolExecutor(len(os.sched_getaffinity(0))) as pool:
        came = list(pool.map(partial(tried, options.program, options.planted), trials, chunksize=8))
    faults = 0
    for trial, it in zip(trials, came):
        if it.fault:
            faults += 1
            print(f"{trial.name}, task {trial.place}: {it.fault}\n{trial.text}", end="")
    slots = [it.slots for it in came]
    counts = f"{sum(slots)} slots, at most {max(slots)} of a task, {sum(it.rows for it in came)} rows"
    print(f"{len(trials)} documents, of which {len(drawn)} are drawn; {counts}, {faults} faults")
    return 1 if faults else 0


if __name__ == "__main__":
    sys.exit(main())
