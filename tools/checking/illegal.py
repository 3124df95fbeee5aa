"""What an illegal step of a script is: the steps before it, and the steps that the program would allow in its place."""

import re
from concurrent.futures import ThreadPoolExecutor
from dataclasses import dataclass

from checking.messages import Message, Note, Severity
from checking.ranks import key_of
from checking.releases import WAITING, next_of_releaser, next_of_task, party_of, standing_claims, taken_steps
from checking.text import listed

ILLEGAL = re.compile(rb"illegal step ([0-9]+): (.*)\n")
SHOWN_BEFORE = 3
SHOWN_ALLOWED = 6


@dataclass(frozen=True)
class Illegal:
    """The program's line of an illegal step: its number, and why it isn't allowed."""

    number: int
    why: str


def illegal_of(stdout):
    """Returns the illegal step that the program printed, or nothing."""
    found = ILLEGAL.fullmatch(stdout)
    return Illegal(int(found[1]), found[2].decode("ascii", "replace")) if found else None


class Replaying:
    """Asks the program for scripts that begin as a document's script."""

    def __init__(self, program, words, document, number):
        self.program = program
        self.words = words
        self.document = document
        self.steps = document.steps[: number - 1]
        lines = [line.text for line in document.lines[: document.script_at]]
        self.start = b"\n".join([*lines, *(step.text.encode() for step in self.steps), b""])

    def taken(self):
        """Returns the steps before the illegal one, with what they heard."""
        return taken_steps(self.document, self.program(self.words, self.start + b"done\n").stdout)

    def heard(self, step):
        """Returns what a step hears after those before, or nothing if it isn't allowed then."""
        ran = self.program(self.words, self.start + step.encode() + b"\ndone\n")
        last = ran.stdout.decode("ascii", "replace").splitlines()[-1:]
        return last[0].partition(" -> ")[2] if ran.status == 0 and last else None

    def why(self, step):
        """Returns why a step isn't allowed after those before, or nothing."""
        found = illegal_of(self.program(self.words, self.start + step.encode() + b"\ndone\n").stdout)
        return found.why if found else None


class Explained:
    """An illegal step, explained by what the program says of other steps in its place."""

    def __init__(self, program, words, document, illegal):
        self.document = document
        self.illegal = illegal
        self.words = words
        self.replaying = Replaying(program, words, document, illegal.number)
        self.step = document.steps[illegal.number - 1]
        self.taken = self.replaying.taken()  # the steps before it

    def message(self):
        """Returns the message of the illegal step."""
        step = self.step
        about_slot = self.illegal.why in ("no such slot", "slot kept", "slot claimed")
        token = step.tokens[-1] if about_slot else step.tokens[0]
        width = step.tokens[-1].end - token.column
        text = f"step {self.illegal.number}, `{step.text}`, isn't allowed: {self.illegal.why}; {self.about_allowed()}"
        notes = (*self.before(), *self.claims())
        return Message(step.line, token.column, Severity.ERROR, None, "IllegalStep", text, notes, width)

    def about_allowed(self):
        """Returns which steps could stand in the place of the illegal one."""
        own = party_of(self.step.text.split())
        allowed = self.allowed()
        of_party = [it for it in allowed if party_of(it.split()) == own]
        who = f"`{own}`" if own else "the releaser"
        is_at_place = not self.illegal.why.startswith("not the next")
        if of_party and not is_at_place:
            return f"the next step of {who} is {listed(of_party, 'or')}"
        if own is None and next_of_releaser(self.document, self.taken) is None:
            return "the releaser has released all occurrences"
        waits = self.about_waiting(own) if own and not is_at_place else ""
        command = f"`dbp {' '.join(self.words)}`"
        if not allowed:
            return f"{waits}{command} allows no step here that goes on"
        more = " and others" if len(allowed) > SHOWN_ALLOWED else ""
        return f"{waits}{command} allows here {listed(allowed[:SHOWN_ALLOWED], 'or')}{more}"

    def about_waiting(self, name):
        """Returns what the next step of a task hears here, if that leaves the task where it is."""
        following = next_of_task(self.document.named_tasks[name], self.taken)
        heard = self.replaying.heard(following)
        return f"the next step of `{name}` is `{following}`, which hears `{heard}` here; " if heard in WAITING else ""

    def allowed(self):
        """Returns the next steps of all parties that the program allows, and that go on."""
        action = next_of_releaser(self.document, self.taken)
        steps = [next_of_task(task, self.taken) for task in self.document.tasks]
        of_releaser = self.slots(action) if action and action.startswith("aim ") else [action] if action else []
        with ThreadPoolExecutor(4) as pool:
            heard = list(pool.map(self.replaying.heard, of_releaser + steps))
        return [step for step, it in zip(of_releaser + steps, heard) if it is not None and it not in WAITING]

    def slots(self, action):
        """Returns the aims at slots that the program allows for an action, or the `seen` that must come first."""
        found = []
        for slot in range(len(self.document.reads) * 2 + 16):
            why = self.replaying.why(f"{action} {slot}")
            if why is None:
                found.append(f"{action} {slot}")
            elif why == "last instance not known to have ended":
                return [f"seen {action.split()[1]}"] if self.has_ended(action.split()[1]) else []
            elif why == "no such slot":
                break
        return found

    def has_ended(self, task):
        """Whether a task has ended each instance that it was aimed for, so that a `seen` goes on."""
        texts = [it.text for it in self.taken]
        return texts.count(f"end {task}") == sum(text.startswith(f"aim {task} ") for text in texts)

    def before(self):
        """Returns the last steps of the same party before the illegal one, with what they heard."""
        words = self.step.text.split()
        own = [(number, it) for number, it in enumerate(self.taken, 1) if self.is_of_same(it, words)]
        return [
            Note(it.line, 1, f"before it, step {number} was `{it.text}`{what_it_heard(it)}")
            for number, it in own[-SHOWN_BEFORE:]
        ]

    def is_of_same(self, taken, words):
        """Whether a step is of the party whose illegal step has these words; for an aim, one of the same task."""
        if words[0] == "aim" and not self.illegal.why.startswith("not the next"):
            return taken.words[1] == words[1] and taken.words[0] in ("seen", "aim", "end")
        return party_of(taken.words) == party_of(words)

    def claims(self):
        """Returns the claims that stand on the slot of an aim."""
        if self.illegal.why != "slot claimed":
            return []
        _, task, slot = self.step.text.split()
        counted = None if self.words == ["replay"] else self.ranked_below(task)
        return [
            Note(it.step.line, 1, f"`{it.reader}` claims this slot, until a `seen {it.reader}` hears {it.instance}")
            for it in standing_claims(self.taken, task)
            if it.slot == int(slot) and (counted is None or it.reader in counted)
        ]

    def ranked_below(self, name):
        """Returns the names of the tasks that are ranked below one."""
        key = key_of(self.document, self.document.named_tasks[name])
        return [it.name for it in self.document.tasks if key_of(self.document, it) > key]


def what_it_heard(taken):
    """Returns what a step heard, or nothing."""
    return f", which heard `{taken.heard}`" if taken.heard else ""


def explained(program, words, document, illegal):
    """Returns the message of an illegal step; `program` runs words on a document."""
    return Explained(program, words, document, illegal).message()
