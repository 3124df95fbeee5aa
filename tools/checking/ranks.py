"""Ranks of tasks, and the faults of them: a number that is missing, and a read upward without a delay."""

from checking.messages import Note, error_at
from policies import POLICIES

BY_LINKS = "`dbp rank` writes the document with priorities by its links"


def rank_faults(document):
    """Returns the messages of the tasks in their order, and then of the reads in theirs."""
    if document.policy is None:
        return []
    missing = [it for it in (missing_number(document, task) for task in document.tasks) if it]
    upward = [it for it in (upward_read(document, task, read) for task, read in document.reads) if it]
    return missing + upward


def missing_number(document, task):
    """Returns the message of a task without the number that ranks it, or nothing."""
    policy = POLICIES[document.policy]
    word = policy.number
    if not task.is_whole or word in task.head.numbers:
        return None
    others = [it.number for it in POLICIES.values() if it.number != word and it.number in task.head.numbers]
    text = f"the task `{task.name}` has no `{word}`, by which `policy {document.policy}` ranks"
    if others:
        text += f"; its `{others[0]}` ranks under the other policy alone"
    cost = next(token for token in task.head.tokens if token.says("cost"))
    return error_at(cost, task.head.line, policy.missing, f"{text}; `{word} N` stands before `{before(task, word)}`; {BY_LINKS}")


def before(task, word):
    """Returns the first word of a task's line that comes after a number which is missing."""
    return "deadline" if word == "prio" and "deadline" in task.head.numbers else "cost"


def key_of(document, task):
    """Returns what ranks a task, the least first, or nothing if it has no such number."""
    policy = POLICIES[document.policy]
    number = task.head.number(policy.number) if task.is_whole else None
    if number is None:
        return None
    return (policy.urgency(number), task.head.line)


def ranks_of(document):
    """Returns the tasks in the order of their ranks."""
    return sorted(document.tasks, key=lambda it: key_of(document, it))


def upward_read(document, task, read):
    """Returns the message of a read without a delay of a task that is ranked below, or nothing."""
    writer = document.named_tasks.get(read.source.text)
    if writer is None or writer is task or read.is_delayed:
        return None
    own, other = key_of(document, task), key_of(document, writer)
    if own is None or other is None or own > other:
        return None
    word = POLICIES[document.policy].number
    numbers = f"{word} {task.head.number(word)}", f"{word} {writer.head.number(word)}"
    why = "which is declared later" if numbers[0] == numbers[1] else f"which has `{numbers[1]}`"
    text = f"the task `{task.name}` with `{numbers[0]}` is ranked above `{writer.name}`, {why}, and reads it without a "
    text += f"delay: `pre {read.source.text}.{read.port.text}` reads the occurrence before; {BY_LINKS}"
    notes = [Note(it.head.line, it.head.name.column, rank_note(document, it)) for it in (task, writer)]
    return error_at(read.source, read.line, 18, text, *notes)


def rank_note(document, task):
    """Returns the rank of a task as a note."""
    word = POLICIES[document.policy].number
    text = f"`{task.name}` with `{word} {task.head.number(word)}`"
    if any(key_of(document, it) is None for it in document.tasks):
        return text
    rank, last = ranks_of(document).index(task), len(document.tasks) - 1
    return f"{text} has rank {rank} of 0 to {last}; 0 is the highest"
