"""Faults of tasks as a whole: no out, and lets that use each other in a cycle."""

from checking.messages import Note, error_at
from checking.text import listed


def task_faults(document):
    """Returns the messages of the tasks, in their order."""
    found = []
    for task in document.tasks:
        found += [no_out(task), let_cycle(task)]
    return [it for it in found if it]


def no_out(task):
    """Returns the message of a task without an out, or nothing."""
    if task.lines("out") or task.has_faults or task.head.name is None:
        return None
    text = f"the task `{task.name}` has no `out` line; one is enough, as `out alive = 0 then 1`"
    return error_at(task.head.name, task.head.line, 17, text)


def let_cycle(task):
    """Returns the message of the earliest let that lies on a cycle, or nothing."""
    lets = task.declared("let")
    for name, let in lets.items():
        cycle = cycle_from(name, lets)
        if cycle:
            notes = [Note(lets[it].line, lets[it].name.column, uses(it, following)) for it, following in pairs(cycle)]
            is_alone = len(cycle) == 1
            of_several = f"the lets {listed(cycle)} use each other in a cycle"
            text = f"the let `{name}` uses itself" if is_alone else of_several
            text += f" ({' -> '.join([*cycle, name])}): a state keeps a value for the next instance"
            return error_at(let.name, let.line, 13, text, *([] if is_alone else notes))
    return None


def pairs(cycle):
    """Returns each let of a cycle with the one that it uses."""
    return zip(cycle, [*cycle[1:], cycle[0]])


def uses(name, following):
    """Returns what a let of a cycle does."""
    return f"`{name}` uses `{following}`"


def cycle_from(name, lets):
    """Returns the shortest cycle of lets that begins with one of them, or nothing."""
    paths = [[name]]
    seen = set()
    for path in paths:
        for token in lets[path[-1]].names:
            if token.text == name:
                return path
            if token.text in lets and token.text not in seen:
                seen.add(token.text)
                paths.append([*path, token.text])
    return None
