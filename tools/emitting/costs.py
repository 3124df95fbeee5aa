"""What `--costs` prints: the most steps and accesses of an instance and of a release, and the bytes of the tables."""

from typing import NamedTuple

BYTES_OF_VALUE = 8
ORDER, ENTRY, CLAIM, READ, LINK = 8, 20, 8, 4, 3  # bytes, where numbers have the alignment of their length
ALL_TASKS = "a release of all tasks"


class Cost(NamedTuple):
    """The most steps and accesses to shared words that a party makes, if none of them finds that it must wait."""

    party: str
    steps: int
    accesses: int


def words_of_value(plan):
    """Returns how many shared words an order or a value has."""
    return 64 // plan.word_bits


def cost_of_instance(plan, number):
    """Returns what an instance of a task costs: a start, hears, looks and takes, a shut, puts, a done and an end."""
    task, wired = plan.document.tasks[number], plan.wiring.tasks[number]
    plain = 4 + len(task.reads)
    whole = 1 + len(wired.links) + len(task.reads) + len(task.outs)
    return Cost(f"an instance of {task.name}", plain + whole, plain + words_of_value(plan) * whole)


def cost_of_release(plan):
    """Returns what a release of all tasks costs: each is seen, aimed and opened, and each link is claimed."""
    tasks, links = len(plan.tasks), len(plan.wiring.links)
    return Cost(ALL_TASKS, 3 * tasks + links, 2 * tasks + words_of_value(plan) * (tasks + links))


def costs_of(plan):
    """Returns the costs of all instances and of a release."""
    return [*(cost_of_instance(plan, number) for number in range(len(plan.tasks))), cost_of_release(plan)]


def record_bytes(plan, numbers, pointers):
    """Returns the bytes of a record of so many bytes of numbers, and pointers after them or before them."""
    pointer = plan.word_bits // 8
    return -(-numbers // pointer) * pointer + pointers * pointer


def constants_of(plan):
    """Yields the constant tables with their bytes."""
    for task, own, wired in zip(plan.document.tasks, plan.tasks, plan.wiring.tasks):
        yield f"{own}_links", len(wired.links)
        yield f"{own}_leaving", len(wired.leaving)
        yield f"{own}_reads", READ * len(wired.reads)
        yield f"{own}_senses", len(task.senses)
        yield f"{own}_first", BYTES_OF_VALUE * len(task.outs)
    yield "links", LINK * len(plan.wiring.links)
    yield "tasks", record_bytes(plan, 19, 5) * len(plan.tasks)
    yield "diagram", record_bytes(plan, 4, 2)
    yield "system", record_bytes(plan, 0, 4)


def variables_of(plan):
    """Yields the tables that change with their bytes."""
    yield "words", plan.word_bits // 8 * plan.wiring.word_count
    yield "entries", ENTRY * len(plan.tasks)
    yield "claims", CLAIM * len(plan.wiring.links)
    yield "inputs", BYTES_OF_VALUE * len(plan.inputs)
    yield "releaser", record_bytes(plan, 20, 3)
    for task, own, wired in zip(plan.document.tasks, plan.tasks, plan.wiring.tasks):
        yield f"{own}_states", BYTES_OF_VALUE * len(task.states)
        yield f"{own}_sensed", BYTES_OF_VALUE * len(task.senses)
        yield f"{own}_taken", BYTES_OF_VALUE * len(task.reads)
        yield f"{own}_heard", ORDER * (1 + len(wired.links))
        yield f"{own}_outs", BYTES_OF_VALUE * len(task.outs)
    yield "parts", record_bytes(plan, 12, 4) * len(plan.tasks)


def filled(tables):
    """Returns those tables that have bytes."""
    return [(name, size) for name, size in tables if size]


def table_bytes(plan):
    """Returns the tables of NAME.c, by their names after NAME_, with their bytes."""
    return filled([*constants_of(plan), *variables_of(plan)])


def costs_text(plan):
    """Returns what is printed: a line for each party, and then one for each table."""
    yield f"{'party':<40}{'steps':>8}{'accesses':>10}\n"
    yield from (f"{it.party:<40}{it.steps:>8}{it.accesses:>10}\n" for it in costs_of(plan))
    yield f"\n{'table':<50}{'bytes':>8}\n"
    for about, tables in (("all constants", filled(constants_of(plan))), ("all data", filled(variables_of(plan)))):
        yield from (f"{plan.of(name):<50}{size:>8}\n" for name, size in tables)
        yield f"{about:<50}{sum(size for _, size in tables):>8}\n"
