"""What pictures say of a document and of its tasks."""

from canonical import Every


def about_policy(document):
    """Returns the policy of a document."""
    return f"policy {document.policy.word}, {document.policy.name}"


def about_clock(task):
    """Returns the clock of a task."""
    if not isinstance(task.clock, Every):
        return f"on {task.clock.event}"
    return f"every {task.clock.period}" + (f" from {task.clock.offset}" if task.clock.offset else "")


def about_task(document, task):
    """Returns the lines below the name of a task: its clock, its condition if it has one, and its numbers: that of its
    rank, its cost and, in version 2, its processor."""
    rank = f"{document.policy.number} {document.ranking_number(task)}"
    condition = [] if task.when is None else [f"when {task.when}"]
    processor = f", cpu {task.cpu}" if document.version > 1 else ""
    return [about_clock(task), *condition, f"{rank}, cost {task.cost}{processor}"]
