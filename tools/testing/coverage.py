"""What of a document's choices was taken in all runs: tasks that occurred, and what each `if`, `and`, `or`, `min`, `max`
and comparison came to."""

from typing import List, NamedTuple

from checking.tokens import Token
from testing.evaluation import CHOICES, is_choice

OF_TASK = ("it occurs",)


class Point(NamedTuple):
    """A choice of a document: the line and the token where it stands, what it is about, and what it may come to.

    Its counts begin at a place of all counts, one for each.
    """

    task: str
    line: int
    token: Token
    text: str
    choices: tuple
    first: int


class Coverage:
    """The choices of a document, read as places, and how often each was taken."""

    def __init__(self, places):
        self.points: List[Point] = []
        self.counts: List[int] = []
        self.owners = {}
        self.tasks = {}
        for task in places.tasks:
            self.tasks[task.name] = self.add(task.name, task.head.line, task.head.name, task.name, OF_TASK)
            self.owners.update((it.line, task.name) for it in task.lines("let", "next", "out"))

    def add(self, task, line, token, text, choices):
        """Adds a point, and returns where its counts begin."""
        first = len(self.counts)
        self.points.append(Point(task, line, token, text, choices, first))
        self.counts += [0] * len(choices)
        return first

    def counting(self, statement):
        """Returns the call that gives for each choice of a line the call that counts what it came to."""
        counts = self.counts

        def of_part(part):
            assert is_choice(part)
            text = part.head.text
            first = self.add(self.owners[statement.line], statement.line, part.head, part.text, CHOICES[text])

            def count(which):
                counts[first + which] += 1

            return count

        return of_part

    def count_tasks(self, instances):
        """Counts the instances of tasks."""
        for it in instances:
            self.counts[self.tasks[it.task]] += 1

    def clear(self):
        """Forgets what was counted."""
        self.counts[:] = [0] * len(self.counts)

    def merge(self, counts):
        """Adds counts of the same document."""
        for place, count in enumerate(counts):
            self.counts[place] += count

    def missed(self, point):
        """Returns what a point never came to."""
        return [it for place, it in enumerate(point.choices, point.first) if not self.counts[place]]

    def sorted_points(self):
        """Returns the points as they stand in the document."""
        return sorted(self.points, key=lambda it: (it.line, it.token.column))

    def share(self, points):
        """Returns how many choices some points have, and how many of them were taken."""
        return sum(len(it.choices) for it in points), sum(len(it.choices) - len(self.missed(it)) for it in points)


def coverage_rows(coverage):
    """Returns the rows of the table of coverage: a header, each task, and all."""
    rows = [("task", "choices", "taken", "coverage")]
    for name in [*coverage.tasks, None]:
        points = [it for it in coverage.points if name in (None, it.task)]
        count, taken = coverage.share(points)
        rows.append((name or "all", str(count), str(taken), part_text(taken, count)))
    return rows


def part_text(taken, count):
    """Returns a part with three digits, rounded down: 1.000 is all."""
    thousandths = 1000 * taken // count if count else 1000
    return f"{thousandths // 1000}.{thousandths % 1000:03}"


def coverage_lines(file, coverage):
    """Returns the table of a document's coverage, and a line for each choice that was never taken."""
    rows = coverage_rows(coverage)
    widths = [max(len(row[place]) for row in rows) for place in range(4)]
    lines = [f"coverage of {file}:"]
    for name, *numbers in rows:
        lines.append("  ".join([name.ljust(widths[0]), *(it.rjust(width) for it, width in zip(numbers, widths[1:]))]))
    for it in coverage.sorted_points():
        lines += [f"{file}:{it.line}:{it.token.column}: never taken: `{it.text}`: {what}" for what in coverage.missed(it)]
    return lines


def lcov_lines(file, coverage):
    """Returns the record of a document's coverage for lcov: tasks as functions, choices as branches."""
    lines = ["TN:", f"SF:{file}"]
    points = coverage.sorted_points()
    tasks = [it for it in points if it.choices is OF_TASK]
    lines += [f"FN:{it.line},{it.task}" for it in tasks]
    lines += [f"FNDA:{coverage.counts[it.first]},{it.task}" for it in tasks]
    lines += [f"FNF:{len(tasks)}", f"FNH:{sum(not coverage.missed(it) for it in tasks)}"]
    branches = [it for it in points if it.choices is not OF_TASK]
    for block, it in enumerate(branches):
        counts = coverage.counts[it.first : it.first + len(it.choices)]
        reached = any(counts)
        lines += [f"BRDA:{it.line},{block},{at},{count if reached else '-'}" for at, count in enumerate(counts)]
    count, taken = coverage.share(branches)
    lines += [f"BRF:{count}", f"BRH:{taken}"]
    reached = {it.line: coverage.counts[coverage.tasks[it.task]] for it in points}
    reached.update((line, coverage.counts[coverage.tasks[task]]) for line, task in coverage.owners.items())
    lines += [f"DA:{line},{count}" for line, count in sorted(reached.items())]
    return [*lines, f"LF:{len(reached)}", f"LH:{sum(map(bool, reached.values()))}", "end_of_record"]
