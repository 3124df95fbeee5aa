"""Generated documents, made a second time here: their text, the lines of their meaning, their response times, their
priorities by their links, and their summary."""

import sys
from pathlib import Path

sys.path.insert(0, str(Path(__file__).resolve().parents[1]))

from rankings import ranked  # noqa: E402

BITS = (1 << 64) - 1


class Words:
    """The words of SplitMix64."""

    def __init__(self, seed):
        self.state = seed

    def next(self):
        self.state = (self.state + 0x9E3779B97F4A7C15) & BITS
        word = self.state
        word = ((word ^ (word >> 30)) * 0xBF58476D1CE4E5B9) & BITS
        word = ((word ^ (word >> 27)) * 0x94D049BB133111EB) & BITS
        return word ^ (word >> 31)


class Task:
    """A task: its period, the tasks before it that it reads directly, and the one after it that it reads with a delay."""

    def __init__(self, words, size, place):
        self.period = size + words.next() % size
        self.early = [words.next() % place for _ in range(min(place, 3))]
        self.late = place + 1 + words.next() % (size - 1 - place) if place + 1 < size else None


def tasks_of(seed, size):
    words = Words(seed)
    return [Task(words, size, place) for place in range(size)]


def out_of(task):
    terms = [f"r{number}" for number in range(len(task.early))] + (["q"] if task.late is not None else [])
    total = "(s * 3) + g0"
    for term in terms:
        total = f"({total}) + {term}"
    return f"({total}) % 1000"


def document(tasks, size):
    lines = ["dbp 1", "policy fp", f"until {500 * size}", "input g = 1"]
    for place, task in enumerate(tasks):
        lines += [f"task t{place} every {task.period} from 0 prio {size - place} cost 1", "  state s = 0", "  sense g0 = g"]
        lines += [f"  read r{number} = t{writer}.y at 0" for number, writer in enumerate(task.early)]
        lines += [f"  read q = pre t{task.late}.y at 0"] if task.late is not None else []
        lines += ["  next s = s + 1", f"  out y = {place} then {out_of(task)}"]
    lines += ["trace", "time,g"] + [f"{50 * size * row},{37 * row}" for row in range(10)] + ["done", ""]
    return "\n".join(lines).encode()


def rows_of(tasks, size):
    """Returns the lines of the meaning, and the values of each task; row 0 is its first value."""
    values = [[place] for place in range(len(tasks))]
    lines = []
    releases = [(time, place) for place, task in enumerate(tasks) for time in range(0, 500 * size, task.period)]
    for time, place in sorted(releases):
        task, instance = tasks[place], len(values[place])
        value = 3 * (instance - 1) + 37 * (time // (50 * size)) + sum(values[writer][-1] for writer in task.early)
        if task.late is not None:
            # one occurrence before the latest
            value += values[task.late][time // tasks[task.late].period]
        values[place].append(value % 1000)
        lines.append(b"%d,t%d,%d,%d\n" % (time, place, instance, value % 1000))
    return b"".join(lines), values


def responses(tasks):
    """Returns the lines of the response times: each cost is 1, the ranks fall, and no period is below the number of tasks."""
    return "".join(f"t{place},{place + 1},{task.period}\n" for place, task in enumerate(tasks)).encode()


def links_of(tasks):
    direct = {(writer, place, 0) for place, task in enumerate(tasks) for writer in task.early}
    return direct | {(task.late, place, 1) for place, task in enumerate(tasks) if task.late is not None}


def summary(tasks, values):
    occurrences = sum(len(rows) - 1 for rows in values)
    total = sum(sum(rows[1:]) for rows in values)
    return (f"tasks {len(tasks)}\nlinks {len(links_of(tasks))}\noccurrences {occurrences}\ntotal {total}\n"
            "sim same\nrun same\n").encode()


def cases():
    for seed, size in ((5, 1), (0, 2), (7, 8), (BITS, 32), (12, 32)):
        tasks = tasks_of(seed, size)
        text = document(tasks, size)
        lines, values = rows_of(tasks, size)
        name = f"{seed}, {size}"
        yield f"gen {name}", ["gen", str(seed), str(size)], b"not read", 0, text
        for words in ("mean", "sim", "run"):
            yield f"{words} of {name}", [words], text, 0, lines
        yield f"form of {name}", ["form"], text, 0, text
        yield f"rta of {name}", ["rta"], text, 0, responses(tasks)
        yield f"need of {name}", ["need", "t0"], text, 1, b"refused: 33 NotOnEvents t0\n"
        status, by_links = ranked(text)
        yield f"rank of {name}", ["rank"], text, status, by_links
        yield f"mean of that of rank of {name}", ["mean"], by_links, 0, lines
        yield f"soak {name}", ["soak", str(seed), str(size)], b"not read", 0, summary(tasks, values)
    for size in range(1, 33):
        tasks = tasks_of(size, size)
        yield f"rta of {size}, {size}", ["rta"], document(tasks, size), 0, responses(tasks)
    eight = tasks_of(7, 8)
    yield "gen without a size", ["gen", "7"], b"", 0, document(eight, 8)
    yield "gen with zeros", ["gen", "007", "08"], b"", 0, document(eight, 8)
    yield "soak without a size", ["soak", "7"], b"", 0, summary(eight, rows_of(eight, 8)[1])
