"""The commands of the program by which documents are run, and how their lines differ from those of `mean`."""

from typing import NamedTuple, Tuple

from ending import Ended, Status
from program import run_program, table_lines

MEAN = "mean"
COMMANDS = (MEAN, "sim", "run", "cpus")


class Way(NamedTuple):
    """A command by its words."""

    words: Tuple[str, ...]

    @property
    def name(self):
        return " ".join(self.words)


def ways_of(commands, turns):
    """Returns the ways of some commands; `run` has one for each number of turns, if there are some."""
    found = []
    for command in dict.fromkeys(commands):
        drawn = turns if command == "run" else ()
        found += [Way((command, "--turns", str(number))) for number in drawn] or [Way((command,))]
    return found


def fault_of_way(program, way, text, wanted):
    """Returns how what a command prints differs from the lines of `mean`, or nothing."""
    ran = run_program(program, list(way.words), text)
    if ran.status == Status.WRONG_WORDS:
        raise Ended(Status.WRONG_WORDS, f"{program}: it has no command `{way.name}`")
    if ran.status == Status.OVERRUN:
        return ran.stdout.decode("ascii", "replace").strip()
    if ran.status != Status.DONE:
        said = (ran.stdout or ran.stderr).decode("ascii", "replace").strip()
        raise Ended(ran.status, f"{program}: {way.name}: {said or f'its status is {ran.status}'}")
    return difference(table_lines(ran), wanted, way.name, MEAN)


def difference(found, wanted, name, other):
    """Returns the first lines of two tables that differ, or nothing."""
    end = "no more lines"
    for number in range(max(len(found), len(wanted))):
        line, another = (it[number] if number < len(it) else end for it in (found, wanted))
        if line != another:
            return f"line {number + 1} of `{name}` is `{line}`, and `{another}` of `{other}`"
    return None
