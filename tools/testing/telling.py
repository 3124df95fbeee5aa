"""What is told of a test that failed: as a compiler does, with the instances that led there."""

from dataclasses import replace

from testing.beside import fault
from testing.causes import Causes
from testing.results import Told


def unmet(case, standing):
    """Returns the values that a document's table of expectations doesn't allow, by what it wants."""
    values = {it: standing.value(it.port, it.time) for it in case.expected.read.wanted}
    return {it: value for it, value in values.items() if not it.least <= value <= it.greatest}


def told_of_table(case, standing):
    """Returns what is told of the expectations that aren't met, or nothing; the first one has the instances."""
    found = unmet(case, standing)
    if not found:
        return None
    causes = Causes(case.file, case.places, case.document, standing)
    said = [f"`{'.'.join(it.port)}` at {it.time} is {value}, and {it.range} is wanted" for it, value in found.items()]
    messages = [fault(it.line, it.cell.column, "Expected", text, it.cell.width) for it, text in zip(found, said)]
    first = next(iter(found))
    messages[0] = replace(messages[0], notes=causes.notes([first.port], [first.time]))
    return Told(said[0], case.expected.plain(messages), case.text, causes.window([first.port], [first.time]))


def told_of_failure(case, it, failure, standing, text=None, notes=()):
    """Returns what is told of a property that doesn't hold of a document, whose text may be that of a drawn trace."""
    causes = Causes(case.file, case.places, case.document, standing)
    ports = list(dict.fromkeys(port.port for formula in it.formulas for port in formula.ports))
    ticks = sorted({failure.tick, failure.since})
    said = f"{it.name}: {failure.said}" if it.name else failure.said
    message = fault(it.line, it.column, it.word.capitalize(), said, it.width)
    message = replace(message, notes=(*causes.notes(ports, ticks), *notes))
    return Told(said, case.asked.plain([message]), case.text if text is None else text, causes.window(ports, ticks))


def told_of_way(case, way, said, text=None):
    """Returns what is told of a command that doesn't give the lines of `mean`."""
    own = case.text if text is None else text
    return Told(f"by {way}: {said}", f"{case.file}: error: by {way}: {said}\n", own)


def told_of_faults(case, beside):
    """Returns what is told of a file beside a document that has faults."""
    first = beside.faults[0]
    return Told(f"line {first.line}: {first.text}", beside.plain(beside.faults), case.text)
