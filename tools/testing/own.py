"""The tests of a document's own trace."""

import time

from command_line import write_text
from testing.beside import expected_file, properties_file
from testing.expectations import updated
from testing.judging import failure_of
from testing.results import Test, Told
from testing.telling import told_of_failure, told_of_faults, told_of_table, told_of_way, unmet
from testing.ways import MEAN, fault_of_way

SAME_LINES = "the lines of mean"


def own_tests(case, ways, updates):
    """Returns the tests of a document's own trace, run in some ways. What every way gives is judged once."""
    start = time.perf_counter()
    standing = case.evaluated(case.document, case.lines)
    if updates:
        update(case, standing)
    faults = {way.name: fault_of_way(case.program, way, case.text, case.lines) for way in ways}
    found = [(name, MEAN, told) for name, told in tests_of_files(case)]
    found += [(SAME_LINES, way, told_of_way(case, way, said)) for way, said in faults.items() if said]
    judged = [*judged_tests(case, standing)]
    found += [(name, way, told) for way, said in faults.items() if not said for name, told in judged]
    seconds = (time.perf_counter() - start) / max(1, len(found))
    return [Test(case.file, *it, seconds) for it in found]


def tests_of_files(case):
    """Yields a failing test for each file beside the document that has faults, and one if nothing is asked of it."""
    for beside in (case.expected, case.asked):
        if beside is not None and beside.faults:
            yield beside.name, told_of_faults(case, beside)
    if case.expected is None and not (case.properties or case.asked is not None and case.asked.faults):
        said = f"{expected_file(case.file).name} isn't there, and no property is in {properties_file(case.file).name}"
        yield "it has tests", Told(said, f"{case.file}: error: {said}\n", case.text)


def judged_tests(case, standing):
    """Yields the names of the tests of what the document gives, each with what is told if it fails."""
    if case.expected is not None and not case.expected.faults:
        yield case.expected.name, told_of_table(case, standing)
    for it in case.properties:
        failure = failure_of(it, standing)
        yield it.title, failure and told_of_failure(case, it, failure, standing)


def update(case, standing):
    """Writes the expectations anew: the values that are found in the place of others, or all if the file isn't there."""
    if case.expected is None:
        write_text([full_table(standing)], str(expected_file(case.file)))
    elif not case.expected.faults and unmet(case, standing):
        write_text([updated(case.expected.text, unmet(case, standing))], case.expected.file)
    del case.expected  # it is read again


def full_table(standing):
    """Returns a table that expects all outs at all times as they stand."""
    ports = [*standing.firsts]
    columns = [standing.column(port) for port in ports]
    rows = [",".join(map(str, row)) for row in zip(standing.times, *columns)]
    return "\n".join([",".join(["time", *(".".join(port) for port in ports)]), *rows, ""])
