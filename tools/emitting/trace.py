"""The file of the target `trace`: NAME_trace.c, the document's trace and names, and the program's `main`."""

from itertools import groupby

from canonical import count_below
from emitting.blocks import number_text
from emitting.plan import is_periodic, row_names, set_text
from emitting.source import MARK, c_array, pointer


def base_times(document, task):
    """Returns the times at which the clock of a task ticks, whatever its condition says."""
    clock = task.clock
    return range(clock.offset, document.until, clock.period) if is_periodic(task) else document.event_times(clock.event)


def off_times(document, task):
    """Yields the first time of its clock in each span of ticks in which a task is off."""
    base, on = base_times(document, task), document.times(task)
    if task.when is None:
        return
    places = [count_below(base, time) for time in on]
    for place, following in zip([-1, *places], [*places, len(base)]):
        if place + 1 < following:
            yield base[place + 1]


def batches_of(document):
    """Returns the times at which a task occurs or begins to be off, each with the tasks on events that occur then."""
    found = {}
    for number, task in enumerate(document.tasks):
        for time in [*document.times(task), *off_times(document, task)]:
            found[time] = found.get(time, 0) | (0 if is_periodic(task) else 1 << number)
    return [(time, found[time]) for time in sorted(found)]


def most_instances(document):
    """Returns how many instances each task has room for: one at least."""
    return [max(1, len(document.times(task))) for task in document.tasks]


def strings(names):
    """Returns names as strings of C."""
    return [f'"{name}"' for name in names]


def table(kind, name, items):
    """Yields the definition of a constant array of many items, eight on a line."""
    yield f"static const {kind} {name}[] = {{"
    for _, group in groupby(enumerate(items), key=lambda it: it[0] // 8):
        yield f"    {' '.join(f'{item},' for _, item in group)}"
    yield "};"


def inputs(plan):
    """Yields the samples of the inputs, and the functions that give their values."""
    entries = []
    for name, own in plan.inputs.items():
        samples = [f"{{{time}, {number_text(value)}}}" for time, value in plan.document.samples(name)]
        first = next(it.first for it in plan.document.inputs if it.name == name)
        array = plan.of("samples_" + own)
        if samples:
            yield from table("dbp_sample", array, samples)
        entries.append(f"{{{number_text(first)}, {len(samples)}, {pointer(array, samples)}}}")
    yield from c_array("dbp_trace_input", plan.of("trace_inputs"), entries)
    for number, own in enumerate(plan.inputs.values()):
        yield f"""
int64_t {plan.of('input_' + own)}(void)
{{
    return dbp_trace_value({number});
}}"""


def rows_of_task(plan, number, most):
    """Yields the names of a task, room for its rows, and the function that keeps them."""
    task, own = plan.document.tasks[number], plan.of(plan.tasks[number])
    names = row_names(plan, task)
    yield ""
    yield from c_array("char *const", f"{own}_read_names", strings(read.name for read in task.reads))
    yield from c_array("char *const", f"{own}_out_names", strings(out.name for out in task.outs))
    yield f"static int64_t {own}_rows[{most * len(task.outs)}];"
    yield f"""
void {own}_row(uint32_t instance, {', '.join(f'int64_t {name}' for name in names)})
{{
    const int64_t outs[] = {{{', '.join(names)}}};
    dbp_trace_keep({number}, instance, outs);
}}"""


def entry_of_task(plan, number, most):
    """Returns the entry of a task in the table of tasks."""
    task, own = plan.document.tasks[number], plan.of(plan.tasks[number])
    reads = pointer(f"{own}_read_names", task.reads)
    return f'    {{"{task.name}", {reads}, {own}_out_names, {most}, {own}_rows, {own}_step, {own}}},'


def trace_text(plan):
    """Returns the text of NAME_trace.c."""
    most, batches = most_instances(plan.document), batches_of(plan.document)
    lines = [MARK, "", f"/* The trace of {plan.title}: a program that runs its tasks and prints the lines of `dbp mean`. */"]
    lines += ["", f'#include "{plan.name}.h"', "", '#include "dbp_trace.h"', "", *inputs(plan)]
    for number in range(len(plan.tasks)):
        lines += rows_of_task(plan, number, most[number])
    lines.append("")
    if plan.tasks:
        lines += [f"static const dbp_trace_task {plan.of('trace_tasks')}[] = {{"]
        lines += [*(entry_of_task(plan, number, most[number]) for number in range(len(plan.tasks))), "};"]
    if batches:
        lines += table("dbp_batch", plan.of("batches"), [f"{{{time}, {set_text(tasks)}}}" for time, tasks in batches])
        lines += [f"static uint32_t {plan.of('occurred')}[{len(batches)}];"]
    pointers = [pointer(plan.of("trace_tasks"), plan.tasks), pointer(plan.of("trace_inputs"), plan.inputs)]
    calls = [plan.of(it) for it in ("begin", "release", "begin_release", "release_step", "see_unended")]
    lines += [f"static const dbp_trace {plan.of('trace')} = {{", f"    &{plan.of('diagram')}, {', '.join(pointers)},"]
    lines += [f"    {len(batches)}, {pointer(plan.of('batches'), batches)}, {pointer(plan.of('occurred'), batches)},"]
    lines += [*(f"    {call}," for call in calls), "};", "", "int main(int count, char **words)", "{"]
    return "\n".join([*lines, f"    return dbp_trace_run(&{plan.of('trace')}, count, words);", "}", ""])
