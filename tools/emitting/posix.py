"""The files of the target `posix`: NAME_posix.h and NAME_posix.c, the tasks as threads in real time."""

from argparse import ArgumentTypeError
from re import fullmatch

from emitting.plan import is_periodic
from emitting.source import C_END, C_START, MARK, c_array, pointer
from emitting.trace import strings
from pictures.service import rank_order

UNITS = {"s": 10**9, "ms": 10**6, "us": 10**3, "ns": 1}
SHORTEST, LONGEST = 10**3, 3600 * 10**9  # ticks, in nanoseconds
SHORTEST_PERIOD = 100 * 10**3  # that Linux allows by SCHED_DEADLINE
LEAST_RUNTIME = 1024
HIGHEST = 80  # the priority of the highest task by SCHED_FIFO
FIXED, DEADLINE = "fixed", "deadline"
MOST_LETTERS = 2000  # in one string of C, each of which may take four

CALLS = """
/* Runs the ticks from 0 to the one before `ticks`, or before the one at which it is to stop. It returns after the last
 * instance has ended. */
dbp_posix_end NAME_run(uint64_t ticks);

/* Stops the run before the next tick. You may call it from any thread, and from a signal handler. */
void NAME_stop(void);
"""
LOG = """
/* Writes what the last run has logged, and returns whether all is written: FILE.dbp is the document, with what was sampled
 * as its trace and with `until` where the run got; FILE.rows has its rows as `dbp mean` writes them; FILE.times says when
 * each instance was released and when it ended, in nanoseconds from tick 0 on, and whether its release was an overrun. */
bool NAME_write_log(const char *file);
"""
RAISE = "/* Raises an event: it occurs at the next tick at which no earlier raise of it is left. From anywhere, as NAME_stop. */"
OVERRUN = """
/* You write this: it is called by the releaser if a release meets an unfinished instance of a task, with the instance that is
 * to be released and its tick. The release is made when the last instance has ended. */
void NAME_overrun(uint32_t task, uint32_t instance, uint64_t tick);
"""


def tick_length(text):
    """Returns how many nanoseconds a length has, as 250us."""
    found = fullmatch("([0-9]{1,9})(s|ms|us|ns)", text)
    length = int(found[1]) * UNITS[found[2]] if found else 0
    if not SHORTEST <= length <= LONGEST:
        raise ArgumentTypeError(f"{text!r} is no length from 1us to 3600s, as 250us or 5ms")
    return length


def fault_of_deadlines(document, tick):
    """Returns why the tasks of a document can't be served by SCHED_DEADLINE, or nothing."""
    if not document.policy.serves_by_deadline:
        return "the document's policy isn't `edf`"
    if tick < SHORTEST_PERIOD:
        return "a tick is shorter than 100us, the shortest period that Linux allows"
    for task in document.tasks:
        if not is_periodic(task):
            return f"the task `{task.name}` is on an event"
        if task.cpu != 0:
            return f"the task `{task.name}` has `cpu {task.cpu}`"
        if not task.cost <= task.deadline <= task.clock.period:
            return f"the task `{task.name}` hasn't a cost up to its deadline and a deadline up to its period"
    return None


def served(document, tick, policy):
    """Returns how each task is served, and then how the releaser is: a priority, a runtime, a deadline and a period."""
    if policy == DEADLINE:
        found = [(0, task.cost * tick, task.deadline * tick, task.clock.period * tick) for task in document.tasks]
        return [*found, (0, max(LEAST_RUNTIME, tick // 10), tick // 2, tick)]
    ranks = {at: rank for rank, at in enumerate(rank_order(document))}
    return [*((HIGHEST - ranks[at], 0, 0, 0) for at in range(len(document.tasks))), (HIGHEST + 1, 0, 0, 0)]


def posix_header(plan, has_log):
    """Returns the text of NAME_posix.h."""
    guard, calls = plan.of("posix_H"), CALLS + (LOG if has_log else "")
    lines = [MARK, "", f"/* The tasks of {plan.title} in real time. You write the functions that {plan.name}.h names too. */"]
    lines += ["", f"#ifndef {guard}", f"#define {guard}", "", f'#include "{plan.name}.h"', "", '#include "dbp_posix.h"', "", *C_START]
    lines += calls.rstrip("\n").split("\n")
    if plan.events:
        lines += ["", RAISE, *(f"void {plan.of('raise_' + own)}(void);" for own in plan.events.values())]
    lines += OVERRUN.rstrip("\n").split("\n")
    lines += ["", "/* The numbers of the tasks. */"]
    lines += [f"#define {plan.of('task_' + own)} {number}" for number, own in enumerate(plan.tasks)]
    return "\n".join([*lines, "", *C_END, "#endif", ""]).replace("NAME_", plan.of(""))


def pieces(text):
    """Yields the parts of a text as strings of C."""
    for line in text.splitlines(True):
        for at in range(0, len(line), MOST_LETTERS):
            yield '"' + line[at : at + MOST_LETTERS].replace("\\", "\\\\").replace('"', '\\"').replace("\n", "\\n") + '"'


def document_texts(plan):
    """Yields the text of the document without its trace, before `until` and after it."""
    lines = plan.lines
    until = next(at for at, line in enumerate(lines) if line.startswith("until "))
    for name, part in (("posix_head", lines[:until]), ("posix_rest", lines[until + 1 :])):
        text = "".join(f"{line}\n" for line in part)
        yield from c_array("char *const", plan.of(name), [*pieces(text), "NULL"])


def log_lines(plan):
    """Yields what a log has besides: the names, and the document's text."""
    inputs, events = plan.of("posix_inputs"), plan.of("posix_events")
    yield ""
    yield from c_array("char *const", inputs, strings(plan.inputs))
    yield from c_array("char *const", events, strings(plan.events))
    yield from document_texts(plan)
    yield f"static const dbp_posix_names {plan.of('posix_names')} = {{"
    yield f"    {pointer(inputs, plan.inputs)}, {pointer(events, plan.events)},"
    yield f"    {plan.of('posix_head')}, {plan.of('posix_rest')},"
    yield "};"


def entry(name, step, cpu, way):
    """Returns the entry of a thread."""
    return f'{{"{name}", {step}, {cpu}, {", ".join(map(str, way))}}}'


def tables(plan, tick, policy, has_log):
    """Yields the tables of the file."""
    document, ways = plan.document, served(plan.document, tick, policy)
    sets = [f"0x{plan.tasks_on(event):x}" for event in plan.events]
    entries = [entry(it.name, plan.of(f"{own}_step"), it.cpu, way) for it, own, way in zip(document.tasks, plan.tasks, ways)]
    yield from c_array("dbp_posix_task", plan.of("posix_tasks"), entries)
    yield from c_array("uint32_t", plan.of("posix_on_events"), sets)
    if plan.events:
        yield f"static atomic_uint {plan.of('posix_raised')}[{len(sets)}];"
    calls = ("begin", "begin_release", "release_step", "sampled", "overrun")
    yield f"static const dbp_posix {plan.of('posix')} = {{"
    yield f'    "{plan.name}", &{plan.of("diagram")}, {pointer(plan.of("posix_tasks"), entries)},'
    yield f"    {entry('the releaser', 'NULL', 0, ways[-1])}, {tick},"
    yield f"    {len(plan.inputs)}, {len(sets)}, {pointer(plan.of('posix_on_events'), sets)}, {pointer(plan.of('posix_raised'), sets)},"
    yield f"    {'&' + plan.of('posix_names') if has_log else 'NULL'},"
    yield f"    {', '.join(map(plan.of, calls))},"
    yield "};"


def function(head, line):
    """Returns a function of one line."""
    return ["", head, "{", f"    {line}", "}"]


def posix_text(plan, tick, policy, has_log):
    """Returns the text of NAME_posix.c."""
    lines = [MARK, "", f"/* The tasks of {plan.title} in real time: a tick has {tick} nanoseconds. */", ""]
    lines += [f'#include "{plan.name}_posix.h"', *(log_lines(plan) if has_log else []), ""]
    lines += tables(plan, tick, policy, has_log)
    lines += function(f"dbp_posix_end {plan.of('run')}(uint64_t ticks)", f"return dbp_posix_run(&{plan.of('posix')}, ticks);")
    lines += function(f"void {plan.of('stop')}(void)", "dbp_posix_stop();")
    for number, own in enumerate(plan.events.values()):
        lines += function(f"void {plan.of('raise_' + own)}(void)", f"atomic_fetch_add(&{plan.of('posix_raised')}[{number}], 1);")
    if has_log:
        lines += function(f"bool {plan.of('write_log')}(const char *file)", "return dbp_posix_write_log(file);")
    return "\n".join([*lines, ""])
