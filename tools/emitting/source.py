"""The files of a diagram for every target: NAME.h, what a system calls and writes, and NAME.c."""

from emitting import operations
from emitting.blocks import expression_text, names_in, number_text, operators_in, ordered_lets, tree_of
from emitting.names import Names
from emitting.plan import is_periodic, local_names, row_names, set_text

MARK = "/* Written by tools/emit_c of dbp: it writes this file anew at each call. */"
WIDTH = 120
C_START = ["#ifdef __cplusplus", 'extern "C" {', "#endif"]
C_END = ["#ifdef __cplusplus", "}", "#endif", ""]

STEPS = """
/* What a system calls. */

/* Gives all words and states their first values: call it once, before all else. */
void NAME_begin(void);

/* The tasks with a period that occur at this tick, to be released then. */
uint32_t NAME_tasks_at(uint64_t tick);

/* Releases the tasks of a set at their time; those whose `when` says no aren't released. If a task's last instance
 * hasn't ended, the outcome is DBP_LATE, and no task is released yet: call it again with the same set, until the release
 * is made, before you ask for another one. The inputs keep the values of the first call. If a task has had as many
 * instances as there are numbers, the outcome is DBP_SPENT, and nothing was released. */
dbp_released NAME_release(uint32_t tasks);

/* The same in single steps: it begins the release, and each call of the second one makes a step. */
dbp_released NAME_begin_release(uint32_t tasks);
dbp_step NAME_release_step(void);

/* Sees the first task whose last instance isn't known to have ended; DBP_NO_STEP says that all have. */
dbp_step NAME_see_unended(void);

/* The value that an input had at the last release that used it; inputs have numbers from 0 on, in the order below. */
int64_t NAME_sampled(uint32_t input);
"""


def c_array(kind, name, items):
    """Returns the definition of a constant array, or nothing without items."""
    if not items:
        return []
    line = f"static const {kind} {name}[] = {{{', '.join(map(str, items))}}};"
    if len(line) <= WIDTH:
        return [line]
    return [f"static const {kind} {name}[] = {{", *(f"    {item}," for item in items), "};"]


def variables(kind, name, count):
    """Returns the definition of an array of variables, or nothing if there are none."""
    return [f"static {kind} {name}[{count}];"] if count else []


def pointer(name, items):
    """Returns a pointer to an array that is there if it has items."""
    return name if items else "NULL"


def beside(code, comment):
    """Returns a line of code with its comment beside it, or above it if both are too long for one line."""
    line = f"{code}  {comment}"
    indent = " " * (len(code) - len(code.lstrip()))
    return [line] if len(line) <= WIDTH else [f"{indent}{comment}", code]


def header_of_task(plan, number):
    """Yields the lines of NAME.h for a task."""
    task, own = plan.document.tasks[number], plan.of(plan.tasks[number])
    row = ", ".join(f"int64_t {name}" for name in row_names(plan, task))
    yield ""
    yield plan.comments[task.name, "task", task.name]
    yield f"#define {plan.of('set_' + plan.tasks[number])} {set_text(1 << number)}"
    yield f"dbp_step {own}_step(void);  /* the next step of its running instance */"
    yield f"dbp_step {own}(void);       /* the steps up to its end, or to one that must wait: call it again then */"
    yield f"void {own}_row(uint32_t instance, {row});"


def header(plan):
    """Returns the text of NAME.h."""
    guard = plan.of("H")
    lines = [MARK, "", f"/* The tasks of {plan.title} in C. A set of tasks has a bit for each. */", ""]
    lines += [f"#ifndef {guard}", f"#define {guard}", "", '#include "dbp_protocol.h"', "", *C_START]
    lines += STEPS.replace("NAME_", plan.of("")).rstrip("\n").split("\n")
    if plan.document.events:
        lines += ["", "/* The tasks that occur at the times of an event, to be released then. */"]
    for event, own in plan.events.items():
        lines.append(f"#define {plan.of('on_' + own)} {set_text(plan.tasks_on(event))}")
    lines += ["", "/* The tasks, each as a set of its own, with its calls. You write the functions that end with `_row`: they get",
              " * the outs of each instance before it ends. */"]
    lines += [line for number in range(len(plan.tasks)) for line in header_of_task(plan, number)]
    if plan.inputs:
        lines += ["", "/* You write these: each returns the value of an input at the release that is begun. */", ""]
    for name, own in plan.inputs.items():
        lines += beside(f"int64_t {plan.of('input_' + own)}(void);", plan.comments[None, "input", name])
    lines += ["", f"extern const dbp_diagram {plan.of('diagram')};", "", *C_END, "#endif", ""]
    return "\n".join(lines)


def tables_of_task(plan, number):
    """Yields the constant arrays of a task."""
    task, wired = plan.document.tasks[number], plan.wiring.tasks[number]
    own, inputs = plan.of(plan.tasks[number]), plan.numbered_inputs()
    reads = [f"{{{it.read}, {it.order}, {it.writer}, {it.port}}}" for it in wired.reads]
    yield from c_array("uint8_t", f"{own}_links", wired.links)
    yield from c_array("uint8_t", f"{own}_leaving", wired.leaving)
    yield from c_array("dbp_read", f"{own}_reads", reads)
    yield from c_array("uint8_t", f"{own}_senses", [inputs[sense.input] for sense in task.senses])
    yield from c_array("int64_t", f"{own}_first", [number_text(out.first) for out in task.outs])


def entry_of_task(plan, number):
    """Yields the entry of a task in the table of tasks."""
    task, wired = plan.document.tasks[number], plan.wiring.tasks[number]
    own = plan.of(plan.tasks[number])
    period, offset = (task.clock.period, task.clock.offset) if is_periodic(task) else (0, 0)
    condition = "DBP_ALWAYS" if task.when is None else plan.numbered_inputs()[task.when]
    yield f"    {{  {plan.comments[task.name, 'task', task.name]}"
    yield f"        .period = {period}, .offset = {offset}, .condition = {condition},"
    yield f"        .first_slot = {wired.first_slot}, .ports = {len(task.outs)}, .slots = {wired.slots}, .kept = {wired.kept},"
    yield f"        .link_count = {len(wired.links)}, .leaving_count = {len(wired.leaving)},"
    yield f"        .read_count = {len(wired.reads)}, .sense_count = {len(task.senses)},"
    pointers = {"links": wired.links, "leaving": wired.leaving, "reads": wired.reads, "senses": task.senses, "first": (0,)}
    fields = [f".{name} = {pointer(own + '_' + name, items)}" for name, items in pointers.items()]
    yield f"        {', '.join(fields)},"
    yield "    },"


def tables(plan):
    """Yields the lines of the constant tables."""
    numbers = range(len(plan.tasks))
    links = [f"{{{link.writer}, {link.reader}, {link.delay}}}" for link in plan.wiring.links]
    for number in numbers:
        yield from tables_of_task(plan, number)
    yield from c_array("dbp_link", plan.of("links"), links)
    if plan.tasks:
        yield f"static const dbp_task {plan.of('tasks')}[] = {{"
        for number in numbers:
            yield from entry_of_task(plan, number)
        yield "};"
    counts = f"{len(plan.tasks)}, {len(links)}, {plan.wiring.word_count}"
    yield f"const dbp_diagram {plan.of('diagram')} = {{"
    yield f"    {counts}, {pointer(plan.of('tasks'), plan.tasks)}, {pointer(plan.of('links'), links)},"
    yield "};"


def variables_of_task(plan, number):
    """Yields what a task alone uses."""
    task, own = plan.document.tasks[number], plan.of(plan.tasks[number])
    yield from variables("int64_t", f"{own}_states", len(task.states))
    yield from variables("int64_t", f"{own}_sensed", len(task.senses))
    yield from variables("int64_t", f"{own}_taken", len(task.reads))
    yield from variables("dbp_order", f"{own}_heard", 1 + len(plan.wiring.tasks[number].links))
    yield from variables("int64_t", f"{own}_outs", len(task.outs))


def part_of_task(plan, number):
    """Returns the entry of a task in the table of parts."""
    task, own = plan.document.tasks[number], plan.of(plan.tasks[number])
    sensed, taken = pointer(f"{own}_sensed", task.senses), pointer(f"{own}_taken", task.reads)
    return f"    {{.heard = {own}_heard, .sensed = {sensed}, .taken = {taken}, .outs = {own}_outs}},"


def all_variables(plan):
    """Yields the lines of the shared words, and of what each party alone uses."""
    links, inputs = plan.wiring.links, plan.inputs
    yield f"static dbp_word {plan.of('words')}[{plan.wiring.word_count}];"
    yield from variables("dbp_entry", plan.of("entries"), len(plan.tasks))
    yield from variables("dbp_claimed", plan.of("claims"), len(links))
    yield from variables("int64_t", plan.of("inputs"), len(inputs))
    pointers = {"entries": plan.tasks, "claims": links, "inputs": inputs}
    fields = ", ".join(f".{name} = {pointer(plan.of(name), items)}" for name, items in pointers.items())
    yield f"static dbp_releaser {plan.of('releaser')} = {{{fields}}};"
    for number in range(len(plan.tasks)):
        yield from variables_of_task(plan, number)
    if plan.tasks:
        yield f"static dbp_part {plan.of('parts')}[] = {{"
        yield from (part_of_task(plan, number) for number in range(len(plan.tasks)))
        yield "};"
    parts = pointer(plan.of("parts"), plan.tasks)
    yield f"static const dbp_system {plan.of('system')} = {{"
    yield f"    &{plan.of('diagram')}, {plan.of('words')}, &{plan.of('releaser')}, {parts},"
    yield "};"


def places_of(task, own):
    """Yields the lines of a task that name what is there when it computes: the word, the name, and the place in C."""
    for word, parts, kind in (("state", task.states, "states"), ("sense", task.senses, "sensed"), ("read", task.reads, "taken")):
        for number, part in enumerate(parts):
            yield word, part.name, f"{own}_{kind}[{number}]"


def results_of(task, own):
    """Yields the lines of a task that say what it computes: the word, the name, the expression, and the place in C."""
    for number, out in enumerate(task.outs):
        yield "out", out.name, out.expression, f"{own}_outs[{number}]"
    numbers = {state.name: number for number, state in enumerate(task.states)}
    for it in task.nexts:
        yield "next", it.state, it.expression, f"{own}_states[{numbers[it.state]}]"


def results_with_trees(task, own):
    """Returns the lines of a task that say what it computes: the word, the name, the tree, and the place in C."""
    return [(word, name, tree_of(text), place) for word, name, text, place in results_of(task, own)]


def block(plan, number):
    """Returns whether a task is a table, and the lines of the function that computes its outs and its next states."""
    task, own = plan.document.tasks[number], plan.of(plan.tasks[number])
    lets, results = ordered_lets(task.lets), results_with_trees(task, own)
    trees = [*(tree for _, tree in lets), *(tree for _, _, tree, _ in results)]
    is_table = sum(map(operators_in, trees)) > plan.most_calls
    lines = (statements_of_table if is_table else statements)(plan, task, own, lets, results)
    about = plan.comments[task.name, "task", task.name]
    return is_table, ["", about, f"static void {own}_compute(void)", "{", *lines, "}"]


def statements(plan, task, own, lets, results):
    """Yields the statements that compute a block: a call for each operator."""
    names = local_names(plan, task)
    used = set().union(*(names_in(tree) for tree in [*(tree for _, tree in lets), *(tree for _, _, tree, _ in results)]))

    def declared(word, name, value):
        yield from beside(f"    const int64_t {names[name]} = {value};", plan.comments[task.name, word, name])
        if name not in used:
            yield f"    (void){names[name]};"

    for word, name, place in places_of(task, own):
        yield from declared(word, name, place)
    for let, tree in lets:
        yield from declared("let", let.name, expression_text(tree, names))
    for word, name, tree, place in results:
        yield from beside(f"    {place} = {expression_text(tree, names)};", plan.comments[task.name, word, name])


def statements_of_table(plan, task, own, lets, results):
    """Yields the statements that compute a block by a table."""
    names = Names(operations.LOCALS)
    places = local_names(plan, task, names)
    given = [*places_of(task, own)]
    made = [(word, name, tree, place, names.give(f"{word}_{name}")) for word, name, tree, place in results]
    parts = [(plan.comments[task.name, "let", let.name], tree, places[let.name]) for let, tree in lets]
    parts += [(plan.comments[task.name, word, name], tree, at) for word, name, tree, _, at in made]
    table, rows = operations.table_of(plan, names, places, parts)
    values = [*places.values(), *(at for *_, at in made), *table.inner]
    yield "    enum {"
    yield from filled([*values, "value_count"])
    if table.numbers:
        first, *others = table.numbers.values()
        yield from filled([f"{first} = value_count", *others])
    yield "    };"
    yield from (f"    {line}" for line in c_array("int64_t", "numbers", [number_text(it) for it in table.numbers]))
    yield f"    static const {plan.of('operation')} operations[] = {{"
    yield from rows
    yield "    };"
    yield "    int64_t values[value_count];"
    for word, name, place in given:
        yield from beside(f"    values[{places[name]}] = {place};", plan.comments[task.name, word, name])
    count = "sizeof operations / sizeof *operations"
    numbers = pointer("numbers", table.numbers)
    yield f"    {plan.of('operate')}(operations, {count}, values, value_count, {numbers});"
    for word, name, _, place, at in made:
        yield from beside(f"    {place} = values[{at}];", plan.comments[task.name, word, name])


def filled(items):
    """Yields items of a list, as many on a line as it has room for."""
    return operations.filled(f"{item}," for item in items)


def calls_of_task(plan, number):
    """Yields the two functions by which a system lets a task step."""
    task, own = plan.document.tasks[number], plan.of(plan.tasks[number])
    outs = ", ".join(f"{own}_outs[{port}]" for port in range(len(task.outs)))
    yield f"""
dbp_step {own}_step(void)
{{
    const dbp_part *part = &{plan.of('parts')}[{number}];
    if (part->place == DBP_AT_SHUT) {{
        {own}_compute();
    }} else if (part->place == DBP_AT_END) {{
        {own}_row(part->ended + 1, {outs});
    }}
    return dbp_task_step(&{plan.of('system')}, {number});
}}

dbp_step {own}(void)
{{
    dbp_step step;
    do {{
        step = {own}_step();
    }} while (!step.must_wait && step.kind != DBP_END);
    return step;
}}"""


def sampling(plan):
    """Yields the function that begins a release with the inputs of its time, each if one of the tasks uses it."""
    yield f"""
dbp_released {plan.of('begin_release')}(uint32_t tasks)
{{"""
    if plan.inputs:
        yield f"    const uint32_t sampled = dbp_is_releasing(&{plan.of('system')}) ? 0 : tasks;"
    for number, (name, own) in enumerate(plan.inputs.items()):
        yield f"    if ((sampled & {set_text(plan.users_of(name))}) != 0) {{"
        yield f"        {plan.of('inputs')}[{number}] = {plan.of('input_' + own)}();"
        yield "    }"
    yield f"    return dbp_begin_release(&{plan.of('system')}, tasks);"
    yield "}"


def beginning(plan):
    """Yields the function that gives words and states their first values."""
    yield f"void {plan.of('begin')}(void)"
    yield "{"
    yield f"    dbp_begin(&{plan.of('system')});"
    for number, task in enumerate(plan.document.tasks):
        for at, state in enumerate(task.states):
            code = f"    {plan.of(plan.tasks[number])}_states[{at}] = {number_text(state.first)};"
            yield from beside(code, plan.comments[task.name, "state", state.name])
    yield "}"


RELEASES = """
uint32_t NAME_tasks_at(uint64_t tick)
{
    return dbp_tasks_at(&NAME_diagram, tick);
}

dbp_step NAME_release_step(void)
{
    return dbp_release_step(&NAME_system);
}

dbp_released NAME_release(uint32_t tasks)
{
    const dbp_released begun = NAME_begin_release(tasks);
    return begun.outcome == DBP_RELEASED ? dbp_release(&NAME_system) : begun;
}

dbp_step NAME_see_unended(void)
{
    return dbp_see_unended(&NAME_system);
}"""


def body(plan):
    """Returns the text of NAME.c."""
    numbers = range(len(plan.tasks))
    about = f"/* The tasks of {plan.title} in C. A comment that begins with a number has that line of the document. */"
    lines = [MARK, "", about]
    lines += ["", f'#include "{plan.name}.h"', ""]
    lines += [f'_Static_assert(DBP_WORD_BITS == {plan.word_bits}, "the tables are for words of another length");']
    lines += ["", "/* The tables. */", "", *tables(plan)]
    lines += ["", "/* The shared words, and what each party alone uses. */", "", *all_variables(plan)]
    blocks = [block(plan, number) for number in numbers]
    lines += operations.operate(plan) if any(is_table for is_table, _ in blocks) else []
    lines += ["", "/* The blocks. */", *(line for _, block_lines in blocks for line in block_lines)]
    lines += ["", "/* What a system calls. */", "", *beginning(plan), *sampling(plan)]
    lines += RELEASES.replace("NAME_", plan.of("")).split("\n")
    lines += ["", f"int64_t {plan.of('sampled')}(uint32_t input)", "{"]
    lines += [f"    return {plan.of('inputs')}[input];" if plan.inputs else "    (void)input;\n    return 0;", "}"]
    lines += [line for number in numbers for line in calls_of_task(plan, number)]
    return "\n".join([*lines, ""])
