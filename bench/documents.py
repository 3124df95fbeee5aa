"""Documents at the limits of what dbp accepts."""

import re

MOST_BYTES = 1_048_576
MOST_ROWS = 50_000

# Periods and costs of tasks, by falling rank, whose response times take long to find if one adds what is asked for again
# and again: tasks above fill the processor; they leave one part of 3,263,442 of it; or periods are of several scales.
LONG = 1_000_000_000
FULL_ABOVE = [(2, 1)] * 2 + [(LONG, 1)] * 30
NEARLY_FULL_ABOVE = [(2, 1), (3, 1), (7, 1), (43, 1), (1807, 1)] + [(LONG, 1)] * 27
SEVERAL_SCALES = [(71345, 64210), (16404, 820), (11733, 581), (344297, 170), (867014, 1), (866274, 5), (999791001, 1),
                  (999195539, 1), (999200173, 1000000)]


def text_of(*lines, version=1):
    """Returns the document of these lines between the header and `done`."""
    document = "\n".join((f"dbp {version}", *lines, "done", "")).encode()
    assert len(document) <= MOST_BYTES, len(document)
    return document


def filled(text, line=b"#"):
    """Returns a document with so many lines of no tokens before it that it has as many bytes as there may be."""
    room, whole = MOST_BYTES - len(text), line + b"\n"
    return whole * (room // len(whole)) + b" " * (room % len(whole)) + text


def with_rows(text):
    """Returns a document without a trace with as many samples of an input as there may be, which nothing senses; with
    zeros before them it has about as many bytes as there may be."""
    head, until, body = re.split(rb"(?m)^until ([0-9]+)$", text, maxsplit=1)
    rows = min(int(until), MOST_ROWS)
    times = range(0, int(until), max(1, int(until) // max(rows, 1)))[:rows]
    parts = [head, b"until %s\ninput samples = 0" % until, body[: -len(b"done\n")], b"trace\ntime,samples\n"]
    room = (MOST_BYTES - len(text) - 60) // max(rows, 1) - 2
    for time in times:
        number = b"%d," % time
        parts.append(number + b"-" * (time % 2) + b"7".rjust(room - len(number), b"0") + b"\n")
    found = b"".join([*parts, b"done\n"])
    assert len(found) <= MOST_BYTES, len(found)
    return found


def one_task(occurrences):
    """A task that counts."""
    return text_of("policy fp", f"until {occurrences}", "task k every 1 from 0 prio 1 cost 1", "  state n = 0",
                   "  next n = n + 1", "  out y = 0 then n + 1")


def wide_rows(occurrences):
    """Lines of 170 bytes: eight outs of 19 digits and a sign."""
    outs = (f"  out y{port} = 0 then -1234567890123456789 - n" for port in range(8))
    return text_of("policy fp", f"until {occurrences}", "task k every 1 from 0 prio 1 cost 1", "  state n = 0",
                   "  next n = n + 1", *outs)


def many_tasks(occurrences, processors=None):
    """32 tasks of one period, of which each reads the one before, with 63 nodes each; in version 2 on so many processors in
    turn."""
    lines = ["policy fp", f"until {occurrences}"]
    for task in range(32):
        processor = f" cpu {task % processors}" if processors else ""
        lines.append(f"task t{task} every 32 from {task} prio {32 - task} cost 1{processor}")
        lines += ["  state n = 0", "  next n = n + 1"]
        terms = ["n"] + ["1"] * 31
        if task:
            lines.append(f"  read x = t{task - 1}.y")
            terms[-1] = "x"
        lines.append("  out y = 0 then " + " + ".join(terms))
    return text_of(*lines, version=2 if processors else 1)


def blocked(occurrences):
    """31 tasks that read one after their first tick, on seven processors: each instance of them is blocked once, and others
    are served meanwhile."""
    lines = ["policy fp", f"until {occurrences}", "task w every 32 prio 32 cost 6", "  state n = 0", "  next n = n + 1",
             "  out y = 0 then n + 1"]
    for task in range(31):
        lines += [f"task r{task} every 32 prio {31 - task} cost 2 cpu {1 + task % 7}", "  read x = w.y at 1",
                  "  out y = 0 then x"]
    return text_of(*lines, version=2)


def blocked_often(occurrences):
    """Eight tasks on a processor of their own, that are blocked 16 times in each instance, once for each of 16 tasks which
    the eighth processor serves one after another."""
    lines = ["policy fp", f"until {occurrences}"]
    for task in range(16):
        lines += [f"task w{task} every 64 prio {64 - task} cost 3 cpu 7", "  out y = 0 then 1"]
    for task in range(8):
        lines.append(f"task r{task} every 64 prio {8 - task} cost 17 cpu {task % 7}")
        lines += [f"  read x{read} = w{read}.y at {read}" for read in range(16)]
        lines.append("  out y = 0 then " + " + ".join(f"x{read}" for read in range(16)))
    return text_of(*lines, version=2)


def long_costs():
    """32 tasks of a billion ticks each, on eight processors."""
    lines = ["policy fp", f"until {LONG}"]
    for task in range(32):
        lines += [f"task t{task} every {LONG} prio {32 - task} cost {LONG} cpu {task % 8}", "  out y = 0 then 1"]
    return text_of(*lines, version=2)


def many_reads(occurrences):
    """The most reads: 24 tasks that count, and eight tasks of 16 reads, a quarter of them over delays of 1 to 8."""
    lines = ["policy fp", f"until {occurrences}"]
    for task in range(24):
        lines += [f"task t{task} every 32 prio {32 - task} cost 1", "  state n = 0", "  next n = n + 1",
                  "  out y = 0 then n + 1"]
    for task in range(8):
        lines.append(f"task r{task} every 32 prio {8 - task} cost 1")
        for read in range(16):
            delay = f"pre {1 + (task + read) % 8} " if read % 4 == 3 else ""
            lines.append(f"  read x{read} = {delay}t{(task + read) % 24}.y")
        lines.append("  out y = 0 then " + " + ".join(f"x{read}" for read in range(16)))
    return text_of(*lines)


def mostly_reads(occurrences):
    """Eight tasks of 16 reads with long names, and 16 that they read, which occur once: the longest records."""
    lines = ["policy fp", f"until {occurrences}"]
    writers = [f"a_writer_of_24_letters_{place:x}" for place in range(16)]
    for place, name in enumerate(writers):
        lines += [f"task {name} every {LONG} prio {32 - place} cost 1", "  out a_port_of_24_characters_ = 0 then 1"]
    for place in range(8):
        lines.append(f"task a_reader_of_24_letters{place:x} every 8 from {16 + place} prio {8 - place} cost 1")
        lines += [f"  read a_value_of_24_letters__{read:x} = {name}.a_port_of_24_characters_" for read, name in enumerate(writers)]
        lines.append("  out a_port_of_24_characters_ = 0 then a_value_of_24_letters__0")
    return text_of(*lines)


def by_deadlines(occurrences):
    """32 tasks by earliest deadlines: the processor is never idle, and each task reads one above it."""
    lines = ["policy edf", f"until {occurrences}"]
    for task in range(32):
        lines += [f"task t{task} every {16 if task < 8 else 48} deadline {16 + task} cost 1", "  state n = 0",
                  "  next n = n + 1"]
        if task:
            lines.append(f"  read x = t{task // 2}.y")
        lines.append(f"  out y = 0 then n{' + x' if task else ''}")
    return text_of(*lines)


def preempted(releases):
    """A short task that is released each other tick, and takes the processor from a long one each time."""
    ticks = 2 * releases
    return text_of("policy fp", f"until {ticks}", "task short every 2 prio 2 cost 1", "  state n = 0",
                   "  next n = n + 1", "  out y = 0 then n + 1", f"task long every {ticks} prio 1 cost {releases - 1}",
                   "  read x = short.y", "  out z = 0 then x")


def preempted_in_turn(ticks):
    """Five tasks, each twice as fast as the next, take the processor from each other and from one with eight reads."""
    lines = ["policy fp", f"until {ticks}"]
    for task, period in enumerate((2, 4, 8, 16, 32)):
        lines += [f"task t{task} every {period} from {period // 2 - 1} prio {9 - task} cost 1",
                  f"  read x = {f't{task - 1}.y' if task else 'pre low.y'}", "  out y = 0 then x + 1"]
    lines.append("task low every 4096 prio 1 cost 100")
    lines += [f"  read x{read} = t{read % 5}.y at {12 * read}" for read in range(8)]
    return text_of(*lines, "  out y = 0 then " + " + ".join(f"x{read}" for read in range(8)))


def cycle(tasks):
    """Tasks that read each other directly, each the one before, and the first the last."""
    lines = ["policy fp", "until 1"]
    for task in range(tasks):
        lines += [f"task t{task} every 1 cost 1", f"  read x = t{(task - 1) % tasks}.y", "  out y = 0 then x"]
    return text_of(*lines)


def rates(tasks):
    """Tasks by their periods and costs, by falling rank, of which each occurs once."""
    lines = ["policy fp", "until 1"]
    for task, (period, cost) in enumerate(tasks):
        lines += [f"task t{task} every {period} prio {len(tasks) - task} cost {cost}", "  out y = 0 then 0"]
    return text_of(*lines)


def expressions():
    """0.9 MB of lets of 63 nodes with long names."""
    lines = ["policy fp", "until 1"]
    for task in range(32):
        lines.append(f"task t{task} every 1 prio {task} cost 1")
        names = [f"a_name_of_{let:03}" for let in range(63)]
        for let, name in enumerate(names):
            terms = [names[(let + term) % let] if let else "11111111111111" for term in range(32)]
            lines.append(f"let {name} = " + "+".join(terms))
        lines.append("out y = 0 then 0")
    return text_of(*lines)


def expressions_on_events():
    """0.9 MB of lets of 63 nodes with names of 24 characters, in 16 tasks of which each is on an event of its own and reads
    the one before."""
    lines = ["policy fp", "until 1", *(f"event e{task}" for task in range(16))]
    for task in range(16):
        lines += [f"task t{task} on e{task} prio {16 - task} cost 1", f"read x = t{task - 1}.y" if task else "let x = 1"]
        names = [f"a_name_of_24_letters_{let:03}" for let in range(60)]
        for let, name in enumerate(names):
            terms = [names[(let + term) % let] if let else "11111111111111" for term in range(32)]
            lines.append(f"let {name} = " + "  + ".join(terms))
        lines.append("out y = 0 then 0")
    return text_of(*lines)


def longest_lets():
    """32 tasks with as many lets of 63 nodes as there may be, all of which count."""
    lines = ["policy fp", "until 8"]
    for task in range(32):
        lines += [f"task t{task} every 1 prio {task} cost 1", "state n = 5"]
        names = ["n", *(f"a_name_of_{let:03}" for let in range(61))]
        for let in range(1, 62):
            terms = [names[(let - 1 - term) % let] for term in range(32)]
            lines.append(f"let {names[let]} = " + "+".join(terms))
        lines += [f"next n = {names[61]} - 1", f"out y = 0 then {names[61]}"]
    return text_of(*lines)


def trace(rows, inputs, events):
    """A trace of so many rows and columns; one task senses all inputs, and one occurs at each event of the first
    column."""
    names = [f"i{column}" for column in range(inputs)] + [f"e{column}" for column in range(events)]
    lines = ["policy fp", f"until {rows}"]
    lines += [f"input {name} = 0" for name in names[:inputs]] + [f"event {name}" for name in names[inputs:]]
    lines += ["task all every 10 prio 1 cost 1"]
    lines += [f"sense s{column} = i{column}" for column in range(inputs)]
    lines += ["out y = 0 then " + " + ".join(f"s{column}" for column in range(inputs))]
    lines += ["task count on e0 prio 2 cost 1", "state n = 0", "next n = n + 1", "out y = 0 then n + 1", "trace"]
    lines += ["time," + ",".join(names)]
    for row in range(rows):
        cells = [""] * len(names)
        cells[row % inputs] = str(row % 10)
        if row % 7 == 0:
            cells[inputs] = "1"
        lines.append(f"{row}," + ",".join(cells))
    return text_of(*lines)


def conditions(tasks, ticks):
    """Tasks of period 1 that are on for some ticks of each 40,000, by as many rows as a trace may have."""
    lines = ["policy fp", "until 1000000000", "input x = 0"]
    for task in range(tasks):
        lines += [f"task t{task} every 1 when x prio {task} cost 1", "  state n = 0", "  next n = n + 1",
                  "  out y = 0 then n + 1"]
    lines += ["trace", "time,x"]
    for start in range(0, 1_000_000_000, 40_000):
        lines += [f"{start},1", f"{start + ticks},0"]
    return text_of(*lines, version=2)


def alternating(tasks, each, period=1, occurrences=100_000):
    """Tasks whose 16 inputs alternate in all rows of a mebibyte: each is on for a tick at one of so many pairs of rows, in
    turn. Rows end where tasks of period 1 have so many occurrences."""
    inputs = range(16)
    lines = ["policy fp", f"until {LONG}", *(f"input x{it} = 0" for it in inputs)]
    for task in range(tasks):
        lines += [f"task t{task} every {period} when x{task % 16} prio {task} cost 1 cpu {task % 8}", "  state n = 0",
                  "  next n = n + 1", "  out y = 0 then n + 1"]
    lines += ["trace", ",".join(["time", *(f"x{it}" for it in inputs)])]
    room = MOST_BYTES - len(text_of(*lines))
    for pair in range(occurrences * each // tasks):
        cells = ["1" if it % each == pair % each else "0" for it in inputs]
        rows = [",".join([str(32 * pair), *cells]), ",".join([str(32 * pair + 1), *["0"] * len(inputs)])]
        room -= sum(len(it) + 1 for it in rows)
        if room < 0:
            break
        lines += rows
    return text_of(*lines, version=2)


def script_of(line):
    """A script section of one line, as often as a document has room for it."""
    lines = ("policy fp", "until 0", "script")
    room = MOST_BYTES - len(text_of(*lines))
    return text_of(*lines, *[line] * (room // (len(line) + 1)))


def instances(count):
    """A script in which a task is released and served so often, step by step."""
    steps = ["aim k 0", "open k", "start k", "hear k", "shut k", "put k y", "done k", "end k", "seen k"]
    return text_of("policy fp", "until 20000", "task k every 1 prio 1 cost 1", "state n = 0", "next n = n + 1",
                   "out y = 0 then n + 1", "script", *steps * count)


def chain_steps(tasks, batch):
    """The steps of a batch in which all tasks are released, and then served from the first one on. Each task but the
    first reads the one before. The reader of a slot isn't known to have ended when its writer is aimed again, so two
    slots take turns."""
    names = [f"t{task}" for task in range(tasks)]
    steps = []
    for name in names:
        steps += [f"seen {name}"] if batch else []
        steps.append(f"aim {name} {batch % 2 if name != names[-1] else 0}")
    steps += [f"claim {reader} {writer}" for writer, reader in zip(names, names[1:])]
    steps += [f"open {name}" for name in names]
    for name in names:
        reads = [f"hear {name}", f"look {name} x", f"take {name} x"] if name != names[0] else []
        steps += [f"start {name}", f"hear {name}", *reads]
        steps += [f"shut {name}", f"put {name} y", f"done {name}", f"end {name}"]
    return steps


def chain_script(tasks):
    """A script of a chain of tasks, in as many batches as a document has room for."""
    lines = ["policy fp", f"until {tasks * 3000}"]
    for task in range(tasks):
        lines.append(f"task t{task} every {tasks} prio {tasks - task} cost 1")
        lines.append(f"read x = t{task - 1}.y" if task else "let x = 1")
        lines.append("out y = 0 then x + 1")
    lines.append("script")
    room, batch = MOST_BYTES - len(text_of(*lines)), 0
    while True:
        steps = chain_steps(tasks, batch)
        room -= sum(len(step) + 1 for step in steps)
        if room < 0:
            return text_of(*lines)
        lines += steps
        batch += 1
