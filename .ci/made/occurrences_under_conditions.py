"""Tasks with conditions that occur as often as is allowed, and once more: in few long spans, and in many short ones."""

BILLION = 1_000_000_000
ROWS = 50_000
TICK = "every 1 when x"
TOO_MANY = b"refused: line 3: 25 TooManyOccurrences\n"


def alternating(step):
    """As many rows as are allowed, by which the input is 1 and 0 in turn."""
    return [f"{row * step},{(row + 1) % 2}," for row in range(ROWS)]


# As many rows as are allowed, each with the event, by which the input is 0 and 1 in turn.
EVENTS = [f"{row},{row % 2},1" for row in range(ROWS)]

# The name, the input's first value, the clocks of the tasks, the rows, and the times of the tasks, which are allowed.
ALLOWED = [
    ("one_span", 0, [TICK], ["77,1,", "100077,0,"], [range(77, 100_077)]),
    ("span_to_the_end", 0, [TICK], ["999900000,-1,"], [range(999_900_000, BILLION)]),
    ("span_from_the_start", 3, [TICK], ["100000,0,"], [range(100_000)]),
    ("no_tick_of_a_billion", 0, 32 * [TICK], ["5,0,"], []),
    ("period_and_offset", 0, ["every 7 from 3 when x"], ["10,1,", "700004,0,"], [range(10, 700_004, 7)]),
    ("offset_in_a_span", 1, ["every 9000 from 4500 when x"], ["900000000,0,"], [range(4500, 900_000_000, 9000)]),
    ("two_tasks", 0, 2 * [TICK], ["5,1,", "50005,0,"], 2 * [range(5, 50_005)]),
    ("without_a_condition", 0, ["every 20000", TICK], ["5,1,", "50005,0,"], [range(0, BILLION, 20_000), range(5, 50_005)]),
    ("many_spans", 1, [TICK], alternating(2), [[time for time in range(2 * ROWS) if time % 4 < 2]]),
    ("between_many_spans", 1, 32 * ["every 8 from 6 when x"], alternating(4), []),
    ("once_in_many_spans", 1, 4 * ["every 8 from 3 when x"], alternating(4), 4 * [range(3, 4 * ROWS, 8)]),
    ("event", 1, 4 * ["on e when x"], EVENTS, 4 * [range(1, ROWS, 2)]),
]

# The name, the input's first value, the clocks of the tasks, and the rows, by which they are too many: mostly once.
REFUSED = [
    ("one_span", 0, [TICK], ["77,1,", "100078,0,"]),
    ("span_to_the_end", 0, [TICK], ["999899999,-1,"]),
    ("span_from_the_start", 3, [TICK], ["100001,0,"]),
    ("every_tick_of_a_billion", 1, [TICK], []),
    ("period_and_offset", 0, ["every 7 from 3 when x"], ["10,1,", "700011,0,"]),
    ("two_tasks", 0, 2 * [TICK], ["5,1,", "50006,0,"]),
    ("without_a_condition", 0, ["every 20000", TICK], ["5,1,", "50006,0,"]),
    ("last_of_many_spans", 1, [TICK], [*alternating(2)[:-1], "500000000,0,"]),
    ("in_many_spans", 1, 32 * [TICK], alternating(20_000)),
    ("once_in_many_spans", 1, [*4 * ["every 8 from 3 when x"], f"every {BILLION}"], alternating(4)),
    ("event", 1, [*4 * ["on e when x"], f"every {BILLION}"], EVENTS),
]


def document(first, clocks, rows):
    lines = ["dbp 2", "policy fp", f"until {BILLION}", f"input x = {first}", "event e"]
    for number, clock in enumerate(clocks):
        lines += [f"task t{number} {clock} prio {number} cost 1 cpu {number % 8}", "out y = 0 then 1"]
    return "\n".join([*lines, "trace", "time,x,e", *rows, "done", ""]).encode()


def lines_of(times):
    """The lines of tasks that occur at these times."""
    releases = sorted((time, task, number) for task, own in enumerate(times) for number, time in enumerate(own, 1))
    return "".join(f"{time},t{task},{number},1\n" for time, task, number in releases).encode()


def cases():
    for name, first, clocks, rows, times in ALLOWED:
        yield name, ["mean"], document(first, clocks, rows), 0, lines_of(times)
    for name, first, clocks, rows in REFUSED:
        yield f"{name}_too_often", ["mean"], document(first, clocks, rows), 1, TOO_MANY
