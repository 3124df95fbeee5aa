"""Traces with as many rows as a document may have, and with one row more."""

ROWS = 50_000

# The last row, one past the limit: without another fault, and with a fault of its count of cells, of a cell, of its
# time or of its end. The number is the tick until which times go.
LAST = [
    ("no_other_fault", 50_001, "50000"),
    ("one_cell_too_many", 50_001, "1,2"),
    ("letter_for_a_time", 50_001, "x"),
    ("time_not_rising", 50_001, "1"),
    ("time_at_the_end", 50_000, "50000"),
]


def all_rows():
    """The most rows: only times, from 0 on, so that row k is at line 6 + k of a document of `refused`."""
    return [str(time) for time in range(ROWS)]


def accepted():
    """An event that occurs in the last row alone."""
    rows = [f"{row},0" for row in all_rows()]
    rows[-1] = f"{ROWS - 1},1"
    head = ["dbp 1", "policy fp", f"until {ROWS}", "event e", "task w on e prio 1 cost 1", "out y = 0 then 1"]
    return "\n".join(head + ["trace", "time,e"] + rows + ["done", ""])


def refused(until, row):
    head = ["dbp 1", "policy fp", f"until {until}", "trace", "time"]
    return "\n".join(head + all_rows() + [row, "done", ""])


def cases():
    yield "most_rows", ["mean"], accepted().encode(), 0, f"{ROWS - 1},w,1,1\n".encode()
    line = f"refused: line {6 + ROWS}: 26 TooManyRows\n".encode()
    for name, until, row in LAST:
        yield f"row_past_the_most_{name}", ["mean"], refused(until, row).encode(), 1, line
