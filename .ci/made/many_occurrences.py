"""As many occurrences and rows of a trace as are allowed, and one more of each, which `upgrade` doesn't count."""

PERIODIC = b"dbp 1\npolicy fp\nuntil %d\ntask k every 1 from 0 prio 1 cost 1\nout y = 0 then 1\ndone\n"

ON_EVENT = b"dbp 1\npolicy fp\nuntil 60000\nevent e\ntask w on e prio 1 cost 1\nout y = 0 then 1\ntrace\ntime,e\n"

UPGRADED = b"dbp 2\npolicy fp\nuntil 60000\nevent e\ntask w on e prio 1 cost 1 cpu 0\n  out y = 0 then 1\ntrace\ntime,e\n"


# A document whose event occurs in each of so many rows.
def with_rows(rows, start=ON_EVENT):
    return start + b"".join(b"%d,1\n" % time for time in range(rows)) + b"done\n"


# The lines of a task that occurs at the first ticks, and whose out is 1.
def lines(task, count):
    return b"".join(b"%d,%s,%d,1\n" % (time, task, time + 1) for time in range(count))


def cases():
    yield "occurrences", ["mean"], PERIODIC % 100000, 0, lines(b"k", 100000)
    yield "one_more_occurrence", ["mean"], PERIODIC % 100001, 1, b"refused: line 3: 25 TooManyOccurrences\n"
    yield "rows", ["mean"], with_rows(50000), 0, lines(b"w", 50000)
    yield "one_more_row", ["mean"], with_rows(50001), 1, b"refused: line 50009: 26 TooManyRows\n"
    yield "one_more_row_upgraded", ["upgrade"], with_rows(50001), 0, with_rows(50001, UPGRADED)
