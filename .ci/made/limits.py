"""Documents with as many of a part as are allowed, and with one more."""

START = b"dbp 1\npolicy fp\nuntil 1\n"
TASK = b"task k every 1 prio 1 cost 1\n"
OUT = b"out y = 0 then 1\n"
DONE = b"done\n"

# What stands before the parts, a part before and after its number, what stands after the parts, how many parts are
# allowed, the line that `mean` prints for them, and the line and the name of the refusal of one more.
NUMBERED = {
    "nodes_of_a_sum_after_not": (TASK + b"out y = 0 then not 1", b" + ", b"", b"\n" + DONE, 31, b"0,k,1,465", 5, b"nodes"),
    "nodes_of_a_sum": (TASK + b"out y = 0 then 1", b" + ", b"", b"\n" + DONE, 31, b"0,k,1,466", 5, b"nodes"),
    "outs": (TASK, b"out y", b" = 0 then 1\n", DONE, 8, b"0,k,1,1,1,1,1,1,1,1,1", 13, b"outs"),
    "body": (TASK + OUT, b"let x", b" = 1\n", DONE, 63, b"0,k,1,1", 69, b"body"),
    "inputs": (b"", b"input i", b" = 0\n", TASK + OUT + DONE, 16, b"0,k,1,1", 20, b"inputs"),
    "events": (b"", b"event e", b"\n", TASK + OUT + DONE, 16, b"0,k,1,1", 20, b"events"),
}

READS = b"task k on e cost 1\n" + b"".join(b"read %c = k.y\n" % name for name in b"abcdefghijklmnop")

# What a text begins with, a part and how often it comes, what stands after the parts, and the refusal by `form`.
REPEATED = {
    "missing_done_after_line_100": (START + TASK, b"# a comment\n", 95, b"out y = 0 then 1", b"line 101: 7 MissingDone"),
    "depth": (b"dbp 1\npolicy fp\nuntil ", b"(", 65, b"", b"line 3: 9 DepthHit"),
    "tasks": (START, b"task k on e cost 1\n", 33, b"done", b"line 36: 6 LimitHit tasks"),
    "reads": (START + TASK, b"read x = a.y\n", 17, b"done", b"line 21: 6 LimitHit reads"),
    "links": (START, READS, 8, b"task k on e cost 1\nread x = k.y\n", b"line 141: 6 LimitHit links"),
    "outs": (START + TASK, OUT, 9, b"done", b"line 13: 6 LimitHit outs"),
    "inputs": (START, b"input i = 0\n", 17, b"done", b"line 20: 6 LimitHit inputs"),
    "events": (START, b"event e\n", 17, b"done", b"line 20: 6 LimitHit events"),
    "body": (START + TASK, b"let x = 1\n", 65, b"done", b"line 69: 6 LimitHit body"),
    "nodes": (START + TASK + b"let x = ", b"- ", 64, b"x\n", b"line 5: 6 LimitHit nodes"),
}


def numbered(head, before, after, tail, count):
    return START + head + b"".join(b"%s%d%s" % (before, number, after) for number in range(count)) + tail


def nested(depth):
    return START + TASK + b"out y = 0 then " + b"(" * depth + b"1" + b")" * depth + b"\n" + DONE


def cases():
    for name, (head, before, after, tail, limit, printed, line, word) in NUMBERED.items():
        refusal = b"refused: line %d: 6 LimitHit %s\n" % (line, word)
        yield "mean_" + name, ["mean"], numbered(head, before, after, tail, limit), 0, printed + b"\n"
        yield "mean_one_more_of_" + name, ["mean"], numbered(head, before, after, tail, limit + 1), 1, refusal
    yield "mean_depth", ["mean"], nested(64), 0, b"0,k,1,1\n"
    yield "mean_one_more_of_depth", ["mean"], nested(65), 1, b"refused: line 5: 9 DepthHit\n"
    for name, (head, part, count, tail, refusal) in REPEATED.items():
        yield "form_refuses_" + name, ["form"], head + part * count + tail, 1, b"refused: " + refusal + b"\n"
