"""Every front of a document: `mean` refuses it at the line where it was cut, or at the line after its last one."""

DOCUMENT = """dbp 1
policy fp
until 6
task a every 2 from 0 prio 2 cost 1
  state n = 0
  next n = n + 1
  out y = 0 then n + 1
task b every 3 from 0 prio 1 cost 2
  read x = a.y
  out z = 0 then x * 10
done
"""

LINES = b"0,a,1,1\n0,b,1,10\n2,a,2,2\n3,b,2,20\n4,a,3,3\n"

# The fronts of a line, without blanks at the end, that are a line themselves.
ALSO_LINES = {"", "  next n = n", "  out y = 0 then n", "  out z = 0 then x", "  out z = 0 then x * 1"}


def refusal(front):
    if not front.strip():
        return 1, "8 MissingHeader"
    cut = front.split("\n")[-1]
    number = front.count("\n") + 1
    if cut.rstrip() in ALSO_LINES or cut in DOCUMENT.split("\n"):
        return number + (cut != ""), "7 MissingDone"
    return number, "8 MissingHeader" if number == 1 else "3 BadLine"


def cases():
    for size in range(len(DOCUMENT) - 1):
        front = DOCUMENT[:size]
        line = "refused: line %d: %s\n" % refusal(front)
        yield "the_first_%d_bytes" % size, ["mean"], front.encode(), 1, line.encode()
    yield "all_but_the_last_line_feed", ["mean"], DOCUMENT[:-1].encode(), 0, LINES
