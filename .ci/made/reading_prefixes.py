"""Every prefix of a document of each version: what is refused if a text breaks off."""

# The lines of a document, each with a mark for each place in it at which the text may break off, from its start to its
# end: `h` if the header is missing, `H` if this line is there in its place, `_` if the line has no bytes, `.` if it is no
# line of a document, `+` if it is blank or a whole line, and `!` if the document is whole.
VERSION_1 = [
    ("dbp 1", "hhhhh+"),
    ("policy fp", "_........+"),
    ("until 6", "_......+"),
    ("task a every 2 from 0 prio 2 cost 1", "_..................................+"),
    ("  state n = 0", "_++..........+"),
    ("  next n = n + 1", "_++.........++..+"),
    ("  out y = 0 then n + 1", "_++...............++..+"),
    ("task b every 3 from 0 prio 1 cost 2", "_..................................+"),
    ("  read x = a.y", "_++...........+"),
    ("  out z = 0 then x * 10", "_++...............++..++"),
    ("done", "_...!"),
]

VERSION_2 = [
    ("# on or off", "hhhhhhhhhhhh"),
    ("dbp 2", "hHHHH+"),
    ("policy edf", "_.........+"),
    ("until 6", "_......+"),
    ("input x = 10", "_..........++"),
    ("event e", "_......+"),
    ("task a on e when x prio 2 deadline 10 cost 1 cpu 3", "_...........................................++....+"),
    ("  out y = 0 then 1", "_++...............+"),
    ("task b every 3 from 1 when ab deadline 20 cost 12 cpu 0", "_...............................................+++....+"),
    ("  read z = pre 2 a.y at 1", "_++.................++...+"),
    ("  out z = 0 then z", "_++...............+"),
    ("trace", "_....+"),
    ("time,x,e", "_++++++++"),
    ("0,-1,1", "_++++++"),
    ("done", "_+++!"),
]


def text_of(document):
    return "".join(line + "\n" for line, _ in document)


def canonical(text):
    """The canonical text of one of the documents."""
    return text.removeprefix("# on or off\n").replace("read x = a.y", "read x = a.y at 0")


def wanted(number, mark, text):
    """The exit status and the output wanted of a text that breaks off in the line with this number."""
    if mark == "!":
        return 0, canonical(text)
    line, fault = {
        "h": (1, "8 MissingHeader"),
        "H": (number, "8 MissingHeader"),
        "_": (number, "7 MissingDone"),
        ".": (number, "3 BadLine"),
        "+": (number + 1, "7 MissingDone"),
    }[mark]
    return 1, "refused: line %d: %s\n" % (line, fault)


def prefixes(version, document):
    before, text = "", text_of(document)
    for number, (line, marks) in enumerate(document, 1):
        assert len(marks) == len(line) + 1
        for length, mark in enumerate(marks):
            status, stdout = wanted(number, mark, text)
            name = "version_%d_line_%d_cut_at_%d" % (version, number, length)
            yield name, ["form"], (before + line[:length]).encode(), status, stdout.encode()
        before += line + "\n"
    yield "version_%d_whole_text" % version, ["form"], text.encode(), 0, canonical(text).encode()


def cases():
    yield from prefixes(1, VERSION_1)
    yield from prefixes(2, VERSION_2)
