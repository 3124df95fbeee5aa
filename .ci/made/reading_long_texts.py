"""Texts with a piece that is repeated many times: long lines, many lines and long sections."""

MANY = 100000
START = "dbp 1\npolicy fp\nuntil 1\n"

# The name, the document, and the line and the fault of its refusal.
TEXTS = [
    ("line_of_parentheses", MANY * "(", 1, "8 MissingHeader"),
    ("line_of_signs", MANY * "-", 1, "8 MissingHeader"),
    ("comment", "#" + MANY * "c", 1, "8 MissingHeader"),
    ("name", MANY * "a", 1, "5 NameTooLong"),
    ("line_of_blanks", MANY * " ", 1, "8 MissingHeader"),
    ("blank_lines", MANY * "\n", 1, "8 MissingHeader"),
    ("blank_lines_after_until", START + MANY * "\n", MANY + 4, "7 MissingDone"),
    ("let_of_parentheses", START + "let x = " + MANY * "(", 4, "9 DepthHit"),
    ("let_of_signs", START + "let x = " + MANY * "-", 4, "6 LimitHit nodes"),
    ("rows", START + "trace\n" + MANY * "1\n", MANY + 5, "7 MissingDone"),
    ("step_of_signs", START + "script\n" + MANY * "-", 6, "7 MissingDone"),
]


def cases():
    for name, document, line, fault in TEXTS:
        yield name, ["form"], document.encode(), 1, ("refused: line %d: %s\n" % (line, fault)).encode()
