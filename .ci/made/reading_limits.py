"""Documents at the limits of reading, and one past them."""

HEAD = "dbp 1\npolicy fp\nuntil 10\n"
INPUT = "input x = 1\n"
EVENT = "event e\n"
TASK = "task a every 5 cost 1\n"
TASK_SAID = "task a every 5 from 0 cost 1\n"
BODY = HEAD + TASK
SENSE = "sense x = y\n"
READ = "read x = b.y\n"
OUT = "out y = 0 then 1\n"
LET = "let x = 1\n"
EIGHT_TASKS = HEAD + 8 * (TASK + 16 * READ)

NODES = "6 LimitHit nodes"
NUMBER = "6 LimitHit number"
DEPTH = "9 DepthHit"
BAD_LINE = "3 BadLine"
MISSING_HEADER = "8 MissingHeader"

CALL = "min (1, if 0 then 1 else 2)"
CALL_SAID = "min(1, if 0 then 1 else 2)"


def canonical(document):
    """The canonical text of a document of the lines above."""
    for line in (SENSE, READ, OUT, LET):
        document = document.replace(line, "  " + line)
    return document.replace("b.y\n", "b.y at 0\n").replace(TASK, TASK_SAID) + "done\n"


def added(first, times):
    """The canonical text of `first + 1 + 1 ..`."""
    text = first
    for place in range(times):
        text = ("(%s) + 1" if place > 0 else "%s + 1") % text
    return text


def negated(times):
    """The canonical text of `- - .. 1`."""
    text = "1"
    for place in range(times):
        text = ("- (%s)" if place > 0 else "- %s") % text
    return text


# The name, the document before `done`.
COUNTS_AT_THE_LIMIT = [
    ("inputs_and_events", HEAD + 16 * INPUT + 16 * EVENT),
    ("tasks", HEAD + 32 * TASK),
    ("body_lines_of_two_tasks", BODY + 64 * SENSE + TASK + 64 * SENSE),
    ("lets", BODY + 64 * LET),
    ("reads_of_two_tasks", BODY + 16 * READ + TASK + 16 * READ),
    ("outs_of_two_tasks", BODY + 8 * OUT + TASK + 8 * OUT),
    ("reads_of_the_document", EIGHT_TASKS),
    ("task_after_the_last_read", EIGHT_TASKS + TASK),
    ("sense_after_the_last_read", EIGHT_TASKS + SENSE),
]

# The name, the document, and the line and the limit of its refusal.
COUNTS_PAST_THE_LIMIT = [
    ("input_too_many", HEAD + 17 * INPUT, 20, "inputs"),
    ("input_too_many_after_events", HEAD + 16 * EVENT + 17 * INPUT, 36, "inputs"),
    ("event_too_many", HEAD + 17 * EVENT, 20, "events"),
    ("task_too_many", HEAD + 33 * TASK, 36, "tasks"),
    ("body_line_too_many", BODY + 65 * SENSE, 69, "body"),
    ("let_too_many", BODY + 65 * LET, 69, "body"),
    ("read_too_many", BODY + 17 * READ, 21, "reads"),
    ("out_too_many", BODY + 9 * OUT, 13, "outs"),
    ("read_and_body_line_too_many", BODY + 16 * READ + 48 * SENSE + READ, 69, "body"),
    ("out_and_body_line_too_many", BODY + 8 * OUT + 56 * SENSE + OUT, 69, "body"),
    ("read_of_the_task_and_of_the_document_too_many", EIGHT_TASKS + READ, 140, "reads"),
    ("read_of_the_document_too_many", EIGHT_TASKS + TASK + READ, 141, "links"),
    ("read_of_the_document_and_body_line_too_many", EIGHT_TASKS + TASK + 64 * SENSE + READ, 205, "body"),
    # A number past its limits comes before a count.
    ("task_too_many_of_cost_zero", HEAD + 32 * TASK + "task a on e cost 0", 36, "number"),
    ("read_too_many_with_too_long_a_delay", BODY + 16 * READ + "read x = pre 9 b.y", 21, "number"),
    ("read_too_many_at_a_negative_time", BODY + 16 * READ + "read x = b.y at -1", 21, "number"),
    ("read_of_the_document_too_many_at_a_negative_time", EIGHT_TASKS + TASK + "read x = b.y at -1", 141, "number"),
]

# The name, a line of a body, and its canonical text.
EXPRESSIONS_AT_THE_LIMIT = [
    ("nodes_of_a_let", "let x = -y" + 31 * " + 1", "let x = " + added("(- y)", 31)),
    ("nodes_of_a_next", "next x = -y" + 31 * " + 1", "next x = " + added("(- y)", 31)),
    ("nodes_of_an_out", "out x = 1 then -y" + 31 * " + 1", "out x = 1 then " + added("(- y)", 31)),
    ("nodes_with_not_last", "out y = 0 then " + 31 * "1 + " + "not 1", "out y = 0 then (%s) + (not 1)" % added("1", 30)),
    ("nodes_of_signs", "out y = 0 then " + 63 * "- " + "1", "out y = 0 then " + negated(63)),
    ("nodes_of_a_call", "let x = " + CALL + 29 * " + 1", "let x = " + added(CALL_SAID, 29)),
    ("parentheses_of_a_let", "let x = " + 64 * "(" + "1" + 64 * ")", "let x = 1"),
    ("parentheses_of_an_out", "out y = 0 then " + 64 * "(" + "1" + 64 * ")", "out y = 0 then 1"),
    ("parentheses_round_a_call", "let x = " + 63 * "(" + CALL + 63 * ")", "let x = " + CALL_SAID),
]

# The name, what stands before the line, the line and its refusal. At a limit a line that can't be read is a `BadLine`.
LINES = [
    ("nodes_of_a_let_past_the_limit", BODY, "let x = y" + 32 * " + 1", NODES),
    ("nodes_of_a_next_past_the_limit", BODY, "next x = y" + 32 * " + 1", NODES),
    ("nodes_of_an_out_past_the_limit", BODY, "out x = 1 then y" + 32 * " + 1", NODES),
    ("nodes_with_not_last_past_the_limit", BODY, "out y = 0 then " + 32 * "1 + " + "not 1\ndone", NODES),
    ("nodes_of_signs_past_the_limit", BODY, "out y = 0 then " + 64 * "- " + "1\ndone", NODES),
    ("nodes_of_a_call_past_the_limit", BODY, "let x = " + CALL + 28 * " + 1" + " + -y", NODES),
    ("nodes_with_a_negative_number_past_the_limit", BODY, "let x = " + 32 * "1+" + " -1", NODES),
    # Nodes after the first `=` or `then` are counted, and no others.
    ("nodes_after_the_first_equals", BODY, "let =" + 32 * " = 1", BAD_LINE),
    ("nodes_after_the_first_equals_past_the_limit", BODY, "let =" + 33 * " = 1", NODES),
    ("tokens_without_nodes", BODY, "let x = 1" + 70 * " then else , ( )", BAD_LINE),
    ("parentheses_without_nodes", BODY, "let x = ) ) ( ( ) (" + 64 * " y", BAD_LINE),
    ("parentheses_without_nodes_past_the_limit", BODY, "let x = ) ) ( ( ) (" + 65 * " y", NODES),
    ("parenthesis_after_a_number", BODY, "let x = 1 )" + 63 * " y", BAD_LINE),
    ("parenthesis_after_a_number_past_the_limit", BODY, "let x = 1 )" + 64 * " y", NODES),
    ("names_in_a_let_without_equals", BODY, "let x" + 70 * " y", BAD_LINE),
    ("names_in_an_out_without_then", BODY, "out x = 1" + 70 * " y", BAD_LINE),
    ("names_in_a_state", BODY, "state x = 1" + 70 * " y", BAD_LINE),
    # A missing header comes before nodes, and nodes come before the question whether the line may stand there.
    ("nodes_before_the_tasks", HEAD, "let x =" + 64 * " y", BAD_LINE),
    ("nodes_before_the_tasks_past_the_limit", HEAD, "let x =" + 65 * " y", NODES),
    ("nodes_after_the_end", HEAD + "done\n", "let x =" + 64 * " y", BAD_LINE),
    ("nodes_after_the_end_past_the_limit", HEAD + "done\n", "let x =" + 65 * " y", NODES),
    ("operators_after_the_end_past_the_limit", HEAD + "done\n", "let = " + 33 * "1 + " + "1", NODES),
    ("nodes_for_the_policy_past_the_limit", "dbp 1\n", "let x = " + 33 * "1 + " + "1", NODES),
    ("nodes_after_two_equals_for_the_policy", "dbp 1\n", "let x == " + 33 * "1 + " + "1", BAD_LINE),
    ("nodes_for_the_header", "", "let x =" + 64 * " y", MISSING_HEADER),
    ("nodes_for_the_header_past_the_limit", "", "let x =" + 65 * " 1", MISSING_HEADER),
    ("operators_for_the_header_past_the_limit", "", "let x = " + 33 * "1 + " + "1", MISSING_HEADER),
    ("parentheses_for_the_header_past_the_limit", "", 65 * "(", MISSING_HEADER),
    ("nodes_and_parentheses_past_their_limits", HEAD, "let =" + 65 * "(" + 65 * " 1", NODES),
    ("parentheses_of_no_line_past_the_limit", HEAD, "x " + 65 * "(", DEPTH),
    # A parenthesis that closes counts for nothing if none is open.
    ("parentheses_of_a_let_past_the_limit", BODY, "let x = " + 65 * "(" + "1" + 65 * ")", DEPTH),
    ("parentheses_round_a_call_past_the_limit", BODY, "let x = " + 64 * "(" + CALL + 64 * ")", DEPTH),
    ("parentheses_of_an_out_past_the_limit", BODY, "out y = 0 then " + 65 * "(", DEPTH),
    ("parentheses_of_an_out_after_one_that_closes", BODY, "out y = 0 then ) " + 65 * "(", DEPTH),
    ("parentheses_left_open", BODY, "let x = " + 64 * "(" + "1", BAD_LINE),
    ("parentheses_alone", BODY, 64 * "(", BAD_LINE),
    ("parentheses_alone_past_the_limit", BODY, 65 * "(", DEPTH),
    ("parentheses_after_pairs", BODY, 4 * "()" + 64 * "(" + ")()()(", BAD_LINE),
    ("parentheses_closed_and_opened_past_the_limit", BODY, 64 * "(" + ")((", DEPTH),
    ("parentheses_after_two_of_three", BODY, ") ) ( ( ) (" + 62 * "(", BAD_LINE),
    ("parentheses_after_two_of_three_past_the_limit", BODY, ") ) ( ( ) (" + 63 * "(", DEPTH),
    ("parentheses_after_a_number_and_one_that_closes", BODY, "1 )" + 64 * "(", BAD_LINE),
    ("parentheses_after_a_number_and_one_that_closes_past_the_limit", BODY, "1 )" + 65 * "(", DEPTH),
    ("parentheses_after_eight_that_close", BODY, 8 * ")" + 64 * "(", BAD_LINE),
    ("parentheses_after_many_that_close", HEAD, 100 * ")" + 64 * "(", BAD_LINE),
    ("parentheses_after_many_that_close_past_the_limit", HEAD, 100 * ")" + 65 * "(", DEPTH),
    ("parentheses_after_the_end", BODY + "done\n", 64 * "(", BAD_LINE),
    ("parentheses_after_the_end_past_the_limit", BODY + "done\n", 65 * "(", DEPTH),
]


def read(name, document, said):
    return name, ["form"], document.encode(), 0, said.encode()


def refused(name, document, line, fault):
    return name, ["form"], document.encode(), 1, ("refused: line %d: %s\n" % (line, fault)).encode()


def cases():
    for name, document in COUNTS_AT_THE_LIMIT:
        yield read(name, document + "done", canonical(document))
    for name, document, line, limit in COUNTS_PAST_THE_LIMIT:
        yield refused(name, document, line, "6 LimitHit " + limit)
    for name, line, said in EXPRESSIONS_AT_THE_LIMIT:
        yield read(name, BODY + line + "\ndone", HEAD + TASK_SAID + "  " + said + "\ndone\n")
    for name, before, line, fault in LINES:
        yield refused(name, before + line, before.count("\n") + 1, fault)
