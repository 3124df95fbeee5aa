"""Lines with `when` or `cpu`: documents of version 1 have none, wherever the words stand."""

HEAD = "dbp 1\npolicy fp\nuntil 10\ninput x = 1\nevent e\n"
BODY = HEAD + "task b every 5 cost 1\n  out y = 0 then 1\n"
PERIODIC = "task a every 5 from 1 prio 2 deadline 3 cost 4"
ON_EVENT = "task a on e cost 4"

BAD_LINE = "3 BadLine"

# The name and the tokens that documents of version 1 don't have.
PARTS = [
    ("when_an_input", "when x"),
    ("when_an_event", "when e"),
    ("when_a_number", "when 1"),
    ("when_alone", "when"),
    ("cpu_0", "cpu 0"),
    ("cpu_7", "cpu 7"),
    ("cpu_9", "cpu 9"),
    ("cpu_below_0", "cpu -1"),
    ("cpu_with_a_sign_apart", "cpu - 1"),
    ("cpu_alone", "cpu"),
]

# The name, what stands before the line, the line and its refusal.
LINES = [
    ("when_and_cpu", HEAD, "task a every 5 when x cost 4 cpu 0", BAD_LINE),
    ("when_and_cpu_past_the_limit", HEAD, "task a every 5 from 1 when x prio 2 deadline 3 cost 4 cpu 8", BAD_LINE),
    ("when_and_cpu_of_a_task_on_an_event", HEAD, "task a on e when x cost 4 cpu 1", BAD_LINE),
    ("cpu_and_a_cost_of_zero", HEAD, "task a every 5 cost 0 cpu 1", BAD_LINE),
    ("when_and_a_period_of_zero", HEAD, "task a every 0 when x cost 4", BAD_LINE),
    ("cpu_twice", HEAD, "task a every 5 cost 4 cpu 0 cpu 0", BAD_LINE),
    ("when_twice", HEAD, "task a every 5 when x when x cost 4", BAD_LINE),
    ("when_of_a_task_after_another", BODY, "task a every 5 when x cost 4", BAD_LINE),
    ("cpu_of_a_task_after_another", BODY, "task a every 5 cost 4 cpu 0", BAD_LINE),
    ("cpu_of_a_task_too_many", HEAD + 32 * "task b on e cost 1\n", "task a every 5 cost 4 cpu 0", BAD_LINE),
    ("cpu_as_a_line", HEAD, "cpu 0", BAD_LINE),
    ("when_in_a_body", BODY, "when x", BAD_LINE),
    ("cpu_as_the_name_of_a_task", HEAD, "task cpu every 5 cost 4", BAD_LINE),
    ("cpu_in_an_expression", BODY, "let z = cpu + 1", BAD_LINE),
    ("cpu_after_the_end", BODY + "done\n", "task a every 5 cost 4 cpu 0", BAD_LINE),
    # The text of the line, the header and open parentheses come before the form.
    ("cpu_with_too_wide_a_number", HEAD, "task a every 5 cost 4 cpu 9223372036854775808", "4 NumberTooWide"),
    ("when_a_name_that_is_too_long", HEAD, "task a every 5 when " + 25 * "x" + " cost 4", "5 NameTooLong"),
    ("cpu_and_a_bad_token", HEAD, "task a every 5 cost 4 cpu 0x", "2 BadToken"),
    ("cpu_and_a_bad_byte", HEAD, "task a every 5 cost 4 cpu \u00e9", "1 BadByte"),
    ("cpu_and_too_many_parentheses", HEAD, "task a every 5 cost 4 cpu 0" + 65 * "(", "9 DepthHit"),
    ("when_before_the_header", "", "task a every 5 when x cost 4", "8 MissingHeader"),
    ("cpu_before_the_header", "# no header\n\n", "task a every 5 cost 4 cpu 0", "8 MissingHeader"),
    ("cpu_before_the_header_and_too_many_parentheses", "", "task a every 5 cost 4 cpu 0" + 65 * "(", "8 MissingHeader"),
    # A second header doesn't change the version.
    ("version_2_after_the_header", "dbp 1\n", "dbp 2", BAD_LINE),
]


def placed():
    """Yields each of the parts in each place of two lines."""
    for kind, line in (("periodic", PERIODIC), ("on_event", ON_EVENT)):
        words = line.split()
        for name, part in PARTS:
            for place in range(len(words) + 1):
                text = " ".join([*words[:place], part, *words[place:]])
                yield f"{name}_after_{place}_words_{kind}", HEAD, text, BAD_LINE


def cases():
    for name, before, line, refusal in [*LINES, *placed()]:
        wanted = f"refused: line {before.count(chr(10)) + 1}: {refusal}\n"
        yield name, ["form"], f"{before}{line}\ndone\n".encode(), 1, wanted.encode()
