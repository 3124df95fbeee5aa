"""Lines with `when` or `cpu` in documents of version 2: where they may stand, and what is refused of them."""

HEAD = "dbp 2\npolicy fp\nuntil 10\ninput x = 1\nevent e\n"
BODY = HEAD + "task b every 5 cost 1\n  out y = 0 then 1\n"
MOST_TASKS = HEAD + 32 * "task b on e cost 1\n"
PERIODIC = "task a every 5 from 1 prio 2 deadline 3 cost 4"
ON_EVENT = "task a on e cost 4"

BAD_LINE = "3 BadLine"
NUMBER = "6 LimitHit number"

ALL_PARTS = "when x prio 2 deadline 3 cost 4 cpu 7"
LONGEST = 24 * "x"
GREATEST = 1000000000

# The name, what stands after `task a` in a line, and in its canonical text.
READ = [
    ("all_parts", f"every 5 from 1 {ALL_PARTS}", f"every 5 from 1 {ALL_PARTS}"),
    ("no_parts", "every 5 cost 4", "every 5 from 0 cost 4 cpu 0"),
    ("condition_alone", "every 5 when x cost 4", "every 5 from 0 when x cost 4 cpu 0"),
    ("processor_alone", "every 5 cost 4 cpu 3", "every 5 from 0 cost 4 cpu 3"),
    ("condition_after_an_offset", "every 5 from 2 when x cost 4", "every 5 from 2 when x cost 4 cpu 0"),
    ("condition_before_a_priority", "every 5 when x prio 1 cost 4", "every 5 from 0 when x prio 1 cost 4 cpu 0"),
    ("condition_before_deadline", "every 5 when x deadline 1 cost 4", "every 5 from 0 when x deadline 1 cost 4 cpu 0"),
    ("processor_after_a_priority", "every 5 prio 1 cost 4 cpu 1", "every 5 from 0 prio 1 cost 4 cpu 1"),
    ("processor_after_a_deadline", "every 5 deadline 1 cost 4 cpu 1", "every 5 from 0 deadline 1 cost 4 cpu 1"),
    ("task_on_an_event", "on e cost 4", "on e cost 4 cpu 0"),
    ("task_on_an_event_with_all_parts", f"on e {ALL_PARTS}", f"on e {ALL_PARTS}"),
    ("task_on_an_event_with_a_condition", "on e when x cost 4", "on e when x cost 4 cpu 0"),
    ("processor_of_a_task_on_an_event", "on e cost 4 cpu 0", "on e cost 4 cpu 0"),
    ("condition_that_is_an_event", "every 5 when e cost 4", "every 5 from 0 when e cost 4 cpu 0"),
    ("longest_name", f"every 5 when {LONGEST} cost 4", f"every 5 from 0 when {LONGEST} cost 4 cpu 0"),
    ("processor_with_zeros", "every 5 cost 4 cpu 0007", "every 5 from 0 cost 4 cpu 7"),
    ("processor_0_with_a_sign", "every 5 cost 4 cpu -0", "every 5 from 0 cost 4 cpu 0"),
    ("greatest_numbers", f"every {GREATEST} cost {GREATEST} cpu 7", f"every {GREATEST} from 0 cost {GREATEST} cpu 7"),
]

# The name, what stands before the line, the line and its refusal.
REFUSED = [
    ("processor_8", HEAD, "task a every 5 cost 4 cpu 8", NUMBER),
    ("processor_below_0", HEAD, "task a every 5 cost 4 cpu -1", NUMBER),
    ("processor_of_many_digits", HEAD, "task a every 5 cost 4 cpu 99999999999", NUMBER),
    ("processor_2_to_the_32", HEAD, "task a every 5 cost 4 cpu 4294967296", NUMBER),
    ("greatest_number_of_a_processor", HEAD, "task a every 5 cost 4 cpu 9223372036854775807", NUMBER),
    ("processor_8_of_a_task_on_an_event", HEAD, "task a on e when x cost 4 cpu 8", NUMBER),
    ("processor_too_wide", HEAD, "task a every 5 cost 4 cpu 9223372036854775808", "4 NumberTooWide"),
    ("processor_with_a_sign_apart", HEAD, "task a every 5 cost 4 cpu - 1", BAD_LINE),
    ("processor_without_a_number", HEAD, "task a every 5 cost 4 cpu", BAD_LINE),
    ("processor_by_a_name", HEAD, "task a every 5 cost 4 cpu x", BAD_LINE),
    ("processor_twice", HEAD, "task a every 5 cost 4 cpu 1 cpu 1", BAD_LINE),
    ("processor_before_the_cost", HEAD, "task a every 5 cpu 1 cost 4", BAD_LINE),
    ("processor_without_a_cost", HEAD, "task a every 5 cpu 1", BAD_LINE),
    ("cost_after_the_processor_again", HEAD, "task a every 5 cost 4 cpu 1 cost 4", BAD_LINE),
    ("condition_after_a_priority", HEAD, "task a every 5 prio 1 when x cost 4", BAD_LINE),
    ("condition_after_a_deadline", HEAD, "task a every 5 deadline 1 when x cost 4", BAD_LINE),
    ("condition_after_the_cost", HEAD, "task a every 5 cost 4 when x", BAD_LINE),
    ("condition_after_the_processor", HEAD, "task a every 5 cost 4 cpu 1 when x", BAD_LINE),
    ("condition_before_the_offset", HEAD, "task a every 5 when x from 1 cost 4", BAD_LINE),
    ("condition_before_the_clock", HEAD, "task a when x every 5 cost 4", BAD_LINE),
    ("condition_in_place_of_a_clock", HEAD, "task a when x cost 4", BAD_LINE),
    ("condition_twice", HEAD, "task a every 5 when x when x cost 4", BAD_LINE),
    ("condition_without_a_name", HEAD, "task a every 5 when cost 4", BAD_LINE),
    ("condition_without_a_name_at_the_end", HEAD, "task a every 5 when", BAD_LINE),
    ("condition_of_two_names", HEAD, "task a every 5 when x y cost 4", BAD_LINE),
    ("condition_of_a_number", HEAD, "task a every 5 when 1 cost 4", BAD_LINE),
    ("condition_of_a_word", HEAD, "task a every 5 when cpu cost 4", BAD_LINE),
    ("condition_of_an_expression", HEAD, "task a every 5 when x > 3 cost 4", BAD_LINE),
    ("condition_that_is_negated", HEAD, "task a every 5 when not x cost 4", BAD_LINE),
    ("condition_in_parentheses", HEAD, "task a every 5 when (x) cost 4", BAD_LINE),
    ("condition_without_a_cost", HEAD, "task a every 5 when x", BAD_LINE),
    ("condition_of_25_letters", HEAD, "task a every 5 when " + LONGEST + "x cost 4", "5 NameTooLong"),
    ("offset_of_a_task_on_an_event", HEAD, "task a on e from 1 when x cost 4", BAD_LINE),
    ("name_at_the_end", HEAD, "task a every 5 cost 4 cpu 1 x", BAD_LINE),
    ("number_at_the_end", HEAD, "task a every 5 cost 4 cpu 1 1", BAD_LINE),
    # The text of the line comes before its form, its form and its place before its numbers, and these before counts.
    ("bad_token_at_the_end", HEAD, "task a every 5 when x cost 4 cpu 8 $", "2 BadToken"),
    ("bad_byte_at_the_end", HEAD, "task a every 5 when x cost 4 cpu 8 \u00e9", "1 BadByte"),
    ("too_many_parentheses_at_the_end", HEAD, "task a every 5 when x cost 4 cpu 8 " + 65 * "(", "9 DepthHit"),
    ("processor_8_of_no_task_line", HEAD, "task a every 5 when cost 4 cpu 8", BAD_LINE),
    ("processor_8_and_a_period_of_0", HEAD, "task a every 0 when x cost 4 cpu 8", NUMBER),
    ("period_of_0_with_a_condition", HEAD, "task a every 0 when x cost 4 cpu 1", NUMBER),
    ("cost_of_0_before_a_processor", HEAD, "task a every 5 when x cost 0 cpu 1", NUMBER),
    ("processor_8_of_a_task_too_many", MOST_TASKS, "task a every 5 cost 4 cpu 8", NUMBER),
    ("processor_of_a_task_too_many", MOST_TASKS, "task a every 5 cost 4 cpu 7", "6 LimitHit tasks"),
    ("processor_8_in_place_of_until", "dbp 2\npolicy fp\n", "task a every 5 cost 4 cpu 8", BAD_LINE),
    ("processor_8_before_the_header", "", "task a every 5 cost 4 cpu 8", "8 MissingHeader"),
    ("processor_8_after_the_end", HEAD + "done\n", "task a every 5 cost 4 cpu 8", BAD_LINE),
    ("task_after_the_end", HEAD + "done\n", "task a every 5 when x cost 4 cpu 1", BAD_LINE),
    # Both words stay reserved, and begin no line.
    ("processor_as_a_line", HEAD, "cpu 0", BAD_LINE),
    ("condition_in_a_body", BODY, "when x", BAD_LINE),
    ("processor_as_the_name_of_a_task", HEAD, "task cpu every 5 cost 4", BAD_LINE),
    ("condition_as_the_name_of_an_input", HEAD, "input when = 1", BAD_LINE),
    ("processor_in_an_expression", BODY, "let z = cpu + 1", BAD_LINE),
    ("condition_of_a_read", BODY, "read z = a.y when x", BAD_LINE),
    ("condition_of_an_input", HEAD, "input y = 1 when x", BAD_LINE),
]

# The name and the tokens of a part, and what is said of it at its own place: a canonical text or a refusal. Everywhere
# else it makes no line of a document.
PARTS = [
    ("condition", "when x", None),
    ("condition_that_is_no_input", "when e", None),
    ("condition_of_a_number", "when 1", BAD_LINE),
    ("condition_without_a_name", "when", BAD_LINE),
    ("processor_0", "cpu 0", None),
    ("processor_7", "cpu 7", None),
    ("processor_9", "cpu 9", NUMBER),
    ("processor_below_0", "cpu -1", NUMBER),
    ("processor_with_a_sign_apart", "cpu - 1", BAD_LINE),
    ("processor_without_a_number", "cpu", BAD_LINE),
]

# The name of a line, its words, and how many of them stand before a condition; a processor stands at the end.
LINES = [("periodic", PERIODIC.split(), 6), ("on_event", ON_EVENT.split(), 4)]


def placed():
    """Yields the parts in each place of both lines: a name, the line, and its canonical text or its refusal."""
    for kind, words, place_of_condition in LINES:
        for name, part, refusal in PARTS:
            own_place, ending = (place_of_condition, " cpu 0") if part.startswith("when") else (len(words), "")
            for place in range(len(words) + 1):
                line = " ".join([*words[:place], part, *words[place:]])
                said = (refusal or line + ending) if place == own_place else BAD_LINE
                yield f"{name}_after_{place}_words_{kind}", line, said


def read(name, line, said):
    return name, ["form"], f"{HEAD}{line}\ndone\n".encode(), 0, f"{HEAD}{said}\ndone\n".encode()


def refused(name, before, line, refusal):
    wanted = f"refused: line {before.count(chr(10)) + 1}: {refusal}\n"
    return name, ["form"], f"{before}{line}\ndone\n".encode(), 1, wanted.encode()


def cases():
    for name, words, said in READ:
        yield read(name, f"task a {words}", f"task a {said}")
    for name, before, line, refusal in REFUSED:
        yield refused(name, before, line, refusal)
    for name, line, said in placed():
        yield read(name, line, said) if said.startswith("task ") else refused(name, HEAD, line, said)
