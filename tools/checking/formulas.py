"""Warnings of expressions whose value is hardly meant: comparisons of comparisons, and constant divisions."""

from checking.expressions import COMPARISONS
from checking.messages import warning_over
from checking.tokens import Kind, spelled
from checking.trees import tree_of
from program import table_lines

TRUTHS = (*COMPARISONS, "and", "or", "not")
DIVISIONS = ("/", "%")
ASKED = 8 * 32  # expressions that one document can ask: the outs of a task times the tasks
MOST_ASKED = 4 * ASKED


def formula_warnings(run, document):
    """Returns the warnings of a document's expressions; the program is asked for the values of constant parts."""
    trees = [(line, tree_of(line)) for task in document.tasks for line in task.lines("let", "next", "out") if is_asked(line)]
    parts = [(line, part) for line, tree in trees for part in tree.all()]
    values = values_of(run, [it for _, part in parts for it in constants_of(part)])
    found = [warned_of(line, part, values) for line, part in parts for warned_of in WARNINGS]
    return [it for it in found if it]


def is_asked(statement):
    """Whether an expression may have a part that is warned of, by the tokens beside each operator."""
    tokens = statement.tokens
    has_not = any(token.text == "not" for token in tokens)
    for before, token, after in zip(tokens, tokens[1:], tokens[2:]):
        if token.text in DIVISIONS and may_be_constant(before, after):
            return True
        if token.text in COMPARISONS and (has_not or may_be_truth(before, after) or may_be_truth(after, before)):
            return True
    return False


def may_be_constant(before, after):
    """Whether a division between two tokens may be by 0, or of one constant by another."""
    if after.kind is Kind.NUMBER:
        return after.value == 0 or before.kind is not Kind.NAME
    return after.kind is not Kind.NAME


def may_be_truth(side, other):
    """Whether a comparison may have a truth in parentheses on one side, and a number other than 0 and 1 on the other."""
    return side.text in ("(", ")") and (other.text == "-" or other.kind is Kind.NUMBER and other.value not in (0, 1))


def constants_of(part):
    """Returns the constant parts of a division whose values decide whether it is warned of."""
    if len(part.parts) < 2 or not part.head.says(*DIVISIONS) or not part.parts[1].is_constant:
        return ()
    return (part, *part.parts) if part.is_constant else part.parts[1:]


def values_of(run, constants):
    """Returns the values of constant parts by their texts; numbers are their own values, the program tells the others."""
    values = {key_of(it): it.head.value for it in constants if it.head.kind is Kind.NUMBER}
    left = list(dict.fromkeys(key_of(it) for it in constants if key_of(it) not in values))[:MOST_ASKED]
    for first in range(0, len(left), ASKED):
        asked = left[first : first + ASKED]
        values.update(zip(asked, answers(run, asked)))
    return values


def key_of(part):
    """Returns the tokens of a part as a text of its own."""
    return " ".join(token.text for token in part.tokens)


def answers(run, expressions):
    """Returns the values of expressions without names, as the program evaluates them."""
    lines = ["dbp 1", "policy fp", "until 1"]
    for place, expression in enumerate(expressions):
        if place % 8 == 0:
            lines.append(f"task t{place} every 1 prio 0 cost 1")
        lines.append(f"out o{place} = 0 then {expression}")
    table = run(["mean"], "\n".join([*lines, "done", ""]).encode())
    return [int(value) for line in table_lines(table) for value in line.split(",")[3:]]


def divided(line, part, values):
    """Returns the warning of a division by 0, or of a constant one that only truncation makes 0, or nothing."""
    constants = [values.get(key_of(it)) for it in constants_of(part)]
    if not constants:
        return None
    if constants[-1] == 0:
        text = f"`{inner_text(part)}` divides by 0, so it is 0"
        return warning_over(line.line, part.tokens, "DivisionByZero", text)
    if part.head.says("/") and len(constants) == 3 and constants[0] == 0 and constants[1] not in (0, None):
        inner = inner_text(part)
        text = f"`{inner}` is 0, since a division leaves no fraction: `x * {inner}` without parentheses multiplies first"
        return warning_over(line.line, part.tokens, "TruncatedToZero", text)
    return None


def begins_with_not(part):
    """Whether a comparison's left side begins with a `not`."""
    return part.head.says(*COMPARISONS) and part.parts[0].tokens[0].says("not")


def negated(line, part, _):
    """Returns the warning of a `not` that is meant for a comparison and belongs to its first operand, or nothing."""
    if not begins_with_not(part):
        return None
    left, right = part.parts
    text = f"`not` binds tighter, so this is `({left.text}) {part.head.text} {right.text}`: "
    text += f"write `not ({spelled(left.tokens[1:])} {part.head.text} {right.text})` for the contrary"
    return warning_over(line.line, part.tokens, "NotBeforeComparison", text)


def compared(line, part, _):
    """Returns the warning of what is 0 or 1 and is compared with another number, or nothing."""
    if not part.head.says(*COMPARISONS) or begins_with_not(part):
        return None
    for truth, other in (part.parts, part.parts[::-1]):
        number = signed_number(other)
        if truth.head.says(*TRUTHS) and number not in (None, 0, 1):
            text = f"`{inner_text(truth)}` is 0 or 1, and is compared with {number}{about_chain(part, truth)}"
            return warning_over(line.line, part.tokens, "ComparedComparison", text)
    return None


def about_chain(part, truth):
    """Returns how a comparison of a comparison is written that is meant for three operands in a row."""
    if not truth.head.says(*COMPARISONS):
        return ""
    left, right = part.parts
    inner = inner_text(truth)
    if truth is left:
        return f": write `{inner} and {truth.parts[1].text} {part.head.text} {right.text}`"
    return f": write `{left.text} {part.head.text} {truth.parts[0].text} and {inner}`"


def inner_text(part):
    """Returns the text of a part with two operands, without the parentheses around it."""
    if len(part.parts) < 2:
        return part.text
    return f"{part.parts[0].text} {part.head.text} {part.parts[1].text}"


def signed_number(part):
    """Returns the value of a number, with a sign before it or not, or nothing."""
    if part.head.kind is Kind.NUMBER:
        return part.head.value
    is_signed = part.head.says("-") and len(part.parts) == 1 and part.parts[0].head.kind is Kind.NUMBER
    return -part.parts[0].head.value if is_signed else None


WARNINGS = (divided, negated, compared)
