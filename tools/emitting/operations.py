"""Blocks as tables of operations, which compile in less time than as many calls: their rows, and what makes them."""

from checking.tokens import Kind
from emitting.blocks import OPERATORS, called_by

PREFIX = "dbp_"
INDENT, WIDTH = 8 * " ", 120
ONE_OPERAND = ("dbp_neg", "dbp_not")
CHOICE = OPERATORS["if"]
CALLS = ("dbp_sub", "dbp_neg", *(it for it in OPERATORS.values() if it != CHOICE))

# Names of C that each diagram has besides, if it has tables.
WORDS = tuple(call[len(PREFIX) :].upper() for call in CALLS)
OWN = ("operation", "operand", "operate", "COPY", "THEN", "ELSE", *WORDS)
LOCALS = ("values", "value_count", "numbers", "operations")

OPERATE = """
/* The tables of operations. {NAME_ADD, x, a, b} gives x the sum of a and b; NAME_COPY, NAME_NEG and NAME_NOT use a alone.
 * {NAME_THEN, x, c, a} and {NAME_ELSE, x, c, b} give x what `if c then a else b` is. An operand is a value, or a number,
 * whose place is after those of the values. */
enum {
    KINDS
};

typedef struct {
    uint16_t kind;
    uint16_t into;
    uint16_t a;
    uint16_t b;
} NAME_operation;

static int64_t NAME_operand(const int64_t *values, uint32_t value_count, const int64_t *numbers, uint32_t place)
{
    return place < value_count ? values[place] : numbers[place - value_count];
}

static void NAME_operate(const NAME_operation *row, size_t count, int64_t *values, uint32_t value_count,
                         const int64_t *numbers)
{
    for (const NAME_operation *end = row + count; row != end; row++) {
        const int64_t a = NAME_operand(values, value_count, numbers, row->a);
        const int64_t b = NAME_operand(values, value_count, numbers, row->b);
        int64_t *into = &values[row->into];
        switch (row->kind) {
        case NAME_COPY:
            *into = a;
            break;
        case NAME_THEN:
            if (a != 0) {
                *into = b;
            }
            break;
        case NAME_ELSE:
            if (a == 0) {
                *into = b;
            }
            break;
CASES
        default:
            break;
        }
    }
}"""


def word_of(call):
    """Returns the kind of the rows that make a call of an operator."""
    return call[len(PREFIX) :].upper()


def case_of(call):
    """Returns the lines by which rows of a kind call their operator."""
    operands = "a" if call in ONE_OPERAND else "a, b"
    return f"        case NAME_{word_of(call)}:\n            *into = {call}({operands});\n            break;"


def operate(plan):
    """Returns the lines of what makes the rows of tables."""
    kinds = [f"NAME_{it}" for it in ("COPY", "THEN", "ELSE", *WORDS)]
    text = OPERATE.replace("KINDS", ",\n    ".join(kinds)).replace("CASES", "\n".join(map(case_of, CALLS)))
    return text.replace("NAME_", plan.of("")).split("\n")


class Table:
    """The rows of a block, by the places of its values and numbers: `names` gives those that the document hasn't named."""

    def __init__(self, names, places):
        self.names, self.places = names, dict(places)
        self.numbers, self.inner = {}, []
        self.rows = []

    def leaf(self, head):
        """Returns the place of a name or a number."""
        if head.kind is Kind.NAME:
            return self.places[head.text]
        if head.value not in self.numbers:
            sign = "minus_" if head.value < 0 else ""
            self.numbers[head.value] = self.names.give(f"number_{sign}{abs(head.value)}")
        return self.numbers[head.value]

    def inner_place(self, depth):
        """Returns the place of a part's value, of which there are so many at a time."""
        while len(self.inner) <= depth:
            self.inner.append(self.names.give(f"part_{len(self.inner)}"))
        return self.inner[depth]

    def add(self, kind, *places):
        """Adds a row."""
        self.rows.append((kind, *places))

    def compute(self, tree, into):
        """Adds the rows that give a place the value of an expression. Its parts are computed from left to right."""
        left = [(tree, into, 0, False)]
        while left:
            part, place, depth, is_ready = left.pop()
            parts = [*self.parts_of(part, place, depth)]
            if is_ready or not part.parts:
                self.add_rows(part, place, [at for _, at, _ in parts])
            else:
                left.append((part, place, depth, True))
                left += [(it, at, after, False) for it, at, after in reversed(parts) if it.parts]

    def parts_of(self, part, place, depth):
        """Yields each part of a part that is computed in a place, the place of its value, and the depth of its own parts.

        The inner places from the depth on are free. The first operand of an operator gets the place of the whole, as
        nothing else uses that until then; a choice has all three in places of their own."""
        is_choice = part.head.says("if")
        for number, it in enumerate(part.parts):
            inner = depth + number - (not is_choice)
            if not it.parts:
                yield it, self.leaf(it.head), inner
            elif number == 0 and not is_choice:
                yield it, place, depth
            else:
                yield it, self.inner_place(inner), inner + 1

    def add_rows(self, part, place, places):
        """Adds the rows of a part whose parts have their values."""
        if not part.parts:
            self.add("COPY", place, *2 * [self.leaf(part.head)])
        elif part.head.says("if"):
            condition, yes, no = places
            self.add("THEN", place, condition, yes)
            self.add("ELSE", place, condition, no)
        else:
            self.add(word_of(called_by(part)), place, *(2 * places)[:2])


def filled(items):
    """Yields the lines of items, as many on a line as it has room for."""
    line = INDENT
    for item in items:
        if line != INDENT and len(line) + 1 + len(item) > WIDTH:
            yield line
            line = INDENT
        line += item if line == INDENT else f" {item}"
    yield line


def row_text(plan, kind, places):
    """Returns a row as C."""
    return f"{{{plan.of(kind)}, {', '.join(places)}}},"


def table_of(plan, names, places, parts):
    """Returns the table of parts of a block, each its comment, its expression and the place of its value; and the lines of
    its rows, with each comment above those that it belongs to."""
    table, lines = Table(names, places), []
    for comment, tree, place in parts:
        start = len(table.rows)
        table.compute(tree, place)
        lines += [INDENT + comment, *filled(row_text(plan, kind, at) for kind, *at in table.rows[start:])]
    return table, lines
