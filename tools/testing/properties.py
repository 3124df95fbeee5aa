"""Properties of outs: FILE.props, a line each, and the ranges of drawn traces.

  always NAME: E          E holds after each time at which tasks occur
  never NAME: E           E holds after none
  within N of E: F        when E holds, F holds then or at most N ticks later
  E until F               E holds until F does, from the first time on
  input NAME = X..Y [every A..B]
  event NAME every A..B

E and F are expressions of the language. An out is `TASK.OUT`, and `pre [K] TASK.OUT` is its value after the time before,
or K times before. A `#` begins a comment.
"""

from typing import NamedTuple, Optional, Tuple

from checking.cursor import Cursor, LeavesForm
from checking.expressions import expression, whole
from checking.foreign import about_word
from checking.language import MOST_NODES, MOST_ROWS, SPANS, VERSIONS, Span
from checking.line_faults import WITHOUT_NODE, byte_fault, depth_fault, token_fault
from checking.text import lines_of, what_there_is
from checking.tokens import Kind, Token, code_of, spelled, tokens_of
from checking.trees import Part, Tree
from testing.beside import fault, fault_over, port_faults, without_code

FORMS = {
    "always": "always NAME: E",
    "never": "never NAME: E",
    "within": "within N of E: F",
    "until": "E until F",
    "input": "input NAME = X..Y [every A..B]",
    "event": "event NAME every A..B",
}
MOST_TOKENS = 4 * MOST_NODES  # of a line that is read


class Port(Token):
    """A name of an out in a property, with its delay: all its tokens as one."""

    def __new__(cls, tokens, delay):
        """Returns the one that is spelled by these tokens."""
        port = super().__new__(cls, Kind.NAME, spelled(tokens), tokens[0].column)
        port.tokens, port.delay = tokens, delay
        return port

    @property
    def port(self):
        """The task and the out that it names."""
        return self.tokens[-3].text, self.tokens[-1].text


class Formula(NamedTuple):
    """An expression of a property: its tree, and the outs that it names."""

    tree: Part
    ports: Tuple[Port, ...]

    @property
    def text(self):
        return self.tree.text


class Property(NamedTuple):
    """A property: its line, its word (`until` for `E until F`), its name if it has one, its number and its expressions."""

    line: int
    column: int
    width: int
    word: str
    name: Optional[str]
    number: int
    formulas: Tuple[Formula, ...]
    text: str

    @property
    def title(self):
        """How it is called: by its name, or else as it stands there."""
        return self.name or self.text


class Range(NamedTuple):
    """What a drawn trace has of an input or an event: the values of an input, and the distances of samples or events."""

    line: int
    name: str
    values: Optional[Span]
    every: Optional[Span]


class Properties(NamedTuple):
    """What the lines say, and their faults."""

    properties: Tuple[Property, ...]
    ranges: Tuple[Range, ...]
    faults: Tuple


def tokens_of_line(text):
    """Returns the tokens of a line, a `:` among them."""
    tokens, at = [], 0
    for number, part in enumerate(code_of(text).encode("latin-1").split(b":")):
        if number:
            tokens.append(Token(Kind.SYMBOL, ":", at))
        tokens += tokens_of(b" " * at + part)
        at += len(part) + 1
    return tokens


def with_ports(tokens):
    """Returns tokens in which each name of an out is one, with the `pre` and the number before it."""
    found, at = [], 0
    while at < len(tokens):
        delay, start = 0, at
        if tokens[at].says("pre"):
            is_counted = at + 1 < len(tokens) and tokens[at + 1].kind is Kind.NUMBER
            delay, start = (tokens[at + 1].value, at + 2) if is_counted else (1, at + 1)
        own = tokens[start : start + 3]
        if [it.kind for it in own] == [Kind.NAME, Kind.SYMBOL, Kind.NAME] and own[1].says("."):
            taken = tuple(tokens[at : start + 3])
            found.append(Port(taken, delay))
            at = start + 3
        else:
            found.append(tokens[at])
            at += 1
    return found


def read_properties(text, declared):
    """Returns the properties of a text; its names are those that a document declares."""
    return Reader(declared).read(text)


class Wrong(Exception):
    """A line has a fault: its message."""

    def __init__(self, message):
        super().__init__(message.text)
        self.message = message


class Reader:
    """Reads lines, and keeps their faults."""

    def __init__(self, declared):
        self.declared = declared
        self.properties, self.ranges, self.faults = [], [], []
        self.names = set()

    def read(self, text):
        """Reads all lines."""
        for line in lines_of(text):
            try:
                tokens = self.checked_tokens(line)
                if tokens:
                    self.read_line(line.number, tokens)
            except Wrong as wrong:
                self.faults.append(wrong.message)
            except LeavesForm as leaves:
                self.faults.append(fault(line.number, leaves.column, "BadLine", leaves.text, leaves.width))
        return Properties(tuple(self.properties), tuple(self.ranges), tuple(self.faults))

    def checked_tokens(self, line):
        """Returns the tokens of a line, if each is one of the language and there are few enough."""
        wrong = byte_fault(line)
        tokens = [] if wrong else tokens_of_line(line.text)
        wrong = wrong or token_fault(line, tokens) or depth_fault(line, tokens)
        if wrong:
            raise Wrong(without_code(wrong))
        if len(tokens) > MOST_TOKENS:
            text = f"a line has {MOST_TOKENS} tokens at most"
            raise Wrong(fault_over(line.number, tokens[MOST_TOKENS:], "LimitHit", text))
        return with_ports(tokens)

    def read_line(self, number, tokens):
        """Reads a line by its first word."""
        head = tokens[0].text
        cursor = Cursor(tokens, FORMS.get(head, FORMS["until"]), VERSIONS[-1])
        takers = {"input": self.take_range, "event": self.take_range, "within": self.take_within}
        takers.update(dict.fromkeys(("always", "never"), self.take_named))
        takers.get(head, self.take_until)(number, cursor)

    def take_named(self, number, cursor):
        """Takes `always NAME: E` or `never NAME: E`."""
        cursor.at = 1
        name = cursor.name("a name")
        if isinstance(name, Port):
            cursor.at -= 1
            cursor.leave("a name", "a property has a name, as `always limits: E`")
        cursor.word(":")
        formula = self.take_formula(number, cursor, None)
        if name.text in self.names:
            raise Wrong(fault_over(number, [name], "Duplicate", f"a property has the name `{name.text}` already"))
        self.names.add(name.text)
        self.add(number, cursor, cursor.tokens[0].text, name.text, 0, formula)

    def take_within(self, number, cursor):
        """Takes `within N of E: F`."""
        cursor.at = 1
        ticks = cursor.number("a number of ticks")
        if not SPANS["until"].has(ticks.value):
            text = f"it is from 0 to {SPANS['until'].greatest:,} ticks"
            raise Wrong(fault_over(number, [ticks], "LimitHit", text))
        if cursor.here is None or cursor.here.text != "of":
            cursor.leave("`of`")
        cursor.at += 1
        first = self.take_formula(number, cursor, ":")
        second = self.take_formula(number, cursor, None)
        self.add(number, cursor, "within", None, ticks.value, first, second)

    def take_until(self, number, cursor):
        """Takes `E until F`."""
        first = cursor.tokens[0]
        if first.kind is Kind.NAME and not isinstance(first, Port):
            words = [it for it in FORMS if it != "until"]
            text = f"`{first.text}` begins no line, and no expression over outs"
            raise Wrong(fault_over(number, [first], "BadLine", f"{text}{self.about_name(first, words)}"))
        formulas = self.take_formula(number, cursor, "until"), self.take_formula(number, cursor, None)
        self.add(number, cursor, "until", None, 0, *formulas)

    def about_name(self, token, words=()):
        """Returns what a name that isn't of the form TASK.OUT may be meant for."""
        meant = about_word(token, words)
        ports = [f"{task}.{out}" for task, outs in self.declared.outs.items() for out in outs if out == token.text]
        if ports:
            return f": did you mean `{ports[0]}`?"
        return f": {meant}" if meant else ": an out is `TASK.OUT`"

    def take_formula(self, number, cursor, end):
        """Takes an expression and the word or sign that ends it, or the line's end."""
        start, names = cursor.at, []
        self.must_have_outs(number, cursor.tokens[start:])
        if end is None:
            whole(cursor, names)
        else:
            expression(cursor, names)
            if not cursor.takes(end):
                cursor.leave(f"`{end}` or an operator")
        tokens = cursor.tokens[start : cursor.at - (end is not None)]
        nodes = [it for it in tokens if not it.says(*WITHOUT_NODE)]
        if len(nodes) > MOST_NODES:
            text = f"the expression has {len(nodes)} nodes, and may have {MOST_NODES}"
            raise Wrong(fault_over(number, nodes[MOST_NODES:], "LimitHit", text))
        for it in names:
            self.must_be_port(number, it)
        return Formula(Tree(tokens).expression(), tuple(names))

    def must_have_outs(self, number, tokens):
        """Refuses a `pre` that no out follows."""
        for it in tokens:
            if it.says("pre"):
                text = "`pre` stands directly before an out, as in `pre TASK.OUT` or `pre 2 TASK.OUT`"
                raise Wrong(fault_over(number, [it], "BadLine", text))

    def must_be_port(self, number, name):
        """Refuses a name that is no out of the document, or has a delay outside of its limits."""
        if not isinstance(name, Port):
            text = f"`{name.text}` is no out{self.about_name(name)}"
            raise Wrong(fault_over(number, [name], "Unknown", text))
        task, _, out = name.tokens[-3:]
        wrong = port_faults(self.declared, number, task.text, out.text, (task.column, task.width), (out.column, out.width))
        if wrong:
            raise Wrong(wrong[0])
        limit = SPANS["pre"]
        if name.tokens[0].says("pre") and not limit.has(name.delay):
            text = f"the number after `pre` is from {limit.least} to {limit.greatest}"
            raise Wrong(fault_over(number, [name.tokens[1]], "LimitHit", text))

    def add(self, number, cursor, word, name, ticks, *formulas):
        """Keeps a property."""
        tokens = cursor.tokens
        column, width = tokens[0].column, tokens[-1].end - tokens[0].column
        self.properties.append(Property(number, column, width, word, name, ticks, formulas, spelled(tokens)))

    def take_range(self, number, cursor):
        """Takes the line of an input or an event."""
        cursor.at = 1
        word = cursor.tokens[0].text
        name = cursor.name(f"the name of an {word}")
        there = self.declared.inputs if word == "input" else self.declared.events
        if name.text not in there:
            text = f"no {word} `{name.text}` is declared; {what_there_is(word, there, wrong=name.text)}"
            raise Wrong(fault_over(number, [name], "Unknown", text))
        if name.text in [it.name for it in self.ranges]:
            raise Wrong(fault_over(number, [name], "Duplicate", f"`{name.text}` has a range already"))
        values = self.take_values(number, cursor) if word == "input" else None
        every = self.take_every(number, cursor) if word == "event" or cursor.here is not None else None
        cursor.end()
        self.ranges.append(Range(number, name.text, values, every))

    def take_values(self, number, cursor):
        """Takes the range of an input's values."""
        cursor.word("=")
        return self.take_span(number, cursor, "a range `X..Y`")

    def take_every(self, number, cursor):
        """Takes the least and the greatest distance."""
        cursor.word("every")
        first = cursor.here
        every = self.take_span(number, cursor, "the least and the greatest distance `A..B`")
        if every.least < 1:
            raise Wrong(fault_over(number, [first], "LimitHit", "a distance is at least 1 tick"))
        if self.declared.until is not None and self.declared.until // every.least > MOST_ROWS:
            text = f"with this distance a trace may have more than {MOST_ROWS:,} rows until {self.declared.until:,}"
            raise Wrong(fault_over(number, [first], "TooManyRows", text))
        return every

    def take_span(self, number, cursor, what):
        """Takes numbers X..Y."""
        first = cursor.number(what)
        cursor.word(".")
        cursor.word(".")
        last = cursor.number(what)
        if first.value > last.value:
            tokens = cursor.tokens[cursor.at - 4 : cursor.at]
            raise Wrong(fault_over(number, tokens, "BadLine", "the range is empty: its least value comes first"))
        return Span(first.value, last.value)
