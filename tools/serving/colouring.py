"""The colours of tokens: of a name by what declares it. The rows of a trace have none, since there are many and editors/
colours them."""

from checking.language import STEP_FORMS
from checking.places import Section
from checking.tokens import Kind, code_of, tokens_of

TYPES = ("keyword", "class", "event", "parameter", "variable", "property", "number", "operator", "comment", "function")
MODIFIERS = ("declaration", "readonly")
TYPE_OF = {"task": "class", "event": "event", "input": "parameter", "out": "property"}  # any other name is a variable
READ_ONLY = ("sense", "read", "let")
OPERATORS = frozenset("== != < <= > >= + - * / % =".split())
NUMBER_OF = {name: number for number, name in enumerate(TYPES)}


class Colours:
    """The colours of a version of a document."""

    def __init__(self, version):
        self.version = version
        self.names = version.names
        self.known = {}  # the colour of each name
        self.steps = {}  # the colours of each line of the script

    def of_line(self, line, section):
        """Returns the column, the width, the type and the modifiers of each token of a line.

        Lines of the script that are alike have the same.
        """
        if section is not Section.SCRIPT:
            return [*self.found_in(line, section)]
        if line.text not in self.steps:
            self.steps[line.text] = [*self.found_in(line, section)]
        return self.steps[line.text]

    def found_in(self, line, section):
        """Yields the same, one token after another."""
        places = {it.column: it for it in self.names.places_in(line.number)}
        document = self.version.document
        if section is Section.TRACE and line.number not in (document.script_at, document.done_at):
            yield from self.of_places(places)
            return
        for at, token in enumerate(tokens_of(line.text)):
            is_step = at == 0 and section is Section.SCRIPT and token.text in STEP_FORMS
            found = (NUMBER_OF["keyword"], 0) if is_step else self.of_token(token, places)
            if found is not None:
                yield (token.column, token.width, *found)
        code = code_of(line.text)
        if len(code) < len(line.text):
            yield len(code) + 1, len(line.text) - len(code), NUMBER_OF["comment"], 0

    def of_places(self, places):
        """Yields the colours of the names in the header of the trace."""
        for column, place in sorted(places.items()):
            yield column, len(place.name.text), *self.of_name(place)

    def of_token(self, token, places):
        """Returns the type and the modifiers of a token, or nothing."""
        if token.kind is Kind.NAME:
            return self.of_name(places[token.column]) if token.column in places else None
        if token.kind is Kind.WORD:
            return NUMBER_OF["function" if token.text in ("min", "max") else "keyword"], 0
        if token.kind is Kind.NUMBER:
            return NUMBER_OF["number"], 0
        return (NUMBER_OF["operator"], 0) if token.text in OPERATORS else None

    def of_name(self, place):
        """Returns the type and the modifiers of a name."""
        if place.name not in self.known:
            declared = self.names.declared(place.name)
            word = declared.word if declared is not None else None
            self.known[place.name] = (NUMBER_OF[TYPE_OF.get(word, "variable")], 2 * (word in READ_ONLY))
        kind, modifiers = self.known[place.name]
        return kind, modifiers + place.is_declared


def colours(version, first, last):
    """Returns the colours of lines, as the protocol writes them: five numbers each, by their distance from the one before."""
    found, text, shades = [], version.text, Colours(version)
    before_line = before_character = 0
    for line in version.document.lines[first - 1 : last]:
        if line.is_blank:
            continue
        is_plain = line.text.isascii() and b"\r" not in line.text
        for column, width, kind, modifiers in shades.of_line(line, version.section(line.number)):
            at, character = text.starts[line.number - 1], column - 1
            if not is_plain:
                at, character, width = place_of(text, line, column, width)
            found += (at - before_line, character - before_character * (at == before_line), width, kind, modifiers)
            before_line, before_character = at, character
    return found


def place_of(text, line, column, width):
    """Returns the line, the character and the length of a token in the protocol's units."""
    span = text.range(line.number, column, width)
    start = span["start"]
    return start["line"], start["character"], span["end"]["character"] - start["character"]
