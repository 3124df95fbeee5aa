"""From a document's bytes to its statements, and the faults of reading, line by line.

After a fault the reading goes on, so that later faults are found too; what a line with a fault declares is doubtful.
"""

import re
from dataclasses import replace
from functools import lru_cache

from checking.cursor import LeavesForm, cursor_of
from checking.document import Document, Step, Task
from checking.language import BODY, FORMS, RESERVED
from checking.foreign import ONE_LINE, about_pair
from checking.line_faults import (
    MARK_OF_UTF_8,
    MARKS_OF_UTF_16,
    about_row,
    byte_fault,
    depth_fault,
    is_sound,
    node_fault,
    token_fault,
)
from checking.messages import Note, error, error_at
from checking.places import AFTER, ENDS, Section, count_fault, is_row, is_step, may_go_on, number_fault, place_fault
from checking.statements import FORM_OF, Statement
from checking.text import Line, lines_of, times
from checking.tokens import MOST_KEPT, Kind, Token, code_of, tokens_of

WORDS = re.compile(r"[A-Za-z_][A-Za-z0-9_]*")
FOREIGN_COMMENTS = ("//", "/*", "--", ";", "%")
SECOND_WORD = re.compile(r"[ \t]*\w+[ \t]+([A-Za-z_][A-Za-z0-9_]*)")
TOLD_ONCE = (b";", b".", b"+", b'"', b"a line")  # what stands in many lines, if in one: signs, a trace's lines of a diagram
MEANT_AS_DONE = ("end", "done", "quit", "exit", "stop", "fin")


class Reader:
    """Reads a document's lines in their order, and keeps the faults that it finds."""

    def __init__(self, text):
        self.document = Document(lines_of(text))
        self.section = Section.HEADER
        self.faults = []
        self.stray = None  # the section outside of which the line before stood: one message tells of all such lines
        self.open_line = None  # the number of the line before, if it is meant to go on in the next one
        self.signs = {}  # the places of the faults of signs that are told once, and the later lines with such a sign

    def read(self):
        """Reads all lines, and returns the document and its faults."""
        if self.is_utf_16():
            return self.document, [byte_fault(self.document.lines[0])]
        has_tokens = False
        for line in self.lines_after_mark():
            if line.is_blank:
                continue
            has_tokens = has_tokens or bool(code_of(line.text).strip(" \t"))
            if self.section is Section.TRACE:
                self.take_row(line)
            elif self.section is Section.SCRIPT:
                self.take_step(line)
            else:
                self.take_line(line)
            self.note_section(line)
        if not has_tokens:
            in_first = [fault for fault in self.faults if fault.line == 1]
            text = f"the text has no line with tokens; it must begin with `{FORMS['dbp']}`"
            self.faults = in_first or [error(1, 1, 8, text)]
        elif self.section is not Section.END and not self.is_end_doubtful():
            self.faults.append(self.missing_done())
        self.note_signs()
        return self.document, self.faults

    def note_section(self, line):
        """Keeps the section of the lines after this one, if another begins here."""
        found = self.document.sections
        if self.section is not (found[-1][1] if found else Section.HEADER):
            found.append((line.number, self.section))

    def is_utf_16(self):
        """Whether the document begins as UTF-16, in which no line has the bytes that it is meant to have."""
        return bool(self.document.lines) and self.document.lines[0].text.startswith(MARKS_OF_UTF_16)

    def lines_after_mark(self):
        """Returns the lines to be read: without a byte order mark, of which one message tells."""
        lines = self.document.lines
        if not lines or not lines[0].text.startswith(MARK_OF_UTF_8):
            return lines
        self.faults.append(byte_fault(lines[0]))
        size = len(MARK_OF_UTF_8)
        return [Line(1, b" " * size + lines[0].text[size:]), *lines[1:]]

    def note_signs(self):
        """Adds to each fault of a sign that is told once which later lines have it too."""
        for place, later in self.signs.values():
            if later:
                more = f", and in {times(len(later) - 1, 'later one')}" if later[1:] else ""
                text = f"the same stands in this line{more}"
                fault = self.faults[place]
                self.faults[place] = replace(fault, notes=(*fault.notes, Note(later[0], 1, text)))

    def is_end_doubtful(self):
        """Whether the last line that isn't blank is a short one with a fault, so that it may be meant as `done`."""
        last = self.last_line()
        return any(fault.line == last.number for fault in self.faults) and len(code_of(last.text).split()) <= 2

    def missing_done(self):
        """Returns the message of a document that ends without `done`."""
        begun = {Section.TRACE: self.document.trace_at, Section.SCRIPT: self.document.script_at}.get(self.section)
        notes = [Note(begun, 1, "the section begins here, and goes to a line that is `done` alone")] if begun else []
        last = self.last_line()
        if code_of(last.text).strip(" \t;.").lower() in MEANT_AS_DONE:
            notes.append(Note(last.number, 1, "the word that ends a document is `done`"))
            self.document.rows = [it for it in self.document.rows if it is not last]
            self.document.steps = [it for it in self.document.steps if it.line != last.number]
        return error(len(self.document.lines) + 1, 1, 7, "the document ends without a line `done`", *notes)

    def last_line(self):
        """Returns the last line that has more than a comment."""
        return [line for line in self.document.lines if code_of(line.text).strip(" \t")][-1]

    def take_row(self, line):
        """Reads a line of the trace section."""
        fault = byte_fault(line, is_trace=True)
        words = WORDS.findall(code_of(line.text))
        if line.text.strip(b" \t") in (b"script", b"done") or (fault and words in (["script"], ["done"])):
            self.begin(words[0], line)
        elif fault is None and not line.is_blank:
            self.document.rows.append(line)
        elif fault and words[:1] == ["time"] and not self.document.rows:
            self.document.is_header_bad = True
        self.keep(fault, line)

    def take_step(self, line):
        """Reads a line of the script section."""
        if is_sound(line.text) and is_any_step(tokens_of(line.text)):
            self.document.steps.append(Step(line.number, tokens_of(line.text)))
            self.stray = None
            return
        fault = byte_fault(line)
        tokens = () if fault else tokens_of(line.text)
        fault = fault or token_fault(line, tokens)
        if [it.text for it in tokens] == ["done"] or (fault and code_of(line.text).strip() == "done"):
            self.begin("done", line)
        self.keep(fault, line)

    def take_line(self, line):
        """Reads a line of the diagram, or one after `done`."""
        fault = byte_fault(line)
        tokens = tokens_of(line.text) if fault is None else ()
        fault = fault or token_fault(line, tokens)
        if fault is None and not tokens:
            return
        if self.open_line == line.number - 1 and goes_on(tokens):
            self.open_line = line.number
            return
        statement = Statement(line.number, tokens[0], tokens=tokens) if tokens else None
        if tokens and tokens[-1].text == "\\":
            self.open_line = line.number
        fault = fault or self.fault_of(line, tokens, statement)
        self.go_on(line, tokens, statement, fault)
        self.keep(fault, line)

    def take_form(self, statement):
        """Fills a statement from its tokens, and returns where they leave its form, or nothing."""
        return formed(statement, self.document.version)

    def fault_of(self, line, tokens, statement):
        """Fills a statement, and returns the message of its first fault after those of its tokens, or nothing."""
        size_fault = form_fault = None
        kept = statement_of(line.text, self.document.version) if is_sound(line.text) else None
        if kept is not None:
            vars(statement).update({**vars(kept), "line": line.number})
        else:
            size_fault = node_fault(line, tokens) or depth_fault(line, tokens)
            form_fault = None if size_fault else self.take_form(statement)
        if self.section is Section.HEADER and (statement.word != "dbp" or form_fault or size_fault):
            more = "; there are no other versions" if statement.word == "dbp" else ""
            text = f"the first line with tokens must be `{FORMS['dbp']}`{more}"
            return error_at(statement.head, line.number, 8, text)
        fault = size_fault or place_fault(statement, self.section, self.document)
        if fault is None and form_fault:
            more = self.about_next_line(line) if form_fault.is_at_end else ""
            fault = error(line.number, form_fault.column, 3, form_fault.text + more, width=form_fault.width)
        elif fault and fault.code == 3 and may_go_on(tokens[0]) and about_pair(tokens, 0) is None:
            self.open_line = line.number
        return fault or number_fault(statement) or count_fault(statement, self.document)

    def about_next_line(self, line):
        """Returns what is wrong with a line that ends too early, if it is meant to go on in the next one."""
        if line.number == len(self.document.lines) or not goes_on(tokens_of(self.document.lines[line.number].text)):
            return ""
        self.open_line = line.number
        return f"; {ONE_LINE}, and can't go on in the next one"

    def go_on(self, line, tokens, statement, fault):
        """Keeps what a line says, and moves on to the section after it."""
        code = code_of(line.text)
        word = kind_of(WORDS.findall(code))
        if fault is not None:
            self.note_names(code, word)
        if word not in FORMS or word in BODY and self.section < Section.DECLARATIONS:
            if self.section < Section.DECLARATIONS and code.strip():
                self.section = Section(self.section + 1)
            return
        if word == "task":
            self.add_task(line, statement, tokens, fault)
        elif statement is not None and statement.word == word:
            self.add(statement, fault)
        self.begin(word, line)

    def note_names(self, code, word):
        """Keeps the names of a line with a fault, and whether it hides the one that it declares."""
        if code.lstrip().startswith(FOREIGN_COMMENTS):
            return
        second = SECOND_WORD.match(code)
        is_hidden = second is None or second[1] in RESERVED
        self.document.doubtful.update(WORDS.findall(code))
        if self.document.tasks and word != "task":
            self.document.tasks[-1].has_faults = True
            self.document.tasks[-1].hides_names |= is_hidden
        elif word not in ("dbp", "policy", "until"):
            self.document.hides_names |= is_hidden

    def begin(self, word, line):
        """Moves on to the section after a line, and keeps where a section begins."""
        if word in ENDS and self.section is not Section.END:
            setattr(self.document, f"{word}_at", line.number)
        self.section = max(self.section, AFTER[word])

    def add_task(self, line, statement, tokens, fault):
        """Begins a task, also at a line with a fault, since the lines after it are of its body."""
        if self.section is Section.END:
            return
        if fault is not None:
            statement = Statement(line.number, Token(Kind.WORD, "task", 1), name=name_of_task(tokens))
        self.document.tasks.append(Task(statement, fault is None))

    def add(self, statement, fault):
        """Keeps a statement in the document; one with a fault only if nothing but its place is wrong."""
        word, document = statement.word, self.document
        is_kept = fault is None or fault.code == 3 and self.is_complete(statement)
        if self.section is Section.END or not is_kept:
            return
        if word == "dbp" and fault is None:
            document.version = statement.value.value
        elif word == "policy":
            document.policy = statement.value.text
        elif word == "until":
            document.until = statement
        elif word in ("input", "event"):
            document.declarations.append(statement)
        elif word in BODY and document.tasks:
            document.tasks[-1].body.append(statement)

    def is_complete(self, statement):
        """Whether a statement has its form, so that only its place is wrong."""
        again = Statement(statement.line, statement.head, tokens=statement.tokens)
        return self.take_form(again) is None

    def keep(self, fault, line):
        """Keeps a fault, unless the line before stood outside of the same section."""
        stray = self.outside_of(line) if fault is not None and fault.code == 3 else None
        if fault is not None and (stray is None or stray is not self.stray) and not self.is_told(fault, line):
            self.faults.append(fault)
        if fault is not None or not line.is_blank:
            self.stray = stray

    def is_told(self, fault, line):
        """Whether a fault is one of a sign of which an earlier line's fault tells; keeps where the first one stands."""
        is_of_diagram = self.section is Section.TRACE and about_row(code_of(line.text))
        sign = b"a line" if is_of_diagram else line.text[fault.column - 1 : fault.column]
        if fault.code not in (1, 2) or sign not in TOLD_ONCE:
            return False
        place, later = self.signs.setdefault((fault.code, sign), (len(self.faults), []))
        if place < len(self.faults):
            later.append(line.number)
        return place < len(self.faults)

    def outside_of(self, line):
        """Returns the section outside of which a refused line stands, or nothing."""
        tokens = tokens_of(line.text)
        if self.section is Section.END and self.document.done_at != line.number:
            return Section.END
        if tokens[0].text in BODY and not self.document.tasks:
            return Section.TASKS
        if is_row(tokens):
            return Section.TRACE
        return Section.SCRIPT if is_step(tokens) else None


def formed(statement, version):
    """Fills a statement from its tokens, and returns where they leave its form in this version, or nothing."""
    if statement.head.kind is not Kind.WORD or statement.word not in FORMS:
        return None
    try:
        FORM_OF[statement.word](cursor_of(statement.tokens, version), statement)
    except LeavesForm as leaves:
        return leaves
    return None


@lru_cache(MOST_KEPT)
def statement_of(text, version):
    """Returns the statement of a line that has its form, and nothing of it that is too large; of others nothing."""
    line, tokens = Line(0, text), tokens_of(text)
    statement = Statement(0, tokens[0], tokens=tokens)
    is_whole = not (node_fault(line, tokens) or depth_fault(line, tokens) or formed(statement, version))
    return statement if is_whole else None


def is_any_step(tokens):
    """Whether the tokens of a line of the script are a step, and not the end."""
    return len(tokens) > 1 or len(tokens) == 1 and tokens[0].text != "done"


def goes_on(tokens):
    """Whether a line can only be meant to go on with the line before: no kind of line, and no name of one, begins it."""
    if not tokens or tokens[0].kind is Kind.WORD and tokens[0].text in FORMS:
        return False
    is_named = tokens[0].kind is Kind.NAME and len(tokens) > 1
    return not (is_named and (tokens[1].says("=") or tokens[1].kind is Kind.NAME))


def kind_of(words):
    """Returns the word that says what a line is, also if it isn't the first one in the line of a task."""
    if words and words[0] not in FORMS and ("every" in words or "cost" in words):
        return "task"
    return words[0] if words else None


def name_of_task(tokens):
    """Returns the name in the line of a task that has a fault: it stands before the clock or `when`, or after `task`."""
    clocks = [place for place, token in enumerate(tokens) if token.says("every", "on", "when")]
    place = clocks[0] - 1 if clocks else 1
    is_name = 0 <= place < len(tokens) and tokens[place].kind is Kind.NAME
    return tokens[place] if is_name else None


def read_document(text):
    """Reads a document, and returns it with its faults of reading, in the program's order."""
    return Reader(text).read()
