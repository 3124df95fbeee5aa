"""The command of tools/format: documents in canonical layout, with their comments and blank lines.

The program writes the code: each line of a document that isn't blank is one line of what `dbp form` prints, in the
same order. What stands here adds the blank lines and the comments between them.
"""

from argparse import RawDescriptionHelpFormatter
from dataclasses import dataclass
from functools import partial
from itertools import groupby, zip_longest

from checking.text import lines_of
from command_line import MOST_BYTES, STANDARD_INPUT, Parser, read_bytes, write_text
from ending import Ended, Status, name_of, say, status_of, status_of_all
from program import CannotRun, add_program_option, read_as_answer, run_program

ABOUT = """Lays documents out as `dbp form` does, in place, and keeps their comments and blank lines.
Without them a document is exactly what `dbp form` prints. `-` goes from standard input to standard output.

exit status: 0 all documents are laid out; 1 one is refused, or with --check isn't laid out; 2 wrong words;
4, 5 a file can't be read or written; 6 the program's memory ran out; 7 one is too large, or would be;
70 the program can't be run; 130 interrupted."""

BEFORE_COMMENT = 2  # spaces between the longest line of a block and its comment
BODY = "  "  # what the lines of a task's body begin with


@dataclass
class Row:
    """A line that is laid out: its code and its comment, each of which may be empty."""

    code: str
    comment: str
    is_indented: bool = False  # whether its comment began with a blank

    def text(self, width):
        """Returns the line, with its comment after a code of this width."""
        return f"{self.code:{width}}{self.comment}" if self.code and self.comment else self.code + self.comment


class Rows:
    """Makes the rows of a document, one line after another, with the codes that the program gives them."""

    def __init__(self, form):
        self.codes = iter(form.decode("ascii").split("\n")[:-1])
        self.is_trace = False
        self.is_script = False
        self.rows = []

    def take(self, line):
        """Takes the next line of the document. No line of the trace section has a comment."""
        code, sign, comment = (line.text, b"", b"") if self.is_trace else line.text.partition(b"#")
        row = Row("", (sign + comment).decode("ascii").rstrip(" \t"), line.text[:1] in (b" ", b"\t"))
        self.rows.append(row)
        if code.strip(b" \t"):
            row.code = next(self.codes)
            self.move_on(row.code.strip(" \t"))

    def move_on(self, word):
        """Keeps in which section the next line stands; `word` is the code of this one."""
        self.is_script = self.is_script or word == "script"
        self.is_trace = not self.is_script and (word != "done" if self.is_trace else word == "trace")

    def indent(self):
        """Gives each comment on a line of its own the place of the next code; at a body's end it keeps its own."""
        before = [""]
        for row in self.rows:
            before.append(row.code or before[-1])
        following = ""
        for row, last in zip(reversed(self.rows), reversed(before)):
            if row.comment and not row.code:
                is_body = following.startswith(BODY) or (row.is_indented and last.startswith(BODY))
                row.comment = BODY * is_body + row.comment
            following = row.code or following

    def lines(self):
        """Yields the lines. Comments after code on lines one below another stand in one column."""
        for is_block, block in groupby(self.rows, key=lambda row: bool(row.code and row.comment)):
            rows = [*block]
            width = max(len(row.code) for row in rows) + BEFORE_COMMENT if is_block else 0
            yield from (row.text(width) for row in rows)


def formed(program, text, name):
    """Returns the canonical text of a document."""
    ran = run_program(program, ["form"], text)
    if ran.status == Status.TOO_LARGE:
        raise Ended(ran.status, f"{name}: the document has more than {MOST_BYTES:,} bytes")
    if ran.status != Status.DONE:
        said = (ran.stdout or ran.stderr).decode(errors="replace").strip()
        raise Ended(ran.status, f"{name}: {said or f'the program ended with status {ran.status}'}")
    return ran.stdout


def laid_out(program, text, name="document"):
    """Returns the bytes of a document in canonical layout. The program must read them as the same document."""
    form = formed(program, text, name)
    with read_as_answer(program):
        rows = Rows(form)
        for line in lines_of(text):
            rows.take(line)
    rows.indent()
    made = "".join(f"{line}\n" for line in rows.lines()).encode()
    if len(made) > MOST_BYTES:
        raise Ended(Status.TOO_LARGE, f"{name}: laid out it would have more than {MOST_BYTES:,} bytes")
    if formed(program, made, name) != form:
        raise CannotRun(f"{program}: what it printed isn't the same document, laid out")
    return made


def first_difference(text, made):
    """Returns in words where a document isn't laid out."""
    pairs = zip_longest(text.splitlines(True), made.splitlines(True), fillvalue=b"")
    number, wanted = next((number, after) for number, (before, after) in enumerate(pairs, 1) if before != after)
    return f"line {number} isn't laid out: it would be `{wanted.decode().rstrip()}`"


def format_file(options, name):
    """Lays a file out, or says where it isn't laid out."""
    text = read_bytes(name)
    made = laid_out(options.program, text, name)
    if options.check:
        if made != text:
            raise Ended(Status.REFUSED, f"{name}: {first_difference(text, made)}")
    elif name == STANDARD_INPUT:
        write_text([made.decode()])
    elif made != text:
        write_text([made.decode()], name)
    return Status.DONE


def status_of_file(options, name):
    """Returns the status of one of several files. A program that can't be run ends the whole call."""
    try:
        return format_file(options, name)
    except CannotRun:
        raise
    except Ended as ended:
        say(f"{name_of('format')}: {ended}")
        return ended.status


def format_files(words):
    """Lays out the files that the words name, one after another."""
    parser = Parser(prog="format", description=ABOUT, formatter_class=RawDescriptionHelpFormatter)
    parser.add_argument("files", nargs="+", metavar="FILE", help="a document; `-` is standard input")
    about_check = "write nothing, and end with 1 if a document isn't laid out"
    parser.add_argument("--check", action="store_true", help=about_check)
    add_program_option(parser)
    options = parser.parse_args(words)
    return status_of_all([status_of_file(options, name) for name in options.files])


def main(words=None):
    """Lays out the files that the words name, and returns the exit status."""
    return status_of("format", partial(format_files, words))
