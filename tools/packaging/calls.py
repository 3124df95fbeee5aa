"""How the installed commands are called, as their own help says: the options of each tool, and the words of dbp."""

import re
from argparse import SUPPRESS
from dataclasses import dataclass
from importlib import import_module
from typing import Optional, Tuple
from unittest.mock import patch

from command_line import Parser
from packaging.facts import TOP

TOOLS = ("check", "diagram", "emit_c", "format", "language_server", "report", "response", "studio", "test", "timeline",
         "trace", "verify", "waves")  # that are installed
SERVED = re.compile(r'serve\("([\w.]+)"(?:, "(\w+)")?\)')
STATUSES = "exit status: "
FILES = {"FILE", "OUT", "PROGRAM", "FOLDER", "REPOSITORY"}  # what stands for a path


@dataclass(frozen=True)
class Option:
    """A word or an option of a command: its names, what stands for its value, the values that it may have, and its help."""

    names: Tuple[str, ...]  # none for an operand
    value: Optional[str]
    choices: Tuple[str, ...]
    about: str
    is_needed: bool = False
    is_many: bool = False

    @property
    def is_path(self):
        return self.value in FILES


@dataclass(frozen=True)
class Call:
    """How a tool is called."""

    name: str
    title: str
    about: str
    statuses: Optional[str]
    options: Tuple[Option, ...]
    operands: Tuple[Option, ...]


class Found(Exception):
    """The parser of a tool's words, before it takes any."""

    def __init__(self, parser):
        super().__init__()
        self.parser = parser


def parser_of(tool):
    """Returns the parser of a tool's words."""

    def found(parser, _):
        raise Found(parser)

    module, function = SERVED.search((TOP / "tools" / tool).read_text(encoding="utf-8")).groups()
    with patch.object(Parser, "parse_args", found):
        try:
            getattr(import_module(module), function or "main")([])
        except Found as it:
            return it.parser
    raise LookupError(f"tools/{tool} takes no words")


def option_of(action):
    """Returns an option as argparse keeps it."""
    choices = tuple(map(str, action.choices or ()))
    value = None
    if action.nargs != 0:
        value = action.metavar or (action.dest if not action.option_strings else action.dest.upper())
    needed, many = action.required and action.nargs != "?", action.nargs == "+" or type(action).__name__ == "_AppendAction"
    return Option(tuple(action.option_strings), value, choices, action.help, needed, many)


def titles():
    """Returns what the table of docs/TOOLS.md says of each tool."""
    page = (TOP / "docs" / "TOOLS.md").read_text(encoding="utf-8")
    return dict(re.findall(r"(?m)^\| \[`tools/(\w+)`\]\([^)]*\) \| (.*) \|$", page))


def call_of(tool):
    """Returns how a tool is called."""
    parser = parser_of(tool)
    about, _, statuses = parser.description.partition(STATUSES)
    found = [option_of(it) for it in parser._actions if it.help != SUPPRESS]
    options, operands = (tuple(it for it in found if bool(it.names) is wanted) for wanted in (True, False))
    return Call(tool, titles()[tool], " ".join(about.split()), " ".join(statuses.split()) or None, options, operands)


def words_of_program(usage):
    """Returns the words of each command that the program lists."""
    return [line.split() for line in usage.splitlines()[1:]]
