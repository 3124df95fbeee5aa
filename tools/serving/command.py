"""The command line of tools/language_server."""

from argparse import SUPPRESS, ArgumentTypeError, RawDescriptionHelpFormatter
from importlib import import_module

from command_line import Parser
from program import add_program_option
from serving.lengths import length_of

ABOUT = """Speaks the Language Server Protocol with an editor, over standard input and standard output: what tools/check
says of the documents that are open, with fixes; what a name is, where it stands, and its renaming; completion, layout,
symbols, colours, and what the steps of a script hear. The editor starts it: editors/language_server has the lines to write.

exit status: 0 the editor ended it; 1 its input ended before, or was no message; 2 wrong words; 5 the answers can't be
written; 130 interrupted."""


def tick_of(text):
    """Returns the length of a tick."""
    length = length_of(text)
    if length is None:
        raise ArgumentTypeError("it is a number and then s, ms, us, ns, ps or fs, as in 5ms")
    return length


def main(words=None):
    """Serves an editor, and returns the exit status."""
    parser = Parser(prog="language_server", description=ABOUT, formatter_class=RawDescriptionHelpFormatter)
    about_tick = "how long a tick is, as 5ms: numbers of ticks are then shown as times too"
    parser.add_argument("--tick", type=tick_of, metavar="LENGTH", help=about_tick)
    parser.add_argument("--stdio", action="store_true", help="nothing else: some editors add this word")
    parser.add_argument("--judge", action="store_true", help=SUPPRESS)
    add_program_option(parser)
    options = parser.parse_args(words)
    if options.judge:  # which begins soon, as it needs few modules
        return import_module("serving.judging").judge_all(options.program)
    return import_module("serving.server").serve_editor(options.program, options.tick)
