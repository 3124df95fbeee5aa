"""The command `emit_c`."""

import os
import re
from argparse import ArgumentTypeError, RawDescriptionHelpFormatter
from functools import partial
from pathlib import Path

from canonical import read_document
from command_line import STANDARD_INPUT, Parser, read_bytes, replace_all, write_text
from emitting.names import file_name, is_file_name
from emitting.costs import costs_text
from emitting.plan import plan_of
from emitting.posix import DEADLINE, FIXED, fault_of_deadlines, posix_header, posix_text, tick_length
from emitting.source import MARK, body, header
from emitting.trace import trace_text
from ending import Ended, Status, reason_of, status_of
from pictures.asking import Refused, canonical_text
from pictures.commands import shown_name
from program import add_program_option, read_as_answer

ABOUT = """Writes the tasks of a document as C, with the protocol by which they read each other: the files dbp_protocol.h,
dbp_protocol.c, NAME.h and NAME.c. The target `posix` adds threads that run in real time: dbp_posix.h, dbp_posix.c,
NAME_posix.h and NAME_posix.c; the target `trace` a program that runs the document's own trace: dbp_trace.h, dbp_trace.c
and NAME_trace.c. docs/DEPLOYING.md says what you call.

exit status: 0 the files are written; 1 the document is refused; 2 wrong words; 4, 5 a file can't be read or written, or
a file that emit_c didn't write is there; 6 the program's memory ran out; 7 the document is too large; 70 the program
can't be run; 130 interrupted."""

MOST_CALLS = 500
HERE = Path(__file__).resolve().parent
TARGETS = ("core", "trace", "posix")
WORD_BITS = "#define DBP_WORD_BITS 64\n"  # a line of dbp_protocol.h


def most_calls(text):
    """Returns the number of calls that a word gives."""
    if not re.fullmatch("[0-9]{1,6}", text):
        raise ArgumentTypeError(f"{text!r} is no number of calls: 0 to 999999")
    return int(text)


def options_of(words):
    """Returns the options that the words give."""
    parser = Parser(prog="emit_c", description=ABOUT, formatter_class=RawDescriptionHelpFormatter)
    parser.add_argument("file", metavar="FILE", help="the document; - is standard input")
    parser.add_argument("-o", dest="folder", metavar="FOLDER", help="where the files are written")
    about_name = "what the names of files and calls begin with (the document's file)"
    parser.add_argument("--name", help=about_name)
    parser.add_argument("--target", choices=TARGETS, default="core", help="what is written (core)")
    parser.add_argument("--tick", type=tick_length, metavar="LENGTH", help="posix: the length of a tick, as 250us or 5ms")
    about_policy = "posix: threads served by fixed priorities, or by deadlines (fixed)"
    parser.add_argument("--policy", choices=(FIXED, DEADLINE), help=about_policy)
    parser.add_argument("--log", action="store_true", help="posix: what was sampled, the rows and the times can be written")
    about_words = "how many bits a shared word has: 32 for a machine without loads and stores of 64 (64)"
    parser.add_argument("--words", type=int, choices=(32, 64), default=64, metavar="N", help=about_words)
    parser.add_argument("--costs", action="store_true", help="print the most steps and accesses, and the bytes of tables")
    about_calls = f"a task with more operators becomes a table, which compiles sooner ({MOST_CALLS})"
    parser.add_argument("--calls", type=most_calls, metavar="N", default=MOST_CALLS, help=about_calls)
    parser.add_argument("--force", action="store_true", help="overwrite files that emit_c didn't write")
    add_program_option(parser)
    options = parser.parse_args(words)
    if options.name is not None and not is_file_name(options.name):
        parser.error(f"--name {options.name!r}: a letter, then at most 39 letters, digits and _, and no beginning of C")
    if options.folder is None and not options.costs:
        parser.error("the following arguments are required: -o")
    if (options.tick is None) == (options.target == "posix"):
        parser.error("--target posix needs a --tick" if options.tick is None else "--tick is for --target posix")
    if options.target != "posix" and (options.policy or options.log):
        parser.error("--policy and --log are for --target posix")
    return options


def slots_of(line):
    """Returns the number of slots in a run that a line of `dbp plan` has."""
    return int(line.split(",")[-1])


def planned(options):
    """Returns what is written of the document that the options name."""
    source, title = read_bytes(options.file), shown_name(options.file)
    try:
        form, lines = canonical_text(options.program, source)
    except Refused as refused:
        raise Ended(refused.status, f"{title}: {refused}") from refused
    name = options.name
    if name is None:
        name = file_name("diagram" if options.file == STANDARD_INPUT else Path(options.file).stem)
    with read_as_answer(options.program):
        slots = [slots_of(line) for line in lines]
        title = re.sub(r"[^\w. -]", "_", title, flags=re.ASCII)
        return plan_of(name, title, source, form, read_document(form), slots, options.calls, options.words)


def shared_texts(name):
    """Returns the texts of the two files that have a name and are the same for every diagram."""
    return {f"{name}.{end}": (HERE / f"{name}.{end}").read_text(encoding="ascii") for end in "hc"}


def texts_of(plan, options):
    """Returns the texts of all files, by their names."""
    texts = shared_texts("dbp_protocol")
    texts["dbp_protocol.h"] = texts["dbp_protocol.h"].replace(WORD_BITS, WORD_BITS.replace("64", str(plan.word_bits)))
    texts |= {f"{plan.name}.h": header(plan), f"{plan.name}.c": body(plan)}
    if options.target == "trace":
        texts |= {**shared_texts("dbp_trace"), f"{plan.name}_trace.c": trace_text(plan)}
    if options.target == "posix":
        text = posix_text(plan, options.tick, options.policy, options.log)
        texts |= {**shared_texts("dbp_posix"), f"{plan.name}_posix.h": posix_header(plan, options.log)}
        texts[f"{plan.name}_posix.c"] = text
    return texts


def must_be_served(plan, options):
    """Ends the tool if the tasks can't be served by the policy that the options name."""
    fault = fault_of_deadlines(plan.document, options.tick) if options.policy == DEADLINE else None
    if fault:
        raise Ended(Status.WRONG_WORDS, f"--policy {DEADLINE}: {fault}")


def must_be_own(name):
    """Ends the tool if the first line of a file doesn't say that the tool wrote it."""
    with open(name, "rb") as source:
        first = source.readline(len(MARK) + 2).rstrip(b"\r\n")
    if first != MARK.encode():
        raise Ended(Status.WRITE_FAILED, f"{name}: emit_c didn't write this file; --force overwrites it")


def must_be_replaceable(name, is_forced):
    """Ends the tool if what is there isn't a file, or if it may not be overwritten."""
    if not os.path.isfile(name):
        raise Ended(Status.WRITE_FAILED, f"{name}: it is there, and isn't a file")
    if not is_forced:
        must_be_own(name)


def write_all_files(folder, texts, is_forced):
    """Writes texts as files of a folder, which is made if it isn't there: all of them, or none."""
    name = folder
    try:
        os.makedirs(folder, exist_ok=True)
        for file in texts:
            name = os.path.join(folder, file)
            if os.path.lexists(name):
                must_be_replaceable(name, is_forced)
        replace_all({os.path.realpath(os.path.join(folder, file)): [text] for file, text in texts.items()})
    except OSError as error:
        raise Ended(Status.WRITE_FAILED, f"{error.filename or name}: {reason_of(error)}") from error


def emit(words):
    """Writes what the words ask for."""
    options = options_of(words)
    plan = planned(options)
    must_be_served(plan, options)
    if options.folder is not None:
        write_all_files(options.folder, texts_of(plan, options), options.force)
    if options.costs:
        write_text(costs_text(plan))
    return Status.DONE


def main(words=None):
    """Serves a call of the command with these words, and returns its status."""
    return status_of("emit_c", partial(emit, words))
