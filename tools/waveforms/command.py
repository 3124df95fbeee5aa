"""The command `waves`."""

import argparse
import os
from functools import partial

from canonical import read_document
from command_line import Parser, is_replaced, read_bytes, write_text
from ending import Ended, Status, reason_of, say, status_of
from program import add_program_option, read_as_answer, run_program
from waveforms.lengths import UNITS, femtoseconds_of
from waveforms.signals import occurrences_of, waves_of
from waveforms.tables import headed_lines, rows_of_task, table_text, wide_rows
from waveforms.vcd import ONE_NANOSECOND, Tick, vcd_lines
from waveforms.viewer import is_own, save_lines, save_name

DESCRIPTION = """Writes the lines of mean, sim, cpus or run as signals: a VCD file for waveform viewers, or tables (CSV).
The signals are TASK.OUT, TASK_instance (the number of the task's last instance) and trace.NAME (an input or an event).
If the program writes no lines, its line stands on standard error, and the status is the program's."""

MOST_TIMES = 10**9  # so that the last time of a file has 64 bits


class NoLines(Exception):
    """The program writes no lines for a document: what it gave."""

    def __init__(self, ran):
        super().__init__((ran.stdout or ran.stderr).decode(errors="replace").rstrip("\n"))
        self.status = ran.status


def tick_length(text):
    """Returns a length, as 5ms or 2.5 us, in the greatest unit of a VCD file of which it is a multiple."""
    length = femtoseconds_of(text)
    for unit, power in ((unit, power) for unit in reversed(UNITS) for power in (100, 10, 1)):
        times = length / (power * UNITS[unit])
        if times.denominator == 1 and 0 < times <= MOST_TIMES:
            return Tick(int(times), f"{power} {unit}")
    raise argparse.ArgumentTypeError(f"it is at least 1fs, a multiple of it, and at most {MOST_TIMES:,} times 100s")


def options_of(words):
    """Returns the options that the words give."""
    parser = Parser(prog="waves", description=DESCRIPTION)
    parser.add_argument("file", metavar="FILE", help="a document; - is standard input")
    parser.add_argument("--command", choices=("mean", "sim", "cpus", "run"), default="mean", help="what runs it (mean)")
    parser.add_argument("--format", choices=("vcd", "csv"), default="vcd", help="what is written (vcd)")
    about_tick = "for vcd: the length of a tick, as 5ms or 250us (1ns)"
    parser.add_argument("--tick", type=tick_length, default=ONE_NANOSECOND, metavar="LENGTH", help=about_tick)
    tables = parser.add_mutually_exclusive_group()
    tables.add_argument("--wide", action="store_true", help="for csv: one table of all signals, by tick")
    tables.add_argument("--task", metavar="NAME", help="for csv: the table of this task alone")
    about_out = "the file; for csv without --wide and --task a folder for a table of each task"
    parser.add_argument("-o", dest="out", metavar="OUT", help=about_out)
    add_program_option(parser)
    options = parser.parse_args(words)
    is_one_table = options.wide or options.task is not None
    if is_one_table and options.format != "csv":
        parser.error("--wide and --task are for --format csv")
    return options


def text_of(program, command, document):
    """Returns what the program writes for a document, if it ends with 0."""
    ran = run_program(program, [command], document)
    if ran.status != 0:
        raise NoLines(ran)
    return ran.stdout


def write_task_tables(tasks, occurrences, folder):
    """Writes the table of each task into a folder, which is made if it isn't there."""
    try:
        os.makedirs(folder, exist_ok=True)
    except OSError as error:
        raise Ended(Status.WRITE_FAILED, f"{folder}: {reason_of(error)}") from error
    for task in tasks:
        write_text([table_text(rows_of_task(task, occurrences))], os.path.join(folder, f"{task.name}.csv"))


def task_named(document, name):
    """Returns the task of this name, if the document has it."""
    if name not in [task.name for task in document.tasks]:
        raise Ended(Status.WRONG_WORDS, f"the document has no task {name}")
    return document.task(name)


def write_signals(options):
    """Runs the program on the document, and writes what it gives."""
    source = read_bytes(options.file)
    lines, form = (text_of(options.program, command, source) for command in (options.command, "form"))
    with read_as_answer(options.program):
        occurrences, document = occurrences_of(lines), read_document(form)
    if options.format == "vcd":
        write_dump(waves_of(document, occurrences), options)
    elif options.task is not None:
        write_text([table_text(rows_of_task(task_named(document, options.task), occurrences))], options.out)
    elif options.wide:
        write_text([table_text(wide_rows(waves_of(document, occurrences)))], options.out)
    elif options.out is None:
        write_text([headed_lines(lines, document.tasks)])
    else:
        write_task_tables(document.tasks, occurrences, options.out)


def write_dump(waves, options):
    """Writes waves as a VCD file, and beside a named one what GTKWave shows first, unless a user has changed that."""
    write_text(vcd_lines(waves, options.command, options.tick), options.out)
    if options.out is not None and is_replaced(options.out) and is_own(save_name(options.out)):
        write_text(save_lines(waves, options.out, options.tick), save_name(options.out))


def main(words=None):
    """Serves a call of the command with these words, and returns its status."""
    return status_of("waves", partial(run, words))


def run(words):
    """Writes what the words ask for; if the program gives no lines, what it says stands on standard error."""
    try:
        write_signals(options_of(words))
    except NoLines as refused:
        say(refused)
        return refused.status
    return Status.DONE
