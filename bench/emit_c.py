#!/usr/bin/env python3
"""Compiles and runs the C of generated documents, and compares lines and records with the program.

  bench/emit_c.py [--program PROGRAM] [--documents N] [--seeds N] [--jobs N] [--only TEXT]
  bench/emit_c.py [--program PROGRAM] --sizes | --speed

200 documents of `gen` (sizes 1 to 32) run without a seed, with one and with a record, and four documents with 100 seeds
each: compiled by gcc and clang, as the trials compile them, with -fsanitize=thread, with -fsanitize=address,undefined, and in
words of 32 bits.
Each way also has the operators and a document as tables. Each run has 20 seconds. Prints a line for each way of compiling; the exit status is 0 only if all are as `mean` and
`replay` say. With --sizes it prints the sizes of the examples of docs/DEPLOYING.md, by `gcc -Os`;
with --speed the processor seconds of traces beside those of `run`, and how long the largest document takes to compile.
"""

import os
import sys
import time
from concurrent.futures import ThreadPoolExecutor
from dataclasses import dataclass
from pathlib import Path
from statistics import median

TOP = Path(__file__).resolve().parent.parent
sys.path.insert(0, str(TOP / ".ci"))
sys.dont_write_bytecode = True

import compiled  # noqa: E402
import documents  # noqa: E402
from comparing import Wrong, fault_of  # noqa: E402
from compiled import SHORT_FLAGS, SHORT_WORDS, Toolchain  # noqa: E402
from running import parser_of, run  # noqa: E402

RACES = ("-g", "-fsanitize=thread")
MEMORY = ("-g", "-fsanitize=address,undefined", "-fno-sanitize-recover=all")
COMPILERS = ("gcc", "clang")
WAYS = {
    f"{compiler} {' '.join(flags)}".strip(): (compiler, flags, ()) for flags in ((), RACES, MEMORY) for compiler in COMPILERS
}
WAYS |= {f"{compiler} {' '.join(SHORT_WORDS)}": (compiler, SHORT_FLAGS, SHORT_WORDS) for compiler in COMPILERS}
MOST_SIZE = 32
RUNS = 5
MOST_LINES = 2_000  # of a document that are tried with seeds and a record; with a sanitizer as many as in the trials
SECTIONS = {"code": (".text",), "constants": (".rodata", ".data.rel.ro"), "data": (".data", ".bss")}
SEEDED = ("gen 3 6", "gen 8 12", "examples/logger.dbp", ".ci/tried/emit_c/names.dbp")


@dataclass(frozen=True)
class Trial:
    """A document, by its name, with the seeds of its runs."""

    name: str
    seeds: tuple

    def document(self, program):
        """Returns the bytes of the document."""
        words = self.name.split()
        return compiled.answered(program, words, b"") if words[0] == "gen" else (TOP / self.name).read_bytes()


def trials_of(count, seeds):
    """Yields the trials of one way of compiling."""
    for number in range(count):
        yield Trial(f"gen {1000 + number} {1 + number % MOST_SIZE}", (number,))
    for name in SEEDED:
        yield Trial(name, tuple(range(seeds)))


def fault_of_trial(program, toolchain, trial):
    """Returns the fault of a trial, or nothing, and how many steps its record has."""
    try:
        count = compiled.FIRST_LINES if toolchain.is_sanitizing else MOST_LINES
        return None, compiled.compare_document(program, toolchain, trial.document(program), trial.seeds, count)
    except Wrong as fault:
        return f"{trial.name}: {fault}", 0


def try_way(way, options):
    """Makes the trials of one way of compiling, prints what came of them, and returns the number of faults."""
    compiler, flags, words = WAYS[way]
    if not compiled.has_compiler(compiler):
        print(f"{way}: SKIPPED, there is no {compiler}", flush=True)
        return 0
    started, trials = time.monotonic(), [*trials_of(options.documents, options.seeds)]
    with compiled.folder() as room, ThreadPoolExecutor(options.jobs) as pool:
        toolchain = Toolchain(room, compiler, flags, options=words)
        found = [*pool.map(lambda trial: fault_of_trial(options.program, toolchain, trial), trials)]
        of_tables = fault_of(compiled.compare_tables, options.program, toolchain)
    faults = [*(fault for fault, _ in found if fault), *([f"tables: {of_tables}"] if of_tables else [])]
    runs, steps = sum(1 + len(trial.seeds) for trial in trials), sum(count for _, count in found)
    seconds = time.monotonic() - started
    print(f"{way}: {len(trials)} documents, {runs} runs, {len(trials)} records of {steps} steps, tables, "
          f"{len(faults)} faults, {seconds:.0f} seconds", flush=True)
    for fault in faults:
        print(f"  {fault}", flush=True)
    return len(faults)


def sizes_of(file):
    """Returns the bytes of an object: of code, of constants, and of data that changes."""
    found = dict.fromkeys(SECTIONS, 0)
    for line in compiled.executed(["size", "-A", "-d", file], compiled.SECONDS).decode().splitlines():
        words = line.split()
        kind = next((it for it, starts in SECTIONS.items() if words and words[0].startswith(starts)), None)
        if kind:
            found[kind] += int(words[1])
    return tuple(found.values())


def print_sizes(program):
    """Prints the sizes of the protocol, and of what is written of each example, as rows of a table."""
    with compiled.folder() as room:
        toolchain = Toolchain(room, "gcc", ("-Os", "-fno-pie"))
        print("| dbp_protocol.c | | {} | {} | {} |".format(*sizes_of(toolchain.objects[0])))
        for file in sorted((TOP / "examples").glob("*.dbp")):
            toolchain.emitted(program, file.read_bytes(), room, target="core")
            sizes = sizes_of(toolchain.compiled(Path(room) / f"{compiled.NAME}.c", room))
            tasks = compiled.answered(program, ["plan"], file.read_bytes()).count(b"\n")
            print("| {} | {} | {} | {} | {} |".format(file.name, tasks, *sizes))
    return 0


def print_speed(program):
    """Prints processor seconds of traces beside those of `run`, and what the largest document takes."""
    texts = {
        "a task, 100000 occurrences": documents.one_task(100_000),
        "32 tasks of 63 nodes, 96000": documents.many_tasks(96_000),
        "gen 7 32": compiled.answered(program, ["gen", "7", "32"], b""),
    }
    print("| document | run: cpu s | trace: cpu s | ratio |\n|---|---|---|---|", flush=True)
    with compiled.folder() as room:
        toolchain = Toolchain(room)
        for name, text in texts.items():
            with compiled.folder() as place:
                commands = [program, "run"], [compiled.trace_of(program, toolchain, text, place)]
                seconds = [[run(it, text).processor_seconds for it in commands] for _ in range(RUNS)]
            of_run, of_trace = map(median, zip(*seconds))
            print(f"| {name} | {of_run:.3f} | {of_trace:.3f} | {of_trace / of_run:.2f} |", flush=True)
        toolchain.emitted(program, documents.longest_lets(), room)
        command = [*toolchain.command, "-c", f"{room}/{compiled.NAME}.c", "-o", f"{room}/o"]
        found = run(command, b"")
        print(f"\nthe largest document compiles in {found.seconds:.1f} s, {found.processor_seconds:.1f} s of processors")
    return 0


def main():
    """Makes all trials, and returns the exit status."""
    parser = parser_of(__doc__)
    parser.add_argument("--documents", type=int, default=200, help="generated documents (200)")
    parser.add_argument("--seeds", type=int, default=100, help="seeds of each of the four documents (100)")
    parser.add_argument("--jobs", type=int, default=os.cpu_count(), help="trials at a time (as many as processors)")
    parser.add_argument("--only", default="", help="the ways of compiling that have this text")
    parser.add_argument("--sizes", action="store_true", help="print the sizes of the examples, and try nothing")
    parser.add_argument("--speed", action="store_true", help="print times, and try nothing")
    options = parser.parse_args()
    if options.sizes or options.speed:
        return (print_sizes if options.sizes else print_speed)(options.program)
    faults = sum(try_way(way, options) for way in WAYS if options.only in way)
    return 1 if faults else 0


if __name__ == "__main__":
    sys.exit(main())
