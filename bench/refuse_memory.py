#!/usr/bin/env python3
"""Refuses allocations of the program: each of them in turn, and all from each of them on. Each run must end with status 6
and write nothing, or give the usual answer. With --streams reads and writes fail so instead: a run ends with status 4 and
writes nothing, or with status 5 and has written how the usual answer begins, or gives that answer.

  bench/refuse_memory.py [--program PROGRAM] [--streams] [--at-once N] [DOCUMENT [WORDS]]

The words are the command, as `sim --record`; without them each command is tried. Without a document some examples are:
of each command there is one that it accepts and one that it refuses. With --streams a read or a write takes 64 bytes at most, so
that there are many. Needs gcc, whose library stands before the C library's allocator, `read` and `write`.
"""

import argparse
import re
import subprocess
import sys
import tempfile
from collections import Counter
from concurrent.futures import ProcessPoolExecutor
from dataclasses import dataclass
from enum import Enum
from functools import partial
from pathlib import Path

from running import Calls, parser_of

TOP = Path(__file__).resolve().parent.parent
TASK, NUMBER, SIZE = "TASK", "N", "SIZE"  # stand for the name of a task, and for numbers
SHORT = 64  # bytes
SECONDS = 900  # a run that gets no memory for a thread yields 16,384 times in each of its rounds, beside others for a minute

# The commands that read a document, and the others.
COMMANDS = (
    ["mean"],
    ["sim"],
    ["sim", "--record"],
    ["cpus"],
    ["cpus", "--record"],
    ["run"],
    ["run", "--turns", NUMBER],
    ["form"],
    ["upgrade"],
    ["rank"],
    ["plan"],
    ["rta"],
    ["need", TASK],
    ["replay"],
    ["replay", "--ranked"],
)
READING_NOTHING = (["gen", NUMBER], ["gen", NUMBER, SIZE], ["soak", NUMBER], ["soak", NUMBER, SIZE])

# Below examples/: with conditions, events, processors, an overrun, steps, and what commands alone refuse.
DOCUMENTS = ("heater", "need/wheel", "rank/cooling", "rta/mended", "cpus/pipeline", "cpus/one_processor", "replay/waiting",
             "refused/18_undelayed_upward", "refused_rank/37_cycle", "refused_scripts/28_step_name")

REFUSING = r"""
#include <errno.h>
#include <fcntl.h>
#include <stdlib.h>
#include <string.h>
#include <sys/mman.h>
#include <sys/syscall.h>
#include <unistd.h>

extern void *__libc_malloc(size_t), *__libc_calloc(size_t, size_t), *__libc_realloc(void *, size_t),
    *__libc_memalign(size_t, size_t);

// How many were seen, in the file that is named, since the program may end by _exit.
static long *seen(void) {
  static long own, *at;
  if (!at) {
    const char *name = getenv("SEEN");
    int file = name ? open(name, O_RDWR) : -1;
    at = file < 0 ? &own : mmap(NULL, sizeof own, PROT_READ | PROT_WRITE, MAP_SHARED, file, 0);
  }
  return at;
}

static long number_in(const char *name) {
  const char *text = getenv(name);
  return text ? atol(text) : -1;
}

static int refuses(const char *what, int with) {
  const char *refused = getenv("REFUSED");
  if (!refused || strcmp(refused, what)) return 0;
  long number = __atomic_add_fetch(seen(), 1, __ATOMIC_SEQ_CST), from = number_in("REFUSED_FROM");
  if (number != number_in("REFUSED_ONE") && (from <= 0 || number < from)) return 0;
  errno = with;
  return 1;
}

static size_t shorter(size_t n) {
  long most = number_in("SHORT");
  return most > 0 && n > (size_t)most ? (size_t)most : n;
}

static int has_no_memory(void) { return refuses("allocations", ENOMEM); }

void *malloc(size_t n) { return has_no_memory() ? NULL : __libc_malloc(n); }
void *calloc(size_t a, size_t n) { return has_no_memory() ? NULL : __libc_calloc(a, n); }
void *realloc(void *p, size_t n) { return has_no_memory() ? NULL : __libc_realloc(p, n); }
void *aligned_alloc(size_t a, size_t n) { return has_no_memory() ? NULL : __libc_memalign(a, n); }
int posix_memalign(void **p, size_t a, size_t n) {
  *p = has_no_memory() ? NULL : __libc_memalign(a, n);
  return *p ? 0 : ENOMEM;
}

ssize_t read(int file, void *to, size_t n) {
  return refuses("reads", EIO) ? -1 : syscall(SYS_read, file, to, shorter(n));
}

ssize_t write(int file, const void *from, size_t n) {
  return refuses("writes", EIO) ? -1 : syscall(SYS_write, file, from, shorter(n));
}
"""


class Refused(Enum):
    """What is refused, by the word that tells the library, and the status of a run that can't go on without it."""

    ALLOCATIONS = ("allocations", 6)
    READS = ("reads", 4)
    WRITES = ("writes", 5)


class Refusal(Enum):
    """Which ones are refused, by the variable that tells the library."""

    ONE = "REFUSED_ONE"
    ALL_FROM = "REFUSED_FROM"


class End(Enum):
    """How a run ended."""

    STATUS = "with its status"
    USUAL = "with the usual answer"
    WRONG = "with another"


@dataclass(frozen=True)
class Trial:
    """A command whose document is given to the calls, with what the library refuses of it."""

    calls: Calls
    program: str
    words: list
    library: str
    refused: Refused

    def under(self, **variables):
        """Returns the exit status of a run and what it writes."""
        is_stream = self.refused != Refused.ALLOCATIONS
        short = {"SHORT": str(SHORT)} if is_stream else {}
        given = {"LD_PRELOAD": self.library, "REFUSED": self.refused.value[0], **short, **variables}
        return self.calls.answer(self.program, self.words, given)

    def count(self, folder):
        """Returns the usual answer, and how many of what is refused a run makes."""
        told = Path(folder) / "seen"
        told.write_bytes(bytes(8))
        usual = self.under(SEEN=str(told))
        return usual, int.from_bytes(told.read_bytes(), sys.byteorder)

    def end(self, usual, refusal, number):
        """Returns how a run ends of which something is refused."""
        status, written = self.under(**{refusal.value: str(number)})
        begun = written == usual[1][: len(written)] if self.refused == Refused.WRITES else not written
        if status == self.refused.value[1] and begun:
            return End.STATUS
        if (status, written) == usual:
            return End.USUAL
        print(f"{' '.join(self.words)}, {refusal.value} {number}: status {status}, {len(written)} bytes written")
        return End.WRONG


def built(folder):
    """Compiles the library, and returns its file."""
    source, library = f"{folder}/refusing.c", f"{folder}/refusing.so"
    Path(source).write_text(REFUSING)
    subprocess.run(["gcc", "-shared", "-fPIC", "-O2", "-o", library, source], check=True)
    return library


def tasks_of(document):
    """Returns the names of the tasks of a document."""
    return [it.decode() for it in re.findall(rb"^[ \t]*task[ \t]+([A-Za-z_]\w*)", document, re.MULTILINE)]


def commands_of(document):
    """Returns the commands for a document: `need` of its first task, if it has any."""
    given = {TASK: next(iter(tasks_of(document)), TASK), NUMBER: "1", SIZE: "2"}
    return [[given.get(it, it) for it in words] for words in COMMANDS]


def ends_of(program, library, kinds, job):
    """Refuses what a command of a document asks for, prints how its runs ended, and returns the counts."""
    name, document, words = job
    ends = Counter()
    with tempfile.TemporaryDirectory() as folder:
        calls = Calls(folder, SECONDS)
        calls.give(document)
        usual = calls.answer(program, words, {})
        for refused in kinds:
            trial = Trial(calls, program, words, library, refused)
            found, count = trial.count(folder)
            ends[End.WRONG] += found != usual
            for refusal in Refusal:
                own = Counter(trial.end(usual, refusal, number) for number in range(1, count + 1))
                told = ", ".join(f"{own[it]} {it.value}" for it in End)
                print(f"{' '.join(words)} {name}, {refusal.value} of {count} {refused.value[0]}: {told}", flush=True)
                ends += own
    return ends


def jobs_of(options):
    """Yields the documents with their names, each with the words of a command."""
    files = [options.document] if options.document else [TOP / "examples" / f"{it}.dbp" for it in DOCUMENTS]
    for file in files:
        document = file.read_bytes()
        for words in [options.words] if options.words else commands_of(document):
            yield file, document, words
    if not options.document:
        for words in READING_NOTHING:
            yield "", b"", [{NUMBER: "1", SIZE: "2"}.get(it, it) for it in words]
        yield "", b"", ["no", "command"]


def main():
    """Tries all commands, and returns the exit status."""
    parser = parser_of(__doc__)
    parser.add_argument("--streams", action="store_true", help="refuse reads and writes")
    parser.add_argument("--at-once", type=int, default=1, help="commands side by side (1)")
    parser.add_argument("document", type=Path, nargs="?")
    parser.add_argument("words", nargs=argparse.REMAINDER)
    options = parser.parse_args()
    kinds = (Refused.READS, Refused.WRITES) if options.streams else (Refused.ALLOCATIONS,)
    ends = Counter()
    with tempfile.TemporaryDirectory() as folder, ProcessPoolExecutor(options.at_once) as pool:
        for own in pool.map(partial(ends_of, options.program, built(folder), kinds), jobs_of(options)):
            ends += own
    print(", ".join([f"{sum(ends.values())} runs", *(f"{ends[it]} {it.value}" for it in End)]))
    return 1 if ends[End.WRONG] else 0


if __name__ == "__main__":
    sys.exit(main())
