#!/usr/bin/env python3
"""Compares the exit status and every byte of all commands of two programs on documents that are drawn (bench/drawn_texts.py).

  bench/against_peer.py [--calls N] [--seed SEED] [--from NUMBER] [--documents N] [--at-once N] [--threads-each N]
                        [--keep FOLDER] PROGRAM OTHER

Each document that `mean` doesn't refuse is given to each command, another one to `mean` and some that are drawn. What a
simulation recorded becomes a script, with changes: that document is given to `replay` and `replay --ranked` and to others.
Commands that read nothing, and words that are no command, are tried between. Beside other programs `run` and `soak` take as
long as a hundred other calls: --threads-each says how seldom these are. It ends after so many calls (20,000; a call
is one of each program), so many documents, or an interrupt. The document of a number is the same whenever the seed is.

Differences are told at the end: one of each kind (a command, both statuses and the codes of refusals), with the smallest
document that is found to differ likewise. The last lines count the calls by command and status, and the differences. The
folder gets the documents that differ. The exit status is 0 only if there is no difference.
"""

import argparse
import random
import re
import signal
import sys
import tempfile
import time
from collections import Counter
from concurrent.futures import FIRST_COMPLETED, ProcessPoolExecutor, wait
from dataclasses import dataclass, field
from functools import partial
from pathlib import Path

from chained import Chain, built
from drawn_texts import drawn_text, made, with_changed_steps
from refuse_memory import COMMANDS, NUMBER, READING_NOTHING, SIZE, TASK, tasks_of
from running import program

OK, REFUSED, STOPPED = 0, 1, 130
BLOCK = 50  # documents of a worker's turn
TOLD_EACH = 60  # seconds after which it says how far it is
REFUSED_CALLS = 5  # commands besides `mean` that a refused document is given to
MOST_TRIES = 2000  # calls in which a document is made smaller
WITH_THREADS = ("run", "soak")
RECORDS = (("sim", "--record"), ("cpus", "--record"))
SCRIPTED = (*2 * (("replay",), ("replay", "--ranked")), ("form",), ("upgrade",), ("rank",), ("mean",))
OTHER_NAMES = ("a", "nothing", "dbp", "every", "a_name_of_24_characters_", "x" * 25, "9", "")
REFUSAL = re.compile(rb"refused: (?:line [0-9]+: )?([0-9]+)")


@dataclass(frozen=True)
class Difference:
    """A call in which two programs differ: the document's number and text, the words, and both answers."""

    number: int
    words: tuple
    text: bytes
    answers: tuple

    def kind(self):
        """Returns what differences of one kind have in common."""
        return (self.words[:1], *((status, *REFUSAL.findall(written)[:1]) for status, written in self.answers))

    def differs(self):
        """Whether the programs differ."""
        return self.answers[0] != self.answers[1]

    def told(self):
        """Returns a line that tells the difference."""
        ends = " and ".join(f"{status} {written[:160]!r}" for status, written in self.answers)
        return f"document {self.number}, `{' '.join(self.words)}`: {ends}"


@dataclass
class Compared:
    """What came of calls: how many of each command and status, and what differs."""

    counts: Counter = field(default_factory=Counter)
    differences: list = field(default_factory=list)

    def add(self, other):
        """Adds what came of other calls."""
        self.counts += other.counts
        self.differences += other.differences

    def __str__(self):
        return f"{self.calls()} calls, {len(self.differences)} differ"

    def calls(self):
        """Returns how many calls there were."""
        return sum(self.counts.values())


class Comparison:
    """The comparison of two programs on the document of a number: it goes on from commands to commands."""

    def __init__(self, options, number):
        self.number, self.text = number, drawn_text(options.seed, number)
        self.draw, self.has_threads = random.Random(f"calls {options.seed} {number}"), number % options.threads_each == 0
        self.found, self.turns = Compared(), self.commands_in_turn()
        self.asked = next(self.turns)

    def calls(self):
        """Returns the calls that come next, each with the number and the text of the document."""
        return [(self.number, self.text, words) for words in self.asked]

    def go_on(self, found):
        """Takes what came of the calls."""
        self.found.counts.update((" ".join(it.words[:1]), it.answers[0][0]) for it in found)
        self.found.differences += [it for it in found if it.differs()]
        self.asked = self.turns.send([it.answers[0] for it in found])

    def commands_in_turn(self):
        """Yields the commands for the document, and those for one with a script that is made of it; it is sent answers."""
        ((status, _),) = yield [("mean",)]
        commands = self.commands() if status != REFUSED else self.draw.sample(self.commands(), REFUSED_CALLS)
        answers = yield [tuple(map(self.drawn_word, words)) for words in commands]
        told = dict(zip(map(tuple, commands), answers))
        recorded, record = told.get(self.draw.choice(RECORDS), (REFUSED, b""))
        if status != REFUSED and recorded == OK:
            self.text = with_changed_steps(self.draw, told["form",][1], record)
            yield self.draw.sample(SCRIPTED, 4)
        yield []

    def commands(self):
        """Returns the commands for the document besides `mean`, and at times others, without those whose threads take long."""
        found = [it for it in COMMANDS if it != ["mean"] and (it != ["run"] or self.has_threads)]
        others = [it for it in READING_NOTHING if it[0] not in WITH_THREADS or self.has_threads]
        if self.has_threads or self.draw.randrange(20) == 0:
            found += [self.draw.choice(others), self.draw.choice(made("words").NO_COMMANDS).split()]
        return found

    def drawn_word(self, word):
        """Returns a word of a command, or a drawn one for a word that stands for others."""
        draw = self.draw
        if word == TASK:
            return draw.choice([*tasks_of(self.text) * 4, *OTHER_NAMES])
        if word == NUMBER:
            return str(draw.choice((0, 1, draw.randrange(1000), draw.randrange(2**64), 2**64)))
        return str(draw.choice((1, 2, draw.randrange(1, 33), 33))) if word == SIZE else word


def answered(chain, options, calls):
    """Returns the answers of both programs to calls, each with the number and the text of a document; they may differ."""
    programs = options.program, options.other
    answers = iter(chain.answers([(text, [path, *words]) for _, text, words in calls for path in programs]))
    return [Difference(number, words, text, (next(answers), next(answers))) for number, text, words in calls]


def smaller(chain, options, difference):
    """Returns a difference of the same kind in a small document."""
    tries = iter(range(MOST_TRIES))

    def tried(parts):
        return answered(chain, options, [(difference.number, b"".join(parts), difference.words)])[0]

    def differs(parts):
        found = next(tries, None) is not None and tried(parts)
        return found and found.differs() and found.kind() == difference.kind()

    lines = least(re.findall(rb"[^\n]*\n|[^\n]+", difference.text), differs)
    return tried(least(re.findall(rb"\w+|\s|.", b"".join(lines)), differs))


def least(parts, differs):
    """Returns parts of a text of which none is left out without the difference."""
    size = (len(parts) + 1) // 2
    while size:
        at = 0
        while at < len(parts):
            fewer = parts[:at] + parts[at + size :]
            if differs(fewer):
                parts = fewer
            else:
                at += size
        size //= 2
    return parts


def compared_block(library, options, numbers):
    """Compares the documents of some numbers, in a process of its own."""
    found, going_on = Compared(), [Comparison(options, number) for number in numbers]
    with tempfile.TemporaryDirectory() as folder:
        chain = Chain(folder, library)
        while going_on:
            answers = iter(answered(chain, options, [call for it in going_on for call in it.calls()]))
            for it in going_on:
                it.go_on([next(answers) for _ in it.asked])
                if not it.asked:
                    found.add(it.found)
            going_on = [it for it in going_on if it.asked]
    return found


def blocks_of(options):
    """Yields the numbers of documents, in blocks."""
    last = sys.maxsize if options.documents is None else options.first + options.documents
    for first in range(options.first, last, BLOCK):
        yield range(first, min(first + BLOCK, last))


def all_compared(options, library):
    """Yields what came of each block, until there were enough calls."""
    blocks, made_calls = blocks_of(options), 0
    call = partial(compared_block, library, options)
    with ProcessPoolExecutor(options.at_once, initializer=signal.signal, initargs=(signal.SIGINT, signal.SIG_IGN)) as pool:
        pending = set()
        while True:
            while made_calls < options.calls and len(pending) <= options.at_once:
                block = next(blocks, None)
                if block is None:
                    break
                pending.add(pool.submit(call, block))
            if not pending:
                return
            ended, pending = wait(pending, return_when=FIRST_COMPLETED)
            for found in (it.result() for it in ended):
                made_calls += found.calls()
                yield found


def tell(options, library, found, seconds):
    """Prints one difference of each kind, and the counts."""
    kinds = {}
    for difference in found.differences:
        kinds.setdefault(difference.kind(), []).append(difference)
    with tempfile.TemporaryDirectory() as folder:
        for differences in kinds.values():
            first = min(differences, key=lambda it: len(it.text))
            least_one = smaller(Chain(folder, library), options, first)
            print(f"{len(differences)} like this: {least_one.told()}\n{least_one.text.decode('latin-1')}", flush=True)
    for (word, status), count in sorted(found.counts.items()):
        print(f"{word or 'no word'}, status {status}: {count}")
    print(f"{found}, {found.calls() / seconds:.0f} in a second")


def read_options():
    """Returns what is asked for."""
    parser = argparse.ArgumentParser(description=__doc__, formatter_class=argparse.RawDescriptionHelpFormatter)
    parser.add_argument("program", type=program, metavar="PROGRAM", help="a program")
    parser.add_argument("other", type=program, metavar="OTHER", help="another one")
    parser.add_argument("--calls", type=int, default=20_000, help="how many calls, about (20000)")
    parser.add_argument("--seed", type=int, default=1, help="what the documents are drawn from (1)")
    parser.add_argument("--from", dest="first", type=int, default=0, metavar="NUMBER", help="the first document's number (0)")
    parser.add_argument("--documents", type=int, help="how many documents (as many as the calls need)")
    parser.add_argument("--at-once", type=int, default=1, help="processes that compare side by side (1)")
    parser.add_argument("--threads-each", type=int, default=20, metavar="N",
                        help="one of so many documents has commands with threads (20)")
    parser.add_argument("--keep", type=Path, metavar="FOLDER", help="gets the documents that differ")
    return parser.parse_args()


def keep(folder, differences):
    """Writes the documents that differ into a folder, and tells each difference."""
    for it in differences:
        print(it.told(), flush=True)
        if folder:
            folder.mkdir(parents=True, exist_ok=True)
            (folder / f"{it.number}_{'_'.join(it.words)}.dbp").write_bytes(it.text)


def compare_all(options, library, all_found):
    """Compares until there were enough calls or it is interrupted, and returns whether it was."""
    start, told = time.monotonic(), 0
    try:
        for found in all_compared(options, library):
            keep(options.keep, found.differences)
            all_found.add(found)
            seconds = time.monotonic() - start
            if seconds // TOLD_EACH > told:
                told = seconds // TOLD_EACH
                print(f"{seconds:.0f} s: {all_found}", file=sys.stderr, flush=True)
    except KeyboardInterrupt:
        return True
    return False


def main():
    """Compares the programs, tells what was found, and returns the exit status."""
    options, all_found, start = read_options(), Compared(), time.monotonic()
    with tempfile.TemporaryDirectory() as folder:
        library = built(folder)
        is_stopped = compare_all(options, library, all_found)
        tell(options, library, all_found, time.monotonic() - start)
    return STOPPED if is_stopped else 1 if all_found.differences else 0


if __name__ == "__main__":
    sys.exit(main())
