#!/usr/bin/env python3
"""Makes a copy of the crates in which something about waiting is changed, to see what `bench/hangs.py` finds in it.

  bench/planted.py --list
  bench/planted.py CHANGE [CHANGE ..] FOLDER

FOLDER is new. It gets `dbp`, which proves the crates of the copy and builds crates/dbp/out/dbp: give that program to
`bench/hangs.py --program`. No clause speaks of bells, rounds or paces; but that a copy is proved was never tried, and
the numbers that `drawn_pauses` computes have no proof. The copies of bench/RESULTS.md were built without any.
"""

import argparse
import shutil
import sys
from dataclasses import dataclass
from pathlib import Path

TOP = Path(__file__).resolve().parent.parent
SOURCES = "crates/party_exec/src"
COPIED = ("crates", "crates.txt", "HANDLES", "dbp", "tools")

# Before each turn, and after it before it rings, a job loads a word so often as is drawn: mostly seldom, at times for as
# long as it takes to fall asleep. What is drawn differs with the time until which the document runs.
PAUSE = """
// What is drawn at this turn of the party.
fn draws_at(words: &SlotWords, party: &Party) -> SplitMix64 {
    let mut seed = words.plan().diagram.until;
    for number in [party.turn_number(), u64::from(number_in(words, party))] {
        seed = SplitMix64::seed_from_u64(seed).next_word() ^ number;
    }
    SplitMix64::seed_from_u64(seed)
}

// Loads a word a drawn number of times.
fn pause(round: &Round, draws: &mut SplitMix64) {
    let most = 1u64 << (draws.next_word() % 17);
    let loads = draws.next_word() % most;
    for _ in 0..loads {
        if round.is_ending() {
            return;
        }
    }
}

// One turn of the party. Then it rings"""

# A ring pauses where what a job says of its waiting may change meanwhile: after it has found a late writer, and after it has
# rung for the readers.
RING_PAUSE = """impl Round {
    // Loads a word for about as long as it takes to fall asleep.
    fn pause(&self) {
        for _ in 0..20_000 {
            if self.is_ending() {
                return;
            }
        }
    }

"""


SLEEP = "{ bell.sleep(rt, rings); bell.say_awake(); Waiting::No }"


@dataclass(frozen=True)
class Change:
    """Texts of one file, each of which occurs once, with those that stand for them."""

    about: str
    file: str
    texts: dict


CHANGES = {
    "drawn_pauses": Change("jobs pause before and after a turn, for a time that is drawn", "job.rt", {
        "use std::sync::Wait;": "use rand_core::SeedableRng;\nuse rand_core::utils::NextWord;\n"
                                "use rand_xoshiro::SplitMix64;\nuse std::sync::Wait;",
        "\n// One turn of the party. Then it rings": PAUSE,
        "    let turn = paced_turn(pace, words, party);\n":
            "    let mut draws = draws_at(words, party);\n"
            "    pause(round, &mut draws);\n"
            "    let turn = paced_turn(pace, words, party);\n"
            "    pause(round, &mut draws);\n",
    }),
    "paused_rings": Change("a ring pauses after it has found a late writer, and after it has rung for the readers", "concern.rt", {
        "impl Round {\n": RING_PAUSE,
        "                return Some((link.writer, claim.number));\n":
            "                self.pause();\n"
            "                return Some((link.writer, claim.number));\n",
        "                self.bell(link.reader).ring_after(task);\n            }\n        }\n":
            "                self.bell(link.reader).ring_after(task);\n            }\n        }\n        self.pause();\n",
    }),
    "never_rung": Change("a bell is never rung after a step", "bell.rt", {
        "if self.awaits(party) {\n            self.ring();": "if self.awaits(party) {",
    }),
    "rung_before": Change("a bell is rung before the step", "job.rt", {
        "    let turn = paced_turn(pace, words, party);\n    round.ring(words, number_in(words, party), party, concern);\n":
            "    round.ring(words, number_in(words, party), party, concern);\n"
            "    let turn = paced_turn(pace, words, party);\n",
    }),
    "no_look": Change("a job that has said that it waits and sleeps doesn't look again", "waiting.rt", {
        "Waiting::No => begun(round, bell, awaited(words, party)),":
            "Waiting::No => match begun(round, bell, awaited(words, party)) {\n"
            "                Waiting::Watching { rings } => match watched(round, bell, rings) {\n"
            "                    Waiting::Sleeping { rings } => " + SLEEP + "\n"
            "                    other => other,\n"
            "                },\n"
            "                other => other,\n"
            "            },",
    }),
    "no_last_look": Change("a job that has said that it sleeps doesn't look again", "waiting.rt", {
        "Waiting::Watching { rings } => watched(round, bell, rings),":
            "Waiting::Watching { rings } => match watched(round, bell, rings) {\n"
            "                Waiting::Sleeping { rings } => " + SLEEP + "\n"
            "                other => other,\n"
            "            },",
    }),
    "said_after": Change("a task says that it is done after it has rung", "concern.rt", {
        "                self.bell(number).say_done(instances_done(party));\n"
        "                self.ring_readers(words, task);\n":
            "                self.ring_readers(words, task);\n"
            "                self.bell(number).say_done(instances_done(party));\n",
    }),
    "not_asked_again": Change("the releaser leaves a task to a writer without asking again whether it is done", "concern.rt", {
        "bell.pass(releaser, writer) && self.has_done(writer, instances)": "bell.pass(releaser, writer) && false",
    }),
    "silent_end_of_a_task": Change("the step `end` of a task doesn't ring for the releaser", "concern.rt", {
        "Place::End => Concern::Party(releaser_number(words)),": "Place::End => Concern::Nobody,",
    }),
    "silent_end_of_a_job": Change("a job that ends before its party rings no bell", "round.rt", {
        "        for bell in &self.bells {\n            bell.ring();\n        }\n": "",
    }),
}


def changed(text, change):
    """Returns the text of the change's file with the change in it."""
    for old, new in change.texts.items():
        if text.count(old) != 1:
            sys.exit(f"{SOURCES}/{change.file} no longer has once: {old.strip()}")
        text = text.replace(old, new)
    return text


def make_copy(changes, folder):
    """Copies what is built, with the changes."""
    folder.mkdir(parents=True)
    for name in COPIED:
        if (TOP / name).is_dir():
            shutil.copytree(TOP / name, folder / name, symlinks=True, ignore=shutil.ignore_patterns("out"))
        else:
            shutil.copy(TOP / name, folder)
    for change in changes:
        file = folder / SOURCES / change.file
        file.write_text(changed(file.read_text(), change))


def main():
    parser = argparse.ArgumentParser(description=__doc__, formatter_class=argparse.RawDescriptionHelpFormatter)
    parser.add_argument("--list", action="store_true", help="list the changes")
    parser.add_argument("words", nargs="*", metavar="CHANGE .. FOLDER")
    options = parser.parse_args()
    if options.list:
        for name, change in CHANGES.items():
            print(f"{name:<24}{change.about}")
        return 0
    *changes, folder = options.words or [None]
    if not changes:
        parser.error("a change and a folder are wanted")
    unknown = [it for it in changes if it not in CHANGES]
    if unknown:
        parser.error(f"no such change: {unknown[0]}")
    try:
        make_copy([CHANGES[it] for it in changes], Path(folder))
    except OSError as error:
        sys.exit(f"planted.py: {error}")
    return 0


if __name__ == "__main__":
    sys.exit(main())
