#!/usr/bin/env -S python3 -S
"""Proves the crates that the program dbp is made of side by side, and builds the program.

The launcher ./dbp calls it, one call at a time. One `rt` at a time may work in a crate and in all crates below it, so
each crate is proved in a room: a copy of the sources in a folder of its own, with the libraries below linked in. What
rt keeps of a crate goes back to crates/NAME/out as soon as it stands, so an interrupted build goes on from there.
The exit status is 0, 70 if a proof or the build fails, 130 if it is interrupted.
"""

import os
import re
import shutil
import signal
import subprocess
import sys
import tempfile
import time
from concurrent.futures import FIRST_COMPLETED, ThreadPoolExecutor, wait
from pathlib import Path

import ending

TOP = Path(__file__).resolve().parent.parent
PROGRAM = "dbp"
PARTS = ("src", "specs", "proofs")
KEPT = ("incremental", "rlib", PROGRAM, f"{PROGRAM}.stamp")  # what rt makes in out/
MEMORY = 3 << 30  # bytes that the proof of one crate may take
LAST_LINES = 12  # of a log, shown if a proof fails
SMALLEST = b"dbp 1\npolicy fp\nuntil 0\ndone\n"


NO_RT = "rt isn't on the path: the command of the Rattle kit that proves the crates and builds the program"


def say(text):
    ending.say(f"dbp: {text}")


class Failed(Exception):
    """The crate of this name isn't proved or built; its log tells why."""


class Crate:
    """A crate: its line of crates.txt, and the names of this repository's crates that it stands on."""

    def __init__(self, name, line, below):
        self.name = name
        self.line = line
        self.below = below
        self.folder = TOP / "crates" / name
        files = [it for part in PARTS for it in (self.folder / part).rglob("*") if it.is_file()]
        self.size = sum(it.stat().st_size for it in files)


def crates_of(program):
    """Returns the crates that the program is made of, by name, each after those that it stands on."""
    lines, found = {}, {}
    for line in (TOP / "crates.txt").read_text().splitlines():
        head, colon, _ = line.partition("#")[0].partition(":")
        if colon:
            lines[head.split()[0]] = line

    def add(name):
        below = [it for it in lines[name].partition("#")[0].partition(":")[2].split() if it in lines]
        for it in below:
            if it not in found:
                add(it)
        found[name] = Crate(name, lines[name], below)

    add(program)
    return found


def all_below(crates, name):
    """Returns the names of all crates that a crate stands on."""
    direct = crates[name].below
    return {*direct}.union(*(all_below(crates, it) for it in direct))


def chains(crates):
    """Returns for each crate the size of the longest chain of crates from it up to the program."""
    longest = dict.fromkeys(crates, 0)
    for name in reversed(list(crates)):
        longest[name] += crates[name].size
        for it in crates[name].below:
            longest[it] = max(longest[it], longest[name])
    return longest


def processors():
    return len(os.sched_getaffinity(0))


def free_memory():
    found = re.search(r"MemAvailable:\s+(\d+)", Path("/proc/meminfo").read_text())
    return int(found[1]) << 10


def move(source, target):
    """Puts a file or folder into the place of another, if it is there."""
    if source.exists():
        if target.is_dir():
            shutil.rmtree(target)
        target.parent.mkdir(parents=True, exist_ok=True)
        os.replace(source, target)


class Room:
    """A folder with the sources and the libraries that the proof of one crate needs."""

    def __init__(self, rooms, crates, crate):
        self.folder = rooms / crate.name
        self.at = self.folder / "crates" / crate.name
        self.crate = crate
        self.folder.mkdir()
        shutil.copyfile(TOP / "HANDLES", self.folder / "HANDLES")
        names = {crate.name} | all_below(crates, crate.name)
        (self.folder / "crates.txt").write_text("".join(f"{crates[name].line}\n" for name in names))
        for name in names:
            self.link(rooms / "sources" / name, name)
            if name != crate.name:
                self.link(crates[name].folder / "out" / "rlib", f"{name}/out/rlib")
        for part in KEPT:
            move(crate.folder / "out" / part, self.at / "out" / part)

    def link(self, folder, place):
        shutil.copytree(folder, self.folder / "crates" / place, copy_function=os.link)

    def give_back(self):
        for part in KEPT:
            move(self.at / "out" / part, self.crate.folder / "out" / part)
        shutil.rmtree(self.folder)


class Build:
    """The proofs of the program's crates: which stand, and which run."""

    def __init__(self, crates, rooms):
        self.crates = crates
        self.rooms = rooms
        self.running = []  # processes
        self.is_over = False
        self.started = time.time()
        self.logs = TOP / "crates" / PROGRAM / "out" / "log"
        self.logs.mkdir(parents=True, exist_ok=True)

    def snapshot(self):
        """Copies the sources, so that an edit made meanwhile changes nothing here."""
        for it in self.crates.values():
            for part in PARTS:
                if (it.folder / part).is_dir():
                    shutil.copytree(it.folder / part, self.rooms / "sources" / it.name / part)

    def call(self, room, jobs):
        """Runs rt on the crate of a room. One with a single job gives way to the others."""
        verb, words = ("run", ["--", "mean"]) if room.crate.name == PROGRAM else ("lib", [])
        command = ["nice"] * (jobs == 1) + ["rt", verb, "--jobs", str(jobs), *words]
        with open(self.logs / room.crate.name, "wb") as log:
            how = {"cwd": room.at, "stdin": subprocess.PIPE, "stdout": log, "stderr": log}
            started = subprocess.Popen(command, **how)
            self.running.append(started)
            started.communicate(SMALLEST)
            self.running.remove(started)
        return started.returncode

    def prove(self, name, jobs):
        if self.is_over:
            raise Failed(name)
        room = Room(self.rooms, self.crates, self.crates[name])
        try:
            if self.call(room, jobs):
                raise Failed(name)
        finally:
            room.give_back()

    def prove_all(self):
        """Proves the crates with the longest chain above them first, as many side by side as there is room for.

        The first gets a job for each processor, the second half of that, and the others one.
        """
        longest = chains(self.crates)
        left = sorted(self.crates, key=lambda it: -longest[it])
        at_once = max(1, min(processors(), free_memory() // MEMORY))
        running, proved = {}, set()
        with ThreadPoolExecutor(at_once) as pool:
            while left or running:
                ready = [it for it in left if proved.issuperset(self.crates[it].below)]
                for name in ready[: at_once - len(running)]:
                    before = sum(longest[it] > longest[name] for it in running.values())
                    jobs = max(1, processors() // (before + 1)) if before < 2 else 1
                    left.remove(name)
                    running[pool.submit(self.prove, name, jobs)] = name
                for it in wait(running, return_when=FIRST_COMPLETED).done:
                    name = running.pop(it)
                    self.check(it)
                    proved.add(name)
                    say(f"{name} is proved: {len(proved)} of {len(self.crates)} crates, {self.minutes()}")

    def check(self, proof):
        """Ends the other proofs if one has failed."""
        if proof.exception():
            self.stop()
            raise proof.exception()

    def minutes(self):
        return f"{(time.time() - self.started) / 60:.1f} minutes"

    def stop(self, *_):
        """Ends what runs, and lets nothing more begin."""
        self.is_over = True
        for it in [*self.running]:
            it.terminate()


def build(rooms):
    crates = crates_of(PROGRAM)
    kept = [it for it in crates.values() if (it.folder / "out" / "rlib").is_dir()]
    how_long = "about half an hour on four processors" if len(kept) < len(crates) / 2 else "what has changed"
    say(f"proving {len(crates)} crates ({how_long}), then building the program")
    say("meanwhile ./try WORDS < DOCUMENT runs it unproved")
    it = Build(crates, rooms)
    is_interrupted = []
    for number in (signal.SIGINT, signal.SIGTERM, signal.SIGHUP):
        signal.signal(number, lambda *_: (is_interrupted.append(True), it.stop()))
    it.snapshot()
    try:
        it.prove_all()
    except Failed as failed:
        if is_interrupted:
            say("interrupted: what is proved is kept for the next call")
            return 130
        log = it.logs / str(failed)
        ending.say("\n".join(log.read_text(errors="replace").splitlines()[-LAST_LINES:]))
        say(f"{failed} isn't proved or built. Its whole log: {log}")
        return 70
    stamp = TOP / "crates" / PROGRAM / "out" / "launcher.stamp"
    stamp.touch()
    os.utime(stamp, (it.started, it.started))
    say(f"built, after {it.minutes()}")
    return 0


def main():
    if not shutil.which("rt"):
        say(NO_RT)
        return ending.Status.CANNOT_RUN
    git = TOP / ".git"
    try:
        with tempfile.TemporaryDirectory(prefix="dbp-rooms-", dir=git if git.is_dir() else None) as rooms:
            return build(Path(rooms))
    except OSError as error:
        say(f"the program can't be built: {error}")
        return ending.Status.CANNOT_RUN


if __name__ == "__main__":
    ending.catch_stops()
    ending.fill_closed_streams()
    sys.exit(main())
