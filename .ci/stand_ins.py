"""Programs that trials write and run in place of another one."""

import subprocess
from pathlib import Path


def write_program(file, text):
    """Writes a program by a process of its own.

    A file that is open for writing can't be run. This process starts others from many threads, and each has its open
    files until its own program begins.
    """
    command = ["sh", "-c", 'cat > "$1" && chmod 755 "$1"', "sh", str(file)]
    subprocess.run(command, input=text.encode(), check=True)


def between(program, room, words, answer):
    """Writes a program into a folder that answers these words by a line of the shell, and all else as another one; returns
    its path."""
    file = Path(room) / "program"
    write_program(file, f"#!/bin/sh\ncase \"$*\" in '{words}') {answer};; esac\nexec '{program}' \"$@\"\n")
    return str(file)


def without_rta(program, room):
    """Writes a program that has no command `rta`, and is another one else."""
    return between(program, room, "rta", "exit 2")
