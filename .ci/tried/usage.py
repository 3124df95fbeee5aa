"""What the program says on standard error of words that name no command: how it is called, and a line for each command."""

import subprocess
import sys
from functools import partial
from pathlib import Path

sys.path.insert(0, str(Path(__file__).resolve().parents[1]))

from awaited import SECONDS  # noqa: E402

USAGE = b"""\
dbp: usage: dbp COMMAND < DOCUMENT, where COMMAND is one of:
  mean
  sim
  sim --record
  cpus
  cpus --record
  run
  run --turns N
  run --turns=N
  form
  upgrade
  rank
  plan
  rta
  need TASK
  replay
  replay --ranked
  gen N
  gen N SIZE
  soak N
  soak N SIZE
"""


def usage_fault(program, words):
    """Returns how the end of a call or what it says differs from what is wanted, or nothing."""
    how = {"stdin": subprocess.DEVNULL, "capture_output": True, "timeout": SECONDS, "check": False}
    ran = subprocess.run([program, *words], **how)
    if (ran.returncode, ran.stdout, ran.stderr) != (2, b"", USAGE):
        return f"the status is {ran.returncode}; it printed {ran.stdout[:100]!r} and said {ran.stderr!r}"
    return None


def trials(program):
    for words in ([], ["men"], ["need"]):
        yield f"usage of {' '.join(words) or 'no words'}", partial(usage_fault, program, words)
