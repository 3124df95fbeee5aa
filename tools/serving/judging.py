"""The process that judges documents: it reads one after another from its input, and writes the verdict on each.

A text comes as a line with its length and its bytes. A verdict goes as a line of JSON: the messages of tools/check with
their fixes, or what is wrong with the program.
"""

import json
from functools import partial

from checking.messages import Severity
from checking.verdicts import Judged
from ending import OUTPUT, Ended, Status, write_all
from program import run_program
from serving.cures import fixes_of

# What is raised where the tools themselves are at fault: the document that it is about has no answer, and all goes on.
FAULTS = (ArithmeticError, AttributeError, LookupError, MemoryError, RecursionError, StopIteration, TypeError, ValueError)
MOST_TOLD = 1000  # messages of a document: the first error, and then those of the first lines


def told(judged, message):
    """Returns a message of tools/check as JSON."""
    return {
        "place": [message.line, message.column, message.width],
        "severity": message.severity.value,
        "name": message.name if message.code is None else f"{message.code} {message.name}",
        "text": message.text,
        "notes": [[it.line, it.column, it.text] for it in message.notes],
        "fixes": fixes_of(judged, message),
    }


def verdict_on(program, text):
    """Returns the verdict on a document as JSON."""
    try:
        judged = Judged(partial(run_program, program), text)
        messages = judged.verdict().messages[:MOST_TOLD]
        return {"messages": [told(judged, it) for it in messages]}
    except Ended as ended:
        return {"failure": str(ended)}
    except FAULTS as fault:
        return {"failure": f"the check of a document has failed: {type(fault).__name__}"}


def judge_all(program):
    """Judges what comes until nothing does, and returns the exit status."""
    with open(0, "rb", closefd=False) as source:
        while True:
            length = source.readline()
            text = source.read(int(length)) if length else b""
            if not length or len(text) < int(length):
                return Status.DONE
            try:
                write_all(OUTPUT, json.dumps(verdict_on(program, text)) + "\n")
            except OSError:
                return Status.WRITE_FAILED


SEVERITIES = {Severity.ERROR.value: 1, Severity.WARNING.value: 2, Severity.NOTE.value: 3}  # as the protocol counts them
