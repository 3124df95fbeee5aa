"""How a trial ends: a comparison returns, or raises what is wrong, or it isn't made on this machine."""

import shutil
import subprocess
from dataclasses import dataclass


class Wrong(Exception):
    """Something isn't as it must be: what."""


def must(is_right, what):
    """Ends a comparison with what is wrong unless something is right."""
    if not is_right:
        raise Wrong(what)


@dataclass(frozen=True)
class Skipped:
    """Why a trial isn't made on this machine; it counts neither as passed nor as failed."""

    why: str


def lack_of(programs):
    """Returns that a trial is skipped if one of the programs that it needs isn't on the machine, else nothing."""
    missing = [it for it in programs if not shutil.which(it)]
    return Skipped(f"there is no {' and no '.join(missing)}") if missing else None


def fault_of(call, *given):
    """Returns what a comparison finds, or nothing."""
    try:
        call(*given)
    except (Wrong, subprocess.TimeoutExpired) as found:
        return str(found)
    return None


def if_there(programs, call, *given):
    """Returns what a comparison finds, or nothing; it is skipped if a program that it needs isn't there."""
    return lack_of(programs) or fault_of(call, *given)
