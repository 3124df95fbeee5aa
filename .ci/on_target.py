"""C of tools/emit_c on a Cortex-M3 that QEMU emulates, under its timer's interrupt. For .ci/tried and bench/."""

import re
from pathlib import Path

from awaited import SECONDS
from comparing import must
from compiled import BESIDE, COMPILE_SECONDS, FLAGS, NAME, SHORT_WORDS, TOOLS
from compiled import answered, emitted, executed, folder, same_lines
from pictures.service import rank_order

CROSS, EMULATOR = "arm-none-eabi-gcc", "qemu-system-arm"
NEEDED = (CROSS, EMULATOR)
CROSS_FLAGS = ("-mcpu=cortex-m3", "-mthumb", "--specs=nosys.specs", "-nostartfiles", "-T", BESIDE / "cortex_m3.ld")
EMULATED = (EMULATOR, "-M", "mps2-an385", "-display", "none", "-monitor", "none", "-serial", "stdio", "-semihosting",
            "-icount", "shift=3", "-kernel")
RELOADS = (500, 100)  # ticks of the clock between interrupts of the timer
ABOVE, BELOW = 0, 0xF0  # the tasks: the priority of the timer's interrupt


def printed_on_target(program, document, place, reload, timer=ABOVE, tools=TOOLS):
    """Returns what a Cortex-M3 prints whose timer interrupts so often, and with this priority."""
    plan = emitted(program, document, place, *SHORT_WORDS, "--target", "trace", tools=tools)
    ranks = {at: rank for rank, at in enumerate(rank_order(plan.document))}
    listed = ",".join(str(ranks[at]) for at in range(len(plan.tasks)))
    flags = [it for it in FLAGS if it != "-Wpedantic"]  # the C of the target has instructions of the processor
    flags += [f"-DRANKS={{{listed}}}", f"-DTIMER_PRIORITY={timer}", f"-DRELOAD={reload}", "-I", place]
    files = [Path(place) / it for it in ("dbp_protocol.c", f"{NAME}.c", f"{NAME}_trace.c")]
    target = Path(place) / "target"
    executed([CROSS, *CROSS_FLAGS, *flags, *files, BESIDE / "cortex_m3.c", "-o", target], COMPILE_SECONDS)
    return executed([*EMULATED, target], SECONDS)


def compare_target(program, document, timer=ABOVE, tools=TOOLS):
    """Compares the lines that a Cortex-M3 prints with those of `mean`; returns how many releases were late, and how many
    interrupts of the timer came into a task."""
    counts = []
    for reload in RELOADS:
        with folder() as place:
            lines, _, last = printed_on_target(program, document, place, reload, timer, tools).rstrip(b"\n").rpartition(b"\n")
        same_lines(lines, answered(program, ["mean"], document), f"the lines of a Cortex-M3, with {reload}")
        counts.append([int(it) for it in re.fullmatch(rb"late (\d+) preempted (\d+)", last).groups()])
    late, preempted = map(sum, zip(*counts))
    must(preempted > 0, "no interrupt of the timer came into a task")
    return late, preempted
