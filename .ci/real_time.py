"""Programs of the target `posix` of tools/emit_c: run in real time, disturbed, and compared with the program's answers.

The user's part is .ci/tried/emit_c/real_time.c: inputs with drawn values, rows that are kept, tasks that take the processor for
a while, and events that a thread and a signal handler raise. What a run logged is compared with what that part got and told:
the rows of `mean` on the logged document, each occurrence of an event with a raise, and the overruns with the logged times.
For .ci/tried and bench/.
"""

import ctypes
import os
import re
import resource
import signal
import subprocess
import sys
import tempfile
import threading
import time
from contextlib import contextmanager, suppress
from dataclasses import dataclass
from pathlib import Path

from awaited import SECONDS, wait_for
from comparing import must
from compiled import BESIDE, COMPILE_SECONDS, FLAGS, NAME, TOOLS, TOP, answered, emitted, executed, same_lines
from pictures.service import rank_order

NOBODY = 65534
ORDINARY = "it runs as an ordinary user"
TICK = 10**6  # nanoseconds
TICKS = 2_000
QUIET_TICKS = 200  # at the end, in which no event is raised

USER = BESIDE / "real_time.c"
EXAMPLES = ("examples/speed_control.dbp", "examples/logger.dbp", "examples/heater.dbp")
SIGNALS = 40
WRAPPED = "-Wl,--wrap=pthread_setschedparam,--wrap=syscall,--wrap=pthread_setaffinity_np"

# A diagram under `edf` that SCHED_DEADLINE can serve.
DEADLINES = b"""dbp 1
policy edf
until 1
input gauge = 0
task fast every 5 deadline 4 cost 1
  sense now = gauge
  out y = 0 then now
task slow every 10 deadline 10 cost 3
  state n = 0
  read x = fast.y
  read before = pre 2 fast.y
  next n = n + x
  out z = 0 then n - before
done
"""


def user_text(plan, tick):
    """Returns the C of a user of a diagram."""
    drawn = "\n{\n    return (int64_t)(next_of(&drawn) % 9) - 2;\n}\n"
    inputs = [f"int64_t it_input_{own}(void){drawn}" for own in plan.inputs.values()]
    rows = []
    for number, (task, own) in enumerate(zip(plan.document.tasks, plan.tasks)):
        names = [f"out{at}" for at in range(len(task.outs))]
        period = getattr(task.clock, "period", 20) * tick
        rows.append(f"void it_{own}_row(uint32_t instance, {', '.join(f'int64_t {it}' for it in names)})\n{{\n"
                    f"    const int64_t outs[] = {{{', '.join(names)}}};\n"
                    f"    work(instance, {number}, {task.cost * tick}, {period});\n"
                    f"    keep({number}, instance, {len(names)}, outs);\n}}\n")
    raise_one = "        it_raise_{}();\n        count_raise({});"
    raises = [raise_one.format(own, at) for at, own in enumerate(plan.events.values())]
    text = USER.read_text()
    for word, lines in (("INPUTS", inputs), ("ROWS", rows), ("RAISES", raises)):
        text = text.replace(f"/* {word} */", "\n".join(lines))
    return text


@dataclass
class Built:
    """A program in a folder, with the plan of its document and the nanoseconds of a tick."""

    place: Path
    executable: Path
    plan: object
    tick: int


def built(program, document, place, tick=TICK, tools=TOOLS, words=(), flags=()):
    """Returns the program of a document in real time, whose ticks have so many nanoseconds."""
    place = Path(place)
    plan = emitted(program, document, place, "--target", "posix", "--tick", f"{tick}ns", "--log", *words, tools=tools)
    (place / "user.c").write_text(user_text(plan, tick))
    files = [place / it for it in ("dbp_protocol.c", "dbp_posix.c", f"{NAME}.c", f"{NAME}_posix.c", "user.c")]
    command = ["cc", *FLAGS, "-Wno-unused-function", *flags, "-pthread", "-I", place, *files, "-o", place / "run"]
    executed(command, COMPILE_SECONDS)
    return Built(place, place / "run", plan, tick)


def ordinary():
    """Returns how a process is started as an ordinary user."""
    return {"user": NOBODY, "group": NOBODY, "extra_groups": []} if os.geteuid() == 0 else {}


@dataclass
class Outcome:
    """What a run printed and said, and its log: the document, the rows and the times."""

    printed: list
    said: str
    document: bytes
    rows: bytes
    times: list


def start(it, ticks, seed, is_ordinary=True):
    """Starts a run."""
    it.place.chmod(0o777)
    raising = max(0, ticks - QUIET_TICKS) * it.tick
    words = [it.executable, str(ticks), it.place / "log", str(seed), str(raising), str((ticks - 1) * it.tick)]
    how = {"cwd": it.place, **(ordinary() if is_ordinary else {})}
    return subprocess.Popen(words, stdin=subprocess.DEVNULL, stdout=subprocess.PIPE, stderr=subprocess.PIPE, **how)


def finish(it, started):
    """Waits for the end of a run, and returns what came of it."""
    try:
        printed, said = started.communicate(timeout=SECONDS)
    except subprocess.TimeoutExpired:
        started.kill()
        started.communicate()
        must(False, f"the run hadn't ended after {SECONDS} seconds")
    must(started.returncode == 0, f"the run ends with {started.returncode}: {said.decode(errors='replace')[:300]}")
    texts = [(it.place / f"log.{end}").read_bytes() for end in ("dbp", "rows", "times")]
    times = [line.split(",") for line in texts[2].decode().splitlines()[1:]]
    return Outcome(printed.decode().splitlines(), said.decode(), texts[0], texts[1], times)


def compare_rows(program, it, found):
    """Compares the rows that were written with those of `mean` on the inputs that were logged."""
    same_lines(found.rows, answered(program, ["mean"], found.document), "the rows of a run in real time")
    mine = {}
    for line in found.printed:
        words = line.split()
        if words[0] == "row":
            mine.setdefault(int(words[1]), []).append([*map(int, words[2:])])
    cut = [line.split(",") for line in found.rows.decode().splitlines()]
    for number, task in enumerate(it.plan.document.tasks):
        rows = [[int(line[2]), *map(int, line[3:])] for line in cut if line[1] == task.name]
        kept = [row[: 1 + len(task.outs)] for row in mine.get(number, [])]
        must(rows == kept, f"the user got other rows of {task.name} than the log has")


def overruns_in(it, times):
    """Returns the overruns that the times have: each release of an instance before the end of the one before it."""
    ends, found = {}, []
    for tick, task, instance, released, ended, _ in times:
        released, ended = int(released), int(ended)
        must(int(instance) == 1 or task in ends, f"{task} {instance} is the first line of its task")
        if task in ends and ends[task] > released:
            found.append((task, int(instance), int(tick)))
        must(released >= int(tick) * it.tick, f"{task} {instance} was released before its tick {tick}")
        must(ended > released, f"{task} {instance} ended before it was released")
        must(task not in ends or ended > ends[task], f"{task} {instance} ended before the instance before it")
        ends[task] = ended
    return found


def compare_overruns(it, found):
    """Compares the overruns that were counted and told with those that the times have; returns how many there are."""
    wanted = overruns_in(it, found.times)
    counted = [(line[1], int(line[2]), int(line[0])) for line in found.times if line[5] == "1"]
    must(counted == wanted, f"{len(counted)} overruns are in the log, and the times have {len(wanted)}")
    names = [task.name for task in it.plan.document.tasks]
    told = [[*map(int, line.split()[1:])] for line in found.printed if line.startswith("overrun ")]
    told = sorted((tick, task, instance) for task, instance, tick in told)
    wanted = sorted((tick, names.index(task), instance) for task, instance, tick in wanted)
    must(told == wanted, f"{len(told)} overruns were told, and the times have {len(wanted)}")
    return len(wanted)


def compare_events(it, found):
    """Compares how often events occurred with how often they were raised: before the last tick, and in all."""
    raised = [[*map(int, line.split()[2:])] for line in found.printed if line.startswith("raised ")]
    rows = found.document.decode().split("\ntrace\n")[1].splitlines()
    header = rows[0].split(",")
    for number, event in enumerate(it.plan.events):
        column = header.index(event)
        count = sum(row.split(",")[column] == "1" for row in rows[1:-1])
        least, most = raised[number]
        must(least <= count <= most, f"{event} occurred {count} times, and was raised {least} to {most} times")


def compare_run(program, it, found, ticks):
    """Compares all that came of a run; returns how many overruns it had."""
    until = int(found.document.decode().split("\nuntil ")[1].split("\n")[0])
    must(until == ticks, f"the run got to {until}, and {ticks} is wanted")
    compare_rows(program, it, found)
    compare_events(it, found)
    return compare_overruns(it, found)


@contextmanager
def busy_loops(count):
    """Lets so many loops take processors."""
    loops = [subprocess.Popen(["sh", "-c", "while :; do :; done"]) for _ in range(count)]
    try:
        yield
    finally:
        for loop in loops:
            loop.kill()
            loop.wait()


# Disturbances.

LIBC = ctypes.CDLL(None, use_errno=True)
SYS_TGKILL = {"x86_64": 234, "aarch64": 131}.get(os.uname().machine)
PTRACE_SEIZE, PTRACE_INTERRUPT, PTRACE_DETACH = 0x4206, 0x4207, 17
WALL = 0x40000000


def threads_of(pid):
    """Returns the threads of a process by their names."""
    found = {}
    with suppress(OSError):  # the process or one of its threads has just ended
        for thread in Path(f"/proc/{pid}/task").iterdir():
            found[(thread / "comm").read_text().strip()] = int(thread.name)
    return found


def wait_for_threads(pid, names):
    """Returns the threads of a process once it has those of these names."""
    return wait_for(lambda: threads_of(pid), lambda found: all(name[:15] in found for name in names))


def interrupt(pid, thread, number=signal.SIGUSR1):
    """Sends a signal to a thread; to the process if the number of the system's call isn't known here."""
    if SYS_TGKILL is None:
        os.kill(pid, number)
    else:
        LIBC.syscall(SYS_TGKILL, pid, thread, int(number))


def traced(request, thread):
    """Makes a request of ptrace, and returns whether it is granted."""
    LIBC.ptrace.restype = ctypes.c_long
    return LIBC.ptrace(request, thread, None, None) == 0


def held_up(thread, seconds):
    """Holds a thread as a debugger does; returns whether it could. One thread makes all requests."""
    found = []

    def hold():
        if traced(PTRACE_SEIZE, thread) and traced(PTRACE_INTERRUPT, thread):
            os.waitpid(thread, WALL)
            time.sleep(seconds)
            found.append(traced(PTRACE_DETACH, thread))

    holder = threading.Thread(target=hold)
    holder.start()
    holder.join()
    return bool(found) and found[0]


# What is compared.


def undisturbed(it, started):
    """Leaves a run alone."""


def crowded(it, started):
    """Lets four loops take processors for two seconds."""
    with busy_loops(4):
        time.sleep(TICKS * TICK / 10**9)


def interrupted(it, started):
    """Sends signals to the releaser, which raise events."""
    threads = wait_for_threads(started.pid, ["the releaser"])
    for _ in range(SIGNALS):
        interrupt(started.pid, threads["the releaser"])
        time.sleep(0.01)


def stopped(it, started):
    """Stops the whole some times."""
    wait_for_threads(started.pid, ["the releaser"])
    for _ in range(4):
        started.send_signal(signal.SIGSTOP)
        time.sleep(0.05)
        started.send_signal(signal.SIGCONT)
        time.sleep(0.05)


def held(it, started):
    """Holds each task up as a debugger does, and then the releaser."""
    names = [*(task.name for task in it.plan.document.tasks), "the releaser"]
    threads = wait_for_threads(started.pid, names)
    could = [held_up(threads[name[:15]], 0.05) for name in names]
    if not all(could):
        print("real_time.py: a task that is held up is skipped, since the system forbids ptrace", file=sys.stderr)


DISTURBANCES = (undisturbed, interrupted, stopped, held)


def served_of(program, document, *words, tools=TOOLS):
    """Returns what each thread asks the system for, by its name, and the plan of a document."""
    with new_folder() as place:
        it = built(program, document, place, words=words, flags=(WRAPPED, BESIDE / "served.c"), tools=tools)
        found = finish(it, start(it, 20, 3))
        told = {}
        for name, text in re.findall(r"(?m)^served ([^:]*): (.*)$", found.said):
            told.setdefault(name, []).append(text)
        return told, it.plan


def compare_served(program, tools=TOOLS):
    """Compares how threads are served by ranks: the releaser above all tasks, and each bound to a processor."""
    for file in EXAMPLES:
        told, plan = served_of(program, (TOP / file).read_bytes(), tools=tools)
        document = plan.document
        top = told["the releaser"][-1].split()
        numbers = [told[document.tasks[at].name[:15]][-1].split() for at in rank_order(document)]
        priorities = [int(number) for _, number in [top, *numbers]]
        must(all(policy == "1" for policy, _ in [top, *numbers]), f"{file}: the policies are {[top, *numbers]}")
        must(priorities == sorted({*priorities}, reverse=True), f"{file}: the priorities from the releaser on are {priorities}")
        must(all("bound to 1" in it for name, it in told.items() if name != "run"), f"{file}: not all are bound: {told}")


def compare_deadlines(program, tools=TOOLS):
    """Compares how threads are served by deadlines: cost, deadline and period, and the releaser's deadline is the shortest."""
    told, plan = served_of(program, DEADLINES, "--policy", "deadline", tools=tools)
    for task in plan.document.tasks:
        wanted = f"6 {task.cost * TICK} {task.deadline * TICK} {task.clock.period * TICK}"
        must(told[task.name] == [wanted], f"{task.name} asks for {told[task.name]}, and {wanted!r} is wanted")
    policy, runtime, deadline, period = map(int, told["the releaser"][-1].split())
    is_right = policy == 6 and runtime <= deadline < min(task.deadline * TICK for task in plan.document.tasks)
    must(is_right and period == TICK, f"the releaser asks for {told['the releaser']}")


def compare_real_time(program, document, disturb, ticks=TICKS, tools=TOOLS, is_ordinary=True):
    """Compares a run of a document in real time that is disturbed so, as an ordinary user or with the rights that this process
    has; returns its overruns."""
    with new_folder() as place:
        it = built(program, document, place, tools=tools)
        started = start(it, ticks, 5, is_ordinary)
        disturb(it, started)
        found = finish(it, started)
        if not is_ordinary and found.said:
            print(f"real_time.py: real-time priorities are skipped: {found.said.splitlines()[0]}", file=sys.stderr)
        has_right = not is_ordinary or resource.getrlimit(resource.RLIMIT_RTPRIO)[0] != 0
        must(has_right or ORDINARY in found.said, f"it doesn't say that it runs as an ordinary user: {found.said[:200]!r}")
        count = compare_run(program, it, found, ticks)
        must(count > 0 or not is_ordinary, "a task that takes more than its period gives no overrun")
        return count


def new_folder():
    """Returns a folder that is removed in the end."""
    return tempfile.TemporaryDirectory(prefix="dbp-real-time-")
