"""The C of tools/emit_c in real time, in words of 32 bits, on a Cortex-M3, from C++, and its costs.

Programs of `--target posix` run for two seconds as an ordinary user: beside four busy loops; with signals to the releaser; with
stops of the whole; with threads that are held up as by a debugger. `.ci/real_time.py` says what is compared. What needs a
compiler or an emulator that isn't there is skipped.
"""

import re
import signal
import subprocess
import sys
import time
from functools import partial
from pathlib import Path

TOP = Path(__file__).resolve().parents[2]
sys.path.insert(0, str(TOP / ".ci"))

import compiled  # noqa: E402
import on_target  # noqa: E402
import real_time  # noqa: E402
from awaited import SECONDS  # noqa: E402
from comparing import if_there, must  # noqa: E402
from compiled import NAME, SHORT_FLAGS, SHORT_WORDS, Toolchain, answered, emitted, executed, same_lines  # noqa: E402
from emitting.costs import cost_of_instance, cost_of_release, table_bytes  # noqa: E402

CROSS_FLAGS = ("-mcpu=cortex-m3", "-mthumb")
NAMES = ".ci/tried/emit_c/names.dbp"
ON_TARGET = ("examples/speed_control.dbp", "examples/logger.dbp", "examples/heater.dbp", "examples/cascade.dbp")
SHORT = (*ON_TARGET, "examples/replay/eight_back.dbp", NAMES)
SHORT_BESIDE = (compiled.compare_operators, compiled.compare_tables, compiled.compare_last_instances,
                compiled.compare_releases, compiled.compare_words, compiled.compare_orders)
DEPLOYED = TOP / "examples" / "deploy"
BOUNDS = ["brake,1,100", "current,2,5", "speed,4,10", "position,17,50"]
INSTANCE_STEPS = ("start", "hear", "look", "take", "shut", "put", "done", "end")

# What cppcheck says, as docs/DEPLOYING.md explains it: Linux reads the fields that the file doesn't.
EXPLAINED = {"style unusedStructMember dbp_posix.c"}
ADVISORY = ("2.5", "8.7", "8.9", "12.1", "12.3", "15.5")
EXPLAINED_RULES = ("2.2", "7.2", "10.4", "15.7", "16.4")

CPP = r"""
#include "it.h"
#include "it_posix.h"

#include <cstdio>

extern "C" {
void it_sensor_row(uint32_t, int64_t position, int64_t) { std::printf("%lld\n", static_cast<long long>(position)); }
void it_control_row(uint32_t, int64_t) {}
void it_overrun(uint32_t, uint32_t, uint64_t) {}
}

int main()
{
    const dbp_posix_end end = it_run(3);
    return end == DBP_RAN && it_set_sensor == 1 && it_tasks_at(0) == 3 ? 0 : 1;
}
"""


def compare_rights(program):
    """Compares a run with real-time priorities, if this process has the right to them: then the releaser is seldom late, so a
    tick that an interrupt ends too early is seen."""
    document = (TOP / real_time.EXAMPLES[0]).read_bytes()
    real_time.compare_real_time(program, document, real_time.interrupted, is_ordinary=False)


def compare_stop(program):
    """Compares a run that is told to stop by a signal: the log has what was released until then."""
    with real_time.new_folder() as place:
        it = real_time.built(program, (TOP / real_time.EXAMPLES[0]).read_bytes(), place)
        started = real_time.start(it, 100_000, 3)
        real_time.wait_for_threads(started.pid, ["the releaser"])
        time.sleep(0.3)
        started.send_signal(signal.SIGTERM)
        found = real_time.finish(it, started)
        real_time.compare_rows(program, it, found)
        real_time.compare_overruns(it, found)


def compare_short(program, file):
    """Compares the lines and the records of an example in words of 32 bits."""
    with compiled.folder() as room:
        toolchain = Toolchain(room, "cc", SHORT_FLAGS, options=SHORT_WORDS)
        compiled.compare_document(program, toolchain, (TOP / file).read_bytes())


def compare_short_beside(program, compare):
    """Makes a comparison of C that stands beside a document in words of 32 bits."""
    with compiled.folder() as room:
        compare(program, Toolchain(room, "cc", SHORT_FLAGS, options=SHORT_WORDS))


def compare_costs(program, file, words, compiler, flags):
    """Compares the bytes of the tables that `--costs` prints with those of the objects."""
    with compiled.folder() as place:
        plan = emitted(program, (TOP / file).read_bytes(), place, *words)
        target = Path(place) / "it.o"
        command = [compiler, *compiled.FLAGS, "-O0", *flags, "-c", Path(place) / f"{NAME}.c", "-o", target]
        executed(command, compiled.COMPILE_SECONDS)
        listed = executed(["nm" if compiler == "cc" else "arm-none-eabi-nm", "-S", target], SECONDS).decode().splitlines()
    sizes = {}
    for line in listed:
        cells = line.split()
        if len(cells) == 4 and cells[2] in "bBdDrR":
            sizes[cells[3]] = int(cells[1], 16)
    costs = {plan.of(name): size for name, size in table_bytes(plan)}
    found = {name: sizes.get(name) for name in costs}
    must(found == costs, f"{file}: the tables have {found}, and {costs} is printed")
    left = sum(sizes.values()) - sum(costs.values())
    must(left == 0, f"{file}: {left} bytes of {sorted({*sizes} - {*costs})} aren't printed")


def compare_steps(program, file):
    """Compares the steps that `--costs` prints with those of a record of the trace."""
    with compiled.folder() as place:
        document = compiled.shortened(str(program), (TOP / file).read_bytes(), 100)
        toolchain = Toolchain(place)
        executable = compiled.trace_of(program, toolchain, document, place)
        executed([executable, "--record", Path(place) / "record"], compiled.SECONDS)
        steps = (Path(place) / "record").read_text().splitlines()
        plan = emitted(program, document, place)
    made = [it.split() for it in steps if not it.endswith(("closed", "notyet"))]
    for number, task in enumerate(plan.document.tasks):
        own = [words[0] for words in made if words[0] in INSTANCE_STEPS and words[1] == task.name]
        count, wanted = own.count("end"), cost_of_instance(plan, number).steps
        must(len(own) == count * wanted, f"{task.name} made {len(own)} steps in {count} instances, and {wanted} are printed")
    releases = " ".join(words[0] for words in made if words[0] in ("aim", "claim", "open"))
    most = max(len(it.split()) for it in re.findall(r"(?:aim ?)+(?:claim ?)*(?:open ?)+", releases))
    wanted = cost_of_release(plan).steps - len(plan.tasks)
    must(most <= wanted, f"a release has {most} steps besides those that see, and {wanted} are printed")
    is_whole = all(0 in plan.document.times(it) for it in plan.document.tasks)
    must(most == wanted or not is_whole, f"a release of all tasks has {most} steps, and {wanted} are printed")


def compare_cpp(program):
    """Compares a program in C++ that calls the tasks in real time."""
    with compiled.folder() as place:
        emitted(program, (TOP / "examples/preempted.dbp").read_bytes(), place, "--target", "posix", "--tick", "1ms")
        (Path(place) / "user.cpp").write_text(CPP)
        objects = []
        for name in ("dbp_protocol", "dbp_posix", NAME, f"{NAME}_posix"):
            objects.append(Path(place) / f"{name}.o")
            executed(["cc", *compiled.FLAGS, "-c", Path(place) / f"{name}.c", "-o", objects[-1]], compiled.COMPILE_SECONDS)
        flags = [it for it in compiled.FLAGS if not it.startswith("-std")]
        target = Path(place) / "cpp"
        user = Path(place) / "user.cpp"
        executed(["c++", "-std=c++17", *flags, "-pthread", user, *objects, "-o", target], compiled.COMPILE_SECONDS)
        same_lines(executed([target], SECONDS), b"10\n20\n", "the rows of the program in C++")


def compare_report(program):
    """Compares what cppcheck says of the written files: no error, and no warning but those that the docs explain."""
    with compiled.folder() as place:
        document = (TOP / "examples/speed_control.dbp").read_bytes()
        emitted(program, document, place, "--target", "posix", "--tick", "1ms", "--log")
        checked = ["cppcheck", "--std=c11", "--enable=warning,style,performance,portability", "--inconclusive", "--quiet",
                   "--template={severity} {id} {file}:{line}", "--error-exitcode=0", "--suppress=missingIncludeSystem", place]
        ran = subprocess.run(checked, capture_output=True, check=False, text=True)
    said = {line.split(":")[0] for line in ran.stderr.replace(f"{place}/", "").splitlines() if not line.startswith("nofile")}
    must(said <= EXPLAINED, f"cppcheck says {sorted(said - EXPLAINED)}")


def compare_rules(program):
    """Compares which rules of MISRA C:2012 the addon of cppcheck names in the C of the protocol and of a diagram."""
    with compiled.folder() as place:
        emitted(program, (TOP / "examples/speed_control.dbp").read_bytes(), place)
        checked = ["cppcheck", "--std=c11", "--addon=misra", "--quiet", "--template={id}", "--suppress=missingIncludeSystem",
                   Path(place) / "dbp_protocol.c", Path(place) / f"{NAME}.c"]
        ran = subprocess.run(checked, capture_output=True, check=False, text=True)
    said = {line.partition("misra-c2012-")[2] for line in ran.stderr.splitlines()} - {""}
    must(said and said <= {*ADVISORY, *EXPLAINED_RULES}, f"the addon names {sorted(said - {*ADVISORY, *EXPLAINED_RULES})}")


def compare_deployed(program):
    """Compares the example in examples/deploy: it is built, it runs, and its rows are those of `mean`."""
    with real_time.new_folder() as place:
        make = ["make", "-s", "-C", DEPLOYED, f"OUT={place}/out", f"PROGRAM={program}"]
        said = executed([*make, "check"], SECONDS).decode()
        bounds = executed([*make, "bounds"], SECONDS).decode().splitlines()
        scenario = executed([*make, "slots"], SECONDS)
    must("same rows" in said, f"it said {said[-300:]!r}")
    must(bounds == BOUNDS, f"the bounds are {bounds}")
    answered(program, ["sim"], scenario)


def trials(program):
    """Yields the trials: a name, and a call that returns what differs, or nothing."""
    for name, programs, call, *given in (
        *((f"{file} in real time, {disturb.__name__}", ["cc"], real_time.compare_real_time, (TOP / file).read_bytes(), disturb)
          for file in real_time.EXAMPLES for disturb in (real_time.crowded, *real_time.DISTURBANCES[1:])),
        (f"{NAMES} in real time", ["cc"], real_time.compare_real_time, (TOP / NAMES).read_bytes(), real_time.undisturbed),
        ("real-time priorities", ["cc"], compare_rights),
        ("a run that is told to stop", ["cc"], compare_stop),
        ("priorities", ["cc"], real_time.compare_served),
        ("deadlines", ["cc"], real_time.compare_deadlines),
        *((f"{file} in words of 32 bits", ["cc"], compare_short, file) for file in SHORT),
        *((f"words of 32 bits: {it.__name__}", ["cc"], compare_short_beside, it) for it in SHORT_BESIDE),
        *((f"{file} on a Cortex-M3", on_target.NEEDED, on_target.compare_target, (TOP / file).read_bytes())
          for file in ON_TARGET),
        *((f"costs of {file}", ["cc", "nm"], compare_costs, file, (), "cc", ()) for file in SHORT),
        *((f"costs of {file} on a Cortex-M3", [on_target.CROSS], compare_costs, file, SHORT_WORDS, on_target.CROSS, CROSS_FLAGS)
          for file in SHORT),
        *((f"steps of {file}", ["cc"], compare_steps, file) for file in SHORT),
        ("a program in C++", ["cc", "c++"], compare_cpp),
        ("the report of cppcheck", ["cppcheck"], compare_report),
        ("the rules that cppcheck names", ["cppcheck"], compare_rules),
        ("examples/deploy", ["cc", "make"], compare_deployed),
    ):
        yield name, partial(if_there, programs, call, program, *given)
