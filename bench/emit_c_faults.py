#!/usr/bin/env python3
"""Plants faults in the protocol of tools/emit_c and in what it writes, and says which checks find each.

  bench/emit_c_faults.py [--program PROGRAM] [--only TEXT] [--jobs N]

Each fault is an edit of a copy of tools/. Then the checks of .ci/tried/emit_c.py are made with that copy on a few
documents: the text; the compiler; lines without and with seeds; records against `replay`; operators; last instances;
releases; shared words; orders; tables; and runs with -fsanitize=thread. Of a fault in words of 32 bits or in real time
those of .ci/tried/deploy.py are made in their place, up to the first that finds it. Prints a row for each fault, with the
first thing that each check finds; the exit status is 0 only if each fault is found, and nothing is found without one.
"""

import os
import shutil
import sys
from concurrent.futures import ThreadPoolExecutor
from dataclasses import dataclass
from functools import partial
from pathlib import Path

TOP = Path(__file__).resolve().parent.parent
sys.path.insert(0, str(TOP / ".ci"))
sys.dont_write_bytecode = True

import compiled  # noqa: E402
import on_target  # noqa: E402
import real_time  # noqa: E402
from comparing import Wrong, fault_of, must  # noqa: E402
from compiled import SHORT_FLAGS, SHORT_WORDS, Toolchain  # noqa: E402
from protocol_text import diagram_fault, text_fault  # noqa: E402
from running import parser_of  # noqa: E402

DOCUMENTS = (
    "examples/preempted.dbp",
    "examples/feedback.dbp",
    "examples/filter.dbp",
    "examples/logger.dbp",
    "examples/replay/eight_back.dbp",
    ".ci/tried/emit_c/names.dbp",
    ".ci/tried/emit_c/words.dbp",
    "gen 7 8",
)
SEEDS = (1, 2, 3, 4)
TICKS = 120  # of each document
PROTOCOL, WRITER, TABLES = "emitting/dbp_protocol.c", "emitting/source.py", "emitting/operations.py"
POSIX, THREADS = "emitting/dbp_posix.c", "emitting/posix.py"
TICKS_IN_REAL_TIME = 600
CORES, SHORT, REAL_TIME = "words of 64 bits", "words of 32 bits", "real time"  # what checks are made of
PUT = "move_to(part, DBP_AT_PUT, part->at + 1, it->diagram->tasks[task].ports, DBP_AT_DONE);"
LOAD = "return atomic_load_explicit(&it->words[address], memory_order_seq_cst);"
STORE = "atomic_store_explicit(&it->words[address], (dbp_plain_word)value, memory_order_seq_cst);"
WRAPS = "return (int64_t)((uint64_t)a + (uint64_t)b);"


@dataclass(frozen=True)
class Planted:
    """A fault: its name, the file of tools/ that it is in, and texts that stand there once, each with another."""

    name: str
    file: str
    edits: tuple
    checked: str


def planted(name, file, *texts, checked=CORES):
    """Returns a fault of texts, each followed by the one in its place."""
    return Planted(name, file, tuple(zip(texts[::2], texts[1::2])), checked)


def in_short_words(name, file, *texts):
    """Returns a fault that is looked for in words of 32 bits."""
    return planted(f"32 bits: {name}", file, *texts, checked=SHORT)


def in_real_time(name, file, *texts):
    """Returns a fault that is looked for in real time."""
    return planted(f"in real time: {name}", file, *texts, checked=REAL_TIME)


FAULTS = (
    planted("nothing", PROTOCOL),
    planted("a claim over a delay takes the current slot", PROTOCOL,
            "ends.delay == 0 ? writer->current : writer->kept[ends.delay - 1]", "writer->current"),
    planted("a claim over a delay takes the current row", PROTOCOL,
            "ends.delay == 0 ? writer->current : writer->kept[ends.delay - 1]", "writer->current",
            "writer->aimed > ends.delay ? writer->aimed - ends.delay : 0", "writer->aimed"),
    planted("a claim without a delay takes the row before", PROTOCOL,
            "writer->aimed > ends.delay ? writer->aimed - ends.delay : 0", "writer->aimed - (writer->aimed > 1)"),
    planted("an aim without a look at the claims", PROTOCOL, "    mark_claimed(it, task, marks);\n", "    (void)mark_claimed;\n"),
    planted("an aim without a look at the kept slots", PROTOCOL, "    mark_kept(it, task, marks);\n", "    (void)mark_kept;\n"),
    planted("a delay's kept slot is forgotten", PROTOCOL, "        entry->kept[0] = entry->current;\n", "        entry->kept[0] = 0;\n"),
    planted("kept slots don't move", PROTOCOL, "entry->kept[place - 1] = entry->kept[place - 2];", "(void)place;"),
    planted("`done` before the last `put`", PROTOCOL,
            PUT, "const uint32_t ports = it->diagram->tasks[task].ports;\n"
            "    part->place = part->at + 1 == ports ? DBP_AT_END : part->at + 2 == ports ? DBP_AT_DONE : DBP_AT_PUT;\n"
            "    part->at++;",
            "    part->place = DBP_AT_PUT;\n    part->at = 0;",
            "    part->place = it->diagram->tasks[task].ports == 1 ? DBP_AT_DONE : DBP_AT_PUT;\n    part->at = 0;",
            "    part->place = DBP_AT_END;\n", "    part->place = DBP_AT_PUT;\n"),
    planted("the last `put` is left out", PROTOCOL, "it->diagram->tasks[task].ports, DBP_AT_DONE",
            "(uint32_t)it->diagram->tasks[task].ports - 1, DBP_AT_DONE"),
    planted("the stamp of `done` is one off", PROTOCOL, "(uint64_t)part->ended + 2", "(uint64_t)part->ended + 1"),
    planted("a look waits for another stamp", PROTOCOL, "(uint64_t)order.number + 1", "(uint64_t)order.number"),
    planted("a look never waits", PROTOCOL, "step.must_wait = step.word != (uint64_t)order.number + 1", "step.must_wait = false"),
    planted("a shut leaves the stamp", PROTOCOL, "step_of(DBP_SHUT, task, 0, 0)", "step_of(DBP_SHUT, task, 0, (uint64_t)part->ended + 1)"),
    planted("a start doesn't wait for the gate", PROTOCOL, "step.must_wait = step.word != (uint64_t)part->ended + 1", "step.must_wait = false"),
    planted("`end` before `done`", PROTOCOL,
            "ports, DBP_AT_DONE);", "ports, DBP_AT_END);",
            "    part->place = DBP_AT_END;\n", "    part->place = DBP_AT_START;\n    part->ended++;\n",
            "    part->ended++;\n    part->place = DBP_AT_START;\n", "    part->place = DBP_AT_DONE;\n"),
    planted("gates are opened before the claims", PROTOCOL,
            "case DBP_CLAIMING:\n        return dbp_claim(it, it->diagram->tasks[own->task].links[own->link]);\n"
            "    case DBP_OPENING:\n        return dbp_open_gate(it, own->task);",
            "case DBP_CLAIMING:\n        return dbp_open_gate(it, own->task);\n    case DBP_OPENING:\n"
            "        return it->diagram->tasks[own->task].link_count == 0 ? no_step\n"
            "               : dbp_claim(it, it->diagram->tasks[own->task].links[own->link]);",
            "own->pass != DBP_CLAIMING ||", "own->pass != DBP_OPENING ||"),
    planted("a task is claimed before all are aimed", PROTOCOL,
            "        sense(it, step.task);\n        go_on(it);",
            "        sense(it, step.task);\n"
            "        for (uint32_t at = 0; at < it->diagram->tasks[step.task].link_count; at++) {\n"
            "            dbp_claim(it, it->diagram->tasks[step.task].links[at]);\n        }\n        go_on(it);",
            "return own->pass != DBP_CLAIMING || own->link < it->diagram->tasks[own->task].link_count;",
            "return own->pass != DBP_CLAIMING;"),
    planted("a late task is released again", PROTOCOL, "    entry->known = (uint32_t)step.word;", "    entry->known = entry->aimed;"),
    planted("a relaxed load", PROTOCOL, LOAD, LOAD.replace("seq_cst", "relaxed")),
    planted("a relaxed store", PROTOCOL, STORE, STORE.replace("seq_cst", "relaxed")),
    planted("acquire in place of seq_cst", PROTOCOL, LOAD, LOAD.replace("seq_cst", "acquire")),
    planted("a load that isn't atomic", PROTOCOL, LOAD, "return *(const uint64_t *)(const void *)&it->words[address];"),
    planted("a second load in a look", PROTOCOL, "load(it, stamp_of(it, read->writer, order.slot))",
            "load(it, stamp_of(it, read->writer, order.slot)) | load(it, stamp_of(it, read->writer, order.slot))"),
    planted("two links change their claims", PROTOCOL, "own->links[part->at - 1]", "own->links[own->link_count - part->at]"),
    planted("an order's words change places", PROTOCOL, "order.slot + ((uint64_t)order.number << HALF)",
            "order.number + ((uint64_t)order.slot << HALF)"),
    planted("an addition that wraps", PROTOCOL, "    return a + b;", f"    {WRAPS}", "    if (b > 0 && a > INT64_MAX - b) {",
            "    if (b > 0 && a > INT64_MAX - b && a < 0) {"),
    planted("a negation that wraps", PROTOCOL, "a == INT64_MIN ? INT64_MAX : -a", "(int64_t)(0 - (uint64_t)a)"),
    planted("a product that wraps", PROTOCOL, "if (times != 0 && size > most / times)", "if (times == 0 && size > most)"),
    planted("`%` with the divisor's sign", PROTOCOL, "b == 0 || b == -1 ? 0 : a % b", "b == 0 || b == -1 ? 0 : (a % b + b) % b"),
    planted("a division that rounds down", PROTOCOL, "dbp_neg(a) : a / b", "dbp_neg(a) : a / b - (a % b != 0 && (a < 0) != (b < 0))"),
    planted("a division by 0 isn't 0", PROTOCOL, "    if (b == 0) {\n        return 0;\n    }\n    return b == -1", "    return b == 0 ? a : b == -1"),
    planted("a `when` is left out", "emitting/source.py", '"DBP_ALWAYS" if task.when is None else', '"DBP_ALWAYS" if True else'),
    planted("a `when` is turned round", PROTOCOL, "it->releaser->inputs[condition] != 0", "it->releaser->inputs[condition] == 0"),
    planted("an instance after the last number", PROTOCOL, "entries[task].aimed != DBP_LAST_INSTANCE", "entries[task].aimed <= DBP_LAST_INSTANCE"),
    planted("stamps of 32 bits", PROTOCOL, "(uint64_t)part->ended + 2", "(uint64_t)(part->ended + 2)"),
    planted("a late release samples again", WRITER, "dbp_is_releasing(&{plan.of('system')}) ? 0 : tasks", "dbp_is_releasing(&{plan.of('system')}) ? tasks : tasks"),
    planted("senses before the last instance has ended", PROTOCOL, "    own->pass = DBP_SEEING;\n",
            "    own->pass = DBP_SEEING;\n    for (uint32_t task = 0; task < it->diagram->task_count; task++) {\n"
            "        for (uint32_t at = 0; at < it->diagram->tasks[task].sense_count; at++) {\n"
            "            it->parts[task].sensed[at] = own->inputs[it->diagram->tasks[task].senses[at]];\n        }\n    }\n"),
    planted("another release takes the place of a late one", PROTOCOL, "own->asked == tasks ? DBP_RELEASED : DBP_UNDER_WAY", "DBP_RELEASED"),
    planted("the slots of a simulation", "emitting/command.py", 'line.split(",")[-1]', 'line.split(",")[-2]'),
    planted("reads in the order of their lines", "emitting/wiring.py", "key=lambda it: it[1].at", "key=lambda it: it[0]"),
    planted("a link's delay is left out", "emitting/wiring.py", "Link(numbers[read.writer], reader, read.delay) for", "Link(numbers[read.writer], reader, 0) for"),
    planted("the longest delay is one too short", "emitting/wiring.py", "max((links[at].delay for at in leaving), default=0)",
            "max(0, max((links[at].delay for at in leaving), default=0) - 1)"),
    planted("slots overlap by a word", "emitting/wiring.py", "slots[number] * (1 + words_of_value * len(task.outs))", "slots[number] * (1 + len(task.outs)) - 1"),
    planted("a state isn't kept", WRITER, 'yield "next", it.state, it.expression, f"{own}_states[{numbers[it.state]}]"',
            'yield "next", it.state, it.expression, f"{own}_outs[0]"'),
    planted("first values are 0", WRITER, "[number_text(out.first) for out in task.outs]", '["0" for out in task.outs]'),
    planted("a table's operands change places", TABLES, "', '.join(places)", "', '.join([places[0], *places[:0:-1]])"),
    planted("a table's choice is turned round", TABLES, "            if (a == 0) {", "            if (a != 0) {"),
    planted("a table's place of a number is one off", TABLES, "numbers[place - value_count]", "numbers[place - value_count + (place == value_count)]"),
    planted("parts of a table share a place", TABLES, "inner = depth + number - (not is_choice)", "inner = 0"),
    planted("a table's choice has one branch", TABLES, '            self.add("ELSE", place, condition, no)\n', ""),
    planted("lets in the order of their lines", "emitting/blocks.py", "if before and left[-1] not in found:", "if not before and left[-1] not in left:"),
    in_short_words("nothing", PROTOCOL),
    in_short_words("an order that wraps", PROTOCOL, "step.must_wait = step.word != (uint64_t)order.number + 1",
                   "step.must_wait = ((step.word ^ ((uint64_t)order.number + 1)) & UINT32_C(0xFFFFFF)) != 0"),
    in_short_words("an order's number has 24 bits", PROTOCOL, "order.slot + ((uint64_t)order.number << HALF)",
                   "order.slot + ((uint64_t)(order.number & UINT32_C(0xFFFFFF)) << HALF)"),
    in_short_words("the high half isn't stored", PROTOCOL, "        store(it, address + 1, value >> HALF);\n", ""),
    in_short_words("the high half isn't loaded", PROTOCOL, "low | load(it, address + 1) << HALF", "low"),
    in_short_words("the halves of a load change places", PROTOCOL, "low | load(it, address + 1) << HALF", "low << HALF | load(it, address + 1)"),
    in_short_words("values overlap by a half", PROTOCOL, "stamp_of(it, task, slot) + 1 + DBP_WORDS_OF_VALUE * port", "stamp_of(it, task, slot) + 1 + port"),
    in_short_words("slots have room for halves alone", "emitting/wiring.py", "(1 + words_of_value * len(task.outs))", "(1 + len(task.outs))"),
    in_short_words("a value without its stamp", PROTOCOL, "step.must_wait = step.word != (uint64_t)order.number + 1", "step.must_wait = false"),
    in_short_words("a stamp after the last one", "emitting/dbp_protocol.h", "(UINT32_MAX - 1) /*", "UINT32_MAX /*"),
    in_real_time("nothing", POSIX),
    in_real_time("the releaser is below the tasks", THREADS, "(HIGHEST + 1, 0, 0, 0)", "(HIGHEST - 40, 0, 0, 0)"),
    in_real_time("the lowest rank is served first", THREADS, "HIGHEST - ranks[at]", "HIGHEST - 40 + ranks[at]"),
    in_real_time("the releaser's deadline isn't the shortest", THREADS, "tick // 2, tick)", "5 * tick, tick)"),
    in_real_time("a deadline for a period", THREADS, "task.clock.period * tick) for", "task.deadline * tick) for"),
    in_real_time("an overrun isn't told", POSIX, "                the->overrun(task, parties[task].instances, tick);\n",
                 "                if (count > 0) {\n                    the->overrun(task, parties[task].instances, tick);\n                }\n"),
    in_real_time("an overrun isn't counted", POSIX, "logged->has_met = has_met;", "logged->has_met = has_met && own->instances % 4 != 0;"),
    in_real_time("an overrun that is none", POSIX, "        if (is_in(tasks, task)) {\n            uint64_t time;\n            const bool has_met = meets_unfinished(task, &time);\n            log_release(task, tick, time, has_met);",
                 "        if (is_in(tasks, task)) {\n            uint64_t time;\n            const bool has_met = meets_unfinished(task, &time);\n            log_release(task, tick, time, has_met || tick % 50 == 0);"),
    in_real_time("an unfinished instance is passed over", POSIX, "        wait_on(&releaser_bell);\n    }\n    while (is_releasing) {",
                 "        if (tick % 2 == 0) {\n            wait_on(&releaser_bell);\n        }\n    }\n    while (is_releasing) {"),
    in_real_time("ticks are passed over", POSIX, "        tick++;\n        sleep_until", "        tick += nanoseconds_now() > start_time + (tick + 2) * the->tick ? 2 : 1;\n        sleep_until"),
    in_real_time("an interrupted sleep ends", POSIX, "    } while (fault == EINTR);", "    } while (fault < 0);"),
    in_real_time("the tick isn't absolute", POSIX, "sleep_until(start_time + tick * the->tick);", "sleep_until(nanoseconds_now());"),
    in_real_time("a row of the log is a tick off", POSIX, "const dbp_sample_logged sample = {tick, value, column};", "const dbp_sample_logged sample = {tick + 1, value, column};"),
    in_real_time("an input is logged once", POSIX, "if (!has_value[input] || value != last_values[input])", "if (!has_value[input])"),
    in_real_time("two raises are one", POSIX, "atomic_fetch_sub(&the->raised[event], 1);", "atomic_store(&the->raised[event], 0);"),
    in_real_time("an event occurs again", POSIX, "            atomic_fetch_sub(&the->raised[event], 1);\n",
                 "            if (tick % 64 != 0) {\n                atomic_fetch_sub(&the->raised[event], 1);\n            }\n"),
    in_real_time("nobody rings for a row", POSIX, "            sem_post(&reader->row_bell);\n", "            (void)sem_post;\n"),
    in_real_time("`until` is a tick too far", POSIX, "ticks_run = has_numbers ? tick : tick - 1;", "ticks_run = tick + 1;"),
    in_real_time("an end is logged late", POSIX, "own->logged[own->ended].ended = ended - start_time;", "own->logged[own->ended].ended = nanoseconds_now() - start_time + the->tick;"),
    in_real_time("the row of another instance is logged", POSIX, "parties[task].outs[parties[task].ended * ports", "parties[task].outs[(parties[task].ended - (parties[task].ended > 0)) * ports"),
)


def document_of(program, name):
    """Returns the bytes of a document, by its file or the words of `gen`."""
    return compiled.answered(program, name.split(), b"") if name.startswith("gen ") else (TOP / name).read_bytes()


class Trial:
    """The checks of a copy of tools/ in which a fault is planted."""

    def __init__(self, program, room, fault):
        self.program, self.room, self.tools = program, Path(room), Path(room) / "tools"
        shutil.copytree(TOP / "tools", self.tools)
        plant(self.tools, fault)
        self.traces = {}

    def check_text(self):
        """Checks the texts of the protocol and of a diagram."""
        protocol = [(self.tools / "emitting" / f"dbp_protocol.{end}").read_text() for end in "ch"]
        found = text_fault(*protocol)
        must(found is None, found)

    def compile(self, flags=()):
        """Compiles the documents."""
        place = self.room / f"made{len(flags)}"
        place.mkdir()
        toolchain = Toolchain(place, "cc", flags, self.tools)
        for number, name in enumerate(DOCUMENTS):
            folder = place / str(number)
            folder.mkdir()
            document = compiled.shortened(self.program, document_of(self.program, name), TICKS)
            self.traces[name] = document, compiled.trace_of(self.program, toolchain, document, folder), folder
        found = diagram_fault((folder / f"{compiled.NAME}.c").read_text(), compiled.NAME)
        must(found is None, found)

    def check_traces(self, check):
        """Makes a check of each document, up to the first fault."""
        for name, (document, executable, folder) in self.traces.items():
            try:
                check(document, executable, folder)
            except Wrong as fault:
                raise Wrong(f"{name}: {fault}") from None

    def check_lines(self, document, executable, folder):
        """Compares the lines of some runs without a seed."""
        for _ in SEEDS:
            compiled.compare_lines(self.program, document, executable)

    def check_seeds(self, document, executable, folder):
        """Compares the lines of runs with seeds."""
        for seed in SEEDS:
            compiled.compare_lines(self.program, document, executable, "--seed", str(seed))

    def check_records(self, document, executable, folder):
        """Compares records with `replay`."""
        for words in ([], *(["--seed", str(seed)] for seed in SEEDS)):
            must(compiled.compare_record(self.program, document, executable, folder, *words) is not None, "it is too long")

    def check_beside(self, compare):
        """Makes a comparison of C that stands beside a document, or of operators."""
        place = self.room / compare.__name__
        place.mkdir()
        compare(self.program, Toolchain(place, "cc", (), self.tools))

    def check_races(self):
        """Compares the lines of runs with seeds, compiled so that races are found."""
        self.compile(("-g", "-fsanitize=thread"))
        self.check_traces(self.check_seeds)

    def check_short(self, compare):
        """Makes a comparison in words of 32 bits."""
        place = self.room / f"short_{compare.__name__}"
        place.mkdir()
        compare(self.program, Toolchain(place, "cc", SHORT_FLAGS, self.tools, SHORT_WORDS))

    def check_documents(self, program, toolchain):
        """Compares the lines and the records of some documents."""
        for name in DOCUMENTS[: len(SEEDS)]:
            document = compiled.shortened(program, document_of(program, name), TICKS)
            with compiled.folder() as place:
                executable = compiled.trace_of(program, toolchain, document, place)
                compiled.compare_lines(program, document, executable)
                must(compiled.compare_record(program, document, executable, place) is not None, "it is too long")

    def short_checks(self):
        """Yields the checks in words of 32 bits, each with its name."""
        yield "text", self.check_text
        for compare in (compiled.compare_orders, compiled.compare_words, compiled.compare_last_instances, compiled.compare_operators,
                        self.check_documents):
            yield compare.__name__, partial(self.check_short, compare)
        target = (TOP / real_time.EXAMPLES[0]).read_bytes()
        yield "Cortex-M3", partial(on_target.compare_target, self.program, target, tools=self.tools)

    def real_time_checks(self):
        """Yields the checks in real time, each with its name."""
        yield "priorities", partial(real_time.compare_served, self.program, tools=self.tools)
        yield "deadlines", partial(real_time.compare_deadlines, self.program, tools=self.tools)
        first = (TOP / real_time.EXAMPLES[0]).read_bytes()
        yield "real-time priorities", partial(real_time.compare_real_time, self.program, first, real_time.interrupted,
                                              TICKS_IN_REAL_TIME, self.tools, is_ordinary=False)
        for disturb in real_time.DISTURBANCES:
            for name in real_time.EXAMPLES:
                run = partial(real_time.compare_real_time, self.program, (TOP / name).read_bytes(), disturb)
                yield disturb.__name__, partial(run, TICKS_IN_REAL_TIME, self.tools)

    def checks(self):
        """Yields the checks, each with its name."""
        yield "text", self.check_text
        yield "compiler", self.compile
        yield "lines", partial(self.check_traces, self.check_lines)
        yield "lines with seeds", partial(self.check_traces, self.check_seeds)
        yield "records", partial(self.check_traces, self.check_records)
        yield "operators", partial(self.check_beside, compiled.compare_operators)
        yield "last instances", partial(self.check_beside, compiled.compare_last_instances)
        yield "releases", partial(self.check_beside, compiled.compare_releases)
        yield "shared words", partial(self.check_beside, compiled.compare_words)
        yield "orders", partial(self.check_beside, compiled.compare_orders)
        yield "tables", partial(self.check_beside, compiled.compare_tables)
        yield "threads", self.check_races


def plant(tools, fault):
    """Makes the edits of a fault."""
    file = tools / fault.file
    text = file.read_text()
    for old, new in fault.edits:
        if text.count(old) != 1:
            sys.exit(f"{fault.name}: {old!r} stands {text.count(old)} times in {fault.file}")
        text = text.replace(old, new)
    file.write_text(text)


def found_by(program, fault):
    """Returns what each check finds that finds a fault."""
    found = {}
    with compiled.folder() as room:
        Path(room).chmod(0o755)
        trial = Trial(program, room, fault)
        kinds = {CORES: trial.checks, SHORT: trial.short_checks, REAL_TIME: trial.real_time_checks}
        for name, check in kinds[fault.checked]():
            said = fault_of(check)
            if said:
                found[name] = " ".join(said.replace(str(room), "").split())
                if name == "compiler" or fault.checked != CORES:
                    break
    return found


def main():
    """Plants all faults, and returns the exit status."""
    parser = parser_of(__doc__)
    parser.add_argument("--only", default="", help="the faults whose names have this text")
    parser.add_argument("--jobs", type=int, default=os.cpu_count(), help="faults at a time (as many as processors)")
    parser.add_argument("--seconds", type=int, default=10, help="of a run, twice as many in real time (10)")
    options = parser.parse_args()
    compiled.SECONDS, real_time.SECONDS = options.seconds, 2 * options.seconds
    faults = [it for it in FAULTS if options.only in it.name]
    wrong = 0
    print("| Fault | Found by | The first check says |\n|---|---|---|", flush=True)
    with ThreadPoolExecutor(options.jobs) as pool:
        for fault, found in zip(faults, pool.map(lambda it: found_by(options.program, it), faults)):
            wrong += bool(found) == fault.name.endswith("nothing")
            first = next(iter(found.values()), "")[:150].replace("|", "/")
            print(f"| {fault.name} | {', '.join(found) or 'NOTHING'} | {first} |", flush=True)
    print(f"\n{len(faults)} faults, {wrong} wrong answers")
    return 1 if wrong else 0


if __name__ == "__main__":
    sys.exit(main())
