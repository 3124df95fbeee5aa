"""The page of a report: what is said of each document, and an index if there are several."""

import zlib
from base64 import b64encode
from dataclasses import dataclass
from html import escape
from pathlib import Path

from checking.messages import Severity
from ending import Status
from pictures.service import Command
from reports.columns import data_of
from reports.inline import definitions, diagram_html, frame_html, legend_html, picture_styles
from reports.markup import code, page_head, script_json, table, tag
from reports.proved import proved_html
from reports.source import coloured_lines, is_paged, source_html
from reports.tables import links_html, scenarios_html, tasks_html
from waveforms.signals import task_signals
from waveforms.tables import TICK_COLUMN

HERE = Path(__file__).resolve().parent
MOST_PLAIN = 1 << 20  # letters of data that aren't packed
MOST_MESSAGES = 500  # of a document that are listed


@dataclass(frozen=True)
class Shape:
    """What a page has besides the parts that all have, and what it hasn't."""

    left_out: tuple = ()  # the identities of parts
    script: str = ""  # that runs after the page's own
    remark: str = ""  # in place of each verdict


def page_html(reports, program, shape=Shape()):
    """Yields the pieces of the page of documents, each with what was asked of it."""
    title = f"Report: {reports[0].name}" if len(reports) == 1 else f"Report of {len(reports)} documents"
    yield page_head(title, picture_styles())
    yield definitions() + tag("h1", escape(title)) + "\n"
    if len(reports) > 1:
        yield index_html(reports)
    for number, asked in enumerate(reports, 1):
        yield article_html(asked, f"d{number}", program, shape)
    scripts = [(HERE / "page.js").read_text(), *([shape.script] if shape.script else [])]
    yield "".join(tag("script", it) + "\n" for it in scripts) + "</body>\n</html>\n"


def index_html(reports):
    """Returns the index of several documents, each with its verdict."""
    rows = [
        [tag("a", escape(asked.name), href=f"#d{number}"), escape(headline(asked))]
        for number, asked in enumerate(reports, 1)
    ]
    return tag("nav", table(("document", "verdict"), rows, "Documents"), aria_label="documents") + "\n"


def headline(asked):
    """Returns the verdict on a document in a line."""
    if asked.errors:
        first = asked.errors[0]
        code = f"{first.code} " if first.code is not None else ""
        return f"refused: line {first.line}: {code}{first.name}"
    if asked.findings:
        return "accepted, but: " + "; ".join(asked.findings)
    warned = sum(it.severity is Severity.WARNING for it in asked.verdict.messages)
    return "accepted, and in time" + (f"; warnings: {warned}" if warned else "")


def article_html(asked, name, program, shape):
    """Returns all that is said of a document."""
    parts = [it for it in sections_of(asked, name, program, shape) if it[0] not in shape.left_out]
    links = [tag("li", tag("a", escape(title), href=f"#{name}-{part}")) for part, title, _ in parts]
    kind = "good" if asked.status == Status.DONE else "bad"
    head = tag("h2", escape(asked.name)) + tag("p", escape(shape.remark or headline(asked)), cls=f"verdict {kind}")
    missing = tag("p", escape(f"Not shown, since the document is refused: {missing_parts(asked)}.")) if asked.errors else ""
    contents = tag("nav", tag("ul", *links), aria_label=f"parts of {asked.name}")
    sections = [section_html(name, *part) for part in parts]
    return tag("article", tag("header", head, missing, contents), "\n", *sections, id=name) + "\n"


def missing_parts(asked):
    """Returns what can't be shown of a refused document."""
    if asked.accepted:
        return "nothing; its script alone is refused"
    rest = "slots, bounds, times, values and scenarios"
    return rest if asked.diagram else f"the diagram, tasks, links, {rest}"


def section_html(name, identity, title, content):
    """Returns a part of what is said of a document."""
    return tag("section", tag("h3", escape(title)), "\n", content, id=f"{name}-{identity}") + "\n"


def sections_of(asked, name, program, shape):
    """Yields the parts of what is said of a document, each with its identity and its title."""
    data = data_of(asked.accepted, asked.diagram) if asked.accepted else {"tasks": []}
    yield "messages", "Verdict and warnings", messages_html(asked, name)
    if "document" not in shape.left_out:
        yield "document", "Document", document_html(asked, name, data)
    if asked.diagram:
        yield "diagram", "Diagram", diagram_html(asked.diagram, asked.name, f"{name}-picture")
        yield "tasks", "Tasks", tasks_html(asked, f"{name}-task-table")
        yield "links", "Links", links_html(asked.diagram, f"{name}-link-table")
    if asked.accepted:
        yield "time", "Timeline", timeline_html(asked, name)
        yield "outs", "Outs", outs_html(asked.diagram, name)
        yield "scenarios", "Scenarios", scenarios_html(asked.accepted, f"{name}-scenario")
    yield "proved", "What is proved", proved_html(asked, program) + data_html(data)


def messages_html(asked, name):
    """Returns the messages of a document, each with a link to its line."""
    messages = asked.verdict.messages
    found = [tag("li", escape(f"{line}"), cls="error") for line in asked.findings]
    found += [message_html(it, name) for it in messages[:MOST_MESSAGES]]
    if len(messages) > MOST_MESSAGES:
        found.append(tag("li", f"and {len(messages) - MOST_MESSAGES} more"))
    judged = f"judged as by dbp {' '.join(asked.verdict.command.words)}"
    listed = tag("ul", *found, cls="messages", id=f"{name}-list") if found else tag("p", "No errors and no warnings.")
    return tag("p", escape(f"By tools/check, {judged}:")) + listed


def message_html(message, name):
    """Returns a message with its notes."""
    code = f"{message.code} " if message.code is not None else ""
    text = escape(f": {message.severity.value}: {code}{message.name}: {message.text}")
    notes = [tag("li", place_html(it, name), escape(f": note: {it.text}")) for it in message.notes]
    return tag("li", place_html(message, name), text, tag("ul", *notes) if notes else "", cls=message.severity.value)


def place_html(place, name):
    """Returns a link to the line of a message."""
    return tag("a", f"{place.line}:{place.column}", href=f"#{name}-l-{place.line}")


def document_html(asked, name, data):
    """Returns the lines of a document; those of a long one are put into the data, and shown page by page."""
    lines = coloured_lines(asked.text, asked.sections)
    if not is_paged(asked.text):
        return source_html(lines, f"{name}-l")
    data["lines"] = [[part for run in runs for part in run] for runs in lines]
    return tag("div", cls="pager", data_of="lines") + tag("ol", cls="source paged")


def timeline_html(asked, name):
    """Returns the frames of what is shown by ticks: the timeline, the slots of a task, and the reads."""
    if asked.accepted.simulation is None:
        return tag("p", escape(f"It isn't drawn: {asked.accepted.difference}."))
    options = [tag("option", escape(task.name), value=at) for at, task in enumerate(asked.diagram.tasks)]
    chosen = tag("select", *options, id=f"{name}-slot-task", cls="slot-task") if options else ""
    slots = ("slot", "holds", "aimed for", "kept for reads with pre", "claimed by")
    reads = ("tick", "reads", "instance", "gets", "value")
    return "\n".join([
        processors_html(asked),
        controls_html(name),
        frame_html(f"{name}-timeline", f"{asked.name}: timeline"),
        legend_html(asked.name, f"{name}-legend", asked.accepted.simulation.simulated.command),
        tag("p", "Point at a read to see what it gets.", cls="pointed", aria_live="polite"),
        tag("p", tag("label", "Slots of the task ", chosen), cls="choice"),
        table(slots, [], "Slots", cls="slots"),
        tag("details", tag("summary", "Reads in these ticks"), table(reads, [], "Reads", cls="reads")),
    ])


def processors_html(asked):
    """Returns by what the timeline is simulated, and which tasks each processor has, if there are several."""
    if asked.accepted.simulation.simulated.command is Command.SIM:
        return tag("p", f"By {code('dbp sim')}, on one processor.")
    tasks = {}
    for task in asked.diagram.tasks:
        tasks.setdefault(task.cpu, []).append(task.name)
    told = "; ".join(f"processor {cpu}: {', '.join(tasks[cpu])}" for cpu in sorted(tasks))
    return tag("p", f"By {code('dbp cpus')}, each task on its own processor: {escape(told)}.")


def controls_html(name):
    """Returns what chooses the ticks that are shown."""
    slider = tag("input", type="range", min=0, max=1, value=0, step=1, id=f"{name}-tick", cls="tick-slider")
    number = tag("input", type="number", min=0, max=1, value=0, id=f"{name}-tick-number", cls="tick-number")
    length = tag("select", tag("option", "all", value=1), id=f"{name}-length", cls="length")
    shown = tag("output", "all ticks", cls="shown")
    labels = [tag("label", "Tick ", slider), tag("label", "as a number ", number), tag("label", "ticks shown ", length)]
    return tag("div", *labels, shown, cls="controls")


def outs_html(document, name):
    """Returns the frames of the plots and the tables of each task's outs."""
    parts = []
    for at, task in enumerate(document.tasks):
        instance, *signals = task_signals(task)
        parts.append(tag("h4", escape(task.name)))
        for number, signal in enumerate(signals):
            parts.append(frame_html(f"{name}-plot-{at}-{number}", f"{signal.full_name} over time"))
        header = [TICK_COLUMN, instance.full_name, *(signal.full_name for signal in signals)]
        parts.append(tag("div", cls="pager", data_of=f"table-{at}"))
        parts.append(table(header, [], f"Instances of {task.name}", id=f"{name}-table-{at}", cls="outs"))
    return "\n".join(parts) or tag("p", "There are no tasks.")


def data_html(data):
    """Returns the data of a document as an element that isn't shown; much of it is packed."""
    text = script_json(data)
    if len(text) <= MOST_PLAIN:
        return tag("script", text, type="application/json", cls="data")
    packed = b64encode(zlib.compress(text.encode())).decode()
    return tag("script", packed, type="text/plain", cls="data", data_packed="deflate")
