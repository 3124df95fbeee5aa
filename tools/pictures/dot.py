"""The diagram of a document as text for Graphviz's dot."""

from pictures.diagram import has_task, read_words, sense_words
from pictures.words import about_task


def quoted(text):
    """Returns a text in quotes."""
    return '"' + text.replace("\\", "\\\\").replace('"', '\\"') + '"'


def field(words, port=""):
    """Returns a field of a record, with the signs escaped that mean something there."""
    for sign in "\\{}|<>":
        words = words.replace(sign, f"\\{sign}")
    return f"<{port}> {words}" if port else words


def node_line(document, task):
    """Returns the line of a task: its reads and senses, what it is, its outs."""
    reads = [field(read_words(document, read), f"r{number}") for number, read in enumerate(task.reads)]
    senses = [field(sense_words(sense)) for sense in task.senses]
    outs = [field(out.name, f"o{number}") for number, out in enumerate(task.outs)]
    about = "\\n".join(field(line) for line in (task.name, *about_task(document, task)))
    columns = ["|".join(column) for column in ([*reads, *senses], [about], outs) if column]
    return f'  {quoted(task.name)} [label="{{' + "|".join(f"{{{column}}}" for column in columns) + '}"];'


def edge_line(document, task, number):
    """Returns the line of a read."""
    read = task.reads[number]
    writer = document.task(read.writer)
    port = [out.name for out in writer.outs].index(read.port)
    delay = f"pre {read.delay}" if read.delay > 1 else "pre"
    style = f' [style=dashed, color="#5c2d86", label="{delay}"]' if read.delay else ""
    return f"  {quoted(writer.name)}:o{port} -> {quoted(task.name)}:r{number}{style};"


def shown_reads(document):
    """Yields each task with the place of each of its reads from a task that is drawn."""
    for task in document.tasks:
        yield from ((task, number) for number, read in enumerate(task.reads) if has_task(document, read.writer))


def dot_text(document, name):
    """Returns the whole text."""
    lines = [
        f"digraph {quoted(name)} {{",
        "  rankdir=LR;",
        '  node [shape=record, fontname="Verdana", fontsize=11];',
        '  edge [fontname="Verdana", fontsize=10, color="#b8500a"];',
        *(node_line(document, task) for task in document.tasks),
        *(edge_line(document, *it) for it in shown_reads(document)),
        "}",
    ]
    return "\n".join(lines) + "\n"
