"""The lines of a document that its parts come from, as comments of C."""

from canonical import split_sections
from checking.text import lines_of


def is_code(text):
    """Whether a line before the trace has more than blanks and a comment."""
    return bool(text.partition(b"#")[0].strip(b" \t"))


def diagram_lines(form):
    """Returns the lines of the canonical text before trace and script."""
    return split_sections(form.decode("ascii").split("\n")[:-1])[0]


def numbered_lines(source, form):
    """Yields the lines of the canonical text before trace and script, each with the number of its line in the source."""
    numbers = (line.number for line in lines_of(source) if is_code(line.text))
    return zip(numbers, diagram_lines(form))


def comments_of(source, form):
    """Returns the comment of each declaration, task and line of a body, by the task, the line's word and its name."""
    found, task = {}, None
    for number, line in numbered_lines(source, form):
        word, name = line.split()[:2]
        task = name if word == "task" else task
        found[task, word, name] = f"/* {number}: {line.strip()} */"
    return found
