"""A trace section in its place in the text of a document, of which all else stays as it is."""

from checking.reading import read_document


def with_section(text, lines):
    """Returns the bytes of a document that `dbp form` accepts, with the lines of another trace section, or of a first one.

    The section stands after the tasks, before the script. Its lines end as the first one of the document.
    """
    document, _ = read_document(text)
    after = document.script_at or document.done_at
    old = text.split(b"\n")
    end = b"\r\n" if old[0].endswith(b"\r") else b"\n"
    if document.trace_at:  # this line stays, since it may have a comment
        before, added = old[: document.trace_at], lines[1:]
    else:
        comment, old[after - 1] = without_comment(old[after - 1])
        before, added = [*old[: after - 1], *comment], lines
    section = b"".join(line.encode("ascii") + end for line in added)
    return b"".join(line + b"\n" for line in before) + section + b"\n".join(old[after - 1 :])


def without_comment(line):
    """Returns the comment of a line, in a list, and the line without it: the one that ends a trace may have none."""
    code, sign, comment = line.partition(b"#")
    end = b"\r" if comment.endswith(b"\r") else b""
    return ([sign + comment], code.rstrip(b" \t") + end) if sign else ([], line)
