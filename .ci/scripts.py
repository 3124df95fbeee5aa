"""Scripts that trials put into documents."""


def with_script(form, document, lines):
    """Returns a canonical text, read as a document, with these lines as its script."""
    kept = form.decode().split("\n")[: -2 - (0 if document.script is None else 1 + len(document.script))]
    return "\n".join([*kept, "script", *lines, "done", ""]).encode()
