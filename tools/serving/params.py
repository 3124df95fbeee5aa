"""What a message of the editor has, each part of the type that it must be of."""


class BadParams(Exception):
    """A part of a message isn't there, or is of another type."""


def part(params, name, kind):
    """Returns a part of an object."""
    value = params.get(name) if isinstance(params, dict) else None
    if not isinstance(value, kind) or isinstance(value, bool):
        raise BadParams(f"`{name}` isn't as it must be")
    return value


def count(params, name):
    """Returns a number that is at least 0."""
    value = part(params, name, int)
    if value < 0:
        raise BadParams(f"`{name}` is below 0")
    return value


def uri(params):
    """Returns the document that a message is about."""
    return part(part(params, "textDocument", dict), "uri", str)


def position(params, name="position"):
    """Returns a position."""
    found = part(params, name, dict)
    return {"line": count(found, "line"), "character": count(found, "character")}


def span(params, name="range"):
    """Returns a range."""
    found = part(params, name, dict)
    return {"start": position(found, "start"), "end": position(found, "end")}


def changes(params):
    """Returns the changes of a document: each a range, or nothing for all of it, and the text that comes there."""
    found = part(params, "contentChanges", list)
    return [(None if optional(it, "range") is None else span(it), part(it, "text", str)) for it in found]


def optional(params, *names):
    """Returns a part of an object in objects, or nothing."""
    for name in names:
        params = params.get(name) if isinstance(params, dict) else None
    return params
