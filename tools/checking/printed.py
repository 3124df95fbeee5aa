"""Messages as lines with the source and a caret, or as JSON."""

import json

MOST_SHOWN = 160
TAKEN_BEFORE = 60


def shown(text):
    """Returns bytes as characters that a terminal shows as they are."""
    return "".join(it if it == "\t" or it.isprintable() else f"\\x{ord(it):02x}" for it in decoded(text))


def decoded(text):
    """Returns bytes as UTF-8, each byte that is none as an escape."""
    return text.decode("utf-8", "backslashreplace")


def source_of(lines, message):
    """Returns the line of a message and a caret below it, or a part of it if it is long; nothing for no line."""
    if message.line > len(lines):
        return ""
    line = lines[message.line - 1].text
    at = min(message.column - 1, len(line))
    start = at - TAKEN_BEFORE if len(line) > MOST_SHOWN and at > TAKEN_BEFORE else 0
    line, at = line[start : start + MOST_SHOWN], at - start
    gutter = f"{message.line:5} | "
    before = "".join(it if it == "\t" else " " for it in shown(line[:at]))
    width = max(1, len(shown(line[at : at + message.width])))
    return f"{gutter}{shown(line)}\n{' ' * (len(gutter) - 2)}| {before}^{'~' * (width - 1)}\n"


def plain(file, lines, messages):
    """Returns the messages of a file as text."""
    parts = []
    for it in messages:
        code = f"{it.code} " if it.code is not None else ""
        parts.append(f"{file}:{it.line}:{it.column}: {it.severity.value}: {code}{it.name}: {it.text}\n")
        parts.append(source_of(lines, it))
        parts += [f"{note.file or file}:{note.line}:{note.column}: note: {note.text}\n" for note in it.notes]
    return "".join(parts)


def objects(file, messages):
    """Returns the messages of a file as what JSON prints."""
    return [
        {
            "file": file,
            "line": it.line,
            "column": it.column,
            "severity": it.severity.value,
            "code": it.code,
            "name": it.name,
            "message": it.text,
            "notes": [{"line": note.line, "column": note.column, "message": note.text} for note in it.notes],
        }
        for it in messages
    ]


def as_written(text):
    """Returns a text of JSON as it is written: a byte of a file's name that is no UTF-8 is an escape."""
    return text.encode("utf-8", "backslashreplace").decode()


def as_json(found):
    """Returns a list of objects as a text, one object a line."""
    return as_written("[" + ",".join("\n" + json.dumps(it, ensure_ascii=False) for it in found) + "\n]\n")


def json_text(files):
    """Returns the messages of files as one list."""
    return as_json([found for it in files for found in objects(it.file, it.messages)])
