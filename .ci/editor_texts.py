"""Documents as an editor has them, for trials of tools/language_server: positions by UTF-16, edits, and renaming, each made
without the tools."""

import re
from dataclasses import replace

from canonical import On, cells_of

LINE_END = re.compile(r"\r\n|\r|\n")


def units(text):
    """Returns how many units of UTF-16 a text has."""
    return len(text.encode("utf-16-le", "surrogatepass")) // 2


def position_at(text, at):
    """Returns the position of a place in a text."""
    ends = [it.end() for it in LINE_END.finditer(text) if it.end() <= at]
    return {"line": len(ends), "character": units(text[ends[-1] if ends else 0 : at])}


def place_of(text, position):
    """Returns the place in a text of a position; one past an end is that end."""
    starts = [0, *(it.end() for it in LINE_END.finditer(text))]
    if position["line"] >= len(starts):
        return len(text)
    start = at = starts[position["line"]]
    while at < len(text) and text[at] not in "\r\n" and units(text[start : at + 1]) <= position["character"]:
        at += 1
    return at


def edited(text, edits):
    """Returns a text with edits, none of which meets another."""
    placed = [(place_of(text, it["range"]["start"]), place_of(text, it["range"]["end"]), it["newText"]) for it in edits]
    for start, end, new in sorted(placed, reverse=True):
        text = text[:start] + new + text[end:]
    return text


def characters_in(content, size):
    """Returns how many characters begin in the first bytes of a text."""
    return sum(not 0x80 <= byte < 0xC0 for byte in content[:size])


def range_in_bytes(text, line, column, width):
    """Returns the range of so many bytes from a line and a column of the language on, which count from 1; at most to the
    end of the editor's line."""
    content = text.encode("utf-8", "surrogatepass")
    lines = content.split(b"\n")
    before = b"\n".join([*lines[: line - 1], b""]) + lines[line - 1][: column - 1] if line <= len(lines) else content
    start = characters_in(content, len(before))
    end = characters_in(content, len(before) + width) if line <= len(lines) else start
    stop = LINE_END.search(text, start)
    return {"start": position_at(text, start), "end": position_at(text, min(end, stop.start() if stop else len(text)))}


class Renaming:
    """A name that is another one: of a task, or of the document if there is no owner."""

    def __init__(self, owner, old, new):
        self.owner, self.old, self.new = owner, old, new

    def named(self, name, is_meant=True):
        """Returns a name, or the new one in its place."""
        return self.new if is_meant and name == self.old else name

    def outer(self, name):
        """Returns a name of the document."""
        return self.named(name, self.owner is None)

    def part(self, task, it):
        """Returns a part of a task's body."""
        is_own = self.owner == task.name
        made = {name: self.named(getattr(it, name), is_own) for name in ("name", "state") if hasattr(it, name)}
        if hasattr(it, "expression") and is_own:
            made["expression"] = re.sub(rf"\b{self.old}\b", self.new, it.expression)
        if hasattr(it, "input"):
            made["input"] = self.outer(it.input)
        if hasattr(it, "writer"):
            made.update(writer=self.outer(it.writer), port=self.named(it.port, it.writer == self.owner))
        return replace(it, **made)

    def task(self, task):
        """Returns a task."""
        clock = On(self.outer(task.clock.event)) if isinstance(task.clock, On) else task.clock
        kinds = ("states", "senses", "reads", "lets", "nexts", "outs")
        parts = {kind: tuple(self.part(task, it) for it in getattr(task, kind)) for kind in kinds}
        return replace(task, name=self.outer(task.name), clock=clock, when=self.outer(task.when), **parts)

    def step(self, line):
        """Returns a step of the script."""
        words = line.split()
        named = [1, len(words) - 1] if words[0] == "claim" else [1]
        found = [self.outer(it) if at in named else it for at, it in enumerate(words)]
        if words[0] in ("look", "take", "put"):
            found[2] = self.named(words[2], words[1] == self.owner)
        return " ".join(found)

    def trace(self, trace):
        """Returns the trace, if there is one."""
        if trace is None:
            return None
        time, *names = cells_of(trace.lines[0])
        return replace(trace, lines=(",".join([time, *map(self.outer, names)]), *trace.lines[1:]))

    def document(self, it):
        """Returns a document of tools/canonical.py."""
        return replace(
            it,
            inputs=tuple(replace(one, name=self.outer(one.name)) for one in it.inputs),
            events=tuple(map(self.outer, it.events)),
            tasks=tuple(map(self.task, it.tasks)),
            trace=self.trace(it.trace),
            script=None if it.script is None else tuple(map(self.step, it.script)),
        )
