"""The marks of a timeline: their styles, their shapes and their words in the legend."""

from enum import Enum

from pictures.legend import Entry
from pictures.svg import Layer, path, tip


class Mark(Enum):
    """What may stand on a timeline, by its class."""

    SERVED = "served"
    PREEMPTED = "preempted"
    WAITING = "waiting"
    BLOCKED = "blocked"
    END = "end"
    LATE = "late"
    RELEASE = "release"
    DUE = "due"
    DEADLINE = "deadline"
    READ = "read-mark"
    DIRECT = "direct"
    DELAYED = "delayed"
    FIRST = "first"
    AGAIN = "again"
    AIMED = "aimed"
    HELD = "held"
    KEPT = "kept"
    CLAIMED = "claimed"
    UNSEEN = "unseen"
    STEP = "step"


def draw_flag(canvas, mark, x, base, about=""):
    """Draws the flag of a release, to the right of its time, or of what is due, to the left."""
    side = 7 if mark is Mark.RELEASE else -7
    data = path("M", x, base + 4, "L", x, base + 18, "L", x + side, base + 14, "L", x, base + 10)
    canvas.add(Layer.MARKS, "path", tip(about), d=data, cls=mark.value)


def draw_read(canvas, x, y, about="", inside=()):
    """Draws the mark of a read: with a dot for first values, with a bar for what an arrow before has brought."""
    canvas.add(Layer.MARKS, "circle", tip(about), cx=x, cy=y, r=3.4, cls=Mark.READ.value)
    if Mark.FIRST in inside:
        canvas.add(Layer.MARKS, "circle", tip(about), cx=x, cy=y, r=1.7, cls=Mark.FIRST.value)
    if Mark.AGAIN in inside:
        canvas.line(Layer.MARKS, x - 6, y, x + 6, y, Mark.AGAIN.value, about)


def bar_sample(mark, height):
    """Returns a call that draws the sample of a bar."""
    return lambda canvas, x, y: canvas.box(Layer.MARKS, x, y - height / 2, 26, height, mark.value)


def arrow_sample(mark):
    """Returns a call that draws the sample of an arrow."""

    def draw(canvas, x, y):
        data = path("M", x, y, "L", x + 32, y)
        canvas.add(Layer.MARKS, "path", d=data, cls=mark.value, marker_end=f"url(#{mark.value}-head)")

    return draw


def sample_of(mark):
    """Returns the sample of a mark and its width."""
    if mark in (Mark.DIRECT, Mark.DELAYED):
        return arrow_sample(mark), 32
    if mark in (Mark.RELEASE, Mark.DUE, Mark.DEADLINE):
        left = 0 if mark is Mark.RELEASE else 8
        return lambda canvas, x, y: draw_flag(canvas, mark, x + left, y - 12), 8
    if mark in (Mark.READ, Mark.FIRST, Mark.AGAIN):
        return lambda canvas, x, y: draw_read(canvas, x + 4, y, inside={mark}), 8
    if mark is Mark.STEP:
        return lambda canvas, x, y: canvas.text(x, y + 4, "[3]", "label"), 20
    if mark in (Mark.END, Mark.LATE):
        return lambda canvas, x, y: canvas.line(Layer.MARKS, x + 2, y - 9, x + 2, y + 9, mark.value), 4
    return bar_sample(mark, 8 if mark in (Mark.PREEMPTED, Mark.WAITING, Mark.BLOCKED) else 14), 26


WORDS = {
    Mark.SERVED: "served, with the number of the instance",
    Mark.PREEMPTED: "preempted",
    Mark.WAITING: "released, not served yet",
    Mark.BLOCKED: "blocked, since a task that it reads hasn't ended",
    Mark.END: "end",
    Mark.LATE: "end after the deadline",
    Mark.RELEASE: "release",
    Mark.DUE: "next release",
    Mark.DEADLINE: "deadline",
    Mark.READ: "read, with its name",
    Mark.FIRST: "read of first values",
    Mark.AGAIN: "read of the instance of the arrow before",
    Mark.DIRECT: "claim, from the instance whose outs are read",
    Mark.DELAYED: "claim with pre",
    Mark.AIMED: "aimed, to hold a row",
    Mark.HELD: "filled with a row",
    Mark.KEPT: "kept for reads with pre",
    Mark.CLAIMED: "claimed by a reader's instance",
    Mark.UNSEEN: "its instance has ended, not seen yet",
    Mark.STEP: "made by step 3 of the record",
}


def entries_of(marks):
    """Returns the entries of a legend for the marks that a picture has."""
    return [Entry(*sample_of(mark), WORDS[mark]) for mark in WORDS if mark in marks]
