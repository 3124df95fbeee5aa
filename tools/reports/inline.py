"""Pictures inside of a page: each with a name and a description, and with the styles and arrow heads of the page."""

from html import escape
from math import ceil

from pictures.diagram import Diagram
from pictures.legend import Entry, draw_legend, legend_height
from pictures.marks import WORDS, Mark, sample_of
from pictures.service import Command
from pictures.styles import BLOCKED_DEFINITIONS, BLOCKED_STYLES, BOX_STYLES, DEFINITIONS, LATE_STYLES, STYLES
from pictures.svg import TEXT_STYLE, Canvas, Layer, element
from reports.markup import tag

LEGEND_WIDTH = 1000
DRAWN = (Mark.SERVED, Mark.PREEMPTED, Mark.WAITING, Mark.BLOCKED, Mark.END, Mark.LATE, Mark.RELEASE, Mark.DUE, Mark.READ,
         Mark.FIRST, Mark.DIRECT, Mark.DELAYED)
LEGEND = {**{mark: WORDS[mark] for mark in DRAWN}, Mark.DUE: "when it must have ended", Mark.READ: "read"}


class InlineCanvas(Canvas):
    """A picture that is being drawn into a page; its description is told to those who don't see it."""

    def __init__(self, name, description):
        super().__init__()
        self.name = name
        self.description = description

    def picture(self, width, height, title, styles, definitions=""):
        """Returns the picture as an element of a page."""
        parts = [part for layer in Layer for part in self.layers[layer]]
        return picture_html(self.name, title, self.description, "\n".join(parts), ceil(width), ceil(height))


def picture_html(name, title, description, content="", width=1000, height=100):
    """Returns a picture as an element of a page."""
    about = {"aria-label": title, "aria-describedby": f"{name}-desc", "viewBox": f"0 0 {width} {height}"}
    described = tag("desc", escape(description), id=f"{name}-desc")
    return tag("figure", tag("svg", described, content, id=name, role="img", width=width, **about), cls="picture") + "\n"


def frame_html(name, title):
    """Returns the frame of a picture that the page's script draws, below its title."""
    return tag("p", escape(title), cls="title") + picture_html(name, title, "It is drawn by the page's script.")


def legend_html(name, identity, command):
    """Returns what the marks of a timeline mean; on one processor none is blocked."""
    legend = {mark: words for mark, words in LEGEND.items() if mark is not Mark.BLOCKED or command is Command.CPUS}
    canvas = InlineCanvas(identity, "; ".join(legend.values()))
    entries = [Entry(*sample_of(mark), words) for mark, words in legend.items()]
    draw_legend(canvas, entries, 0, 0, LEGEND_WIDTH)
    return canvas.picture(LEGEND_WIDTH, legend_height(entries, LEGEND_WIDTH), f"{name}: legend of the timeline", [])


def diagram_html(document, name, identity):
    """Returns the diagram of a document as an element of a page."""
    diagram = Diagram(document)
    diagram.canvas = InlineCanvas(identity, diagram_words(document))
    diagram.draw()
    return diagram.finish(name)


def diagram_words(document):
    """Returns in words what a diagram shows."""
    reads = [f"{task.name} reads {it.writer}.{it.port}" for task in document.tasks for it in task.reads]
    tasks = ", ".join(task.name for task in document.tasks) or "none"
    return f"Tasks: {tasks}. Links: {'; '.join(reads) or 'none'}."


def definitions():
    """Returns the arrow heads and patterns of all pictures of a page."""
    size = {"width": 0, "height": 0, "aria_hidden": "true", "cls": "definitions"}
    return element("svg", element("defs", DEFINITIONS + BLOCKED_DEFINITIONS), **size) + "\n"


def picture_styles():
    """Returns the styles of pictures, for elements of a picture alone."""
    rules = [TEXT_STYLE, *STYLES, *BOX_STYLES, *LATE_STYLES, *BLOCKED_STYLES]
    return "\n".join(inside(*rule.split("{", 1)) for rule in rules)


def inside(selectors, rest):
    """Returns a rule for elements inside of a picture alone."""
    return ",".join(f"svg {selector}" for selector in selectors.split(",")) + "{" + rest
