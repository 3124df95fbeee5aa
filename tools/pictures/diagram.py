"""The drawing of a diagram: a box for each task, with its reads on the left and its outs on the right."""

from canonical import On
from pictures.layers import Edge, Layout
from pictures.legend import Entry, draw_legend, legend_height
from pictures.marks import Mark, arrow_sample
from pictures.service import rank_order
from pictures.styles import BOX_STYLES, DEFINITIONS, STYLES
from pictures.svg import Canvas, Layer, path, text_width, tip
from pictures.words import about_policy, about_task

MARGIN = 16
TOP = 72
NAME, LINE = 26, 14  # the heights of a box's name, and of each line below it
PORT = 18  # the height of a line of ports
SIZE = 11
PAD = 12


def read_words(document, read):
    """Returns how a read is named in its box: with what it reads if that task isn't drawn, with its delay, and with its
    tick of service if that isn't the first."""
    parts = [read.name]
    if not has_task(document, read.writer):
        parts.append(f"= {read.writer}.{read.port}")
    if read.delay:
        parts.append(f"(pre {read.delay})" if read.delay > 1 else "(pre)")
    return " ".join([*parts, *([f"at {read.at}"] if read.at else [])])


def has_task(document, name):
    """Whether a document that may be drawn in part has a task."""
    return any(task.name == name for task in document.tasks)


def sense_words(sense):
    """Returns how a sense is named in its box."""
    return f"{sense.name} = {sense.input}"


class Box:
    """The box of a task: its words and its size."""

    def __init__(self, document, at):
        self.task = document.tasks[at]
        self.lines = about_task(document, self.task)
        self.left = [read_words(document, read) for read in self.task.reads] + [sense_words(it) for it in self.task.senses]
        self.right = [out.name for out in self.task.outs]
        self.head_height = NAME + LINE * len(self.lines)
        self.height = self.head_height + PORT * max(len(self.left), len(self.right)) + 8
        head = [text_width(self.task.name, 13) * 1.15, *(text_width(line, SIZE) for line in self.lines)]
        ports = [max((text_width(words, SIZE) for words in side), default=0) for side in (self.left, self.right)]
        self.width = max(*head, sum(ports) + 24) + 2 * PAD

    def port_at(self, number):
        """Returns how far below the top of the box the middle of a port's line is."""
        return self.head_height + PORT * number + PORT / 2 + 2


def head_sample(canvas, x, y):
    """Draws the sample of the head of a task on an event."""
    canvas.box(Layer.MARKS, x, y - 7, 26, 14, "event-head")


def edges_of(boxes):
    """Returns an edge for each read of a task that is drawn."""
    names = [box.task.name for box in boxes]
    edges = []
    for target, box in enumerate(boxes):
        for number, read in enumerate(box.task.reads):
            if read.writer not in names:
                continue
            source = names.index(read.writer)
            port = [out.name for out in boxes[source].task.outs].index(read.port)
            stem = (source, port, read.delay > 0)
            edges.append(Edge(source, boxes[source].port_at(port), target, box.port_at(number), stem))
    return edges


class Diagram:
    """A diagram that is being drawn."""

    def __init__(self, document):
        self.document = document
        self.boxes = [Box(document, at) for at in range(len(document.tasks))]
        self.layout = Layout([box.height for box in self.boxes], edges_of(self.boxes), rank_order(document))
        self.canvas = Canvas()
        self.lefts, self.widths = [], []
        self.place_layers()

    def place_layers(self):
        """Finds the left side and the width of each layer: between two is room for the pieces that go there."""
        x = MARGIN
        for number in range(len(self.layout.layers)):
            nodes = [box.width for box, node in zip(self.boxes, self.layout.nodes) if node.layer == number]
            x += self.room_before(number)
            self.lefts.append(x)
            self.widths.append(max(nodes))
            x += max(nodes)
        self.right = x + self.room_before(len(self.layout.layers))

    def room_before(self, number):
        """Returns the width of the channel before a layer."""
        sides = [
            {joint.item.layer + joint.is_right for joint in (piece.start, piece.end)}
            for piece in self.layout.pieces.values()
        ]
        pieces = sum(side == {number} for side in sides)
        is_inside = 0 < number < len(self.layout.layers)
        return (56 if is_inside else 34 if pieces else 0) + min(110, 4 * pieces if is_inside else 0)

    def x(self, joint):
        """Returns where a joint is, from left to right."""
        layer = joint.item.layer
        return self.lefts[layer] + (self.widths[layer] if joint.is_right else 0)

    def y(self, joint):
        """Returns where a joint is, from top to bottom."""
        return TOP + joint.item.top + joint.at

    def draw(self):
        """Draws all pieces of edges, and all boxes."""
        for piece in self.layout.pieces.values():
            self.draw_piece(piece)
        for box, node in zip(self.boxes, self.layout.nodes):
            self.draw_box(box, self.lefts[node.layer], TOP + node.top, self.widths[node.layer])

    def draw_piece(self, piece):
        """Draws a piece of an edge: straight through a lane, else bent."""
        x, y, to_x, to_y = self.x(piece.start), self.y(piece.start), self.x(piece.end), self.y(piece.end)
        to_x -= 4 if piece.is_last else 0
        if x == to_x or (piece.is_last and abs(x - to_x) <= 4):
            bend = 30 if piece.start.is_right else -30
            data = path("M", x, y, "C", x + bend, y, to_x + bend, to_y, to_x, to_y)
        else:
            bend = (to_x - x) / 2
            data = path("M", x, y, "C", x + bend, y, to_x - bend, to_y, to_x, to_y)
        _, _, is_delayed = piece.edge.stem
        mark = Mark.DELAYED if is_delayed else Mark.DIRECT
        head = {"marker_end": f"url(#{mark.value}-head)"} if piece.is_last else {}
        self.canvas.add(Layer.ARROWS, "path", tip(self.about(piece)), d=data, cls=mark.value, **head)

    def about(self, piece):
        """Returns the name of the out that a piece carries."""
        source, port, _ = piece.edge.stem
        task = self.document.tasks[source]
        return f"{task.name}.{task.outs[port].name}"

    def draw_box(self, box, x, y, width):
        """Draws the box of a task."""
        head = "event-head" if isinstance(box.task.clock, On) else "head"
        self.canvas.box(Layer.BARS, x, y, width, box.height, "box")
        self.canvas.box(Layer.BARS, x, y, width, box.head_height, head)
        self.canvas.text(x + PAD, y + 19, box.task.name, "name")
        for number, line in enumerate(box.lines):
            self.canvas.text(x + PAD, y + 33 + LINE * number, line, "about")
        for number, words in enumerate(box.left):
            is_read = number < len(box.task.reads)
            self.draw_port(x, y + box.port_at(number), "in" if is_read else "sense", words)
        for number, words in enumerate(box.right):
            self.draw_port(x + width, y + box.port_at(number), "out", words)

    def draw_port(self, x, y, kind, words):
        """Draws a port: a dot, for a sense a diamond, and its words beside it inside the box."""
        if kind == "sense":
            data = path("M", x - 5, y, "L", x, y - 5, "L", x + 5, y, "L", x, y + 5, "z")
            self.canvas.add(Layer.MARKS, "path", d=data, cls="sense")
        else:
            self.canvas.add(Layer.MARKS, "circle", cx=x, cy=y, r=3, cls="port" if kind == "in" else "out-port")
        if kind == "out":
            self.canvas.text(x - 9, y + 4, words, "out-label")
        else:
            self.canvas.text(x + 9, y + 4, words, "label" if kind == "in" else "sense-label")

    def sense_sample(self, canvas, x, y):
        """Draws the sample of a sense."""
        self.draw_port(x + 5, y, "sense", "")

    def entries(self):
        """Returns the entries of the legend for what the diagram has."""
        reads = [read for task in self.document.tasks for read in task.reads]
        delays = {read.delay > 0 for read in reads if has_task(self.document, read.writer)}
        has_senses = any(task.senses for task in self.document.tasks)
        has_events = any(isinstance(task.clock, On) for task in self.document.tasks)
        found = [
            (False in delays, Entry(arrow_sample(Mark.DIRECT), 32, "link")),
            (True in delays, Entry(arrow_sample(Mark.DELAYED), 32, "delayed link, with pre")),
            (has_senses, Entry(self.sense_sample, 10, "sense of an input")),
            (has_events, Entry(head_sample, 26, "task on an event")),
        ]
        return [entry for is_there, entry in found if is_there]

    def finish(self, name):
        """Returns the text of the picture."""
        title = f"{name}: diagram"
        about = f"{about_policy(self.document)}, until {self.document.until}"
        width = max(self.right + MARGIN, 2 * MARGIN + max(text_width(title, 16) * 1.15, text_width(about, 12)), 360)
        self.canvas.text(MARGIN, 28, title, "title")
        self.canvas.text(MARGIN, 48, about, "legend")
        bottom = TOP + self.layout.height() + 20
        entries = self.entries()
        draw_legend(self.canvas, entries, MARGIN, bottom, width - 2 * MARGIN)
        height = bottom + legend_height(entries, width - 2 * MARGIN) + MARGIN
        return self.canvas.picture(width, height, f"{title}, {about}", [*STYLES, *BOX_STYLES], DEFINITIONS)


def draw_diagram(document, name):
    """Returns the diagram of a document as SVG."""
    diagram = Diagram(document)
    diagram.draw()
    return diagram.finish(name)
