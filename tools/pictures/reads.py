"""The reads of a timeline: which instance each gets, by an arrow or, if many reads get the same one, by a mark."""

from pictures.courses import claims_of
from pictures.marks import Mark, draw_read
from pictures.svg import Layer, path, tip

FAN = 3  # if a task reads so often over a link from one instance, the first read alone has an arrow


class Reads:
    """The reads of a timeline that is being drawn."""

    def __init__(self, timeline, task_name):
        self.timeline = timeline
        self.document = timeline.document
        self.task_name = task_name  # of the task whose reads and outs alone are drawn, or nothing
        self.places = {}  # by its coordinates what is read at a place, and what its mark has inside

    def draw(self):
        """Draws the reads that are shown, those of one instance together."""
        found = {}
        for claim in claims_of(self.timeline.simulated, self.timeline.all_courses):
            if self.is_asked(claim):
                shown = [(time, claim) for time in claim.reads if self.timeline.window.shows(time, time)]
                found.setdefault((claim.writer, claim.row, claim.delay, claim.reader.instance.task), []).extend(shown)
        for reads in found.values():
            reads.sort(key=lambda it: it[0])
            for number, (time, claim) in enumerate(reads):
                self.take_read(claim, time, is_again=number > 0 and len(reads) >= FAN)
        for (x, y), (abouts, inside) in self.places.items():
            draw_read(self.timeline.canvas, x, y, "\n".join(abouts), inside)

    def is_asked(self, claim):
        """Whether the reads over a claim are to be drawn."""
        reader = claim.reader.instance.task
        names = [self.document.tasks[at].name for at in (reader, claim.writer)]
        return reader in self.timeline.rows and self.task_name in (None, *names)

    def take_read(self, claim, time, is_again):
        """Draws the arrow of the reads over a claim at a time, if they have one, and keeps their mark."""
        timeline = self.timeline
        is_below = timeline.row_of(claim.reader.instance.task) > timeline.row_of(claim.writer)
        x, y = timeline.scale.x(time), timeline.bar_of(claim.reader.instance.task)[0 if is_below else 1]
        about = self.about(claim, time)
        has_writer = claim.writer in timeline.rows
        inside = Mark.FIRST if not claim.row else Mark.AGAIN if is_again and has_writer else None
        timeline.used.add(inside or Mark.READ)
        if inside is None and has_writer:
            self.draw_arrow(claim, x, y, about)
        abouts, marks = self.places.setdefault((x, y), ([], set()))
        abouts.append(about)
        marks.add(inside)

    def about(self, claim, time):
        """Returns in words what is read over a claim, with the values."""
        writer = self.document.tasks[claim.writer].name
        row = f"the outs of {writer} {claim.row}" if claim.row else f"the first values of {writer}"
        delay = f" (pre {claim.delay})" if claim.delay else ""
        reads = [self.document.tasks[claim.reader.instance.task].reads[read] for read in claim.reads[time]]
        value = self.timeline.simulated.value
        values = ", ".join(f"{read.name} = {value(claim.writer, claim.row, read.port)}" for read in reads)
        return f"{self.timeline.title_of(claim.reader)} reads {row} at {time}{delay}: {values}"

    def draw_arrow(self, claim, to_x, to_y, about):
        """Draws the arrow from the end of the instance whose outs are read: down to a read, or up and from the left."""
        timeline = self.timeline
        x = timeline.scale.x(timeline.all_courses[claim.writer, claim.row].end)
        top, bottom = timeline.bar_of(claim.writer)
        if top < to_y:
            y, to_y = bottom + 3, to_y - 4
            bend = (to_y - y) / 2
            data = path("M", x, y, "C", x, y + bend, to_x, to_y - bend, to_x, to_y)
        else:
            y, reach = top - 3, min(60, (to_x - x) / 2)
            data = path("M", x, y, "C", x, (y + to_y) / 2, to_x - reach, to_y + 4, to_x - min(4, reach), to_y + 2)
        mark = Mark.DELAYED if claim.delay else Mark.DIRECT
        timeline.used.add(mark)
        timeline.canvas.add(Layer.ARROWS, "path", d=data, cls="halo")
        head = f"url(#{mark.value}-head)"
        timeline.canvas.add(Layer.ARROWS, "path", tip(about), d=data, cls=mark.value, marker_end=head)
