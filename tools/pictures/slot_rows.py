"""The drawing of the slots of a task: below a timeline of the task and its readers, on the same ticks."""

from pictures.marks import Mark
from pictures.service import rank_order
from pictures.slots import Use, stays_of
from pictures.svg import Layer, text_width
from pictures.timeline import MARGIN, Timeline

LANE, BETWEEN, HEAD = 19, 12, 30
SIZE = 11
TICK = 80  # the width of a tick, unless there are many


def tasks_around(document, task):
    """Returns the places of a task and of its readers, in the order of ranks."""
    name = document.tasks[task].name
    readers = {at for at, it in enumerate(document.tasks) for read in it.reads if read.writer == name}
    return [at for at in rank_order(document) if at == task or at in readers]


def lanes_of(stays):
    """Returns the stays of one slot lane by lane, so that none overlaps another in its lane."""
    lanes = []
    for use in Use:
        own = []
        for stay in (it for it in stays if it.use is use):
            free = next((lane for lane in own if lane[-1].stop is not None and lane[-1].stop <= stay.start), None)
            if free is None:
                own.append([stay])
            else:
                free.append(stay)
        lanes.extend(own)
    return lanes


def words_of(stay):
    """Returns what may be written on a stay, the longest first."""
    step = "" if stay.step is None else f" [{stay.step}]"
    row = f"row {stay.row}"
    lead = {Use.AIMED: "aimed for ", Use.HELD: "holds ", Use.KEPT: "kept: ", Use.CLAIMED: f"{stay.reader}: "}[stay.use]
    short = {Use.CLAIMED: f"{stay.reader}{step}"}.get(stay.use, f"{row}{step}")
    return [f"{lead}{row}{step}", short, row, step.strip()]


class SlotRows:
    """The rows of the slots of a task, below a timeline."""

    def __init__(self, timeline, task):
        self.timeline = timeline
        self.canvas = timeline.canvas
        self.scale = timeline.scale
        self.name = timeline.document.tasks[task].name
        window = timeline.window
        shown = [
            stay
            for stay in stays_of(timeline.simulated, task)
            if window.shows(stay.start, window.stop if stay.stop is None else stay.stop)
        ]
        slots = range(timeline.simulated.slots[task])
        self.lanes = {slot: lanes_of([stay for stay in shown if stay.slot == slot]) or [[]] for slot in slots}
        self.top = timeline.bottom + HEAD
        timeline.bottom = self.top + sum(LANE * len(lanes) + BETWEEN for lanes in self.lanes.values())

    def draw(self):
        """Draws each slot with its lanes."""
        self.canvas.text(MARGIN, self.top - 8, f"slots of {self.name}", "small")
        y = self.top
        left, right = self.scale.left, self.scale.left + self.scale.width
        for slot, lanes in self.lanes.items():
            height = LANE * len(lanes)
            self.canvas.box(Layer.BACK, left, y, right - left, height, "slot")
            self.canvas.text(MARGIN, y + height / 2 + 5, f"slot {slot}", "name")
            for number, lane in enumerate(lanes):
                for stay in lane:
                    self.draw_stay(stay, y + LANE * number + 1.5)
            y += height + BETWEEN

    def draw_stay(self, stay, y):
        """Draws a stay, with as much of its words as fits."""
        end = self.timeline.window.stop if stay.stop is None else stay.stop
        x, to_x = self.scale.x(stay.start), self.scale.x(end)
        if to_x <= x:
            return
        mark = Mark(stay.use.value)
        words = words_of(stay)
        end_text = "" if stay.stop is None else f" to {stay.stop}"
        about = f"slot {stay.slot}, {words[0]}, from {stay.start}{end_text}"
        self.timeline.used |= {mark, Mark.STEP}
        self.canvas.box(Layer.BARS, x, y, to_x - x, LANE - 3, mark.value, about)
        if stay.ended is not None and stay.ended < end:
            seen_from = self.scale.x(stay.ended)
            self.timeline.used.add(Mark.UNSEEN)
            self.canvas.box(Layer.BARS, seen_from, y, to_x - seen_from, LANE - 3, Mark.UNSEEN.value, about)
        fitting = next((text for text in words if text_width(text, SIZE) + 8 <= to_x - x), "")
        if fitting:
            self.canvas.text(x + 5, y + 12, fitting, "label")


def draw_slots(simulated, name, window_asked, task_name):
    """Returns the picture of a task, its readers and its slots as SVG, and its window."""
    document = simulated.document
    task = next(at for at, it in enumerate(document.tasks) if it.name == task_name)
    timeline = Timeline(simulated, window_asked, tasks_around(document, task), task_name, TICK)
    rows = SlotRows(timeline, task)
    timeline.draw()
    rows.draw()
    return timeline.finish(name, f"slots of {task_name}"), timeline.window
