"""The drawing of a timeline: a row for each task, in the order of ranks, by their processors if they have several."""

from pictures.courses import courses_of
from pictures.legend import draw_legend, legend_height
from pictures.marks import Mark, draw_flag, entries_of
from pictures.reads import Reads
from pictures.service import Command, is_late, rank_order
from pictures.styles import BLOCKED_DEFINITIONS, BLOCKED_STYLES, DEFINITIONS, LATE_STYLES, STYLES
from pictures.svg import Canvas, Layer, text_width
from pictures.window import Scale, choose_window, plot_width, tick_step
from pictures.words import about_policy, about_task

MARGIN = 16
TOP = 92  # where the first row begins
ROW = 68
PROCESSOR = 22  # the height of the line that names a processor
BAR_AT, BAR = 24, 20  # of a row


def grouped_reads(document, course):
    """Returns the times at which an instance reads, each with the names of its reads then."""
    found = {}
    for time, read in course.reads:
        found.setdefault(time, []).append(document.tasks[course.instance.task].reads[read].name)
    return {time: ", ".join(names) for time, names in found.items()}


class Timeline:
    """A timeline that is being drawn, of the tasks that are given by their places."""

    def __init__(self, simulated, window_asked, tasks=None, claims_of=None, per_tick=28):
        self.simulated = simulated
        self.claims_of = claims_of
        self.document = simulated.document
        chosen = rank_order(self.document) if tasks is None else tasks
        self.tasks = sorted(chosen, key=self.processor_of)
        courses = courses_of(simulated)
        self.all_courses = courses
        shown = [course for course in courses.values() if course.instance.task in self.tasks]
        self.window = choose_window(shown, simulated, *window_asked)
        self.courses = [it for it in shown if self.window.shows(it.instance.release, it.last_mark)]
        self.canvas = Canvas()
        self.used = set()
        self.processors = {self.processor_of(task): 0 for task in self.tasks}
        self.rows, self.bottom = {}, TOP
        self.place_rows()
        left = MARGIN + self.label_width() + 18
        width = plot_width(self.courses, self.window, self.read_labels(), per_tick)
        self.scale = Scale(self.window, left, width)

    def processor_of(self, task):
        """Returns the processor of a task, by its place."""
        return self.simulated.command.processor_of(self.document.tasks[task])

    def place_rows(self):
        """Places the rows of the tasks, those of a processor below its name if the simulation has several."""
        for task in self.tasks:
            number = self.processor_of(task)
            if self.simulated.command is Command.CPUS and not self.processors[number]:
                self.bottom += PROCESSOR
                self.processors[number] = self.bottom
            self.rows[task] = self.bottom
            self.bottom += ROW

    def row_of(self, task):
        """Returns the top of a task's row; one that isn't shown counts as above all others."""
        return self.rows.get(task, 0)

    def bar_of(self, task):
        """Returns the top and the bottom of the bars of a task."""
        top = self.rows[task] + BAR_AT
        return top, top + BAR

    def label_width(self):
        """Returns the width of the column with the names of the tasks."""
        tasks = [self.document.tasks[at] for at in self.tasks]
        names = [text_width(task.name, 13) * 1.15 for task in tasks]
        lines = [text_width(line, 11) for task in tasks for line in about_task(self.document, task)]
        return max([60, *names, *lines])

    def read_labels(self):
        """Returns for each row the time and the width of the labels of its reads."""
        rows = {task: [] for task in self.tasks}
        for course in self.courses:
            for time, names in grouped_reads(self.document, course).items():
                rows[course.instance.task].append((time, text_width(names, 11) + 16))
        return [sorted(row) for row in rows.values()]

    def draw(self):
        """Draws the rows with all that stands in them."""
        self.draw_axis()
        for task in self.tasks:
            self.draw_label(task)
        for course in self.courses:
            self.draw_course(course)
            self.draw_flags(course)
        self.draw_reads()
        Reads(self, self.claims_of).draw()
        if self.simulated.overrun:
            self.draw_overrun()

    def draw_axis(self):
        """Draws the ticks and their numbers."""
        window, scale = self.window, self.scale
        step = tick_step(window, scale.width, text_width(str(window.stop), 11) + 14)
        for time in range(-(-window.start // step) * step, window.stop + 1, step):
            self.canvas.line(Layer.BACK, scale.x(time), TOP - 6, scale.x(time), self.bottom, "grid")
            self.canvas.text(scale.x(time), TOP - 12, str(time), "tick")
        self.canvas.text(MARGIN, TOP - 12, "tick", "small")
        for number, y in self.processors.items():
            if y:
                self.canvas.text(MARGIN, y + 4, f"processor {number}", "small")

    def draw_label(self, task):
        """Draws the name of a task, what it is, and its base line."""
        y = self.rows[task]
        it = self.document.tasks[task]
        self.canvas.text(MARGIN, y + 26, it.name, "name")
        for number, line in enumerate(about_task(self.document, it)):
            self.canvas.text(MARGIN, y + 41 + 14 * number, line, "small")
        base = y + BAR_AT + BAR
        self.canvas.line(Layer.BACK, self.scale.left, base, self.scale.left + self.scale.width, base, "base")

    def title_of(self, course):
        """Returns the name and the number of an instance."""
        return f"{self.document.tasks[course.instance.task].name} {course.instance.number}"

    def draw_course(self, course):
        """Draws how an instance waits, is served, is preempted, and ends."""
        y = self.rows[course.instance.task] + BAR_AT
        title = self.title_of(course)
        about = {
            Mark.WAITING: (course.waits(), f"{title} waits"),
            Mark.PREEMPTED: (course.gaps(), f"{title} is preempted"),
            Mark.BLOCKED: (course.blocked, f"{title} is blocked"),
        }
        for mark, (stretches, words) in about.items():
            for start, stop in stretches:
                self.stretch(start, stop, y + BAR - 8, 8, mark, words)
        for start, stop in course.spans:
            about = f"{title} is served from {start} to {stop}"
            width = self.stretch(start, stop, y, BAR, Mark.SERVED, about)
            if width >= text_width(str(course.instance.number), 12) + 8:
                middle = (self.scale.x(start) + self.scale.x(stop)) / 2
                self.canvas.text(middle, y + 14.5, str(course.instance.number), "number")
        if course.end is not None and self.window.shows(course.end, course.end):
            self.draw_end(course, y, f"{title} ends at {course.end}")

    def draw_end(self, course, y, about):
        """Draws the end of an instance, in red if that is after its deadline."""
        it, mark = course.instance, Mark.END
        if is_late(self.document, it, course.end):
            mark = Mark.LATE
            about += f", after its deadline {it.release + self.document.tasks[it.task].deadline}"
        self.used.add(mark)
        x = self.scale.x(course.end)
        self.canvas.line(Layer.MARKS, x, y - 3, x, y + BAR + 3, mark.value, about)

    def stretch(self, start, stop, y, height, mark, about):
        """Draws a bar over the shown part of some ticks, and returns its width."""
        if stop <= start or not self.window.shows(start, stop):
            return 0
        x, to_x = self.scale.x(start), self.scale.x(stop)
        if to_x > x:
            self.used.add(mark)
            self.canvas.box(Layer.BARS, x, y, max(1.5, to_x - x), height, mark.value, about)
        return to_x - x

    def draw_flags(self, course):
        """Draws the flags of an instance below the base line: its release, and when it is due."""
        base = self.rows[course.instance.task] + BAR_AT + BAR
        title = self.title_of(course)
        due, words = (Mark.DUE, "release after") if course.instance.deadline is None else (Mark.DEADLINE, "deadline of")
        flags = {
            Mark.RELEASE: (course.instance.release, f"release of {title}"),
            due: (course.due, f"{words} {title}"),
        }
        for mark, (time, about) in flags.items():
            if time is not None and self.window.shows(time, time):
                self.used.add(mark)
                draw_flag(self.canvas, mark, self.scale.x(time), base, f"{about}: {time}")

    def draw_reads(self):
        """Draws the names of the reads, each if it ends before the next one of its row begins."""
        labels = sorted(
            (self.rows[course.instance.task], time, names)
            for course in self.courses
            for time, names in grouped_reads(self.document, course).items()
            if self.window.shows(time, time)
        )
        for (y, time, names), after in zip(labels, [*labels[1:], None]):
            is_last = after is None or after[0] != y
            end = self.scale.left + self.scale.width + 40 if is_last else self.scale.x(after[1])
            if self.scale.x(time) + 7 + text_width(names, 11) < end:
                self.canvas.text(self.scale.x(time) + 6, y + BAR_AT - 6, names, "read")

    def draw_overrun(self):
        """Marks the tick and the task of the overrun."""
        overrun = self.simulated.overrun
        if not self.window.shows(overrun.time, overrun.time):
            return
        x = self.scale.x(overrun.time)
        self.canvas.line(Layer.MARKS, x, TOP - 6, x, self.bottom, "overrun")
        for task, y in self.rows.items():
            if self.document.tasks[task].name == overrun.task:
                about = f"release of {overrun.task} {overrun.number}: {overrun.time}"
                draw_flag(self.canvas, Mark.RELEASE, x, y + BAR_AT + BAR, about)
                self.canvas.text(x + 8, y + BAR_AT + 14, overrun.line(), "loud")

    def right_margin(self):
        """Returns the room to the right of the plot."""
        overrun = self.simulated.overrun
        return 24 + (text_width(overrun.line(), 12) * 1.15 + 8 if overrun else 24)

    def finish(self, name, what):
        """Returns the text of the picture, with its title and its legend."""
        window = self.window
        title = f"{name}: {what}"
        about = f"{about_policy(self.document)}, {self.about_processors()}, ticks {window.start} to {window.stop}"
        if window.is_cut:
            about += "; not all instances are shown"
        width = self.scale.left + self.scale.width + self.right_margin()
        width = max(width, 2 * MARGIN + max(text_width(title, 16) * 1.15, text_width(about, 12)))
        self.canvas.text(MARGIN, 28, title, "title")
        self.canvas.text(MARGIN, 48, about, "legend")
        entries = entries_of(self.used)
        draw_legend(self.canvas, entries, MARGIN, self.bottom + 10, width - 2 * MARGIN)
        height = self.bottom + 10 + legend_height(entries, width - 2 * MARGIN) + MARGIN
        is_blocked = Mark.BLOCKED in self.used
        styles = [*STYLES, *(LATE_STYLES if Mark.LATE in self.used else []), *(BLOCKED_STYLES if is_blocked else [])]
        definitions = DEFINITIONS + (BLOCKED_DEFINITIONS if is_blocked else "")
        return self.canvas.picture(width, height, f"{title}, {about}", styles, definitions)

    def about_processors(self):
        """Returns how many processors the tasks have that are drawn."""
        is_one = self.simulated.command is Command.SIM
        return "one processor" if is_one else f"processors {', '.join(map(str, self.processors))}"


def draw_timeline(simulated, name, window_asked, task_name=None, tasks=None):
    """Returns the timeline of a simulation as SVG, of all tasks or of those with these places, with all claims or those
    of one task, and its window."""
    timeline = Timeline(simulated, window_asked, tasks, claims_of=task_name)
    timeline.draw()
    return timeline.finish(name, "timeline"), timeline.window
