"""A histogram of the response times of a task, as SVG."""

from collections import Counter

from pictures.svg import Canvas, Layer, text_width
from pictures.window import Scale, Window, tick_step
from responses.bounds import BEYOND

MARGIN, TOP, HEIGHT = 16, 84, 220
LEFT, WIDTH = 64, 640
MOST_BARS = 64
REACH = 4  # times the greatest response: a limit or a bound above that isn't drawn, but told
STYLES = [
    ".title{font-size:16px;font-weight:bold}",
    ".tick{font-size:11px;fill:#505050;text-anchor:middle}",
    ".count{font-size:11px;fill:#505050;text-anchor:end}",
    ".grid{stroke:#e4e4e4;fill:none}",
    ".base{stroke:#909090;fill:none}",
    ".bar{fill:#2f6299}",
    ".limit{stroke:#d01010;stroke-width:2;fill:none}",
    ".bound{stroke:#1a1a1a;stroke-width:2;stroke-dasharray:5 3;fill:none}",
]


class Histogram:
    """A histogram that is being drawn, of responses, with the limit and the bound as `marks` that are drawn or told."""

    def __init__(self, responses, marks):
        self.canvas = Canvas()
        reach = REACH * max(responses, default=0)
        self.marks = {name: time for name, time in marks.items() if time <= reach}
        self.told = [f"{name} {time}" for name, time in marks.items() if time > reach]
        self.instances = len(responses)
        last = max([1, *responses, *self.marks.values()])
        self.width = -(-last // MOST_BARS)
        self.counts = Counter((response - 1) // self.width for response in responses)
        self.most = max(self.counts.values(), default=1)
        self.scale = Scale(Window(0, -(-last // self.width) * self.width), LEFT, WIDTH)

    def draw(self):
        """Draws the axes, the bars, the limit and the bound."""
        self.draw_axes()
        for place, count in sorted(self.counts.items()):
            self.draw_bar(place, count)
        for number, (name, time) in enumerate(self.marks.items()):
            x = self.scale.x(time)
            self.canvas.line(Layer.MARKS, x, TOP - 8, x, TOP + HEIGHT, name, f"{name} {time}")
            self.draw_word(x, f"{name} {time}", number)

    def draw_word(self, x, words, number):
        """Draws what a line is, above it, within the picture."""
        last = LEFT + WIDTH + MARGIN - text_width(words, 12)
        self.canvas.text(min(x + 4, last), TOP - 12 - 14 * number, words, "word")

    def draw_axes(self):
        """Draws the numbers of ticks below, and the counts at the left."""
        window, base = self.scale.window, TOP + HEIGHT
        for time in range(0, window.stop + 1, tick_step(window, WIDTH, text_width(str(window.stop), 11) + 14)):
            self.canvas.line(Layer.BACK, self.scale.x(time), base, self.scale.x(time), base + 5, "base")
            self.canvas.text(self.scale.x(time), base + 18, str(time), "tick")
        for count in {0, self.most // 2, self.most}:
            y = base - HEIGHT * count / self.most
            self.canvas.line(Layer.BACK, LEFT, y, LEFT + WIDTH, y, "grid" if count else "base")
            self.canvas.text(LEFT - 6, y + 4, str(count), "count")

    def draw_bar(self, place, count):
        """Draws the bar of the responses of so many ticks, or of some in a row: the greatest of them is its right end."""
        start, stop = place * self.width, (place + 1) * self.width
        ticks = str(stop) if self.width == 1 else f"{start + 1} to {stop}"
        x, to_x = self.scale.x(start), self.scale.x(stop)
        height = HEIGHT * count / self.most
        about = f"{count} with a response time of {ticks}"
        self.canvas.box(Layer.BARS, x, TOP + HEIGHT - height, max(1, to_x - x - 1), height, "bar", about)

    def finish(self, title):
        """Returns the text of the picture."""
        about = "; ".join([f"{self.instances} instances; ticks from the release to the end", *self.told])
        self.canvas.text(MARGIN, 28, title, "title")
        self.canvas.text(MARGIN, 46, about, "legend")
        width = max(LEFT + WIDTH + 2 * MARGIN, 2 * MARGIN + max(text_width(title, 16) * 1.15, text_width(about, 12)))
        return self.canvas.picture(width, TOP + HEIGHT + 34, f"{title}, {about}", STYLES)


def draw_histogram(name, task, responses, limit, bound):
    """Returns the histogram of the response times of a task as SVG; the limit and the bound may be missing."""
    marks = {"limit": limit, "bound": None if bound == BEYOND else bound}
    histogram = Histogram(responses, {name: time for name, time in marks.items() if time is not None})
    histogram.draw()
    return histogram.finish(f"{name}: response times of {task}")
