"""A legend: samples of what a picture shows, each with its words, in lines that fit a width."""

from dataclasses import dataclass
from typing import Callable

from pictures.svg import text_width

LINE = 24  # the height of a line of a legend
SIZE = 12
BETWEEN = 26


@dataclass(frozen=True)
class Entry:
    """A sample and its words. The sample is drawn by a call with a canvas, its left end and the middle of its line."""

    draw: Callable
    width: int
    words: str

    def whole_width(self):
        """Returns the width of the sample with its words."""
        return self.width + 7 + text_width(self.words, SIZE)


def lines_of(entries, width):
    """Returns the entries line by line, as many on each as fit."""
    lines, used = [[]], 0
    for entry in entries:
        if used and used + entry.whole_width() > width:
            lines.append([])
            used = 0
        lines[-1].append(entry)
        used += entry.whole_width() + BETWEEN
    return lines


def legend_height(entries, width):
    """Returns the height that a legend takes."""
    return LINE * len(lines_of(entries, width))


def draw_legend(canvas, entries, x, y, width):
    """Draws a legend below y."""
    for number, line in enumerate(lines_of(entries, width)):
        left, middle = x, y + LINE * number + LINE / 2
        for entry in line:
            entry.draw(canvas, left, middle)
            canvas.text(left + entry.width + 7, middle + 4, entry.words, "legend")
            left += entry.whole_width() + BETWEEN
