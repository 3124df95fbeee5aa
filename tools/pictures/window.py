"""Which ticks a timeline shows, and where on the picture a tick stands."""

from collections import Counter
from dataclasses import dataclass

MOST_INSTANCES = 60  # that are drawn unless the window is asked for


@dataclass(frozen=True)
class Window:
    """The ticks from `start` to `stop`; `is_cut` if there were too many instances to show all that was asked for."""

    start: int
    stop: int
    is_cut: bool = False

    def shows(self, start, stop):
        """Tells whether some of the time from `start` to `stop` is shown."""
        return start <= self.stop and stop >= self.start

    def clip(self, time):
        """Returns the time of the window that is nearest."""
        return max(self.start, min(self.stop, time))


@dataclass(frozen=True)
class Scale:
    """Where the ticks of a window stand."""

    window: Window
    left: float
    width: float

    def x(self, time):
        """Returns where a time stands; one outside of the window stands at its edge."""
        window = self.window
        return self.left + self.width * (window.clip(time) - window.start) / (window.stop - window.start)


def last_time(courses, until):
    """Returns the tick at which a whole timeline stops: a little after the last end, if the document goes on."""
    last = max((course.last for course in courses), default=0)
    further = max([until, *(course.due or 0 for course in courses)])
    return max(1, last, min(further, last * 5 // 4))


def choose_window(courses, simulated, start, stop):
    """Returns the window that is asked for, up to the overrun if there is one, with few enough instances."""
    releases = sorted(course.instance.release for course in courses if course.last >= (start or 0))
    is_cut = len(releases) > MOST_INSTANCES
    if stop is not None:
        return Window(start or 0, stop)
    if simulated.overrun:
        stop = simulated.overrun.time
        asked = releases[-MOST_INSTANCES] if is_cut and start is None else start or 0
        return Window(min(asked, stop - 1), stop, is_cut and start is None)
    start = start or 0
    if is_cut:
        return Window(start, max(releases[MOST_INSTANCES], start + 1), True)
    return Window(start, max(start + 1, last_time(courses, simulated.document.until)))


def plot_width(courses, window, labels, per_tick):
    """Returns a width of the plot in which most labels fit, with so much room for a tick unless there are many. Numbers
    that find no room are told when one points at their bars.

    `labels` has pairs of a time and a width, row by row: each label should end before the next one begins.
    """
    ticks = window.stop - window.start
    busiest = max(Counter(course.instance.task for course in courses).values(), default=1)
    asked = [ticks * room / (later - time) for row in labels for (time, room), (later, _) in zip(row, row[1:])]
    return max(560, min(1600, max([per_tick * ticks, 32 * busiest, *asked])))


def tick_step(window, width, room):
    """Returns how many ticks apart the labels of the axis are, so that each has room."""
    least = room * (window.stop - window.start) / width
    power = 1
    while True:
        for step in (power, 2 * power, 5 * power):
            if step >= least:
                return step
        power *= 10
