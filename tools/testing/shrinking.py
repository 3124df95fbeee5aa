"""A failing trace made smaller: with fewer cells, smaller numbers and an earlier end, as it may be drawn too."""

from testing.drawing import Column, is_allowed
from testing.judging import failure_of
from testing.standing import Standing
from testing.traced import traced

MOST_TRIED = 600  # traces
MOST_INSTANCES = 600_000  # of all these traces together


class Shrinker:
    """Makes a trace smaller of which a property doesn't hold."""

    def __init__(self, meaning, it, ranges, columns):
        self.meaning, self.it, self.ranges = meaning, it, {own.name: own for own in ranges}
        self.document = meaning.document
        self.columns, self.until = columns, self.document.until
        self.tried, self.served = 0, 0
        self.failure = self.failing(columns, self.until)

    def failing(self, columns, until):
        """Returns the failure with a trace, or nothing."""
        self.tried += 1
        document = traced(self.document, columns, until)
        instances = self.meaning.instances(document)
        self.served += len(instances)
        return failure_of(self.it, Standing(document, instances))

    @property
    def is_over(self):
        """Whether enough was tried."""
        return self.tried >= MOST_TRIED or self.served >= MOST_INSTANCES

    def are_allowed(self, columns, until):
        """Whether a trace may be drawn."""
        document = traced(self.document, columns, until)
        return all(is_allowed(it, self.ranges[it.name], document) for it in columns if it.name in self.ranges)

    def take(self, columns, until):
        """Takes a smaller trace if it may be drawn and fails too, and tells whether it did; its end is then cut."""
        if self.is_over or not self.are_allowed(columns, until):
            return False
        failure = self.failing(columns, until)
        if failure is None:
            return False
        self.columns, self.until, self.failure = columns, until, failure
        self.cut()
        return True

    def cut(self):
        """Lets the trace end with its failure."""
        until = self.failure.tick + 1
        columns = [Column(it.name, tuple(cell for cell in it.cells if cell[0] < until)) for it in self.columns]
        if self.until > until and self.are_allowed(columns, until):
            failure = self.failing(columns, until)
            if failure is not None:
                self.columns, self.until, self.failure = columns, until, failure

    def shrink(self):
        """Makes the trace smaller as long as that goes on, and returns its columns, its end and its failure."""
        self.cut()
        is_changed = True
        while is_changed and not self.is_over:
            changed = [self.drop_cells(place) for place in range(len(self.columns))]
            changed += [self.lessen_cells(place) for place in range(len(self.columns))]
            changed += [self.advance_cells(place) for place in range(len(self.columns))]
            is_changed = any(changed)
        return self.columns, self.until, self.failure

    def with_cells(self, place, cells):
        """Returns the columns with other cells in one of them."""
        return [Column(it.name, tuple(cells)) if at == place else it for at, it in enumerate(self.columns)]

    def drop_cells(self, place):
        """Drops cells of a column, many at a time and then fewer; tells whether it dropped some."""
        is_changed, size = False, len(self.columns[place].cells)
        while size and not self.is_over:
            start = 0
            while start < len(self.columns[place].cells) and not self.is_over:
                cells = self.columns[place].cells
                if self.take(self.with_cells(place, cells[:start] + cells[start + size :]), self.until):
                    is_changed = True
                else:
                    start += size
            size //= 2
        return is_changed

    def lessen_cells(self, place):
        """Takes smaller numbers for the samples of an input; tells whether it took some."""
        it = self.ranges.get(self.columns[place].name)
        if it is None or it.values is None:
            return False
        nearest = min(max(0, it.values.least), it.values.greatest)
        return any([self.lessen_cell(place, at, nearest) for at in range(len(self.columns[place].cells))])

    def lessen_cell(self, place, at, nearest):
        """Takes a number for a sample that is as near as it can be to another; tells whether it took one."""
        if at >= len(self.columns[place].cells):
            return False
        time, value = self.columns[place].cells[at]
        step, is_changed = abs(value - nearest), False
        while step and not self.is_over:
            other = value - step if value > nearest else value + step
            cells = self.columns[place].cells
            if self.take(self.with_cells(place, [*cells[:at], (time, other), *cells[at + 1 :]]), self.until):
                if at >= len(self.columns[place].cells):
                    return True
                value, is_changed, step = other, True, abs(other - nearest)
            else:
                step //= 2
        return is_changed

    def advance_cells(self, place):
        """Lets the cells of a column come earlier; tells whether some do."""
        if self.columns[place].name not in self.ranges:
            return False
        is_changed = self.begin_later(place)
        for at in range(len(self.columns[place].cells)):
            is_changed = self.advance_cell(place, at) or is_changed
        return is_changed

    def begin_later(self, place):
        """Lets a column begin with the last cell that it can begin with; tells whether that is another one."""
        cells = self.columns[place].cells
        for at in reversed(range(1, len(cells))):
            start = cells[at][0] - cells[0][0]
            if self.take(self.with_cells(place, [(time - start, value) for time, value in cells[at:]]), self.until):
                return True
        return False

    def advance_cell(self, place, at):
        """Lets a cell of a column, and those after it, come as early as they can; tells whether they come earlier."""
        is_changed, step = False, self.room_before(place, at)
        while step and not self.is_over:
            cells = self.columns[place].cells
            earlier = [*cells[:at], *((time - step, value) for time, value in cells[at:])]
            if self.take(self.with_cells(place, earlier), self.until):
                is_changed, step = True, self.room_before(place, at)
            else:
                step //= 2
        return is_changed

    def room_before(self, place, at):
        """Returns how much earlier a cell can come before it meets the one before; 0 if it isn't there."""
        cells = self.columns[place].cells
        return cells[at][0] - (cells[at - 1][0] + 1 if at else 0) if at < len(cells) else 0
