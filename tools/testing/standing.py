"""The outs of a document as they stand in time: each keeps the value of its task's last instance."""

from bisect import bisect_right


class Standing:
    """The outs of a document after each time at which tasks occur."""

    def __init__(self, document, instances):
        self.until = document.until
        self.times = sorted({it.tick for it in instances})
        self.instances = {task.name: [] for task in document.tasks}
        for it in instances:
            self.instances[it.task].append(it)
        self.ticks = {task: [it.tick for it in found] for task, found in self.instances.items()}
        self.firsts = {(task.name, it.name): it.first for task in document.tasks for it in task.outs}
        self.places = {(task.name, it.name): at for task in document.tasks for at, it in enumerate(task.outs)}

    def last(self, task, tick):
        """Returns the last instance of a task at or before a tick, or nothing."""
        count = bisect_right(self.ticks[task], tick)
        return self.instances[task][count - 1] if count else None

    def value(self, port, tick):
        """Returns the value of an out, given by its task and its name, as it stands after a tick."""
        instance = self.last(port[0], tick)
        return instance.outs[self.places[port]] if instance else self.firsts[port]

    def column(self, port, delay=0):
        """Returns the values of an out after each of the times, or as many times earlier; before all its first value."""
        found, value, place = [], self.firsts[port], self.places[port]
        left = iter(self.instances[port[0]])
        following = next(left, None)
        for time in self.times:
            while following is not None and following.tick <= time:
                value, following = following.outs[place], next(left, None)
            found.append(value)
        return ([self.firsts[port]] * delay + found)[: len(found)]
