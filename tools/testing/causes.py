"""The instances that led to a value: what each of them got by its reads and senses, and gave."""

from collections import deque

from checking.messages import Note

MOST_TOLD = 8  # instances


class Causes:
    """What led to the outs of a document, as notes on its lines."""

    def __init__(self, file, places, document, standing):
        self.file, self.places = file, places
        self.document, self.standing = document, standing

    def reached(self, ports, ticks):
        """Returns the last instances of the tasks of outs at some ticks, and those that they read, the nearest first."""
        first = [self.standing.last(task, tick) for tick in sorted(ticks, reverse=True) for task, _ in ports]
        left, found = deque(it for it in first if it), {}
        while left:
            it = left.popleft()
            if (it.task, it.number) in found:
                continue
            found[it.task, it.number] = it
            reads = self.document.task(it.task).reads
            left += [self.standing.instances[read.writer][row - 1] for read, row in zip(reads, it.writers) if row]
        return [*found.values()]

    def notes(self, ports, ticks):
        """Returns a note for each of the first instances that led to outs."""
        found = self.reached(ports, ticks)
        notes = [self.note_of(it.task, self.about(it)) for it in found[:MOST_TOLD]]
        for port in dict.fromkeys(ports):
            if not self.standing.last(port[0], min(ticks)):
                text = f"`{port[0]}` hasn't occurred by {min(ticks)}: `{'.'.join(port)}` is its first value"
                notes.append(self.note_of(port[0], text))
        if len(found) > MOST_TOLD:
            notes.append(self.note_of(found[MOST_TOLD].task, f"{len(found) - MOST_TOLD} more instances led to these"))
        return tuple(notes)

    def window(self, ports, ticks):
        """Returns the ticks around what led to outs."""
        told = [it.tick for it in self.reached(ports, ticks)[:MOST_TOLD]]
        start, stop = min([*told, *ticks]), max(ticks)
        cost = max(task.cost for task in self.document.tasks)
        return max(0, start - 1), stop + max(cost, (stop - start) // 4) + 1

    def note_of(self, task, text):
        """Makes a note on a task."""
        head = self.places.named_tasks[task].head
        return Note(head.line, head.name.column, text, self.file)

    def about(self, it):
        """Returns in words what an instance got and gave."""
        task = self.document.task(it.task)
        got = [f"`{sense.name}` = {value} of input `{sense.input}`" for sense, value in zip(task.senses, it.senses)]
        got += [self.about_read(*given) for given in zip(task.reads, it.reads, it.writers)]
        gave = ", ".join(f"`{out.name}` = {value}" for out, value in zip(task.outs, it.outs))
        head = f"`{it.task}` {it.number} at {it.tick}"
        return f"{head} gets {', '.join(got)}; it gives {gave}" if got else f"{head} gives {gave}"

    def about_read(self, read, value, row):
        """Returns in words what a read got."""
        port = f"`{read.writer}.{read.port}`"
        if not row:
            return f"`{read.name}` = {value}, the first value of {port}"
        tick = self.standing.instances[read.writer][row - 1].tick
        return f"`{read.name}` = {value}, {port} of its {row} at {tick}"
