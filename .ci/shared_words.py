"""The shared words of a run, by the rules of docs/PROTOCOL.md: what each step makes of them, told step by step."""

from dataclasses import dataclass, field

KINDS = "none seen aim claim open start hear look take shut put done end".split()


@dataclass
class Model:
    """The words of a run, by where they stand: ('gate', task), ('stamp', task, slot), ('word', task, slot, port) and so on.

    `tasks` has for each task how many outs and slots it has, its first values and its rows as `mean` prints them; `links` the
    writer, the reader and the delay of each link.
    """

    tasks: list
    links: list
    words: dict = field(default_factory=dict)
    slots: dict = field(default_factory=dict)

    def __post_init__(self):
        for task, (slots, first, _) in enumerate(self.tasks):
            self.words.update({(word, task): 0 for word in ("gate", "ended", "aim")})
            self.words.update({("stamp", task, slot): int(slot == 0) for slot in range(slots)})
            ports = range(len(first))
            self.words.update({("word", task, slot, port): 0 for slot in range(slots) for port in ports})
            self.words.update({("word", task, 0, port): first[port] % 2**64 for port in ports})
            self.slots[task] = [0] * 9
        self.words.update({("claim", link): 0 for link in range(len(self.links))})

    def aimed(self, task):
        """Returns the number of the task's last aimed instance."""
        return self.words["aim", task] >> 32

    def order_of_claim(self, link):
        """Returns the word of a claim: the writer's current slot, or over a delay the one of as many instances before."""
        writer, _, delay = self.links[link]
        return self.slots[writer][delay] + (max(0, self.aimed(writer) - delay) << 32)

    def stored(self, kind, task, about):
        """Returns which word a step stores and what, or nothing if it loads."""
        slot, running = self.words["aim", task] % 2**32, self.words["ended", task] + 1
        if kind == "aim":
            self.slots[task] = [about, *self.slots[task][:-1]]
            return ("aim", task), about + (self.aimed(task) + 1 << 32)
        if kind == "claim":
            return ("claim", about), self.order_of_claim(about)
        if kind == "put":
            return ("word", task, slot, about), self.tasks[task][2][running - 1][about] % 2**64
        plain = {"open": (("gate", task), self.aimed(task)), "end": (("ended", task), running)}
        stamps = {"shut": (("stamp", task, slot), 0), "done": (("stamp", task, slot), running + 1)}
        return {**plain, **stamps}.get(kind)

    def make(self, kind, task, about):
        """Makes a step."""
        found = self.stored(kind, task, about)
        if found:
            self.words[found[0]] = found[1]

    def table(self):
        """Returns all words in the order of their addresses; word 0 is nobody's."""
        tasks = range(len(self.tasks))
        places = [(word, task) for task in tasks for word in ("gate", "ended", "aim")]
        places += [("claim", link) for link in range(len(self.links))]
        for task, (slots, first, _) in enumerate(self.tasks):
            for slot in range(slots):
                places += [("stamp", task, slot), *(("word", task, slot, port) for port in range(len(first)))]
        return [0, *(self.words[place] for place in places)]


def fault_of_words(model, lines):
    """Returns the first step after which the words aren't those of the model, or nothing; a line has a step and all words."""
    for number, line in enumerate(lines):
        step, _, words = line.partition(":")
        kind, task, about = map(int, step.split())
        model.make(KINDS[kind], task, about)
        found, wanted = [*map(int, words.split())], model.table()
        if found != wanted:
            places = [at for at, pair in enumerate(zip(found, wanted)) if pair[0] != pair[1]][:1] or [len(wanted)]
            return f"after step {number}, `{KINDS[kind]}` of task {task}, word {places[0]} is another one"
    return None
