"""Documents that are drawn for trials: those of `dbp gen`, with lets and outs whose expressions are drawn from a number."""

import random
import re
import subprocess

ENDS = (-(2**63), 2**63 - 1)
NUMBERS = (*ENDS, ENDS[0] + 1, ENDS[1] - 1, 2**62, -(2**32), 3037000500, 1000, 7, 3, 2, 1, 1, 0, 0, -1, -2, -5)
ARITHMETIC = ("+", "-", "*", "/", "%", "min", "max")
TRUTHS = ("or", "and", "==", "!=", "<", "<=", ">", ">=")
KINDS = (*3 * ARITHMETIC, *TRUTHS, "if", "if", "if", "not", "-")
MOST_NODES = 40
PERIODS = 30  # how many instances a task has, about
LETS, OUTS = 3, 7


class Draw:
    """Draws what a document has besides."""

    def __init__(self, seed):
        self.random = random.Random(seed)

    def expression(self, names, room):
        """Returns an expression over some names with so many nodes at most."""
        if room < 3 or self.random.random() < 0.15:
            return self.random.choice([*names, *names, str(self.random.choice(NUMBERS))])
        kind = self.random.choice(KINDS)
        if kind in ("not", "-"):
            return f"{kind} {self.operand(names, room - 1)}"
        if kind == "if":
            parts = [self.expression(names, (room - 1) // 3) for _ in range(3)]
            return "(if {} then {} else {})".format(*parts)
        if kind in ("min", "max"):
            return f"{kind}({self.expression(names, room // 2)}, {self.expression(names, room // 2)})"
        return f"{self.operand(names, room // 2)} {kind} {self.operand(names, room // 2)}"

    def operand(self, names, room):
        """Returns an expression that is an operand: in parentheses, if it may need some, and else by chance."""
        text = self.expression(names, room)
        return f"({text})" if re.search("[<>=]|if", text) or self.random.random() < 0.5 else text

    def lets(self, names):
        """Returns lets of which each names some before it, in any order, and their names."""
        lines, known = [], list(names)
        for number in range(LETS):
            lines.append(f"  let l{number} = {self.expression(known, MOST_NODES)}")
            known.append(f"l{number}")
        self.random.shuffle(lines)
        return lines, known

    def body(self, lines):
        """Returns the lines of a task's body with lets and outs besides: each let is an out, too."""
        names = [line.split()[1] for line in lines if line.split()[0] in ("state", "sense", "read")]
        lets, known = self.lets(names)
        asked = [f"l{number}" for number in range(LETS)]
        asked += [self.expression(known, MOST_NODES) for _ in range(OUTS - LETS)]
        outs = [f"  out z{number} = {self.random.choice(NUMBERS)} then {it}" for number, it in enumerate(asked)]
        lines = [re.sub(r"pre (t\w+)\.y", self.delayed, line) for line in lines]
        following = f"  next s = {self.expression(known, MOST_NODES)}"
        return [*(following if it.startswith("  next ") and self.random.random() < 0.7 else it for it in lines), *lets, *outs]

    def delayed(self, found):
        """Returns a read with a drawn delay, of any out."""
        return f"pre {self.random.randint(1, 8)} {found[1]}.{self.random.choice(['y', f'z{self.random.randrange(OUTS)}'])}"

    def document(self, text):
        """Returns a document of `dbp gen` with more in its tasks, less time, and other samples."""
        heads = [at for at, line in enumerate(text) if line.startswith("task ")]
        trace = text.index("trace")
        until = PERIODS * len(heads)
        found = [*text[:2], f"until {until}", f"input g = {self.random.choice(NUMBERS)}"]
        for head, end in zip(heads, [*heads[1:], trace]):
            found += [text[head], *self.body(text[head + 1 : end])]
        times = sorted(self.random.sample(range(until), min(until, 10)))
        return [*found, "trace", "time,g", *(f"{time},{self.random.choice(NUMBERS)}" for time in times), "done", ""]


def drawn_document(program, seed):
    """Returns the document that is drawn from a number."""
    words = [program, "gen", str(seed), str(1 + seed % 5)]
    text = subprocess.run(words, capture_output=True, check=True).stdout.decode().split("\n")
    return "\n".join(Draw(seed).document(text)).encode()
