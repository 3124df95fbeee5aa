"""A writer with as many links and slots as there can be: 128 links over the delays 1 to 8, and 137 slots."""

DELAYS = range(1, 9)
READERS = range(16)
UNTIL = 400
PERIOD = 20


def document():
    lines = ["dbp 1", "policy fp", f"until {UNTIL}", f"task w every {PERIOD} prio 20 cost 1", "  state n = 0", "  next n = n + 1",
             "  out y = 0 then n + 1"]
    for reader in READERS:
        lines.append(f"task r{reader} every {period_of(reader)} prio {prio_of(reader)} cost 1")
        lines += [f"  read x{delay} = pre {delay} w.y" for delay in DELAYS]
        lines.append("  out z = 0 then " + " + ".join(f"x{delay}" for delay in DELAYS))
    return "\n".join(lines + ["done", ""]).encode()


def prio_of(reader):
    """Some readers are ranked above the writer, some below."""
    return 30 - reader


def period_of(reader):
    return 40 + 2 * reader


def lines():
    """Returns the lines of the meaning: row n of the writer is n."""
    made = []
    for time in range(UNTIL):
        if time % PERIOD == 0:
            made.append(f"{time},w,{time // PERIOD + 1},{time // PERIOD + 1}\n")
        for reader in READERS:
            if time % period_of(reader) == 0:
                total = sum(max(0, time // PERIOD + 1 - delay) for delay in DELAYS)
                made.append(f"{time},r{reader},{time // period_of(reader) + 1},{total}\n")
    return "".join(made).encode()


def slots():
    above = sum(prio_of(reader) > 20 for reader in READERS)
    lower, higher = len(DELAYS) * (len(READERS) - above), len(DELAYS) * above
    rows = [f"w,{lower},{higher},8,{lower + 9},{lower + higher + 9}\n"]
    return "".join(rows + [f"r{reader},0,0,0,1,1\n" for reader in READERS]).encode()


def cases():
    for words in ("mean", "sim", "run", "run --turns 3"):
        yield words, words.split(), document(), 0, lines()
    yield "plan", ["plan"], document(), 0, slots()
