"""Names of C for the names of a document: what C or the files of this folder use for something else is escaped."""

import re

# The keywords of C11 and of later versions, what compilers add, and the names of the headers that the files include.
WORDS = frozenset(
    """alignas alignof asm auto bool break case char const constexpr continue default do double else enum extern false
    float for fortran goto i386 if inline int kill_dependency linux long main nullptr offsetof register restrict return
    short signed sizeof static static_assert struct switch thread_local true typedef typeof typeof_unqual union unix
    unsigned unreachable void volatile while NULL""".split()
)
# Names that C or its library keeps for itself, by how they begin, and by how they end.
BEGINNINGS = re.compile(r"_|dbp_|DBP_|atomic_|ATOMIC_|memory_order|U?INT[A-Z0-9_]*_(C|MAX|MIN)|[A-Z_]+_(MAX|MIN|WIDTH)$")
ENDINGS = re.compile(r"_t$")
# What the names of all files of a diagram may not be, or begin with: C's libraries have names with `_` after these.
KEPT = re.compile(r"(dbp|DBP|atomic|ATOMIC|memory).*|(pthread|sched|thrd|mtx|cnd|tss|sem|posix|clock|timer|mq|U?INT\w*)$")
MOST_LETTERS = 40


def escaped(name, kept=""):
    """Returns a name that C doesn't use for something else; `kept` is a beginning that other names have."""
    if BEGINNINGS.match(name) or (kept and name.startswith(kept)):
        name = f"x{name}" if name.startswith("_") else f"x_{name}"
    return f"{name}_" if name in WORDS or ENDINGS.search(name) else name


def is_file_name(name):
    """Whether the files of a diagram may have this name, with which all names of its files begin."""
    is_word = re.fullmatch(r"[A-Za-z][A-Za-z0-9_]*", name) is not None
    return is_word and len(name) <= MOST_LETTERS and not KEPT.match(name)


def file_name(stem):
    """Returns the name that the files of a document get by its file."""
    name = re.sub(r"[^A-Za-z0-9_]", "_", stem)[:MOST_LETTERS] or "diagram"
    return name if is_file_name(name) else f"d_{name}"[:MOST_LETTERS]


class Names:
    """Names of one scope, each of which is given once."""

    def __init__(self, taken=()):
        self.taken = set(taken)

    def give(self, name, forms=("{}",)):
        """Returns the name, or the first with `_` after it, whose forms are all free; they are taken then."""
        while not self.taken.isdisjoint(form.format(name) for form in forms):
            name += "_"
        self.taken.update(form.format(name) for form in forms)
        return name
