"""Which declared name a wrong one may be meant for."""

from functools import lru_cache

MOST_LISTED = 8
MOST_KEPT = 1 << 14  # answers: a wrong word often stands in many lines
LEAST_PART = 3  # letters of a name that may stand for a longer one


def distance(one, other):
    """Returns how many letters are to be put in, left out, changed or swapped with the next one; case doesn't count."""
    one, other = one.lower(), other.lower()
    before, last = [], list(range(len(other) + 1))
    for i, letter in enumerate(one, 1):
        row = [i]
        for j, another in enumerate(other, 1):
            best = min(last[j] + 1, row[-1] + 1, last[j - 1] + (letter != another))
            if i > 1 and j > 1 and (letter, another) == (other[j - 2], one[i - 2]):
                best = min(best, before[j - 2] + 1)
            row.append(best)
        before, last = last, row
    return last[-1]


def is_part(short, long):
    """Whether the letters of a short name stand in a longer one, in their order and from its first on."""
    left = iter(long)
    return len(short) >= LEAST_PART and short[0] == long[0] and all(letter in left for letter in short)


def is_near(one, other):
    """Whether a name may be meant for another: few letters differ, or one is the other with letters left out."""
    short, long = sorted((one.lower(), other.lower()), key=len)
    if short == long:
        return True
    return distance(short, long) * 3 <= len(long) or is_part(short, long)


def by_nearness(wrong, names):
    """Returns names, the nearest to a wrong one first; of those that are as near, in their order."""
    return [*sorted_names(wrong, tuple(dict.fromkeys(names)))]


@lru_cache(MOST_KEPT)
def sorted_names(wrong, names):
    """Returns names in the order of `by_nearness`."""
    return sorted(names, key=lambda it: (not is_near(wrong, it), distance(wrong, it)))


def nearest(wrong, names):
    """Returns the nearest of those names that a wrong one may be meant for, or nothing."""
    first = by_nearness(wrong, names)[:1]
    return first[0] if first and is_near(wrong, first[0]) else None
