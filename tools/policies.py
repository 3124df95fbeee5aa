"""The policies of the language, in one table."""

from typing import NamedTuple


class Policy(NamedTuple):
    """How tasks are ranked and served.

    A policy ranks tasks by the number after a word of their lines, and of equal ones by their order; `missing` is the code
    of a task without that word. It serves the instance of the earliest deadline, or else that of the highest rank.
    """

    word: str
    name: str
    number: str
    puts_greater_first: bool
    missing: int
    serves_by_deadline: bool

    def urgency(self, number):
        """Returns what a task with this number is ranked by: the less, the higher."""
        return -number if self.puts_greater_first else number


TABLE = (
    Policy("fp", "fixed priorities", number="prio", puts_greater_first=True, missing=14, serves_by_deadline=False),
    Policy("edf", "earliest deadline first", number="deadline", puts_greater_first=False, missing=15, serves_by_deadline=True),
)
POLICIES = {policy.word: policy for policy in TABLE}
