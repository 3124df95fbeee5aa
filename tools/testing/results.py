"""What comes of tests: for each whether it failed, and what is told of that."""

from typing import NamedTuple, Optional, Tuple


class Told(NamedTuple):
    """What is told of a test that failed: a line, all lines, and the document and the ticks that show it."""

    said: str
    text: str
    document: bytes
    window: Optional[Tuple[int, int]] = None


class Test(NamedTuple):
    """A test of a document: its name, how the document was run, and what is told if it failed."""

    file: str
    name: str
    way: str
    told: Optional[Told]
    seconds: float = 0.0

    @property
    def title(self):
        """How the test is called among those of its document."""
        return self.name if self.way == "mean" else f"{self.name}, by {self.way}"
