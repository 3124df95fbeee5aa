"""The pictures of README.md and docs/, each with the document that it is drawn from: tools/draw_pictures draws them anew, and
the gate compares each with one that it draws itself."""

from dataclasses import dataclass
from enum import Enum
from functools import partial
from pathlib import Path
from typing import Optional, Tuple

from command_line import Parser, write_text
from ending import Ended, Status, status_of
from pictures.asking import Refused, checked_document, simulated
from pictures.diagram import draw_diagram
from pictures.record import Disagreement
from pictures.service import Command
from pictures.slot_rows import draw_slots
from pictures.timeline import draw_timeline
from program import add_program_option

TOP = Path(__file__).resolve().parent.parent.parent
FOLDER = TOP / "docs" / "pictures"


class Kind(Enum):
    """What is drawn of a document."""

    DIAGRAM = "diagram"
    TIMELINE = "timeline"
    SLOTS = "slots"


@dataclass(frozen=True)
class Picture:
    """A picture: its document, or the file with what a command writes of one; what is drawn, the ticks that are shown, the task
    whose slots are, and what simulates it."""

    document: str
    kind: Kind
    ticks: Tuple[Optional[int], Optional[int]] = (None, None)
    task: str = ""
    command: Command = Command.SIM

    @property
    def stem(self):
        """Returns the name of its document, without what follows the first point."""
        return Path(self.document).name.partition(".")[0]

    @property
    def file(self):
        """Returns the name of its file."""
        return f"{self.stem}_{self.kind.value}.svg"

    def draw(self, program):
        """Returns its bytes, drawn anew."""
        text = (TOP / self.document).read_bytes()
        name = f"{self.stem}.dbp"
        if self.kind is Kind.DIAGRAM:
            return draw_diagram(checked_document(program, text), name).encode()
        found = simulated(program, text, self.command)
        if self.kind is Kind.SLOTS:
            return draw_slots(found, name, self.ticks, self.task)[0].encode()
        return draw_timeline(found, name, self.ticks)[0].encode()


PICTURES = (
    Picture("examples/preempted.dbp", Kind.TIMELINE),
    Picture("examples/two_rates.dbp", Kind.DIAGRAM),
    Picture("examples/cascade.dbp", Kind.DIAGRAM),
    Picture("examples/cascade.dbp", Kind.TIMELINE),
    Picture("examples/filter.dbp", Kind.DIAGRAM),
    Picture("examples/logger.dbp", Kind.DIAGRAM),
    Picture("examples/heater.dbp", Kind.DIAGRAM),
    Picture("examples/heater.dbp", Kind.TIMELINE, (15, 45)),
    Picture("examples/sim/late.dbp", Kind.TIMELINE),
    Picture("examples/sim/mended.dbp", Kind.TIMELINE),
    Picture("examples/feedback.dbp", Kind.DIAGRAM),
    Picture("examples/feedback.dbp", Kind.TIMELINE),
    Picture("examples/feedback.dbp", Kind.SLOTS, (0, 10), "sensor"),
    Picture("examples/tutorial/first_task.dbp", Kind.TIMELINE),
    Picture("examples/tutorial/second_rate.dbp", Kind.TIMELINE),
    Picture("examples/tutorial/link.dbp", Kind.TIMELINE),
    Picture("examples/tutorial/delay.dbp", Kind.DIAGRAM),
    Picture("examples/tutorial/trace.dbp", Kind.DIAGRAM),
    Picture("examples/tutorial/overrun.dbp", Kind.TIMELINE),
    Picture("docs/pictures/served.dbp", Kind.TIMELINE),
    Picture("docs/pictures/blocked.dbp", Kind.TIMELINE, command=Command.CPUS),
    Picture("examples/cpus/pipeline.dbp", Kind.TIMELINE, command=Command.CPUS),
    Picture("docs/pictures/kept.dbp", Kind.SLOTS, (0, 12), "sensor"),
    Picture("examples/need/wheel.dbp.stdout", Kind.SLOTS, task="pulse"),
)


def main(words=None):
    """Draws all pictures, prints the names of their files, and returns the exit status."""
    return status_of("draw_pictures", partial(draw_all, words))


def draw_all(words):
    """Draws all pictures with the program that the words name."""
    parser = Parser("draw_pictures", description="Draws the pictures of README.md and docs/ anew, into docs/pictures.")
    add_program_option(parser)
    program = parser.parse_args(words).program
    for picture in PICTURES:
        try:
            drawn = picture.draw(program)
        except (Disagreement, Refused) as error:
            raise Ended(Status.REFUSED, f"{picture.document}: {error}") from error
        write_text([drawn.decode()], str(FOLDER / picture.file))
        write_text([f"{picture.file}\n"])
    return Status.DONE
