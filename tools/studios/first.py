"""What is shown of a large document before its whole report is made: its diagram, and the report of its first ticks."""

from checking.verdicts import Command, Verdict
from canonical import read_document
from ending import Status
from pictures.asking import canonical_text, cut_text
from program import read_as_answer, run_program
from reports.asked import Asked, accepted_of, plan_row, ranked_of

LARGE = 100_000  # bytes of a document and of its table
FIRST_LINES = 200  # of the table: what is shown first ends about there
ACCEPTED = Verdict(Status.DONE, Command.PLAN, ())
MISSING = ("messages", "document")


def first_pages(program, name, text):
    """Yields what is said first of a document, if that is large and accepted, with the parts that are left out and a remark."""
    ran = run_program(program, ["mean"], text)
    if ran.status != Status.DONE or len(text) + len(ran.stdout) <= LARGE:
        return
    form, plan = canonical_text(program, text)
    with read_as_answer(program):
        document = read_document(form)
        rows = tuple(map(plan_row, plan))
        lines = ran.stdout.split(b"\n", FIRST_LINES)
        tick = max(1, int(lines[-2].split(b",")[0]))
    ranked = ranked_of(program, form)._replace(text=None, reason="the report is being made")
    yield Asked(name, text, ACCEPTED, None, document, ranked, None), MISSING, "accepted; its report is being made"
    cut = cut_text(form, document, tick)
    with read_as_answer(program):
        first = read_document(cut)
    accepted = accepted_of(program, cut, first, rows, lambda *_: None)
    remark = f"accepted; these are the ticks before {tick} of {document.until}, and the whole report is being made"
    yield Asked(name, text, ACCEPTED, None, first, ranked, accepted), MISSING, remark
