"""The links of the docs lead somewhere: each to a file or a folder of the repository, and to a heading of a page."""

import sys
from functools import lru_cache, partial
from pathlib import Path
from urllib.parse import unquote

TOP = Path(__file__).resolve().parents[2]
sys.path.insert(0, str(TOP / ".ci"))

from doc_pages import MADE, anchors, blocks_and_prose, links, pages  # noqa: E402

ELSEWHERE = ("http://", "https://", "mailto:")


@lru_cache(maxsize=None)
def anchors_of(file):
    """Returns the anchors of a page."""
    return anchors(file.read_text(encoding="utf-8"))


def fault_of_link(page, text, target):
    """Returns what is wrong with the target of a link in the text of a page, or nothing."""
    path, _, anchor = unquote(target).partition("#")
    file = (page.parent / path).resolve()
    if target.startswith(ELSEWHERE):
        return None
    if not path:
        return None if anchor in anchors(text) else f"no heading is there: {target}"
    if not file.exists():
        return f"no file is there: {target}"
    if TOP not in (file, *file.parents):
        return f"it leads out of the repository: {target}"
    if anchor and (file.suffix != ".md" or anchor not in anchors_of(file)):
        return f"no heading is there: {target}"
    return None


def faults_of(page, text):
    """Returns the faults of the text of a page, or nothing."""
    found = []
    for number, line in blocks_and_prose(text)[1]:
        faults = (fault_of_link(page, text, target) for target in links(line))
        found += [f"line {number}: {it}" for it in faults if it]
    return "; ".join(found) or None


def fault_of_page(page):
    """Returns the faults of a page, or nothing."""
    return faults_of(page, page.read_text(encoding="utf-8"))


# A page's text, and what must be said of it.
TEXTS = {
    "[a](docs/PROVED.md), ![b](docs/pictures/kept_slots.svg), [c](examples), [d](https://example.org/none)": None,
    "[the statuses](docs/PROVED.md#how-a-call-ends) and [Below](#two-words-what-isnt)\n# Two words: what *isn't*": None,
    "[a](docs/NONE.md)": "line 1: no file is there: docs/NONE.md",
    "\n[a](docs/PROVED.md#none)": "line 2: no heading is there: docs/PROVED.md#none",
    "[a](#none)\n```\n# none\n[b](none.md)\n```\n`[c](none.md)`": "line 1: no heading is there: #none",
    "[a](../none.md)": "line 1: no file is there: ../none.md",
    "[a](..)": "line 1: it leads out of the repository: ..",
}


def fault_of_texts():
    """Returns the text of which something else is said than must be, or nothing."""
    for text, wanted in TEXTS.items():
        found = faults_of(TOP / "README.md", text)
        if found != wanted:
            return f"{text!r}: {found!r} is said, and {wanted!r} is wanted"
    return None


def trials(program):
    """Yields the trials, each a name and a call that returns what is wrong, or nothing; the program isn't asked."""
    for page in [*pages(), MADE]:
        yield page.relative_to(TOP).as_posix(), partial(fault_of_page, page)
    yield "texts with faults", fault_of_texts
