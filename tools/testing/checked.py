"""What tools/check says of a file that stands beside a document."""

from pathlib import Path

from checking.reading import read_document
from command_line import bytes_of
from ending import Status
from testing.beside import DOCUMENT, EXPECTED, PROPERTIES, declared_in, fault, must_be_whole
from testing.expectations import read_expectations
from testing.properties import read_properties

READERS = {EXPECTED: read_expectations, PROPERTIES: read_properties}


def is_beside(file):
    """Whether a file stands beside a document, by its name."""
    return Path(file).suffix in READERS


def faults_beside(file, text):
    """Returns the status and the messages of a file beside a document; its names are those of that document."""
    must_be_whole(file, text)
    document = Path(file).with_suffix(DOCUMENT)
    try:
        places, faults = read_document(bytes_of(str(document)))
    except OSError:
        return Status.REFUSED, (fault(1, 1, "NoDocument", f"the document {document.name} beside it can't be read"),)
    if faults:
        where = f"{document.name}:{faults[0].line}:{faults[0].column}"
        return Status.REFUSED, (fault(1, 1, "NoDocument", f"the document beside it has a fault first, at {where}"),)
    found = READERS[Path(file).suffix](text, declared_in(places)).faults
    return (Status.REFUSED if found else Status.DONE), found
