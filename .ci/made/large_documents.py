"""Documents of as many bytes as are allowed, and with a byte more; an upgraded one may have more than are allowed."""

LIMIT = 1048576
START = b"dbp %d\npolicy fp\nuntil 1\ntask a every 1 from 0 prio 1 cost 1%s\n  out y = 0 then 1\ntrace\n"


def with_row(version, processor, length):
    """Returns a document in canonical form with a row that fills it up to a length."""
    start, end = START % (version, processor), b"\ndone\n"
    return start + b"1" * (length - len(start + end)) + end


def cases():
    for words in ("mean", "form", "upgrade"):
        yield f"{words}, spaces", [words], b" " * LIMIT, 1, b"refused: line 1: 8 MissingHeader\n"
        yield f"{words}, one more space", [words], b" " * (LIMIT + 1), 7, b""
    processor = b" cpu 0"
    longer = with_row(2, processor, LIMIT + len(processor))
    yield "upgrade that makes it longer", ["upgrade"], with_row(1, b"", LIMIT), 0, longer
    yield "upgrade of what is longer now", ["upgrade"], longer, 7, b""
    yield "upgrade that leaves it as long", ["upgrade"], with_row(2, processor, LIMIT), 0, with_row(2, processor, LIMIT)
