"""Messages over standard input and standard output: a header with the length of the body, and the body as JSON."""

import json

from ending import OUTPUT, write_all

MOST_HEADER = 4096  # bytes of a line of the header
MOST_LINES = 16  # of a header
MOST_BYTES = 1 << 26  # of a body: more than any document with its escapes
MOST_DIGITS = 8
LENGTH = b"content-length"


class BadMessage(Exception):
    """What comes is no message, so that nobody knows where the next one begins."""


def length_of(source):
    """Returns the length that a header gives, or nothing if the input ends before it."""
    length = None
    for number in range(MOST_LINES):
        line = source.readline(MOST_HEADER)
        if not line and number == 0:
            return None
        if line == b"\r\n":
            break
        name, colon, value = line.partition(b":")
        value = value.strip()
        if not colon or not line.endswith(b"\r\n"):
            raise BadMessage
        if name.strip().lower() == LENGTH:
            if not value.isdigit() or len(value) > MOST_DIGITS:
                raise BadMessage
            length = int(value)
    if length is None or length > MOST_BYTES:
        raise BadMessage
    return length


def read_message(source):
    """Returns the next message, an object of JSON, or nothing at the end of the input."""
    length = length_of(source)
    if length is None:
        return None
    body = source.read(length)
    try:
        message = json.loads(body) if len(body) == length else None
    except (ValueError, RecursionError) as error:
        raise BadMessage from error
    if not isinstance(message, dict):
        raise BadMessage
    return message


def write_message(message):
    """Writes a message. Its bytes are ASCII, so that half a character of UTF-16 passes too."""
    body = json.dumps(message, separators=(",", ":"))
    write_all(OUTPUT, f"Content-Length: {len(body)}\r\n\r\n{body}")
