"""Faults of a line by itself, before its form is asked: bytes, tokens, nodes and parentheses."""

import re
from functools import lru_cache

from checking.foreign import about_no_token
from checking.language import FORMS, GREATEST_VALUE, LEAST_VALUE, MOST_DEPTH, MOST_NAME, MOST_NODES
from checking.messages import error, error_at
from checking.tokens import MOST_KEPT, Kind, tokens_of

OUTSIDE = re.compile(rb"[^\x20-\x7e\t]")
OUTSIDE_TRACE = re.compile(rb"[^A-Za-z0-9_\-, \t]")
MARK_OF_UTF_8 = b"\xef\xbb\xbf"
MARKS_OF_UTF_16 = (b"\xff\xfe", b"\xfe\xff")
TRACE_SIGNS = {
    "#": "a trace has no comments, not even after its last line",
    ".": "a value is a whole number, without a point",
    "+": "a value has no `+`",
    ";": "commas stand between cells",
    '"': "there are no quotes",
    "'": "there are no quotes",
    "/": "a trace has no comments",
}
LEAST_LONG = 19  # characters: no shorter token is too wide or too long
WITHOUT_NODE = ("(", ")", ",", "then", "else")


def byte_fault(line, is_trace=False):
    """Returns the message of the first byte of a line that isn't allowed in its section, or nothing."""
    found = (OUTSIDE_TRACE if is_trace else OUTSIDE).search(line.text)
    if found is None:
        return None
    at = found.start()
    text, width = about_byte(line, at, is_trace)
    return error(line.number, at + 1, 1, text, width=width)


def about_byte(line, at, is_trace):
    """Returns what is wrong with a byte, and how many bytes its character has."""
    byte = line.text[at]
    shown = f"the byte 0x{byte:02x}"
    if byte == 0x0D:
        return f"{shown}, a carriage return, stands only directly before a line feed", 1
    if line.number == 1 and line.text.startswith((MARK_OF_UTF_8, *MARKS_OF_UTF_16)):
        return f"{shown} begins a byte order mark: write the document as ASCII without one", 1
    if byte >= 0x80:
        character = character_at(line.text, at)
        of = f" of {name_of(character)}" if character else ""
        width = len(character.encode()) if character else 1
        return f"{shown}{of} isn't allowed: a document is ASCII, in its comments too", width
    if is_trace and 0x20 < byte < 0x7F:
        why = TRACE_SIGNS.get(chr(byte))
        allowed = "allowed in a trace are letters, digits, `_`, `-`, `,`, space and tab"
        text = f"`{chr(byte)}` isn't allowed here: " + (f"{why}; {allowed}" if why else allowed)
        return text + about_row(line.text.decode("latin-1")), 1
    return f"{shown} isn't allowed: allowed are space to `~`, the tab and the line's end", 1


def about_row(text):
    """Returns more about a line of the trace that is a line of the diagram, or nothing."""
    word = (text.split() or [""])[0]
    if word not in FORMS or word in ("trace", "script", "done"):
        return ""
    return f"; `{word}` lines can't stand in the trace, which goes to the line `script` or `done`"


def name_of(character):
    """Returns a character as a message shows it."""
    return f"`{character}`" if character.isprintable() else f"U+{ord(character):04X}"


def character_at(text, at):
    """Returns the character of UTF-8 that begins at a byte, or nothing."""
    for width in (2, 3, 4):
        try:
            return text[at : at + width].decode("utf-8")
        except UnicodeDecodeError:
            continue
    return None


@lru_cache(MOST_KEPT)
def is_sound(text):
    """Whether a line outside of the trace has neither a fault of its bytes nor one of its tokens."""
    return OUTSIDE.search(text) is None and not has_odd(tokens_of(text))


def has_odd(tokens):
    """Whether a token may be a fault by itself."""
    return any(len(it.text) >= LEAST_LONG or it.kind is Kind.BAD for it in tokens)


def token_fault(line, tokens):
    """Returns the message of the first part that makes no token, is too wide or too long, or nothing."""
    if not has_odd(tokens):
        return None
    for token in tokens:
        if token.kind is Kind.BAD:
            return error_at(token, line.number, 2, about_no_token(token.text))
    for token in tokens:
        if token.is_wide:
            text = f"`{shortened(token.text)}` isn't a number of 64 bits, from {LEAST_VALUE} to {GREATEST_VALUE}"
            return error_at(token, line.number, 4, text)
    for token in tokens:
        if token.kind is Kind.NAME and token.width > MOST_NAME:
            text = f"the name `{shortened(token.text)}` has {token.width} characters; a name has at most {MOST_NAME}"
            return error_at(token, line.number, 5, text)
    return None


def shortened(text):
    """Returns a text, cut if it is long."""
    return text if len(text) <= 60 else text[:50] + ".."


def node_fault(line, tokens):
    """Returns the message of an expression with too many nodes, or nothing."""
    nodes = nodes_of(tokens)
    if len(nodes) <= MOST_NODES:
        return None
    text = (
        f"the expression has {len(nodes)} nodes; it may have {MOST_NODES}, and each token except parentheses, commas, "
        "`then` and `else` is one: a `let` for a part makes it shorter"
    )
    return error_at(nodes[MOST_NODES], line.number, 6, text, detail="nodes")


def nodes_of(tokens):
    """Returns the tokens of a line's expression that make nodes."""
    begin = {"let": "=", "next": "=", "out": "then"}.get(tokens[0].text)
    for place, token in enumerate(tokens):
        if begin and token.says(begin):
            return [it for it in tokens[place + 1 :] if not it.says(*WITHOUT_NODE)]
    return []


def depth_fault(line, tokens):
    """Returns the message of the first parenthesis that is one too many, or nothing."""
    depth = 0
    for token in tokens:
        depth += token.says("(") - (token.says(")") and depth > 0)
        if depth > MOST_DEPTH:
            text = f"this parenthesis opens while {MOST_DEPTH} are open, and no more may be open at once"
            return error_at(token, line.number, 9, text)
    return None
