"""The tokens of a source file: words, symbols, literals and doc comments. Other comments are left out."""

import re
from typing import List, NamedTuple

PATTERN = re.compile(
    r"""(?P<doc>///(?!/)[^\n]*)
      | (?P<head>//![^\n]*)
      | (?P<comment>//[^\n]*|/\*.*?\*/)
      | (?P<word>\w+)
      | (?P<literal>b?r(?P<hashes>\#*)".*?"(?P=hashes)
                  | b?"(?:\\.|[^"\\])*"
                  | b?'(?:\\(?:x[0-9a-fA-F]{2}|u\{[^}]*\}|.)|[^'\\\n])')
      | (?P<symbol>[^\s\w{}()\[\];:<>\#,!*='"/]+|\S)""",
    re.VERBOSE | re.DOTALL,
)


class Tokens(NamedTuple):
    """The tokens of a text: the kind of each, which is the name of its group above, and its text."""

    kinds: List[str]
    texts: List[str]


def tokens_of(text):
    """Returns the tokens of a text, with one at the end that has no text."""
    found = [(it.lastgroup, it.group()) for it in PATTERN.finditer(text)]
    found = [it for it in found if it[0] != "comment"] + [("end", "")]
    return Tokens([kind for kind, _ in found], [text for _, text in found])
