"""The manual pages: that of dbp is docs/dbp.1, and those of the tools are made of their help."""

import re
import textwrap

from packaging.facts import TOP

WIDTH = 78
STATUS = re.compile(r"(\d[\d, ]*) (\D.*)")
STATUS_ROW = re.compile(r"(?m)^\| ([\d, ]+) \| (.*) \|$")


def escaped(text):
    """Returns a text as roff prints it."""
    text = re.sub(r"-(?=-)|(?<=-)-|(?<!\w)-", r"\\-", text.replace("\\", "\\e"))
    text = re.sub(r"`([^`]*)`", r"\\(oq\1\\(cq", text)
    return re.sub(r"(?m)^([.'])", r"\\&\1", text)


def paragraph(text):
    """Returns the lines of a text, each sentence on lines of its own."""
    found = []
    for sentence in re.split(r"(?<=[.:;]) (?=[A-Z`\d])", text):
        found += textwrap.wrap(sentence, WIDTH, break_on_hyphens=False, break_long_words=False)
    return escaped("\n".join(found))


def flags(option):
    """Returns the macros of an option's names and its value."""
    names = [f"Fl {it[1:]}" for it in option.names]
    value = "|".join(option.choices) or option.value
    return " , ".join(names) + (f" Ar {value}" if value else "")


def item(option):
    """Returns the lines that say what an option does."""
    head = flags(option) if option.names else f"Ar {option.value}"
    return f".It {head}\n{paragraph(option.about)}"


def synopsis(call):
    """Returns the lines of a call."""
    lines = [".Nm"]
    for option in call.options:
        lines.append(f".{'' if option.is_needed else 'Op '}{flags(option)}{' No ..' * option.is_many}")
    for operand in call.operands:
        lines.append(f".{'' if operand.is_needed else 'Op '}Ar {operand.value}{' ...' * operand.is_many}")
    return "\n".join(lines)


def statuses(call):
    """Returns the exit statuses of a tool: its own words, or those that all tools share."""
    if call.statuses:
        rows = [STATUS.fullmatch(it).groups() for it in call.statuses.rstrip(".").split("; ")]
    else:
        page = (TOP / "docs" / "TOOLS.md").read_text(encoding="utf-8")
        rows = STATUS_ROW.findall(page.partition("## How each tool ends")[2].partition("\n## ")[0])
    lines = [f".It {numbers}\n{paragraph(f'{text}.')}" for numbers, text in rows]
    return "\n".join([".Bl -tag -width Ds", *lines, ".El"])


def page_of(call, facts, others):
    """Returns the manual page of a tool; `others` are the names of the other tools."""
    see = " ,\n.Xr ".join(f"{it} 1" for it in ("dbp", *(f"dbp-{it}" for it in others)))
    return f""".Dd {facts.time:%B} {facts.time.day}, {facts.time.year}
.Dt DBP-{call.name.upper()} 1
.Os dbp {facts.version}
.Sh NAME
.Nm dbp-{call.name}
.Nd {escaped(call.title)}
.Sh SYNOPSIS
{synopsis(call)}
.Sh DESCRIPTION
{paragraph(call.about)}
.Pp
In a repository of dbp this tool is
.Pa tools/{call.name} .
.Bl -tag -width Ds
{chr(10).join(map(item, (*call.operands, *call.options)))}
.El
.Sh EXIT STATUS
{statuses(call)}
.Sh SEE ALSO
.Xr {see}
.Pp
.Pa docs/TOOLS.md
in
.Pa share/doc/dbp
where dbp is installed
"""
