"""HTML: elements, and texts that never become markup."""

import json
from html import escape
from pathlib import Path

EMPTY = ("meta", "input")  # elements without an end

# A page takes nothing from elsewhere.
POLICY = "default-src 'none'; style-src 'unsafe-inline'; script-src 'unsafe-inline'; img-src data:"
HERE = Path(__file__).resolve().parent
STYLES = ("colours.css", "page.css")  # of all pages


def tag(kind, *content, **attributes):
    """Returns an element; its content is HTML already, and its attributes are texts. `cls` stands for class, `_` for `-`."""
    named = ((name.rstrip("_").replace("_", "-"), value) for name, value in attributes.items() if value is not None)
    head = " ".join([kind, *(f'{"class" if name == "cls" else name}="{escape(str(value))}"' for name, value in named)])
    return f"<{head}>" if kind in EMPTY else f"<{head}>{''.join(content)}</{kind}>"


def table(header, rows, caption, **attributes):
    """Returns a table of cells that are HTML already, with a header and a caption."""
    head = tag("tr", *(tag("th", escape(cell), scope="col") for cell in header))
    body = [tag("tr", *(tag("td", cell) for cell in row)) + "\n" for row in rows]
    parts = tag("caption", escape(caption)), tag("thead", head), tag("tbody", *body) if body else ""
    return tag("div", tag("table", *parts, **attributes), cls="wide")


def code(text):
    """Returns a text as code."""
    return tag("code", escape(text))


def script_json(value):
    """Returns a value as JSON in which nothing ends the element that it is in."""
    return json.dumps(value, separators=(",", ":")).replace("<", "\\u003c")


def page_head(title, *styles):
    """Returns the head of a page, with the styles of all pages and some of its own, up to where its body begins."""
    return "".join([
        '<!DOCTYPE html>\n<html lang="en">\n<head>\n',
        tag("meta", charset="utf-8") + "\n" + tag("title", escape(title)) + "\n",
        tag("meta", http_equiv="Content-Security-Policy", content=POLICY) + "\n",
        tag("meta", name="viewport", content="width=device-width, initial-scale=1") + "\n",
        tag("style", *((HERE / it).read_text() for it in STYLES), *styles, "\n") + "\n</head>\n<body>\n",
    ])
