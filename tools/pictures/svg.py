"""SVG text: shapes, texts and their widths, and a canvas whose layers lie one above another."""

from enum import IntEnum
from xml.sax.saxutils import escape, quoteattr

FONT = "Verdana, 'DejaVu Sans', Arial, sans-serif"
LETTERS = {"ijlI.,:;'|!": 0.36, " ()[]ft-r/\"": 0.46, "ABCDEFGHJKLNOPQRSTUVXYZ": 0.75, "mwMW%@#+=<>~": 1.0}
TEXT_STYLE = f"text{{font-family:{FONT};font-size:12px;fill:#1a1a1a}}"
WIDTHS = {letter: width for letters, width in LETTERS.items() for letter in letters}  # of a font of size 1


class Layer(IntEnum):
    """The layers of a canvas, from the lowest to the highest."""

    BACK = 0
    ARROWS = 1
    BARS = 2
    MARKS = 3
    TEXTS = 4


def text_width(text, size):
    """Returns the width of a text in a font of this size, rather too much than too little."""
    return size * sum(WIDTHS.get(letter, 0.65) for letter in text)


def number(value):
    """Returns a coordinate as text, with one place after the point at most."""
    text = f"{value:.1f}"
    text = text[:-2] if text.endswith(".0") else text
    return "0" if text == "-0" else text


def attribute(name, value):
    """Returns an attribute; `cls` stands for class, and `_` for `-`."""
    name = {"cls": "class"}.get(name, name.replace("_", "-"))
    return f"{name}={quoteattr(value)}" if isinstance(value, str) else f'{name}="{number(value)}"'


def element(kind, content="", **attributes):
    """Returns an element; its content is text that is SVG already."""
    head = " ".join([kind, *(attribute(name, value) for name, value in attributes.items())])
    return f"<{head}>{content}</{kind}>" if content else f"<{head}/>"


def tip(text):
    """Returns the content that shows a text when one points at an element."""
    return f"<title>{escape(text)}</title>" if text else ""


def path(*pieces):
    """Returns the data of a path, from letters and coordinates."""
    return " ".join(piece if isinstance(piece, str) else number(piece) for piece in pieces)


class Canvas:
    """A picture that is being drawn."""

    def __init__(self):
        self.layers = {layer: [] for layer in Layer}

    def add(self, layer, kind, content="", **attributes):
        """Adds an element to a layer."""
        self.layers[layer].append(element(kind, content, **attributes))

    def box(self, layer, x, y, width, height, cls, about=""):
        """Adds a rectangle."""
        self.add(layer, "rect", tip(about), x=x, y=y, width=width, height=height, cls=cls)

    def line(self, layer, x, y, to_x, to_y, cls, about=""):
        """Adds a straight line."""
        self.add(layer, "path", tip(about), d=path("M", x, y, "L", to_x, to_y), cls=cls)

    def text(self, x, y, text, cls):
        """Adds a text, at the left end of its base line unless the class says otherwise."""
        self.add(Layer.TEXTS, "text", escape(text), x=x, y=y, cls=cls)

    def picture(self, width, height, title, styles, definitions=""):
        """Returns the whole text of the picture."""
        size = {"width": width, "height": height, "viewBox": f"0 0 {number(width)} {number(height)}"}
        rules = "\n".join([TEXT_STYLE, *styles])
        parts = [
            element("title", escape(title)),
            element("style", f"\n{rules}\n"),
            *([element("defs", definitions)] if definitions else []),
            element("rect", x=0, y=0, width=width, height=height, fill="#ffffff"),
            *(part for layer in Layer for part in self.layers[layer]),
        ]
        content = "\n" + "\n".join(parts) + "\n"
        return element("svg", content, xmlns="http://www.w3.org/2000/svg", **size) + "\n"
