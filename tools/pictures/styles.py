"""The styles of pictures: colours that are told apart in grey too, patterns and heads of arrows."""

from pictures.svg import element

STYLES = [
    ".title{font-size:16px;font-weight:bold}",
    ".name{font-size:13px;font-weight:bold}",
    ".small{font-size:11px;fill:#505050}",
    ".tick{font-size:11px;fill:#505050;text-anchor:middle}",
    ".number{fill:#ffffff;font-weight:bold;text-anchor:middle}",
    ".read{font-size:11px;paint-order:stroke;stroke:#ffffff;stroke-width:3px}",
    ".loud{font-weight:bold;fill:#a01010}",
    ".label{font-size:11px}",
    ".slot{fill:#f4f4f4}",
    ".aimed{fill:#ffffff;stroke:#1a1a1a;stroke-dasharray:4 2}",
    ".held{fill:#8cbb9b;stroke:#ffffff}",
    ".kept{fill:#bfd4ea;stroke:#2f6299}",
    ".claimed{fill:#fbe3cd;stroke:#b8500a;stroke-width:2}",
    ".unseen{fill:#ffffff;stroke:#b8500a;stroke-dasharray:5 3}",
    ".grid{stroke:#e4e4e4;fill:none}",
    ".base{stroke:#909090;fill:none}",
    ".served{fill:#2f6299}",
    ".preempted{fill:url(#stripes);stroke:#2f6299;stroke-width:0.8}",
    ".waiting{fill:none;stroke:#707070;stroke-dasharray:2 2}",
    ".end{stroke:#1a1a1a;stroke-width:2.5;fill:none}",
    ".release{fill:#1a1a1a;stroke:#1a1a1a}",
    ".due,.deadline{fill:#ffffff;stroke:#1a1a1a}",
    ".read-mark{fill:#ffffff;stroke:#1a1a1a;stroke-width:1.4}",
    ".first{fill:#1a1a1a}",
    ".again{stroke:#1a1a1a;stroke-width:1.6;fill:none}",
    ".direct{stroke:#b8500a;stroke-width:1.5;fill:none}",
    ".delayed{stroke:#5c2d86;stroke-width:1.5;stroke-dasharray:5 3;fill:none}",
    ".halo{stroke:#ffffff;stroke-width:4;fill:none}",
    ".overrun{stroke:#a01010;stroke-width:2;stroke-dasharray:7 3;fill:none}",
]

LATE_STYLES = [".late{stroke:#d01010;stroke-width:4;fill:none}"]  # of pictures with a late end
BLOCKED_STYLES = [".blocked{fill:url(#hatches);stroke:#b8500a;stroke-width:0.8}"]  # of pictures with a blocked instance

BOX_STYLES = [
    ".box{fill:#ffffff;stroke:#2f6299;stroke-width:1.5}",
    ".head{fill:#dce8f4;stroke:#2f6299;stroke-width:1.5}",
    ".event-head{fill:#f5e7c4;stroke:#2f6299;stroke-width:1.5}",
    ".about{font-size:11px;fill:#303030}",
    ".port{fill:#ffffff;stroke:#1a1a1a;stroke-width:1.2}",
    ".out-port{fill:#1a1a1a}",
    ".sense{fill:#ffffff;stroke:#1a1a1a;stroke-width:1.2}",
    ".sense-label{font-size:11px;font-style:italic}",
    ".out-label{font-size:11px;text-anchor:end}",
]

HEAD = {"viewBox": "0 0 8 8", "refX": "7", "refY": "4", "markerWidth": "8", "markerHeight": "8", "orient": "auto",
        "markerUnits": "userSpaceOnUse"}


def head(name, colour):
    """Returns the head of the arrows of a class."""
    return element("marker", element("path", d="M 0 0 L 8 4 L 0 8 z", fill=colour), id=f"{name}-head", **HEAD)


def pattern(name, side, data, colour):
    """Returns a pattern of lines on white, which repeats a square."""
    content = element("rect", width=side, height=side, fill="#ffffff") + element("path", d=data, stroke=colour)
    return element("pattern", content, id=name, width=side, height=side, patternUnits="userSpaceOnUse")


DEFINITIONS = "".join([
    head("direct", "#b8500a"),
    head("delayed", "#5c2d86"),
    pattern("stripes", 5, "M 0 5 L 5 0", "#2f6299"),
])
BLOCKED_DEFINITIONS = pattern("hatches", 6, "M 0 6 L 6 0 M 0 0 L 6 6", "#b8500a")  # of pictures with a blocked instance
