"""The signs of a plan and how they look."""

from beltlib.svg import Flat, circle, element, line, number, path, polygons

RING = 7.0
HIT = 4.0
HEAD = 8.0

STYLE = """
text{font:12px sans-serif;fill:#222}
.heading{font-size:14px;font-weight:bold}
.label{paint-order:stroke;stroke:#fff;stroke-width:3px;stroke-linejoin:round}
.page{fill:#fff}
.frame{fill:none;stroke:#999}
.tick,.leader{stroke:#777;stroke-width:.8}
.rim{fill:none;stroke:#6d5f47;stroke-width:2.4;stroke-linejoin:round}
.belt{fill:#efe7d6}
.middle{fill:none;stroke:#6d5f47;stroke-width:.8;stroke-dasharray:9 3 2 3}
.way{fill:#6d5f47}
.end{stroke:#a3957b;stroke-width:.8}
.control,.knot{fill:none;stroke:#aaa;stroke-width:.8}
.control{stroke-dasharray:2 3}
.ray,.ring,.whence{fill:none;stroke:#1d4f91;stroke-width:1.4}
.dot,.head{fill:#1d4f91}
.whence{stroke-width:2.4}
.miss .whence{stroke:#707070}
.refused .whence{stroke:#7a1fa2}
.miss .ray,.miss .ring{stroke:#707070;stroke-dasharray:4 3}
.miss .dot,.miss .head{fill:#707070}
.refused .ray,.refused .ring{stroke:#7a1fa2;stroke-dasharray:2 3}
.refused .dot,.refused .head{fill:#7a1fa2}
.no{fill:#fff;stroke:#7a1fa2;stroke-width:1.6}
.hit-mark{fill:#b3261e;stroke:#fff}
.later-mark{fill:#fff;stroke:#b3261e;stroke-width:1.8}
.bar{fill:none;stroke:#222;stroke-width:1.4}
"""


def arrow_head(tip: Flat, way: Flat, class_: str) -> str:
    """The head of an arrow that goes in a direction of length 1."""
    dx, dy = HEAD * way[0], HEAD * way[1]
    back = (tip[0] - dx, tip[1] - dy)
    left = (back[0] - 0.4 * dy, back[1] + 0.4 * dx)
    right = (back[0] + 0.4 * dy, back[1] - 0.4 * dx)
    return polygons([[left, tip, right]], class_)


def chevron(at: Flat, way: Flat) -> str:
    """The arrow of a beam that comes in at a point of the edge, in a direction of length 1."""
    dx, dy = HEAD * way[0], HEAD * way[1]
    left = (at[0] - 0.6 * dy, at[1] + 0.6 * dx)
    right = (at[0] + 0.6 * dy, at[1] - 0.6 * dx)
    return path([left, (at[0] + dx, at[1] + dy), right], "whence")


def circled_dot(at: Flat) -> str:
    """A beam that goes straight through the plan."""
    return circle(at, RING, "ring") + circle(at, 1.8, "dot")


def crossed_square(at: Flat) -> str:
    """A refused beam."""
    a, b = (number(at[0] + side) for side in (-6.0, 6.0))
    c, d = (number(at[1] + side) for side in (-6.0, 6.0))
    return element("path", d=f"M{a} {c}H{b}V{d}H{a}ZL{b} {d}M{b} {c}L{a} {d}", class_="no")


def hit_mark(at: Flat, words: str = "") -> str:
    """A hit, the first along its beam."""
    return circle(at, HIT, "hit-mark", words)


def later_mark(at: Flat, words: str = "") -> str:
    """A hit behind another one of its beam."""
    return circle(at, HIT - 0.5, "later-mark", words)


def scale_bar(width: float) -> str:
    """A bar of a width in pixels, its middle at the origin."""
    ends = [line((x, -4.0), (x, 4.0), "bar") for x in (-width / 2, width / 2)]
    return line((-width / 2, 0.0), (width / 2, 0.0), "bar") + "".join(ends)
