"""Elements of an SVG text."""

from typing import Iterable
from xml.sax.saxutils import escape, quoteattr

Flat = tuple[float, float]


def number(value: float) -> str:
    """A coordinate, to a hundredth of a pixel."""
    text = f"{value:.2f}".rstrip("0").rstrip(".")
    return "0" if text == "-0" else text


def element(name: str, content: str = "", **attributes: object) -> str:
    """An element; class_ stands for class and a dash for each other underscore."""
    written = "".join(
        f" {key.rstrip('_').replace('_', '-')}={quoteattr(attribute(value))}"
        for key, value in attributes.items()
    )
    return f"<{name}{written}>{content}</{name}>" if content else f"<{name}{written}/>"


def attribute(value: object) -> str:
    """An attribute's value as text."""
    return number(value) if isinstance(value, float) else str(value)


def text(at: Flat, words: str, class_: str, anchor: str = "middle") -> str:
    """Words at a point."""
    return element(
        "text", escape(words), x=at[0], y=at[1], class_=class_, text_anchor=anchor
    )


def group(class_: str, parts: Iterable[str]) -> str:
    """Elements of one class, a line each."""
    return element("g", "\n" + "".join(part + "\n" for part in parts), class_=class_)


def line(start: Flat, end: Flat, class_: str) -> str:
    """A straight line."""
    return element("line", x1=start[0], y1=start[1], x2=end[0], y2=end[1], class_=class_)


def circle(centre: Flat, radius: float, class_: str, title: str = "") -> str:
    """A circle, with words to show when it is pointed at."""
    content = element("title", escape(title)) if title else ""
    return element("circle", content, cx=centre[0], cy=centre[1], r=float(radius), class_=class_)


def path(points: Iterable[Flat], class_: str) -> str:
    """A line through points."""
    return element("path", d=path_data(points), class_=class_)


def polygons(many: Iterable[list[Flat]], class_: str) -> str:
    """Polygons that are filled as one."""
    return element("path", d="".join(path_data(points) + "Z" for points in many), class_=class_)


def path_data(points: Iterable[Flat]) -> str:
    """The commands of a line through points."""
    return "M" + "L".join(f"{number(x)} {number(y)}" for x, y in points)
