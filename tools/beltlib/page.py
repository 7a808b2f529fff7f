"""The page: a frame with the plan in it, to scale, and its axes."""

import math

from beltlib.hits import decimals
from beltlib.labels import text_width
from beltlib.plan import Box
from beltlib.svg import Flat, element, group, line, number, text

LARGEST_FRAME = (820.0, 520.0)
SMALLEST_FRAME = (520.0, 220.0)
INNER = 44.0
TOP, RIGHT, AXIS = 58.0, 18.0, 42.0
TICK_SPACE = 60.0
TITLE = 20.0


class Page:
    """Where the plan's points lie on the page."""

    def __init__(self, box: Box) -> None:
        """A page on which a box fills the frame but for a margin."""
        size = box.size() if max(box.size()) > 0 else (1.0, 1.0)
        rooms = [(largest - 2 * INNER, extent) for largest, extent in zip(LARGEST_FRAME, size)]
        self.scale = min(room / extent for room, extent in rooms if extent > 0)
        self.width, self.height = (
            max(extent * self.scale + 2 * INNER, smallest)
            for extent, smallest in zip(size, SMALLEST_FRAME)
        )
        self.box = around_middle(box, self.width / self.scale, self.height / self.scale)
        self.ticks = tick_labels(self.box, self.scale)
        left = TITLE + 16 + max((text_width(words) for _, words in self.ticks[1]), default=0.0)
        self.frame = Box((left, TOP), (left + self.width, TOP + self.height))

    def at(self, point: Flat) -> Flat:
        """A point of the plan on the page, where y goes down."""
        return (
            self.frame.low[0] + (point[0] - self.box.low[0]) * self.scale,
            self.frame.low[1] + (self.box.high[1] - point[1]) * self.scale,
        )

    def all(self, points: list[Flat]) -> list[Flat]:
        """Points of the plan on the page."""
        return [self.at(point) for point in points]


def around_middle(box: Box, width: float, height: float) -> Box:
    """A box of a size around the middle of another."""
    x, y = ((a + b) / 2 for a, b in zip(box.low, box.high))
    return Box((x - width / 2, y - height / 2), (x + width / 2, y + height / 2))


def round_step(least: float) -> float:
    """The least of 1, 2 and 5 times a power of ten that is not below a length."""
    power = 10.0 ** math.floor(math.log10(least))
    return next(factor * power for factor in (1, 2, 5, 10) if factor * power >= least)


Ticks = list[tuple[float, str]]


def tick_labels(box: Box, scale: float) -> tuple[Ticks, Ticks]:
    """The round places of both axes and their numbers, so far apart that the numbers fit."""
    step = round_step(TICK_SPACE / scale)
    ticks = [multiples(low, high, step) for low, high in zip(box.low, box.high)]
    widest = max((text_width(words) for _, words in ticks[0]), default=0.0)
    across = round_step(max(TICK_SPACE, widest + 12) / scale)
    return multiples(box.low[0], box.high[0], across), ticks[1]


def multiples(low: float, high: float, step: float) -> Ticks:
    """The multiples of a step from low to high."""
    counts = range(math.ceil(low / step), math.floor(high / step) + 1)
    return [(step * i, f"{step * i:.{decimals(step)}f}") for i in counts]


def axes(page: Page, names: tuple[str, str]) -> str:
    """The frame, ticks with their numbers, and the names of both axes."""
    (left, top), (right, bottom) = page.frame.low, page.frame.high
    parts = [element("rect", x=left, y=top, width=page.width, height=page.height, class_="frame")]
    for value, words in page.ticks[0]:
        x = page.at((value, 0.0))[0]
        parts += [line((x, bottom), (x, bottom + 5), "tick"), text((x, bottom + 18), words, "axis")]
    for value, words in page.ticks[1]:
        y = page.at((0.0, value))[1]
        parts += [line((left - 5, y), (left, y), "tick")]
        parts += [text((left - 8, y + 4), words, "axis", "end")]
    middle = (top + bottom) / 2
    turned = f"translate({number(TITLE)} {number(middle)}) rotate(-90)"
    parts += [
        text(((left + right) / 2, bottom + 34), f"{names[0]} (m)", "axis"),
        element("g", text((0.0, 0.0), f"{names[1]} (m)", "axis"), transform=turned),
    ]
    return group("axes", parts)
