"""Labels beside their marks, so that none covers another."""

import math
from dataclasses import dataclass
from typing import Iterator

from beltlib.plan import Box
from beltlib.svg import Flat, line, text

SIZE = 12.0
LINE = 14.0
DISTANCES = (9.0, 18.0, 30.0, 46.0, 66.0, 90.0, 120.0)
ANGLES = tuple(math.pi * i / 8 for i in (0, 8, 14, 10, 2, 6, 12, 4, 15, 1, 9, 7, 13, 3, 11, 5))
FREE_LEADER = 12.0
CELL = 6.0
TILE = 48.0

# What it costs to cover a cell of the page that a line or a beam passes, with words or a leader.
ON_LINE, ON_BEAM, LEADER_ON_BEAM = 6.0, 24.0, 10.0
# And what it costs where a leader crosses another label or mark, or another mark is as near.
CROSSING, DOUBTFUL = 60.0, 15.0

# Widths in lines' heights, as in the widest of the usual fonts.
NARROW, WIDE = " \u00a0.,:;-ijlft()", "mwMW"


@dataclass(frozen=True)
class Label:
    """Lines of words that belong to a point of the page."""

    anchor: Flat
    lines: tuple[str, ...]


def text_width(words: str) -> float:
    """About how wide words are."""
    return SIZE * sum(map(letter_width, words))


def letter_width(letter: str) -> float:
    """About how wide a letter is, for its height."""
    if letter in NARROW:
        return 0.4
    return 1.0 if letter in WIDE or not letter.isascii() else 0.64


def wrapped(words: str, width: float) -> list[str]:
    """Words in lines that are no wider than this, where a word is not; some blanks do not part."""
    lines: list[str] = []
    for word in words.split(" "):
        if lines and text_width(f"{lines[-1]} {word}") <= width:
            lines[-1] += f" {word}"
        else:
            lines.append(word)
    return lines


class Room:
    """Boxes that are taken, found by the tiles of the page that they lie on."""

    def __init__(self, boxes: list[Box]) -> None:
        self.tiles: dict[tuple[int, int], list[Box]] = {}
        for box in dict.fromkeys(boxes):
            self.take(box)

    def take(self, box: Box) -> None:
        """Takes a box."""
        for tile in cells(box, TILE):
            self.tiles.setdefault(tile, []).append(box)

    def met(self, box: Box) -> Iterator[Box]:
        """The boxes taken that a box overlaps, some of them twice."""
        near = (self.tiles.get(tile, ()) for tile in cells(box, TILE))
        return (other for boxes in near for other in boxes if box.meets(other))

    def is_free(self, box: Box) -> bool:
        """Whether a box overlaps none that is taken."""
        return next(self.met(box), None) is None


class Labels:
    """Places labels one by one where there is room."""

    def __init__(
        self, frame: Box, marks: list[Box], lines: list[Flat], beams: list[Flat]
    ) -> None:
        """Labels stay in the frame, off the marks, and where they can off lines and beams."""
        self.frame = frame
        self.marks = Room(marks)
        self.words = Room([])
        self.lines = {cell_of(point) for point in lines}
        self.beams = {cell_of(point) for point in beams}
        self.leaders: set[tuple[int, int]] = set()
        self.left_out = 0

    def place(self, label: Label) -> list[str]:
        """The elements of a label, or none where there is no room for it."""
        spot = self.best_spot(label)
        if spot is None:
            self.left_out += 1
            return []
        distance, box = spot
        self.words.take(box)
        middle = (box.low[0] + box.high[0]) / 2
        below = enumerate(reversed(label.lines))
        words = [
            text((middle, box.high[1] - 0.3 * SIZE - LINE * i), one, "label") for i, one in below
        ]
        words.reverse()
        if distance <= FREE_LEADER:
            return words
        end = nearest(box, label.anchor)
        self.leaders |= {cell_of(point) for point in between(label.anchor, end)}
        return [line(label.anchor, end, "leader"), *words]

    def best_spot(self, label: Label) -> tuple[float, Box] | None:
        """The distance and the box of a label where it costs least, the nearer of two alike."""
        best, spot = math.inf, None
        for distance in DISTANCES:
            if best <= distance:
                break
            for box in boxes_around(label, distance):
                if self.is_free(box) and (cost := self.cost(label, distance, box)) < best:
                    best, spot = cost, (distance, box)
        return spot

    def is_free(self, box: Box) -> bool:
        """Whether a box lies in the frame, off marks and words."""
        inside = self.frame.holds(box.low) and self.frame.holds(box.high)
        return inside and self.marks.is_free(box) and self.words.is_free(box)

    def cost(self, label: Label, distance: float, box: Box) -> float:
        """How far a label would be, and what it and its leader would cover."""
        under = cells(box, CELL)
        lines = sum(cell in self.lines or cell in self.leaders for cell in under)
        beams = sum(cell in self.beams for cell in under)
        leader = between(label.anchor, nearest(box, label.anchor))
        along = sum(cell_of(point) in self.beams for point in leader)
        covered = ON_LINE * lines + ON_BEAM * beams + LEADER_ON_BEAM * along
        own = set(self.marks.met(square(label.anchor, 1.0)))
        near = len(set(self.marks.met(box.grown(distance))) - own)
        # Leaders from one place begin alike.
        crossed = any(self.is_crossed(point, own) for point in leader[2:])
        return distance + covered + CROSSING * crossed + DOUBTFUL * near

    def is_crossed(self, point: Flat, own: set[Box]) -> bool:
        """Whether a point of a leader lies on another label or mark than its own."""
        dot = square(point, 1.0)
        covered = not self.words.is_free(dot) or any(box not in own for box in self.marks.met(dot))
        return covered or cell_of(point) in self.leaders


def boxes_around(label: Label, distance: float) -> list[Box]:
    """Places for a label at a distance from its anchor, the handiest first."""
    half_width = max(map(text_width, label.lines)) / 2 + 2
    half_height = (SIZE + LINE * (len(label.lines) - 1)) / 2 + 2
    boxes = []
    for angle in ANGLES:
        x = label.anchor[0] + math.cos(angle) * (distance + half_width)
        y = label.anchor[1] + math.sin(angle) * (distance + half_height)
        boxes.append(Box((x - half_width, y - half_height), (x + half_width, y + half_height)))
    return boxes


def cells(box: Box, size: float) -> list[tuple[int, int]]:
    """The squares of a size that a box lies on, by their numbers."""
    columns, rows = (
        range(int(low // size), int(high // size) + 1) for low, high in zip(box.low, box.high)
    )
    return [(x, y) for x in columns for y in rows]


def cell_of(point: Flat) -> tuple[int, int]:
    """The cell of the page that a point lies in."""
    return int(point[0] // CELL), int(point[1] // CELL)


def between(start: Flat, end: Flat) -> list[Flat]:
    """Points on a line, so close that it passes no cell unseen but at a corner."""
    count = int(math.dist(start, end) / CELL) + 1
    steps = [i / count for i in range(count + 1)]
    return [(start[0] + s * (end[0] - start[0]), start[1] + s * (end[1] - start[1])) for s in steps]


def nearest(box: Box, point: Flat) -> Flat:
    """The point of a box that is nearest to a point."""
    x, y = (min(max(value, a), b) for value, a, b in zip(point, box.low, box.high))
    return x, y


def square(middle: Flat, half: float) -> Box:
    """The room that a mark takes."""
    return Box((middle[0] - half, middle[1] - half), (middle[0] + half, middle[1] + half))
