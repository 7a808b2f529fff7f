"""Why laying refuses a sheet (documents 01 and 02), and the line that shows it."""

from dataclasses import dataclass

from beltlib.errors import Refused
from beltlib.floats import float_of_bits
from beltlib.refusals import refused
from beltlib.sheet import KEYS, Floats, Sheet
from beltlib.words import counted

LARGEST = 1_048_576
NARROWEST = 1 / 1024
WIDEST = 1024
DEEPEST = 10
MOST_POINTS = 256
MOST_PIECES = 1024


@dataclass(frozen=True)
class Refusal:
    """A refusal's number, the row of the sheet from 0 that shows it, and what the row does not."""

    number: int
    row: int
    detail: str = ""


def check(name: str, sheet: Sheet) -> None:
    """Refuses a sheet that laying refuses, with its line."""
    refusal = refusal_of(sheet)
    if refusal:
        wrong = Refused(refused(refusal.number) + refusal.detail)
        raise wrong.at(f"{name}:{sheet.lines[refusal.row]}")


def refusal_of(sheet: Sheet) -> Refusal | None:
    """The first refusal that holds, by the order of the documents: 22 comes behind 3."""
    tests = (
        wrong_degree,
        broken_segments,
        equal_neighbours,
        wrong_type,
        deep_split,
        too_many,
        out_of_limits,
    )
    return next(filter(None, (test(sheet) for test in tests)), None)


def wrong_degree(sheet: Sheet) -> Refusal | None:
    """The degree is its line's."""
    return None if sheet.degree in (2, 3) else Refusal(1, row_of("degree"))


def broken_segments(sheet: Sheet) -> Refusal | None:
    """That points are missing shows where they end."""
    if is_whole(sheet):
        return None
    expected = (
        f"one more than a multiple of {sheet.degree}"
        if sheet.basis == "bezier"
        else f"at least {sheet.degree + 1}"
    )
    count = len(sheet.points)
    detail = f"; {counted(count, 'point')}, expected {expected}"
    return Refusal(3, row_of("point", count - 1), detail)


def equal_neighbours(sheet: Sheet) -> Refusal | None:
    """The first point that equals the one before it."""
    for place in range(1, len(sheet.points)):
        if is_equal(sheet.points[place - 1], sheet.points[place]):
            return Refusal(22, row_of("point", place), "; this one and the one before it")
    return None


def wrong_type(sheet: Sheet) -> Refusal | None:
    """The type is its line's."""
    return None if sheet.type == "flat" else Refusal(4, row_of("type"))


def deep_split(sheet: Sheet) -> Refusal | None:
    """The split depth is its line's."""
    return None if sheet.splitdepth <= DEEPEST else Refusal(5, row_of("splitdepth"))


def too_many(sheet: Sheet) -> Refusal | None:
    """The point that is too many, or that ends the segment whose pieces are."""
    for count in range(1, len(sheet.points) + 1):
        row = row_of("point", count - 1)
        pieces = segment_count(sheet, count) << sheet.splitdepth
        if count > MOST_POINTS:
            return Refusal(6, row, f"; this is point {count}")
        if pieces > MOST_PIECES:
            return Refusal(6, row, f"; up to this point there are {pieces:,} pieces")
    return None


def out_of_limits(sheet: Sheet) -> Refusal | None:
    """The first line, of a width or of a point, that has a number outside the limits."""
    widths = {"width0": sheet.width0, "width1": sheet.width1}
    for key, width in widths.items():
        if not NARROWEST <= float_of_bits(width) <= WIDEST:
            return Refusal(7, row_of(key))
    for place, point in enumerate(sheet.points):
        if not is_within(point):
            return Refusal(7, row_of("point", place))
    return None


def row_of(key: str, place: int = 0) -> int:
    """The row of a key, or of the point at a place."""
    return KEYS.index(key) + place


def is_whole(sheet: Sheet) -> bool:
    """Whether the points make a whole number of segments."""
    if sheet.basis == "bezier":
        return (len(sheet.points) - 1) % sheet.degree == 0
    return len(sheet.points) > sheet.degree


def segment_count(sheet: Sheet, count: int) -> int:
    """How many segments the first points of a sheet end, by their count; below 0 counts as none."""
    if sheet.basis == "bezier":
        return (count - 1) // sheet.degree
    return count - sheet.degree


def is_equal(point: Floats, other: Floats) -> bool:
    """Whether all coordinates are equal: -0 equals 0, and a NaN equals nothing."""
    return all(float_of_bits(one) == float_of_bits(two) for one, two in zip(point, other))


def is_within(point: Floats) -> bool:
    """Whether the coordinates are within the limits, which a NaN is not."""
    return all(abs(float_of_bits(bits)) <= LARGEST for bits in point)
