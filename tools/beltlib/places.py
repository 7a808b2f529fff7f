"""Where hits lie, in decimals that suit the belt."""

from typing import Callable

from beltlib.curve import Belt
from beltlib.hits import decimals, place_of
from beltlib.report import Answer
from beltlib.sheet import Sheet

PLACE_HEAD = ("metre", "across", "x", "y", "z")

Cells = tuple[str, ...]
FindPlace = Callable[[Answer], Cells]


def places_on(sheet: Sheet, belt: Belt) -> FindPlace:
    """What tells the place of a hit on a belt, to a ten-thousandth of its length."""
    digits = decimals(belt.length / 10_000)

    def find(answer: Answer) -> Cells:
        place = place_of(answer, sheet, belt)
        return tuple(fixed(x, digits) for x in (place.metre, place.across, *place.point))

    return find


def fixed(number: float, digits: int) -> str:
    """A number with so many decimals, without a minus where it rounds to zero."""
    return f"{round(number, digits) + 0.0:.{digits}f}"
