"""Why a call is refused, by number. beltbeam prints those of a sheet or a beam."""

REASONS = {
    1: "the degree is not 2 or 3",
    2: "the basis is neither Bezier nor B-spline",
    3: "the points do not make whole segments",
    4: "the type is not flat",
    5: "the split depth is over 10",
    6: "there are over 256 points or over 1,024 pieces",
    7: "a coordinate is not within 1,048,576 of zero, or a width is outside 1/1024 to 1,024",
    8: "the list is too short for the pieces",
    9: "the piece is off limits",
    10: "a matrix entry is not within 1,048,576 of zero",
    11: "an origin, direction or time is not within 1,048,576 of zero, or t_max is negative or NaN",
    12: "the weight of the origin or of a control point is zero",
    13: "a direction has length zero where the beam's frame is made",
    14: "the curve has no direction along it at the hit",
    15: "the curve has no crosswise direction at the hit",
    16: "the normal or the way back has length zero at the hit",
    17: "a line of the sheet is wrong",
    18: "the sheet has over 65,536 bytes",
    19: "the list is no whole number of pieces",
    20: "the rate is over 1,000,000 cents a square metre",
    21: "the price is over 1,000,000,000 cents",
    22: "two neighbouring points are equal",
}

# Which of them are told of a beam, and which of a whole sheet; one of these comes with a line.
OF_BEAM = range(9, 17)
OF_SHEET = [*range(1, 9), 17, 18, 22]
WRONG_LINE = 17


def refused(number: int) -> str:
    """A refusal and its reason."""
    return f"refused {number}: {REASONS[number]}"
