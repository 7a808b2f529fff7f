"""The f32 nearest to a decimal, and the shortest decimal of an f32. Both are exact."""

import math
import re
import struct
from decimal import ROUND_CEILING, ROUND_FLOOR, Context, Decimal
from fractions import Fraction

from beltlib.errors import BadInput, quoted

SIGN = 0x8000_0000
INFINITY = 0x7F80_0000
LONGEST = 1000

DECIMAL = re.compile(r"([+-]?)(?=\.?[0-9])([0-9]*)(?:\.([0-9]*))?(?:[eE]([+-]?[0-9]+))?")
HEXADECIMAL = re.compile(r"[0-9a-f]{8}")


def bits_of_hexadecimal(text: str) -> int:
    """The bits that eight lower-case digits write."""
    if not HEXADECIMAL.fullmatch(text):
        raise BadInput(f"expected eight lower-case hexadecimal digits, found {quoted(text)}")
    return int(text, 16)


def bits_of_decimal(text: str) -> int:
    """The bits of the f32 nearest to a decimal, ties to even; blanks around it do not count."""
    text = text.strip()
    if len(text) > LONGEST:
        raise BadInput(f"expected a number of at most {LONGEST} characters, found {quoted(text)}")
    if text in ("inf", "+inf", "-inf"):
        return INFINITY | (SIGN if text[0] == "-" else 0)
    match = DECIMAL.fullmatch(text)
    if not match:
        raise BadInput(f"expected a decimal number or inf, found {quoted(text)}")
    sign, whole, fraction, exponent = match.groups(default="")
    size = nearest_bits(*trimmed(whole + fraction, int(exponent or 0) - len(fraction)))
    if size >= INFINITY:
        raise BadInput(f"expected a number that an f32 can hold, found {quoted(text)}")
    return size | (SIGN if sign == "-" else 0)


def trimmed(digits: str, exponent: int) -> tuple[int, int]:
    """The same number, or one that rounds alike and whose power of ten is not too large."""
    number = int(digits)
    magnitude = len(str(number)) + exponent
    if number == 0 or magnitude < -50:
        return 0, 0
    if magnitude > 40:
        return 1, 40
    return number, exponent


def nearest_bits(digits: int, exponent: int) -> int:
    """The bits of the f32 nearest to digits * 10^exponent, ties to even; large ones overflow."""
    value = digits * Fraction(10) ** exponent
    if value == 0:
        return 0
    binary = max(exponent_of_two(value), -126)
    # The unit in the last place is 2^(binary - 23). A mantissa of 2^24 carries into the exponent.
    mantissa = round(value / Fraction(2) ** (binary - 23))
    return ((binary + 126) << 23) + mantissa


def exponent_of_two(value: Fraction) -> int:
    """The whole number e with 2^e <= value < 2^(e + 1), of a value above zero."""
    guess = value.numerator.bit_length() - value.denominator.bit_length()
    return guess if value >= Fraction(2) ** guess else guess - 1


def float_of_bits(bits: int) -> float:
    """The value of an f32, which a Python float holds exactly."""
    return struct.unpack(">f", bits.to_bytes(4, "big"))[0]


def shortest_decimal(bits: int) -> str:
    """The shortest decimal that reads back to the same f32; of two such, the nearer."""
    value = float_of_bits(bits)
    if not math.isfinite(value):
        return str(value)
    sign = "-" if bits & SIGN else ""
    return sign + plain(shortest_of_size(bits & ~SIGN))


def shortest_of_size(size: int) -> Decimal:
    """The shortest decimal that reads back to a finite f32 without a sign."""
    if size == 0:
        return Decimal(0)
    value = Decimal(value_of_size(size))
    low = Decimal((value_of_size(size - 1) + value_of_size(size)) / 2)
    high = Decimal((value_of_size(size) + value_of_size(size + 1)) / 2)

    def reads_back(candidate: Decimal) -> bool:
        if candidate in (low, high):
            return size % 2 == 0
        return low < candidate < high

    # Nine digits are always enough.
    candidates = (c for digits in range(1, 10) for c in neighbours(value, digits))
    return next(filter(reads_back, candidates))


def value_of_size(size: int) -> float:
    """The value of an f32 without a sign; the pattern of infinity counts as 2^128."""
    field, mantissa = size >> 23, size & 0x7F_FFFF
    if field > 0:
        mantissa |= 0x80_0000
    return math.ldexp(mantissa, max(field, 1) - 150)


def neighbours(value: Decimal, digits: int) -> list[Decimal]:
    """The two decimals of so many digits around a value, the nearer first."""
    ways = (ROUND_FLOOR, ROUND_CEILING)
    around = [Context(prec=digits, rounding=way).create_decimal(value) for way in ways]
    return sorted(around, key=lambda candidate: abs(candidate - value))


def plain(value: Decimal) -> str:
    """A decimal without an exponent where it is short without."""
    value = value.normalize()
    return format(value, "f" if -6 < value.adjusted() < 9 else "e")
