"""How the floats of a sheet are written: all as bits in hexadecimal, or else as decimals."""

from typing import Callable, Iterable

from beltlib.errors import BadInput, quoted
from beltlib.floats import HEXADECIMAL, bits_of_decimal, bits_of_hexadecimal

ReadFloat = Callable[[str], int]


def notation_of(floats: Iterable[tuple[int, str]]) -> ReadFloat:
    """What reads a float of a sheet whose floats are these, each with the number of its line."""
    odd = next((one for one in floats if not HEXADECIMAL.fullmatch(one[1])), None)
    if odd is None:
        return lambda text: bits_of_hexadecimal(text.strip())
    return lambda text: decimal_among(text.strip(), *odd)


def decimal_among(text: str, line: int, decimal: str) -> int:
    """The bits of a decimal, in a sheet that has another one on a line."""
    try:
        return bits_of_decimal(text)
    except BadInput as wrong:
        if not HEXADECIMAL.fullmatch(text):
            raise
        raise BadInput(
            f"{wrong}; hexadecimal digits count only where every float has eight of them,"
            f" and line {line} has {quoted(decimal)}"
        ) from None
