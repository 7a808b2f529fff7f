"""The belt sheet: read in decimal or in hexadecimal, written in hexadecimal."""

import re
from dataclasses import dataclass, field
from typing import Iterable, Iterator

from beltlib.errors import BadInput, Refused, quoted
from beltlib.floats import bits_of_hexadecimal
from beltlib.lines import ended_lines
from beltlib.notation import ReadFloat, notation_of
from beltlib.ray import RAY_FLOATS
from beltlib.refusals import refused
from beltlib.words import counted, either

MOST_BYTES = 65536
MOST_BEAMS = 64

# Which keys may stand behind a key; behind nothing stands the degree.
NEXT = {
    "": ("degree",),
    "degree": ("basis",),
    "basis": ("type",),
    "type": ("width0",),
    "width0": ("width1",),
    "width1": ("splitdepth",),
    "splitdepth": ("reverse",),
    "reverse": ("point",),
    "point": ("point", "beam"),
    "beam": ("beam",),
}
KEYS = tuple(NEXT)[1:]

WORDS = {
    "basis": ("bezier", "bspline"),
    "type": ("flat", "ribbon", "cylinder"),
    "reverse": ("0", "1"),
}
FLOATS = {
    "width0": (1, "the width at the start"),
    "width1": (1, "the width at the end"),
    "point": (3, "x, y, z"),
    "beam": (RAY_FLOATS, "origin, direction, t_max, time"),
}

# A point or a beam of a sheet in decimal, as far as it can be told without reading it.
ROW = re.compile(r"^[^\S\n]*(point|beam)[^\S\n]*=", re.MULTILINE)

Floats = tuple[int, ...]


@dataclass(frozen=True)
class Sheet:
    """What a sheet says, floats as the bits of an f32, and the number of each row's line."""

    degree: int
    basis: str
    type: str
    width0: int
    width1: int
    splitdepth: int
    reverse: str
    points: tuple[Floats, ...]
    beams: tuple[Floats, ...]
    lines: tuple[int, ...] = field(default=(), compare=False)

    def text(self) -> str:
        """The sheet as beltbeam reads it."""
        head = [
            f"degree={self.degree}",
            f"basis={self.basis}",
            f"type={self.type}",
            f"width0={self.width0:08x}",
            f"width1={self.width1:08x}",
            f"splitdepth={self.splitdepth}",
            f"reverse={self.reverse}",
        ]
        points = [f"point={hexadecimal(point)}" for point in self.points]
        beams = [f"beam={hexadecimal(beam)}" for beam in self.beams]
        return "".join(line + "\n" for line in head + points + beams)


@dataclass(frozen=True)
class Line:
    """A line that says something, by its number from 1."""

    number: int
    content: str


def hexadecimal(floats: Floats) -> str:
    """Floats as a line of the sheet has them."""
    return ",".join(f"{bits:08x}" for bits in floats)


def read_decimal(name: str, text: str) -> Sheet:
    """The sheet that a text says as its user writes it: in plain decimal numbers, or finished."""
    check_size(name, sum(row_bytes(key) for key in ROW.findall(text)))
    lines = list(decimal_lines(text))
    sheet = read_lines(name, lines, notation_of(floats_of(lines)))
    check_size(name, len(sheet.text()))
    return sheet


def read_sheet(name: str, text: str) -> Sheet:
    """The sheet that beltbeam reads in a text."""
    if len(text.encode()) > MOST_BYTES:
        raise Refused(refused(18)).at(name)
    lines = (Line(number, content) for number, content in ended_lines(name, text))
    return read_lines(name, lines, bits_of_hexadecimal)


def check_size(name: str, size: int) -> None:
    """Refuses a sheet that will have too many bytes, of which so many are known."""
    if size > MOST_BYTES:
        raise Refused(f"{refused(18)}; finished, this one has at least {size:,}").at(name)


def row_bytes(key: str) -> int:
    """How long a line of floats is in a finished sheet."""
    return len(f"{key}=") + FLOATS[key][0] * len("00000000,")


def decimal_lines(text: str) -> Iterator[Line]:
    """The lines without comments, blanks and empty lines."""
    for number, raw in enumerate(text.removeprefix("\ufeff").split("\n"), start=1):
        content = raw.partition("#")[0].strip()
        if content:
            yield Line(number, "=".join(part.strip() for part in content.split("=", 1)))


def floats_of(lines: list[Line]) -> Iterator[tuple[int, str]]:
    """What stands where floats are due, with the number of its line."""
    for line in lines:
        key, _, value = line.content.partition("=")
        if key in FLOATS:
            yield from ((line.number, part.strip()) for part in value.split(","))


def key_and_value(line: str) -> tuple[str, str]:
    """What stands before and behind the first equals sign."""
    key, equals, value = line.partition("=")
    if not equals:
        raise BadInput(f"expected key=value, found {quoted(line)}")
    return key, value


def read_lines(name: str, lines: Iterable[Line], read_float: ReadFloat) -> Sheet:
    """The sheet that lines of either form say."""
    found: dict[str, list] = {key: [] for key in KEYS}
    numbers: list[int] = []
    previous = ""
    for line in lines:
        try:
            key, value = key_and_value(line.content)
            check_place(key, previous, found)
            found[key].append(read_value(key, value, read_float))
        except BadInput as wrong:
            raise wrong.at(f"{name}:{line.number}") from None
        numbers.append(line.number)
        previous = key
    if "beam" not in NEXT[previous]:
        end = numbers[-1] + 1 if numbers else 1
        raise BadInput(f"the sheet ends here, expected {NEXT[previous][0]}=").at(f"{name}:{end}")
    head = (found[key][0] for key in KEYS if key not in ("point", "beam"))
    rows = (tuple(found[key]) for key in ("point", "beam"))
    return Sheet(*head, *rows, lines=tuple(numbers))


def check_place(key: str, previous: str, found: dict[str, list]) -> None:
    """Refuses a key that may not stand behind the one before."""
    due = NEXT[previous]
    expected = " or ".join(f"{one}=" for one in due)
    if key not in KEYS:
        raise BadInput(f"unknown key {quoted(key)}, expected {expected}")
    if key == "beam" and len(found["beam"]) == MOST_BEAMS:
        raise BadInput(f"one beam too many, expected at most {MOST_BEAMS}")
    if key in due:
        return
    if key == "point" and previous == "beam":
        raise BadInput("point= stands behind a beam, expected all points before the beams")
    if found[key]:
        raise BadInput(f"{key}= stands a second time, expected {expected}")
    raise BadInput(f"expected {expected} before {key}=")


def read_value(key: str, text: str, read_float: ReadFloat) -> object:
    """What stands behind a key."""
    try:
        if key in FLOATS:
            return read_floats(*FLOATS[key], text, read_float)
        if key in WORDS:
            return read_word(WORDS[key], text)
        return read_whole(text)
    except BadInput as wrong:
        raise wrong.at(f"{key}=") from None


def read_whole(text: str) -> int:
    """A number of one or two digits."""
    if not re.fullmatch("[0-9]{1,2}", text):
        raise BadInput(f"expected one or two decimal digits, found {quoted(text)}")
    return int(text)


def read_word(words: tuple[str, ...], text: str) -> str:
    """One of a few words."""
    if text not in words:
        raise BadInput(f"expected {either(words)}, found {quoted(text)}")
    return text


def read_floats(count: int, meaning: str, text: str, read_float: ReadFloat) -> int | Floats:
    """The floats of a width, a point or a beam."""
    parts = text.split(",")
    if len(parts) != count:
        raise BadInput(f"expected {counted(count, 'number')} ({meaning}), found {len(parts)}")
    floats = tuple(read_float(part) for part in parts)
    return floats if count > 1 else floats[0]


def expected_on(line: int) -> str:
    """What beltbeam expects on a line of a sheet that it refuses by 17."""
    key = KEYS[line - 1] if line < len(KEYS) else ""
    if key in FLOATS:
        count = counted(FLOATS[key][0], "number")
        return f"{key}= and {count} of eight lower-case hexadecimal digits"
    if key in WORDS:
        return f"{key}= and {either(WORDS[key])}"
    if key:
        return f"{key}= and one or two decimal digits"
    return f"a point, one of at most {MOST_BEAMS} beams, or the end"
