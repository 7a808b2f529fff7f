"""beltbeam's report: what each beam met on each piece of the belt, or why the sheet is refused."""

import re
from collections import Counter
from dataclasses import dataclass
from typing import Iterable

from beltlib.errors import BadInput, quoted
from beltlib.floats import float_of_bits
from beltlib.laying import MOST_PIECES
from beltlib.lines import ended_lines
from beltlib.refusals import OF_BEAM, OF_SHEET, WRONG_LINE
from beltlib.sheet import MOST_BEAMS

NUMBER = "(0|[1-9][0-9]{0,4})"
REFUSED_SHEET = re.compile(f"refused={NUMBER} line={NUMBER}")
PIECES = re.compile(f"pieces={NUMBER}")
ANSWER = re.compile(
    f"beam={NUMBER} piece={NUMBER} (?:refused={NUMBER}|looked={NUMBER}"
    " (?:hit=0|hit=1 t=([0-9a-f]{8}) u=([0-9a-f]{8}) v=([0-9a-f]{8})))"
)


@dataclass(frozen=True)
class Hit:
    """Distance along the beam, place along the segment and across the belt, as bits."""

    t: int
    u: int
    v: int


@dataclass(frozen=True)
class Answer:
    """A beam against a piece: a hit, a refusal's number, or a miss where both are None."""

    beam: int
    piece: int
    looked: int | None = None
    hit: Hit | None = None
    refused: int | None = None

    def result(self) -> str:
        """Its kind in a word."""
        if self.refused is not None:
            return "refused"
        return "miss" if self.hit is None else "hit"


@dataclass(frozen=True)
class Report:
    """The answers, beam by beam and piece by piece."""

    pieces: int
    answers: tuple[Answer, ...]

    def beams(self) -> int:
        """How many beams it tells of."""
        return len(self.answers) // self.pieces if self.pieces else 0

    def of_beam(self, beam: int) -> tuple[Answer, ...]:
        """The answers of a beam."""
        return self.answers[beam * self.pieces : (beam + 1) * self.pieces]

    def counts(self, beam: int) -> Counter:
        """How many answers of each kind a beam has."""
        return Counter(answer.result() for answer in self.of_beam(beam))

    def has_refusal(self) -> bool:
        """Whether a beam is refused."""
        return any(answer.refused is not None for answer in self.answers)


@dataclass(frozen=True)
class RefusedSheet:
    """The report of a sheet that was refused, with the line where one is wrong."""

    number: int
    line: int

    def has_refusal(self) -> bool:
        """It is one."""
        return True


def read_report(name: str, text: str) -> Report | RefusedSheet:
    """The report that a text says, from its first line to its last."""
    lines = ended_lines(name, text)
    number, first = next(lines, (1, ""))
    try:
        report = read_refused_sheet(first)
        pieces = 0 if report else read_pieces(first)
    except BadInput as wrong:
        raise wrong.at(f"{name}:{number}") from None
    if report is None:
        return read_answers(name, pieces, lines)
    if next(lines, None):
        raise BadInput("expected the end behind refused=").at(f"{name}:2")
    return report


def read_refused_sheet(line: str) -> RefusedSheet | None:
    """The refusal of a sheet on a first line that has one."""
    match = REFUSED_SHEET.fullmatch(line)
    if not match:
        return None
    number, place = map(int, match.groups())
    if number not in OF_SHEET:
        raise BadInput(f"expected a refusal of a sheet, found {number}")
    if (number == WRONG_LINE) != (place > 0):
        raise BadInput(f"expected a line with refusal {WRONG_LINE} alone, found {quoted(line)}")
    return RefusedSheet(number, place)


def read_pieces(line: str) -> int:
    """How many pieces a first line says."""
    match = PIECES.fullmatch(line)
    if not match:
        raise BadInput(
            f"expected a report, which begins with pieces= or refused=, found {quoted(line)}"
        )
    if int(match[1]) > MOST_PIECES:
        raise BadInput(f"expected at most {MOST_PIECES:,} pieces, found {match[1]}")
    return int(match[1])


def read_answers(name: str, pieces: int, lines: Iterable[tuple[int, str]]) -> Report:
    """The answers behind the first line, which come in order and are complete."""
    answers: list[Answer] = []
    for number, line in lines:
        try:
            answer = read_answer(line)
            check_order(answer, len(answers), pieces)
        except BadInput as wrong:
            raise wrong.at(f"{name}:{number}") from None
        answers.append(answer)
    if pieces and len(answers) % pieces:
        beam, piece = divmod(len(answers), pieces)
        wrong = BadInput(f"the report ends here, expected beam={beam} piece={piece}")
        raise wrong.at(f"{name}:{len(answers) + 2}")
    return Report(pieces, tuple(answers))


def read_answer(line: str) -> Answer:
    """The answer on a line."""
    match = ANSWER.fullmatch(line)
    if not match:
        raise BadInput(f"expected beam=, piece= and what they met, found {quoted(line)}")
    beam, piece, refused, looked, t, u, v = match.groups()
    if refused is not None:
        if int(refused) not in OF_BEAM:
            raise BadInput(f"expected a refusal of a beam, found {refused}")
        return Answer(int(beam), int(piece), refused=int(refused))
    if t is None:
        return Answer(int(beam), int(piece), int(looked))
    if float_of_bits(int(u, 16)) < 0 or float_of_bits(int(u, 16)) > 1:
        raise BadInput(f"expected u from 0 to 1, found u={u}")
    return Answer(int(beam), int(piece), int(looked), Hit(int(t, 16), int(u, 16), int(v, 16)))


def check_order(answer: Answer, place: int, pieces: int) -> None:
    """Refuses an answer that is not the next."""
    if pieces == 0:
        raise BadInput("expected the end, since there are no pieces")
    beam, piece = divmod(place, pieces)
    if beam == MOST_BEAMS:
        raise BadInput(f"expected the end, since there are at most {MOST_BEAMS} beams")
    if (answer.beam, answer.piece) != (beam, piece):
        raise BadInput(
            f"expected beam={beam} piece={piece}, found beam={answer.beam} piece={answer.piece}"
        )
