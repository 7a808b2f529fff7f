"""A report as a table in decimal."""

from itertools import groupby
from typing import Iterable

from beltlib.floats import shortest_decimal
from beltlib.places import PLACE_HEAD, Cells, FindPlace
from beltlib.refusals import refused
from beltlib.report import Answer, RefusedSheet, Report
from beltlib.sheet import expected_on
from beltlib.words import counted

HEAD = ("beam", "piece", "looked", "result", "t", "u", "v")
RESULT = HEAD.index("result")


def refused_sheet_text(report: RefusedSheet) -> str:
    """A refused sheet in a sentence, with what belongs on the line that is wrong."""
    text = f"The sheet is {refused(report.number)}."
    if report.line:
        text += f" Line {report.line}: expected {expected_on(report.line)}."
        text += " Each line, the last too, is ended by a line feed (LF) alone."
    return text + "\n"


def report_text(report: Report, every: bool, find_place: FindPlace | None = None) -> str:
    """The table and a line for each beam."""
    rows = list(rows_of(report, every, find_place))
    head = HEAD + (PLACE_HEAD if find_place else ())
    table = [*aligned(head, rows), ""] if rows else []
    count = f"{counted(report.beams(), 'beam')} on {counted(report.pieces, 'piece')}"
    return "".join(line + "\n" for line in [*table, *summaries(report), count])


def rows_of(report: Report, every: bool, find_place: FindPlace | None) -> Iterable[Cells]:
    """The cells of the hits and refusals, or of every answer."""
    for (_, number), group in groupby(report.answers, lambda answer: (answer.beam, answer.refused)):
        answers = list(group)
        if number is None:
            told = (answer for answer in answers if answer.hit or every)
            yield from (answer_cells(answer, find_place) for answer in told)
        elif every:
            yield from (refused_cells([answer]) for answer in answers)
        else:
            yield refused_cells(answers)


def refused_cells(answers: list[Answer]) -> Cells:
    """One row for neighbouring pieces that are refused alike."""
    first, last = answers[0], answers[-1]
    pieces = f"{first.piece}" if first is last else f"{first.piece}-{last.piece}"
    return str(first.beam), pieces, "", refused(first.refused)


def answer_cells(answer: Answer, find_place: FindPlace | None) -> Cells:
    """A miss, or a hit and where it lies if that can be found."""
    start = (str(answer.beam), str(answer.piece), str(answer.looked), answer.result())
    if answer.hit is None:
        return start
    found = tuple(map(shortest_decimal, (answer.hit.t, answer.hit.u, answer.hit.v)))
    return start + found + (find_place(answer) if find_place else ())


def aligned(head: Cells, rows: list[Cells]) -> list[str]:
    """Lines with numbers to the right; a result that ends its row may be longer than its column."""
    whole = [head] + [row for row in rows if len(row) == len(head)]
    short = [row[:RESULT] for row in rows]
    widths = [
        max(len(row[i]) for row in whole + short if i < len(row)) for i in range(len(head))
    ]
    return [line_of(row, widths) for row in [head, *rows]]


def line_of(row: Cells, widths: list[int]) -> str:
    """A row's cells, each in its column."""
    cells = [
        cell.ljust(width) if i == RESULT else cell.rjust(width)
        for i, (cell, width) in enumerate(zip(row, widths))
    ]
    return "  ".join(cells).rstrip()


def summaries(report: Report) -> Iterable[str]:
    """A line for each beam."""
    for beam in range(report.beams()):
        counts = report.counts(beam)
        parts = [counted(counts["hit"], "hit"), counted(counts["miss"], "miss", "misses")]
        if counts["refused"]:
            parts.append(f"{counts['refused']} refused")
        yield f"beam {beam}: {', '.join(parts)}"
