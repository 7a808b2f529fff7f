"""A report as records with fixed names, as CSV and as JSON."""

import csv
import io
import json
import math
from typing import Iterable

from beltlib.floats import shortest_decimal
from beltlib.places import PLACE_HEAD, FindPlace
from beltlib.refusals import REASONS
from beltlib.report import Answer, RefusedSheet, Report

Record = dict[str, int | str | None]

FLOATS = ("t", "u", "v")
FIELDS = (
    "beam", "piece", "result", "refused", "reason", "line", "looked",
    *FLOATS, *(f"{name}_bits" for name in FLOATS), *PLACE_HEAD,
)
NUMBERS = FLOATS + PLACE_HEAD

FIELDS_HELP = """\
--csv has a line of names and one for each beam and piece, misses too; --json has the same as
"answers" behind "pieces", "beams", and "refused", "reason" and "line" of a refused sheet, which
is in CSV a line without a beam:

  beam, piece              from 0
  result                   hit, miss or refused
  refused, reason, line    a refusal's number, why, and the wrong line of a sheet refused by 17
  looked                   at how many parts of the piece the search looked
  t, u, v                  of a hit, as the shortest decimals that read back to the same f32
  t_bits, u_bits, v_bits   the same as the report has them, eight hexadecimal digits
  metre, across, x, y, z   where the hit lies, if the sheet is known

What does not apply is empty in CSV and null in JSON, and so is in JSON what is not finite."""


def csv_text(report: Report | RefusedSheet, find_place: FindPlace | None = None) -> str:
    """The records as CSV, with their names in front."""
    out = io.StringIO()
    writer = csv.DictWriter(out, FIELDS, restval="", lineterminator="\n")
    writer.writeheader()
    writer.writerows(records_of(report, find_place))
    return out.getvalue()


def json_text(report: Report | RefusedSheet, find_place: FindPlace | None = None) -> str:
    """The records as JSON, each on a line."""
    whole = isinstance(report, Report)
    top = {"pieces": report.pieces, "beams": report.beams()} if whole else refused_sheet(report)
    names = ("pieces", "beams", "refused", "reason", "line")
    head = "".join(f"{json.dumps(name)}: {json.dumps(top.get(name))},\n" for name in names)
    answers = records_of(report, find_place) if whole else []
    lines = ",".join("\n" + json.dumps(in_json(record)) for record in answers)
    return f"{{\n{head}\"answers\": [{lines}]\n}}\n"


def in_json(record: Record) -> dict[str, int | float | str | None]:
    """A record with every name, and with numbers where it has decimals."""
    whole = {name: record.get(name) for name in FIELDS}
    return whole | {name: finite(whole[name]) for name in NUMBERS}


def finite(decimal: str | None) -> float | None:
    """The number of a decimal; JSON has no infinity and no NaN."""
    number = math.nan if decimal is None else float(decimal)
    return number if math.isfinite(number) else None


def records_of(
    report: Report | RefusedSheet, find_place: FindPlace | None
) -> Iterable[Record]:
    """A record for each answer, or one for a refused sheet."""
    if isinstance(report, RefusedSheet):
        return [refused_sheet(report)]
    return (record_of(answer, find_place) for answer in report.answers)


def refused_sheet(report: RefusedSheet) -> Record:
    """The record of a refused sheet."""
    return {"result": "refused", "line": report.line or None} | refusal(report.number)


def refusal(number: int) -> Record:
    """What a record says of a refusal."""
    return {"refused": number, "reason": REASONS[number]}


def record_of(answer: Answer, find_place: FindPlace | None) -> Record:
    """The record of an answer."""
    start = {"beam": answer.beam, "piece": answer.piece, "result": answer.result()}
    if answer.refused is not None:
        return start | refusal(answer.refused)
    start["looked"] = answer.looked
    if answer.hit is None:
        return start
    hit = {name: getattr(answer.hit, name) for name in FLOATS}
    decimals = {name: shortest_decimal(bits) for name, bits in hit.items()}
    exact = {f"{name}_bits": f"{bits:08x}" for name, bits in hit.items()}
    place = zip(PLACE_HEAD, find_place(answer)) if find_place else ()
    return start | decimals | exact | dict(place)
