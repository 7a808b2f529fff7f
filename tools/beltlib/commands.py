"""The commands: files in, a text and an exit status out."""

from beltlib import drawing
from beltlib.curve import lay
from beltlib.errors import BadInput, Refused
from beltlib.files import display_name, read_text
from beltlib.hits import check_match
from beltlib.laying import check
from beltlib.places import FindPlace, places_on
from beltlib.program import find_program, report_of
from beltlib.records import csv_text, json_text
from beltlib.refusals import refused
from beltlib.report import RefusedSheet, Report, read_report
from beltlib.sheet import Sheet, read_decimal, read_sheet
from beltlib.table import refused_sheet_text, report_text

# More of a sheet in decimal, with its comments, or of a report is not read.
MOST_OF_SHEET = 1 << 20
MOST_OF_REPORT = 1 << 23


def make(path: str) -> str:
    """The belt sheet of a sheet in decimal, if the library would not refuse it."""
    name, sheet = written_sheet(path)
    check(name, sheet)
    return sheet.text()


def show(path: str, sheet_path: str | None, form: str) -> tuple[str, int]:
    """A report in one of its forms, with places where the sheet is given."""
    name, report = stored_report(path)
    if sheet_path is None:
        return shown(report, form, None)
    sheet_name, text = display_name(sheet_path), finished_text(sheet_path)
    try:
        sheet = read_sheet(sheet_name, text)
        belt = lay(sheet_name, sheet)
    except BadInput as wrong:
        if isinstance(report, RefusedSheet):
            return shown(report, form, None, f"{wrong}\n")
        raise
    check_match(name, report, sheet_name, sheet, belt)
    return shown(report, form, places_on(sheet, belt))


def draw(sheet_path: str, path: str | None, plane: str) -> str:
    """The plan of a sheet, with hits where its report is given."""
    sheet_name = display_name(sheet_path)
    sheet = read_sheet(sheet_name, finished_text(sheet_path))
    belt = lay(sheet_name, sheet)
    if path is None:
        return drawing.draw(sheet, belt, None, plane, sheet_name)
    name, report = stored_report(path)
    check_match(name, report, sheet_name, sheet, belt)
    return drawing.draw(sheet, belt, report, plane, sheet_name)


def run(path: str, program: str | None, form: str, plane: str | None) -> tuple[str, str, int]:
    """A sheet through beltbeam: its report in a form, and its plan where a plane is given."""
    sheet_name, sheet = written_sheet(path)
    belt = lay(sheet_name, sheet)
    program = find_program(program)
    name = f"the report of {program}"
    report = read_report(name, report_of(program, sheet.text()))
    if isinstance(report, RefusedSheet):
        text, status = shown(report, form, None)
        return text, "", status
    check_match(name, report, sheet_name, sheet, belt)
    text, status = shown(report, form, places_on(sheet, belt))
    plan = drawing.draw(sheet, belt, report, plane, sheet_name) if plane else ""
    return text, plan, status


def written_sheet(path: str) -> tuple[str, Sheet]:
    """A sheet as its user writes it and how messages name it."""
    name = display_name(path)
    more = Refused(f"{refused(18)}; this one has over {MOST_OF_SHEET:,} as it is")
    return name, read_decimal(name, read_text(path, MOST_OF_SHEET, more))


def finished_text(path: str) -> str:
    """The text of a finished sheet."""
    return read_text(path, MOST_OF_SHEET, Refused(refused(18)))


def stored_report(path: str) -> tuple[str, Report | RefusedSheet]:
    """A report and how messages name it."""
    name = display_name(path)
    more = BadInput(f"expected a report, found over {MOST_OF_REPORT:,} bytes")
    return name, read_report(name, read_text(path, MOST_OF_REPORT, more))


def shown(
    report: Report | RefusedSheet, form: str, find_place: FindPlace | None, more: str = ""
) -> tuple[str, int]:
    """A report in one of its forms, with more words where it is a sentence, and the exit status."""
    status = 1 if report.has_refusal() else 0
    if form == "csv":
        return csv_text(report, find_place), status
    if form == "json":
        return json_text(report, find_place), status
    if isinstance(report, RefusedSheet):
        return refused_sheet_text(report) + more, status
    return report_text(report, form == "all", find_place), status
