"""A plan of the belt, its beams and its hits, as SVG."""

from xml.sax.saxutils import escape

from beltlib.beam_labels import full_labels, number_labels
from beltlib.beams import draw_trace
from beltlib.curve import Belt
from beltlib.heading import description, end_texts, heading_of, summary
from beltlib.labels import Label, Labels, square
from beltlib.layout import Layout
from beltlib.legend import draw_legend
from beltlib.listing import draw_list
from beltlib.marks import draw_marks
from beltlib.notes import draw_notes, notes_of
from beltlib.page import AXIS, RIGHT, TOP, axes
from beltlib.plan import Plane, band
from beltlib.report import Report
from beltlib.sheet import Sheet
from beltlib.signs import HIT, RING, STYLE, arrow_head
from beltlib.svg import Flat, circle, element, group, line, number, path, polygons, text

# Where there are more beams or labels, a list tells the hits, and the plan has only numbers.
MOST_BEAMS, MOST_LABELS = 20, 100


def draw(
    sheet: Sheet, belt: Belt, report: Report | None, plane_name: str, name: str = ""
) -> str:
    """The plan as the text of an SVG file, with the name of the sheet's file where it is given."""
    layout = Layout(sheet, belt, report, Plane(plane_name))
    page = layout.page
    heading = heading_of(name, plane_name, page.width)
    labels, left_out, listed = labels_layer(layout)
    left, foot = page.frame.low[0], page.frame.high[1] + AXIS
    legend, height = draw_legend(layout, listed, (left, foot), page.width)
    foot += height
    notes, height = draw_notes(notes_of(layout, left_out, listed), (left, foot), page.width)
    foot += height
    below, height = draw_list(layout, (left, foot), page.width) if listed else ([], 0.0)
    size = (left + page.width + RIGHT, foot + height + 12)
    return svg(size, [
        element("title", escape(f"{heading}: {summary(layout)}"), id="title"),
        element("desc", escape(description(layout)), id="desc"),
        element("style", STYLE),
        element("rect", width=size[0], height=size[1], class_="page"),
        text((left, TOP - 34), heading, "heading", "start"),
        text((left, TOP - 14), summary(layout), "summary", "start"),
        axes(page, layout.plane.names),
        belt_layer(layout),
        group("beams", [draw_trace(trace) for trace in layout.traces]),
        group("hits", draw_marks(layout.marks)),
        group("labels", labels),
        group("legend", legend),
        group("notes", notes + below),
    ])


def svg(size: Flat, parts: list[str]) -> str:
    """The whole file."""
    width, height = map(number, size)
    whole = element(
        "svg",
        "\n" + "".join(part + "\n" for part in parts),
        xmlns="http://www.w3.org/2000/svg",
        width=width,
        height=height,
        viewBox=f"0 0 {width} {height}",
        role="img",
        aria_labelledby="title desc",
    )
    return whole + "\n"


def belt_layer(layout: Layout) -> str:
    """The belt, the ends of its pieces, its middle line, its way and its control points."""
    page = layout.page
    # The rim is drawn first: the belt then covers what would be lines inside it.
    covers = [page.all(polygon) for polygon in band(layout.cuts)]
    parts = [polygons(covers, class_) for class_ in ("rim", "belt") if covers]
    if layout.is_point():
        middle, radius = page.at(layout.points[0]), layout.widest() / 2 * page.scale
        parts += [circle(middle, radius, class_) for class_ in ("rim", "belt")]
    parts += [line(page.at(cut.side(1)), page.at(cut.side(-1)), "end") for cut in layout.ends()]
    if layout.cuts:
        parts.append(path(page.all([cut.middle for cut in layout.cuts]), "middle"))
    points = page.all(layout.points)
    knots = [circle(point, 2.0, "knot") for point in points]
    return group("plan", [*parts, *way(layout), path(points, "control"), *knots])


def way(layout: Layout) -> list[str]:
    """Arrows on the middle line that say which way the metres run."""
    wanted = [layout.belt.length * eighths / 8 for eighths in (1, 3, 5, 7)]
    cuts = [next((cut for cut in layout.cuts if cut.metre >= metre), None) for metre in wanted]
    return [
        arrow_head(layout.page.at(cut.middle), (cut.along[0], -cut.along[1]), "way")
        for cut in cuts
        if cut
    ]


def labels_layer(layout: Layout) -> tuple[list[str], int, bool]:
    """All labels, how many found no room, and whether a list must tell what they leave unsaid."""
    parts = told_in_plan(layout)
    if parts is not None:
        return parts, 0, False
    return *placed(layout, end_labels(layout) + number_labels(layout)), True


def told_in_plan(layout: Layout) -> list[str] | None:
    """The labels that tell everything, or None where they are too many or find no room."""
    if len(layout.traces) > MOST_BEAMS:
        return None
    wanted = full_labels(layout) + end_labels(layout)
    parts, left_out = placed(layout, wanted) if len(wanted) <= MOST_LABELS else ([], len(wanted))
    return None if left_out else parts


def placed(layout: Layout, wanted: list[Label]) -> tuple[list[str], int]:
    """Labels, the first of which get the best places, and how many found no room."""
    # Marks in one pixel take the same room.
    pixels = {(round(mark.at[0]), round(mark.at[1])) for mark in layout.marks}
    marks = [square(pixel, HIT + 0.5) for pixel in sorted(pixels)]
    marks += [square(trace.start, RING) for trace in layout.traces]
    labels = Labels(layout.page.frame, marks, layout.line_points(), layout.beam_points())
    return [part for label in wanted for part in labels.place(label)], labels.left_out


def end_labels(layout: Layout) -> list[Label]:
    """What is told of the belt's start and end."""
    if not layout.belt.segments:
        return []
    places = [cut.middle for cut in layout.cuts] or layout.points
    anchors = layout.page.all([places[0], places[-1]])
    return [Label(at, words) for at, words in zip(anchors, end_texts(layout.belt))]
