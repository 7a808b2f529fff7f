"""The plan in words: its heading, a line of numbers, and what it shows of each beam."""

from pathlib import PurePath

from beltlib.beams import whence
from beltlib.curve import Belt
from beltlib.labels import text_width
from beltlib.layout import Layout
from beltlib.marks import height_text, length_text, told_of
from beltlib.words import counted

VIEWS = {"xy": "seen from above", "xz": "seen from the front", "yz": "seen from the side"}
SUFFIXES = (".sheet", ".belt")

# The heading's letters are bold and larger than those of labels.
LARGER = 1.35


def heading_of(name: str, plane_name: str, width: float) -> str:
    """The heading, with the sheet's name where there is one, in a width."""
    if not name:
        return f"Belt {VIEWS[plane_name]}"
    rest = f": belt {VIEWS[plane_name]}"
    return shortened(sheet_title(name), width / LARGER - text_width(rest)) + rest


def sheet_title(name: str) -> str:
    """A sheet's name: that of its file, without what an SVG cannot hold."""
    last = PurePath(name).name
    for suffix in SUFFIXES:
        last = last.removesuffix(suffix)
    return "".join(letter if letter.isprintable() else "?" for letter in last)


def shortened(words: str, width: float) -> str:
    """Words, cut off where they are wider than this."""
    if text_width(words) <= width:
        return words
    while words and text_width(f"{words}...") > width:
        words = words[:-1]
    return f"{words}..."


def summary(layout: Layout) -> str:
    """The plan in numbers."""
    belt = layout.belt
    parts = [counted(belt.pieces, "piece"), f"{length_text(belt.length, belt.length)} long"]
    if belt.segments:
        parts.append(widths_text(belt))
    parts.append(counted(len(layout.traces) + len(layout.outside), "beam"))
    if layout.report:
        parts.append(counted(len(layout.marks), "hit"))
    return ", ".join(parts)


def widths_text(belt: Belt) -> str:
    """The belt's width, or both where it changes."""
    start, end = belt.segments[0].width0, belt.segments[-1].width1
    return width_text(start) if start == end else f"{start:.4g} to {width_text(end)}"


def width_text(width: float) -> str:
    """A width to four places."""
    return f"{width:.4g} m wide"


def end_texts(belt: Belt) -> list[tuple[str, ...]]:
    """What is told of the belt's start and of its end: the metre, the height and the width."""
    first, last, size = belt.segments[0], belt.segments[-1], belt.length
    start = f"start, {height_text(first.point(0.0)[2], size)}"
    end = f"end, {length_text(size, size)}, {height_text(last.point(1.0)[2], size)}"
    return [(start, width_text(first.width0)), (end, width_text(last.width1))]


def description(layout: Layout) -> str:
    """What the plan shows of each beam, in words."""
    sentences = ["The belt is drawn with its width, to scale."]
    if layout.belt.segments:
        sentences += [f"{', '.join(words).capitalize()}." for words in end_texts(layout.belt)]
    for trace in layout.traces:
        name = f"Beam {trace.beam}"
        if trace.away is not None:
            sentences.append(f"{name} comes {whence(trace)}.")
        if hits := layout.hits_of(trace.beam):
            told = told_of(hits, layout.several(trace.beam))
            sentences += [f"{name}{words}." for words in told]
        if trace.kind == "miss":
            sentences.append(f"{name} misses.")
        if trace.kind == "refused":
            sentences.append(f"{name} is refused.")
    return " ".join(sentences)
