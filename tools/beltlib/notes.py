"""What is written under the plan: how to read it, and what it cannot show."""

from beltlib.beams import away_text
from beltlib.labels import wrapped
from beltlib.layout import Layout
from beltlib.numbering import beams_text
from beltlib.svg import Flat, text
from beltlib.words import counted

ROW = 16.0
SIDE = """\
A flat belt turns its width to every beam, from whichever side it comes: this side view shows the \
belt as wide as the plan from above does."""
ORIGINS = "Origins outside, by beam, with their distance from the edge:"


def draw_notes(notes: list[str], corner: Flat, width: float) -> tuple[list[str], float]:
    """The elements of notes whose upper left corner is given, and their height."""
    lines = [line for note in notes for line in wrapped(note, width)]
    parts = [
        text((corner[0], corner[1] + ROW * i), line, "key", "start")
        for i, line in enumerate(lines, start=1)
    ]
    return parts, ROW * len(lines)


def notes_of(layout: Layout, left_out: int, listed: bool) -> list[str]:
    """The notes of a plan on which so many labels found no room, or whose hits are listed."""
    notes = []
    if layout.belt.pieces and layout.plane.is_side():
        notes.append(SIDE)
    if listed:
        notes += beam_notes(layout)
    if layout.outside:
        notes.append(f"Outside the plan: {beams_text(layout.outside)}.")
    if left_out:
        notes.append(f"No room for {counted(left_out, 'label')}; belt show lists every hit.")
    return notes


def beam_notes(layout: Layout) -> list[str]:
    """What labels would tell of beams beside their hits."""
    alike: dict[str, list[int]] = {}
    for trace in layout.traces:
        if trace.kind == "miss":
            alike.setdefault("Misses", []).append(trace.beam)
        for number in trace.refusals:
            alike.setdefault(f"Refused {number}", []).append(trace.beam)
    notes = [f"{words}: {beams_text(beams)}." for words, beams in alike.items()]
    away = [f"{t.beam}: {away_text(t.away)}" for t in layout.traces if t.away is not None]
    # A number stays with its beam and its unit.
    origins = ", ".join(words.replace(" ", "\u00a0") for words in away)
    return notes + ([f"{ORIGINS} {origins}."] if away else [])
