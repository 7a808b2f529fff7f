"""What is written beside beams and hits: all of it, or only numbers where a list has the rest."""

import math
from typing import Callable, Iterable, TypeVar

from beltlib.beams import Trace, whence
from beltlib.labels import Label, wrapped
from beltlib.layout import Layout
from beltlib.marks import MOST_TOLD, Mark, told_of
from beltlib.numbering import beams_text, ranges
from beltlib.signs import RING
from beltlib.svg import Flat

# Hits of a beam that lie nearer than this share a label, and so do numbers that lie nearer.
NEAR = 24.0
NEAR_NUMBERS = 10.0
NUMBERS_WIDTH = 110.0

T = TypeVar("T")


def full_labels(layout: Layout) -> list[Label]:
    """The hits of each beam, then the beams where they start."""
    hits = [label for trace in layout.traces for label in hit_labels(layout, trace)]
    return hits + start_labels(layout)


def hit_labels(layout: Layout, trace: Trace) -> list[Label]:
    """A beam's hits, with the beam's name where it starts there."""
    labels = []
    for cluster in clusters(layout, trace):
        anchor = cluster[0].at
        name = f"beam {trace.beam}" if is_start(trace, anchor) else f"{trace.beam}"
        first, *rest = told_of(cluster, layout.several(trace.beam))
        lines = (name + first, *(words.removeprefix(", ") for words in rest))
        labels.append(Label(anchor, lines))
    return labels


def start_labels(layout: Layout) -> list[Label]:
    """The beams' names at their starts, those that start at one place together."""
    unnamed = [trace for trace in layout.traces if not is_named(layout, trace)]
    labels = []
    for traces in near_to_each_other(unnamed, lambda trace: trace.start, RING):
        alike: dict[str, list[int]] = {}
        for trace in traces:
            alike.setdefault(ending(trace), []).append(trace.beam)
        lines = tuple(f"{beams_text(beams)}{words}" for words, beams in alike.items())
        labels.append(Label(traces[0].start, lines))
    return labels


def ending(trace: Trace) -> str:
    """What stands behind a beam's name at its start."""
    words = f" {whence(trace)}" if trace.away is not None else ""
    if trace.kind == "refused":
        return f"{words}: refused {ranges(list(trace.refusals))}"
    return f"{words}: miss" if trace.kind == "miss" else words


def is_named(layout: Layout, trace: Trace) -> bool:
    """Whether a beam needs no words at its start, since a hit there has its name."""
    at_start = any(is_start(trace, cluster[0].at) for cluster in clusters(layout, trace))
    return at_start and not ending(trace)


def is_start(trace: Trace, point: Flat) -> bool:
    """Whether a point cannot be told from a beam's start."""
    return math.dist(point, trace.start) < RING


def clusters(layout: Layout, trace: Trace) -> list[list[Mark]]:
    """The hits of a beam, those near to each other together."""
    return near_to_each_other(layout.hits_of(trace.beam), lambda mark: mark.at, NEAR)


def number_labels(layout: Layout) -> list[Label]:
    """The numbers of the beams where they start, and at the first hits of each."""
    places = [(trace.start, trace.beam) for trace in layout.traces]
    places += [(mark.at, mark.beam) for mark in layout.marks if mark.order <= MOST_TOLD]
    labels = []
    for near in near_to_each_other(places, lambda place: place[0], NEAR_NUMBERS):
        beams = sorted({beam for _, beam in near})
        labels.append(Label(near[0][0], tuple(wrapped(ranges(beams), NUMBERS_WIDTH))))
    return labels


def near_to_each_other(
    things: Iterable[T], place: Callable[[T], Flat], distance: float
) -> list[list[T]]:
    """Things in groups, each nearer than a distance to the first of its group."""
    groups: list[list[T]] = []
    for thing in things:
        near = (one for one in groups if math.dist(place(one[0]), place(thing)) < distance)
        home = next(near, None)
        if home is None:
            groups.append([thing])
        else:
            home.append(thing)
    return groups
