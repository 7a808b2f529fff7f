"""What a plan shows, and where it lies on the page."""

import math
from dataclasses import replace
from itertools import groupby, pairwise

from beltlib.beams import origins_of, trace_of
from beltlib.curve import Belt, values
from beltlib.labels import between
from beltlib.marks import Mark, marks_of
from beltlib.page import Page
from beltlib.plan import Box, Cut, Plane, box_around
from beltlib.report import Report
from beltlib.sheet import Sheet
from beltlib.svg import Flat

# Ends of pieces that lie nearer than this on the page cannot be told apart.
END_SPACE = 7.0


class Layout:
    """The belt, its beams and its hits on a page."""

    def __init__(self, sheet: Sheet, belt: Belt, report: Report | None, plane: Plane) -> None:
        self.belt = belt
        self.report = report
        self.plane = plane
        self.points = [plane.project(values(point)) for point in sheet.points]
        self.cuts = plane.cuts(belt)
        hits = marks_of(sheet, belt, plane, report) if report else []
        self.page = Page(self.extent(hits, origins_of(sheet, plane)))
        self.marks = [replace(mark, at=self.page.at(mark.at)) for mark in hits]
        self.by_beam = {
            beam: list(marks) for beam, marks in groupby(self.marks, lambda mark: mark.beam)
        }
        beams = range(len(sheet.beams))
        traces = [trace_of(sheet, beam, plane, self.page, report) for beam in beams]
        self.traces = [trace for trace in traces if trace]
        self.outside = [beam for beam, trace in zip(beams, traces) if not trace]

    def extent(self, hits: list[Mark], starts: list[Flat]) -> Box:
        """The belt, its points and hits, and the beams' origins that are not far from them."""
        edges = [cut.side(sign) for cut in self.cuts for sign in (1, -1)]
        known = self.points + edges + self.disc() + [mark.at for mark in hits]
        near = box_around(known)
        room = near.grown(max(near.size()))
        return box_around(known + [start for start in starts if room.holds(start)])

    def disc(self) -> list[Flat]:
        """The corners around a belt that is only a point in the plane."""
        if not self.is_point():
            return []
        (x, y), half = self.points[0], self.widest() / 2
        return [(x - half, y - half), (x + half, y + half)]

    def is_point(self) -> bool:
        """Whether the belt is only a point in the plane."""
        return bool(self.belt.segments) and not self.cuts

    def widest(self) -> float:
        """The greater of the belt's widths at its two ends."""
        return max(self.belt.segments[0].width0, self.belt.segments[-1].width1)

    def hits_of(self, beam: int) -> list[Mark]:
        """The hits of a beam, in their order along it."""
        return self.by_beam.get(beam, [])

    def several(self, beam: int) -> bool:
        """Whether a beam has hits in several places."""
        return any(mark.order > 1 for mark in self.hits_of(beam))

    def line_points(self) -> list[Flat]:
        """Points on the belt's lines, which labels had better not cover."""
        places = [
            point for cut in self.cuts for point in (cut.side(1), cut.middle, cut.side(-1))
        ]
        return self.page.all(places + self.points)

    def beam_points(self) -> list[Flat]:
        """Points on the beams, which labels had still better not cover."""
        rays = [(trace.start, trace.end) for trace in self.traces if trace.end]
        return [point for start, end in rays for point in between(start, end)]

    def end_stride(self) -> int:
        """How many pieces lie from one end that is shown to the next."""
        middles = self.page.all([cut.middle for cut in self.cuts])
        run = sum(math.dist(a, b) for a, b in pairwise(middles))
        stride = 1
        while stride < self.belt.pieces and run * stride < END_SPACE * self.belt.pieces:
            stride *= 2
        return stride

    def ends(self) -> list[Cut]:
        """The ends between pieces that are shown, where the belt has a direction in the plane."""
        per_segment, stride = self.belt.pieces_per_segment, self.end_stride()
        pieces = range(stride, self.belt.pieces, stride)
        places = [(piece // per_segment, piece % per_segment / per_segment) for piece in pieces]
        cuts = (self.plane.cut(self.belt, segment, u, None) for segment, u in places)
        return [cut for cut in cuts if cut]
